//! Test inputs come from this generator alone, so that a seed gives the same run again.

pub struct Random(pub u64);

impl Random {
    /// splitmix64
    pub fn next(&mut self) -> u64 {
        self.0 = self.0.wrapping_add(0x9E3779B97F4A7C15);
        let z = (self.0 ^ (self.0 >> 30)).wrapping_mul(0xBF58476D1CE4E5B9);
        let z = (z ^ (z >> 27)).wrapping_mul(0x94D049BB133111EB);
        z ^ (z >> 31)
    }

    pub fn below(&mut self, n: usize) -> usize {
        (self.next() % n as u64) as usize
    }

    pub fn one_in(&mut self, n: usize) -> bool {
        self.below(n) == 0
    }

    pub fn of<'a, T>(&mut self, choices: &'a [T]) -> &'a T {
        &choices[self.below(choices.len())]
    }

    /// A number of at most `bits` bits: of any size, near a power of two, with few bits set, or with few clear.
    pub fn number(&mut self, bits: u32) -> u64 {
        let mask = u64::MAX >> (64 - bits);
        let power = 1u64 << self.below(bits as usize);
        let number = match self.below(6) {
            0 => power.wrapping_add(self.next() % 5).wrapping_sub(2),
            1 => self.next() & self.next() & self.next(),
            2 => !(self.next() & self.next() & self.next()),
            3 => self.next() % power,
            _ => self.next(),
        };
        number & mask
    }
}
