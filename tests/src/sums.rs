//! Listings, whole and damaged, through the calls that sum the shots of their loop: east and north of one miss, or the lowest and the highest of each.
use crate::cases::{lines, without_one};
use crate::elsewhere::Written;
use crate::library::Lent;
use crate::misclosure::{Sums, SHOTS};
use crate::random::Random;
use crate::texts;
use std::fmt;

type Call =
    unsafe extern "C" fn(text: *const u8, length: usize, sums: *mut i64, millimetres: *mut i64, line: *mut u32) -> u32;

/// A listing, and how many sums its call has.
#[derive(Clone)]
pub struct Listing<const N: usize> {
    pub text: Vec<u8>,
}

impl<const N: usize> fmt::Debug for Listing<N> {
    fn fmt(&self, f: &mut fmt::Formatter) -> fmt::Result {
        write!(f, "\"{}\"", self.text.escape_ascii())
    }
}

impl<const N: usize> Listing<N> {
    pub fn through(&self, call: Call) -> Sums<N> {
        let (mut sums, mut rounded, mut line) = (Lent::marked(N), Lent::marked(N), Lent::marked(1));
        let number =
            unsafe { call(self.text.as_ptr(), self.text.len(), sums.pointer(), rounded.pointer(), line.pointer()) };
        assert!(
            sums.is_kept() && rounded.is_kept() && line.is_kept(),
            "memory beside what is lent was written for {self:?}"
        );
        (number, line.elements()[0], sums.elements().try_into().unwrap(), rounded.elements().try_into().unwrap())
    }

    /// Without one of its lines, or one of its first bytes.
    pub fn shorter(&self) -> Vec<Listing<N>> {
        let less = without_one(&lines(&self.text)).map(|lines| lines.concat()).collect::<Vec<_>>();
        less.into_iter().chain(without_one(&self.text).take(60)).map(|text| Listing { text }).collect()
    }
}

/// Lines in order with the count at the end.
pub fn headed(header: &str, rows: &[String]) -> String {
    format!("{header}{}END {}\n", rows.concat(), rows.len())
}

/// Shots that follow each other, with the numbers of each.
pub fn chain(numbers: impl Iterator<Item = String>) -> Vec<String> {
    numbers.enumerate().map(|(j, numbers)| format!("S{j} S{} {numbers}\n", j + 1)).collect()
}

/// A listing as it should be, from another station here and there, with a false count, with loose numbers in one of `loose`, or with some bytes changed in
/// one of `damaged`.
pub fn text(
    random: &mut Random,
    (loose, damaged): (usize, usize),
    header: impl Fn(&mut Random) -> &'static str,
    numbers: impl Fn(&mut Random, bool) -> String,
) -> Vec<u8> {
    let count = match random.below(40) {
        0 => *random.of(&[SHOTS - 1, SHOTS, SHOTS + 1]),
        1 | 2 => random.below(SHOTS + 1),
        _ => random.below(12),
    };
    let (loose, astray) = (random.one_in(loose), random.one_in(6));
    let mut station = texts::name(random);
    let mut out = header(random).to_string();
    for _ in 0..count {
        let (next, numbers) = (texts::name(random), numbers(random, loose));
        if astray && random.one_in(4) {
            station = if random.one_in(2) { station.to_lowercase() } else { texts::name(random) };
        }
        out += &format!("{station} {next} {numbers}\n");
        station = next;
    }
    let told = if random.one_in(10) { random.below(SHOTS + 2) } else { count };
    out += &format!("END {told}\n");
    let mut out = out.into_bytes();
    if random.one_in(damaged) {
        texts::damage(random, &mut out);
    }
    out
}

/// One call on a text, for other processors.
pub fn elsewhere<const N: usize>(
    name: &'static str,
    text: &[u8],
    (number, line, sums, millimetres): Sums<N>,
) -> Written {
    let written = Written::new(name, number, &[text.len() as u64]).lent(&Lent::holding(text), &Lent::holding(text));
    let written =
        written.lent(&Lent::marked(N), &Lent::holding(&sums)).lent(&Lent::marked(N), &Lent::holding(&millimetres));
    written.lent(&Lent::marked(1), &Lent::holding(&[line]))
}
