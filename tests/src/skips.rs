//! Skips: the library's beside drawing where that is possible, and for every n beside the power of x; two skips beside one; a block after
//! a skip beside the end of a longer one.
use crate::cases::{below, records, same, Call, Called, Case};
use crate::edges;
use crate::inputs;
use crate::jump;
use crate::library::{self, lent, record_of, Answer, Lent};
use crate::random::Random;
use crate::sample::Tables;
use crate::stream::{self, fresh, Note, Record};

/// A record and n, beside n pairs drawn one by one.
#[derive(Clone, Debug)]
struct SkipDrawn(Record, u64);
/// A record, m and n: m then n, n then m, and m + n where that fits. The other side skips those that are accepted as one.
#[derive(Clone, Debug)]
struct TwoSkips(Record, u64, u64);
/// A record that has room for m + n pairs: a skip of m and a block of n pairs, beside the last n of m + n pairs.
#[derive(Clone, Debug)]
struct BlockAfter(Record, usize, usize);

/// The same record with a smaller n, or a smaller record with n.
fn smaller(record: &Record, n: u64) -> Vec<(Record, u64)> {
    let lower = records(record).into_iter().map(|r| (r, n));
    below(n).into_iter().map(|m| (*record, m)).chain(lower).collect()
}

/// The number of a skip.
fn number(record: &Record, n: u64) -> u32 {
    stream::call(record, Note::NoneOpen, 0, n, |_| ()).0
}

impl Case for SkipDrawn {
    type Answer = Answer;
    fn library(&self) -> Answer {
        library::skip(&self.0, self.1)
    }
    fn other(&self, _: &Tables) -> Answer {
        let (number, next) = stream::drawn_on(&self.0, self.1);
        (number, lent(&next), Lent::holding(&[]))
    }
    fn smaller(&self) -> Vec<SkipDrawn> {
        smaller(&self.0, self.1).into_iter().map(|(r, n)| SkipDrawn(r, n)).collect()
    }
}

impl TwoSkips {
    fn orders(&self) -> Vec<Vec<u64>> {
        let TwoSkips(_, m, n) = *self;
        [vec![m, n], vec![n, m]].into_iter().chain(m.checked_add(n).map(|sum| vec![sum])).collect()
    }
}

impl Case for TwoSkips {
    /// The numbers of the skips, and the record at their end.
    type Answer = Vec<(Vec<u32>, Lent<u32>)>;
    fn library(&self) -> Self::Answer {
        let run = |skips: Vec<u64>| {
            let mut record = lent(&self.0);
            let mut skip = |n| {
                let (number, next, _) = library::skip(&record_of(&record), n);
                record = next;
                number
            };
            (skips.into_iter().map(&mut skip).collect(), record)
        };
        self.orders().into_iter().map(run).collect()
    }
    fn other(&self, _: &Tables) -> Self::Answer {
        let Record { registers, count, .. } = self.0;
        let run = |skips: Vec<u64>| {
            let mut sum = 0;
            let mut skip = |n| {
                let number = number(&Record { count: count + sum, ..self.0 }, n);
                sum += if number == 0 { n } else { 0 };
                number
            };
            let numbers = skips.into_iter().map(&mut skip).collect();
            (numbers, lent(&Record { registers: jump::ahead(&registers, sum), count: count + sum, ..self.0 }))
        };
        self.orders().into_iter().map(run).collect()
    }
    fn smaller(&self) -> Vec<TwoSkips> {
        let TwoSkips(record, m, n) = *self;
        let fewer = below(m).into_iter().map(|l| TwoSkips(record, l, n));
        fewer.chain(smaller(&record, n).into_iter().map(|(r, l)| TwoSkips(r, m, l))).collect()
    }
}

impl Case for BlockAfter {
    type Answer = Answer;
    fn library(&self) -> Answer {
        let (_, next, _) = library::skip(&self.0, self.1 as u64);
        library::block(&record_of(&next), 2 * self.2)
    }
    fn other(&self, tables: &Tables) -> Answer {
        let mut block = vec![0; 2 * (self.1 + self.2)];
        let (number, next) = stream::block(tables, &self.0, &mut block);
        (number, lent(&next), Lent::holding(&block[2 * self.1..]))
    }
    fn smaller(&self) -> Vec<BlockAfter> {
        let BlockAfter(record, m, n) = *self;
        let shorter = below(n as u64).into_iter().map(|l| BlockAfter(record, m, l as usize));
        let fewer = smaller(&record, m as u64).into_iter().filter(|(r, _)| stream::accepted(&r.registers));
        shorter.chain(fewer.map(|(r, l)| BlockAfter(r, l as usize, n))).collect()
    }
}

/// Each record of the edges by powers of two and their neighbours up to the most; by 0 to 3 and a million also drawn.
pub fn given(tables: &Tables) -> String {
    let powers = (0..64).flat_map(|e| [(1 << e) - 1, 1 << e, (1 << e) + 1]);
    let counts: Vec<u64> = powers.chain([1000, 1_000_000, u64::MAX - 1, u64::MAX]).collect();
    let records: Vec<Record> = edges::extremes().into_iter().map(fresh).collect();
    for &record in &records {
        for &n in &counts {
            same(tables, &Called(record, Call::Skip(n)));
        }
        for n in [0, 1, 2, 3, 1_000_000] {
            same(tables, &SkipDrawn(record, n));
        }
    }
    format!("{} skips of {} records at the edges, up to a million also drawn", counts.len(), records.len())
}

/// Any n beside the power of x.
pub fn skips(tables: &Tables, random: &mut Random) -> String {
    let (count, mut numbers) = (40_000, [0; 14]);
    for _ in 0..count {
        let n = inputs::n(random);
        numbers[same(tables, &Called(inputs::record(random, n), Call::Skip(n))).0 as usize] += 1;
    }
    for number in [0, 11, 12, 13] {
        assert!(numbers[number] >= 20, "only {} skips with number {number}", numbers[number]);
    }
    let refused = [11, 12, 13].map(|number| format!("{} with {number}", numbers[number])).join(", ");
    format!("{count} skips of up to 2^64 - 1 against the power of x; refused {refused}")
}

/// Many of some thousands, and a few of up to a million.
pub fn drawn(tables: &Tables, random: &mut Random) -> String {
    let (short, long) = (10_000, 30);
    for j in 0..short + long {
        let most = if j < short { 5_000 } else { 1_000_000 };
        let n = random.below(most + 1) as u64;
        same(tables, &SkipDrawn(inputs::record(random, n), n));
    }
    format!("{short} skips of up to 5000 and {long} of up to a million against drawing")
}

pub fn two(tables: &Tables, random: &mut Random) -> String {
    let (count, mut both) = (10_000, 0);
    for _ in 0..count {
        let (m, n) = (inputs::n(random), inputs::n(random));
        let record = inputs::record(random, m.saturating_add(n));
        both += usize::from(same(tables, &TwoSkips(record, m, n))[0].0 == [0, 0]);
    }
    format!("{count} skips of m then n, of n then m and of m + n, in {both} both accepted")
}

/// The longer block is the library's own too.
pub fn blocks(tables: &Tables, random: &mut Random) -> String {
    let (count, mut run) = (2_000, 0);
    while run < count {
        let (m, n) = (random.below(1000), random.below(300));
        let record = inputs::record(random, (m + n) as u64);
        if number(&record, (m + n) as u64) == 0 {
            same(tables, &Called(record, Call::Block(2 * (m + n))));
            same(tables, &BlockAfter(record, m, n));
            run += 1;
        }
    }
    format!("{count} blocks after a skip against the end of a longer block")
}
