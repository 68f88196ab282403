//! Document 02, Job 8: samples of 18 bits, in the calls whose names end so. Numbers and records are those of the same call in 16 bits; the samples are
//! worked out afresh from the streams.
use crate::cases::{below, below_both, records, same, same_samples, Case};
use crate::elsewhere::{self, Written};
use crate::inputs;
use crate::library::{lent, record_of, Lent, Mark};
use crate::random::Random;
use crate::sample::Tables;
use crate::stream::{self, Record, A, B};

extern "C" {
    fn jabulghi_sample18(k: u64, v: u32, samples: *mut i32) -> u32;
    fn jabulghi_pair18(record: *mut u32, samples: *mut i32) -> u32;
    fn jabulghi_block18(record: *mut u32, block: *mut i32, length: usize) -> u32;
    fn jabulghi_look18(record: *const u32, block: *mut i32, length: usize) -> u32;
    fn jabulghi_take18(record: *mut u32, block: *mut i32, length: usize) -> u32;
}

impl Mark for i32 {
    fn mark(place: usize) -> i32 {
        (place as i32 + 1).wrapping_mul(0x5F356495)
    }
}

#[derive(Clone, Debug)]
struct Sample18(u64, u32);

impl Case for Sample18 {
    type Answer = (u32, Lent<i32>);
    fn library(&self) -> Self::Answer {
        let mut samples = Lent::marked(2);
        let number = unsafe { jabulghi_sample18(self.0, self.1, samples.pointer()) };
        (number, samples)
    }
    fn other(&self, tables: &Tables) -> Self::Answer {
        let (number, first, second) = tables.sample18(self.0, self.1);
        (number, Lent::holding(&[first, second]))
    }
    fn smaller(&self) -> Vec<Sample18> {
        below_both(self.0, self.1).map(|(k, v)| Sample18(k, v)).collect()
    }
}

/// The calls that are passed a record and lent so many elements.
#[derive(Clone, Copy, PartialEq, Debug)]
enum Kind {
    Pair,
    Block,
    Look,
    Take,
}

#[derive(Clone, Debug)]
struct Called18(Record, Kind, usize);

impl Called18 {
    /// The same call in 16 bits: its number and the next record.
    fn narrow(&self, tables: &Tables) -> (u32, Record) {
        let mut samples = vec![0; self.2];
        match self.1 {
            Kind::Pair => {
                let (number, _, next) = stream::pair(tables, &self.0);
                (number, next)
            }
            Kind::Block => stream::block(tables, &self.0, &mut samples),
            Kind::Look => stream::look(tables, &self.0, &mut samples),
            Kind::Take => stream::take(tables, &self.0, &mut samples),
        }
    }
}

impl Case for Called18 {
    type Answer = (u32, Lent<u32>, Lent<i32>);
    fn library(&self) -> Self::Answer {
        let (mut record, mut out) = (lent(&self.0), Lent::marked(self.2));
        let number = unsafe {
            match self.1 {
                Kind::Pair => jabulghi_pair18(record.pointer(), out.pointer()),
                Kind::Block => jabulghi_block18(record.pointer(), out.pointer(), self.2),
                Kind::Look => jabulghi_look18(record.pointer(), out.pointer(), self.2),
                Kind::Take => jabulghi_take18(record.pointer(), out.pointer(), self.2),
            }
        };
        (number, record, out)
    }
    fn other(&self, tables: &Tables) -> Self::Answer {
        let (number, next) = self.narrow(tables);
        let mut out = Lent::marked(self.2);
        if number == 0 {
            let mut registers = self.0.registers;
            for two in out.elements_mut().chunks_mut(2) {
                let (a, b) = (stream::step(&mut registers, A), stream::step(&mut registers, B));
                let (_, first, second) = tables.sample18(u64::from(a) * 65536 + u64::from(b / 65536), b % 65536);
                two.copy_from_slice(&[first, second]);
            }
        } else if self.1 == Kind::Pair {
            out = Lent::holding(&[0, 0]);
        }
        (number, lent(&next), out)
    }
    fn smaller(&self) -> Vec<Called18> {
        let shorter = if self.1 == Kind::Pair { Vec::new() } else { below(self.2 as u64) };
        let shorter = shorter.into_iter().map(|n| Called18(self.0, self.1, n as usize));
        shorter.chain(records(&self.0).into_iter().map(|record| Called18(record, self.1, self.2))).collect()
    }
}

/// One call, for other processors.
pub fn elsewhere(tables: &Tables, random: &mut Random) -> Written {
    if random.below(3) == 0 {
        let (k, v) = (inputs::k(random), inputs::v(random));
        let (number, samples) = Sample18(k, v).other(tables);
        return Written::new("sample18", number, &[k, v.into()]).lent(&Lent::marked(2), &samples);
    }
    let (name, kind) =
        *random.of(&[("pair18", Kind::Pair), ("block18", Kind::Block), ("look18", Kind::Look), ("take18", Kind::Take)]);
    let record = elsewhere::record(random, kind == Kind::Take);
    let length = if kind == Kind::Pair { 2 } else { elsewhere::length(random, &record, kind == Kind::Take) };
    let (number, next, out) = Called18(record, kind, length).other(tables);
    Written::new(name, number, &[length as u64]).lent(&lent(&record), &next).lent(&Lent::marked(length), &out)
}

/// Calls from k and v.
pub fn samples(tables: &Tables, random: &mut Random) -> String {
    assert_eq!(tables.sample18(0, 0), (0, 0, 67517), "the largest size is met");
    let (calls, refused) = same_samples(tables, random, 2_000_000, Sample18);
    format!("{calls} calls from k and v in 18 bits, {refused} refused")
}

/// Runs of pairs, blocks, looks and takes, each from the record that the one before left; a take's length is mostly that of the request, or beside it.
pub fn runs(tables: &Tables, random: &mut Random) -> String {
    let (runs, length) = (20_000, 10);
    let (mut samples, mut refused) = (0, [0; 17]);
    for _ in 0..runs {
        let pairs = random.below(100) as u64;
        let mut record = inputs::noted(random, pairs);
        for _ in 0..length {
            let kind = [Kind::Pair, Kind::Block, Kind::Look, Kind::Take][random.below(4)];
            let length = match kind {
                Kind::Pair => 2,
                Kind::Take if record.asked < 300 && random.below(4) > 0 => 2 * record.asked as usize,
                Kind::Take => (2 * record.asked as usize % 600 + random.below(3)).saturating_sub(1),
                _ if random.below(8) == 0 => random.below(3000),
                _ => random.below(140),
            };
            let (number, next, _) = same(tables, &Called18(record, kind, length));
            samples += if number == 0 { length } else { 0 };
            refused[number as usize] += 1;
            record = record_of(&next);
            if random.below(3) == 0 {
                record = Record { open: 1, asked: random.below(150) as u32, ..record };
            }
        }
    }
    assert!([4, 11, 12, 13, 14, 15, 16].into_iter().all(|n| refused[n] > 0), "every refusal came: {refused:?}");
    format!("{} calls on records in 18 bits, {samples} samples", runs * length)
}
