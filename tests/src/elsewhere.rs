//! Calls of every kind with their answers, by the other implementation alone, for tests/elsewhere.c on processors that this program does not run on.
use crate::cases::{Call, Called, Case, Sample, Seed};
use crate::inputs;
use crate::library::{lent, Lent, Mark};
use crate::random::Random;
use crate::sample::Tables;
use crate::stream::Record;
use crate::{intervals, legs, listings, marks, misses, plays, wide, windows};
use std::path::Path;

/// A call by its name without `jabulghi_`, the number that it returns, the numbers that it is passed, and its lent memory before and after.
pub struct Written {
    name: &'static str,
    number: u32,
    numbers: Vec<u64>,
    memory: Vec<(Vec<u8>, Vec<u8>)>,
}

impl Written {
    pub fn new(name: &'static str, number: u32, numbers: &[u64]) -> Written {
        Written { name, number, numbers: numbers.to_vec(), memory: Vec::new() }
    }

    pub fn lent<T: Mark>(mut self, before: &Lent<T>, after: &Lent<T>) -> Written {
        self.memory.push((before.bytes(), after.bytes()));
        self
    }

    /// A length of one byte or two before what has that length; of memory that changes the bytes before, then each run of others as its place, its
    /// length and its bytes. All numbers have their lowest byte first.
    fn bytes(&self) -> Vec<u8> {
        let mut out = vec![self.name.len() as u8];
        out.extend(self.name.bytes());
        out.extend(self.number.to_le_bytes());
        out.push(self.numbers.len() as u8);
        out.extend(self.numbers.iter().flat_map(|n| n.to_le_bytes()));
        out.push(self.memory.len() as u8);
        for (before, after) in &self.memory {
            let short = |n: usize| u16::try_from(n).expect("memory of less than 65,536 bytes").to_le_bytes();
            out.extend(short(before.len()));
            out.extend(before);
            let runs = runs(before, after);
            out.extend(short(runs.len()));
            for (start, end) in runs {
                out.extend(short(start).into_iter().chain(short(end - start)));
                out.extend(&after[start..end]);
            }
        }
        out
    }
}

/// The runs of bytes that are not the same, each by its start and its end.
fn runs(before: &[u8], after: &[u8]) -> Vec<(usize, usize)> {
    let mut runs: Vec<(usize, usize)> = Vec::new();
    for j in (0..before.len()).filter(|&j| before[j] != after[j]) {
        match runs.last_mut() {
            Some((_, end)) if *end == j => *end = j + 1,
            _ => runs.push((j, j + 1)),
        }
    }
    runs
}

fn seed(tables: &Tables, random: &mut Random) -> Written {
    let seeds = inputs::seeds(random);
    let (number, record) = Seed(seeds).other(tables);
    Written::new("seed", number, &seeds.map(u64::from)).lent(&Lent::marked(10), &record)
}

fn sample(tables: &Tables, random: &mut Random) -> Written {
    let (k, v) = (inputs::k(random), inputs::v(random));
    let (number, samples) = Sample(k, v).other(tables);
    Written::new("sample", number, &[k, v.into()]).lent(&Lent::marked(2), &samples)
}

/// One of less than 4000 bytes.
pub fn short<T>(make: impl FnMut() -> T, length: impl Fn(&T) -> usize) -> T {
    std::iter::repeat_with(make).find(|made| length(made) < 4000).unwrap()
}

/// A record for a call that takes a request, or for one that waits until none is open; one in three is of any kind.
pub fn record(random: &mut Random, takes: bool) -> Record {
    let any = inputs::noted(random, 20);
    match (random.one_in(3), takes) {
        (true, _) => any,
        (false, true) => Record { open: 1, asked: random.below(100) as u32, ..any },
        (false, false) => Record { open: 0, asked: 0, ..any },
    }
}

/// The length of a block, mostly even; of one that is to be taken, mostly two for each pair that was asked for.
pub fn length(random: &mut Random, record: &Record, takes: bool) -> usize {
    if takes && record.asked < 400 && !random.one_in(5) {
        return 2 * record.asked as usize;
    }
    2 * random.below(100) + usize::from(random.one_in(6))
}

/// A call on a record.
fn called(tables: &Tables, random: &mut Random) -> Written {
    let name = *random.of(&["pair", "block", "block", "look", "take", "take", "skip", "ask", "give_up"]);
    let takes = name == "take" || name == "give_up";
    let record = record(random, takes);
    let length = length(random, &record, takes);
    let asked = [random.below(30) as u32, 1_000_000, 1_000_001, random.number(32) as u32][random.below(4)];
    let skipped = inputs::n(random);
    let (n, call) = match name {
        "pair" => (0, Call::Pair),
        "block" => (length as u64, Call::Block(length)),
        "look" => (length as u64, Call::Look(length)),
        "take" => (length as u64, Call::Take(length)),
        "ask" => (asked.into(), Call::Ask(asked)),
        "give_up" => (0, Call::GiveUp),
        _ => (skipped, Call::Skip(skipped)),
    };
    let (number, next, out) = Called(record, call).other(tables);
    Written::new(name, number, &[n]).lent(&lent(&record), &next).lent(&Lent::marked(call.length()), &out)
}

/// Writes them all into a file, and tells how many there are.
pub fn write(tables: &Tables, random: &mut Random, file: &Path) {
    type Kind = fn(&Tables, &mut Random) -> Written;
    let kinds: [(Kind, usize); 11] = [
        (seed, 200),
        (sample, 1000),
        (called, 3000),
        (wide::elsewhere, 2000),
        (windows::elsewhere, 60),
        (marks::elsewhere, 400),
        (listings::elsewhere, 300),
        (legs::elsewhere, 300),
        (misses::elsewhere, 300),
        (intervals::elsewhere, 300),
        (plays::elsewhere, 300),
    ];
    let mut out = Vec::new();
    for (kind, count) in kinds {
        (0..count).for_each(|_| out.extend(kind(tables, random).bytes()));
    }
    std::fs::write(file, out).unwrap();
    println!("{} calls", kinds.iter().map(|(_, count)| count).sum::<usize>());
}
