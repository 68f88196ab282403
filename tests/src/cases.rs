//! What is compared: a case, both sides' answers to it, and the cases that are smaller.
use crate::inputs;
use crate::jump;
use crate::library::{self, lent, Answer, Lent, Sampled, Seeded};
use crate::random::Random;
use crate::sample::Tables;
use crate::stream::{self, draw_of, fresh, Record, Registers};
use std::fmt;

pub trait Case: Clone + fmt::Debug {
    type Answer: PartialEq + fmt::Debug;
    fn library(&self) -> Self::Answer;
    fn other(&self, tables: &Tables) -> Self::Answer;
    /// Smaller cases, those that leave out most first; each chain of them ends.
    fn smaller(&self) -> Vec<Self>;
}

/// Compares the two sides, and gives the library's answer. Where they differ, prints the smallest case found and stops.
pub fn same<C: Case>(tables: &Tables, case: &C) -> C::Answer {
    let ours = case.library();
    if ours == case.other(tables) {
        return ours;
    }
    let differs = |c: &C| c.library() != c.other(tables);
    let mut least = case.clone();
    while let Some(next) = least.smaller().into_iter().find(differs) {
        least = next;
    }
    println!("DIFFERENT at {least:?}");
    println!("  library:              {:?}", least.library());
    println!("  other implementation: {:?}", least.other(tables));
    std::process::exit(1);
}

/// The same for calls from k and v: each v with the least k and with one of the last, and so many others. Gives how many calls, and how many were refused.
pub fn same_samples<T, C: Case<Answer = (u32, T)>>(
    tables: &Tables,
    random: &mut Random,
    count: u32,
    call: fn(u64, u32) -> C,
) -> (u32, u32) {
    let mut refused = 0;
    for v in 0..65536 {
        same(tables, &call(0, v));
        same(tables, &call((1 << 48) - 1 - u64::from(v), v));
    }
    for _ in 0..count {
        let (k, v) = (inputs::k(random), inputs::v(random));
        refused += u32::from(same(tables, &call(k, v)).0 != 0);
    }
    (count + 2 * 65536, refused)
}

#[derive(Clone, Debug)]
pub struct Seed(pub Registers);
#[derive(Clone, Debug)]
pub struct Sample(pub u64, pub u32);
/// A call on a record.
#[derive(Clone, Debug)]
pub struct Called(pub Record, pub Call);
/// Accepted seeds, and how many pairs from them.
#[derive(Clone, Debug)]
pub struct History(pub Registers, pub usize);

/// The calls that are passed a record: a pair, a block of a length, a look at one, a skip of n pairs; asking for n pairs, taking into a block of a
/// length, giving up.
#[derive(Clone, Copy, Debug)]
pub enum Call {
    Pair,
    Block(usize),
    Look(usize),
    Skip(u64),
    Ask(u32),
    Take(usize),
    GiveUp,
}

impl Call {
    /// The pairs that it hands out or skips where it is accepted.
    pub fn pairs(self) -> u64 {
        match self {
            Call::Pair => 1,
            Call::Block(length) | Call::Take(length) => length as u64 / 2,
            Call::Look(_) | Call::Ask(_) | Call::GiveUp => 0,
            Call::Skip(n) => n,
        }
    }

    /// The elements that it is lent.
    pub fn length(self) -> usize {
        match self {
            Call::Pair => 2,
            Call::Block(length) | Call::Look(length) | Call::Take(length) => length,
            Call::Skip(_) | Call::Ask(_) | Call::GiveUp => 0,
        }
    }

    pub fn library(self, record: &Record) -> Answer {
        match self {
            Call::Pair => library::pair(record),
            Call::Block(length) => library::block(record, length),
            Call::Look(length) => library::look(record, length),
            Call::Skip(n) => library::skip(record, n),
            Call::Ask(n) => library::ask(record, n),
            Call::Take(length) => library::take(record, length),
            Call::GiveUp => library::give_up(record),
        }
    }

    pub fn other(self, tables: &Tables, record: &Record) -> Answer {
        let mut out = Lent::marked(self.length());
        let (number, next) = match self {
            Call::Pair => {
                let (number, samples, next) = stream::pair(tables, record);
                out = Lent::holding(&samples);
                (number, next)
            }
            Call::Block(_) => stream::block(tables, record, out.elements_mut()),
            Call::Look(_) => stream::look(tables, record, out.elements_mut()),
            Call::Skip(n) => jump::skip(record, n),
            Call::Ask(n) => stream::ask(record, n),
            Call::Take(_) => stream::take(tables, record, out.elements_mut()),
            Call::GiveUp => stream::give_up(record),
        };
        (number, lent(&next), out)
    }

    pub fn smaller(self) -> Vec<Call> {
        let fewer = |n: u64, call: fn(u64) -> Call| below(n).into_iter().map(call).collect();
        match self {
            Call::Pair | Call::GiveUp => Vec::new(),
            Call::Block(length) => fewer(length as u64, |n| Call::Block(n as usize)),
            Call::Look(length) => fewer(length as u64, |n| Call::Look(n as usize)),
            Call::Take(length) => fewer(length as u64, |n| Call::Take(n as usize)),
            Call::Skip(n) => fewer(n, Call::Skip),
            Call::Ask(n) => fewer(n.into(), |n| Call::Ask(n as u32)),
        }
    }
}

/// Numbers below n: 0, half, one bit less, one less.
pub fn below(n: u64) -> Vec<u64> {
    let bits = (0..64).rev().map(|bit| n & !(1 << bit));
    let mut out: Vec<u64> =
        [0, n / 2].into_iter().chain(bits).chain([n.saturating_sub(1)]).filter(|&m| m < n).collect();
    out.dedup();
    out
}

/// k and v with one of them smaller.
pub fn below_both(k: u64, v: u32) -> impl Iterator<Item = (u64, u32)> {
    below(k).into_iter().map(move |k| (k, v)).chain(below(v.into()).into_iter().map(move |v| (k, v as u32)))
}

/// All but one, the first left out first.
pub fn without_one<T: Clone>(all: &[T]) -> impl DoubleEndedIterator<Item = Vec<T>> + '_ {
    (0..all.len()).map(|at| [&all[..at], &all[at + 1..]].concat())
}

/// The lines of a text, each with its line feed.
pub fn lines(text: &[u8]) -> Vec<&[u8]> {
    text.split_inclusive(|&b| b == b'\n').collect()
}

/// Registers with one smaller, an accepted one's own minimum first.
pub fn lower(registers: &Registers) -> Vec<Registers> {
    let mut out = Vec::new();
    for (j, least) in [2, 8, 16, 2, 8, 16].into_iter().enumerate() {
        let lower = [least].into_iter().filter(|&n| n < registers[j]);
        for n in lower.chain(below(registers[j].into()).into_iter().map(|n| n as u32)) {
            let mut next = *registers;
            next[j] = n;
            out.push(next);
        }
    }
    out
}

/// Records with a smaller note, a smaller count or a smaller register.
pub fn records(record: &Record) -> Vec<Record> {
    let fewer = below(record.count).into_iter().map(|count| Record { count, ..*record });
    let closed = below(record.open.into()).into_iter().map(|open| Record { open: open as u32, ..*record });
    let less = below(record.asked.into()).into_iter().map(|asked| Record { asked: asked as u32, ..*record });
    closed
        .chain(less)
        .chain(fewer)
        .chain(lower(&record.registers).into_iter().map(|registers| Record { registers, ..*record }))
        .collect()
}

impl Case for Seed {
    type Answer = Seeded;
    fn library(&self) -> Seeded {
        library::seed(&self.0)
    }
    fn other(&self, _: &Tables) -> Seeded {
        let (number, record) = stream::seed(&self.0);
        (number, lent(&record))
    }
    fn smaller(&self) -> Vec<Seed> {
        lower(&self.0).into_iter().map(Seed).collect()
    }
}

/// The record and the samples of each pair in turn. The other side goes by the recurrence on single bits.
impl Case for History {
    type Answer = Vec<Answer>;
    fn library(&self) -> Vec<Answer> {
        let mut record = library::record_of(&library::seed(&self.0).1);
        let mut pair = |_| {
            let answer = library::pair(&record);
            record = library::record_of(&answer.1);
            answer
        };
        (0..self.1).map(&mut pair).collect()
    }
    fn other(&self, tables: &Tables) -> Vec<Answer> {
        let [a0, a1, a2, b0, b1, b2] = self.0;
        let streams =
            stream::recurrence([a0, a1, a2], self.1).into_iter().zip(stream::recurrence([b0, b1, b2], self.1));
        let pair = |(count, (a, b)): (u64, ([u32; 3], [u32; 3]))| {
            let record = Record { count, ..fresh([a[0], a[1], a[2], b[0], b[1], b[2]]) };
            (0, lent(&record), Lent::holding(&stream::samples(tables, draw_of(a), draw_of(b))))
        };
        (1..).zip(streams).map(pair).collect()
    }
    fn smaller(&self) -> Vec<History> {
        let shorter = below(self.1 as u64).into_iter().map(|n| History(self.0, n as usize));
        let lower = lower(&self.0).into_iter().filter(stream::accepted);
        shorter.chain(lower.map(|r| History(r, self.1))).collect()
    }
}

impl Case for Sample {
    type Answer = Sampled;
    fn library(&self) -> Sampled {
        library::sample(self.0, self.1)
    }
    fn other(&self, tables: &Tables) -> Sampled {
        let (number, first, second) = tables.sample(self.0, self.1);
        (number, Lent::holding(&[first, second]))
    }
    fn smaller(&self) -> Vec<Sample> {
        below_both(self.0, self.1).map(|(k, v)| Sample(k, v)).collect()
    }
}

impl Case for Called {
    type Answer = Answer;
    fn library(&self) -> Answer {
        self.1.library(&self.0)
    }
    fn other(&self, tables: &Tables) -> Answer {
        self.1.other(tables, &self.0)
    }
    fn smaller(&self) -> Vec<Called> {
        let less = self.1.smaller().into_iter().map(|call| Called(self.0, call));
        less.chain(records(&self.0).into_iter().map(|record| Called(record, self.1))).collect()
    }
}
