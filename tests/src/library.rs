//! The static library's functions as include/jabulghi.h declares them, called on marked memory.
use crate::stream::{Record, Registers};
use std::fmt;

extern "C" {
    fn jabulghi_seed(a0: u32, a1: u32, a2: u32, b0: u32, b1: u32, b2: u32, record: *mut u32) -> u32;
    fn jabulghi_sample(k: u64, v: u32, samples: *mut i16) -> u32;
    fn jabulghi_pair(record: *mut u32, samples: *mut i16) -> u32;
    fn jabulghi_block(record: *mut u32, block: *mut i16, length: usize) -> u32;
    fn jabulghi_look(record: *const u32, block: *mut i16, length: usize) -> u32;
    fn jabulghi_skip(record: *mut u32, n: u64) -> u32;
    fn jabulghi_ask(record: *mut u32, n: u32) -> u32;
    fn jabulghi_take(record: *mut u32, block: *mut i16, length: usize) -> u32;
    fn jabulghi_give_up(record: *mut u32) -> u32;
}

/// Elements on either side of lent memory that a call must leave alone.
const MARGIN: usize = 8;

pub trait Mark: Copy + PartialEq + fmt::Debug {
    fn mark(place: usize) -> Self;
    /// Its bytes, lowest first as on x86-64.
    fn bytes(self) -> Vec<u8> {
        let start: *const Self = &self;
        unsafe { std::slice::from_raw_parts(start.cast::<u8>(), size_of::<Self>()) }.to_vec()
    }
    fn show(elements: &[Self]) -> String {
        format!("{elements:?}")
    }
}
impl Mark for i16 {
    fn mark(place: usize) -> i16 {
        (place * 30011 + 0x5AA5) as i16
    }
}
impl Mark for u32 {
    fn mark(place: usize) -> u32 {
        (place as u32 + 1).wrapping_mul(0x9E3779B1)
    }
    /// Ten words are a record.
    fn show(elements: &[u32]) -> String {
        <[u32; 10]>::try_from(elements).map_or(format!("{elements:?}"), |words| format!("{:?}", of_words(words)))
    }
}

/// Lent memory, with a marked margin on either side. Two are equal where elements and margins are.
#[derive(Clone, PartialEq)]
pub struct Lent<T>(Vec<T>);

impl<T: Mark> Lent<T> {
    pub fn holding(elements: &[T]) -> Lent<T> {
        let mut cells = Vec::with_capacity(elements.len() + 2 * MARGIN);
        cells.extend((0..MARGIN).map(T::mark));
        cells.extend_from_slice(elements);
        cells.extend((0..MARGIN).map(|j| T::mark(MARGIN + j)));
        Lent(cells)
    }

    /// Lent memory of marks alone, what a call finds where it is to write.
    pub fn marked(length: usize) -> Lent<T> {
        Lent::holding(&(0..length).map(|j| T::mark(2 * MARGIN + j)).collect::<Vec<_>>())
    }

    pub fn elements(&self) -> &[T] {
        &self.0[MARGIN..self.0.len() - MARGIN]
    }

    /// So much memory that starts with these elements, and else is as a call finds it.
    pub fn starting(elements: &[T], length: usize) -> Lent<T> {
        let mut out = Lent::marked(length);
        out.elements_mut()[..elements.len()].copy_from_slice(elements);
        out
    }

    /// Whether the margins are as they were.
    pub fn is_kept(&self) -> bool {
        *self == Lent::holding(self.elements())
    }

    pub fn bytes(&self) -> Vec<u8> {
        self.elements().iter().flat_map(|element| element.bytes()).collect()
    }

    pub fn elements_mut(&mut self) -> &mut [T] {
        let end = self.0.len() - MARGIN;
        &mut self.0[MARGIN..end]
    }

    pub fn pointer(&mut self) -> *mut T {
        // of the whole vector, so that a stray store into a margin is seen and not undefined
        self.0[..].as_mut_ptr().wrapping_add(MARGIN)
    }
}

impl<T: Mark> fmt::Debug for Lent<T> {
    fn fmt(&self, f: &mut fmt::Formatter) -> fmt::Result {
        if !self.is_kept() {
            write!(f, "(MARGINS OVERWRITTEN) ")?;
        }
        write!(f, "{}", T::show(self.elements()))
    }
}

/// A record's registers, then the low and the high word of its count, then its note.
fn words(record: &Record) -> [u32; 10] {
    let [a0, a1, a2, b0, b1, b2] = record.registers;
    [a0, a1, a2, b0, b1, b2, record.count as u32, (record.count >> 32) as u32, record.open, record.asked]
}

fn of_words([a0, a1, a2, b0, b1, b2, low, high, open, asked]: [u32; 10]) -> Record {
    Record { registers: [a0, a1, a2, b0, b1, b2], count: u64::from(high) << 32 | u64::from(low), open, asked }
}

pub fn lent(record: &Record) -> Lent<u32> {
    Lent::holding(&words(record))
}

pub fn record_of(words: &Lent<u32>) -> Record {
    of_words(words.elements().try_into().unwrap())
}

pub type Seeded = (u32, Lent<u32>);
pub type Sampled = (u32, Lent<i16>);
/// Number, record and samples.
pub type Answer = (u32, Lent<u32>, Lent<i16>);

pub fn seed(s: &Registers) -> Seeded {
    let mut record = Lent::marked(10);
    let number = unsafe { jabulghi_seed(s[0], s[1], s[2], s[3], s[4], s[5], record.pointer()) };
    (number, record)
}

pub fn sample(k: u64, v: u32) -> Sampled {
    let mut samples = Lent::marked(2);
    let number = unsafe { jabulghi_sample(k, v, samples.pointer()) };
    (number, samples)
}

/// A call on a record, with so many samples.
fn called(record: &Record, length: usize, call: impl FnOnce(*mut u32, *mut i16) -> u32) -> Answer {
    let (mut record, mut samples) = (lent(record), Lent::marked(length));
    let number = call(record.pointer(), samples.pointer());
    (number, record, samples)
}

pub fn pair(record: &Record) -> Answer {
    called(record, 2, |words, samples| unsafe { jabulghi_pair(words, samples) })
}

pub fn block(record: &Record, length: usize) -> Answer {
    called(record, length, |words, samples| unsafe { jabulghi_block(words, samples, length) })
}

pub fn look(record: &Record, length: usize) -> Answer {
    called(record, length, |words, samples| unsafe { jabulghi_look(words, samples, length) })
}

pub fn take(record: &Record, length: usize) -> Answer {
    called(record, length, |words, samples| unsafe { jabulghi_take(words, samples, length) })
}

pub fn skip(record: &Record, n: u64) -> Answer {
    called(record, 0, |words, _| unsafe { jabulghi_skip(words, n) })
}

pub fn ask(record: &Record, n: u32) -> Answer {
    called(record, 0, |words, _| unsafe { jabulghi_ask(words, n) })
}

pub fn give_up(record: &Record) -> Answer {
    called(record, 0, |words, _| unsafe { jabulghi_give_up(words) })
}
