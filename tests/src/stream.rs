//! Document 01, "The two streams"; the numbers and the count of document 02.
use crate::sample::Tables;

/// What is cleared at the bottom, the two left shifts and the right shift, for each register.
const STEPS: [(u32, u32, u32, u32); 3] = [(1, 12, 13, 19), (3, 4, 2, 25), (4, 17, 3, 11)];
const MINIMA: [u32; 3] = [2, 8, 16];

/// k, q and s of L'Ecuyer's recurrence on bits, x(m+k) = x(m+q) xor x(m): a register has its top k bits, and a draw moves it by s.
pub type Shifts = (usize, usize, usize);
pub const SHIFTS: [Shifts; 3] = [(31, 13, 12), (29, 2, 4), (28, 3, 17)];

/// Streams a and b, registers s0, s1, s2 each.
pub type Registers = [u32; 6];
pub const A: usize = 0;
pub const B: usize = 3;

/// The streams, the pairs that were drawn or skipped (document 02, Job 4), and the note: a request is open where `open` is not 0 (Job 7).
#[derive(Clone, Copy, PartialEq, Debug)]
pub struct Record {
    pub registers: Registers,
    pub count: u64,
    pub open: u32,
    pub asked: u32,
}

/// The most pairs that are asked for at once.
pub const MOST_ASKED: u32 = 1_000_000;

/// 11 where stream a has a register below its minimum, else 12 where stream b has, else 0 (document 02, Job 1).
pub fn refusal(registers: &Registers) -> u32 {
    let unfit = |stream: usize| (0..3).any(|j| registers[stream + j] < MINIMA[j]);
    [(A, 11), (B, 12)].into_iter().find(|&(stream, _)| unfit(stream)).map_or(0, |(_, number)| number)
}

pub fn accepted(registers: &Registers) -> bool {
    refusal(registers) == 0
}

pub fn fresh(registers: Registers) -> Record {
    Record { registers, count: 0, open: 0, asked: 0 }
}

pub fn seed(seeds: &Registers) -> (u32, Record) {
    match refusal(seeds) {
        0 => (0, fresh(*seeds)),
        number => (number, fresh([0; 6])),
    }
}

/// What a call asks of the note: nothing, that none is open, that one is (document 02, Job 7).
#[derive(Clone, Copy, PartialEq)]
pub enum Note {
    Any,
    NoneOpen,
    Open,
}

impl Note {
    fn refusal(self, record: &Record) -> u32 {
        match (self, record.open) {
            (Note::NoneOpen, 1..) => 14,
            (Note::Open, 0) => 15,
            _ => 0,
        }
    }
}

/// A call for n pairs: its number and the next record. It is refused for its streams, for its note, then for a cause of its own, then where the
/// count would pass 2^64 - 1 (document 02, Job 4). Accepted, it moves the registers.
pub fn call(record: &Record, note: Note, own: u32, n: u64, moves: impl FnOnce(&mut Registers)) -> (u32, Record) {
    let refused = |number| (number, *record);
    let own = match note.refusal(record) {
        0 => own,
        number => number,
    };
    match (refusal(&record.registers), own, record.count.checked_add(n)) {
        (0, 0, Some(count)) => {
            let mut next = Record { count, ..*record };
            moves(&mut next.registers);
            (0, next)
        }
        (0, 0, None) => refused(13),
        (0, own, _) => refused(own),
        (unfit, ..) => refused(unfit),
    }
}

/// One draw from the stream whose registers begin at `stream`.
pub fn step(registers: &mut Registers, stream: usize) -> u32 {
    let mut draw = 0;
    for (register, (clear, left, mix, right)) in registers[stream..stream + 3].iter_mut().zip(STEPS) {
        let s = *register;
        *register = ((s >> clear << clear) << left) ^ (((s << mix) ^ s) >> right);
        draw ^= *register;
    }
    draw
}

/// The two samples of a draw from each stream.
pub fn samples(tables: &Tables, a: u32, b: u32) -> [i16; 2] {
    let (number, first, second) = tables.sample(u64::from(a) * 65536 + u64::from(b / 65536), b % 65536);
    assert_eq!(number, 0);
    [first, second]
}

fn step_pair(tables: &Tables, registers: &mut Registers) -> [i16; 2] {
    let a = step(registers, A);
    samples(tables, a, step(registers, B))
}

pub fn pair(tables: &Tables, record: &Record) -> (u32, [i16; 2], Record) {
    let mut two = [0, 0];
    let (number, next) = call(record, Note::NoneOpen, 0, 1, |registers| two = step_pair(tables, registers));
    (number, two, next)
}

fn fill(tables: &Tables, registers: &mut Registers, out: &mut [i16]) {
    out.chunks_mut(2).for_each(|two| two.copy_from_slice(&step_pair(tables, registers)));
}

fn odd(length: usize) -> u32 {
    4 * u32::from(length % 2 == 1)
}

pub fn block(tables: &Tables, record: &Record, out: &mut [i16]) -> (u32, Record) {
    call(record, Note::NoneOpen, odd(out.len()), out.len() as u64 / 2, |registers| fill(tables, registers, out))
}

/// A look: a block call on a copy of the record, whose note does not matter; the record stays (document 02, Jobs 6 and 7).
pub fn look(tables: &Tables, record: &Record, out: &mut [i16]) -> (u32, Record) {
    let (number, _) =
        call(record, Note::Any, odd(out.len()), out.len() as u64 / 2, |registers| fill(tables, registers, out));
    (number, *record)
}

/// Document 02, Job 7: asking notes n pairs, taking gives them, giving up does not.
pub fn ask(record: &Record, n: u32) -> (u32, Record) {
    let most = if n > MOST_ASKED { 16 } else { 0 };
    match call(record, Note::NoneOpen, most, n.into(), |_| ()) {
        (0, _) => (0, Record { open: 1, asked: n, ..*record }),
        refused => refused,
    }
}

fn closed(answer: (u32, Record)) -> (u32, Record) {
    match answer {
        (0, next) => (0, Record { open: 0, asked: 0, ..next }),
        refused => refused,
    }
}

pub fn take(tables: &Tables, record: &Record, out: &mut [i16]) -> (u32, Record) {
    let other = record.asked > MOST_ASKED || out.len() as u64 != 2 * u64::from(record.asked);
    closed(call(record, Note::Open, if other { 16 } else { 0 }, record.asked.into(), |registers| {
        fill(tables, registers, out)
    }))
}

pub fn give_up(record: &Record) -> (u32, Record) {
    closed(call(record, Note::Open, 0, 0, |_| ()))
}

/// A skip, by drawing.
pub fn drawn_on(record: &Record, n: u64) -> (u32, Record) {
    call(record, Note::NoneOpen, 0, n, |registers| (0..n).for_each(|_| step_both(registers)))
}

pub fn step_both(registers: &mut Registers) {
    step(registers, A);
    step(registers, B);
}

/// The first `length` bits of the recurrence that starts with a register's top k bits.
pub fn bits(register: u32, (k, q, _): Shifts, length: usize) -> Vec<u32> {
    let mut x: Vec<u32> = (0..k).map(|m| register >> (31 - m) & 1).collect();
    for m in 0..length - k {
        let bit = x[m + q] ^ x[m];
        x.push(bit);
    }
    x
}

/// A stream's registers after each of the first `count` draws, by the recurrence: after draw t each has the 32 bits from s t on.
pub fn recurrence(registers: [u32; 3], count: usize) -> Vec<[u32; 3]> {
    let mut after = vec![[0; 3]; count];
    for (j, shifts) in SHIFTS.into_iter().enumerate() {
        let s = shifts.2;
        let x = bits(registers[j], shifts, s * count + 32);
        for (t, stream) in after.iter_mut().enumerate() {
            stream[j] = x[s * (t + 1)..][..32].iter().fold(0, |word, bit| word << 1 | bit);
        }
    }
    after
}

/// The draw that leaves these registers.
pub fn draw_of(stream: [u32; 3]) -> u32 {
    stream.into_iter().fold(0, |draw, register| draw ^ register)
}
