//! Seeds and pairs of numbers, the places where something changes among them.
use crate::random::Random;
use crate::stream::{fresh, Record, Registers, MOST_ASKED};

/// Seeds of every kind: mostly accepted, with small and sparse registers among them.
pub fn seeds(random: &mut Random) -> Registers {
    let mut registers = [0; 6];
    for (j, register) in registers.iter_mut().enumerate() {
        let least = [2, 8, 16][j % 3];
        *register = match random.below(40) {
            0 => random.below(20) as u32,
            1 => least - 1,
            2 => least,
            3 => u32::MAX,
            _ => (random.number(32) as u32).max(least),
        };
    }
    registers
}

/// Seeds of every kind and a count for a call of so many pairs: any, at its most or near it, or such that they just fit or just do not.
pub fn record(random: &mut Random, pairs: u64) -> Record {
    let most = u64::MAX;
    let count = match random.below(8) {
        0 => most - random.below(4) as u64,
        1 | 2 => (most - pairs).saturating_sub(1).saturating_add(random.below(3) as u64),
        3 | 4 => random.number(64),
        5 => random.below(1000) as u64,
        _ => 0,
    };
    Record { count, ..fresh(seeds(random)) }
}

/// Such a record with a note: none open and 0 noted, or any other, which no call of ours need have made.
pub fn noted(random: &mut Random, pairs: u64) -> Record {
    let record = record(random, pairs);
    let open = [0, 0, 1, random.number(32) as u32][random.below(4)];
    let asked = [0, 1, random.below(300) as u32, MOST_ASKED, MOST_ASKED + 1, 2_000_000, random.number(32) as u32]
        [random.below(7)];
    [record, Record { open, asked, ..record }][random.below(2)]
}

/// k's cells are those of the logarithm tables: k at the start of a cell (h, i), or just beside it, at any scale.
fn at_a_cell(random: &mut Random) -> u64 {
    let (h, i) = (256 + random.below(256) as u64, random.below(257) as u64);
    let m = ((h << 39) + i * (h << 23) + random.below(5) as u64).saturating_sub(2);
    (m >> random.below(40)).min((1 << 48) - 1)
}

/// A first number, sometimes too large.
pub fn k(random: &mut Random) -> u64 {
    match random.below(100) {
        0 => random.number(64),
        1 => (1 << 48) - 50 + random.below(100) as u64,
        2..=30 => at_a_cell(random),
        _ => random.number(48),
    }
}

/// A second number, sometimes too large.
pub fn v(random: &mut Random) -> u32 {
    match random.below(100) {
        0 => random.number(32) as u32,
        1 => 65500 + random.below(100) as u32,
        2..=4 => 16384 * random.below(4) as u32,
        5..=20 => (random.below(513) as u32 * 128 + random.below(3) as u32).saturating_sub(1) % 65536,
        _ => random.below(65536) as u32,
    }
}

/// How many pairs to skip: of every size, with the fewest and the most among them.
pub fn n(random: &mut Random) -> u64 {
    match random.below(40) {
        0..=2 => random.below(4) as u64,
        3 => u64::MAX - random.below(2) as u64,
        4..=19 => random.next() >> random.below(64),
        _ => random.number(64),
    }
}
