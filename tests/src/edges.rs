//! The places where something changes, each tried by itself: minima, lengths of blocks, cells of the tables, quarters.
use crate::cases::{same, Call, Called, History, Sample, Seed};
use crate::library::record_of;
use crate::sample::{Cell, Tables};
use crate::stream::{fresh, Registers};

const LEAST: Registers = [2, 8, 16, 2, 8, 16];

/// Seeding, a pair, and looks and blocks of even and odd length and of none. Skips are in skips.rs, counts in counts.rs.
fn calls(tables: &Tables, registers: Registers) {
    same(tables, &Seed(registers));
    let lengths = [0, 3, 4, 100];
    for call in [Call::Pair].into_iter().chain(lengths.map(Call::Look)).chain(lengths.map(Call::Block)) {
        same(tables, &Called(fresh(registers), call));
    }
}

/// Registers at their minima, each one below in turn, all zero, all at one extreme.
pub fn extremes() -> Vec<Registers> {
    let mut all = vec![LEAST, [0; 6], [2097281, 2097280, 2105344, 2, 8, 16]];
    for j in 0..6 {
        for lower in [0, LEAST[j] - 1] {
            let mut registers = LEAST;
            registers[j] = lower;
            all.push(registers);
        }
    }
    let extremes = [u32::MAX, 1 << 31, (1 << 31) - 1, 0x5555_5555, 0xAAAA_AAAA, 1 << 16];
    all.extend(extremes.map(|register| [register; 6]));
    all.extend([
        LEAST.map(|least| 2 * least),
        LEAST.map(|least| least.wrapping_neg()),
        LEAST.map(|least| 2 * least - 1),
    ]);
    all
}

/// Seeding, pairs and blocks of the extreme registers; then long runs from one seeding.
pub fn records(tables: &Tables) -> String {
    let extremes = extremes();
    for &registers in &extremes {
        calls(tables, registers);
    }
    let length = 60_000;
    same(tables, &History(LEAST, length));
    let (first, pairs) = (fresh(LEAST), 2048);
    let mut record = first;
    for _ in 0..pairs {
        record = record_of(&same(tables, &Called(record, Call::Pair)).1);
    }
    let (_, next, _) = same(tables, &Called(first, Call::Block(2 * pairs)));
    assert_eq!(record_of(&next), record, "the record after {pairs} pairs and after their block");
    format!("seeding, pairs and blocks of {} records at the edges, {length} pairs of one", extremes.len())
}

/// Lengths around the stretches that a block may be drawn in.
pub fn lengths(tables: &Tables) -> String {
    let mut count = 0;
    for stretch in [0, 64, 128, 256, 512, 1024, 2048, 4096, 8192] {
        for length in stretch..stretch + 8 {
            let length = if stretch == 0 { length } else { length - 4 };
            let (_, _, shown) = same(tables, &Called(fresh(LEAST), Call::Look(length)));
            let (number, _, samples) = same(tables, &Called(fresh(LEAST), Call::Block(length)));
            assert!(number != 0 || shown == samples, "a look and a block of {length}");
            count += 1;
        }
    }
    format!("{count} blocks and looks of lengths around powers of two")
}

/// First, second, middle and last place of each quarter.
fn quarters() -> impl Iterator<Item = u32> {
    (0..4).flat_map(|q| [0, 1, 8192, 16383].map(|w| q * 16384 + w))
}

/// Refusals at their limits; powers of two and their neighbours, the first and last number of every cell and the numbers nearest to
/// 2^48, at the edges of the quarters; every v at two k.
pub fn cells(tables: &Tables) -> String {
    let top = 1u64 << 48;
    for k in [0, 1, top - 1, top, top + 1, u64::MAX] {
        for v in [0, 65535, 65536, u32::MAX] {
            same(tables, &Sample(k, v));
        }
    }
    let mut ks: Vec<u64> = (0..48).flat_map(|e| [(1 << e) - 1, 1 << e, (1 << e) + 1]).collect();
    for h in 256..512u64 {
        let (base, unit) = (h << 39, h << 23);
        for i in 0..=65535 / h {
            let last = base + ((i + 1) * unit - 1).min((1 << 39) - 1);
            ks.extend([base + i * unit, last]);
        }
    }
    ks.extend((0..64).map(|j| top - 1 - j));
    for &k in &ks {
        for v in quarters() {
            same(tables, &Sample(k, v));
        }
    }
    for v in 0..65536 {
        same(tables, &Sample(1, v));
        same(tables, &Sample(123_456_789_012_345, v));
    }
    let rests = |is: fn(&Cell) -> bool| ks.iter().filter(|&&k| is(&Cell::of(k))).count();
    let (above, below) = (rests(|cell| cell.rest() == 1), rests(|cell| cell.rest() == (cell.h << 24) - 1));
    assert!(above > 40_000 && below > 40_000, "only {above} and {below} d beside a multiple");
    let beside = format!("{above} with d one above a multiple of h 2^24, {below} one below");
    format!("{} k at the edges of cells ({beside}), each at 16 v, and every v at two k", ks.len())
}
