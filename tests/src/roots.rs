//! The k at which a fast way to the radius may go wrong: where 2Q is a square or next to one, where its root is so near a whole number that
//! a guess may be one off, and at the edges of cells, where a guess at the quotient i may be. This side's own numbers tell which they are.
//! Each is compared at v where a radius one off gives other samples.
use crate::cases::{same, Call, Called, Sample};
use crate::random::Random;
use crate::sample::{root, Cell, Tables};
use crate::stream::{fresh, step, A};

/// The first 8 fraction bits of the root of x, whose whole part is f.
fn fraction(x: i128, f: i128) -> i128 {
    let reaches = |bits: i128| (256 * f + bits) * (256 * f + bits) <= x << 16;
    (0..8).rev().fold(0, |found, bit| if reaches(found | 1 << bit) { found | 1 << bit } else { found })
}

/// A k with its cell, 2Q, the root of it, which is F, and the root's first 8 fraction bits.
struct Place {
    k: u64,
    cell: Cell,
    x: i128,
    f: i128,
    fraction: i128,
}

impl Place {
    fn of(tables: &Tables, k: u64) -> Place {
        let cell = Cell::of(k);
        let x = tables.under_root(&cell);
        let f = root(x);
        Place { k, cell, x, f, fraction: fraction(x, f) }
    }

    /// Whether i and so many more would give another radius.
    fn other_radius(&self, tables: &Tables, more: i128) -> bool {
        let i = self.cell.i + more;
        (0..256).contains(&i) && root(tables.under_root(&Cell { i, ..self.cell })) != self.f
    }
}

/// A kind of k, how many of it there have to be, and whether a k is of it. In the first and the last 2^24 of a multiple of h 2^24 a
/// quotient from about 1 / h may be one off.
type Kind = (&'static str, usize, fn(&Tables, &Place) -> bool);
const KINDS: [Kind; 8] = [
    ("2Q a square", 5000, |_, p| p.x == p.f * p.f),
    ("2Q one below a square", 5000, |_, p| p.x == p.f * p.f + 2 * p.f),
    ("2Q one above a square", 5000, |_, p| p.x == p.f * p.f + 1),
    ("a root just above a whole number", 2000, |_, p| p.fraction == 0),
    ("a root just below a whole number", 2000, |_, p| p.fraction == 255),
    ("d a multiple of h 2^24", 5000, |_, p| p.cell.rest() == 0),
    ("another radius by i - 1", 20, |t, p| p.cell.rest() < 1 << 24 && p.other_radius(t, -1)),
    ("another radius by i + 1", 10, |t, p| p.cell.rest() >= (p.cell.h - 1) << 24 && p.other_radius(t, 1)),
];

/// A k that has this 2Q, where halving finds one.
fn k_with(tables: &Tables, x: i128) -> Option<u64> {
    let under_root = |k| tables.under_root(&Cell::of(k));
    let (mut low, mut high) = (0, (1 << 48) - 1);
    while low + 1 < high {
        let middle = (low + high) / 2;
        if under_root(middle) > x {
            low = middle;
        } else {
            high = middle;
        }
    }
    Some(high).filter(|&k| under_root(k) == x)
}

/// k whose 2Q, which is even, is the square of an even number, or one below or above that of an odd one.
fn squares(tables: &Tables) -> Vec<u64> {
    let beside = |f: i128| if f % 2 == 0 { vec![f * f] } else { vec![f * f - 1, f * f + 1] };
    (1..8_600_000).step_by(199).flat_map(beside).filter_map(|x| k_with(tables, x)).collect()
}

/// The last k before each cell and its first one, in every fifth octave.
fn edges() -> Vec<u64> {
    let cells = (256..512u64).flat_map(|h| (0..=65535 / h).map(move |i| (h << 40) + i * (h << 24)));
    let first = |edge: u64| (0..48).step_by(5).map(move |octave| ((edge - 1) >> octave).div_ceil(2));
    let mut ks: Vec<u64> = cells.flat_map(first).flat_map(|k| [k.saturating_sub(1), k]).collect();
    ks.sort();
    ks.dedup();
    ks
}

/// Registers whose next draw is this one: the first s1 that leaves an s0.
fn before(draw: u32) -> [u32; 3] {
    let draw_from = |s0, s1| step(&mut [s0, s1, 16, 0, 0, 0], A);
    let s0 = |s1: u32| {
        let new = draw ^ draw_from(0, s1);
        let low = new >> 13 << 1;
        low & 0x7_ffff | ((new ^ low >> 6) & 0x1fff) << 19
    };
    let fits = |&s1: &u32| s0(s1) >= 2 && draw_from(s0(s1), s1) == draw;
    let s1 = [8, 0x4008, 16, 0x4010].into_iter().find(fits).unwrap();
    [s0(s1), s1, 16]
}

/// The samples of k and v by themselves, of a pair, and first in a block.
fn compare(tables: &Tables, k: u64, v: u32) {
    same(tables, &Sample(k, v));
    let ([a0, a1, a2], [b0, b1, b2]) = (before((k >> 16) as u32), before((k << 16) as u32 | v));
    let record = fresh([a0, a1, a2, b0, b1, b2]);
    same(tables, &Called(record, Call::Pair));
    same(tables, &Called(record, Call::Block(2 + 2 * (k % 8) as usize)));
}

/// A v at which the radii f and g give different samples: none where both are small.
fn telling(tables: &Tables, f: i128, g: i128, random: &mut Random) -> Option<u32> {
    let from = random.below(65536) as u32;
    (from..from + 4096).map(|v| v % 65536).find(|&v| tables.turned(f, v) != tables.turned(g, v))
}

/// Every k of some kind among squares, edges of cells and random numbers.
pub fn places(tables: &Tables, random: &mut Random) -> String {
    let given = [0, 1, (1 << 48) - 1].into_iter().chain(squares(tables)).chain(edges());
    let drawn: Vec<u64> = (0..1_000_000).map(|_| random.next() >> 16).collect();
    let (mut counts, mut run, mut told) = ([0; KINDS.len()], 0, 0);
    for place in given.chain(drawn).map(|k| Place::of(tables, k)) {
        let kinds = KINDS.map(|(_, _, is)| usize::from(is(tables, &place)));
        if kinds.iter().sum::<usize>() == 0 {
            continue;
        }
        (0..KINDS.len()).for_each(|j| counts[j] += kinds[j]);
        let telling: Vec<u32> =
            [-1, 1].into_iter().filter_map(|by| telling(tables, place.f, place.f + by, random)).collect();
        [0, 65535].iter().chain(&telling).for_each(|&v| compare(tables, place.k, v));
        (run, told) = (run + 1, told + telling.len());
    }
    let said = KINDS.iter().zip(counts).map(|(&(name, least, _), count)| {
        assert!(count >= least, "only {count} k with {name}");
        format!("{count} with {name}")
    });
    format!("{run} k ({}), {told} pairs at v that tell a radius one off", said.collect::<Vec<_>>().join(", "))
}
