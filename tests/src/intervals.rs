//! Listings of distances between two readings, whole and damaged, through the call and the program that tell how far their loop misses at least and at most.
use crate::cases::{same, Case};
use crate::elsewhere::{self, Written};
use crate::misclosure::{interval, Interval, Miss, BETWEEN, FARTHEST, HEADER, SHOTS};
use crate::misses;
use crate::program::{run, writes};
use crate::random::Random;
use crate::sample::Tables;
use crate::sums::{self, headed};
use std::time::Duration;

extern "C" {
    fn jabulghi_intervals(text: *const u8, length: usize, sums: *mut i64, millimetres: *mut i64, line: *mut u32)
        -> u32;
}

type Listing = sums::Listing<4>;

impl Case for Listing {
    type Answer = Interval;
    fn library(&self) -> Interval {
        self.through(jabulghi_intervals)
    }
    fn other(&self, tables: &Tables) -> Interval {
        interval(tables, &self.text)
    }
    fn smaller(&self) -> Vec<Listing> {
        self.shorter()
    }
}

type Row = (u64, u64, u64);

/// Shots that follow each other: low, high and step.
fn chain(rows: &[Row]) -> Vec<String> {
    sums::chain(rows.iter().map(|(low, high, step)| format!("{low} {high} {step}")))
}

fn between(rows: &[Row]) -> Listing {
    Listing { text: headed(BETWEEN, &chain(rows)).into_bytes() }
}

/// The miss of Job 13's listing of the same shots with one distance each.
fn chosen(rows: &[Row], distances: &[u64]) -> Miss {
    let numbers: Vec<_> = rows.iter().zip(distances).map(|(row, &mm)| (mm, row.2)).collect();
    misses::of(&numbers).library()
}

/// Every cause with its line, two causes on one line, the other kind's header and rows in each place, and ends.
fn written() -> Vec<Vec<u8>> {
    let far = FARTHEST;
    let row = |text: &str| vec!["A B 5 6 1\n".to_string(), format!("{text}\n")];
    let mut out: Vec<String> = vec![
        String::new(),
        BETWEEN.into(),
        BETWEEN[..21].into(),
        HEADER.into(),
        headed(BETWEEN, &[]),
        headed(HEADER, &[]),
        headed(HEADER, &chain(&[(1, 2, 3)])),
        headed(BETWEEN, &["A B 5 6\n".into()]),
        format!("{BETWEEN}{HEADER}END 1\n"),
        format!("{HEADER}{BETWEEN}END 1\n"),
        format!("{BETWEEN}END 0\n{HEADER}END 0\n"),
        format!("{BETWEEN}END 0\nEND 0\n"),
        format!("{BETWEEN}END 0\nx"),
        format!("{BETWEEN}END 0"),
        format!("{BETWEEN}END 00\n"),
    ];
    let rows = [
        HEADER.trim_end().to_string(),
        BETWEEN.trim_end().to_string(),
        "B C 7 9".into(),
        "B C 7 9 1 1".into(),
        "B C 9 7 1".into(),
        "X C 9 7 1".into(),
        "X C 7 9 1".into(),
        format!("X C {} 7 1", far + 1),
        format!("B C {} {} 1", far + 1, far),
        format!("B C {} {} 1", far, far + 1),
        format!("B C {far} {far} 65536"),
        format!("X C {far} 0 65536"),
        "B C 09 9 1".into(),
        "B C 9 09 1".into(),
        "B C 9 9 01".into(),
        "END 5 6 7 8".into(),
        "END 1".into(),
        "b C 7 9 1".into(),
        "B C 7  9 1".into(),
    ];
    out.extend(rows.iter().map(|text| headed(BETWEEN, &row(text))));
    for (low, high) in [(0, 0), (0, 1), (0, far), (1, far), (far, far), (far - 1, far), (far, far - 1), (1, 0)] {
        for step in [0, 1, 8192, 16384, 16385, 32768, 40000, 49152, 65535] {
            out.push(headed(BETWEEN, &chain(&[(low, high, step)])));
        }
    }
    for count in [1, 2, SHOTS - 1, SHOTS, SHOTS + 1, SHOTS + 2] {
        for step in [0, 8192, 40000] {
            out.push(headed(BETWEEN, &chain(&vec![(0, far, step); count])));
        }
        let rows = chain(&vec![(3, 4, 3); count]).concat();
        out.extend([count + 1, count - 1].map(|told| format!("{BETWEEN}{rows}END {told}\n")));
        out.extend(["", "A B 7 6 1\n"].map(|last| format!("{BETWEEN}{rows}{last}")));
    }
    out.into_iter().map(String::into_bytes).collect()
}

fn row(random: &mut Random, loose: bool) -> Row {
    let [a, b, step] = [FARTHEST, FARTHEST, 65535].map(|most| misses::up_to(random, most, loose));
    let (low, high) = if random.one_in(6) { (a, a) } else { (a.min(b), a.max(b)) };
    if loose && random.one_in(20) {
        return (high, low, step);
    }
    (low, high, step)
}

/// Some have a header of the other kind.
fn text(random: &mut Random) -> Vec<u8> {
    let shown = |random: &mut Random, loose| {
        let (low, high, step) = row(random, loose);
        format!("{low} {high} {step}")
    };
    sums::text(random, (6, 3), |random| if random.one_in(20) { HEADER } else { BETWEEN }, shown)
}

/// A distance between the readings of each shot, the ends among them.
fn choice(random: &mut Random, rows: &[Row]) -> Vec<u64> {
    let one = |&(low, high, _): &Row| {
        let inside = low + random.below((high - low + 1) as usize) as u64;
        *random.of(&[low, high, inside])
    };
    rows.iter().map(one).collect()
}

/// What is known of the choices: all lie between, the ends are met, and level readings are Job 13's.
fn choices(tables: &Tables, random: &mut Random, runs: usize) {
    for _ in 0..runs {
        let rows: Vec<Row> = (0..random.below(30)).map(|_| row(random, false)).collect();
        let (number, _, ends, whole) = between(&rows).library();
        assert_eq!(number, 0, "{rows:?}");
        for _ in 0..6 {
            let (number, _, sums, mm) = chosen(&rows, &choice(random, &rows));
            assert_eq!(number, 0, "{rows:?}");
            for j in 0..2 {
                let within = ends[2 * j] <= sums[j]
                    && sums[j] <= ends[2 * j + 1]
                    && whole[2 * j] <= mm[j]
                    && mm[j] <= whole[2 * j + 1];
                assert!(within, "{rows:?}: {sums:?} {mm:?}");
            }
        }
        for end in 0..4 {
            let least = |&(low, high, step): &Row| {
                let (sine, cosine) = tables.rotation(step as u32);
                if ([sine, cosine][end / 2] < 0) == (end % 2 == 0) {
                    high
                } else {
                    low
                }
            };
            let (_, _, sums, mm) = chosen(&rows, &rows.iter().map(least).collect::<Vec<_>>());
            assert_eq!((sums[end / 2], mm[end / 2]), (ends[end], whole[end]), "{rows:?}: end {end} is met");
        }
        let level: Vec<Row> = rows.iter().map(|&(low, _, step)| (low, low, step)).collect();
        let lows: Vec<u64> = rows.iter().map(|row| row.0).collect();
        let (_, _, [e, n], [x, y]) = chosen(&rows, &lows);
        assert_eq!(between(&level).library(), (0, 0, [e, e, n, n], [x, x, y, y]), "{rows:?}: level");
    }
}

pub fn given(tables: &Tables) -> String {
    let texts = written();
    for text in &texts {
        same(tables, &Listing { text: text.clone() });
        same(tables, &misses::Listing { text: text.clone() });
    }
    format!("{} listings of two readings written out, through both calls", texts.len())
}

/// One call, for other processors.
pub fn elsewhere(tables: &Tables, random: &mut Random) -> Written {
    let text = elsewhere::short(|| text(random), Vec::len);
    sums::elsewhere("intervals", &text, interval(tables, &text))
}

pub fn listings(tables: &Tables, random: &mut Random) -> String {
    let (count, mut accepted) = (40_000, 0);
    for _ in 0..count {
        accepted += u32::from(same(tables, &Listing { text: text(random) }).0 == 0);
    }
    assert!(accepted > 8_000 && accepted < 35_000, "{accepted} of {count} accepted");
    let runs = 2000;
    choices(tables, random, runs);
    format!("{count} listings of two readings, {accepted} accepted; {runs} with choices between them")
}

/// The program as it is built tells the kinds by the header.
pub fn program(tables: &Tables, random: &mut Random) -> String {
    let expected = |text: &[u8]| {
        if !text.starts_with(BETWEEN.as_bytes()) {
            return misses::expected(tables, text);
        }
        match interval(tables, text) {
            (0, _, _, [a, b, c, d]) => format!("EAST {a} {b}\nNORTH {c} {d}\n"),
            (number, line, _, _) => format!("REFUSED {number} {line}\n"),
        }
    };
    let mut texts: Vec<Vec<u8>> = written().into_iter().step_by(3).collect();
    texts.extend((0..200).map(|_| text(random)));
    let longest =
        headed(BETWEEN, &vec![format!("ABCDEFGHIJKL ABCDEFGHIJKL {FARTHEST} {FARTHEST} 65535\n"); SHOTS]).into_bytes();
    assert_eq!(longest.len(), 24_030, "the longest accepted listing");
    texts.push(longest);
    for text in &texts {
        writes(
            &run(misses::PROGRAM, text, text.len().max(1), Duration::ZERO),
            expected(text).as_bytes(),
            "",
            &format!("\"{}\"", text.escape_ascii()),
        );
    }
    format!("the program misses on {} listings of two readings", texts.len())
}
