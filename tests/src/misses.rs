//! Listings, whole and damaged, through the call and the program that tell how far their loop misses.
use crate::cases::{same, Case};
use crate::elsewhere::{self, Written};
use crate::job;
use crate::misclosure::{miss, Miss, FARTHEST, HEADER, SHOTS};
use crate::program::{failures, run, writes};
use crate::random::Random;
use crate::sample::Tables;
use crate::sums::{self, headed};
use std::time::Duration;

pub const PROGRAM: &str = "target/bin/misses";

extern "C" {
    fn jabulghi_misclosure(
        text: *const u8,
        length: usize,
        sums: *mut i64,
        millimetres: *mut i64,
        line: *mut u32,
    ) -> u32;
}

pub type Listing = sums::Listing<2>;

impl Case for Listing {
    type Answer = Miss;
    fn library(&self) -> Miss {
        self.through(jabulghi_misclosure)
    }
    fn other(&self, tables: &Tables) -> Miss {
        miss(tables, &self.text)
    }
    fn smaller(&self) -> Vec<Listing> {
        self.shorter()
    }
}

fn listing(rows: &[String]) -> String {
    headed(HEADER, rows)
}

/// Shots that follow each other, with their distances and steps.
fn chain(numbers: &[(u64, u64)]) -> Vec<String> {
    sums::chain(numbers.iter().map(|(mm, step)| format!("{mm} {step}")))
}

pub fn of(numbers: &[(u64, u64)]) -> Listing {
    Listing { text: listing(&chain(numbers)).into_bytes() }
}

/// Every cause with its line, two causes on one line, ends, and sums at the edges of rounding.
fn written() -> Vec<Vec<u8>> {
    let far = FARTHEST;
    let mut out: Vec<String> = vec![
        String::new(),
        HEADER.into(),
        listing(&[]),
        HEADER[..15].into(),
        listing(&chain(&[(12356, 4527), (9011, 8)])),
        listing(&["A B 5 1\n".into(), "b C 5 1\n".into()]),
        listing(&["A B 5 1\n".into(), format!("C D {} 65536\n", far + 1)]),
        listing(&["A B 5 1\n".into(), "C D 05 1\n".into()]),
        listing(&["A A 7 9\n".into(), "A A 7 9\n".into()]),
        listing(&["END 5 5 5\n".into(), "5 END 5 5\n".into()]),
        listing(&["FROM TO 5 5\n".into(), "FROM TO MM STEP\n".into()]),
        format!("{HEADER}END 0\nEND 0\n"),
        format!("{HEADER}END 0\n\n"),
        format!("{HEADER}END 0\nx"),
        format!("{HEADER}END 0"),
        format!("{HEADER}END\n"),
        format!("{HEADER}END 00\n"),
        format!("{HEADER}END 4294967296\n"),
        format!("\n{HEADER}END 0\n"),
        format!("{}END 1\n", listing(&chain(&[(1, 1)]))),
    ];
    for (mm, step) in [
        (0, 0),
        (1, 0),
        (far, 0),
        (far, 16384),
        (far, 32768),
        (far, 49152),
        (far, 65535),
        (far + 1, 0),
        (1, 65536),
        (9999999999, 1),
    ] {
        out.push(listing(&chain(&[(mm, step)])));
        out.push(listing(&chain(&[(mm, step), (mm, step.wrapping_add(32768) % 65536)])));
    }
    for count in [1, 2, SHOTS - 1, SHOTS, SHOTS + 1, SHOTS + 2] {
        for step in [0, 8192, 40000] {
            out.push(listing(&chain(&vec![(far, step); count])));
        }
        let rows = chain(&vec![(3, 3); count]);
        out.push(format!("{HEADER}{}END {}\n", rows.concat(), count + 1));
        out.push(format!("{HEADER}{}END {}\n", rows.concat(), count - 1));
        out.push(format!("{HEADER}{}", rows.concat()));
        out.push(format!("{HEADER}{}A B {} 1\n", rows.concat(), far + 1));
    }
    for step in 0..2048 {
        out.push(listing(&chain(&[(1, 32 * step)])));
    }
    out.into_iter().map(String::into_bytes).collect()
}

/// Listings with a sum just at half a millimetre, and a shot of 0, 1 or -1 mm more to the other side: distances that make an odd multiple of 2^29 of a sine or a
/// cosine.
fn halves(tables: &Tables) -> Vec<Vec<u8>> {
    let mut out = Vec::new();
    for step in 0..65536 {
        let (sine, cosine) = tables.rotation(step as u32);
        for zeros in [sine, cosine].map(i128::trailing_zeros) {
            if (10..=29).contains(&zeros) {
                let rows = [(1 << (29 - zeros), step)];
                out.push(listing(&chain(&rows)));
                out.extend([0, 16384, 32768, 49152].map(|turn| listing(&chain(&[rows[0], (1, turn)]))));
            }
        }
    }
    out.into_iter().map(String::into_bytes).collect()
}

/// A number up to a limit, the limit itself and small ones often; a loose one may pass it.
pub fn up_to(random: &mut Random, most: u64, loose: bool) -> u64 {
    match random.below(12) {
        0 if loose => most + 1,
        1 if loose => 9_999_999_999,
        0..=2 => most,
        3 => 0,
        4 | 5 => random.below(10) as u64,
        _ => random.below(most as usize + 1) as u64,
    }
}

fn numbers(random: &mut Random, loose: bool) -> (u64, u64) {
    (up_to(random, FARTHEST, loose), up_to(random, 65535, loose))
}

fn text(random: &mut Random) -> Vec<u8> {
    let shown = |random: &mut Random, loose| {
        let (mm, step) = numbers(random, loose);
        format!("{mm} {step}")
    };
    sums::text(random, (8, 2), |_| HEADER, shown)
}

/// A listing of the listing call whose shots follow each other.
fn heard(tables: &Tables, random: &mut Random) -> Vec<u8> {
    let mut job = format!(
        "(seeds (a {0} {0} {0}) (b {0} {0} {0}))\n(sigma {1} {1})\n",
        16 + random.next() as u32 / 2,
        random.below(1001)
    );
    for j in 0..random.below(SHOTS + 1) {
        job += &format!("(shot S{j} S{} {} {})\n", j + 1, random.below(1_000_001), random.below(65536));
    }
    job::list(tables, job.as_bytes(), job::ROOM).2
}

pub fn given(tables: &Tables) -> String {
    let (texts, halves) = (written(), halves(tables));
    assert!(halves.len() > 500, "{} halves", halves.len());
    for text in texts.iter().chain(&halves) {
        same(tables, &Listing { text: text.clone() });
    }
    format!(
        "{} listings written out, {} of them with a sum at half a millimetre",
        texts.len() + halves.len(),
        halves.len()
    )
}

/// One call, for other processors.
pub fn elsewhere(tables: &Tables, random: &mut Random) -> Written {
    let text = elsewhere::short(|| text(random), Vec::len);
    sums::elsewhere("misclosure", &text, miss(tables, &text))
}

pub fn listings(tables: &Tables, random: &mut Random) -> String {
    let (count, mut accepted) = (60_000, 0);
    for _ in 0..count {
        accepted += u32::from(same(tables, &Listing { text: text(random) }).0 == 0);
    }
    assert!(accepted > 10_000 && accepted < 50_000, "{accepted} of {count} accepted");
    let back = 300;
    for _ in 0..back {
        let listing = heard(tables, random);
        assert_eq!(same(tables, &Listing { text: listing }).0, 0, "a listing of the listing call is read back");
    }
    // joined runs add up before rounding, and a shot and the same half a turn on cancel
    for _ in 0..2000 {
        let rows: Vec<_> = (0..random.below(SHOTS + 1)).map(|_| numbers(random, false)).collect();
        let at = random.below(rows.len() + 1);
        let [whole, first, second] = [&rows[..], &rows[..at], &rows[at..]].map(|rows| of(rows).library());
        assert_eq!(whole.2, [first.2[0] + second.2[0], first.2[1] + second.2[1]], "{rows:?} at {at}");
        let (mm, step) = numbers(random, false);
        let both = of(&[(mm, step), (mm, (step + 32768) % 65536)]).library();
        assert_eq!(both, (0, 0, [0; 2], [0; 2]), "{mm} {step}");
    }
    format!("{count} listings, {accepted} accepted, {back} of the listing call")
}

/// What the program has to print for a listing of one distance a shot.
pub fn expected(tables: &Tables, text: &[u8]) -> String {
    match miss(tables, text) {
        (0, _, _, [east, north]) => format!("EAST {east}\nNORTH {north}\n"),
        (number, line, _, _) => format!("REFUSED {number} {line}\n"),
    }
}

/// The program as it is built, fed through pipes.
pub fn program(tables: &Tables, random: &mut Random) -> String {
    let expected = |text: &[u8]| expected(tables, text);
    let mut texts: Vec<Vec<u8>> = written().into_iter().step_by(20).collect();
    texts.extend((0..400).map(|_| text(random)));
    for text in texts.iter().filter(|text| text.len() <= 65536) {
        writes(
            &run(PROGRAM, text, text.len().max(1), Duration::ZERO),
            expected(text).as_bytes(),
            "",
            &format!("\"{}\"", text.escape_ascii()),
        );
    }
    let longest = listing(&vec![format!("ABCDEFGHIJKL ABCDEFGHIJKL {FARTHEST} 65535\n"); SHOTS]);
    let example = listing(&chain(&[(12356, 4527), (9011, 8)]));
    for (text, piece, pause) in [(&longest, 4096, 1), (&example, 1, 1), (&example, 20, 50)] {
        writes(
            &run(PROGRAM, text.as_bytes(), piece, Duration::from_millis(pause)),
            expected(text.as_bytes()).as_bytes(),
            "",
            "a slow pipe",
        );
    }
    // as many bytes as are read, and one more
    for (length, out, err) in
        [(65536, "REFUSED 6 3\n", ""), (65537, "", "misses: standard input has more than 65536 bytes\n")]
    {
        let mut text = listing(&[]).into_bytes();
        text.resize(length, b'x');
        writes(&run(PROGRAM, &text, 4096, Duration::ZERO), out.as_bytes(), err, "a long text");
    }
    format!(
        "the program misses on {} texts and {} failed reads and writes",
        texts.len() + 5,
        failures(PROGRAM, "misses", &example)
    )
}
