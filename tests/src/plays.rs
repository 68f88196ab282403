//! Many plays of one loop: the library's misses beside the other implementation's, by the texts' way. Each play is a job of the same lines whose seeds are
//! the registers that many pairs on, listed, and the listing summed.
use crate::cases::{below, lines, same, without_one, Case};
use crate::elsewhere::{self, Written};
use crate::job;
use crate::jump;
use crate::library::{Lent, Mark};
use crate::misclosure;
use crate::random::Random;
use crate::sample::Tables;
use crate::stream::Registers;
use crate::texts;
use std::fmt;

extern "C" {
    fn jabulghi_play(
        text: *const u8,
        text_length: usize,
        first: u64,
        misses: *mut [i64; 2],
        runs: usize,
        line: *mut u32,
    ) -> u32;
}

impl Mark for [i64; 2] {
    fn mark(place: usize) -> [i64; 2] {
        [1, 2].map(|j| (2 * place as i64 + j).wrapping_mul(0x1E3779B97F4A7C15))
    }
}

/// Number, text, misses, line.
type Played = (u32, Lent<u8>, Lent<[i64; 2]>, Lent<u32>);

/// A text, the first play, and how many.
#[derive(Clone)]
struct Plays(Vec<u8>, u64, usize);

impl fmt::Debug for Plays {
    fn fmt(&self, f: &mut fmt::Formatter) -> fmt::Result {
        write!(
            f,
            "{} plays from play {} of a job of {} bytes: \"{}\"",
            self.2,
            self.1,
            self.0.len(),
            self.0.escape_ascii()
        )
    }
}

/// The six numbers of line 1.
fn seeds(text: &[u8]) -> Registers {
    let line = text.split(|&b| b == b'\n').next().unwrap();
    let numbers = line.split(|b| !b.is_ascii_digit()).filter(|word| !word.is_empty());
    let numbers: Vec<u32> = numbers.map(|word| std::str::from_utf8(word).unwrap().parse().unwrap()).collect();
    numbers.try_into().unwrap()
}

/// The stations of a shot's line.
fn stations(line: &[u8]) -> (&[u8], &[u8]) {
    let mut words = line.split(|&b| b == b' ').skip(1);
    (words.next().unwrap(), words.next().unwrap())
}

/// The line of the first shot of a listed job that does not start where the last one ended.
fn unlinked(text: &[u8]) -> Option<u32> {
    let lines = lines(text);
    (3..lines.len()).find(|&j| stations(lines[j]).0 != stations(lines[j - 1]).1).map(|j| j as u32 + 1)
}

/// The job with the registers that many pairs on for its seeds.
fn reseeded(text: &[u8], pairs: u64) -> Vec<u8> {
    let [a0, a1, a2, b0, b1, b2] = jump::ahead(&seeds(text), pairs);
    let rest = text.iter().position(|&b| b == b'\n').unwrap() + 1;
    [format!("(seeds (a {a0} {a1} {a2}) (b {b0} {b1} {b2}))\n").as_bytes(), &text[rest..]].concat()
}

/// Number, line and the misses, none where refused.
fn plays(tables: &Tables, text: &[u8], first: u64, runs: usize) -> (u32, u32, Vec<[i64; 2]>) {
    let (number, line, listing) = job::list(tables, text, usize::MAX);
    if number != 0 {
        return (number, line, Vec::new());
    }
    if let Some(line) = unlinked(text) {
        return (23, line, Vec::new());
    }
    let shots = (listing.split(|&b| b == b'\n').count() - 3) as u128;
    if (u128::from(first) + runs as u128) * shots > u128::from(u64::MAX) {
        return (13, 0, Vec::new());
    }
    let miss = |j: u64| {
        let (number, _, listing) = job::list(tables, &reseeded(text, (u128::from(j) * shots) as u64), usize::MAX);
        assert_eq!(number, 0, "the job of play {j}");
        let (number, _, _, millimetres) = misclosure::miss(tables, &listing);
        assert_eq!(number, 0, "the listing of play {j}");
        millimetres
    };
    (0, 0, (0..runs as u64).map(|j| miss(first.wrapping_add(j))).collect())
}

impl Case for Plays {
    type Answer = Played;
    fn library(&self) -> Played {
        let (mut text, mut misses, mut line) = (Lent::holding(&self.0), Lent::marked(self.2), Lent::marked(1));
        let number =
            unsafe { jabulghi_play(text.pointer(), self.0.len(), self.1, misses.pointer(), self.2, line.pointer()) };
        (number, text, misses, line)
    }
    fn other(&self, tables: &Tables) -> Played {
        let (number, line, found) = plays(tables, &self.0, self.1, self.2);
        (number, Lent::holding(&self.0), Lent::starting(&found, self.2), Lent::holding(&[line]))
    }
    fn smaller(&self) -> Vec<Plays> {
        let Plays(text, first, runs) = self;
        let lines = lines(text);
        let mut out: Vec<Plays> =
            below(*runs as u64).into_iter().map(|r| Plays(text.clone(), *first, r as usize)).collect();
        out.extend(below(*first).into_iter().map(|f| Plays(text.clone(), f, *runs)));
        out.extend(without_one(&lines).rev().map(|lines| Plays(lines.concat(), *first, *runs)));
        out
    }
}

/// A job whose shots follow each other, but for one in some.
fn chain(random: &mut Random) -> Vec<u8> {
    let mut lines: Vec<Vec<u8>> = lines(&texts::text(random)).into_iter().map(<[u8]>::to_vec).collect();
    let broken = if random.one_in(6) && lines.len() > 3 { 3 + random.below(lines.len() - 3) } else { usize::MAX };
    let mut station = texts::name(random).into_bytes();
    for (at, line) in lines.iter_mut().enumerate().skip(2) {
        let words: Vec<&[u8]> = line.split(|&b| b == b' ').collect();
        if words.len() == 5 && words[0] == b"(shot" {
            let from = if at == broken { b"broken".as_slice() } else { &station };
            let to = words[2].to_vec();
            *line = [words[0], from, &to, words[3], words[4]].join(&b' ');
            station = to;
        }
    }
    lines.concat()
}

const LOOP: &str =
    "(seeds (a 2 8 16) (b 2 8 16))\n(sigma 4 10)\n(shot A B 12345 0)\n(shot B C 9000 21845)\n(shot C A 9000 43690)\n";

/// Plays written out: none, of none, near the count's end, and each refusal.
pub fn given(tables: &Tables) -> String {
    let most = u64::MAX / 3;
    let loops = [0, 1, most - 2, most - 1, most, most + 1, u64::MAX];
    let mut cases: Vec<Plays> =
        loops.iter().flat_map(|&first| [0, 1, 2, 3].map(|runs| Plays(LOOP.into(), first, runs))).collect();
    let empty = &LOOP[..LOOP.find("(shot").unwrap()];
    cases.extend([0, 1, u64::MAX].map(|first| Plays(empty.into(), first, 2)));
    let long: String = LOOP.to_string() + &"(shot A A 1 0)\n".repeat(497);
    let texts = [
        long.clone(),
        long.clone() + "(shot A A 1 0)\n",
        LOOP.replace("C A 9000", "D A 9000"),
        LOOP.replace("B C 9000", "b C 9000"),
        LOOP.replace("(sigma 4 10)", "(sigma 4 1001)"),
        LOOP.replace("(a 2", "(a 1"),
        LOOP.replace("(b 2", "(b 1"),
        LOOP.replace("(sigma 4 10)\n", ""),
        LOOP.replace("(shot B", "(shoot B"),
        LOOP.lines().next().unwrap().to_string() + "\n",
        " ".repeat(60_001),
        String::new(),
    ];
    cases.extend(texts.into_iter().map(|text| Plays(text.into(), 7, 3)));
    let mut numbers = [0; 24];
    for case in &cases {
        numbers[same(tables, case).0 as usize] += 1;
    }
    for number in [0, 5, 6, 7, 8, 9, 11, 12, 13, 23] {
        assert!(numbers[number] > 0, "no play is refused with {number}");
    }
    format!("{} calls for plays written out, by number {numbers:?}", cases.len())
}

/// A job, the first of its plays, and how many.
fn of_job(random: &mut Random) -> Plays {
    let text = chain(random);
    let shots = (text.split(|&b| b == b'\n').count() as u64).saturating_sub(3).max(1);
    let first = match random.below(5) {
        0 => 0,
        1 => u64::MAX / shots - random.below(6) as u64,
        2 => random.number(64),
        _ => random.number(20),
    };
    let runs = if shots > 100 { random.below(3) } else { random.below(7) };
    Plays(text, first, runs)
}

/// One call, for other processors.
pub fn elsewhere(tables: &Tables, random: &mut Random) -> Written {
    let case = elsewhere::short(|| of_job(random), |case| case.0.len());
    let Plays(text, first, runs) = &case;
    let (number, same_text, misses, line) = case.other(tables);
    let written =
        Written::new("play", number, &[text.len() as u64, *first, *runs as u64]).lent(&Lent::holding(text), &same_text);
    written.lent(&Lent::marked(*runs), &misses).lent(&Lent::marked(1), &line)
}

pub fn plays_of_jobs(tables: &Tables, random: &mut Random) -> String {
    let (count, mut played) = (6000, 0);
    let mut numbers = [0; 24];
    for _ in 0..count {
        let case = of_job(random);
        let (runs, number) = (case.2, same(tables, &case).0);
        numbers[number as usize] += 1;
        played += if number == 0 { runs } else { 0 };
    }
    for number in [0, 5, 6, 7, 8, 9, 11, 12, 13, 23] {
        assert!(numbers[number] > 0, "no play is refused with {number}");
    }
    format!("{count} jobs, {played} plays, by number {numbers:?}")
}
