//! Jobs, whole and damaged.
use crate::inputs::seeds;
use crate::job::SHOTS;
use crate::random::Random;

pub fn name(random: &mut Random) -> String {
    let most = if random.one_in(8) { 12 } else { 4 };
    let length = 1 + random.below(most);
    let letter = |random: &mut Random| char::from(*random.of(b"ABYZabyz0189Mm5"));
    (0..length).map(|_| letter(random)).collect()
}

/// A number up to `most`; where `loose`, sometimes beyond it.
fn up_to(random: &mut Random, most: usize, loose: bool) -> usize {
    match random.below(18) {
        0 if loose => most + 1,
        1 if loose => 9_999_999_999,
        0..=2 => 0,
        3..=5 => most,
        6..=8 => random.below(10),
        _ => random.below(most + 1),
    }
}

fn shot(random: &mut Random, loose: bool) -> String {
    let (from, to) = (name(random), name(random));
    format!("(shot {from} {to} {} {})\n", up_to(random, 1_000_000, loose), up_to(random, 65535, loose))
}

fn lines(random: &mut Random) -> Vec<String> {
    let s = seeds(random);
    let shots = match random.below(60) {
        0 => *random.of(&[SHOTS - 1, SHOTS, SHOTS + 1, SHOTS + 2]),
        1..=4 => random.below(SHOTS + 1),
        _ => random.below(12),
    };
    let last = if random.one_in(50) { 4_294_967_296 } else { u64::from(s[5]) };
    let loose = random.one_in(10);
    let mut lines = vec![
        format!("(seeds (a {} {} {}) (b {} {} {last}))\n", s[0], s[1], s[2], s[3], s[4]),
        format!("(sigma {} {})\n", up_to(random, 1000, loose), up_to(random, 1000, loose)),
    ];
    // the last shot alone may be loose, so that a 501st is met with a number beyond its range
    let last_loose = random.one_in(10);
    lines.extend((0..shots).map(|j| shot(random, loose || last_loose && j + 1 == shots)));
    lines
}

/// The places of the runs of letters and digits.
fn words(text: &[u8]) -> Vec<(usize, usize)> {
    let mut out: Vec<(usize, usize)> = Vec::new();
    for at in (0..text.len()).filter(|&at| text[at].is_ascii_alphanumeric()) {
        match out.last_mut() {
            Some(word) if word.1 == at => word.1 += 1,
            _ => out.push((at, at + 1)),
        }
    }
    out
}

/// Words that are at, just beyond or far beyond what a number, a name or a keyword may be.
const WORDS: [&str; 25] = [
    "0",
    "00",
    "01",
    "1",
    "1000",
    "1001",
    "65535",
    "65536",
    "1000000",
    "1000001",
    "4294967295",
    "4294967296",
    "9999999999",
    "10000000000",
    "",
    "A",
    "ABCDEFGHIJKL",
    "ABCDEFGHIJKLM",
    "A-1",
    "seeds",
    "sigma",
    "shot",
    "a",
    "b",
    "999999999999999999999",
];
const BYTES: &[u8] = b" ()\n\r\t\x000129:/@AZ[`az{~\x7f\x80\xff";

pub fn damage(random: &mut Random, text: &mut Vec<u8>) {
    let at = random.below(text.len() + 1);
    let byte = if random.one_in(4) { random.next() as u8 } else { *random.of(BYTES) };
    match random.below(8) {
        0 => text.truncate(at),
        1 => text.insert(at, byte),
        2 if at < text.len() => drop(text.remove(at)),
        3 if at < text.len() => text[at] = byte,
        4 => {
            let length = random.below(text.len() + 1 - at).min(100);
            let part = text[at..at + length].to_vec();
            let to = random.below(text.len() + 1);
            text.splice(to..to, part);
        }
        5 => {
            let length = *random.of(&[60_000, 60_001, 60_001 + at]);
            let filler = if random.one_in(2) { b'x' } else { b'\n' };
            text.resize(text.len().max(length), filler);
        }
        _ => {
            let words = words(text);
            if !words.is_empty() {
                let (from, to) = *random.of(&words[..words.len().min(40)]);
                text.splice(from..to, random.of(&WORDS).bytes());
            }
        }
    }
}

/// A job's text: as it should be, with its lines out of order, or with some bytes changed.
pub fn text(random: &mut Random) -> Vec<u8> {
    let mut lines = lines(random);
    if random.one_in(8) {
        let (i, j) = (random.below(lines.len().min(5)), random.below(lines.len().min(5)));
        match random.below(3) {
            0 => lines.swap(i, j),
            1 => drop(lines.remove(i)),
            _ => lines.insert(i, lines[j].clone()),
        }
    }
    let mut text = lines.concat().into_bytes();
    if random.one_in(2) {
        for _ in 0..1 + random.below(2) {
            damage(random, &mut text);
        }
    }
    text
}
