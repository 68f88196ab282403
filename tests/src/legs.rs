//! Level legs from Survex: the library's call and the built program beside the other implementation, and the real peer, Survex's `cavern`.
use crate::cases::{lines, same, without_one, Case};
use crate::elsewhere::Written;
use crate::job::{self, ROOM, SHOTS};
use crate::library::Lent;
use crate::program::{failures, run, writes};
use crate::random::Random;
use crate::sample::Tables;
use crate::survex;
use std::collections::HashMap;
use std::fmt;
use std::process::{Command, Output};
use std::time::Duration;

extern "C" {
    fn jabulghi_legs(
        text: *const u8,
        text_length: usize,
        shots: *mut u8,
        shots_length: usize,
        line: *mut usize,
        length: *mut usize,
    ) -> u32;
}

const PROGRAM: &str = "target/bin/legs";
const DATA: &str = "*data normal from to tape compass clino\n";
/// What the program holds.
const MOST: usize = 100_000;

/// A text and the length of the buffer lent for its shot lines.
#[derive(Clone)]
struct Legs(Vec<u8>, usize);

impl fmt::Debug for Legs {
    fn fmt(&self, f: &mut fmt::Formatter) -> fmt::Result {
        write!(f, "a Survex text of {} bytes, room {}: \"{}\"", self.0.len(), self.1, self.0.escape_ascii())
    }
}

/// Number, text, shot lines, line, length.
type Answer = (u32, Lent<u8>, Lent<u8>, Lent<usize>, Lent<usize>);

impl Case for Legs {
    type Answer = Answer;
    fn library(&self) -> Answer {
        let (mut text, mut shots) = (Lent::holding(&self.0), Lent::marked(self.1));
        let (mut line, mut length) = (Lent::marked(1), Lent::marked(1));
        let number = unsafe {
            jabulghi_legs(text.pointer(), self.0.len(), shots.pointer(), self.1, line.pointer(), length.pointer())
        };
        (number, text, shots, line, length)
    }
    fn other(&self, _: &Tables) -> Answer {
        let (number, line, bytes) = survex::legs(&self.0, self.1);
        (
            number,
            Lent::holding(&self.0),
            Lent::starting(&bytes, self.1),
            Lent::holding(&[line]),
            Lent::holding(&[bytes.len()]),
        )
    }
    fn smaller(&self) -> Vec<Legs> {
        let Legs(text, room) = self;
        let mut texts: Vec<Vec<u8>> = without_one(&lines(text)).map(|lines| lines.concat()).collect();
        if text.len() < 400 {
            texts.extend(without_one(text));
        }
        texts.into_iter().map(|text| Legs(text, *room)).collect()
    }
}

/// The refusals of document 02, and the edges of its ranges.
fn given() -> Vec<Vec<u8>> {
    let leg = |fields: &str| format!("{DATA}{fields}\n").into_bytes();
    let mut texts: Vec<Vec<u8>> = [
        "",
        "\n",
        " \t;\n",
        DATA,
        DATA.trim_end(),
        ";c",
        " ",
        "\n \n\t\n",
        "*data normal from to tape  compass clino\n",
        "*DATA normal from to tape compass clino\n",
        " \t*data normal from to tape compass clino\t ; c\n",
        "*data normal from to tape compass clino\r\n",
        "*data normal from to tape compass clino x\n",
        "\n;\nA B 1 1 0\n",
        "*begin\n*data normal from to tape compass clino\n",
    ]
    .iter()
    .map(|text| text.as_bytes().to_vec())
    .collect();
    for fields in [
        "A B 0 0 0",
        "A B 1000 360 0",
        "A B 1000.000 360.00 0",
        "A B 1000.001 0 0",
        "A B 1 360.01 0",
        "A B 0007.5 0 0",
        "A B 00007 0 0",
        "A B .5 0 0",
        "A B 5. 0 0",
        "A B 1.2345 0 0",
        "A B 1 1.234 0",
        "A B 1 0.01 0",
        "A B 9999 0 0",
        "A B 1 9999 0",
        "A B 1 1 00",
        "A B 1 1 x",
        "A B 1 1 -",
        "A B 1 1 +0",
        "A B 1 1 0.0",
        "A B 1 1",
        "A B 1 1 0 0",
        "A B -1 1 0",
        "A B 1e1 1 0",
        "A B 1.1.1 1 0",
        "A B 1 1 0;c",
        "A B 1 1 ;0",
        "A;B 1 1 0",
        "\tA\t B  1 \t1 0\t",
        "A_ B 1 1 0",
        "ABCDEFGHIJKL B 1 1 0",
        "ABCDEFGHIJKLM B 1 1 0",
        "A B 2000 1 0 0",
        "A_ B 2000 1 0",
        "A B 1.2345 361 1",
        "A B 1001 1.234 x",
        "\u{c4} B 1 1 0",
        "A B 1\r 1 0",
        "A B 1 1 0\r",
        "*end",
        "A\0B C 1 1 0",
        "A B 10000 1 0",
        "A B 1 0.0 0",
        "A B 1 359.99 0",
    ] {
        texts.push(leg(fields));
        texts.push(leg(fields).strip_suffix(b"\n").unwrap().to_vec());
        texts.push([DATA.as_bytes(), b"\n ; c\n", &leg(fields)[DATA.len()..], b"A B 1 1 x\n"].concat());
    }
    texts
}

/// Every compass of at most two decimals, in every form.
fn compasses() -> Vec<Vec<u8>> {
    let forms = |c: u32| {
        let (whole, rest) = (c / 100, c % 100);
        let mut forms = vec![format!("{whole}.{rest:02}"), format!("{whole:04}.{rest:02}")];
        if rest % 10 == 0 {
            forms.push(format!("{whole}.{}", rest / 10));
        }
        if rest == 0 {
            forms.push(whole.to_string());
        }
        forms
    };
    let legs: Vec<String> = (0..=36_000).flat_map(forms).map(|c| format!("A B 1 {c} 0\n")).collect();
    legs.chunks(500).map(|part| format!("{DATA}{}", part.concat()).into_bytes()).collect()
}

fn name(random: &mut Random, j: usize) -> String {
    let letter = *random.of(&["A", "b", "Q", "st"]);
    format!("{letter}{j}")
}

fn measure(random: &mut Random, most: u64, decimals: u32) -> String {
    let scale = 10u64.pow(decimals);
    let value = match random.below(8) {
        0 => 0,
        1 => most * scale,
        2 => random.next() % 100,
        _ => random.next() % (most * scale + 1),
    };
    let (whole, rest) = (value / scale, value % scale);
    let digits = decimals as usize;
    let whole = if random.one_in(6) { format!("{whole:04}") } else { whole.to_string() };
    if rest == 0 && random.one_in(2) {
        return whole;
    }
    let fraction = format!("{rest:0digits$}");
    let cut = fraction.trim_end_matches('0');
    let fraction = if random.one_in(2) && !cut.is_empty() { cut } else { &fraction };
    format!("{whole}.{fraction}")
}

/// A chain of legs with comments, tabs, blank lines and all number forms; it is accepted.
fn survey(random: &mut Random, legs: usize) -> String {
    let gap = |random: &mut Random| random.of(&[" ", "  ", "\t", " \t "]).to_string();
    let mut text = String::new();
    let fill = |random: &mut Random, text: &mut String| {
        while random.one_in(4) {
            text.push_str(random.of::<&str>(&["\n", " \t\n", ";\n", "; a comment; with another\n", "\t;x\n"]));
        }
    };
    fill(random, &mut text);
    text.push_str(DATA);
    let first = random.below(1000);
    let mut from = name(random, first);
    for j in 0..legs {
        fill(random, &mut text);
        let to = name(random, first + j + 1);
        let fields = [from.clone(), to.clone(), measure(random, 1000, 3), measure(random, 360, 2), "0".to_string()];
        if random.one_in(5) {
            text.push_str(&gap(random));
        }
        for (k, field) in fields.iter().enumerate() {
            if k > 0 {
                text.push_str(&gap(random));
            }
            text.push_str(field);
        }
        text.push_str(random.of::<&str>(&["\n", " \n", ";c\n", "\t; c\n"]));
        from = to;
    }
    fill(random, &mut text);
    text
}

/// A survey with bytes changed, put in or taken out.
fn damaged(random: &mut Random) -> Vec<u8> {
    let legs = random.below(8);
    let mut text = survey(random, legs).into_bytes();
    for _ in 0..random.below(4) {
        let at = random.below(text.len() + 1);
        let byte = *random.of(b" \t\n;.0159AZz*x-_\r\0\xff");
        match random.below(3) {
            0 => text.insert(at, byte),
            1 if at < text.len() => text[at] = byte,
            _ if at < text.len() => drop(text.remove(at)),
            _ => {}
        }
    }
    text
}

/// One call, for other processors.
pub fn elsewhere(tables: &Tables, random: &mut Random) -> Written {
    let legs = random.below(12);
    let text = if random.one_in(3) { survey(random, legs).into_bytes() } else { damaged(random) };
    let room = survex::legs(&text, usize::MAX).2.len() + *random.of(&[0, 0, 20]);
    let room = if random.one_in(6) { room / 2 } else { room };
    let (number, same_text, shots, line, length) = Legs(text.clone(), room).other(tables);
    let written =
        Written::new("legs", number, &[text.len() as u64, room as u64]).lent(&Lent::holding(&text), &same_text);
    written.lent(&Lent::marked(room), &shots).lent(&Lent::marked(1), &line).lent(&Lent::marked(1), &length)
}

pub fn calls(tables: &Tables, random: &mut Random) -> String {
    let mut count = 0;
    let mut check = |text: Vec<u8>, room| {
        same(tables, &Legs(text, room));
        count += 1;
    };
    for text in given().into_iter().chain(compasses()) {
        let length = survex::legs(&text, usize::MAX).2.len();
        for room in [length, length.saturating_sub(1), length + 20] {
            check(text.clone(), room);
        }
    }
    for j in 0..60_000 {
        let text = if j % 3 == 0 {
            let n = random.below(20);
            survey(random, n).into_bytes()
        } else {
            damaged(random)
        };
        let length = survex::legs(&text, usize::MAX).2.len();
        let room = match random.below(3) {
            0 => length,
            1 => random.below(length + 2),
            _ => length + random.below(40),
        };
        check(text, room);
    }
    for legs in [SHOTS, SHOTS + 1, 3000] {
        check(survey(random, legs).into_bytes(), 47 * legs);
    }
    format!("{count} Survex texts")
}

/// A converted survey of at most 500 legs is listed, the list being its shots where both sigmas are 0.
fn listing(tables: &Tables, shots: &[u8]) -> String {
    let text = [b"(seeds (a 2 8 16) (b 2 8 16))\n(sigma 0 0)\n", shots].concat();
    let (number, line, listing) = job::list(tables, &text, ROOM);
    assert_eq!((number, line), (0, 0), "a converted survey is listed");
    String::from_utf8(listing).unwrap()
}

fn at_once(text: &[u8]) -> Output {
    run(PROGRAM, text, text.len().max(1), Duration::ZERO)
}

pub fn program(tables: &Tables, random: &mut Random) -> String {
    let expected = |text: &[u8]| match survex::legs(text, usize::MAX) {
        (0, _, shots) => shots,
        (number, line, _) => format!("REFUSED {number} {line}\n").into_bytes(),
    };
    let mut texts = given();
    texts.extend((0..200).map(|_| damaged(random)));
    texts.push(survey(random, SHOTS).into_bytes());
    // the longest text that is held, and the most that shot lines can grow: legs of ten bytes
    texts.push(format!("{DATA}{}", "a b 9 9 0\n".repeat((MOST - DATA.len()) / 10)).into_bytes());
    texts.push([b" ".repeat(MOST - 1), b"\n".to_vec()].concat());
    for text in &texts {
        writes(&at_once(text), &expected(text), "", &format!("\"{}\"", text.escape_ascii()));
    }
    for (piece, pause) in [(1, 1), (30, 20)] {
        let text = survey(random, 12);
        writes(
            &run(PROGRAM, text.as_bytes(), piece, Duration::from_millis(pause)),
            &expected(text.as_bytes()),
            "",
            "a slow pipe",
        );
    }
    let sentence = format!("legs: the text has more than {MOST} bytes\n");
    for more in [1, 5000, 1_000_000] {
        let text = [DATA.as_bytes(), &b"\n".repeat(MOST - DATA.len() + more)].concat();
        writes(&run(PROGRAM, &text, 4096, Duration::ZERO), b"", &sentence, "a text that is too long");
    }
    let example = std::fs::read("examples/streamway.svx").unwrap();
    let shots = at_once(&example);
    writes(&shots, &expected(&example), "", "the example cave");
    assert!(listing(tables, &shots.stdout).lines().count() > 10, "the example cave has shots");
    let failed = failures(PROGRAM, "legs", &format!("{DATA}A1 A2 12.5 90 0\n"));
    format!("the program legs on {} texts and {failed} failed reads and writes", texts.len() + 6)
}

/// The station positions that Survex's `cavern` and `survexport` give, by name in lower case; None where it refuses.
fn positions(folder: &std::path::Path, text: &str) -> Option<HashMap<String, (f64, f64)>> {
    std::fs::write(folder.join("cave.svx"), text).unwrap();
    let run = |program: &str, words: &[&str]| Command::new(program).args(words).current_dir(folder).output().unwrap();
    if !run("cavern", &["--quiet", "cave.svx"]).status.success() {
        return None;
    }
    assert!(run("survexport", &["--pos", "cave.3d", "cave.pos"]).status.success(), "survexport");
    let text = std::fs::read_to_string(folder.join("cave.pos")).unwrap();
    // a line is (east, north, up) and a name
    let station = |line: &str| {
        let (inside, name) = line.trim().strip_prefix('(')?.split_once(')')?;
        let mut numbers = inside.split(',').map(|n| n.trim().parse::<f64>());
        Some((name.trim().to_lowercase(), (numbers.next()?.ok()?, numbers.next()?.ok()?)))
    };
    Some(text.lines().filter_map(station).collect())
}

/// The program of Survex that is missing here.
pub fn peer_lacks() -> Option<&'static str> {
    ["cavern", "survexport"].into_iter().find(|program| Command::new(program).arg("--version").output().is_err())
}

/// Surveys that the converter accepts, run through the real `cavern`: it accepts them, and the last station of a chain, added up from the listing
/// with both sigmas 0, is where it puts it. A bearing is at most half a step off, pi / 65536 of the distance; a position is printed to 0.01 m, so
/// that two are at most 0.01 m off.
pub fn peer(tables: &Tables, random: &mut Random) -> String {
    let folder = std::env::temp_dir().join(format!("jabulghi-survex-{}", std::process::id()));
    std::fs::create_dir_all(&folder).unwrap();
    let count = 150;
    let mut farthest: f64 = 0.0;
    for j in 0..count {
        let legs = if j % 30 == 0 { SHOTS } else { 1 + random.below(40) };
        let text = survey(random, legs);
        let (number, _, shots) = survex::legs(text.as_bytes(), usize::MAX);
        assert_eq!(number, 0, "a survey is accepted: {text}");
        let stations =
            positions(&folder, &text).unwrap_or_else(|| panic!("cavern refuses what the converter accepts: {text}"));
        let listing = listing(tables, &shots);
        let (mut east, mut north, mut length) = (0.0, 0.0, 0.0);
        let mut ends = (String::new(), String::new());
        for row in listing.lines().skip(1).filter(|row| !row.starts_with("END")) {
            let fields: Vec<&str> = row.split(' ').collect();
            let (mm, step): (f64, f64) = (fields[2].parse().unwrap(), fields[3].parse().unwrap());
            let angle = step / 65536.0 * std::f64::consts::TAU;
            east += mm / 1000.0 * angle.sin();
            north += mm / 1000.0 * angle.cos();
            length += mm / 1000.0;
            if ends.0.is_empty() {
                ends.0 = fields[0].to_lowercase();
            }
            ends.1 = fields[1].to_lowercase();
        }
        let (start, end) = (stations[&ends.0], stations[&ends.1]);
        let allowed = length * std::f64::consts::PI / 65536.0 + 0.0100001;
        for (ours, theirs) in [(east, end.0 - start.0), (north, end.1 - start.1)] {
            assert!(
                (ours - theirs).abs() <= allowed,
                "{ours} m from the listing, {theirs} m from cavern, {allowed} m allowed: {text}"
            );
            farthest = farthest.max((ours - theirs).abs() / allowed);
        }
    }
    // what cavern refuses and document 02 does not: a leg to itself, a survey in two pieces, no leg
    for legs in ["A A 1 1 0\n", "A B 1 1 0\nC D 1 1 0\n", ""] {
        let text = format!("{DATA}{legs}");
        assert_eq!(survex::legs(text.as_bytes(), usize::MAX).0, 0);
        assert!(positions(&folder, &text).is_none(), "cavern takes {text}");
    }
    std::fs::remove_dir_all(&folder).unwrap();
    format!("{count} surveys through cavern, ends within {farthest:.2} of what rounding allows")
}
