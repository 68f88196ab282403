//! Jobs written out: every number of document 01's table with its line, two causes on one line, and forms, ranges, sizes and buffers
//! at their edges.

use crate::job::SHOTS;

const SEEDS: &str = "(seeds (a 2 8 16) (b 2 8 16))\n";
const HEAD: &str = "(seeds (a 2 8 16) (b 2 8 16))\n(sigma 4 10)\n";
const SHOT: &str = "(shot A1 A2 12345 4500)\n";

/// Shots that differ from each other.
pub fn shots(count: usize) -> String {
    (0..count).map(|j| format!("(shot S{j} T{} {} {})\n", j + 1, j * 1993 % 1_000_001, j * 7919 % 65536)).collect()
}

/// Accepted ones: no shot to the most and beyond, sigmas at their ends, noise across the ends of distance and bearing.
fn whole(out: &mut Vec<Vec<u8>>) {
    let mut add = |text: String| out.push(text.into_bytes());
    add(format!("{HEAD}{SHOT}(shot A2 A3 9000 65530)\n"));
    for count in [0, 1, 2, SHOTS - 1, SHOTS, SHOTS + 1, SHOTS + 2] {
        add(format!("{HEAD}{}", shots(count)));
    }
    for (s, t) in [(0, 0), (0, 1000), (1000, 0), (1000, 1000), (1, 1)] {
        add(format!("{SEEDS}(sigma {s} {t})\n{}", shots(60)));
    }
    let most = u32::MAX;
    add(format!("(seeds (a {most} {most} {most}) (b {most} {most} {most}))\n(sigma 1000 1000)\n{}", shots(SHOTS)));
    add(format!(
        "(seeds (a 123456789 987654321 555555555) (b 314159265 271828182 161803398))\n(sigma 37 911)\n{}",
        shots(300)
    ));
    let ends = [0, 1, 500, 1_000_000].map(|d| [0, 1, 65534, 65535].map(|b| format!("(shot a b {d} {b})\n")).concat());
    add(format!("{SEEDS}(sigma 1000 1000)\n{}", ends.concat().repeat(8)));
}

/// Texts that end too soon, or are as long as may be and one byte longer.
fn ends(out: &mut Vec<Vec<u8>>) {
    let mut add = |text: String| out.push(text.into_bytes());
    for start in ["", SEEDS, HEAD, &format!("{HEAD}{SHOT}")] {
        add(start.into());
        add(format!("{start}\n"));
        add(format!("{start}("));
    }
    for start in [SEEDS, HEAD, &format!("{HEAD}{SHOT}")] {
        add(start[..start.len() - 1].into());
    }
    let full = format!("{HEAD}{}", SHOT.repeat((60_000 - HEAD.len()) / SHOT.len()));
    for size in [60_000, 60_001] {
        add(format!("{full}{}", "x".repeat(size - full.len())));
    }
    // the most shots of the longest kind, and the listing that takes the most room
    let longest = "(shot ABCDEFGHIJKL abcdefghijkl 1000000 65535)\n".repeat(SHOTS);
    for sigma in [0, 1000] {
        add(format!("{SEEDS}(sigma {sigma} {sigma})\n{longest}"));
    }
}

/// Registers at their minima and below; numbers and names of every kind in every place.
fn fields(out: &mut Vec<Vec<u8>>) {
    let least = [2, 8, 16, 2, 8, 16];
    for j in 0..6 {
        for n in [0, least[j] - 1, least[j]] {
            let mut s = least;
            s[j] = n;
            let line = format!("(seeds (a {} {} {}) (b {} {} {}))\n", s[0], s[1], s[2], s[3], s[4], s[5]);
            out.push(format!("{line}(sigma 4 10)\n{SHOT}").into_bytes());
        }
    }
    let numbers = "0 00 01 999 1000 1001 65535 65536 999999 1000000 1000001 4294967295 4294967296 9999999999 10000000000 99999999999  -1 +1 1.0 0x1 a";
    for n in numbers.split(' ') {
        out.push(format!("(seeds (a {n} 8 16) (b 2 8 16))\n(sigma 4 10)\n{SHOT}").into_bytes());
        out.push(format!("(seeds (a 2 8 16) (b 2 8 {n}))\n(sigma 4 10)\n{SHOT}").into_bytes());
        out.push(format!("{SEEDS}(sigma {n} 10)\n{SHOT}").into_bytes());
        out.push(format!("{SEEDS}(sigma 4 {n})\n{SHOT}").into_bytes());
        out.push(format!("{HEAD}(shot A B {n} 1)\n").into_bytes());
        out.push(format!("{HEAD}(shot A B 1 {n})\n").into_bytes());
    }
    let names: [&[u8]; 16] = [
        b"",
        b"x",
        b"Z9",
        b"abcdefghijkl",
        b"abcdefghijklm",
        b"a-b",
        b"a_b",
        b"\xc3\xa9",
        b"a\0",
        b"@",
        b"[",
        b"`",
        b"{",
        b"/",
        b":",
        b"\xff",
    ];
    for name in names {
        out.push([HEAD.as_bytes(), b"(shot ", name, b" B 1 1)\n"].concat());
        out.push([HEAD.as_bytes(), b"(shot A ", name, b" 1 1)\n"].concat());
    }
}

/// Lines that are nearly a form.
const LINES: [&str; 25] = [
    "(shot A B 1 1 )",
    "(shot  A B 1 1)",
    "(shot A  B 1 1)",
    " (shot A B 1 1)",
    "(shot A B 1 1) ",
    "(shot A B 1 1)\r",
    "(shot\tA B 1 1)",
    "(shot A B 1)",
    "(shot A B 1 1 1)",
    "(SHOT A B 1 1)",
    "(shot A B 1 1",
    "shot A B 1 1)",
    "()",
    "(",
    "(shot (A) B 1 1)",
    "\0",
    "(shot A B 1 1)\0",
    "(shots A B 1 1)",
    "# A",
    "(shot # # # #)",
    "(seeds (a 2 8 16)(b 2 8 16))",
    "(seeds (a 2 8 16) (b 2 8 16)",
    "(seeds (b 2 8 16) (a 2 8 16))",
    "(seeds (a 2 8) (b 2 8 16))",
    "(seeds(a 2 8 16) (b 2 8 16))",
];

/// Lines in the wrong place, and two causes on one line: 6 before 8, 8 before 9, 9 before 7, 8 before 7 and 1.
fn places(out: &mut Vec<Vec<u8>>) {
    for line in LINES {
        out.push(format!("{line}\n(sigma 4 10)\n").into_bytes());
        out.push(format!("{HEAD}{SHOT}{line}\n{SHOT}").into_bytes());
    }
    let (sigma, full) = ("(sigma 4 10)\n", format!("{HEAD}{}", shots(SHOTS)));
    let texts = [
        format!("{sigma}{SEEDS}"),
        format!("{SEEDS}{SEEDS}"),
        format!("{SEEDS}{SHOT}"),
        SHOT.into(),
        format!("{HEAD}{sigma}"),
        format!("{HEAD}{SHOT}{SEEDS}"),
        "(sigma 4000 10)\n".into(),
        format!("{SEEDS}(seeds (a 0 0 0) (b 0 0 0))\n"),
        format!("{SEEDS}(shot A B 9999999 1)\n"),
        "(seeds (a 0 8 16) (b 2 8 9999999999))\n".into(),
        "(seeds (a 0 8 16) (b 2 8 16))\n(sigma 1 1\n".into(),
        format!("{full}(seeds (a 0 0 0) (b 0 0 0))\n"),
        format!("{full}(shot A B 9999999 1)\n"),
        format!("{full}(shot A B 1)\n"),
        format!("{full}(shot A B 1 1"),
        format!("{HEAD}(shot A B 9999999 1)\n(shot A)\n"),
    ];
    out.extend(texts.map(String::into_bytes));
}

pub fn texts() -> Vec<Vec<u8>> {
    let mut out = Vec::new();
    whole(&mut out);
    ends(&mut out);
    fields(&mut out);
    places(&mut out);
    out
}
