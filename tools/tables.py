"""Recomputes the seven tables with mpmath at 200 bits and compares them with the sources: crate `tables` (src/logarithms.rt,
cosines.rt, sines.rt, specs/Values.antt), and the matches of crates `log_coarse_lookup` (with the reciprocals), `log_fine_lookup` and
`rotation_lookup`. The cells of the root in crate `root_lookup` too.

  python3 tools/tables.py           compare the sources with the recomputed tables
  python3 tools/tables.py --write   write the tables and the arms of the matches anew (then run `rt fmt`)

It needs mpmath (Debian: python3-mpmath). It stands outside the gate: the promise that the gate proves is the crate's own."""
import math
import pathlib
import re
import sys

from mpmath import mp, mpf, cos, floor, log, nint, pi, sin, sqrt

mp.prec = 200
CRATES = pathlib.Path(__file__).resolve().parent.parent / "crates"
CRATE = CRATES / "tables"
LISTS = CRATE / "specs" / "Values.antt"


def nearest(exact, scale):
    """The nearest whole number to exact * scale, which must not be a near tie."""
    value = exact * scale
    assert abs(abs(value - floor(value)) - mpf(1) / 2) > mpf(2) ** -40, value
    return int(nint(value))


def turn(part):
    return 2 * pi * part


LOG, ROTATION = 2**40, 2**30
# (source file, constant, list, comment, entries)
TABLES = [
    (
        "logarithms",
        "LOG_COARSE",
        "log_coarse_list",
        "A: ln(h/256) for h from 256 to 511, at 2^40.",
        [nearest(log(mpf(h) / 256), LOG) for h in range(256, 512)],
    ),
    (
        "logarithms",
        "LOG_FINE",
        "log_fine_list",
        "B: ln(1 + i/65536) for i from 0 to 255, at 2^40.",
        [nearest(log(1 + mpf(i) / 65536), LOG) for i in range(256)],
    ),
    (
        "cosines",
        "COS_COARSE",
        "cos_coarse_list",
        "C: the cosine of a/512 of a turn for a from 0 to 127, at 2^30.",
        [nearest(cos(turn(mpf(a) / 512)), ROTATION) for a in range(128)],
    ),
    (
        "sines",
        "SIN_COARSE",
        "sin_coarse_list",
        "D: the sine of a/512 of a turn for a from 0 to 127, at 2^30.",
        [nearest(sin(turn(mpf(a) / 512)), ROTATION) for a in range(128)],
    ),
    (
        "cosines",
        "COS_FINE",
        "cos_fine_list",
        "c: the cosine of b/65536 of a turn for b from 0 to 127, at 2^30.",
        [nearest(cos(turn(mpf(b) / 65536)), ROTATION) for b in range(128)],
    ),
    (
        "sines",
        "SIN_FINE",
        "sin_fine_list",
        "s: the sine of b/65536 of a turn for b from 0 to 127, at 2^30.",
        [nearest(sin(turn(mpf(b) / 65536)), ROTATION) for b in range(128)],
    ),
]
LN_TWO = nearest(log(mpf(2)), LOG)
ENTRIES = {const: entries for _, const, _, _, entries in TABLES}


def row(*digits):
    """How an arm of a match is written: a tuple of numbers with so many hexadecimal digits."""
    return lambda entry: "(" + ", ".join(f"0x{x:0{n}x}" for x, n in zip(entry, digits)) + ")"


def root_cell(n):
    """Start, slope and fall of a parabola below the root of (n + u) 2^57, for u from 0 to 1: the one that meets it at the three nodes of
    least error, moved down until it is nowhere above the root, and by 2 more."""
    nodes = [(1 + cos(pi * (2 * k + 1) / 6)) / 2 for k in range(3)]
    roots = [sqrt((n + u) * 2**57) for u in nodes]
    first, second = ((roots[k + 1] - roots[k]) / (nodes[k + 1] - nodes[k]) for k in (0, 1))
    bend = (second - first) / (nodes[2] - nodes[0])
    slope, fall = int(nint(first - bend * (nodes[0] + nodes[1]))), int(nint(-bend))
    along = [min((k << 32) // 3000, 2**32 - 1) for k in range(3001)]
    least = min((math.isqrt((n << 32 | t) << 89) - (slope - (fall * t >> 32)) * t) >> 32 for t in along)
    return least - 2, slope, fall


RECIPROCALS = [-(-(2**39) // h) for h in range(256, 512)]
COARSE = [(a >> 32, a % 2**32, reciprocal) for a, reciprocal in zip(ENTRIES["LOG_COARSE"], RECIPROCALS)]
COARSE_ROWS = [a << 32 | reciprocal for a, reciprocal in zip(ENTRIES["LOG_COARSE"], RECIPROCALS)]
# (crate, function, first key, how an arm is written, entries)
MATCHES: list[tuple] = [
    ("log_coarse_lookup", "nth", 256, row(2, 8, 8), COARSE),
    ("log_fine_lookup", "nth", 0, "0x{0[0]:08x}".format, [(b,) for b in ENTRIES["LOG_FINE"]]),
    (
        "rotation_lookup",
        "nth_coarse",
        0,
        row(8, 8),
        list(zip(ENTRIES["COS_COARSE"], ENTRIES["SIN_COARSE"])),
    ),
    ("rotation_lookup", "nth_fine", 0, row(8, 8), list(zip(ENTRIES["COS_FINE"], ENTRIES["SIN_FINE"]))),
    ("root_lookup", "nth", 0, row(8, 8, 8), [(0, 0, 0)] * 32 + [root_cell(n) for n in range(32, 128)]),
]


def rows(words, between, indent, width=120):
    lines, line = [], ""
    for word in words:
        if line and len(line) + len(between) + len(word) > width:
            lines.append(indent + line.rstrip())
            line = ""
        line += word + between
    return lines + [indent + line.rstrip()]


def arms(crate, function):
    """A crate's source, in three: up to the arms of the match of a function, the arms, what follows."""
    text = (CRATES / crate / "src" / "lib.rt").read_text()
    start = text.index("match n {\n", text.index(f"fn {function}(")) + len("match n {\n")
    end = text.index("        _ => past", start)
    return text[:start], text[start:end], text[end:]


def write_arms(crate, function, first, written, entries):
    before, _, after = arms(crate, function)
    lines = [f"        {n} => {written(x)},\n" for n, x in enumerate(entries, first)]
    (CRATES / crate / "src" / "lib.rt").write_text(before + "".join(lines) + after)


def read_arms(crate, function, first):
    found = re.findall(r"(\d+) => (.*),\n", arms(crate, function)[1])
    return [
        tuple(int(x, 16) for x in re.findall(r"0x\w+", entry))
        for n, (key, entry) in enumerate(found, first)
        if int(key) == n
    ]


def private():
    return CRATES / "log_coarse_lookup" / "specs" / "Private.antt"


def with_rows(text):
    """The text of Private.antt with its list of rows written anew: A, and the reciprocal in the lower 32 bits."""
    body = rows([f"0x{x:x}" for x in COARSE_ROWS] + ["[]"], " ∷ ", "    ")
    before, after = text.split("\nrows =\n")[0], text.split("∷ []\n", 1)[1]
    return before + "\nrows =\n" + "\n".join(body).removesuffix(" ∷") + "\n" + after


def path(name):
    return CRATE / "src" / f"{name}.rt"


def source(name):
    out = [
        f"// The {name}, each entry the nearest whole number to its exact value (document 01, 'Radius' and 'Angle and sample')."
    ]
    for file, const, _, comment, entries in TABLES:
        if file == name:
            out += ["", f"// {comment}", f"pub const {const}: [u64; {len(entries)}] = ["]
            out += rows([f"{x}" for x in entries], ", ", "    ") + ["];"]
    if name == "logarithms":
        out += ["", "// K: ln 2, at 2^40.", f"pub const LN_TWO: u64 = 0x{LN_TWO:X};"]
    return "\n".join(out) + "\n"


def lists():
    out = [
        "-- The entries of the tables, each the nearest whole number to its exact value (document 01, 'Radius' and 'Angle and sample').",
        "-- Assumes nothing.",
        "use Rattle.std.specs.Prelude.{ℕ, List, [], ◌∷◌}",
    ]
    for _, _, name, comment, entries in TABLES:
        out += ["", f"-- {comment}", f"abbrev pub {name} : List ℕ", f"{name} ="]
        out += rows([f"{x}" for x in entries] + ["[]"], " ∷ ", "    ")
        out[-1] = out[-1].removesuffix(" ∷")
    out += ["", "-- K: ln 2, at 2^40.", "unfoldable pub ln_two_value : ℕ", f"ln_two_value = 0x{LN_TWO:X}"]
    return "\n".join(out) + "\n"


def read(text, start, end):
    """The numbers of the text between two marks."""
    body = text.split(start, 1)[1].split(end, 1)[0]
    return [int(x, 0) for x in re.findall(r"0x[0-9A-Fa-f]+|\d+", body)]


def compare():
    antt, wrong, found = LISTS.read_text(), 0, []
    for file, const, name, _, entries in TABLES:
        found.append((const, read(path(file).read_text(), f"{const}: [u64; {len(entries)}] = [", "]"), entries))
        found.append((name, read(antt, f"\n{name} =", "[]"), entries))
    found.append(("log_coarse_lookup: rows", read(private().read_text(), "\nrows =", "[]"), COARSE_ROWS))
    for crate, function, first, _, entries in MATCHES:
        found.append((f"{crate}::{function}", read_arms(crate, function, first), entries))
    for where, numbers, entries in found:
        bad = [i for i in range(max(len(numbers), len(entries))) if numbers[i : i + 1] != entries[i : i + 1]]
        wrong += len(bad)
        print(f"{where}: {len(numbers)} entries, {len(bad)} differ {bad[:5] or ''}")
    single = {
        "LN_TWO": read(path("logarithms").read_text(), "LN_TWO: u64 =", ";"),
        "ln_two_value": read(antt, "\nln_two_value =", "\n"),
    }
    for where, numbers in single.items():
        wrong += numbers != [LN_TWO]
        print(f"{where}: {numbers}, {'equal' if numbers == [LN_TWO] else 'differs'}")
    return wrong


if __name__ == "__main__":
    if sys.argv[1:] == ["--write"]:
        for name in ("logarithms", "cosines", "sines"):
            path(name).write_text(source(name))
        LISTS.write_text(lists())
        private().write_text(with_rows(private().read_text()))
        for match in MATCHES:
            write_arms(*match)
    elif sys.argv[1:]:
        sys.exit(__doc__)
    sys.exit(1 if compare() else 0)
