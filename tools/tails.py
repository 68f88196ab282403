"""Works out the rows of crate `tail_rows` as its proofs do, from the tables of sines and cosines, and compares them with specs/.
The numbers that tools/datasheet counted must lie within them.

  python3 tools/tails.py           compare the rows of specs/ with those worked out, and the counted numbers with the rows
  python3 tools/tails.py --write   write the rows anew

A row has the least and the most inputs of all 2^64 that can give a first sample of a size or more. The gate runs this, and proves the rows
besides: a row with a closer bound than this script's is refused there."""
import json
import math
import pathlib
import re
import sys

TOP = pathlib.Path(__file__).resolve().parent.parent
CRATES = TOP / "crates"
LISTS = [  # file, name, fraction bits
    (CRATES / "tail_rows" / "specs" / "Rows.antt", "rows", 11),
    (CRATES / "tail_rows" / "specs" / "Rows18.antt", "rows18", 13),
]
QUARTILE = 0.67449
SIGMAS = (8.2, 8, 7.5, 7, 6, 5, 4, 3, 2, 1)
TERMS = 120  # of the series at which a pass begins


def table(name):
    """The entries of a list of crate `tables`."""
    text = (CRATES / "tables" / "specs" / "Values.antt").read_text()
    text = text[text.index(f"{name} =\n") + len(name) + 2 :]
    return [int(n) for n in re.findall(r"\d+", text[: text.index("[]")])]


C, D, c, s = (table(n) for n in ("cos_coarse_list", "sin_coarse_list", "cos_fine_list", "sin_fine_list"))
COSINES = [C[a] * c[b] - D[a] * s[b] >> 30 for a in range(128) for b in range(128)]
SINES = [D[a] * c[b] + C[a] * s[b] >> 30 for a in range(128) for b in range(128)]
PAIRS = list(zip(COSINES[1:], SINES[:0:-1]))
LARGER, SMALLER = [max(p) for p in PAIRS], [min(p) for p in PAIRS]


def start(p):
    """exp(p²/2^41) by a partial sum of the series, as numerator, denominator and last term."""
    x, q, top, bottom = p * p, 1 << 41, 1, 1
    for n in range(1, TERMS + 1):
        top, bottom = n * q * top + x**n, n * q * bottom
    return top, bottom, x**TERMS


def most(b):
    """At most so many inputs give F g > b, for g over all sines and cosines."""
    p = b // COSINES[0]
    top, bottom, _ = start(p)
    e = (bottom << 97) // top + 1
    peak, total = e + 2**48 >> 49, 0
    for g in LARGER:
        t = b // g
        e = (e << 83) // ((t * t - p * p + 2**41) ** 2 + 2**82) + 1
        p = t
        if e < 2**48:
            break
        total += e + 2**48 >> 49
    return 2 * (peak + 2 * total)


def least(b):
    """At least so many do."""
    p = b // COSINES[0] + 2
    top, bottom, last = start(p)
    e = (bottom << 97) // (top + last)
    peak, total = e + 2**48 - 1 >> 49, 0
    for g in SMALLER:
        t = b // g + 2
        q = t * t - p * p
        e = e * max(2**42 - q, 0) // (2**42 + q)
        p = t
        if e <= 2**48:
            break
        total += e + 2**48 - 1 >> 49
    return 2 * (peak + 2 * total)


def sought(pattern: str, text: str, flags: int = re.M) -> re.Match[str]:
    """What a pattern fits in a text that has it."""
    found = re.search(pattern, text, flags)
    assert found is not None, pattern
    return found


def largest(f):
    """The largest size: that of the largest F, with a sine or cosine of 1."""
    limit = int(sought(r"^radius_limit = (\d+)$", (CRATES / "radius" / "specs" / "Steps.antt").read_text())[1])
    return (limit - 1 << 30) + (1 << 49 - f) >> 50 - f


def rows(f):
    """The largest size, those at SIGMAS, the quartile and one unit, each with its bounds: the rows that are cheap to test come first."""
    sizes = [largest(f)] + [math.ceil(x * 2**f) for x in SIGMAS] + [round(QUARTILE * 2**f), 1]
    return [(size, least(b), most(b)) for size in sizes for b in [(2 * size - 1 << 49 - f) - 1]]


def found(text, name):
    """The text of a list of rows."""
    return sought(rf"^{name} =\n.*?∷ \[\]\n", text, re.M | re.S).group()


def stored(path, name):
    """The rows of specs/: size, low, high."""
    return [tuple(int(n) for n in r) for r in re.findall(r"row (\S+) (\S+) (\S+)", found(path.read_text(), name))]


def listed(name, worked_out):
    return (
        f"{name} =\n    " + "\n    ∷ ".join("row " + " ".join(f"{n:_}" for n in r) for r in worked_out) + "\n    ∷ []\n"
    )


def compare():
    """Whether the rows of specs/ are those worked out, and the counted numbers within them."""
    same = True
    for path, name, f in LISTS:
        for row, new in zip(stored(path, name), rows(f), strict=True):
            if row != new:
                same = False
                print(f"{path.name}: {row}, worked out {new}")
    path, name, f = LISTS[0]
    bounds = {size: (low, high) for size, low, high in stored(path, name)}
    for sigma, count, _ in json.loads((TOP / "docs" / "datasheet" / "numbers.json").read_text())["exact"]["tails"]:
        low, high = bounds[math.ceil(sigma * 2**f)]
        if not low <= 2 * count <= high:
            same = False
            print(f"{path.name}: at {sigma} σ {2 * count} inputs were counted, not {low} to {high}")
    return same


if __name__ == "__main__":
    if "--write" in sys.argv:
        for path, name, f in LISTS:
            text = path.read_text()
            path.write_text(text.replace(found(text, name), listed(name, rows(f))))
    elif compare():
        print("the rows of specs/ are those worked out, and the counted numbers lie within them")
    else:
        sys.exit(1)
