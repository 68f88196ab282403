"""Works out the rows of crate `normal` as its proofs do, from the rows of `tail_rows`, and compares them with specs/.

  python3 tools/normal.py           compare the rows of specs/ with those worked out
  python3 tools/normal.py --write   write the rows anew

A row has, in 10^-8 of the probability, how far the share of inputs that give a first sample of a size or more can be short of the probability that a
normal number has that size when it is rounded to units, and how far above it. The gate runs this, and proves the rows besides: a row with a closer bound
than this script's is refused there."""
import re
import sys

import tails

PATH = tails.CRATES / "normal" / "specs" / "NormalRows.antt"
LISTS = [("nearness", tails.LISTS[0]), ("nearness18", tails.LISTS[1])]
PROOFS = tails.CRATES / "normal" / "proofs" / "TailTest.antt"
[TERMS] = map(int, re.findall(r"^terms = (\d+)$", PROOFS.read_text(), re.M))
PARTS = 10**8


def area(p, q):
    """x + x³/3 + x⁵/(3·5) + .. for x = p/q, as numerator, denominator and last term."""
    top, bottom = p, q
    for n in range(TERMS):
        top, bottom = (2 * n + 3) * q * q * top + p ** (2 * n + 3), (2 * n + 3) * q * q * bottom
    return top, bottom, p ** (2 * TERMS + 1)


def half_pi():
    """1 + 1/3 + 1·2/(3·5) + .., alike."""
    top, bottom, last = 1, 1, 1
    for n in range(TERMS):
        last *= n + 1
        top, bottom = (2 * n + 3) * top + last, (2 * n + 3) * bottom
    return top, bottom, last


def exponential(p, q):
    """exp(p/q), alike."""
    top, bottom = 1, 1
    for n in range(1, TERMS + 1):
        top, bottom = n * q * top + p**n, n * q * bottom
    return top, bottom, p**TERMS


def first(passes, end):
    """The first number from 0 that passes; those after it pass too, and `end` does."""
    low, high = 0, end
    while low < high:
        middle = (low + high) // 2
        low, high = (low, middle) if passes(middle) else (middle + 1, high)
    return low


def nearness(f, size, low, high):
    """The least `short` and `over` that the proofs reach for a row."""
    p, q = 2 * size - 1, 2 ** (f + 1)
    a, b, last = area(p, q)
    c, d, last_c = half_pi()
    e, g, last_e = exponential(p * p, q * q)

    def at_least(n, m):
        """n/m is at least the probability: c² (π/2) e^(x²) ≤ area² for the rest c of 1."""
        return (m - n) ** 2 * (c + last_c) * (e + last_e) * b * b <= a * a * m * m * d * g

    def at_most(n, m):
        return n <= m and (a + last) ** 2 * m * m * d * g <= (m - n) ** 2 * c * e * b * b

    short = first(
        lambda k: low * PARTS > 2**64 * (PARTS - k) or at_least(low * PARTS, 2**64 * (PARTS - k)), PARTS - 1
    )
    over = first(lambda k: at_most(high * PARTS, 2**64 * (PARTS + k)), PARTS)
    return size, short, over


def rows(tail_rows):
    path, name, f = tail_rows
    return [nearness(f, *row) for row in tails.stored(path, name)]


def stored(name):
    """The rows of specs/: size, short, over."""
    return [
        tuple(int(n) for n in r) for r in re.findall(r"near (\S+) (\S+) (\S+)", tails.found(PATH.read_text(), name))
    ]


if __name__ == "__main__":
    worked_out = {name: rows(tail_rows) for name, tail_rows in LISTS}
    if "--write" in sys.argv:
        text = PATH.read_text()
        for name, new in worked_out.items():
            text = text.replace(tails.found(text, name), tails.listed(name, new).replace("row ", "near "))
        PATH.write_text(text)
    elif all(stored(name) == new for name, new in worked_out.items()):
        print("the rows of specs/ are those worked out")
    else:
        for name, new in worked_out.items():
            for row, better in zip(stored(name), new):
                if row != better:
                    print(f"{PATH.name}, {name}: {row}, worked out {better}")
        sys.exit(1)
