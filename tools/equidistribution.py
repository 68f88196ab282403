"""Works out the certificates of maximal equidistribution: for each row (l, t), l contents of the three registers for which the highest l bits
of t successive draws are zeros, and in the last draw the unit words 1, 2, 4, ..

  python3 tools/equidistribution.py           compare the columns of crate `equidistribution` with those worked out
  python3 tools/equidistribution.py --write   write them anew (then run `rt fmt`)

The gate runs this; the crate's computed tests decide whether the columns are right."""
import pathlib
import re
import sys

PROOFS = pathlib.Path(__file__).resolve().parent.parent / "crates" / "equidistribution" / "proofs"
WORD = 2**32 - 1
REGISTERS = ((31, 13, 12), (29, 2, 4), (28, 3, 17))
STATE_BITS = sum(k for k, _, _ in REGISTERS)


def rows():
    """For each t the largest l of 32 bits, each l once."""
    found = {}
    for t in range(STATE_BITS, 1, -1):
        found[min(32, STATE_BITS // t)] = 0
    return [(l, STATE_BITS // l) for l in sorted(found)]


def step(k, q, s, x):
    return (x >> 32 - k << 32 - k << s & WORD) ^ ((x << q & WORD ^ x) >> k - s)


def pattern(l, t, state):
    """The highest l bits of the next t draws, the first lowest."""
    bits = 0
    for j in range(t):
        state = [step(*register, x) for register, x in zip(REGISTERS, state)]
        bits |= (state[0] ^ state[1] ^ state[2]) >> 32 - l << l * j
    return bits


def contents(x):
    """Three registers of a number of 96 bits, s0 lowest."""
    return [x >> 32 * i & WORD for i in range(3)]


UNITS = [1 << 32 * i + b for i, (k, _, _) in enumerate(REGISTERS) for b in range(32 - k, 32)]


def columns(l, t):
    """The inverse of the pattern on the unit words of the last draw, by elimination."""
    pivots = {}
    for content in UNITS:
        bits = pattern(l, t, contents(content))
        while bits:
            top = bits.bit_length()
            if top not in pivots:
                pivots[top] = (bits, content)
                break
            bits, content = bits ^ pivots[top][0], content ^ pivots[top][1]
    inverse = []
    for i in range(l * t - l, l * t):
        bits, content = 1 << i, 0
        while bits:
            bits, content = [a ^ b for a, b in zip((bits, content), pivots[bits.bit_length()])]
        assert pattern(l, t, contents(content)) == 1 << i
        inverse.append(content)
    return inverse


def module():
    lines = [
        "-- The certificates, one for each row: columns, three registers each, that show zeros, and the unit words in the last draw. Made by",
        "-- tools/equidistribution.py.",
        "use mathlib.Core.List.{List, [], ◌∷◌}",
        "use Prim.Native.Nat.{ℕ}",
    ]
    for l, t in rows():
        lines += [
            "",
            f"-- the highest {l} bits of {t} draws" if l > 1 else f"-- the highest bit of {t} draws",
            f"unfoldable pub columns{l} : List ℕ",
            f"columns{l} = " + " ∷ ".join(str(x) for x in columns(l, t)) + " ∷ []",
        ]
    return "\n".join(lines) + "\n"


if __name__ == "__main__":
    made, path = module(), PROOFS / "Columns.antt"
    if sys.argv[1:] == ["--write"]:
        path.write_text(made)
    else:

        def numbers(text):
            return re.findall(r"\d+", text)

        if numbers(made) != numbers(path.read_text()):
            sys.exit(f"{path} has other columns")
        print(f"{len(rows())} rows as worked out")
