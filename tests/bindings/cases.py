"""The calls that the other implementation wrote (beside elsewhere FILE; tests/src/elsewhere.rs says how), through the package for Python. Argument: the file.
Left out: texts refused for the caller's room (10), for the package brings its own."""
import struct, sys

import jabulghi
from jabulghi import Generator, Marks, Refused, Window

content, place, MARGIN = open(sys.argv[1], "rb").read(), 0, 16


def take(count):
    global place
    place += count
    return content[place - count : place]


def number(count):
    return int.from_bytes(take(count), "little")


def memory():
    before = take(number(2))
    after = bytearray(before)
    for _ in range(number(2)):
        start, count = number(2), number(2)
        after[start : start + count] = take(count)
    return before, bytes(after)


def written():
    """A call: its name, the number that it returns, the numbers that it is passed, its memory before and after."""
    name, returned = take(number(1)).decode(), number(4)
    numbers = [number(8) for _ in range(number(1))]
    return name, returned, numbers, [memory() for _ in range(number(1))]


def answer(call, *values):
    try:
        return 0, 0, call(*values)
    except Refused as error:
        return int(error.number), error.line, None


def words(kind, values):
    return struct.pack(f"<{len(values)}{kind}", *values)


def seed(name, numbers, before, after):
    code, _, rig = answer(Generator, numbers)
    return code, code or bytes(rig) == after[0]


def sample(name, numbers, before, after):
    code, _, two = answer(getattr(jabulghi, name), *numbers)
    return code, code or words("i" if name.endswith("18") else "h", two) == after[0]


def on_record(name, numbers, before, after):
    rig = Generator.from_bytes(before[0])
    if name.startswith("pair"):
        code, _, two = answer(getattr(rig, name))
        right = code or words("i" if name.endswith("18") else "h", two) == after[1]
    elif name in ("skip", "ask", "give_up"):
        code, right = answer(getattr(rig, name), *(numbers if name != "give_up" else []))[0], True
    else:  # the block stands between marked margins
        mark, length = b"\xa5" * MARGIN, len(before[1])
        whole = bytearray(mark + before[1] + mark)
        code = answer(
            getattr(rig, name), memoryview(whole)[MARGIN : MARGIN + length].cast("i" if name.endswith("18") else "h")
        )[0]
        right = bytes(whole) == mark + after[1] + mark
    return code, right and bytes(rig) == after[0]


def lines(name, numbers, before, after):
    code, line, text = answer(jabulghi.list_job if name == "list" else jabulghi.legs, before[0])
    length = int.from_bytes(after[3], "little")
    return code, line == int.from_bytes(after[2], "little") and (code or text.encode() == after[1][:length])


def sums(name, numbers, before, after):
    code, line, miss = answer(getattr(jabulghi, name), before[0])
    millimetres = () if code else (miss.east, miss.north) if name == "misclosure" else miss.east + miss.north
    return code, line == int.from_bytes(after[3], "little") and (
        code or (words("q", miss.sums), words("q", millimetres)) == (after[1], after[2])
    )


def play(name, numbers, before, after):
    code, line, misses = answer(jabulghi.play, before[0], numbers[2], numbers[1])
    return code, line == int.from_bytes(after[2], "little") and (
        code or b"".join(words("q", row) for row in misses) == after[1]
    )


def window(name, numbers, before, after):
    def joined(members):
        return b"".join(members[:4]) + bytes(4) + b"".join(members[4:6])

    if "make" in name:
        code, _, kept = answer(Window, numbers[0])
        return code, code or [kept.size, kept.held, kept.sum, kept.squares] == [
            int.from_bytes(after[j], "little", signed=True) for j in (0, 1, 4, 5)
        ]
    kept = Window.from_bytes(joined(before))
    one = "push_all" not in name
    value = struct.unpack("<h", struct.pack("<H", numbers[0] & 0xFFFF))[0] if one else memoryview(before[6]).cast("h")
    return answer(kept.push if one else kept.push_all, value)[0], bytes(kept) == joined(after)


def marks(name, numbers, before, after):
    kept, rig = Marks.from_bytes(b"".join(before[:4])), Generator.from_bytes(before[4])
    code = answer(
        *((kept.drop,) if "drop" in name else (kept.save, rig) if "save" in name else (kept.return_to, rig)), before[5]
    )[0]
    return code, bytes(kept) == b"".join(after[:4]) and bytes(rig) == after[4]


KINDS = {
    "seed": seed,
    "sample": sample,
    "sample18": sample,
    "list": lines,
    "legs": lines,
    "misclosure": sums,
    "intervals": sums,
    "play": play,
}
seen: dict[str, int] = {}
wrong = left_out = 0
while place < len(content):
    name, returned, numbers, lent = written()
    if name in ("list", "legs") and returned == 10:
        left_out += 1
        continue
    call = KINDS.get(name) or (
        window if name.startswith("window") else marks if name.startswith("marks") else on_record
    )
    code, right = call(name, numbers, [b for b, _ in lent], [a for _, a in lent])
    seen[name] = seen.get(name, 0) + 1
    if code != returned or not right:
        wrong += 1
        print(
            f"DIFFERENT: {name} {numbers}: {code}, not {returned}"
            if code != returned
            else f"DIFFERENT: {name} {numbers}: memory, text or line"
        )
assert set(seen) == set(jabulghi.CALLS), set(jabulghi._CALLS) - set(seen)
print(f"Python: {sum(seen.values())} calls, {wrong} wrong ({left_out} left out: texts refused for the caller's room)")
sys.exit(wrong != 0)
