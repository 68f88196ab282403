"""The package for Python: what it binds beside the header, refusals, buffers with marked margins, misuse, threads; and random calls beside the C interface.
Arguments: the header, the shared library, how many random calls."""
import array, copy, ctypes, pickle, random, re, sys, threading

import jabulghi
from jabulghi import Generator, Marks, Refused, Window

numpy = jabulghi.numpy
SEEDS = (3770694558, 3532774216, 2901327257, 4093209576, 2137023497, 2889436789)
JOB = b"(seeds (a 2 8 16) (b 2 8 16))\n(sigma 4 91)\n(shot A B 1000 0)\n(shot B A 1000 32768)\n"
header, library, calls = open(sys.argv[1]).read(), ctypes.CDLL(sys.argv[2]), int(sys.argv[3])


def raises(kind, call, *values):
    try:
        call(*values)
    except kind as error:
        return error
    raise AssertionError(f"{call} {values}: no {kind}")


def refused(number, call, *values):
    error = raises(Refused, call, *values)
    assert error.number == number, (number, error)
    return error


def names():
    declared = set(re.findall(r"^uint32_t jabulghi_([a-z0-9_]*)\(", header, re.M))
    assert declared == set(jabulghi.CALLS), declared ^ set(jabulghi._CALLS)
    for name, words in re.findall(r"^uint32_t jabulghi_([a-z0-9_]*)\(([^;]*)\);", header, re.M):
        assert len(words.split(",")) == len(jabulghi.CALLS[name]), name
    numbers = {name: int(n) for name, n in re.findall(r"^    JABULGHI_([A-Z0-9_]*) = (\d+)", header, re.M) if n != "0"}
    assert numbers == {r.name: r.value for r in jabulghi.Refusal}
    assert [ctypes.sizeof(kept._kind) for kept in (Generator, Window, Marks)] == [40, 8224, 960]


def refusals():
    at_end = Generator.from_bytes(bytes(Generator(SEEDS))[:24] + b"\xff" * 8 + bytes(8))
    asked, marks = Generator(SEEDS), Marks()
    asked.ask(3)
    full = Marks()
    for j in range(16):
        full.save(Generator(SEEDS), f"m{j}")
    zeros = Generator.from_bytes(bytes(40))
    rows = [
        (2, jabulghi.sample, 2**48, 0),
        (3, jabulghi.sample18, 0, 65536),
        (4, Generator(SEEDS).block, 3),
        (5, jabulghi.list_job, bytes(60001)),
        (6, jabulghi.list_job, "x"),
        (7, jabulghi.list_job, JOB.replace(b"1000 0", b"1000001 0")),
        (8, jabulghi.list_job, ""),
        (9, jabulghi.list_job, JOB + b"(shot A B 1 1)\n" * 499),
        (11, Generator, (1, 8, 16, 2, 8, 16)),
        (12, Generator, (2, 8, 16, 2, 8, 15)),
        (11, zeros.pair),
        (13, at_end.pair),
        (13, at_end.skip, 1),
        (14, asked.pair18),
        (15, Generator(SEEDS).take),
        (15, Generator(SEEDS).give_up),
        (16, Generator(SEEDS).ask, 1000001),
        (16, asked.take, 4),
        (17, Window, 4097),
        (17, Window, 0),
        (18, marks.drop, ""),
        (18, marks.save, Generator(SEEDS), "ä"),
        (19, marks.return_to, Generator(SEEDS), "none"),
        (20, full.save, Generator(SEEDS), "one"),
        (21, jabulghi.legs, ""),
        (22, jabulghi.legs, "*data normal from to tape compass clino\nA B 1001 0 0\n"),
        (23, jabulghi.play, JOB.replace(b"B A", b"C A"), 1),
        (24, jabulghi.misclosure, "FROM TO MM STEP\nA B 1008243 0\n"),
        (25, jabulghi.intervals, "FROM TO LOW HIGH STEP\nA B 2 1 0\n"),
        (13, jabulghi.play, JOB, 1, 2**64 - 1),
    ]
    for number, call, *values in rows:
        kept = getattr(call, "__self__", None)
        before = bytes(kept) if isinstance(kept, (Generator, Marks)) else b""
        error = refused(number, call, *values)
        assert not isinstance(kept, (Generator, Marks)) or bytes(kept) == before, number
        assert str(error).endswith(f"{error.sentence} ({number})") and error.sentence in header
    assert refused(23, jabulghi.play, JOB.replace(b"B A", b"C A"), 1).line == 4
    assert {row[0] for row in rows} | {10} == {int(r) for r in jabulghi.Refusal}
    return len(rows)


def lent(size, length, margin=16):
    """A buffer with marked margins, whole and its middle."""
    whole = bytearray(b"\xa5" * (size * length + 2 * margin))
    return whole, memoryview(whole)[margin : margin + size * length].cast("h" if size == 2 else "i")


def margins():
    for name, size in [(n + w, s) for n in ("block", "look", "take") for w, s in (("", 2), ("18", 4))]:
        for length in (0, 2, 6, 7, 64, 1000):
            rig, (whole, middle) = Generator(SEEDS), lent(size, length)
            if name.startswith("take"):
                rig.ask(length // 2)
            before = bytes(rig)
            try:
                assert getattr(rig, name)(middle) is middle
                assert list(middle) == list(getattr(Generator(SEEDS), name.replace("take", "block"))(length)), name
            except Refused as error:
                assert length == 7 and error.number in (4, 16) and bytes(rig) == before and set(whole) == {0xA5}
            assert set(whole[:16] + whole[16 + size * length :]) == {0xA5}, name


def misuse():
    rig = Generator(SEEDS)
    before = bytes(rig)
    for samples in (
        bytes(8),
        memoryview(array.array("h", [0, 0])).toreadonly(),
        array.array("H", [0, 0]),
        array.array("d", [0, 0]),
        bytearray(8),
        memoryview(array.array("h", [0] * 8))[::2],
        1.0,
        "8",
        None,
        [0, 0],
        (1, 2),
        object(),
    ):
        for name in ("block", "look", "block18", "look18"):
            raises((TypeError, ValueError, BufferError), getattr(rig, name), samples)
    raises(
        ValueError, rig.block, memoryview(bytearray(9))[1:].cast("h")
    )  # misaligned: the memory of a bytearray starts at an even place
    for length in (-2, 2**62 + 2, 2**64, 2**62):
        raises((OverflowError, MemoryError, ValueError), rig.block, length)
    for call, values in (
        (Generator, ((1,) * 5,)),
        (Generator, ((2**32 + 2, 8, 16, 2, 8, 16),)),
        (Generator, (("2", 8, 16, 2, 8, 16),)),
        (rig.skip, (-1,)),
        (rig.skip, (2**64,)),
        (rig.skip, (1.5,)),
        (rig.ask, (2**32,)),
        (jabulghi.sample, (2**64, 0)),
        (jabulghi.sample, (0, 2**32)),
        (Window(4).push, (32768,)),
        (Window(4).push, ("1",)),
        (Window(4).push_all, ([1],)),
        (Window(4).push_all, (bytes(4),)),
        (Window, (2**32 + 4,)),
        (Marks().save, (None, "a")),
        (Marks().save, ("a", rig)),
        (Marks().drop, (5,)),
        (jabulghi.list_job, (5,)),
        (jabulghi.play, (JOB, -1)),
        (jabulghi.play, (JOB, 2**60)),
        (jabulghi.play, (JOB, 2**57)),
        (Generator.from_bytes, (bytes(39),)),
        (hash, (rig,)),
    ):
        raises((TypeError, ValueError, OverflowError, MemoryError), call, *values)
    if numpy is not None:
        assert list(Generator(SEEDS).block(numpy.int64(4))) == list(rig.look(numpy.uint8(4))) and jabulghi.play(
            JOB, 0
        ).shape == (0, 2)
        assert Generator(SEEDS).block(numpy.zeros((3, 4), "i2")).tolist() == rig.look(12).reshape(
            3, 4
        ).tolist() and jabulghi.play(JOB, 3).shape == (3, 2)
        for samples in (
            numpy.zeros(8, ">i2"),
            numpy.zeros(8, "u2"),
            numpy.zeros(8, "f4"),
            numpy.zeros(8, "i2")[::2],
            numpy.frombuffer(bytearray(9), "u1")[1:].view("i2"),
            numpy.zeros((4, 4), "i2").T,
            numpy.broadcast_to(numpy.zeros(1, "i2"), 8),
            numpy.zeros(8, "i8"),
        ):
            raises((TypeError, ValueError, BufferError), rig.block, samples)
        assert not numpy.frombuffer(bytearray(9), "u1")[1:].view("i2").flags.aligned
    assert bytes(rig) == before


def kept():
    rig = Generator(SEEDS)
    rig.block(10)
    for same in (copy.copy(rig), copy.deepcopy(rig), pickle.loads(pickle.dumps(rig)), Generator.from_bytes(bytes(rig))):
        assert same == rig and list(same.block(6)) == list(rig.look(6)) and same != rig
    error = pickle.loads(pickle.dumps(refused(6, jabulghi.list_job, "x")))
    assert (error.number, error.line) == (6, 1)
    growing = array.array("h", bytes(8))
    rig.block(growing)
    growing.append(1)  # nothing is held after a call
    total = Generator(SEEDS)
    threads = [threading.Thread(target=lambda: [total.block(20000) for _ in range(100)]) for _ in range(4)]
    for thread in threads:
        thread.start()
    for thread in threads:
        thread.join()
    after = Generator(SEEDS)
    after.skip(4 * 100 * 10000)
    assert total == after


def beside(count):
    """Random calls through the package and straight through the C interface: numbers, records and samples are the same."""
    numbers, seen = random.Random(1996), dict[tuple[str, int], int]()
    raw = (ctypes.c_uint32 * 10)(*SEEDS, 0, 0, 0, 0)
    ours = Generator(SEEDS)
    names = ["pair", "pair18", "block", "block18", "look", "look18", "take", "take18", "skip", "ask", "give_up"]
    for done in range(count):
        if done % 1000 == 0:  # another record, of any kind
            unfit = numbers.randrange(48)
            words: list = (
                [1 if j == unfit else numbers.randrange(16, 2**32) for j in range(6)]
                + numbers.choice(([0, 0], [2**32 - 9, 2**32 - 1], [5, 7]))
                + numbers.choice(([0, 0], [1, 3]))
            )
            raw[:] = words
            ours = Generator.from_bytes(bytes(raw))
        name, n = numbers.choice(names), numbers.randrange(12)
        n = n if name.startswith("ask") or n % 4 == 1 else 2 * (raw[9] & 15) if name.startswith("take") else n & ~1
        two, wide = name.startswith("pair"), name.endswith("18")
        memory = ((ctypes.c_int32 if wide else ctypes.c_int16) * (2 if two else n))()
        if two:
            code = getattr(library, "jabulghi_" + name)(raw, memory)
        elif name in ("skip", "ask"):
            code = getattr(library, "jabulghi_" + name)(
                raw, ctypes.c_uint64(n) if name == "skip" else ctypes.c_uint32(n)
            )
        elif name == "give_up":
            code = library.jabulghi_give_up(raw)
        else:
            code = getattr(library, "jabulghi_" + name)(raw, memory, ctypes.c_size_t(n))
        try:
            got = getattr(ours, name)(*([] if two or name == "give_up" else [n]))
            number = 0
        except Refused as error:
            number = error.number
        assert number == code and bytes(ours) == bytes(raw), (done, name, n)
        assert number or got is None or list(got) == list(memory), (done, name, n)
        seen[name, int(number)] = seen.get((name, int(number)), 0) + 1
    assert {number for _, number in seen} >= {0, 4, 11, 12, 13, 14, 15, 16} and {
        name for name, number in seen if number == 0
    } == set(names), seen


names()
rows = refusals()
margins()
misuse()
kept()
beside(calls)
print(
    f"Python {'with numpy ' + numpy.__version__ if numpy else 'without numpy'}: {len(jabulghi.CALLS)} calls bound, {rows} refusals, margins, "
    f"misuse, threads; {calls} random calls as through the C interface"
)
