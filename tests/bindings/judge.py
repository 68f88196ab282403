"""check and tolerance of the package for Python beside the command: the examples and made caves, files that are included, messages, misuse, threads, what a verdict
holds. Arguments: the command, how many caves."""
import copy, inspect, json, locale, math, os, pathlib, pickle, random, subprocess, sys, tempfile, threading, time

import jabulghi
from jabulghi import NotJudged

SEEDS = (3770694558, 3532774216, 2901327257, 4093209576, 2137023497, 2889436789)
COMMAND, CAVES = os.path.abspath(sys.argv[1]), int(sys.argv[2])
EXAMPLES = os.path.abspath("examples")
RING = "a b 10 0 0\nb c 10 120 0\nc a 10.02 240 0\na d 3 5 0\n"


def printed(name, file, *words):
    run = subprocess.run([COMMAND, name, *words, file], capture_output=True, text=True)
    return run.stdout, run.stderr, run.returncode


def raises(kind, call, *values, **named):
    try:
        call(*values, **named)
    except kind as error:
        return error
    raise AssertionError(f"{call} {values} {named}: no {kind}")


def beside(name, file, options, **named):
    """One call beside the command, whose words are the same options; what it gave, or the messages."""
    words = [word for option, value in options.items() for word in (f"--{option}", str(value))]
    text, said, status = printed(name, file, *words)
    if status == 2 or (name == "tolerance" and status == 1):
        error = raises(NotJudged, getattr(jabulghi, name), file, **named)
        assert error.said == said, (file, options, error.said, said)
        return error
    told = getattr(jabulghi, name)(file, **named)
    assert told.text == text == str(told), (file, options, told.text, text)
    assert told.json == printed(name, file, *words, "--json")[0], (file, options)
    with tempfile.TemporaryDirectory() as folder:
        svg = os.path.join(folder, "plan.svg")
        printed(name, file, *words, "--svg", svg)
        with open(svg, encoding="utf-8") as picture:
            assert told.svg == picture.read(), (file, options)
    if name == "check":
        assert status == (told.sound is False), (file, told.sound, status)
    return told


def examples():
    os.chdir(EXAMPLES)
    comma = ",".join(map(str, SEEDS))
    for name in (
        "cave.svx",
        "streamway.svx",
        "dotted.svx",
        "loop.svx",
        "loop.job",
        "traverse.job",
        "tape-book.listing",
    ):
        beside("check", name, {"seeds": comma, "plays": 200, "first": 2**40}, seeds=SEEDS, plays=200, first=2**40)
        sigma = "tape=10mm,compass=1deg,station=20mm"
        options = {"seeds": comma, "sigma": sigma, "runs": 500}
        beside("tolerance", name, options, seeds=SEEDS, sigma=sigma, runs=500)


def made_cave(rng):
    """A ring and passages across it, with readings as a book has them; some with a blunder."""
    count, places, legs = rng.randrange(4, 14), [], []
    for j in range(count):
        angle = 2 * math.pi * j / count
        places.append([30 * math.sin(angle) + rng.gauss(0, 2), 30 * math.cos(angle) + rng.gauss(0, 2), rng.gauss(0, 3)])
        legs.append((j, (j + 1) % count))
    for _ in range(rng.randrange(4)):
        start, end = rng.sample(range(count), 2)
        legs.append((start, end))
    blunder, lines = rng.randrange(2 * len(legs)), []
    for j, (start, end) in enumerate(legs):
        x, y, z = (b - a + rng.gauss(0, 0.03) for a, b in zip(places[start], places[end]))
        tape, compass = math.hypot(x, y, z) + 10 * (j == blunder), math.degrees(math.atan2(x, y)) % 360
        lines.append(
            f"s{start} s{end} {tape:.2f} {compass % 360:.1f} {math.degrees(math.atan2(z, math.hypot(x, y))):.1f}"
        )
    return lines


def made():
    rng, counts = random.Random(int(os.environ.get("JABULGHI_SEED", "1"))), {True: 0, False: 0}
    with tempfile.TemporaryDirectory() as folder:
        os.chdir(folder)
        os.mkdir("sub")
        for _ in range(CAVES):
            lines = made_cave(rng)
            half = len(lines) // 2
            pathlib.Path("cave.svx").write_text(
                "\n".join(["*begin c", *lines[:half], "*include sub/part", "*end c", ""])
            )
            pathlib.Path("sub/part.svx").write_text("\n".join([*lines[half:], ""]))
            seeds = [rng.randrange(16, 2**32) for _ in range(6)]
            options = {
                "seeds": ",".join(map(str, seeds)),
                "plays": 150,
                "sigma": "tape=20mm,station=40mm",
                "trip": "0.5deg",
            }
            named = {"seeds": seeds, "plays": 150, "sigma": "tape=20mm,station=40mm", "trip": "0.5deg"}
            counts[beside("check", "cave.svx", options, **named).sound] += 1
        os.chdir(EXAMPLES)
    assert min(counts.values()) > CAVES // 5, counts
    return counts


def verdicts():
    os.chdir(EXAMPLES)
    bad = jabulghi.check(pathlib.Path("streamway.svx"), seeds=SEEDS)
    data = bad.to_dict()
    assert data == json.loads(bad.json) and data is not bad.to_dict()
    assert (
        bad.sound is False
        and bad.p == data["p"]
        and bad.legs == 12
        and bad.legs_in_no_loop == 2
        and bad.plays == 1000
        and bad.seeds == SEEDS
    )
    assert [(s.file, s.line, s.blunder, s.remains) for s in bad.suspects] == [
        (s["file"], s["line"], s["blunder"], s["remains"]) for s in data["suspects"]
    ]
    assert [(o.legs, o.east_mm, o.sound) for o in bad.loops] == [
        (o["legs"], o["east_mm"], o["sound"]) for o in data["loops"]
    ]
    assert (
        set(bad.sigmas) == {"tape_mm", "compass_degrees", "clino_degrees", "station_mm"}
        and bad.sigmas["tape_mm"].high == 50
    )
    assert (
        bad.factor.low < bad.factor.value < bad.factor.high
        and bad.station_mm.value > 0
        and bad.length_m == data["length_m"]
        and bad.too_well is False
    )
    page = bad._repr_html_()
    assert (
        "<svg" in page
        and "Not sound" in page
        and "streamway.svx:7" in page
        and repr(bad) == "<jabulghi.Verdict: not sound, legs 12, loops 1>"
    )
    assert "&lt;b&gt;" in jabulghi.check(RING, name="<b>")._repr_html_()
    assert jabulghi.check("a b 10 0 0\nb c 10 20 0\n").sound is None
    assert copy.copy(bad).json == pickle.loads(pickle.dumps(bad)).json == bad.json
    loop = jabulghi.tolerance("loop.job", runs=50, miss=(500, 0.5))
    assert (
        loop.miss == (500, 0.5)
        and loop.runs == 50 == len(loop.misses)
        and loop.share_beyond == 0
        and len(loop.rms) == 3
        and "<svg" in loop._repr_html_()
    )
    assert [list(row) for row in loop.misses] == [
        list(map(int, row)) for row in jabulghi.play(open("loop.job").read(), 50)
    ]
    assert loop.candidates[0].leg >= 1 and (loop.candidates[0].distance_mm is None) != (
        loop.candidates[0].bearing_degrees is None
    )
    one, other = jabulghi.seeds(), jabulghi.seeds()
    assert one != other and len(one) == 6 and jabulghi.Generator(one).count == 0


def bad_input():
    error = raises(NotJudged, jabulghi.check, "a b x 0 0\nb c 1 y 0\n", name="mine.svx")
    assert [(m.file, m.line) for m in error.messages] == [("mine.svx", 1), ("mine.svx", 2)], error.messages
    assert str(error) == error.said.rstrip("\n") and pickle.loads(pickle.dumps(error)).messages == error.messages
    refused: dict[str, dict[str, object]] = {
        "--sigma": {"sigma": "foo"},
        "--plays": {"plays": 99},
        "--trip": {"trip": "1mm"},
        "--seeds": {"seeds": (1, 2)},
    }
    for option, named in refused.items():
        assert [m.option for m in raises(NotJudged, jabulghi.check, RING, **named).messages] == [option], named
    assert "tolerance: needs --sigma" in str(raises(NotJudged, jabulghi.tolerance, RING))
    assert "several loops" in str(
        raises(NotJudged, jabulghi.tolerance, RING + "b e 10 60 0\ne c 10 180 0\n", "4mm,1deg")
    )
    raises(FileNotFoundError, jabulghi.check, "nowhere.svx")
    raises(IsADirectoryError, jabulghi.check, "/tmp")
    for wrong in (None, 5, ["a"]):
        raises(TypeError, jabulghi.check, wrong)
    unfit: list[dict[str, object]] = [{"jobs": 0}, {"jobs": 257}, {"sigma": "tape=1mm\0"}, {"name": "a\0b"}]
    for named in unfit:
        raises(ValueError, jabulghi.check, RING, **named)
    raises(NotJudged, jabulghi.check, b"\xff\xfe\0\0")
    raises(ZeroDivisionError, jabulghi.check, RING, progress=lambda done, plays: 1 / 0)
    notes = jabulghi.check(RING + "a - 3 5 0\n").notes
    assert notes and notes[0].file == "survey", notes


def threads():
    """The plays of two checks overlap, and another thread counts on; so many threads give the same, and a stop gives fewer plays."""
    ticks, done, spans = [0], threading.Event(), []
    many = "\n".join(f"s{j} s{(j * 7 + 1) % 300} {5 + j % 7}.12 {j * 37 % 360} 0" for j in range(300)) + "\n"

    def tick():
        while not done.is_set():
            ticks[0] += 1
            time.sleep(0.001)

    def run():
        seen = []
        jabulghi.check(many, plays=400, jobs=1, seeds=SEEDS, progress=lambda *_: seen.append(time.monotonic()))
        spans.append((seen[0], seen[-1]))

    counter, checks = threading.Thread(target=tick), [threading.Thread(target=run) for _ in range(2)]
    for thread in (counter, *checks):
        thread.start()
    for thread in checks:
        thread.join()
    done.set()
    counter.join()
    (a, b), (c, d) = spans
    assert min(b, d) > max(a, c), spans
    assert ticks[0] > 20, ticks
    one = jabulghi.check(many, plays=300, jobs=1, seeds=SEEDS)
    assert one.json == jabulghi.check(many, plays=300, jobs=5, seeds=SEEDS).json
    stopped = jabulghi.check(many, plays=100000, jobs=2, progress=lambda played, plays: False)
    assert 100 <= stopped.plays < 100000


def other_language():
    """A program that writes decimal commas gets points."""
    for name in ("de_DE.UTF-8", "fr_FR.UTF-8", "de_DE.utf8"):
        try:
            locale.setlocale(locale.LC_ALL, name)
        except locale.Error:
            continue
        assert "10,02" not in jabulghi.check(RING).json
        locale.setlocale(locale.LC_ALL, "C")
        return name
    return None


def docstrings():
    for name in jabulghi.__all__:
        thing = getattr(jabulghi, name)
        members = (
            [getattr(thing, m) for m in vars(thing) if not m.startswith("_")]
            if inspect.isclass(thing) and not issubclass(thing, (tuple, int))
            else []
        )
        for one in (thing, *members):
            assert not (callable(one) or isinstance(one, property)) or one.__doc__, (name, one)


examples()
found = made()
verdicts()
bad_input()
threads()
language = other_language()
docstrings()
print(
    f"Python: check and tolerance as the command prints them, on the examples and {CAVES} made caves ({found[True]} sound); verdicts, messages, misuse, "
    f"two checks side by side{', decimal commas (' + language + ')' if language else ''}"
)
