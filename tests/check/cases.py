"""`jabulghi check` on made surveys: beside the other implementation, at its limits, with bad input. cases.py COMMAND"""

import json
import math
import os
import subprocess
import sys
import tempfile
import time
import xml.etree.ElementTree
from typing import Any, Callable, Iterator

import beside
import caves
import numpy
import other
from beside import SEEDS, Differs, compare, tell
from readings import Survey

COMMAND = os.path.abspath(sys.argv[1])
SEED = int(os.environ.get("JABULGHI_SEED", "59"))
RNG = numpy.random.default_rng(SEED)
FINE = (3, 2, 2)
KEPT = os.path.join(tempfile.gettempdir(), "check-differs.svx")
Case = tuple[str, str, dict[str, Any]]


def book(loops: int, kind: str | None = None, decimals: tuple[int, int, int] = (2, 0, 0), **more: Any) -> caves.Book:
    b = caves.survey(RNG, caves.made(RNG, loops, **more), decimals=decimals)
    if kind:
        caves.blunder(RNG, b, kind)
    return b


def blocks(b: caves.Book, count: int, dates: bool = False) -> str:
    """The legs in so many surveys, with equates where a station is in several of them."""
    n = len(b.geometry.legs)
    parts = [range(n * k // count, n * (k + 1) // count) for k in range(count)]
    first: dict[str, str] = {}
    text, equates = caves.sd_lines(caves.SIGMA), ""
    for k, part in enumerate(parts):
        text += f"*begin trip{k}\n" + (f"*date 2026.0{k + 1}.17\n" if dates else "") + b.lines(part) + f"*end trip{k}\n"
        for name in dict.fromkeys(s for j in part for s in b.geometry.legs[j]):
            if name in first:
                equates += f"*equate {first[name]}.{name} trip{k}.{name}\n"
            else:
                first[name] = f"trip{k}"
    return text + equates


def with_backsights(b: caves.Book) -> str:
    for j in range(len(b.geometry.legs)):
        back = b.compass[j] + 180 + RNG.normal(0, 0.5), -b.clino[j] + RNG.normal(0, 0.5)
        b.back[j] = (float(back[0]), float(back[1]))
    return caves.sd_lines(caves.SIGMA) + "*data normal from to tape compass clino backcompass backclino\n" + b.lines()


def in_feet(b: caves.Book) -> str:
    b.tape = b.tape / 1.01 / 0.3048 + 0.7
    b.compass, b.clino = b.compass - 5.5 + 1.5, b.clino + 1
    commands = "*units tape feet\n*calibrate tape 0.7 1.01\n*calibrate declination -5.5\n"
    return caves.sd_lines(caves.SIGMA) + commands + "*calibrate compass 1.5\n*calibrate clino 1\n" + b.lines()


def with_fixes(b: caves.Book, spread: float, sds: str) -> str:
    names = list(dict.fromkeys(s for leg in b.geometry.legs for s in leg))
    lines = ""
    for name in (names[0], names[5], names[-1]):
        x, y, z = b.geometry.places[name] + RNG.normal(0, spread, 3)
        lines += f"*fix {name} {x:.2f} {y:.2f} {z:.2f} {sds}\n"
    return lines + b.text()


def with_plumbs(loops: int) -> str:
    """Some stations right above others."""
    g = caves.made(RNG, loops)
    legs = list(g.legs)
    for j in range(0, len(legs), 7):
        a, end = legs[j]
        top = f"t{j}"
        g.places[top] = g.places[a] + numpy.array([0.0, 0.0, 12.0])
        legs[j] = (top, end)
    b = caves.survey(RNG, caves.Geometry(g.places, legs, g.in_loop))
    plumbed = "".join(f"{g.legs[j][0]} t{j} 12.0{j % 10} - {'up' if j % 2 else '+v'}\n" for j in range(0, len(legs), 7))
    return caves.sd_lines(caves.SIGMA) + b.lines() + plumbed.replace("+v", "up")


def sizes_and_blunders() -> Iterator[Case]:
    for loops, kind in (
        (1, None),
        (1, "10m"),
        (2, "10deg"),
        (4, "1m"),
        (10, None),
        (10, "180deg"),
        (24, "5m"),
        (30, "feet"),
    ):
        yield f"{loops} loops, {kind}", book(loops, kind).text(), {}
    yield "10 loops, a leg left out", book(10, "left out").text(), {}
    yield "6 loops, fine readings, 100 degrees", book(6, "100deg", FINE).text(), {}
    yield "5 loops, coarse and steep, 2 m", book(5, "2m", (1, 0, 0), steep=45.0).text(), {}


SAME_LENGTH = """*data normal from to tape compass clino
a b 10.00 0 0
b c 10.05 90 0
c d 10.00 180 0
d e 10.05 90 0
e f 10.00 0 0
f a 10.00 270 0
f g 10.00 90 0
g b 11.00 270 0
"""


def other_surveys() -> Iterator[Case]:
    yield "backsights", with_backsights(book(6, "5m")), {}
    yield "feet and corrections", in_feet(book(5, "10m")), {}
    yield "blocks and equates", blocks(book(8, "10m"), 3), {}
    yield "blocks, by trip", blocks(book(8, "90deg"), 3, True), {"trip": 0.7, "words": ("--trip", "0.7deg")}
    yield "fixed points", with_fixes(book(3), 0.5, ""), {}
    yield "fixed wrongly", with_fixes(book(3), 30, "0.5 0.4 1"), {}
    yield "plumbed legs", with_plumbs(4), {}
    yield "Survex's defaults", book(5, "10m").text({}), {}
    yield "legs of one length", SAME_LENGTH, {}


def other_errors() -> Iterator[Case]:
    words = "tape=4mm,compass=0.25deg,clino=1.5deg,station=1.5cm"
    yield "sigmas", book(5).text(), {
        "sigma": {"tape": 0.004, "compass": 0.25, "clino": 1.5, "station": 0.015},
        "words": ("--sigma", words),
    }
    yield "two sigmas", book(5).text(), {"sigma": {"tape": 0.03, "compass": 1.0}, "words": ("--sigma", "30mm,1deg")}
    yield "fix=3m", with_fixes(book(2), 3, ""), {"sigma": {"fix": 3.0}, "words": ("--sigma", "fix=3m")}
    yield "no errors but the book's", book(3).text(), {
        "sigma": dict.fromkeys(caves.SIGMA, 0.0),
        "words": ("--sigma", "tape=0mm,compass=0deg,clino=0deg,station=0mm"),
    }
    yield "by trip, one trip", book(6).text(), {"trip": 2.0, "words": ("--trip", "2deg")}


def one_of_many(loops: int, seed: int, number: int) -> str:
    """The sound cave of that number among those made from a seed."""
    rng = numpy.random.default_rng(seed)
    return [caves.survey(rng, caves.made(rng, loops)).text() for _ in range(number + 1)][number]


def many_loops() -> Iterator[Case]:
    yield '30 loops, whose loops share many passages', one_of_many(30, 3001, 101), {}
    yield "200 loops, 20 degrees", book(200, "20deg").text(), {"plays": 200}


def beside_the_other() -> str:
    """Every number of --json, on all these surveys."""
    count = unsound = 0
    for cases in (sizes_and_blunders, other_surveys, other_errors, many_loops):
        for name, text, options in cases():
            try:
                told, _ = compare(COMMAND, text, **options)
            except Differs as why:
                with open(KEPT, "w") as file:
                    file.write(text)
                raise Differs(f"{name}: {why} ({KEPT})")
            count += 1
            unsound += not told["sound"]
    if unsound < 10 or count - unsound < 5:
        raise Differs(f"{unsound} of {count} caves are unsound: the tests see too little")
    return f"{count} caves, {unsound} of them unsound, as the other implementation judges them"


# Limits
def cave_of(text: str, plays: int) -> other.Cave:
    cave = other.Cave(Survey(text))
    cave.play(other.samples_from(COMMAND, SEEDS, plays, cave.samples_of_a_play()))
    return cave


def beyond_at(text: str) -> int:
    cave = cave_of(text, 999)
    return int((cave.plays_t >= cave.t).sum())


def crossing(wanted: Callable[[float], bool], low: float, high: float) -> tuple[float, float]:
    """Two neighbouring numbers, to four decimals: wanted at the first, and no more at the second."""
    while high - low > 0.00015:
        middle = round((low + high) / 2, 4)
        low, high = (middle, high) if wanted(middle) else (low, middle)
    return low, high


def at_five_percent() -> str:
    """999 plays: 49 of them make p 0.05 just, which is sound; 48 are too few."""
    b = next(b for b in iter(lambda: book(2, decimals=(4, 2, 2)), None) if cave_of(b.text(), 999).p > 0.2)
    own = b.tape[0]

    def text(x: float) -> str:
        b.tape[0] = own + x
        return b.text()

    start = next(x for x in numpy.arange(0, 50, 0.5) if cave_of(text(x), 999).p < 0.04)
    for beyond, sound in ((49, True), (48, False)):
        low, _ = crossing(lambda x: beyond_at(text(x)) >= beyond, 0.0, start)
        told = tell(COMMAND, text(low), "--seeds", SEEDS, "--plays", "999")
        same(f"plays beyond at {low}", told["beyond"], beyond)
        same(f"{beyond} of 999 plays", told["sound"], sound)
        said = subprocess.run(
            [COMMAND, "check", "-", "--seeds", SEEDS, "--plays", "999"], input=text(low), capture_output=True, text=True
        )
        same(f"status with {beyond} of 999 plays", said.returncode, 0 if sound else 1)
        for words, there in (("no sign of a blunder", sound), ("Look at", not sound), ("below 5 %", not sound)):
            same(f"'{words}' with {beyond} of 999 plays", words in said.stdout, there)
    return "5 % has both its sides"


same = beside.same


def closing_too_well() -> str:
    """The same errors made smaller, until a sound cave in 1,000 closes as well."""
    g = caves.made(RNG, 6)
    exact = caves.survey(numpy.random.default_rng(1), g, dict.fromkeys(caves.SIGMA, 0.0), (4, 3, 3))
    noisy = caves.survey(numpy.random.default_rng(1), g, decimals=(4, 3, 3))

    def text(x: float) -> str:
        tape, compass, clino = (
            getattr(exact, n) + x * (getattr(noisy, n) - getattr(exact, n)) for n in ("tape", "compass", "clino")
        )
        return caves.Book(g, tape, compass, clino, (4, 3, 3)).text()

    below, above = crossing(lambda x: other.Cave(Survey(text(x))).closes_too_well(), 0.0, 1.0)
    for x, well in ((below, True), (above, False)):
        told = tell(COMMAND, text(x), "--seeds", SEEDS, "--plays", "100")
        same(f"too_well at {x}", told["too_well"], well)
        said = subprocess.run([COMMAND, "check", "-"], input=text(x), capture_output=True, text=True).stdout
        same(f"'too well' at {x}", "better than all but 1 in 1,000" in said, well)
    return "closing too well, too"


# The command
def run(*words: str, text: str | None = None) -> subprocess.CompletedProcess[str]:
    return subprocess.run([COMMAND, "check", *words], input=text, capture_output=True, text=True)


def threads_and_parts() -> str:
    """The same answer by any number of threads, and from parts that are merged in any order."""
    with open("cave.svx", "w") as file:
        file.write(book(10, "10m").text())
    whole = run("cave.svx", "--seeds", SEEDS, "--plays", "900", "--json", "--jobs", "1").stdout
    for jobs in ("2", "3", "7"):
        same(
            f"{jobs} jobs", run("cave.svx", "--seeds", SEEDS, "--plays", "900", "--json", "--jobs", jobs).stdout, whole
        )
    for j, (first, plays) in enumerate(((0, 300), (300, 150), (450, 450))):
        run("cave.svx", "--seeds", SEEDS, "--plays", str(plays), "--first", str(first), "--json", "-o", f"part{j}.json")
    merged = json.loads(run("cave.svx", "--merge", "part2.json", "part0.json", "part1.json", "--json").stdout)
    for name, value in json.loads(whole).items():
        same(f"merged: {name}", merged[name], value)
    with open("cave.svx", "a") as file:
        file.write("s0 s3 100 20 0\n")
    for words in (["part0.json", "part1.json"], ["part0.json", "part0.json"], ["cave.svx"], ["none.json"]):
        done = run("cave.svx", "--merge", *words)
        same(f"merging {words}: status", (done.returncode, done.stdout, done.stderr.count("\n")), (2, "", 1))
    return "threads and parts make no difference"


def holds(what: str, said: str, *words: str) -> None:
    for word in words:
        if word not in said:
            raise Differs(f"{what}: '{word}' is not said: {said}")


def verdicts(text: str, *words: str) -> tuple[str, Any]:
    """What is said of a survey, and what JSON tells of it, with the same seeds."""
    words = ("--seeds", SEEDS, *words)
    return run("-", *words, text=text).stdout, json.loads(run("-", "--json", *words, text=text).stdout)


def percent(share: float) -> str:
    return f"{100 * share:.2g} %" if share < 0.0995 else f"{100 * share:.0f} %"


def told_of_suspects() -> None:
    """Printed are ten at most, and all but the first have 1 % or more; what remains decides the last sentence."""
    several = 0
    for loops, kinds in ((10, ["180deg"]), (10, ["10m", "180deg", "180deg"]), (24, ["10m", "100deg", "180deg"])):
        b = book(loops)
        for kind in kinds:
            caves.blunder(RNG, b, kind)
        said, told = verdicts(b.text())
        shown = [s for j, s in enumerate(told["suspects"][:10]) if j == 0 or s["share"] >= 0.01]
        rows = said.split("Look at these legs first:\n")[1].split("\n")
        for j, s in enumerate(shown):
            sure = "Over 99 %" if s["share"] >= 0.995 else percent(s["share"])
            holds("a suspect", rows[2 * j], f"standard input:{s['line']}  {s['from']} - {s['to']}", s["blunder"])
            holds("a suspect", rows[2 * j + 1], f"{sure} sure. Corrected, {percent(s['remains'])} of sound caves")
        same("suspects printed", said.count(" would explain "), len(shown))
        well = sum(s["remains"] >= 0.05 for s in shown)
        same("suspects that explain all", said.count(" would explain it."), well)
        first = told["suspects"][0]
        several += first["remains"] < 0.05
        same("several blunders", "there are several blunders" in said, first["remains"] < 0.05)
        same("other corrections", "make the cave sound, too" in said, first["remains"] >= 0.05 and first["others"] > 0)
    same("caves of several blunders", several > 0, True)


def told_of_loops() -> None:
    """The worst bad loops first, five at most, and all with --loops; a p below 0.001 is said so, and given by JSON."""
    b = book(30)
    for _ in range(12):
        caves.blunder(RNG, b, "180deg")
    said, told = verdicts(b.text())
    bad = sorted((r["q"], j + 1) for j, r in enumerate(told["loops"]) if not r["sound"])[::-1]
    rows = [line for line in said.split("\n") if "  bad   " in line]
    same("bad loops", [int(row.split()[0]) for row in rows], [number for _, number in bad[:5]])
    holds("loops", said, f"Loops: {30 - len(bad)} of 30 are sound", f"and {len(bad) - 5} more. --loops lists them all.")
    every = run("-", "--seeds", SEEDS, "--loops", text=b.text()).stdout
    table = [line.split() for line in every.split(" loop  legs ")[1].split("\n")[1:31]]
    for number, (row, loop) in enumerate(zip(table, told["loops"]), 1):
        far = math.hypot(loop["east_mm"], loop["north_mm"]) / 1000
        p = "<0.001" if loop["p"] < 0.001 else f"{loop['p']:.2g}"
        wanted = [str(number), str(loop["legs"]), f"{loop['length_m']:.1f}", f"{far:.2f}"]
        wanted += [f"{100 * far / loop['length_m']:.2f}"]
        same(f"row of loop {number}", row[:5] + row[7:8], wanted + [p])
    same("p below 0.001", "<0.001" in every and all(loop["p"] >= 0 for loop in told["loops"]), True)


def sentences() -> str:
    """What the answer says in words is what JSON tells."""
    told_of_suspects()
    told_of_loops()
    said, told = verdicts(book(3).text(), "--sigma", "tape=1.5mm,station=1cm,compass=0.25deg")
    holds(
        "errors",
        said,
        "tape 1.5 mm (--sigma), compass 0.25 degrees (--sigma)",
        "clino 0.5 degrees (*sd), stations 10 mm",
    )
    same("sigma", [told["sigma"][n]["high"] for n in ("tape_mm", "station_mm")], [1.5, 10])
    holds("errors", verdicts(book(3).text({}))[0], "(from Survex's defaults; --sigma replaces them)")
    said, told = verdicts(book(3).text())
    lost = told["legs_in_no_loop"]
    holds(
        "a cave",
        said,
        f"{told['legs']} legs",
        f"{lost} of {told['legs']} legs {'is' if lost == 1 else 'are'} in no loop",
    )
    holds("a cave", said, "Plan only: heights are not judged. The noise is proved, the check is not.", "(from *sd; ")
    holds("seeds", said, "(seeds (a 3141592653 2718281828 1618033988) (b 1414213562 1732050807 2236067977))")
    half = sorted(row["distance_m"] for row in told["would_show"])[len(told["would_show"]) // 2]
    holds("what would show", said, f"A blunder of {half:.{1 if half < 9.95 else 0}f} m")
    fit = [f"{told['station_mm'][n]:.0f}" for n in ("value", "low", "high")]
    if told["factor"]["low"] <= 1 <= told["factor"]["high"]:
        holds("errors that fit", said, f"best would be {fit[0]} mm a station ({fit[1]} to {fit[2]})")
    few, told = verdicts(book(8).text(), "--sigma", "tape=1mm,compass=0.1deg,clino=0.1deg,station=2mm")
    fit = [f"{told['station_mm'][n]:.0f}" for n in ("value", "low", "high")]
    holds("errors too small", few, f"Your loops fit {fit[0]} mm a station ({fit[1]} to {fit[2]}), not 2, or all errors")
    return "the sentences say what JSON tells"


def jobs_and_listings() -> str:
    """A job, its listing and the same legs as a survey: one verdict with the same errors and seeds."""
    legs = [("A", "B", 12345, 0), ("B", "C", 20000, 16384), ("C", "D", 12300, 32768), ("D", "A", 20090, 49152)]
    shots = "".join(f"{a} {b} {d} {w}\n" for a, b, d, w in legs)
    listed = "".join(f"(shot {a} {b} {d} {w})\n" for a, b, d, w in legs)
    seeds = "(seeds (a {} {} {}) (b {} {} {}))\n".format(*SEEDS.split(","))
    units = "*units tape 0.001 metres\n*units compass 0.0054931640625 degrees\n*data normal from to tape compass\n"
    with open("a.job", "w") as file:
        file.write(seeds + "(sigma 4 91)\n" + listed)
    listing = subprocess.run([COMMAND, "list", "a.job"], capture_output=True, text=True)
    sigma = "tape=4mm,compass=91steps,clino=0deg,station=0mm"
    if listing.returncode != 0:
        raise Differs(f"the job has no listing: {listing.stderr}")
    job = json.loads(run("a.job", "--json").stdout)
    survey = json.loads(run("-", "--seeds", SEEDS, "--sigma", sigma, "--json", text=units + shots).stdout)
    for name in ("p", "sound", "legs", "statistic", "seeds", "played", "legs_in_no_loop"):
        same(f"a job: {name}", job[name], survey[name])
    same("a job's sigma", job["sigma"]["tape_mm"]["from"], "the job")
    read = json.loads(run("-", "--sigma", sigma, "--json", text=listing.stdout).stdout)
    same("a listing's legs", (read["legs"], len(read["loops"])), (4, 1))
    return "jobs and listings are judged as the same legs of a survey"


def pictures() -> str:
    for name, text in (
        ("sound", book(10).text()),
        ("unsound", book(10, "180deg").text()),
        ("blocks", blocks(book(5, "10m"), 3)),
        ("no loop", "a b 10 0 0\nb c 5 90 0\n"),
    ):
        run("-", "--svg", "plan.svg", text=text)
        tree = xml.etree.ElementTree.parse("plan.svg")
        same(f"the picture of {name}", tree.getroot().tag, "{http://www.w3.org/2000/svg}svg")
        with open("plan.svg") as file:
            drawn = file.read().lower()
        if "nan" in drawn or "inf" in drawn or len(list(tree.iter())) < 5:
            raise Differs(f"the picture of {name}: a number that is none, or nothing drawn")
        os.remove("plan.svg")
    return "pictures are well formed"


WRONG = (
    "--plays 99",
    "--plays x",
    "--plays",
    "--sigma tape=",
    "--sigma width=1mm",
    "--sigma tape=1deg",
    "--sigma compass=1mm",
    "--sigma tape=-1mm",
    "--sigma tape=1mm,",
    "--sigma ,",
    "--sigma tape=nanmm",
    "--sigma tape=1e999mm",
    "--trip 1mm",
    "--trip x",
    "--seeds 1,2",
    "--seeds 1,2,3,4,5,6",
    "--jobs 0",
    "--first x",
    "--first 18446744073709551615",
    "--svg /none/plan.svg",
    "-o /none/answer",
    "--unknown",
    "--merge",
    "two.svx three.svx",
)

UNREADABLE = {
    "nothing": "",
    "no leg": "*begin a\n*end a\n",
    "no numbers": "*data normal from to tape compass clino\na b x y z\n",
    "a reading that lacks": "*data normal from to tape compass clino\na b 10\n",
    "an end that lacks": "*begin a\na b 10 20 0\n",
    "a decimal comma": "*data normal from to tape compass clino\na b 10,5 20 0\n",
    "no such file": "*include none\n",
    "bytes": "\x00\x01\x02\xff" * 40,
}


def bad_input() -> str:
    """One line for wrong use; for a survey that cannot be read its file and line; status 2, and nothing on standard output."""
    with open("cave.svx", "w") as file:
        file.write(book(2).text())
    for words in WRONG:
        done = run("cave.svx", *words.split())
        same(f"{words}: status, output, lines", (done.returncode, done.stdout, done.stderr.count("\n")), (2, "", 1))
    for name in ("none.svx", "."):
        same(f"{name}: status", (run(name).returncode, run(name).stdout), (2, ""))
    for name, text in UNREADABLE.items():
        with open("bad.svx", "w", encoding="latin-1") as file:
            file.write(text)
        done = run("bad.svx")
        if done.returncode != 2 or done.stdout or not done.stderr.startswith("bad.svx:"):
            raise Differs(f"{name}: status {done.returncode}: {done.stdout} {done.stderr}")
    return f"{len(WRONG)} wrong uses and {len(UNREADABLE)} surveys that cannot be read are refused"


SQUARE = "a b 10 0 0\nb c 10 90 0\nc d 10 180 0\n"
STRANGE = {
    "no loop": SQUARE,
    "it closes": SQUARE + "d a 10 270 0\n",
    "a leg there and back": "a b 10 0 0\nb a 10 180 0\n",
    "the same leg twice": "a b 10.00 0 0\na b 10.02 1 0\n",
    "a leg of no length": SQUARE + "d a 10 270 0\na e 0 0 0\ne b 10 0 0\n",
    "all legs plumbed": "a b 10 - up\nb a 10 - down\n",
    "a huge miss": SQUARE + "d a 99999 270 0\n",
    "a tiny cave": "a b 0.01 0 0\nb c 0.01 120 0\nc a 0.01 240 0\n",
}
NO_ERRORS = "tape=0mm,compass=0deg,clino=0deg,station=0mm"


def strange_surveys() -> str:
    """Surveys at the edge of sense get an answer without a number that is none."""
    for name, legs in STRANGE.items():
        for words in ("", "--json", "--loops", f"--sigma {NO_ERRORS}", "--trip 90deg"):
            done = run("-", *words.split(), text="*data normal from to tape compass clino\n" + legs)
            none = [w for w in ("nan", "inf ", "inf,", "-0.0 ") if w in done.stdout.lower()]
            if done.returncode not in (0, 1) or done.stderr or none:
                raise Differs(f"{name}, {words}: status {done.returncode}: {none} {done.stdout} {done.stderr}")
            if words == "--json":
                json.loads(done.stdout)
    return f"{len(STRANGE)} strange surveys are answered"


def main() -> None:
    start = time.time()
    with tempfile.TemporaryDirectory() as room:
        os.chdir(room)
        for part in (
            beside_the_other,
            at_five_percent,
            closing_too_well,
            threads_and_parts,
            sentences,
            jobs_and_listings,
            pictures,
            bad_input,
            strange_surveys,
        ):
            try:
                print(f"check: {part()}", flush=True)
            except Differs as why:
                sys.exit(f"FAILED: check: {part.__name__}: {why}")
    print(f"check: all as it should be (JABULGHI_SEED={SEED}); {time.time() - start:.0f} s")


main()
