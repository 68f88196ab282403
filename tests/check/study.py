"""How often a cave is judged rightly: false alarms, blunders found and ranked, station errors, times. study.py MANY [PART..], MANY being many.c compiled."""

import math
import os
import resource
import subprocess
import sys
from collections.abc import Iterable
from dataclasses import dataclass
from typing import Any

import caves
import numpy

MANY = sys.argv[1]
SURVEYS = os.environ.get("SURVEYS", "surveys/caveconverter")
FIRST = int(os.environ.get("FIRST", "0"))
PLAYS = int(os.environ.get("PLAYS", "400"))
GOOD = {"tape": 0.004, "compass": 0.5, "clino": 0.0, "station": 0.0}
REAL = {"Swildon's": "SwilEnt_in.svx", "Riaño": "0105_Riano_in.svx", "Riesending": "Riesending_lrou_200909_in.svx"}


@dataclass
class Told:
    """What is told of a cave: station errors in millimetres; the rank is 0 where the leg is no suspect."""

    sound: bool
    too_well: bool
    bad_loops: int
    loops: int
    station: tuple[float, float, float]
    rank: int


def caves_of(count: int) -> int:
    return int(os.environ.get("CAVES", str(count)))


def told(surveys: Iterable[tuple[str, int]], sigma: dict[str, float] | None = None, plays: int = PLAYS) -> list[Told]:
    """All these surveys, each with the line of a leg, judged by one process."""
    sigmas = [] if sigma is None else [repr(sigma[name]) for name in ("tape", "compass", "clino", "station")]
    process = subprocess.Popen(
        [MANY, str(plays), str(FIRST), *sigmas], stdin=subprocess.PIPE, stdout=subprocess.PIPE, text=True, bufsize=1
    )
    assert process.stdin and process.stdout
    rows = []
    for text, line in surveys:
        process.stdin.write(f"{len(text)} {line}\n{text}")
        process.stdin.flush()
        words = process.stdout.readline().split()
        if len(words) != 9:
            sys.exit("FAILED: study: a cave is not judged")
        station = (float(words[5]), float(words[6]), float(words[7]))
        rows.append(Told(words[0] == "1", words[2] == "1", int(words[3]), int(words[4]), station, int(words[8])))
    process.stdin.close()
    return rows


def share(part: int, whole: int) -> str:
    return f"{100 * part / max(whole, 1):.1f} %"


def alarms() -> None:
    """Sound caves with all four kinds of error and the book's rounding: how many are called unsound."""
    count = caves_of(2000)
    for loops in (10, 24, 30):
        rng = numpy.random.default_rng([loops, FIRST])
        rows = told((caves.survey(rng, caves.made(rng, loops)).text(), 0) for _ in range(count))
        called, bad, well = (
            sum(not t.sound for t in rows),
            sum(t.bad_loops > 0 for t in rows),
            sum(t.too_well for t in rows),
        )
        print(
            f"alarms: {loops} loops, {count} sound caves: {share(called, count)} unsound ({called}), {share(bad, count)} with a bad loop, {share(well, count)} too well",
            flush=True,
        )


def ranked(rows: list[Told]) -> str:
    """How many are found, and where their legs rank among those found."""
    ranks = [t.rank or 10**6 for t in rows if not t.sound]
    places = ", ".join(
        f"{name} {share(sum(r <= most for r in ranks), len(ranks))}"
        for name, most in (("first", 1), ("in three", 3), ("in ten", 10))
    )
    return f"found {share(len(ranks), len(rows))}, of those {places}"


def blundered(rng: Any, geometry: caves.Geometry, kind: str, decimals: tuple[int, int, int]) -> tuple[str, int]:
    """A survey with a blunder, and the line of its leg."""
    b = caves.survey(rng, geometry, GOOD, decimals)
    leg = caves.blunder(rng, b, kind)
    return b.text({}), 2 + leg


def found() -> None:
    """The geometry of real caves, with 4 mm and 0.5 degrees."""
    count = caves_of(500)
    for name, file in REAL.items():
        geometry = caves.in_loops(caves.real(os.path.join(SURVEYS, file)))
        for kind in ("none", "10deg", "1m", "180deg", "10m", "100deg"):
            rng = numpy.random.default_rng([1, FIRST])
            rows = told((blundered(rng, geometry, kind, (3, 2, 0)) for _ in range(count)), GOOD)
            print(
                f"found: {name}, {rows[0].loops} loops, {len(geometry.legs)} legs in loops, {count} blunders, {kind}: {ranked(rows)}",
                flush=True,
            )


def ring(rng: Any, legs: int) -> caves.Geometry:
    """One loop of level legs, some 8 m each, that closes."""
    while True:
        bearing = numpy.cumsum(rng.normal(0, 0.7, legs)) + numpy.linspace(
            0, 2 * math.pi, legs, endpoint=False
        ) * rng.choice([-1, 1])
        length = numpy.clip(numpy.exp(rng.normal(math.log(8), 0.5, legs)), 1.5, 29)
        steps = numpy.c_[length * numpy.sin(bearing), length * numpy.cos(bearing), 0 * length]
        steps = steps - steps.mean(0)
        if numpy.linalg.norm(steps, axis=1).min() > 0.8:
            break
    places = {f"s{j}": at for j, at in enumerate(numpy.cumsum(steps, 0))}
    ends = [(f"s{j}", f"s{(j + 1) % legs}") for j in range(legs)]
    return caves.Geometry(places, ends, list(range(legs)))


def named() -> None:
    """One loop of 40 legs, where only the size of a blunder tells its legs apart."""
    count = caves_of(2000)
    for kind in ("180deg", "10m", "100deg", "10deg", "5m", "1m"):
        rng = numpy.random.default_rng([2, FIRST])
        rows = told((blundered(rng, ring(rng, 40), kind, (2, 1, 0)) for _ in range(count)), GOOD)
        print(f"named: a loop of 40 legs, {count} blunders, {kind}: {ranked(rows)}", flush=True)


def station() -> None:
    """Station errors of 50 mm where 10 mm were told, in caves of 20 loops."""
    count = caves_of(200)
    rng = numpy.random.default_rng([3, FIRST])
    true = {"tape": 0.01, "compass": 0.5, "clino": 0.5, "station": 0.05}
    surveys = ((caves.survey(rng, caves.made(rng, 20), true).text({**true, "station": 0.01}), 0) for _ in range(count))
    rows = [t.station for t in told(surveys, plays=100)]
    values = numpy.array([value for value, _, _ in rows])
    off = numpy.abs(values / 50 - 1)
    within = sum(low <= 50 <= high for _, low, high in rows)
    print(
        f"station: {count} caves of 20 loops with 50 mm: median {numpy.median(values):.1f} mm, half of them within "
        f"{100 * numpy.median(off):.0f} %, {share(int((off <= 0.2).sum()), count)} within 20 %, "
        f"50 mm in the range of {share(within, count)}",
        flush=True,
    )


def times() -> None:
    """Whole runs of the command on one core: the processor's time."""
    for loops, most_legs in ((30, 200), (100, 58), (200, 30)):
        rng = numpy.random.default_rng(4)
        text = caves.survey(rng, caves.made(rng, loops, most_legs)).text()
        for kind in ("sound", "with a blunder"):
            before = resource.getrusage(resource.RUSAGE_CHILDREN)
            subprocess.run(
                [os.environ["COMMAND"], "check", "-", "--jobs", "1"], input=text, capture_output=True, text=True
            )
            after = resource.getrusage(resource.RUSAGE_CHILDREN)
            print(
                f"times: {text.count(chr(10)) - 5} legs, {loops} loops, {kind}, 1,000 plays: {after.ru_utime + after.ru_stime - before.ru_utime - before.ru_stime:.2f} s",
                flush=True,
            )
            b = caves.survey(rng, caves.made(rng, loops, most_legs))
            caves.blunder(rng, b, "180deg")
            text = b.text()


PARTS = {"alarms": alarms, "named": named, "station": station, "found": found, "times": times}
for part in sys.argv[2:] or PARTS:
    PARTS[part]()
