"""`jabulghi check --json` beside the other implementation: every number, to the digits that are printed."""

import json
import math
import subprocess
from typing import Any

import blunders
import other
from other import Cave
from readings import Survey

SEEDS = "3141592653,2718281828,1618033988,1414213562,1732050807,2236067977"
LEAST_SHARE = 1e-300


class Differs(Exception):
    """A number that the two implementations do not share."""


def tell(command: str, text: str, *words: str, status: tuple[int, ...] = (0, 1)) -> Any:
    """What the command tells of a text, as JSON gives it."""
    done = subprocess.run(
        [command, "check", "-", "--json", *words], input=text, capture_output=True, text=True, timeout=60
    )
    if done.returncode not in status:
        raise Differs(f"{words}: status {done.returncode}: {done.stderr}")
    told = json.loads(done.stdout)
    if (done.returncode == 0) != told["sound"]:
        raise Differs(f"status {done.returncode} where sound is {told['sound']}")
    return told


def near(what: str, told: float | None, wanted: float | None, part: float = 2e-6, least: float = 1e-12) -> None:
    if told is None or wanted is None:
        if told is not wanted:
            raise Differs(f"{what}: {told}, not {wanted}")
    elif not abs(told - wanted) <= part * abs(wanted) + least:
        raise Differs(f"{what}: {told!r}, not {wanted!r}")


def same(what: str, told: Any, wanted: Any) -> None:
    if told != wanted:
        raise Differs(f"{what}: {told!r}, not {wanted!r}")


def loops_told(survey: Survey, told: Any) -> list[list[tuple[int, int]]]:
    """The loops of the answer, station by station, as edges."""
    edges = other.edges_of(survey)
    between: dict[tuple[str, str], list[tuple[int, int]]] = {}
    for j, e in enumerate(edges):
        between.setdefault((e.start, e.end), []).append((j, 1))
        between.setdefault((e.end, e.start), []).append((j, -1))
    loops = []
    for loop in told["loops"]:
        names = ["" if name is None else name.lower() for name in loop["stations"]]
        loops.append([between[a, b] for a, b in zip(names, names[1:] + names[:1])])
    return [[choices[0] for choices in loop] if len(loop) != 2 else [loop[0][0], loop[1][-1]] for loop in loops]


def compare(
    command: str,
    text: str,
    sigma: dict[str, float] | None = None,
    trip: float = 0.0,
    plays: int = 1000,
    words: tuple[str, ...] = (),
) -> tuple[Any, Cave]:
    """Compares one survey, and returns both answers."""
    survey = Survey(text)
    told = tell(command, text, "--seeds", SEEDS, "--plays", str(plays), *words)
    least = Cave(survey, sigma, trip)
    cave = Cave(survey, sigma, trip, loops_told(survey, told))
    same("the legs of the loops", sorted(map(int, legs_of(cave))), sorted(map(int, legs_of(least))))
    near("the statistic with other loops", cave.t, least.t)
    samples = cave.samples_of_a_play()
    same("pairs_per_play", told["pairs_per_play"], samples // 2)
    cave.play(other.samples_from(command, SEEDS, plays, samples))
    compare_cave(told, cave, survey)
    compare_loops(told, cave)
    compare_sizes(told, cave)
    if told["sound"]:
        same("suspects of a sound cave", told["suspects"], [])
    else:
        compare_suspects(told, cave)
    return told, cave


def legs_of(cave: Cave) -> list[int]:
    return [sum(cave.edges[j].kind == "leg" for j, _ in loop) for loop in cave.loops]


def compare_cave(told: Any, cave: Cave, survey: Survey) -> None:
    same("legs", told["legs"], len([g for g in survey.legs if g.start != g.end]))
    near("length_m", told["length_m"], sum(g.length for g in survey.legs), 0, 0.001)
    same("legs_in_no_loop", told["legs_in_no_loop"], told["legs"] - len(cave.legs_played()))
    for name, wanted in (
        ("statistic", cave.t),
        ("misfit", cave.Q),
        ("limit", cave.limit()),
        ("shows", other.farther(cave.limit())),
    ):
        near(name, told[name], wanted, 1e-5)
    near("p", told["p"], cave.p, 1e-6)
    same("sound", told["sound"], cave.p >= other.LEAST)
    same("too_well", told["too_well"], cave.closes_too_well())
    same("passages", told["passages"], len(cave.passages))
    same("trips", told["trips"], len(cave.trips_played()))
    if len(cave.loops) > 40:
        return
    estimates = cave.estimates()
    for j, end in enumerate(("value", "low", "high")):
        near(f"factor, {end}", told["factor"][end], estimates["factor"][j], 1e-5)
        near(f"station_mm, {end}", told["station_mm"][end], 1000 * estimates["station"][j], 1e-4, 0.01)
    near("factor_without", told["factor_without"] or None, estimates["without"], 1e-4)


def compare_loops(told: Any, cave: Cave) -> None:
    m = cave.m.reshape(-1, 2)
    sizes = cave.loop_sizes(cave.m[None])[0]
    for r, loop in enumerate(told["loops"]):
        legs = [cave.v[j] for j, _ in cave.loops[r] if cave.edges[j].kind == "leg"]
        same(f"legs of loop {r}", loop["legs"], len(legs))
        near(f"length of loop {r}", loop["length_m"], sum(math.hypot(*v) for v in legs), 0, 0.001)
        miss = (loop["east_mm"], loop["north_mm"])
        way = 1 if abs(miss[0] - 1000 * m[r][0]) + abs(miss[1] - 1000 * m[r][1]) < 0.01 else -1
        for axis in (0, 1):
            near(f"miss of loop {r}", miss[axis], way * 1000 * m[r][axis], 0, 0.002)
        near(f"q of loop {r}", loop["q"], sizes[r], 1e-5)
        p = math.exp(-sizes[r] / 2)
        near(f"p of loop {r}", loop["p"], p, 1e-4)
        same(f"loop {r} sound", loop["sound"], cave.loop_share(sizes[r]) >= other.LEAST)
        same(f"loop {r} too well", loop["too_well"], 1 - p < 0.001)


def compare_sizes(told: Any, cave: Cave) -> None:
    """The smallest blunders that would have shown."""
    rows = {(row["line"], row["from"].lower(), row["to"].lower()): row for row in told["would_show"]}
    smallest = cave.smallest()
    same("legs of would_show", len(rows), len(smallest))
    for j, (distance, bearing) in smallest.items():
        e = cave.edges[j]
        row = rows[e.line, e.start, e.end]
        near(f"line {e.line}: distance that shows", row["distance_m"], distance, 2e-5)
        near(f"line {e.line}: bearing that shows", row["bearing_degrees"], bearing, 2e-4)


def compare_suspects(told: Any, cave: Cave) -> None:
    rows = told["suspects"]
    everyone = blunders.suspects(cave)
    ranked = everyone[: len(rows)]
    if len(rows) < 1000 and any(s.share > LEAST_SHARE for s in everyone[len(rows) :]):
        raise Differs(f"suspects: only {len(rows)}")
    left = blunders.remains(cave, ranked)
    well = sum(p >= other.LEAST for p in left)
    keyed = {key_of(cave, s): (s, p) for s, p in zip(ranked, left)}
    shares = [row["share"] for row in rows]
    same("the order of the suspects", shares, sorted(shares, reverse=True))
    for row in rows:
        key = (
            (row["passage"], -1) if row["kind"] == "left out" else (row["line"], row["from"].lower(), row["to"].lower())
        )
        name = f"{row['file']}:{row['line']} {row['blunder']}"
        if row["kind"] == "left out":
            line = row["line"]
            key = next(
                key_of(cave, s)
                for s in ranked
                if s.edge < 0 and any(cave.edges[j].line == line for j in cave.passages[s.passage])
            )
        s, p = keyed[key]
        near(f"{name}: share", row["share"], s.share, 2e-4, LEAST_SHARE)
        if row["share"] > 1e-12:
            near(f"{name}: remains", row["remains"], p, 1e-5)
            same(f"{name}: others", row["others"], well - (p >= other.LEAST))


def key_of(cave: Cave, s: blunders.Suspect) -> Any:
    if s.edge < 0:
        return ("left out", s.passage)
    e = cave.edges[s.edge]
    return (e.line, e.start, e.end)
