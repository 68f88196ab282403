"""The suspects of docs/check.md: what blunders correct a leg, how they weigh, and how the edges rank."""

import math
from dataclasses import dataclass
from typing import Any, Iterator

import numpy
from other import Cave
from readings import Leg, Reading

Array = Any
DISTANCES = {1: 3, 2: 1, 5: 2, 10: 3}
TURNS = {5: 2, 10: 4, 20: 1, 90: 1, 100: 2}
MISREAD = ("06", "08", "14", "17", "27", "35", "38", "49", "56", "58", "68")
LEAST_MOVE = 0.2 - 1e-9


@dataclass
class Hypothesis:
    blunder: str
    log_mass: float
    d: Array


@dataclass
class Suspect:
    """An edge, or a passage that lacks a leg (edge -1)."""

    edge: int
    passage: int
    share: float
    best: Hypothesis
    remains: float = 0.0


class Lengths:
    """How long the legs of a cave are, by a Gaussian distribution of their logarithms."""

    def __init__(self, legs: list[Leg]) -> None:
        logs = numpy.log([leg.length for leg in legs if leg.length > 0])
        self.mean, self.sd = float(logs.mean()), max(float(logs.std()), 0.3)

    def density(self, x: float) -> float:
        return math.exp(-(((math.log(x) - self.mean) / self.sd) ** 2) / 2) / x if x > 0 else 0.0

    def likelier(self, leg: Leg, length: float) -> float:
        """How much likelier a length is than the leg's own."""
        own = self.density(leg.length)
        return min(max(self.density(length) / own, 0.1), 10.0) if leg.length > 0 else 1.0


def tape_corrections(leg: Leg, v: Array, lengths: Lengths) -> Iterator[tuple[str, float, Array]]:
    """Distances changed in the tape, and in the backtape with it."""
    tapes = [r for r in leg.numbers if r.what in ("tape", "backtape")]
    by_written = [("decimal place", 1, f) for f in (10, 0.1)] + [("feet", 1, f) for f in (0.3048, 1 / 0.3048)]
    changes = [("distance", w, {r.what: r.value + s * x for r in tapes}) for x, w in DISTANCES.items() for s in (1, -1)]
    changes += [(name, w, {r.what: r.corrected(float(r.text) * f) for r in tapes}) for name, w, f in by_written]
    for name, weight, changed in changes:
        if all(value > 0 for value in changed.values()):
            yield name, weight * lengths.likelier(leg, leg.length_with(changed)), leg.vector(changed) - v


def rewritten(text: str) -> Iterator[tuple[str, float, str]]:
    """A number with two neighbouring digits exchanged, or a digit misread."""
    places = [j for j, c in enumerate(text) if c.isdigit()]
    for i, j in zip(places, places[1:]):
        yield "digits exchanged", 1, text[:i] + text[j] + text[i + 1 : j] + text[i] + text[j + 1 :]
    for i in places:
        for pair in MISREAD:
            if text[i] in pair:
                yield "digit misread", 0.3, text[:i] + pair[1 - pair.index(text[i])] + text[i + 1 :]


def allowed(r: Reading, text: str) -> bool:
    if r.what in ("tape", "backtape"):
        return r.corrected(float(text)) > 0
    written = float(text) * r.unit
    return 0 <= written <= 360 if r.what.endswith("compass") else -90 <= written <= 90


def known(leg: Leg, v: Array, lengths: Lengths) -> Iterator[tuple[str, float, Array]]:
    yield from tape_corrections(leg, v, lengths)
    for angle, weight in TURNS.items():
        for sign in (1, -1):
            yield "bearing", weight, turns(v, sign * angle)
    yield "backwards", 6, -2 * v
    for r in leg.numbers:
        for name, share, text in rewritten(r.text):
            if allowed(r, text):
                changed = {r.what: r.corrected(float(text))}
                likelier = lengths.likelier(leg, leg.length_with(changed))
                yield name, share * likelier, leg.vector(changed) - v


def gain(g: Array, H: Array, d: Array) -> float:
    return float(-(2 * d @ g + d @ H @ d))


def another_distance(leg: Leg, lengths: Lengths, v: Array, g: Array, H: Array, k: float) -> Hypothesis:
    P = math.hypot(*v)
    e = v / P
    curve = float(e @ H @ e)
    x = max(float(-(e @ g)) / curve, -P)
    likelier = lengths.likelier(leg, leg.length * (P + x) / P)
    mass = (
        math.log(4 * likelier / (2 + abs(x)) ** 2) + gain(g, H, x * e) / (2 * k) + math.log(2 * math.pi * k / curve) / 2
    )
    return Hypothesis("another distance", mass, x * e)


def turns(v: Array, degrees: Array) -> Array:
    """By how much v moves when it turns, for many angles."""
    s, c = numpy.sin(numpy.radians(degrees)), numpy.cos(numpy.radians(degrees)) - 1
    return numpy.stack([v[0] * c + v[1] * s, v[1] * c - v[0] * s], -1)


def another_bearing(v: Array, g: Array, H: Array, k: float) -> Hypothesis:
    angles = numpy.array([a for a in range(-179, 181) if a])
    d = turns(v, angles)
    gains = -(2 * d @ g + numpy.einsum("ka,ab,kb->k", d, H, d))
    best, step = float(angles[int(gains.argmax())]), 0.5
    for _ in range(10):
        best = max((best, best - step, best + step), key=lambda a: gain(g, H, turns(v, a)))
        step /= 2
    return Hypothesis("another bearing", math.log(6 / 360) + log_sum(gains / (2 * k)), turns(v, best))


def free(name: str, weight: float, g: Array, H: Array, k: float) -> Hypothesis:
    d = -numpy.linalg.solve(H, g)
    far = max(math.hypot(*d), 0.5)
    factor = 5 / (5 + far) ** 2 / (2 * math.pi * far) * 2 * math.pi * k / math.sqrt(numpy.linalg.det(H))
    return Hypothesis(name, math.log(weight * factor) + gain(g, H, d) / (2 * k), d)


def log_sum(logs: Any) -> float:
    most = max(logs)
    return float(most + math.log(numpy.exp(numpy.array(logs) - most).sum()))


def hypotheses(cave: Cave, lengths: Lengths, j: int, g: Array, H: Array, k: float) -> list[Hypothesis]:
    edge, v = cave.edges[j], cave.v[j]
    if edge.kind != "leg":
        return [free({"equate": "equated wrongly", "fix": "fixed wrongly"}[edge.kind], 4, g, H, k)]
    leg = cave.survey.legs[edge.leg]
    moves = [(name, w, d) for name, w, d in known(leg, v, lengths) if math.hypot(*d) >= LEAST_MOVE]
    found = [Hypothesis(name, math.log(w) + gain(g, H, d) / (2 * k), d) for name, w, d in moves]
    return found + (
        [another_distance(leg, lengths, v, g, H, k), another_bearing(v, g, H, k)] if math.hypot(*v) > 0 else []
    )


def unsureness(cave: Cave) -> float:
    """How much larger the errors look than they are said to be, without the edge that explains most."""
    n = 2 * len(cave.loops)
    return max(1.0, (cave.Q - cave.most_gain) / (n - 2)) if n > 2 else 1.0


def suspects(cave: Cave) -> list[Suspect]:
    """All edges and passages by their share, the largest first."""
    gradients = cave.gradients(cave.u[None])[0]
    k = unsureness(cave)
    lengths = Lengths(cave.survey.legs)
    rows = []
    for p, passage in enumerate(cave.passages):
        H = cave.H[p]
        for j in passage:
            sign = 1 if numpy.array_equal(cave.B[:, j], cave.columns[p]) else -1
            rows.append((j, p, hypotheses(cave, lengths, j, sign * gradients[p], H, k)))
        if any(cave.edges[j].kind == "leg" for j in passage):
            rows.append((-1, p, [free("left out", 3, gradients[p], H, k)]))
    masses = [log_sum([h.log_mass for h in row[2]]) if row[2] else -math.inf for row in rows]
    total = log_sum(masses)
    ranked = [
        Suspect(j, p, math.exp(m - total), max(h, key=lambda x: x.log_mass)) for (j, p, h), m in zip(rows, masses) if h
    ]
    return sorted(ranked, key=lambda s: -s.share)


def remains(cave: Cave, ranked: list[Suspect]) -> list[float]:
    """p of the cave with each suspect corrected."""
    columns = [cave.columns[s.passage] if s.edge < 0 else cave.B[:, s.edge] for s in ranked]
    moves = numpy.array([numpy.outer(column, s.best.d).ravel() for column, s in zip(columns, ranked)])
    return [cave.share(float(t)) for t in cave.statistic(cave.u + moves @ cave.inverse)]
