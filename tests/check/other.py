"""Another implementation of `jabulghi check`, from the formulas of docs/check.md alone; its samples are those of `jabulghi noise`."""

import heapq
import math
import subprocess
from dataclasses import dataclass
from typing import Any, Callable, Iterator

import numpy
from readings import Leg, Reading, Survey

Array = Any
STEP = 1e-4
LEAST = 0.05


@dataclass
class Edge:
    """A leg, an equate or a fixed point; `leg` is the place of a leg among those of the survey."""

    kind: str
    start: str
    end: str
    line: int
    leg: int = -1


def edges_of(survey: Survey) -> list[Edge]:
    edges = [Edge("leg", g.start, g.end, g.line, j) for j, g in enumerate(survey.legs) if g.start != g.end]
    joined = Joined()
    edges += [Edge("equate", a, b, line) for line, a, b in survey.equates if joined.join(a, b)]
    return edges + [Edge("fix", "", name, line) for line, name, _, _ in survey.fixes]


class Joined:
    """Which things have been joined."""

    def __init__(self) -> None:
        self.above: dict[Any, Any] = {}

    def find(self, x: Any) -> Any:
        self.above.setdefault(x, x)
        while self.above[x] != x:
            self.above[x] = x = self.above[self.above[x]]
        return x

    def join(self, x: Any, y: Any) -> bool:
        x, y = self.find(x), self.find(y)
        self.above[x] = y
        return bool(x != y)


# Loops: Horton's cycles on the graph whose chains of edges are one edge each.
@dataclass
class Chain:
    """Edges (with 1 or -1 for the way they are passed) between two stations where ways part."""

    start: Any
    end: Any
    edges: list[tuple[int, int]]
    legs: float


def chains_of(edges: list[Edge]) -> list[Chain]:
    near: dict[Any, dict[int, Chain]] = {}
    chains: dict[int, Chain] = {}
    rng = numpy.random.default_rng(1)
    for j, e in enumerate(edges):
        weight = (e.kind == "leg") + rng.random() / (2 * len(edges))
        chains[j] = Chain(e.start, e.end, [(j, 1)], weight)
        for end in (e.start, e.end):
            near.setdefault(end, {})[j] = chains[j]
    waiting = list(near)
    while waiting:
        at = waiting.pop()
        here = near.get(at, {})
        if len(here) == 1 and not any(c.start == c.end for c in here.values()):
            ((j, dead),) = here.items()
            far = dead.end if dead.start == at else dead.start
            del near[at], near[far][j], chains[j]
            waiting.append(far)
        elif len(here) == 2 and not any(c.start == c.end for c in here.values()):
            (i, first), (j, second) = here.items()
            del near[at]
            joined = join(first, second, at)
            del chains[i], chains[j]
            chains[i] = joined
            for end, old in ((joined.start, i), (joined.end, j)):
                near[end].pop(old, None)
            for end in (joined.start, joined.end):
                near[end][i] = joined
            waiting += [joined.start, joined.end]
    return list(chains.values())


def join(first: Chain, second: Chain, at: Any) -> Chain:
    """The chain that passes the station `at`."""
    if first.end != at:
        first = Chain(first.end, first.start, [(j, -s) for j, s in reversed(first.edges)], first.legs)
    if second.start != at:
        second = Chain(second.end, second.start, [(j, -s) for j, s in reversed(second.edges)], second.legs)
    return Chain(first.start, second.end, first.edges + second.edges, first.legs + second.legs)


def shortest(root: Any, near: dict[Any, list[tuple[Any, int, float]]]) -> dict[Any, tuple[float, int, Any]]:
    """To each node the length of the shortest way, its chains as bits, and the first node of the way."""
    found: dict[Any, tuple[float, int, Any]] = {}
    heap: list[tuple[float, int, int, Any, Any]] = [(0.0, 0, 0, root, None)]
    number = 0
    while heap:
        far, _, bits, node, first = heapq.heappop(heap)
        if node in found:
            continue
        found[node] = (far, bits, first)
        for other, j, weight in near[node]:
            if other not in found:
                number += 1
                heapq.heappush(
                    heap, (far + weight, number, bits | 1 << j, other, first if node != root else (other, j))
                )
    return found


def horton(chains: list[Chain]) -> Iterator[tuple[float, int]]:
    near: dict[Any, list[tuple[Any, int, float]]] = {}
    for j, c in enumerate(chains):
        near.setdefault(c.start, []).append((c.end, j, c.legs))
        near.setdefault(c.end, []).append((c.start, j, c.legs))
    seen = set()
    for root in near:
        ways = shortest(root, near)
        for j, c in enumerate(chains):
            if c.start not in ways:
                continue
            (p, a, first), (q, b, second) = ways[c.start], ways[c.end]
            bits = a ^ b ^ 1 << j
            if (a | b) >> j & 1 or (first is not None and first == second) or bits in seen:
                continue
            seen.add(bits)
            yield p + q + c.legs, bits


def least_cycles(chains: list[Chain], rank: int) -> list[int]:
    """A minimum cycle basis, each cycle its chains as bits."""
    rows: dict[int, int] = {}
    chosen = []
    for _, bits in sorted(horton(chains)):
        rest = bits
        while rest and rest.bit_length() in rows:
            rest ^= rows[rest.bit_length()]
        if rest:
            rows[rest.bit_length()] = rest
            chosen.append(bits)
            if len(chosen) == rank:
                break
    return chosen


def walked(bits: int, chains: list[Chain]) -> list[tuple[int, int]]:
    """The edges of a cycle in the order in which it is walked."""
    rest = [c for j, c in enumerate(chains) if bits >> j & 1]
    way = rest.pop(0)
    edges, at = list(way.edges), way.end
    while rest:
        way = next(c for c in rest if at in (c.start, c.end))
        rest.remove(way)
        ahead = way.start == at
        edges += way.edges if ahead else [(j, -s) for j, s in reversed(way.edges)]
        at = way.end if ahead else way.start
    return edges


def loops_of(edges: list[Edge]) -> list[list[tuple[int, int]]]:
    pieces = Joined()
    rank = len(edges) - sum(pieces.join(e.start, e.end) for e in edges)
    chains = chains_of(edges)
    return [walked(bits, chains) for bits in least_cycles(chains, rank)]


class Cave:
    """A survey with its errors: legs, loops, the joint covariance and what follows from it."""

    def __init__(
        self, survey: Survey, sigma: dict[str, float] | None = None, trip: float = 0.0, loops: Any = None
    ) -> None:
        self.survey, self.sigma, self.trip = survey, sigma or {}, trip
        self.edges = edges_of(survey)
        self.loops = loops if loops is not None else loops_of(self.edges)
        self.B = numpy.zeros((len(self.loops), len(self.edges)))
        for r, loop in enumerate(self.loops):
            for j, sign in loop:
                self.B[r, j] += sign
        self.judged = numpy.abs(self.B).sum(0) > 0
        self.v = numpy.array([self.own_vector(e) for e in self.edges]).reshape(-1, 2)
        self.C = numpy.array(
            [self.covariance(e) if on else numpy.zeros((2, 2)) for e, on in zip(self.edges, self.judged)]
        )
        self.passages = self.classes()
        self.solve()

    def sd(self, r: Reading) -> float:
        return self.sigma.get(r.what.replace("back", ""), r.sd)

    def station(self, leg: Leg) -> float:
        return self.sigma.get("station", leg.station)

    def plumb(self, leg: Leg) -> float:
        return leg.length * math.radians(self.sigma.get("clino", leg.plumb_sd))

    def fix_sd(self, e: Edge) -> list[float]:
        """A standard deviation that *fix does not give, or gives as 0, is 1 m."""
        given = next(sd for line, _, _, sd in self.survey.fixes if line == e.line)
        return [sd or self.sigma.get("fix", 1.0) for sd in given]

    def own_vector(self, e: Edge) -> Array:
        if e.kind == "leg":
            return self.survey.legs[e.leg].vector({})
        if e.kind == "fix":
            return numpy.array(next(at for line, name, at, _ in self.survey.fixes if line == e.line))
        return numpy.zeros(2)

    def covariance(self, e: Edge) -> Array:
        if e.kind == "equate":
            return numpy.zeros((2, 2))
        if e.kind == "fix":
            return numpy.diag(numpy.square(self.fix_sd(e)))
        leg = self.survey.legs[e.leg]
        C = 2 * self.station(leg) ** 2 * numpy.eye(2)
        for r in leg.numbers:
            j = derivative(leg, [r])
            C += (self.sd(r) ** 2 + r.step**2 / 12) * numpy.outer(j, j)
        if leg.plumbed:
            C += self.plumb(leg) ** 2 * numpy.eye(2)
        return C

    def classes(self) -> list[list[int]]:
        """Edges that no loop tells apart."""
        found: dict[bytes, list[int]] = {}
        for j in numpy.flatnonzero(self.judged):
            column = self.B[:, j]
            sign = column[numpy.flatnonzero(column)[0]]
            found.setdefault((column * sign + 0.0).tobytes(), []).append(int(j))
        return list(found.values())

    def trip_parts(self) -> Array:
        """a(r) of each trip: how far one degree on its compass moves each loop."""
        parts = numpy.zeros((self.survey.trips, 2 * len(self.loops)))
        for j in numpy.flatnonzero(self.judged):
            e = self.edges[j]
            if e.kind == "leg":
                leg = self.survey.legs[e.leg]
                turned = derivative(leg, [r for r in leg.numbers if r.what.endswith("compass")])
                parts[leg.trip] += numpy.outer(self.B[:, j], turned).ravel()
        return parts

    def joint(self, C: Array) -> Array:
        L = len(self.loops)
        S = numpy.zeros((L, 2, L, 2))
        for a in (0, 1):
            for b in (0, 1):
                S[:, a, :, b] = (self.B * C[:, a, b]) @ self.B.T
        S = S.reshape(2 * L, 2 * L) + 1e-8 * numpy.eye(2 * L)
        if self.trip:
            turns = self.trip_parts()
            S += self.trip**2 * turns.T @ turns
        return S

    def solve(self) -> None:
        self.m = (self.B @ self.v).ravel()
        self.S = self.joint(self.C)
        self.inverse = numpy.linalg.inv(self.S)
        self.u = self.inverse @ self.m
        self.Q = float(self.m @ self.u)
        self.columns = numpy.array([self.B[:, p[0]] for p in self.passages])
        L = len(self.loops)
        parts = self.inverse.reshape(L, 2, L, 2)
        self.H = numpy.einsum("pr,ranb,pn->pab", self.columns, parts, self.columns, optimize=True)
        self.H_inverse = numpy.linalg.inv(self.H)
        self.chances = 2 * numpy.log([len(p) for p in self.passages])
        self.t = float(self.statistic(self.u[None])[0])
        self.most_gain = float(self.gains(self.u[None]).max())

    def gradients(self, u: Array) -> Array:
        """g of each passage, for many u at once."""
        return numpy.einsum("pr,kra->kpa", self.columns, u.reshape(len(u), -1, 2), optimize=True)

    def gains(self, u: Array) -> Array:
        g = self.gradients(u)
        return numpy.einsum("kpa,pab,kpb->kp", g, self.H_inverse, g, optimize=True)

    def statistic(self, u: Array) -> Array:
        return (self.gains(u) + self.chances).max(1)

    def loop_sizes(self, m: Array) -> Array:
        """q of each loop, for many m at once."""
        L = len(self.loops)
        own = numpy.linalg.inv(self.S.reshape(L, 2, L, 2)[numpy.arange(L), :, numpy.arange(L), :])
        m = m.reshape(len(m), L, 2)
        return numpy.einsum("kra,rab,krb->kr", m, own, m)

    # Plays
    def legs_played(self) -> list[tuple[int, Leg]]:
        return [(j, self.survey.legs[e.leg]) for j, e in enumerate(self.edges) if e.kind == "leg" and self.judged[j]]

    def fixes_played(self) -> list[tuple[int, Edge]]:
        return [(j, e) for j, e in enumerate(self.edges) if e.kind == "fix" and self.judged[j]]

    def trips_played(self) -> list[int]:
        """Trips with a leg in a loop, in the order of their first such legs."""
        return list(dict.fromkeys(leg.trip for _, leg in self.legs_played()))

    def samples_of_a_play(self) -> int:
        legs = sum(2 * len(g.numbers) + 2 + 2 * g.plumbed for _, g in self.legs_played())
        return legs + 2 * len(self.fixes_played()) + 2 * len(self.trips_played())

    def misses(self, samples: Array) -> Array:
        """The misses of all loops in each play; samples has a row for each."""
        trips = self.trips_played()
        turns = samples[:, self.samples_of_a_play() - 2 * len(trips) :: 2] / 2048 * self.trip
        m = numpy.zeros((len(samples), len(self.loops), 2))
        at = 0
        for j, leg in self.legs_played():
            changed = {}
            for r in leg.numbers:
                even = (samples[:, at + 1] % 2048 + 0.5) / 2048 - 0.5
                changed[r.what] = r.value + self.sd(r) * samples[:, at] / 2048 + r.step * even
                if r.what.endswith("compass"):
                    changed[r.what] = changed[r.what] + turns[:, trips.index(leg.trip)]
                at += 2
            v = leg.vector(changed).T - self.v[j]
            for spread in [math.sqrt(2) * self.station(leg)] + [self.plumb(leg)] * leg.plumbed:
                v = v + spread * samples[:, at : at + 2] / 2048
                at += 2
            m += self.B[:, j][None, :, None] * v[:, None, :]
        for j, e in self.fixes_played():
            v = samples[:, at : at + 2] / 2048 * self.fix_sd(e)
            m += self.B[:, j][None, :, None] * v[:, None, :]
            at += 2
        return m.reshape(len(samples), -1)

    def play(self, samples: Array) -> None:
        m = self.misses(samples)
        self.plays_t = self.statistic(m @ self.inverse)
        self.plays_q = self.loop_sizes(m).max(1)
        self.p = self.share(self.t)

    def share(self, t: float) -> float:
        return float((1 + (self.plays_t >= t).sum()) / (1 + len(self.plays_t)))

    def loop_share(self, q: float) -> float:
        return float((1 + (self.plays_q >= q).sum()) / (1 + len(self.plays_q)))

    # What the loops say of the errors
    def station_Q(self, s: float) -> float:
        C = self.C.copy()
        for j, leg in self.legs_played():
            C[j] += 2 * (s**2 - self.station(leg) ** 2) * numpy.eye(2)
        return float(self.m @ numpy.linalg.solve(self.joint(C), self.m))

    def station_error(self, target: float) -> float:
        return root(lambda s: self.station_Q(s) - target, 0.0, 1000.0) if self.station_Q(0.0) > target else 0.0

    def estimates(self) -> dict[str, Any]:
        n = 2 * len(self.loops)
        low, high = chi_square(n, 0.975), chi_square(n, 0.025)
        return {
            "factor": [math.sqrt(self.Q / x) for x in (n, low, high)],
            "station": [self.station_error(x) for x in (n, low, high)],
            "without": math.sqrt((self.Q - self.most_gain) / (n - 2)) if n > 2 else None,
        }

    def closes_too_well(self) -> bool:
        return chi_square_below(2 * len(self.loops), self.Q) < 0.001

    # What it could not see
    def limit(self) -> float:
        return float(numpy.sort(self.plays_t)[math.ceil(0.95 * len(self.plays_t)) - 1])

    def smallest(self) -> dict[int, tuple[float, float | None]]:
        """For each leg the smallest blunder of distance (m) and bearing (degrees) that would have shown."""
        sizes = {len(p): farther(self.limit() - 2 * math.log(len(p))) for p in self.passages}
        found: dict[int, tuple[float, float | None]] = {}
        for p, passage in enumerate(self.passages):
            size = sizes[len(passage)]
            for j in passage:
                P = math.hypot(*self.v[j])
                if self.edges[j].kind == "leg" and P > 0:
                    e = self.v[j] / P
                    n = numpy.array([e[1], -e[0]])
                    half = size / math.sqrt(n @ self.H[p] @ n) / (2 * P)
                    found[j] = (
                        size / math.sqrt(e @ self.H[p] @ e),
                        math.degrees(2 * math.asin(half)) if half <= 1 else None,
                    )
        return found


def derivative(leg: Leg, readings: list[Reading]) -> Array:
    ahead = leg.vector({r.what: r.value + STEP for r in readings})
    behind = leg.vector({r.what: r.value - STEP for r in readings})
    return (ahead - behind) / (2 * STEP)


def root(f: Callable[[float], float], low: float, high: float) -> float:
    """Where a function that falls or rises from low to high is 0."""
    rising = f(high) > 0
    for _ in range(60):
        middle = (low + high) / 2
        low, high = (low, middle) if (f(middle) > 0) == rising else (middle, high)
    return (low + high) / 2


def chi_square_below(n: int, x: float) -> float:
    """The regularised lower incomplete gamma function, by its series."""
    if x <= 0:
        return 0.0
    a, half = n / 2, x / 2
    term = total = 1 / a
    for k in range(1, 100000):
        term *= half / (a + k)
        total += term
        if term < total * 1e-17:
            break
    return min(1.0, total * math.exp(a * math.log(half) - half - math.lgamma(a)))


def chi_square(n: int, share: float) -> float:
    return root(lambda x: chi_square_below(n, x) - share, 0.0, 10.0 * n + 100)


def farther(limit: float) -> float:
    """How far out Gaussian points in the plane are, of which 80 % are beyond the root of the limit."""
    steps = 4000
    r = (numpy.arange(steps) + 0.5) / steps * math.sqrt(limit)

    def within(size: float) -> float:
        inside = r * numpy.exp(-((r - size) ** 2) / 2) * numpy.i0(r * size) * numpy.exp(-r * size)
        return float(inside.sum() * math.sqrt(limit) / steps)

    return root(lambda size: within(size) - 0.2, 0.0, math.sqrt(limit) + 10)


def samples_from(command: str, seeds: str, plays: int, length: int, first: int = 0) -> Array:
    words = [command, "noise", "-n", str(plays * length), "--seeds", seeds, "--skip", str(first * length // 2), "--raw"]
    raw = subprocess.run(words, check=True, capture_output=True).stdout
    return numpy.frombuffer(raw, "<i2").reshape(plays, length).astype(float)
