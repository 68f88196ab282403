"""Caves for the tests of `jabulghi check`: true places of stations, and the book that a team brings home from them."""

import math
import os
import subprocess
import tempfile
from dataclasses import dataclass, field
from typing import Any, Iterable

import numpy

Array = Any
SIGMA = {"tape": 0.01, "compass": 0.5, "clino": 0.5, "station": 0.03}


@dataclass
class Geometry:
    """True places of stations in metres, the legs between them, and which legs are in a loop."""

    places: dict[str, Array]
    legs: list[tuple[str, str]]
    in_loop: list[int] = field(default_factory=list)


def made(rng: Array, loops: int, most_legs: int = 8, steep: float = 20.0, branches: int = 3) -> Geometry:
    """A cave with so many independent loops: a ring, passages between its stations, and branches in no loop."""
    places: dict[str, Array] = {}
    legs: list[tuple[str, str]] = []
    count = 12
    for j in range(count):
        angle = 2 * math.pi * j / count
        places[f"s{j}"] = numpy.array([60 * math.sin(angle), 60 * math.cos(angle), 0.0]) + rng.normal(0, 4, 3)
    legs += [(f"s{j}", f"s{(j + 1) % count}") for j in range(count)]
    for _ in range(loops - 1):
        names = list(places)
        start = names[rng.integers(len(names))]
        away = numpy.linalg.norm(numpy.array(list(places.values())) - places[start], axis=1)
        far = [n for n, metres in zip(names, away) if 8 < metres < 90]
        passage(rng, places, legs, start, far[rng.integers(len(far))], int(rng.integers(2, most_legs + 1)), steep)
    inside = list(range(len(legs)))
    for _ in range(branches):
        start = list(places)[rng.integers(len(places))]
        for _ in range(int(rng.integers(1, 4))):
            name = f"s{len(places)}"
            places[name] = places[start] + step(rng, steep)
            legs.append((start, name))
            start = name
    return Geometry(places, legs, inside)


def step(rng: Array, steep: float) -> Array:
    length, bearing, slope = rng.uniform(3, 15), rng.uniform(0, 2 * math.pi), math.radians(rng.normal(0, steep))
    plan = length * math.cos(slope)
    return numpy.array([plan * math.sin(bearing), plan * math.cos(bearing), length * math.sin(slope)])


def passage(
    rng: Array, places: dict[str, Array], legs: list[tuple[str, str]], start: str, end: str, count: int, steep: float
) -> None:
    """Legs from start to end through new stations beside the straight line."""
    last, line = start, places[end] - places[start]
    for j in range(1, count):
        name = f"s{len(places)}"
        beside = rng.normal(0, 1, 3) * numpy.array([3, 3, 3 * math.tan(math.radians(steep))])
        places[name] = places[start] + line * j / count + beside
        legs.append((last, name))
        last = name
    legs.append((last, end))


def real(path: str) -> Geometry:
    """The plan of a survey as Survex's cavern adjusts it, which closes. Stations are moved by some centimetres, so that plumbed legs have a length in plan."""
    with tempfile.TemporaryDirectory() as room:
        out = os.path.join(room, "cave.3d")
        subprocess.run(["cavern", "-q", "-s", "-o", out, path], check=True, capture_output=True)
        text = subprocess.run(["dump3d", out], check=True, capture_output=True, text=True).stdout
    lines = [line.split() for line in text.split("\n") if line]
    rng = numpy.random.default_rng(1)

    def place(at: tuple[str, ...]) -> Array:
        return numpy.array([float(at[0]), float(at[1]), 0.0]) + rng.normal(0, 0.03, 3) * numpy.array([1.0, 1.0, 0.0])

    shots = [(tuple(a[1:4]), tuple(b[1:4])) for a, b in zip(lines, lines[1:]) if b[0] == "LINE" and "SPLAY" not in b]
    ends = [(a, b) for a, b in shots if a != b]
    names = {at: f"s{j}" for j, at in enumerate(dict.fromkeys(at for pair in ends for at in pair))}
    legs = [(names[a], names[b]) for a, b in ends]
    return Geometry({name: place(at) for at, name in names.items()}, legs, bridgeless(legs))


def in_loops(geometry: Geometry) -> Geometry:
    legs = [geometry.legs[j] for j in geometry.in_loop]
    return Geometry(geometry.places, legs, list(range(len(legs))))


def bridgeless(legs: list[tuple[str, str]]) -> list[int]:
    """The legs that are in a loop: those that are no bridge."""
    near: dict[str, list[tuple[str, int]]] = {}
    for j, (a, b) in enumerate(legs):
        near.setdefault(a, []).append((b, j))
        near.setdefault(b, []).append((a, j))
    order: dict[str, int] = {}
    low: dict[str, int] = {}
    bridges = set()
    for top in near:
        if top in order:
            continue
        order[top] = low[top] = len(order)
        stack = [(top, -1, iter(near[top]))]
        while stack:
            at, by, rest = stack[-1]
            for there, j in rest:
                if j == by:
                    continue
                if there in order:
                    low[at] = min(low[at], order[there])
                else:
                    order[there] = low[there] = len(order)
                    stack.append((there, j, iter(near[there])))
                    break
            else:
                stack.pop()
                if stack:
                    above = stack[-1][0]
                    low[above] = min(low[above], low[at])
                    if low[at] > order[above]:
                        bridges.add(by)
    return [j for j in range(len(legs)) if j not in bridges]


@dataclass
class Book:
    """Readings of all legs, before they are rounded: metres and degrees."""

    geometry: Geometry
    tape: Array
    compass: Array
    clino: Array
    decimals: tuple[int, int, int] = (2, 0, 0)
    back: dict[int, tuple[float, float]] = field(default_factory=dict)
    left_out: int = -1

    def line(self, j: int) -> str:
        a, b = self.ends(j)
        t, c, v = self.decimals
        compass = round(self.compass[j] % 360, c) % 360
        words = f"{a} {b} {self.tape[j]:.{t}f} {compass:.{c}f} {self.clino[j]:.{v}f}"
        if j in self.back:
            words += f" {round(self.back[j][0] % 360, c) % 360:.{c}f} {self.back[j][1]:.{v}f}"
        return words

    def ends(self, j: int) -> tuple[str, str]:
        """A leg that was left out is as if its stations were one."""
        a, b = self.geometry.legs[j]
        if self.left_out < 0:
            return a, b
        lost = self.geometry.legs[self.left_out]
        return (lost[0] if a == lost[1] else a, lost[0] if b == lost[1] else b)

    def lines(self, legs: Iterable[int] | None = None) -> str:
        chosen = range(len(self.geometry.legs)) if legs is None else legs
        return "".join(self.line(j) + "\n" for j in chosen if j != self.left_out)

    def text(self, sigma: dict[str, float] | None = None) -> str:
        return sd_lines(SIGMA if sigma is None else sigma) + "*data normal from to tape compass clino\n" + self.lines()


def sd_lines(sigma: dict[str, float]) -> str:
    units = {"tape": "metres", "compass": "degrees", "clino": "degrees", "station": "metres"}
    words = [("position", x * math.sqrt(2)) if name == "station" else (name, x) for name, x in sigma.items()]
    return "".join(f"*sd {name} {x:.12g} {units.get(name, 'metres')}\n" for name, x in words)


def survey(
    rng: Array,
    geometry: Geometry,
    sigma: dict[str, float] | None = None,
    decimals: tuple[int, int, int] = (2, 0, 0),
    trip: float = 0.0,
    trips: int = 1,
) -> Book:
    """A sound survey: each leg with its own errors of stations, tape, compass and clino, and of the compass of its trip."""
    s = SIGMA if sigma is None else sigma
    true = numpy.array([geometry.places[b] - geometry.places[a] for a, b in geometry.legs])
    v = true + rng.normal(0, 1, true.shape) * s["station"] * math.sqrt(2) * numpy.array(
        [1.0, 1.0, 1.0 if true[:, 2].any() else 0.0]
    )
    n = len(v)
    length = numpy.linalg.norm(v, axis=1)
    turn = rng.normal(0, trip, trips)[numpy.arange(n) * trips // n] if trip else 0.0
    tape = numpy.maximum(length + rng.normal(0, s["tape"], n), 0.01)
    compass = numpy.degrees(numpy.arctan2(v[:, 0], v[:, 1])) + rng.normal(0, s["compass"], n) + turn
    clino = numpy.degrees(numpy.arcsin(v[:, 2] / length)) + rng.normal(0, s["clino"], n)
    return Book(geometry, tape, compass, numpy.clip(clino, -89, 89), decimals)


def blunder(rng: Array, book: Book, kind: str, leg: int | None = None) -> int:
    """Plants a blunder of a kind in a leg of a loop, and says which leg."""
    j = int(rng.choice(book.geometry.in_loop)) if leg is None else leg
    sign = int(rng.choice([-1, 1]))
    if kind.endswith("deg"):
        book.compass[j] += sign * float(kind[:-3])
    elif kind.endswith("m"):
        size = float(kind[:-1])
        book.tape[j] += size if sign > 0 or book.tape[j] - size < 0.3 else -size
    elif kind == "left out":
        book.left_out = j
    elif kind == "feet":
        book.tape[j] /= 0.3048
    return j
