"""A small reader of surveys: the commands that the tests of `jabulghi check` use, as Survex's manual has them."""

import math
import re
from dataclasses import dataclass, field
from typing import Any

import numpy

LENGTHS = {"metres": 1.0, "metric": 1.0, "meters": 1.0, "feet": 0.3048, "yards": 0.9144}
ANGLES = {"degrees": 1.0, "degs": 1.0, "grads": 0.9, "minutes": 1 / 60}
ALIASES = {"length": "tape", "bearing": "compass", "gradient": "clino"}
ANGLE_QUANTITIES = ("compass", "clino", "backcompass", "backclino", "declination", "level", "plumb")
DEFAULT_SD = {"tape": 0.05, "compass": 0.5, "clino": 0.5, "position": 0.05, "level": 0.25, "plumb": 0.25}
WORDS = {"up": 90.0, "u": 90.0, "down": -90.0, "d": -90.0, "level": 0.0, "-": 0.0}


@dataclass
class Reading:
    """A reading as written, and what it means: (written * unit - zero) * scale, in metres or degrees."""

    what: str
    text: str
    unit: float
    zero: float
    scale: float
    sd: float

    @property
    def is_number(self) -> bool:
        return re.fullmatch(r"[-+]?(\d+\.?\d*|\.\d+)", self.text) is not None

    def corrected(self, written: float) -> float:
        return (written * self.unit - self.zero) * self.scale

    @property
    def value(self) -> float:
        return self.corrected(float(self.text)) if self.is_number else WORDS[self.text.lower()]

    @property
    def step(self) -> float:
        """What one unit of the last decimal means: the book rounds to it."""
        decimals = len(self.text.split(".")[1]) if "." in self.text else 0
        return 10.0**-decimals * self.unit * self.scale if self.is_number else 0.0


@dataclass
class Leg:
    line: int
    start: str
    end: str
    readings: list[Reading]
    declination: float
    station: float
    plumb_sd: float
    trip: int

    @property
    def plumbed(self) -> bool:
        return any(r.what == "clino" and r.text.lower() in ("up", "u", "down", "d") for r in self.readings)

    @property
    def numbers(self) -> list[Reading]:
        return [r for r in self.readings if r.is_number]

    @property
    def values(self) -> dict[str, Any]:
        return {r.what: r.value for r in self.readings if r.text != "-"}

    def vector(self, changed: dict[str, Any]) -> Any:
        """East and north with other values for some readings: numbers, or arrays of plays."""
        v = {**self.values, **changed}
        tape = (v["tape"] + v["backtape"]) / 2 if "backtape" in v and "tape" in v else v.get("tape", v.get("backtape"))
        clino = v.get("clino", 0.0)
        if "backclino" in v:
            clino = (v["clino"] - v["backclino"]) / 2 if "clino" in v else -v["backclino"]
        plan = tape * numpy.cos(numpy.radians(clino)) if not self.plumbed else 0.0 * tape
        bearing = numpy.radians(mean_bearing(v) + self.declination)
        return numpy.array([plan * numpy.sin(bearing), plan * numpy.cos(bearing)])

    def length_with(self, changed: dict[str, Any]) -> float:
        """The tape with other values for some readings."""
        v = {**self.values, **changed}
        both = [v[name] for name in ("tape", "backtape") if name in v]
        return float(sum(both) / len(both))

    @property
    def length(self) -> float:
        return self.length_with({})


def mean_bearing(v: dict[str, Any]) -> Any:
    if "backcompass" not in v:
        return v.get("compass", 0.0)
    back = v["backcompass"] + 180
    if "compass" not in v:
        return back
    return v["compass"] + ((back - v["compass"] + 180) % 360 - 180) / 2


@dataclass
class Settings:
    name: tuple[str, ...] = ()
    order: tuple[str, ...] = ("from", "to", "tape", "compass", "clino")
    sd: dict[str, float] = field(default_factory=lambda: dict(DEFAULT_SD))
    zero: dict[str, float] = field(default_factory=dict)
    scale: dict[str, float] = field(default_factory=dict)
    unit: dict[str, float] = field(default_factory=dict)
    trip: int = 0

    def inner(self, name: str) -> "Settings":
        names = self.name + ((name.lower(),) if name else ())
        return Settings(names, self.order, dict(self.sd), dict(self.zero), dict(self.scale), dict(self.unit), self.trip)


class Survey:
    """The legs, equates (of two stations each) and fixed points of a text, in its order."""

    def __init__(self, text: str) -> None:
        self.legs: list[Leg] = []
        self.equates: list[tuple[int, str, str]] = []
        self.fixes: list[tuple[int, str, list[float], list[float]]] = []
        self.trips = 1
        self.stack = [Settings()]
        for number, line in enumerate(text.split("\n"), 1):
            words = line.split(";")[0].split()
            if words and words[0].startswith("*"):
                self.command(number, words[0][1:].lower(), words[1:])
            elif words:
                self.stack[-1].trip = self.leg(number, words)

    def station(self, name: str) -> str:
        return ".".join(self.stack[-1].name + (name.lower(),))

    def command(self, line: int, command: str, words: list[str]) -> None:
        now = self.stack[-1]
        if command == "begin":
            self.stack.append(now.inner(words[0] if words else ""))
            if words:
                self.new_trip()
        elif command == "end":
            self.stack.pop()
        elif command == "data":
            now.order = tuple(ALIASES.get(w.lower(), w.lower()) for w in words[1:])
        elif command == "equate":
            self.equates += [(line, self.station(words[0]), self.station(w)) for w in words[1:]]
        elif command == "fix":
            numbers = [float(w) for w in words[1:] if w != "reference"]
            sds = numbers[3:]
            self.fixes.append(
                (line, self.station(words[0]), numbers[:2], sds[:2] if len(sds) > 1 else 2 * sds or [0.0, 0.0])
            )
        elif command in ("date", "team"):
            if any(leg.trip == now.trip for leg in self.legs):
                self.new_trip()
        elif command in ("sd", "calibrate", "units"):
            self.set_quantities(command, words)

    def new_trip(self) -> None:
        self.stack[-1].trip = self.trips
        self.trips += 1

    def set_quantities(self, command: str, words: list[str]) -> None:
        now = self.stack[-1]
        names = [
            ALIASES.get(w.lower(), w.lower())
            for w in words
            if re.match("[a-z]", w.lower()) and w.lower() not in {**LENGTHS, **ANGLES}
        ]
        numbers = [float(w) for w in words if not re.match("[a-z]", w.lower())]
        units = [{**LENGTHS, **ANGLES}[w.lower()] for w in words if w.lower() in {**LENGTHS, **ANGLES}]
        for name in names:
            if command == "sd":
                now.sd[name] = numbers[0] * units[0]
            elif command == "units":
                now.unit[name] = units[0] * (numbers[0] if numbers else 1.0)
            else:
                now.zero[name] = numbers[0] * (units[0] if units else now.unit.get(name, 1.0))
                now.scale[name] = numbers[1] if len(numbers) > 1 else 1.0

    def leg(self, line: int, words: list[str]) -> int:
        now = self.stack[-1]
        row = dict(zip(now.order, words))
        readings = []
        for name, text in row.items():
            if name in ("from", "to"):
                continue
            sd = now.sd.get(name, now.sd[name.replace("back", "")])
            readings.append(
                Reading(name, text, now.unit.get(name, 1.0), now.zero.get(name, 0.0), now.scale.get(name, 1.0), sd)
            )
        ends = self.station(row["from"]), self.station(row["to"])
        station = now.sd["position"] / math.sqrt(2)
        self.legs.append(
            Leg(line, *ends, readings, -now.zero.get("declination", 0.0), station, now.sd["plumb"], now.trip)
        )
        return now.trip
