"""Is a cave sound, and how does one loop compare: `jabulghi check` and `jabulghi tolerance`, by the command's own sources."""
import ctypes
import html
import json
import os
import secrets
import threading
import time
from concurrent.futures import ThreadPoolExecutor
from typing import (
    Callable,
    Dict,
    List,
    NamedTuple,
    Optional,
    Sequence,
    Tuple,
    TypedDict,
    Union,
    cast,
)

from ._library import library

Survey = Union[str, bytes, "os.PathLike[str]"]
Progress = Callable[[int, int], Optional[bool]]
Given = Union[str, int, None]

_Range = TypedDict("_Range", {"low": float, "high": float, "from": str})
_Estimate = TypedDict("_Estimate", {"value": float, "low": float, "high": float})
_Loop = TypedDict(
    "_Loop",
    {
        "legs": int,
        "length_m": float,
        "east_mm": float,
        "north_mm": float,
        "p": float,
        "sound": bool,
        "too_well": bool,
        "stations": List[str],
        "file": str,
        "line": int,
        "from": str,
        "to": str,
    },
)
_Suspect = TypedDict(
    "_Suspect",
    {
        "file": str,
        "line": int,
        "from": str,
        "to": str,
        "kind": str,
        "blunder": str,
        "correction": float,
        "move_m": List[float],
        "gain": float,
        "share": float,
        "remains": float,
        "others": int,
        "passage": int,
    },
)
_Check = TypedDict(
    "_Check",
    {
        "jabulghi": str,
        "file": str,
        "legs": int,
        "length_m": float,
        "legs_in_no_loop": int,
        "p": Optional[float],
        "sound": Optional[bool],
        "too_well": bool,
        "sigma": Dict[str, Union[_Range, float]],
        "factor": _Estimate,
        "station_mm": _Estimate,
        "loops": List[_Loop],
        "suspects": List[_Suspect],
        "seeds": List[int],
        "first": int,
        "plays": int,
    },
)
_Candidate = TypedDict(
    "_Candidate",
    {
        "leg": int,
        "distance_mm": float,
        "bearing_degrees": float,
        "remains": float,
        "from": str,
        "to": str,
        "file": str,
        "line": int,
    },
    total=False,
)
_Runs = TypedDict(
    "_Runs",
    {
        "jabulghi": str,
        "file": str,
        "legs": int,
        "miss_without_noise": List[int],
        "rms": List[float],
        "within_95": List[int],
        "share_beyond": float,
        "share_farther": float,
        "candidates": List[_Candidate],
        "job": List[str],
        "first": int,
        "runs": int,
        "miss": List[float],
    },
)


class Message(NamedTuple):
    """What is said of a survey, or of an option: the file and line (0 for all of it), or the option's name, and the words."""

    file: str
    line: int
    option: str
    text: str


class NotJudged(ValueError):
    """A survey or an option was refused; `messages` has all that is wrong, and `str` prints it."""

    def __init__(self, said: str, messages: Sequence[Message]) -> None:
        super().__init__(said.rstrip("\n"))
        self.said, self.messages = said, tuple(messages)

    def __reduce__(
        self,
    ) -> Tuple[Callable[[str, Sequence[Message]], "NotJudged"], Tuple[str, Sequence[Message]]]:
        return NotJudged, (self.said, self.messages)


class Sigma(NamedTuple):
    """A standard deviation of the legs, from the least to the largest, and what gave it."""

    low: float
    high: float
    source: str


class Estimate(NamedTuple):
    """A figure with its range of 95 %."""

    value: float
    low: float
    high: float


class Loop(NamedTuple):
    """A loop: its miss in mm, and the share p of sound loops that miss by as much."""

    legs: int
    length_m: float
    east_mm: float
    north_mm: float
    p: float
    sound: bool
    too_well: bool
    stations: Tuple[str, ...]
    file: str
    line: int


class Suspect(NamedTuple):
    """A leg that would explain the misses: the blunder in words, how sure (`share`), and the share of sound caves that look as bad as this one would,
    corrected (`remains`)."""

    file: str
    line: int
    from_station: str
    to_station: str
    kind: str
    blunder: str
    correction: float
    share: float
    remains: float
    others: int
    passage: int


class Candidate(NamedTuple):
    """A leg, counted from 1, whose correction would bring a loop's miss within the noise: its distance in mm, or its bearing in degrees, else None."""

    leg: int
    from_station: str
    to_station: str
    distance_mm: Optional[float]
    bearing_degrees: Optional[float]
    remains: float


_UNSTYLED = '<div style="max-width: 50em">{}{}<pre style="white-space: pre-wrap">{}</pre></div>'


class _Told:
    """What the command prints, as text, as JSON and as a picture."""

    def __init__(self, text: str, json_text: str, svg: str, messages: Sequence[Message]) -> None:
        self.text, self.json, self.svg, self.notes = (
            text,
            json_text,
            svg,
            tuple(messages),
        )

    def __str__(self) -> str:
        return self.text

    def _html(self, headline: str) -> str:
        return _UNSTYLED.format(
            f"<p><strong>{html.escape(headline)}</strong></p>",
            self.svg,
            html.escape(self.text),
        )


class Verdict(_Told):
    """What `jabulghi check` says of a cave: `text`, `json` and `svg` as the command prints them, `notes` of the reader, and the figures below."""

    def __init__(self, text: str, json_text: str, svg: str, messages: Sequence[Message]) -> None:
        super().__init__(text, json_text, svg, messages)
        self._data = cast(_Check, json.loads(json_text))

    def to_dict(self) -> _Check:
        """The members of `jabulghi check --json`, anew each time."""
        return cast(_Check, json.loads(self.json))

    @property
    def sound(self) -> Optional[bool]:
        """Whether the cave is sound; None where it has no loop."""
        return self._data["sound"]

    @property
    def p(self) -> Optional[float]:
        """The share of sound caves that look as bad; None where there is no loop."""
        return self._data["p"]

    @property
    def too_well(self) -> bool:
        """Whether it closes better than all but 1 in 1,000 sound caves."""
        return self._data["too_well"]

    @property
    def legs(self) -> int:
        """How many legs the cave has."""
        return self._data["legs"]

    @property
    def length_m(self) -> float:
        """The length of all legs."""
        return self._data["length_m"]

    @property
    def legs_in_no_loop(self) -> int:
        """Legs that nothing is known of."""
        return self._data["legs_in_no_loop"]

    @property
    def loops(self) -> Tuple[Loop, ...]:
        """All loops."""
        return tuple(
            Loop(
                o["legs"],
                o["length_m"],
                o["east_mm"],
                o["north_mm"],
                o["p"],
                o["sound"],
                o["too_well"],
                tuple(o["stations"]),
                o["file"],
                o["line"],
            )
            for o in self._data["loops"]
        )

    @property
    def suspects(self) -> Tuple[Suspect, ...]:
        """The legs to look at, the best first; none where the cave is sound."""
        return tuple(
            Suspect(
                s["file"],
                s["line"],
                s["from"],
                s["to"],
                s["kind"],
                s["blunder"],
                s["correction"],
                s["share"],
                s["remains"],
                s["others"],
                s["passage"],
            )
            for s in self._data["suspects"]
        )

    @property
    def sigmas(self) -> Dict[str, Sigma]:
        """The standard deviations that were taken: tape_mm, compass_degrees, clino_degrees and station_mm."""
        ranges = {name: given for name, given in self._data["sigma"].items() if isinstance(given, dict)}
        return {name: Sigma(given["low"], given["high"], given["from"]) for name, given in ranges.items()}

    @property
    def factor(self) -> Estimate:
        """What all errors would have to be multiplied by for the loops to agree with them."""
        return Estimate(**self._data["factor"])

    @property
    def station_mm(self) -> Estimate:
        """The station error that the loops fit."""
        return Estimate(**self._data["station_mm"])

    @property
    def seeds(self) -> Tuple[int, ...]:
        """The seeds of the plays; with them the verdict is the same again."""
        return tuple(self._data["seeds"])

    @property
    def plays(self) -> int:
        """How many sound caves were played."""
        return self._data["plays"]

    def __repr__(self) -> str:
        word = {None: "no loop", True: "sound", False: "not sound"}[self.sound]
        return f"<jabulghi.Verdict: {word}, legs {self.legs}, loops {len(self._data['loops'])}>"

    def _repr_html_(self) -> str:
        return self._html({None: "No loop", True: "Sound", False: "Not sound"}[self.sound])


class Tolerance(_Told):
    """What `jabulghi tolerance` says of a loop: `text`, `json` and `svg` as the command prints them, `notes`, `misses` (east and north of each run in mm), and
    the figures below."""

    def __init__(
        self,
        text: str,
        json_text: str,
        svg: str,
        messages: Sequence[Message],
        misses: List[Tuple[int, int]],
    ) -> None:
        super().__init__(text, json_text, svg, messages)
        self.misses = misses
        self._data = cast(_Runs, json.loads(json_text))

    def to_dict(self) -> _Runs:
        """The members of `jabulghi tolerance --json`, anew each time."""
        return cast(_Runs, json.loads(self.json))

    @property
    def miss(self) -> Tuple[float, float]:
        """The miss that is judged: east and north in mm."""
        east, north = self._data["miss"]
        return east, north

    @property
    def share_beyond(self) -> float:
        """The share of runs that miss by as much or more, by their ellipse."""
        return self._data["share_beyond"]

    @property
    def rms(self) -> Tuple[float, ...]:
        """The root mean square of the noise in mm: east, north and distance."""
        return tuple(self._data["rms"])

    @property
    def candidates(self) -> Tuple[Candidate, ...]:
        """Single legs whose correction would bring the miss within the noise, the best first; none where it is within it."""
        return tuple(
            Candidate(
                c["leg"],
                c["from"],
                c["to"],
                c.get("distance_mm"),
                c.get("bearing_degrees"),
                c["remains"],
            )
            for c in self._data["candidates"]
        )

    @property
    def runs(self) -> int:
        """How many runs were played."""
        return self._data["runs"]

    def __repr__(self) -> str:
        return f"<jabulghi.Tolerance: {100 * self.share_beyond:.2g} % of {self.runs} runs miss by as much>"

    def _repr_html_(self) -> str:
        return self._html(f"{100 * self.share_beyond:.2g} % of sound loops miss by as much or more")


# The texts of a case, in the order of bindings/judge.h.
_SAID, _MESSAGES, _MISSING, _, _WORDS, _JSON, _SVG = range(7)
# Only plays run beside other calls.
_LOCK = threading.Lock()
# Seconds of a stretch of plays.
_STRETCH = 0.1


def _words(options: Dict[str, Given]) -> bytes:
    """The options as the command's words, each ended by a NUL."""
    given = [(name, str(value)) for name, value in options.items() if value is not None]
    for name, value in given:
        if "\0" in value:
            raise ValueError(f"{name}: has a NUL")
    return b"".join(f"--{name}\0{value}\0".encode() for name, value in given)


def _source(survey: Survey, name: str) -> Tuple[str, bytes, bool]:
    """The name and the bytes of a survey, and whether it is a file."""
    if isinstance(survey, bytes):
        return name, survey, False
    if isinstance(survey, str) and "\n" in survey:
        return name, survey.encode(), False
    path = os.fspath(survey)
    with open(path, "rb") as file:
        return path, file.read(), True


class _Case:
    """A case of bindings/judge.h, freed at the end of `with`."""

    def __init__(self, command: str, options: Dict[str, Given], random: Sequence[int]) -> None:
        if not hasattr(library, "jabulghi_case_new"):
            raise NotImplementedError("the library of JABULGHI_LIBRARY has no check; the wheel's has")
        words = _words(options)
        self._at = library.jabulghi_case_new(command.encode(), words, len(words), (ctypes.c_uint32 * 6)(*random))
        if not self._at:
            raise MemoryError

    def __enter__(self) -> "_Case":
        return self

    def __exit__(self, *_: object) -> None:
        with _LOCK:
            library.jabulghi_case_free(self._at)

    def _text(self, which: int) -> str:
        text = library.jabulghi_case_text(self._at, which)
        if text is None:
            raise MemoryError
        return bytes(text).decode(errors="replace")

    def messages(self) -> List[Message]:
        found = cast(List[Dict[str, Union[str, int]]], json.loads(self._text(_MESSAGES)))
        return [Message(str(m["file"]), int(m["line"]), str(m["option"]), str(m["text"])) for m in found]

    def add(self, name: str, content: bytes) -> None:
        if "\0" in name:
            raise ValueError("a name has a NUL")
        if not library.jabulghi_case_file(self._at, os.fsencode(name), content, len(content)):
            raise MemoryError

    def _add_missing(self) -> bool:
        """Adds the files that were looked for and are there; whether there are any."""
        names = [name for name in dict.fromkeys(self._text(_MISSING).splitlines()) if os.path.isfile(name)]
        for name in names:
            with open(name, "rb") as file:
                self.add(name, file.read())
        return bool(names)

    def begin(self, on_disk: bool) -> List[Message]:
        """Reads the survey, and with it the files that it includes; its notes."""
        with _LOCK:
            status = library.jabulghi_case_begin(self._at)
            while on_disk and self._add_missing():
                status = library.jabulghi_case_begin(self._at)
            messages = self.messages()
            if status:
                raise NotJudged(self._text(_SAID), messages)
            return messages

    def _play(self, stretch: range) -> None:
        number = library.jabulghi_case_play(self._at, stretch.start, len(stretch))
        if number:
            raise NotJudged(f"the plays are refused ({number})", ())

    def play(self, jobs: int, progress: Optional[Progress]) -> int:
        """Plays all, several stretches at a time, or until progress says no; how many are played."""
        plays, least, done, size = (
            library.jabulghi_case_plays(self._at),
            library.jabulghi_case_least(self._at),
            0,
            0,
        )
        with ThreadPoolExecutor(jobs) as pool:
            while done < plays:
                size = min(max(size, -(-least // jobs), 1), -(-(plays - done) // jobs))
                starts = range(done, min(plays, done + jobs * size), size)
                start = time.monotonic()
                list(pool.map(self._play, [range(at, min(plays, at + size)) for at in starts]))
                done = min(plays, done + jobs * size)
                size = int(size * min(2, _STRETCH / max(time.monotonic() - start, 1e-6)))
                if progress is not None and progress(done, plays) is False:
                    break
        return done

    def end(self, plays: int) -> Tuple[str, str, str]:
        """The texts: words, JSON and SVG."""
        with _LOCK:
            if library.jabulghi_case_end(self._at, plays, 0) == 2:
                raise MemoryError
            return self._text(_WORDS), self._text(_JSON), self._text(_SVG)

    def misses(self, runs: int) -> List[Tuple[int, int]]:
        two = (ctypes.c_int32 * (2 * runs))()
        library.jabulghi_case_misses(self._at, runs, two)
        return list(zip(two[::2], two[1::2]))


def _comma(seeds: Optional[Sequence[int]]) -> Optional[str]:
    return None if seeds is None else ",".join(str(int(number)) for number in seeds)


def _jobs(jobs: Optional[int]) -> int:
    if jobs is not None and not 1 <= jobs <= 256:
        raise ValueError("jobs: 1 to 256")
    return jobs or min(256, os.cpu_count() or 1)


def _draw() -> Tuple[int, ...]:
    """Six numbers from the system's randomness, drawn again where the library refuses them as seeds."""
    record = ctypes.create_string_buffer(40)
    while True:
        numbers = tuple(secrets.randbits(32) for _ in range(6))
        if not library.jabulghi_seed(*numbers, record):
            return numbers


def seeds() -> Tuple[int, ...]:
    """Six fresh seeds from the system's randomness, as `jabulghi seeds` draws them."""
    return _draw()


def check(
    survey: Survey,
    sigma: Optional[str] = None,
    plays: int = 1000,
    seeds: Optional[Sequence[int]] = None,
    *,
    trip: Optional[str] = None,
    first: int = 0,
    name: str = "survey",
    jobs: Optional[int] = None,
    progress: Optional[Progress] = None,
) -> Verdict:
    """Is this cave sound? What `jabulghi check` says of a survey, a job or a listing.

    `survey` is the path of a file, with which the files that it includes are read, or a text: bytes, or a string with a line feed, which messages call `name`.
    `sigma` ("tape=10mm,compass=1deg"), `trip` ("0.5deg"), `plays`, `first` and `seeds` are the command's options; without seeds some are drawn. The plays run in
    so many threads as `jobs` says, one for each processor if it does not, and other threads go on meanwhile. `progress(done, all)` is called about ten times a
    second; where it returns False, the verdict is that of the plays so far. Raises NotJudged, with all messages, where the survey or an option is refused.
    """
    called, content, on_disk = _source(survey, name)
    options: Dict[str, Given] = {
        "sigma": sigma,
        "trip": trip,
        "seeds": _comma(seeds),
        "plays": plays,
        "first": first,
    }
    with _Case("check", options, _draw()) as case:
        case.add(called, content)
        notes = case.begin(on_disk)
        return Verdict(*case.end(case.play(_jobs(jobs), progress)), notes)


def tolerance(
    survey: Survey,
    sigma: Optional[str] = None,
    runs: int = 10000,
    seeds: Optional[Sequence[int]] = None,
    *,
    miss: Optional[Tuple[float, float]] = None,
    loop: Optional[int] = None,
    first: int = 0,
    name: str = "survey",
    jobs: Optional[int] = None,
    progress: Optional[Progress] = None,
) -> Tolerance:
    """How does the miss of one loop compare with instrument noise? What `jabulghi tolerance` says of a survey, a job or a listing.

    `sigma` is needed but for a job; `miss` (east and north in mm) is judged instead of the loop's own, and `loop` chooses one of several. The other
    arguments are those of check."""
    called, content, on_disk = _source(survey, name)
    given = None if miss is None else f"{miss[0]:.6f},{miss[1]:.6f}"
    options: Dict[str, Given] = {
        "sigma": sigma,
        "seeds": _comma(seeds),
        "runs": runs,
        "first": first,
    }
    options.update({"miss": given, "loop": loop})
    with _Case("tolerance", options, _draw()) as case:
        case.add(called, content)
        notes = case.begin(on_disk)
        played = case.play(_jobs(jobs), progress)
        return Tolerance(*case.end(played), notes, case.misses(played))
