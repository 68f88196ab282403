"""Proved Gaussian noise for simulated survey instruments, and a judge of cave surveys.

>>> import jabulghi
>>> rig = jabulghi.Generator((3770694558, 3532774216, 2901327257, 4093209576, 2137023497, 2889436789))
>>> list(rig.block(4))
[1877, -2463, 598, -664]
>>> rig.count
2

`check` says whether a cave is sound, `tolerance` how one loop compares; both are the command's own sources, and not proved. The rest are the calls of libjabulghi.

A sample s is s / 2048 standard deviations; of 18 bits, s / 8192. Each call does what jabulghi.h says of it. A refusal is raised as Refused, and leaves
generator, marks and buffers as they were; an unfit window becomes zeros.
"""
import ctypes
import operator
import threading
from array import array
from typing import (
    TYPE_CHECKING,
    List,
    NamedTuple,
    Optional,
    Sequence,
    SupportsIndex,
    Tuple,
    Type,
    TypeVar,
    Union,
    cast,
)

from ._library import CALLS, library
from .judging import (
    Candidate,
    Estimate,
    Loop,
    Message,
    NotJudged,
    Sigma,
    Suspect,
    Tolerance,
    Verdict,
    check,
    seeds,
    tolerance,
)
from .refusals import LISTING_ROOM, MOST_ASKED, VERSION, WORDS, Refusal

try:
    import numpy
except ImportError:
    numpy = None  # type: ignore[assignment]
if TYPE_CHECKING:
    from numpy.typing import NDArray

__all__ = [
    "Candidate",
    "Estimate",
    "Generator",
    "Intervals",
    "Loop",
    "Marks",
    "Message",
    "Miss",
    "NotJudged",
    "Refusal",
    "Refused",
    "Sigma",
    "Suspect",
    "Tolerance",
    "Verdict",
    "Window",
    "check",
    "intervals",
    "legs",
    "list_job",
    "misclosure",
    "play",
    "sample",
    "sample18",
    "seeds",
    "tolerance",
]
__version__ = VERSION
Text = Union[str, bytes, bytearray, memoryview]
Buffer = Union["array[int]", bytearray, memoryview, "NDArray[numpy.int16]", "NDArray[numpy.int32]"]
Misses = Union[List[Tuple[int, int]], "NDArray[numpy.int64]"]


class Refused(ValueError):
    """A call was refused: its number, the bad line of a text or 0, and the header's words."""

    def __init__(self, number: int, line: int = 0) -> None:
        self.number, self.line, self.sentence = Refusal(number), line, WORDS[number]
        super().__init__(f"{f'line {line}: ' if line else ''}{self.sentence} ({number})")

    def __reduce__(self) -> Tuple[Type["Refused"], Tuple[int, int]]:
        return Refused, (int(self.number), self.line)


class _Record(ctypes.Structure):
    _fields_ = [
        ("a", ctypes.c_uint32 * 3),
        ("b", ctypes.c_uint32 * 3),
        ("count", ctypes.c_uint64),
        ("open", ctypes.c_uint32),
        ("asked", ctypes.c_uint32),
    ]


class _Window(ctypes.Structure):
    _fields_ = [
        ("size", ctypes.c_uint32),
        ("held", ctypes.c_uint32),
        ("place", ctypes.c_uint32),
        ("places", ctypes.c_int16 * 4096),
        ("sum", ctypes.c_int64),
        ("squares", ctypes.c_int64),
    ]


class _Marks(ctypes.Structure):
    _fields_ = [
        ("used", ctypes.c_uint32 * 16),
        ("length", ctypes.c_uint32 * 16),
        ("names", ctypes.c_uint8 * 192),
        ("records", _Record * 16),
    ]


_SIZE, _U32 = ctypes.c_size_t, ctypes.c_uint32


_Line = Union[ctypes.c_uint32, ctypes.c_size_t]
_Sample = Union[Type[ctypes.c_int16], Type[ctypes.c_int32]]


def _call(name: str, *values: object, line: Optional[_Line] = None) -> None:
    number = getattr(library, "jabulghi_" + name)(*values)
    if number:
        raise Refused(number, line.value if line is not None else 0)


def _whole(value: SupportsIndex, least: int, most: int) -> int:
    """ctypes would cut a number that is too large."""
    whole = operator.index(value)
    if not least <= whole <= most:
        raise OverflowError(f"{whole} is not between {least} and {most}")
    return whole


def _u32(value: int) -> int:
    return _whole(value, 0, 2**32 - 1)


def _u64(value: int) -> int:
    return _whole(value, 0, 2**64 - 1)


def _bytes(text: Text) -> bytes:
    return text.encode() if isinstance(text, str) else memoryview(text).tobytes()


def _samples_of(buffer: Buffer, size: int) -> memoryview:
    """A buffer of numbers of so many bytes, in this machine's order."""
    view = memoryview(cast(bytes, buffer))
    if view.itemsize != size or view.format.lstrip("@=<^") not in (("h",) if size == 2 else ("i", "l")):
        raise TypeError(f"samples are signed numbers of {8 * size} bits, not '{view.format}'")
    return view


def _lent(buffer: Buffer, size: int) -> "ctypes.Array[ctypes.c_char]":
    """The memory of a buffer that can be written; it cannot be resized while this lives."""
    view = _samples_of(buffer, size)
    memory = (ctypes.c_char * view.nbytes).from_buffer(view)
    if view.nbytes and ctypes.addressof(memory) % size:
        raise ValueError("the buffer is not aligned")
    return memory


def _room(samples: Union[int, Buffer], size: int) -> Buffer:
    """The buffer given, or a new one of that many samples."""
    if not isinstance(samples, int if numpy is None else (int, numpy.integer)):
        return cast(Buffer, samples)
    length = _whole(samples, 0, 2**62)
    if numpy is None:
        return array("h" if size == 2 else "i", bytes(size * length))
    return numpy.zeros(length, dtype=numpy.int16) if size == 2 else numpy.zeros(length, dtype=numpy.int32)


_K = TypeVar("_K", bound="_Kept")


def _kept_from(kind: Type[_K], saved: bytes) -> _K:
    return kind.from_bytes(saved)


class _Kept:
    """A struct of C. bytes(it) can be saved, and from_bytes gives it back. Calls on one go one after another, in whatever threads."""

    _kind: Type[ctypes.Structure]
    __hash__ = None  # type: ignore[assignment]

    def __init__(self) -> None:
        self._kept, self._lock = self._kind(), threading.Lock()

    @classmethod
    def from_bytes(cls: Type[_K], saved: bytes) -> _K:
        """What bytes() saved."""
        if len(saved) != ctypes.sizeof(cls._kind):
            raise ValueError(f"{cls.__name__} has {ctypes.sizeof(cls._kind)} bytes")
        new = cls.__new__(cls)
        _Kept.__init__(new)
        ctypes.memmove(ctypes.addressof(new._kept), bytes(saved), len(saved))
        return new

    def __bytes__(self) -> bytes:
        with self._lock:
            return bytes(self._kept)

    def __reduce__(self) -> Tuple[object, Tuple[Type["_Kept"], bytes]]:
        return _kept_from, (type(self), bytes(self))

    def __eq__(self, other: object) -> bool:
        return type(other) is type(self) and bytes(self) == bytes(other)  # type: ignore[call-overload]

    def _members(self) -> Sequence[int]:
        return [ctypes.addressof(self._kept) + getattr(self._kind, name).offset for name, *_ in self._kind._fields_]


class Generator(_Kept):
    """A generator from six seeds. For samples give how many you want, or the buffer that they are written to: array.array, numpy or any other."""

    _kind = _Record

    def __init__(self, seeds: Sequence[int]) -> None:
        super().__init__()
        a0, a1, a2, b0, b1, b2 = map(_u32, seeds)
        _call("seed", a0, a1, a2, b0, b1, b2, self._at())

    @property
    def registers(self) -> Tuple[int, ...]:
        """The six registers of its record."""
        return (*self._kept.a, *self._kept.b)

    @property
    def count(self) -> int:
        """How many pairs were drawn since the seeds."""
        return int(self._kept.count)

    @property
    def open(self) -> bool:
        """Whether pairs are asked for and not taken."""
        return bool(self._kept.open)

    @property
    def asked(self) -> int:
        """How many pairs are asked for."""
        return int(self._kept.asked)

    def __repr__(self) -> str:
        return f"<jabulghi.Generator {self.registers}, count {self.count}>"

    def _at(self) -> int:
        return ctypes.addressof(self._kept)

    def _run(self, name: str, *values: object) -> None:
        with self._lock:
            _call(name, self._at(), *values)

    def _pair(self, name: str, kind: _Sample) -> Tuple[int, int]:
        two = (kind * 2)()
        self._run(name, two)
        return two[0], two[1]

    def _fill(self, name: str, samples: Union[int, Buffer], size: int) -> Buffer:
        filled = _room(samples, size)
        memory = _lent(filled, size)
        self._run(name, ctypes.addressof(memory), ctypes.sizeof(memory) // size)
        return filled

    def _all_asked(self) -> int:
        return 2 * min(self.asked, MOST_ASKED)

    def pair(self) -> Tuple[int, int]:
        """The next two samples."""
        return self._pair("pair", ctypes.c_int16)

    def pair18(self) -> Tuple[int, int]:
        """The next two samples of 18 bits."""
        return self._pair("pair18", ctypes.c_int32)

    def block(self, samples: Union[int, Buffer]) -> Buffer:
        """The next samples, first and second of each pair alternating."""
        return self._fill("block", samples, 2)

    def block18(self, samples: Union[int, Buffer]) -> Buffer:
        """The same of 18 bits."""
        return self._fill("block18", samples, 4)

    def look(self, samples: Union[int, Buffer]) -> Buffer:
        """The samples that block would give; the generator stays."""
        return self._fill("look", samples, 2)

    def look18(self, samples: Union[int, Buffer]) -> Buffer:
        """The same of 18 bits."""
        return self._fill("look18", samples, 4)

    def skip(self, pairs: int) -> None:
        """Moves on by so many pairs at once."""
        self._run("skip", _u64(pairs))

    def ask(self, pairs: int) -> None:
        """Asks for pairs, to be taken or given up before the next call."""
        self._run("ask", _u32(pairs))

    def take(self, samples: Union[None, int, Buffer] = None) -> Buffer:
        """What was asked for: two samples for each pair."""
        return self._fill("take", self._all_asked() if samples is None else samples, 2)

    def take18(self, samples: Union[None, int, Buffer] = None) -> Buffer:
        """The same of 18 bits."""
        return self._fill("take18", self._all_asked() if samples is None else samples, 4)

    def give_up(self) -> None:
        """Gives up what was asked for: the pairs are the next ones."""
        self._run("give_up")


class Window(_Kept):
    """The sum and the sum of squares of the latest size samples."""

    _kind = _Window

    def __init__(self, size: int) -> None:
        super().__init__()
        _call("window_make_members", *self._members(), _u32(size))

    @property
    def size(self) -> int:
        """How many samples it holds at most."""
        return int(self._kept.size)

    @property
    def held(self) -> int:
        """How many samples it holds."""
        return int(self._kept.held)

    @property
    def sum(self) -> int:
        """Their sum."""
        return int(self._kept.sum)

    @property
    def squares(self) -> int:
        """The sum of their squares."""
        return int(self._kept.squares)

    def push(self, sample: int) -> None:
        """Adds a sample; the oldest goes once the window is full."""
        sample = _whole(sample, -(2**15), 2**15 - 1)
        with self._lock:
            _call("window_push_members", *self._members(), sample)

    def push_all(self, samples: Buffer) -> None:
        """Samples of 16 bits in a buffer."""
        memory = _samples_of(samples, 2).tobytes()
        with self._lock:
            _call(
                "window_push_all_members",
                *self._members(),
                (ctypes.c_char * len(memory)).from_buffer_copy(memory),
                len(memory) // 2,
            )


def _is_generator(given: Generator) -> Generator:
    if not isinstance(given, Generator):
        raise TypeError("a Generator is needed")
    return given


class Marks(_Kept):
    """Up to 16 generators' places, under names."""

    _kind = _Marks

    def _run(self, name: str, mark: Text, generator: Optional[Generator]) -> None:
        word = _bytes(mark)
        if generator is None:
            with self._lock:
                return _call(f"marks_{name}_members", *self._members(), word, len(word))
        with self._lock, generator._lock:
            _call(
                f"marks_{name}_members",
                *self._members(),
                generator._at(),
                word,
                len(word),
            )

    def save(self, generator: Generator, name: Text) -> None:
        """Keeps where the generator is, under a name of 1 to 12 letters or digits."""
        self._run("save", name, _is_generator(generator))

    def return_to(self, generator: Generator, name: Text) -> None:
        """The generator goes back to where it was saved."""
        self._run("return", name, _is_generator(generator))

    def drop(self, name: Text) -> None:
        """Forgets a name."""
        self._run("drop", name, None)


class Miss(NamedTuple):
    """How far a loop misses: millimetres east and north, and both sums at 2^30."""

    east: int
    north: int
    sums: Tuple[int, ...]


class Intervals(NamedTuple):
    """The same between two readings: the lowest and the highest of each; sums has east low, east high, north low, north high."""

    east: Tuple[int, int]
    north: Tuple[int, int]
    sums: Tuple[int, ...]


def _sample(name: str, k: int, v: int, kind: _Sample) -> Tuple[int, int]:
    two = (kind * 2)()
    _call(name, _u64(k), _u32(v), two)
    return two[0], two[1]


def sample(k: int, v: int) -> Tuple[int, int]:
    """The two samples of k and v."""
    return _sample("sample", k, v, ctypes.c_int16)


def sample18(k: int, v: int) -> Tuple[int, int]:
    """The same of 18 bits."""
    return _sample("sample18", k, v, ctypes.c_int32)


def _lines(name: str, text: bytes, room: int, line: _Line) -> str:
    lines, length = ctypes.create_string_buffer(room), _SIZE()
    _call(
        name,
        text,
        len(text),
        lines,
        room,
        ctypes.byref(line),
        ctypes.byref(length),
        line=line,
    )
    return lines.raw[: length.value].decode("ascii")


def list_job(job: Text) -> str:
    """The listing of a job."""
    return _lines("list", _bytes(job), LISTING_ROOM, _U32())


def legs(survey: Text) -> str:
    """The shot lines of a Survex text's level legs."""
    text = _bytes(survey)
    return _lines("legs", text, 3 * len(text) + 1, _SIZE())  # a leg of 10 bytes gives a shot line of at most 21


def _sums(name: str, listing: Text, count: int) -> Tuple[List[int], Tuple[int, ...]]:
    text, sums, millimetres, line = (
        _bytes(listing),
        (ctypes.c_int64 * count)(),
        (ctypes.c_int64 * count)(),
        _U32(),
    )
    _call(name, text, len(text), sums, millimetres, ctypes.byref(line), line=line)
    return list(millimetres), tuple(sums)


def misclosure(listing: Text) -> Miss:
    """How far the loop of a listing misses."""
    (east, north), sums = _sums("misclosure", listing, 2)
    return Miss(east, north, sums)


def intervals(listing: Text) -> Intervals:
    """The same for a listing of two readings."""
    (east_low, east_high, north_low, north_high), sums = _sums("intervals", listing, 4)
    return Intervals((east_low, east_high), (north_low, north_high), sums)


def play(job: Text, runs: int, first: int = 0) -> Misses:
    """How far a job's loop misses in each of so many plays: rows of east and north in millimetres."""
    text, misses, line = (
        _bytes(job),
        ((ctypes.c_int64 * 2) * _whole(runs, 0, 2**58))(),
        _U32(),
    )
    _call(
        "play",
        text,
        len(text),
        _u64(first),
        misses,
        len(misses),
        ctypes.byref(line),
        line=line,
    )
    if numpy is None:
        return [(east, north) for east, north in misses]
    return numpy.array(misses, dtype=numpy.int64).reshape(-1, 2)
