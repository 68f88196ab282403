"""The shared library and the types of its calls."""
import ctypes
import os

_P, _SIZE, _U32, _U64 = (
    ctypes.c_void_p,
    ctypes.c_size_t,
    ctypes.c_uint32,
    ctypes.c_uint64,
)
_FILL, _LINES, _SUMS = (
    [_P, _P, _SIZE],
    [_P, _SIZE, _P, _SIZE, _P, _P],
    [_P, _SIZE, _P, _P, _P],
)
# The calls of jabulghi.h; each returns a number.
CALLS = {
    "seed": [_U32] * 6 + [_P],
    "skip": [_P, _U64],
    "ask": [_P, _U32],
    "give_up": [_P],
    "sample": [_U64, _U32, _P],
    "pair": [_P, _P],
    "block": _FILL,
    "look": _FILL,
    "take": _FILL,
    "sample18": [_U64, _U32, _P],
    "pair18": [_P, _P],
    "block18": _FILL,
    "look18": _FILL,
    "take18": _FILL,
    "list": _LINES,
    "legs": _LINES,
    "misclosure": _SUMS,
    "intervals": _SUMS,
    "play": [_P, _SIZE, _U64, _P, _SIZE, _P],
    "window_make_members": [_P] * 6 + [_U32],
    "window_push_members": [_P] * 6 + [ctypes.c_int16],
    "window_push_all_members": [_P] * 7 + [_SIZE],
    "marks_save_members": [_P] * 6 + [_SIZE],
    "marks_return_members": [_P] * 6 + [_SIZE],
    "marks_drop_members": [_P] * 5 + [_SIZE],
}
# The calls of bindings/judge.h, which the library of the wheel has besides: what each takes and returns.
CASES = {
    "new": ([ctypes.c_char_p, ctypes.c_char_p, _SIZE, _P], _P),
    "free": ([_P], None),
    "file": ([_P, ctypes.c_char_p, ctypes.c_char_p, _SIZE], ctypes.c_int),
    "loose": ([_P], None),
    "begin": ([_P], ctypes.c_int),
    "plays": ([_P], _U32),
    "least": ([_P], _U32),
    "play": ([_P, _U32, _U32], _U32),
    "end": ([_P, _U32, ctypes.c_int], ctypes.c_int),
    "text": ([_P, ctypes.c_int], ctypes.c_char_p),
    "misses": ([_P, _U32, _P], _U32),
    "loop": ([_P, _U32, _U32, _P, _P], _U32),
}


def _load() -> ctypes.CDLL:
    """The library of JABULGHI_LIBRARY, else the one in this folder, else the system's."""
    beside = os.path.join(os.path.dirname(__file__), "libjabulghi.so")
    loaded = ctypes.CDLL(
        os.environ.get("JABULGHI_LIBRARY") or (beside if os.path.exists(beside) else "libjabulghi.so.1")
    )
    for name, types in CALLS.items():
        call = getattr(loaded, "jabulghi_" + name)
        call.argtypes, call.restype = types, _U32
    if hasattr(loaded, "jabulghi_case_new"):
        for name, (takes, returns) in CASES.items():
            call = getattr(loaded, "jabulghi_case_" + name)
            call.argtypes, call.restype = takes, returns
    return loaded


library = _load()
