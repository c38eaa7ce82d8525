"""The library for C, by ctypes: where it is found, its calls and its structs, as include/bpfagent.h declares them."""
from __future__ import annotations

import ctypes
import functools
import os
import pathlib
from ctypes import POINTER, c_char_p, c_size_t, c_uint8, c_uint32, c_uint64, c_void_p
from typing import Any, Callable, Iterator, Optional

# The name by which a linker finds it, and the variable of the environment that names another. If that is empty, no library is used.
SONAME, SETTING = "libbpfagent.so.0", "BPFAGENT_LIBRARY"
# Beside the package, where a wheel of the platform has it.
BESIDE = pathlib.Path(__file__).resolve().parent / "lib" / SONAME
# Of the library's version: 10,000 times the first part, 100 times the second, and the third. Libraries of the same first two parts fit.
VERSION, FITS = 900, 100
# No name is longer, and no state, stop, place or reason has a greater number.
NAME, NUMBERS = 16, 32

# enum bpfagent_reply, as far as it is distinguished here.
OK, RAN, HIT, WAITING, PAUSED, STOPPED, REFUSED, NOAGENT = 0, 1, 2, 3, 4, 5, 25, 30
# The protocol's words of the replies that refuse a command; {0} is the object's number.
WORDS = {
    10: "nomem",
    11: "full",
    12: "noroom",
    13: "outside",
    14: "away {0}",
    15: "place {0} here",
    16: "place {0} leaving",
    17: "place {0} far",
    18: "place {0} returning",
    19: "kept {0} scoped",
    20: "kept {0} fault here",
    21: "kept {0} fault far",
    22: "noslot",
    23: "nowatch",
    24: "notpaused",
    26: "none",
    27: "kept {0} fault far",
    31: "bad",
}


class NoLibrary(OSError):
    """There is no library that fits. The text says which were tried."""


class Handle(ctypes.Structure):
    """bpfagent"""

    _fields_ = [("private_words", c_void_p * 2)]


class End(ctypes.Structure):
    """bpfagent_end"""

    _fields_ = [("ran", c_uint64), ("value", c_uint64), ("stop", c_uint32)]


class Shown(ctypes.Structure):
    """bpfagent_registers"""

    _fields_ = [("registers", c_uint64 * 11), ("slot", c_uint64), ("fuel", c_uint64), ("state", c_uint32), ("stop", c_uint32)]


class Refusal(ctypes.Structure):
    """bpfagent_refusal"""

    _fields_ = [("slot", c_uint64), ("reason", c_uint32)]


class WrongLine(ctypes.Structure):
    """bpfagent_wrong_line"""

    _fields_ = [("line", c_uint64), ("reason", c_uint32)]


class Grant(ctypes.Structure):
    """bpfagent_grant"""

    _fields_ = [("object", c_uint32), ("writes", c_uint32)]


class Parcel(ctypes.Structure):
    """bpfagent_parcel"""

    _fields_ = [("digest", c_uint8 * 32)]


# Bytes that a call reads are a `c_char_p`, which takes `bytes` without a copy; room that it writes is an address.
_A, _U32, _U64, _SIZE, _READS, _WRITES = POINTER(Handle), c_uint32, c_uint64, c_size_t, c_char_p, c_void_p
_COUNT, _END, _REFUSAL = POINTER(c_size_t), POINTER(End), POINTER(Refusal)
_SHIP = [_A, _READS, _SIZE, _U64, _U64, _U64, _U64, _U64, _U64]
_NAMED = [_WRITES, _SIZE, _COUNT]
CALLS: dict[str, list[Any]] = {
    "new": [_A, _U32],
    "new_handing": [_A, _U32],
    "delete": [_A],
    "make": [_A, _U64, POINTER(c_uint32)],
    "free": [_A, _U32],
    "put": [_A, _U32, _U32, _READS, _SIZE],
    "get": [_A, _U32, _U32, _WRITES, _SIZE],
    "place_of": [_A, _U32, POINTER(c_uint32), _COUNT],
    "objects": [_A, _U32, _WRITES, _SIZE, _COUNT],
    "leave": [_A, _U32],
    "left": [_A, _U32],
    "return": [_A, _U32],
    "returned": [_A, _U32],
    "left_into": [_A, _U32, _WRITES, _SIZE, _COUNT, POINTER(Parcel)],
    "returned_from": [_A, _U32, _READS, _SIZE],
    "forget": [_A, _U32],
    "ship": [*_SHIP, _COUNT, _REFUSAL],
    "ship_granted": [*_SHIP, POINTER(Grant), _SIZE, _COUNT, _REFUSAL],
    "step": [_A, _SIZE, _END],
    "one": [_A, _SIZE, _END],
    "run": [_A, _SIZE, _U64, _END],
    "regs": [_A, _SIZE, POINTER(Shown)],
    "out": [_A, _SIZE, _WRITES, _SIZE, _COUNT],
    "stack": [_A, _SIZE, _U32, _WRITES, _SIZE],
    "line": [_A, _SIZE, _U32, _WRITES, _SIZE, _COUNT],
    "break": [_A, _SIZE, _U32],
    "unbreak": [_A, _SIZE, _U32],
    "watch": [_A, _SIZE, _U64, _U32],
    "unwatch": [_A, _SIZE, _U64, _U32],
    "resume": [_A, _SIZE],
    "check": [_READS, _SIZE, _REFUSAL],
    "assemble": [_READS, _SIZE, _WRITES, _SIZE, _COUNT, POINTER(WrongLine)],
    "text": [_READS, _SIZE, _U32, _WRITES, _SIZE, _COUNT],
    "state_name": [_U32, _U32, *_NAMED],
    "place_name": [_U32, *_NAMED],
    "reason_name": [_U32, *_NAMED],
    "wrong_name": [_U32, *_NAMED],
    "version": [],
}
Call = Callable[..., int]


class Library:
    """A library that was loaded, with its names of numbers.

    `calls` keep Python's lock, since letting it go costs as much as most of them do. `long_calls` let it go, so that other threads run.
    """

    def __init__(self, path: str) -> None:
        """Loads it, or raises an `OSError`."""
        self.path = path
        self.calls, self.long_calls = calls_of(ctypes.PyDLL(path)), calls_of(ctypes.CDLL(path))
        version = self.calls["version"]()
        if version // FITS != VERSION // FITS:
            raise OSError(f"it has version {version}, and this package takes {VERSION}")
        self.places = self._names("place_name")
        self.states, self.stops = self._names("state_name", 0), {stop: self._name("state_name", 2, stop) for stop in range(1, NUMBERS)}
        self.reasons, self.wrongs = self._names("reason_name"), self._names("wrong_name")

    def _name(self, call: str, *numbers: int) -> str:
        """The name of a number; empty if it has none."""
        text, count = ctypes.create_string_buffer(NAME), c_size_t()
        if self.calls[call](*numbers, ctypes.addressof(text), NAME, ctypes.byref(count)) != OK:
            return ""
        return text.raw[: count.value].decode("ascii")

    def _names(self, call: str, *more: int) -> dict[int, str]:
        """The names of all numbers that have one."""
        found = {number: self._name(call, number, *more) for number in range(NUMBERS)}
        return {number: name for number, name in found.items() if name}


def calls_of(loaded: ctypes.CDLL) -> dict[str, Call]:
    """The calls of a library, with their types. A library without one of them raises an `OSError`."""
    found: dict[str, Call] = {}
    for name, types in CALLS.items():
        try:
            call = getattr(loaded, f"bpfagent_{name}")
        except AttributeError:
            raise OSError(f"it has no bpfagent_{name}") from None
        call.argtypes, call.restype = types, None if name == "delete" else c_uint32
        found[name] = call
    return found


def places() -> Iterator[str]:
    """Where the library may be, the likeliest first: a path, or the name that a linker finds."""
    named = os.environ.get(SETTING)
    if named is not None:
        yield named
        return
    if BESIDE.exists():
        yield str(BESIDE)
    yield SONAME


@functools.lru_cache(maxsize=None)
def loaded(path: str) -> Library:
    """The library at a path, which is loaded once."""
    return Library(path)


def library() -> Library:
    """The library: the one that the environment's BPFAGENT_LIBRARY names, else that beside this package, else the one that a linker finds.
    Raises `NoLibrary` if there is none that fits."""
    tried = []
    for path in places():
        if not path:
            raise NoLibrary(f"{SETTING} is empty, so that no library is used")
        try:
            return loaded(path)
        except OSError as why:
            tried.append(f"{path} ({str(why).removeprefix(f'{path}: ')})")
    raise NoLibrary(f"no library for an agent in this process; tried {', '.join(tried)}: {SETTING} names another")


def is_named() -> bool:
    """Whether the environment names a library."""
    return bool(os.environ.get(SETTING))


def library_if_there() -> Optional[Library]:
    """The library, or None if there is none. One that the environment names has to be there."""
    try:
        return library()
    except NoLibrary:
        if is_named():
            raise
        return None
