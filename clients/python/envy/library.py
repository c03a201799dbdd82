"""The shared object `libenvy.so.0`: where it is found, what its calls take, and what crosses by them."""

from __future__ import annotations

import ctypes
import functools
import os
import platform
import sys
from typing import Any, List

NAME = "libenvy.so.0"

# The codes that the package asks for by name; c/envy_codes.h has all.
EMPTY, OFF, RANGE, HELD, CLOSED, NO_MEMORY, OTHER_SHAPE = 1, 2, 3, 4, 7, 9, 20
UNFORMATTED, OLDER = 18, 19
ABSENT, SLOT_OPEN, MAP_SETUP, NO_JOURNAL, APPENDED = 54, 56, 57, 72, 75
SYSTEM, LOCKED, TOO_MANY = 1000, 1001, 1002

# How a file is opened: the sum of these.
CREATE, BYTEWISE, READING = 1, 2, 4

# A word is less than this; a page has so many words.
WORDS = 1 << 64
PAGE_WORDS = 32


class SetupStruct(ctypes.Structure):
    _fields_ = [(name, ctypes.c_uint32) for name in "segments rows pages shadows frames entries policy part".split()]
    _fields_ += [("limit", ctypes.c_uint64)] + [(name, ctypes.c_uint32) for name in "mark reserves sums".split()]


class CountsStruct(ctypes.Structure):
    _fields_ = [(name, ctypes.c_uint64) for name in "hits misses flushes copies moves erases swaps".split()]


# A place for a memory, and what is known of its file.
Handle = ctypes.c_void_p * 2


class PairStruct(ctypes.Structure):
    _fields_ = [("key", ctypes.c_uint64), ("value", ctypes.c_uint64)]


class RangeStruct(ctypes.Structure):
    _fields_ = [("first", ctypes.c_uint32), ("words", ctypes.c_uint32)]


_place, _address, _slot, _n = ctypes.c_void_p, ctypes.c_uint32, ctypes.c_uint32, ctypes.c_size_t
_word, _number, _pointer, _path = ctypes.c_uint64, ctypes.POINTER(ctypes.c_uint32), ctypes.c_void_p, ctypes.c_char_p
_a_word, _setup, _pair = ctypes.POINTER(ctypes.c_uint64), ctypes.POINTER(SetupStruct), ctypes.POINTER(PairStruct)
_range = ctypes.POINTER(RangeStruct)

# What each call takes. They answer a code, unless RESULTS says otherwise.
TAKES = {
    "envy_version": (),
    "envy_error_text": (ctypes.c_uint32,),
    "envy_setup_for": (ctypes.c_uint64, ctypes.c_uint32, _setup),
    "envy_board_size": (_setup, _a_word),
    "envy_file_shape": (_path, _setup),
    "envy_file_error": (_place,),
    "envy_open_file": (_place, _path, _setup, ctypes.c_uint32),
    "envy_open_mapped": (_place, _path, _setup, ctypes.c_uint32),
    "envy_leave": (_place,),
    "envy_close": (_place,),
    "envy_sync": (_place,),
    "envy_compact": (_place,),
    "envy_load": (_place, _address, _a_word),
    "envy_look": (_place, _address, _a_word),
    "envy_read": (_place, _address, _pointer, _n),
    "envy_store": (_place, _address, _word, _number),
    "envy_store_run": (_place, _address, _pointer, _n, ctypes.POINTER(_n), _number),
    "envy_begin": (_place, _number),
    "envy_put": (_place, _slot, _address, _word, _number),
    "envy_write": (_place, _slot, _address, _pointer, _n, ctypes.POINTER(_n), _number),
    "envy_view": (_place, _slot, _address, _a_word),
    "envy_commit": (_place, _slot),
    "envy_abort": (_place, _slot),
    "envy_tick": (_place, _number),
    "envy_counters": (_place, ctypes.POINTER(CountsStruct)),
    "envy_index_create": (_place,),
    "envy_index_get": (_place, _word, _a_word),
    "envy_index_insert": (_place, _word, _word, _pointer),
    "envy_index_remove": (_place, _word, _a_word),
    "envy_index_count": (_place, _a_word),
    "envy_index_next": (_place, _word, _pair),
    "envy_index_above": (_place, _word, _pair),
    "envy_index_last": (_place, _word, _pair),
    "envy_index_scan": (_place, _word, _pointer, _n, ctypes.POINTER(_n)),
    "envy_index_scan_down": (_place, _word, _pointer, _n, ctypes.POINTER(_n)),
    "envy_map_load": (_place, _range, _pointer, _n),
}
RESULTS = {
    "envy_version": ctypes.c_char_p,
    "envy_error_text": ctypes.c_char_p,
    "envy_file_error": ctypes.c_int,
}


class MissingLibraryError(OSError):
    """The shared object isn't where it is looked for, or is another one."""


def candidates() -> List[str]:
    """Returns where the library is looked for, in order: what ENVY_LIBRARY names, alone; or beside the package, as in a
    release and in the repository; or where Python is installed; or where the system finds it."""
    named = os.environ.get("ENVY_LIBRARY")
    if named:
        return [named]
    here = os.path.dirname(os.path.abspath(__file__))
    above = os.path.dirname(here)
    top = os.path.dirname(os.path.dirname(above))
    folders = [here, above, f"{top}/lib/{platform.machine()}", f"{top}/c/out", f"{sys.prefix}/lib"]
    return [it for it in (f"{folder}/{NAME}" for folder in folders) if os.path.exists(it)] + [NAME, f"/usr/local/lib/{NAME}"]


@functools.lru_cache(maxsize=None)
def load() -> Any:
    """Returns the library, loaded once, or raises MissingLibraryError."""
    whys = []
    for path in candidates():
        try:
            found = ctypes.CDLL(path, use_errno=True)
            for name, takes in TAKES.items():
                call = getattr(found, name)
                call.argtypes, call.restype = takes, RESULTS.get(name, ctypes.c_uint32)
            return found
        except (OSError, AttributeError) as error:
            whys.append(str(error))
    raise MissingLibraryError(f"{NAME} isn't found; install it (make -C c install), or let ENVY_LIBRARY name it: {'; '.join(whys)}")


def encoded(path: Any) -> bytes:
    """Returns a path as the library takes it, or raises TypeError or ValueError."""
    name = os.fsencode(path)
    if b"\0" in name:
        raise ValueError("embedded null byte")
    return name


def text(code: int) -> str:
    """Returns the library's text for a code."""
    return load().envy_error_text(code).decode()


def version() -> str:
    """Returns the version of the library that is loaded."""
    return load().envy_version().decode()
