"""The sizes of a memory."""

from __future__ import annotations

import ctypes
import os
from typing import NamedTuple, Optional, Union

from . import library
from .errors import error, file_error
from .library import PAGE_WORDS, SetupStruct

Path = Union[str, bytes, "os.PathLike[str]", "os.PathLike[bytes]"]

# A map needs so many shadows; a transaction of a small array may own all its pages.
_LEAST_SHADOWS = 32


class Setup(NamedTuple):
    """What a memory is made with: docs/LIBRARY.md says how to choose. A file keeps the first six
    and the last two."""

    segments: int
    rows: int
    pages: int
    shadows: int
    frames: int
    entries: int
    policy: int = 0
    part: int = 2
    limit: int = 100
    mark: int = 1
    reserves: int = 0
    sums: int = 0

    @property
    def words(self) -> int:
        """How many words the array has."""
        return self.pages * PAGE_WORDS


def _of(struct: SetupStruct) -> Setup:
    return Setup(*(getattr(struct, name) for name in Setup._fields))


def struct_of(setup: Setup) -> SetupStruct:
    """Returns the library's form of a setup, or raises ValueError or SetupError."""
    for name, number in zip(Setup._fields, setup):
        if not 0 <= number < 1 << (64 if name == "limit" else 32):
            raise ValueError(f"{name}={number} is out of range")
    struct, size = SetupStruct(*setup), ctypes.c_uint64()
    code = library.load().envy_board_size(ctypes.byref(struct), size)
    if code:
        raise error(code, str(tuple(setup)))
    return struct


def setup_for(words: int, owned_pages: Optional[int] = None) -> Setup:
    """Returns sizes for an array of at least so many words. Open transactions may own `owned_pages` pages of 32 words
    together: by default an eighth of the array, and at least 32 pages, which a map needs.

    >>> import envy
    >>> envy.setup_for(1000).words
    1024
    >>> envy.setup_for(0)
    Traceback (most recent call last):
    envy.errors.SetupError: pages must be at least 1: words=0
    """
    if not 0 <= words < library.WORDS:
        raise ValueError(f"words={words} is out of range")
    if owned_pages is None:
        owned_pages = max(_LEAST_SHADOWS, min(words // PAGE_WORDS // 8, 1 << 20))
    if not 0 <= owned_pages < 1 << 32:
        raise ValueError(f"owned_pages={owned_pages} is out of range")
    struct = SetupStruct()
    code = library.load().envy_setup_for(words, owned_pages, ctypes.byref(struct))
    if code:
        raise error(code, f"words={words}")
    return _of(struct)


def shape(path: Path) -> Setup:
    """Returns the sizes of the memory that a file holds. It is neither locked nor checked.

    FormatError: it holds none; MissingError (a FileNotFoundError): there is no such file; FileError: it can't be read."""
    struct = SetupStruct()
    code = library.load().envy_file_shape(library.encoded(path), ctypes.byref(struct))
    if code >= library.SYSTEM:
        raise file_error(code, ctypes.get_errno(), os.fsdecode(path))
    if code:
        raise error(code, os.fsdecode(path))
    found = _of(struct)
    # as envy_setup_for chooses it
    return found._replace(mark=found.frames - found.frames // 4)
