"""What is refused, by families: each error has the library's number as `code`, and its text."""

from __future__ import annotations

import errno as numbers
import os
from typing import Any, Dict, Optional, Type

from . import library


class EnvyError(Exception):
    """What the library answered in place of doing a call.

    `code` is the number of the answer, as in c/envy_codes.h, or None if the package refused the call before the library."""

    code: Optional[int]

    def __init__(self, code: Optional[int], detail: str = "") -> None:
        self._given: tuple = (code, detail)
        self.code = code
        text = library.text(code) if code is not None else ""
        super().__init__(": ".join(it for it in (text, detail) if it))

    def __reduce__(self) -> Any:
        return type(self), self._given

    def __str__(self) -> str:
        return str(self.args[0]) if self.args else ""


class AddressError(EnvyError, IndexError):
    """The address lies past the last word."""


class ClosedError(EnvyError, ValueError):
    """The memory is closed, or the transaction has ended."""


class SetupError(EnvyError, ValueError):
    """A memory can't have such sizes, or no map fits them."""


class FormatError(EnvyError, ValueError):
    """What the file holds is no memory, one of other sizes, or damaged. The file isn't changed."""


class KindError(FormatError):
    """The file is a mapped one and `mapped` wasn't given, or it is a durable one and `mapped` was. The file isn't changed."""


class NoMemoryError(EnvyError, MemoryError):
    """The heap gave nothing."""


class TransactionError(EnvyError):
    """All 64 slots are open, or a map's call came while a transaction was open."""


class HeldError(TransactionError):
    """Another transaction owns the page: that of the slot `holder`."""

    def __init__(self, code: Optional[int], holder: int = 0) -> None:
        super().__init__(code, f"slot {holder}")
        self._given = (code, holder)
        self.holder = holder


class FullError(TransactionError):
    """Open transactions own as many pages as they may."""


class MapError(EnvyError):
    """The map has as many pairs as it may have, or the array holds none."""


class AbsentError(MapError, KeyError):
    """The map doesn't have the key."""


class FileError(EnvyError, OSError):
    """A call on the file failed, and `errno` says why. After code 2 (ENVY_OFF) the memory is over: close it and open the
    file again. Code 75 (ENVY_APPENDED): all is on the disk, as after a sync, and the memory goes on."""

    def __init__(self, code: Optional[int], errno: int = 0, path: str = "") -> None:
        EnvyError.__init__(self, code, ": ".join(it for it in (os.strerror(errno) if errno else "", path) if it))
        self._given = (code, errno, path)
        self.errno, self.strerror, self.filename = errno or None, os.strerror(errno) if errno else None, path or None


class LockedError(FileError, BlockingIOError):
    """The file is open already, here or in another process."""


class MissingError(FileError, FileNotFoundError):
    """There is no such file or folder."""


class DeniedError(FileError, PermissionError):
    """The system doesn't let this process do that."""


class ForkedError(DeniedError):
    """The process was forked off from the one that opened the file, which has it."""


# The class of each code that isn't a plain EnvyError; those of the system are told apart by errno.
CLASSES: Dict[int, Type[EnvyError]] = {
    1: ClosedError, 3: AddressError, 4: HeldError, 5: FullError, 6: TransactionError, 7: ClosedError, 9: NoMemoryError,
    17: SetupError, 54: AbsentError, 55: MapError, 56: TransactionError, 57: SetupError, 62: MapError, 80: MapError,
    **{code: FormatError for code in (14, 15, 16, 18, 19, 20, 72, 73, 74)},
    **{code: SetupError for code in (*range(21, 31), 58, 59)},
    **{code: FormatError for code in (*range(31, 43), 63)},
}  # fmt: skip
FILE_CLASSES: Dict[int, Type[FileError]] = {
    numbers.ENOENT: MissingError,
    numbers.EACCES: DeniedError,
    numbers.EPERM: DeniedError,
}


def file_error(code: int, errno: int, path: str) -> FileError:
    """Returns the error of a code that the system caused."""
    if code == library.LOCKED:
        return LockedError(code, numbers.EWOULDBLOCK, path)
    if code == library.TOO_MANY:
        return FileError(code, numbers.EMFILE, path)
    return FILE_CLASSES.get(errno, FileError)(code, errno, path)


def error(code: int, detail: str = "") -> EnvyError:
    """Returns the error of any other code."""
    return CLASSES.get(code, EnvyError)(code, detail)
