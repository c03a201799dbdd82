"""eNVy for Python: a durable array of 64-bit words with transactions, and an ordered map in it.

>>> import envy, os, tempfile
>>> folder = tempfile.TemporaryDirectory()
>>> m = envy.open(os.path.join(folder.name, "accounts.envy"), words=1000)
>>> with m.transaction() as t:
...     t[3] = 100
...     t[4] = 200
>>> m.sync()
>>> m[3:5]
[100, 200]
>>> m.close()

It calls the library `libenvy.so.0`, whose contracts are proved; this package is tested. docs/CLIENTS.md and
docs/LIBRARY.md say what is promised of files."""

from .errors import (
    AbsentError,
    AddressError,
    ClosedError,
    DeniedError,
    EnvyError,
    FileError,
    ForkedError,
    FormatError,
    FullError,
    HeldError,
    KindError,
    LockedError,
    MapError,
    MissingError,
    NoMemoryError,
    SetupError,
    TransactionError,
)
from .library import MissingLibraryError
from .library import version as library_version
from .mapping import Map
from .memory import Counts, Did, Memory, open
from .sizes import Setup, setup_for, shape
from .transaction import Transaction

__version__ = "0.5.0"

__all__ = [
    "AbsentError", "AddressError", "ClosedError", "Counts", "DeniedError", "Did", "EnvyError", "FileError", "ForkedError",
    "FormatError", "FullError", "HeldError", "KindError", "LockedError", "Map", "MapError", "Memory", "MissingError",
    "MissingLibraryError", "NoMemoryError", "Setup", "SetupError", "Transaction", "TransactionError", "library_version",
    "open", "setup_for", "shape",
]  # fmt: skip
