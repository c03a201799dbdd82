"""A memory in a file: an array of words."""

from __future__ import annotations

import ctypes
import enum
import os
import warnings
import weakref
from typing import Any, Iterable, Iterator, List, NamedTuple, Optional, Sequence, SupportsIndex, overload

from .errors import FormatError, MissingError
from .library import NO_JOURNAL, OTHER_SHAPE, CountsStruct
from .mapping import Map
from .place import Place
from .sizes import Path, Setup, setup_for, shape, struct_of
from .transaction import Transaction, store, write
from .words import Key, address_of, is_in_page, picked, range_of, word_of, words_of

# So many words are read at a time by an iteration.
_READ = 4096


class Did(enum.IntEnum):
    """What a step of work in the background did."""

    IDLE = 0
    FLUSHED = 1
    BEGAN = 2
    MOVED = 3
    COPIED = 4
    SWITCHED = 5
    PLACED = 6
    ERASED = 7


class Counts(NamedTuple):
    """What a memory has done since it was opened."""

    hits: int
    misses: int
    flushes: int
    copies: int
    moves: int
    erases: int
    swaps: int


class Memory(Sequence[int]):
    """An array of 64-bit words in a file that outlives the process and the machine.

    >>> import envy, os, tempfile
    >>> folder = tempfile.TemporaryDirectory()
    >>> with envy.open(os.path.join(folder.name, "words.envy"), words=1000) as m:
    ...     m[5] = 7
    ...     m[6:9] = [1, 2, 3]
    ...     with m.transaction() as t:
    ...         t[5] += 1
    ...         t[100] = t[5]
    ...     m.sync()
    >>> with envy.open(os.path.join(folder.name, "words.envy")) as m:
    ...     m[5], m[5:9], m[100], len(m)
    (8, [8, 1, 2, 3], 8, 1024)

    After `m.sync()`, whatever a stop of the process or of the machine leaves opens as the array of that sync or of a later
    one; what was done since may be lost. `m.close()`, and the end of a `with` block, sync too. A mapped file has each word as
    soon as the call has ended, if the process stops; a machine that stops may leave it as it likes.

    Threads may share a memory: each call is one at a time, and a slice is assigned whole or not at all."""

    def __init__(
        self,
        path: Path,
        words: Optional[int] = None,
        *,
        bytewise: bool = False,
        owned_pages: Optional[int] = None,
        setup: Optional[Setup] = None,
        readonly: bool = False,
        mapped: bool = False,
    ) -> None:
        """As `envy.open`."""
        name = os.fsdecode(path)
        if readonly and bytewise:
            raise TypeError("a file that is only read is opened as it is, not bytewise")
        if mapped and (readonly or bytewise):
            raise TypeError("a mapped file isn't opened bytewise, nor for reading alone")
        self._setup = _chosen(name, words, owned_pages, setup, readonly)
        self._bytewise = bytewise
        self._readonly = readonly
        self._mapped = mapped
        self._n = self._setup.words
        self._place = place = Place(name, struct_of(self._setup), bytewise, readonly, mapped)
        self._dropped = weakref.finalize(self, _drop, place)

    @property
    def path(self) -> str:
        """The path as it was given."""
        return self._place.path

    @property
    def setup(self) -> Setup:
        """The sizes."""
        return self._setup

    @property
    def bytewise(self) -> bool:
        """Whether it was opened as a file that is written byte by byte."""
        return self._bytewise

    @property
    def readonly(self) -> bool:
        """Whether it was opened for reading alone."""
        return self._readonly

    @property
    def mapped(self) -> bool:
        """Whether it is a mapped file."""
        return self._mapped

    @property
    def closed(self) -> bool:
        """Whether it was closed."""
        return self._place.handle is None

    def __len__(self) -> int:
        """How many words the array has: those asked for, rounded up to pages of 32."""
        return self._n

    @overload
    def __getitem__(self, key: SupportsIndex) -> int: ...
    @overload
    def __getitem__(self, key: slice) -> List[int]: ...
    def __getitem__(self, key: Key) -> Any:
        """The word at an address, or a list of those of a slice, also if an open transaction put them."""
        if isinstance(key, slice):
            return self._read(range_of(key, self._n))
        word, address = ctypes.c_uint64(), address_of(key, self._n)
        with self._place as handle:
            self._place.check(self._place.c.envy_load(handle, address, word))
        return word.value

    @overload
    def __setitem__(self, key: SupportsIndex, value: SupportsIndex) -> None: ...
    @overload
    def __setitem__(self, key: slice, value: Iterable[SupportsIndex]) -> None: ...
    def __setitem__(self, key: Key, value: Any) -> None:
        """Stores a word, or the words of a slice: all of them or, at an exception, none."""
        if isinstance(key, slice):
            addresses = range_of(key, self._n)
            self._write(addresses, words_of(value, len(addresses)))
            return
        holder, address, word = ctypes.c_uint32(), address_of(key, self._n), word_of(value)
        with self._place as handle:
            code = self._place.c.envy_store(handle, address, word, holder)
            self._place.check_held(code, holder.value)
            self._place.writes += 1

    def __iter__(self) -> Iterator[int]:
        for low in range(0, self._n, _READ):
            yield from self._read(range(low, min(low + _READ, self._n)))

    def look(self, address: SupportsIndex) -> int:
        """Returns the committed word at an address: what open transactions put isn't seen."""
        word, at = ctypes.c_uint64(), address_of(address, self._n)
        with self._place as handle:
            self._place.check(self._place.c.envy_look(handle, at, word))
        return word.value

    def transaction(self) -> Transaction:
        """Opens a transaction. TransactionError: 64 are open."""
        return Transaction(self)

    def map(self, new: bool = False) -> Map:
        """Returns the ordered map that the array holds; of an array of zeros that is a map without pairs. With `new` it makes
        one without pairs of any array.

        A map has the whole array. The words are checked first, in a time that grows with the map, since nothing marks an
        array that holds one: MapError if they are no map. SetupError: the array has fewer than 20 pages, 640 words, or
        transactions may own fewer than 32."""
        return Map(self, new)

    def sync(self) -> None:
        """Brings all that was done to the disk. FileError: it may be there or not, and the memory is over."""
        with self._place as handle:
            self._place.check(self._place.c.envy_sync(handle))

    def compact(self) -> None:
        """A sync that leaves in the file no more than the array takes; a mapped file keeps its size. FileError with code 75:
        all is on the disk, but no second file could be written; the memory goes on."""
        with self._place as handle:
            self._place.check(self._place.c.envy_compact(handle))

    def tick(self) -> Did:
        """Does one step of work in the background, and returns what. No word changes."""
        did = ctypes.c_uint32()
        with self._place as handle:
            self._place.check(self._place.c.envy_tick(handle, did))
        return Did(did.value)

    def counts(self) -> Counts:
        """Returns what the memory has done since it was opened."""
        counts = CountsStruct()
        with self._place as handle:
            self._place.check(self._place.c.envy_counters(handle, counts))
        return Counts(*(getattr(counts, name) for name in Counts._fields))

    def close(self, sync: bool = True) -> None:
        """Syncs and gives up the file and its lock. Open transactions are undone. Closed once more it does nothing, and in a
        process that was forked off it gives up the copy alone. Without `sync` the file opens as of the last sync, unless it
        is mapped.

        FileError: the last sync failed; the file opens as of that sync or of the previous one."""
        self._dropped.detach()
        self._place.close(sync)

    def __enter__(self) -> "Memory":
        return self

    def __exit__(self, *_: object) -> None:
        self.close()

    def __reduce__(self) -> Any:
        raise TypeError("a memory can't be copied or pickled: one process has the file")

    def __repr__(self) -> str:
        return f"<envy.Memory {self.path!r}, {self._n} words{', closed' if self.closed else ''}>"

    def _read(self, addresses: range) -> List[int]:
        if not addresses:
            with self._place:
                return []
        low, high = sorted((addresses[0], addresses[-1]))
        words = (ctypes.c_uint64 * (high - low + 1))()
        with self._place as handle:
            self._place.check(self._place.c.envy_read(handle, low, words, len(words)))
        return picked(words[:], addresses)

    def _write(self, addresses: range, words: Any) -> None:
        with self._place as handle:
            if is_in_page(addresses):  # all of it is refused or nothing, so it needs no transaction
                store(self._place, handle, addresses, words)
                return
            with Transaction(self) as t:
                write(self._place, handle, t.slot, addresses, words)


def _chosen(path: str, words: Optional[int], owned_pages: Optional[int], setup: Optional[Setup], readonly: bool) -> Setup:
    """Returns the sizes of the file, or of a new one if it is missing or empty."""
    if setup is not None:
        if words is not None or owned_pages is not None:
            raise TypeError("give words and owned_pages, or setup")
        return setup
    try:
        found = shape(path)
    except (MissingError, FormatError) as error:
        is_new = isinstance(error, MissingError) or error.code == NO_JOURNAL and os.path.getsize(path) == 0
        if not is_new or words is None or readonly:
            raise
        return setup_for(words, owned_pages)
    if words is not None and words > found.words:
        raise FormatError(OTHER_SHAPE, f"{path} has {found.words} words, not {words}")
    if owned_pages is not None and owned_pages > found.shadows:
        raise FormatError(OTHER_SHAPE, f"in {path} transactions own at most {found.shadows} pages, not {owned_pages}")
    return found


def _drop(place: Place) -> None:
    """Closes a file that nobody closed, as Python does with its own."""
    try:
        if place.handle is not None and place.process == os.getpid():
            warnings.warn(f"{place.path} wasn't closed", ResourceWarning, stacklevel=2)
    finally:
        place.drop()


def open(
    path: Path,
    words: Optional[int] = None,
    *,
    bytewise: bool = False,
    owned_pages: Optional[int] = None,
    setup: Optional[Setup] = None,
    readonly: bool = False,
    mapped: bool = False,
) -> Memory:
    """Opens the memory in a file, or makes one of zeros if there is none: then `words` says how many words it shall have at
    least. An old file keeps its sizes; it is refused if `words` asks for more.

    `owned_pages` says how many pages of 32 words open transactions may own together (an eighth of the array, at least 32), and
    `setup` all sizes in place of these two. `bytewise` states that the file system and the disk write the file byte by byte,
    so that a sync waits for the disk once and not twice: docs/LIBRARY.md says when that holds.

    With `readonly` nothing is written to the file, and any number of processes may have it open so at once, while none has it
    open otherwise. What is stored is seen until it is closed; a call that would write to the file, as a sync, is a FileError
    with EROFS, and ends the memory.

    With `mapped` the file is one that the process maps: what is stored outlives the process at once, and the machine only
    after a sync or the end, if nothing was changed since. A file stays of the kind that it was made as, and is refused as the
    other one (KindError).

    MissingError (a FileNotFoundError): there is no file, and no `words`. LockedError (a BlockingIOError): it is open already,
    here or in another process. FormatError (a ValueError): it holds something else, or has other sizes, or is damaged.
    SetupError (a ValueError): no memory has such sizes. FileError (an OSError): the system refused a call."""
    return Memory(
        path, words, bytewise=bytewise, owned_pages=owned_pages, setup=setup, readonly=readonly, mapped=mapped
    )
