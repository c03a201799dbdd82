"""Transactions."""

from __future__ import annotations

import ctypes
import weakref
from typing import TYPE_CHECKING, Any, Iterable, List, SupportsIndex, overload

from .errors import EnvyError
from .library import CLOSED
from .place import Place
from .words import Key, address_of, buffer_of, range_of, word_of, words_of

if TYPE_CHECKING:
    from .memory import Memory


class Transaction:
    """Words that are stored together, or not at all.

    `with m.transaction() as t:` commits at the end of the block, and aborts at an exception. `t[5]` is the word as the
    transaction sees it: what it put, or else what is committed. `t[5] = 1` puts a word, and `t[3:9] = ..` several. The
    transaction owns each page of 32 words to which it put one: stores and other transactions get HeldError there until it
    ends. A commit is on the disk after the next `m.sync()`.

    A transaction that is no longer used, and wasn't ended, is aborted."""

    def __init__(self, memory: "Memory") -> None:
        self._memory = memory  # which stays open as long as the transaction is used
        self._place = place = memory._place
        self._n = len(memory)
        slot = ctypes.c_uint32()
        with place as handle:
            place.check(place.c.envy_begin(handle, slot))
            place.slots.add(slot.value)
        self._slot = slot.value
        self._dropped = weakref.finalize(self, place.left.append, self._slot)
        self._dropped.atexit = False

    @property
    def slot(self) -> int:
        """The number of the slot, 0 to 63: the `holder` of a HeldError that others get."""
        return self._slot

    @property
    def is_open(self) -> bool:
        """Whether it was neither committed nor aborted."""
        return self._dropped.alive

    def __len__(self) -> int:
        """How many words the array has."""
        return self._n

    @overload
    def __getitem__(self, key: SupportsIndex) -> int: ...
    @overload
    def __getitem__(self, key: slice) -> List[int]: ...
    def __getitem__(self, key: Key) -> Any:
        if not isinstance(key, slice):
            return self._view([address_of(key, self._n)])[0]
        return self._view(range_of(key, self._n))

    @overload
    def __setitem__(self, key: SupportsIndex, value: SupportsIndex) -> None: ...
    @overload
    def __setitem__(self, key: slice, value: Iterable[SupportsIndex]) -> None: ...
    def __setitem__(self, key: Key, value: Any) -> None:
        if isinstance(key, slice):
            addresses = range_of(key, self._n)
            self._write(addresses, words_of(value, len(addresses)))
        else:
            self._put(address_of(key, self._n), word_of(value))

    def commit(self) -> None:
        """Keeps all that was put, and ends the transaction."""
        self._end(self._place.c.envy_commit)

    def abort(self) -> None:
        """Puts back the words of its pages, and ends the transaction."""
        self._end(self._place.c.envy_abort)

    def __enter__(self) -> "Transaction":
        return self

    def __exit__(self, kind: Any, *_: Any) -> None:
        if not self.is_open:
            return
        if kind is None:
            self.commit()
            return
        try:
            self.abort()
        except EnvyError:  # what ended the block goes on
            pass

    def __reduce__(self) -> Any:
        raise TypeError("a transaction can't be copied or pickled")

    def __repr__(self) -> str:
        return f"<envy.Transaction {self._slot}{'' if self.is_open else ', ended'}>"

    def _view(self, addresses: Iterable[int]) -> List[int]:
        words, word = [], ctypes.c_uint64()
        with self._place as handle:
            self._check_open()
            for address in addresses:
                self._place.check(self._place.c.envy_view(handle, self._slot, address, word))
                words.append(word.value)
        return words

    def _put(self, address: int, word: int) -> None:
        holder = ctypes.c_uint32()
        with self._place as handle:
            self._check_open()
            code = self._place.c.envy_put(handle, self._slot, address, word, holder)
            self._place.check_held(code, holder.value, f"address {address}")

    def _write(self, addresses: range, words: Any) -> None:
        with self._place as handle:
            self._check_open()
            write(self._place, handle, self._slot, addresses, words)

    def _check_open(self) -> None:
        if not self.is_open:
            raise self._place.refused(CLOSED, f"slot {self._slot}")

    def _end(self, call: Any) -> None:
        with self._place as handle:
            self._check_open()
            code = call(handle, self._slot)
            self._place.check(code)
            self._place.writes += 1
            self._place.slots.discard(self._slot)
            self._dropped.detach()


def store(place: Place, handle: Any, addresses: range, words: Any) -> None:
    """Stores words to addresses in a row, outside transactions. The first that is refused ends it."""
    holder, done = ctypes.c_uint32(), ctypes.c_size_t()
    code = place.c.envy_store_run(handle, addresses[0], buffer_of(words), len(words), done, holder)
    place.check_held(code, holder.value, f"address {addresses[0] + done.value}")
    place.writes += 1


def write(place: Place, handle: Any, slot: int, addresses: range, words: Any) -> None:
    """Puts words to such addresses in a slot. Words in a row that meet more pages than may yet be owned are refused before the
    first. Else the first that is refused ends it; the earlier ones stay put."""
    if not addresses:
        return
    if addresses.step < 0:
        addresses, words = addresses[::-1], words[::-1]
    holder, done = ctypes.c_uint32(), ctypes.c_size_t()
    if addresses.step == 1:
        code = place.c.envy_write(handle, slot, addresses[0], buffer_of(words), len(words), done, holder)
        place.check_held(code, holder.value, f"address {addresses[0] + done.value}")
        return
    for address, word in zip(addresses, words):
        code = place.c.envy_put(handle, slot, address, word, holder)
        place.check_held(code, holder.value, f"address {address}")

