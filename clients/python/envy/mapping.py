"""An ordered map from words to words."""

from __future__ import annotations

import ctypes
import operator
from typing import TYPE_CHECKING, Any, ItemsView, Iterable, Iterator, KeysView, List, Mapping, MutableMapping, Optional
from typing import SupportsIndex, Tuple, ValuesView

from . import tree
from .errors import AbsentError, MapError
from .library import ABSENT, MAP_SETUP, SLOT_OPEN, WORDS, PairStruct, RangeStruct
from .words import word_of

if TYPE_CHECKING:
    from .memory import Memory

Pair = Tuple[int, int]

# The pages and shadows of a setup that a map fits.
_PAGES, _SHADOWS = (20, 1 << 20), 32


class Map(MutableMapping[int, int]):
    """The ordered map of a memory, as `Memory.map` gives it: integers of 0 to 2**64 - 1, by rising key.

    >>> import envy, os, tempfile
    >>> folder = tempfile.TemporaryDirectory()
    >>> with envy.open(os.path.join(folder.name, "map.envy"), words=1000) as m:
    ...     prices = m.map()
    ...     prices.update({30: 3, 10: 1, 20: 2})
    ...     list(prices), list(prices.items(15, 30)), prices.above(10), 15 in prices
    ([10, 20, 30], [(20, 2), (30, 3)], (20, 2), False)

    Each call is one transaction, and is on the disk after the next `m.sync()`. Calls are refused while a transaction is open
    (TransactionError), and so is a new key if the map is full (MapError). An iteration goes on by the last key, so the map
    may change meanwhile. Words that are stored in the array otherwise may end the map: then its next call is a MapError."""

    def __init__(self, memory: "Memory", new: bool = False) -> None:
        self._memory = memory
        self._place = memory._place
        with self._place as handle:
            if new:
                self._place.check(self._place.c.envy_index_create(handle))
                self._place.map_at = self._place.writes
            self._check_words(handle)

    def __getitem__(self, key: SupportsIndex) -> int:
        return self._number(self._place.c.envy_index_get, _key_of(key))

    def __setitem__(self, key: SupportsIndex, value: SupportsIndex) -> None:
        at, word = word_of(key), word_of(value)
        with self._place as handle:
            self._check_words(handle)
            self._place.check(self._place.c.envy_index_insert(handle, at, word, None), f"key {at}")

    def __delitem__(self, key: SupportsIndex) -> None:
        self._number(self._place.c.envy_index_remove, _key_of(key))

    def __contains__(self, key: object) -> bool:
        try:
            self[key]  # type: ignore[index]
        except (AbsentError, TypeError):
            return False
        return True

    def __len__(self) -> int:
        return self._number(self._place.c.envy_index_count)

    def __iter__(self) -> Iterator[int]:
        return iter(self.keys())

    def __reversed__(self) -> Iterator[int]:
        return reversed(self.keys())

    def keys(self, first: Optional[int] = None, last: Optional[int] = None) -> "Keys":  # type: ignore[override]
        """A view of the keys of `first` to `last`, both of them too, by rising key; None: from the least, to the greatest."""
        return Keys(_Range(self, first, last))

    def values(self, first: Optional[int] = None, last: Optional[int] = None) -> "Values":  # type: ignore[override]
        """A view of the values of these keys, by rising key."""
        return Values(_Range(self, first, last))

    def items(self, first: Optional[int] = None, last: Optional[int] = None) -> "Items":  # type: ignore[override]
        """A view of the pairs of these keys, by rising key."""
        return Items(_Range(self, first, last))

    def at_least(self, key: SupportsIndex) -> Optional[Pair]:
        """Returns the pair with the least key that is at least this one, or None."""
        return self._nearest(self._place.c.envy_index_next, word_of(key))

    def above(self, key: SupportsIndex) -> Optional[Pair]:
        """Returns the pair with the least key above this one, or None."""
        return self._nearest(self._place.c.envy_index_above, word_of(key))

    def at_most(self, key: SupportsIndex) -> Optional[Pair]:
        """Returns the pair with the greatest key that is at most this one, or None."""
        return self._nearest(self._place.c.envy_index_last, word_of(key))

    def pop(self, key: SupportsIndex, *default: Any) -> Any:
        """Takes a key out, and returns its value; or returns the default, if one is given."""
        if len(default) > 1:
            raise TypeError("pop takes a key and one default")
        try:
            return self._number(self._place.c.envy_index_remove, _key_of(key))
        except AbsentError:
            if default:
                return default[0]
            raise

    def popitem(self) -> Pair:
        """Takes the pair with the least key out, and returns it."""
        with self._place:
            pair = self.at_least(0)
            if pair is None:
                raise AbsentError(ABSENT, "the map has no pairs")
            del self[pair[0]]
            return pair

    def setdefault(self, key: SupportsIndex, default: Optional[SupportsIndex] = None) -> int:  # type: ignore[override]
        """Returns the value of a key, which it sets to the default if it has none."""
        with self._place:
            try:
                return self[key]
            except AbsentError:
                if default is None:
                    raise TypeError("a value is an integer, not None") from None
                self[key] = default
                return word_of(default)

    def clear(self) -> None:
        """Takes all pairs out, in one transaction."""
        with self._place as handle:
            self._check_words(handle)
            self._place.check(self._place.c.envy_index_create(handle))

    def load(self, pairs: Iterable[Tuple[SupportsIndex, SupportsIndex]]) -> None:
        """Makes these pairs, whose keys rise, the pairs of the map, in place of those that it has: leaf by leaf, in much less
        time than one by one. ValueError: the keys don't rise. MapError: it has no room for so many. Nothing changes then."""
        words = [(word_of(key), word_of(value)) for key, value in pairs]
        if any(one[0] >= next_one[0] for one, next_one in zip(words, words[1:])):
            raise ValueError("the keys of a load must rise")
        with self._place as handle:
            self._check_words(handle)
            whole = RangeStruct(0, len(self._memory))
            self._place.check(self._place.c.envy_map_load(handle, whole, (PairStruct * len(words))(*words), len(words)))

    def __reduce__(self) -> Any:
        raise TypeError("a map can't be copied or pickled; dict(map) is a copy of its pairs")

    def __repr__(self) -> str:
        return f"<envy.Map in {self._memory.path!r}>"

    def _number(self, call: Any, *key: int) -> int:
        """Returns the number that a call gives, for a key or of the whole."""
        number = ctypes.c_uint64()
        with self._place as handle:
            self._check_words(handle)
            self._place.check(call(handle, *key, number), f"key {key[0]}" if key else "")
        return number.value

    def _nearest(self, call: Any, key: int) -> Optional[Pair]:
        pair = PairStruct()
        with self._place as handle:
            self._check_words(handle)
            code = call(handle, key, pair)
            if code == ABSENT:
                return None
            self._place.check(code)
        return pair.key, pair.value

    def _check_words(self, handle: Any) -> None:
        """Checks that the words are a map, if other calls than those of a map may have changed them. The library can't, and
        wrong words might lead it anywhere. Its own refusals come before: those of an open slot, and of the sizes."""
        place, setup = self._place, self._memory.setup
        if not (_PAGES[0] <= setup.pages <= _PAGES[1] and setup.shadows >= _SHADOWS):
            raise place.refused(MAP_SETUP, f"{setup.pages} pages, {setup.shadows} shadows")
        if place.slots:
            raise place.refused(SLOT_OPEN, f"slot {min(place.slots)}")
        if place.map_at == place.writes:
            return
        try:
            tree.check(lambda a, n: self._read(handle, a, n), len(self._memory))
        except tree.NotATree as why:
            raise MapError(None, f"the array holds no map: {why}") from None
        place.map_at = place.writes

    def _read(self, handle: Any, address: int, n: int) -> List[int]:
        words = (ctypes.c_uint64 * n)()
        self._place.check(self._place.c.envy_read(handle, address, words, n))
        return words[:]


class _Range(Mapping[int, int]):
    """The pairs of a map whose keys are in a range."""

    def __init__(self, whole: Map, first: Optional[int], last: Optional[int]) -> None:
        self.whole = whole
        self.first = 0 if first is None else word_of(first)
        self.last = WORDS - 1 if last is None else word_of(last)

    def pairs(self) -> Iterator[Pair]:
        pair = self.whole.at_least(self.first)
        while pair is not None and pair[0] <= self.last:
            yield pair
            pair = self.whole.above(pair[0])

    def backwards(self) -> Iterator[Pair]:
        pair = self.whole.at_most(self.last)
        while pair is not None and pair[0] >= self.first:
            yield pair
            pair = self.whole.at_most(pair[0] - 1) if pair[0] else None

    def __getitem__(self, key: int) -> int:
        if key not in self:
            raise AbsentError(ABSENT, f"key {key}")
        return self.whole[key]

    def __contains__(self, key: object) -> bool:
        return key in self.whole and self.first <= operator.index(key) <= self.last  # type: ignore[arg-type]

    def __iter__(self) -> Iterator[int]:
        return (key for key, _ in self.pairs())

    def __len__(self) -> int:
        if self.first == 0 and self.last == WORDS - 1:
            return len(self.whole)
        return sum(1 for _ in self.pairs())


class Keys(KeysView[int]):
    """Keys of a map, by rising key; `reversed` gives them the other way."""

    _mapping: _Range

    def __reversed__(self) -> Iterator[int]:
        return (key for key, _ in self._mapping.backwards())


class Values(ValuesView[int]):
    """Values of a map, by rising key."""

    _mapping: _Range

    def __iter__(self) -> Iterator[int]:
        return (value for _, value in self._mapping.pairs())

    def __reversed__(self) -> Iterator[int]:
        return (value for _, value in self._mapping.backwards())


class Items(ItemsView[int, int]):
    """Pairs of a map, by rising key."""

    _mapping: _Range

    def __iter__(self) -> Iterator[Pair]:
        return self._mapping.pairs()

    def __reversed__(self) -> Iterator[Pair]:
        return self._mapping.backwards()


def _key_of(key: SupportsIndex) -> int:
    """Returns a key that may be in a map, or raises TypeError or AbsentError."""
    word = operator.index(key)
    if not 0 <= word < WORDS:
        raise AbsentError(ABSENT, f"key {word}")
    return word
