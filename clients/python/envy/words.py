"""What Python gives for an address, a slice or a word, checked."""

from __future__ import annotations

import array
import ctypes
import operator
from typing import Any, Iterable, List, SupportsIndex, Union

from . import library
from .errors import AddressError

Key = Union[SupportsIndex, slice]


def word_of(value: SupportsIndex) -> int:
    """Returns a word, or raises TypeError or ValueError."""
    word = operator.index(value)
    if not 0 <= word < library.WORDS:
        raise ValueError(f"a word is 0 to 2**64 - 1, not {word}")
    return word


def words_of(values: Iterable[SupportsIndex], n: int) -> "array.array[int]":
    """Returns n words, or raises TypeError or ValueError."""
    try:
        words = array.array("Q", values)  # type: ignore[arg-type]
    except OverflowError:
        raise ValueError("a word is 0 to 2**64 - 1") from None
    if len(words) != n:
        raise ValueError(f"{len(words)} words for {n} addresses")
    return words


def address_of(key: Any, n: int) -> int:
    """Returns the address that a key of an array of n words means, or raises TypeError or AddressError."""
    try:
        address = operator.index(key)
    except TypeError:
        raise TypeError(f"an address is an integer or a slice, not {type(key).__name__}") from None
    if address < 0:
        address += n
    if not 0 <= address < n:
        raise AddressError(library.RANGE, f"address {operator.index(key)} of {n} words")
    return address


def range_of(key: slice, n: int) -> range:
    """Returns the addresses of a slice of an array of n words."""
    return range(*key.indices(n))


def is_in_page(addresses: range) -> bool:
    """Returns whether these are some words in a row of one page."""
    return len(addresses) > 0 and addresses.step == 1 and addresses[0] // library.PAGE_WORDS == addresses[-1] // library.PAGE_WORDS


def picked(words: List[int], addresses: range) -> List[int]:
    """Returns those of the words from the lowest of these addresses on that stand at them, in their order."""
    low = min(addresses[0], addresses[-1])
    return words if addresses.step == 1 else [words[it - low] for it in addresses]


def buffer_of(words: "array.array[int]") -> Any:
    """Returns the words as the library takes them. They lie where they lay."""
    return (ctypes.c_uint64 * len(words)).from_buffer(words)
