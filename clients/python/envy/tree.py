"""Whether words are a map.

A map is a tree of nodes in pieces of 64 words behind the first 64. Of these word 0 has the root plus 1, or 0 if there is none,
word 1 the first free piece plus 1, word 2 how many pieces were ever in use, word 3 how many pairs there are. A free piece has
the next one plus 1, or 0. A node has twice how many keys it has, plus 1 if it is no leaf; its keys from word 1 on; and from
word 32 on its values or, one more than keys, its children."""

from __future__ import annotations

from typing import Callable, List, Set, Tuple

_PIECE, _SLOTS_AT = 64, 32
# The fewest and the most keys of a node. The root alone may have fewer.
_FEWEST, _MOST = 15, 31
# A map of so many pieces less has room for pairs, and has so many for each of the others.
_APART, _EACH = 8, 14

Read = Callable[[int, int], List[int]]


class NotATree(Exception):
    """Why the words are no map."""


def check(read: Read, words: int) -> None:
    """Raises NotATree unless the array of so many words is a map. `read(a, n)` gives n words from an address on."""
    pieces = (words - _PIECE) // _PIECE
    root, free, used, count = read(0, 4)
    if used > pieces:
        raise NotATree("more pieces are in use than there are")
    if count > _EACH * (pieces - _APART):
        raise NotATree("it has more pairs than it may have")
    seen = _free_pieces(read, free, used)
    pairs = _pairs_below(read, root - 1, used, seen) if root else 0
    if len(seen) != used:
        raise NotATree("a piece is neither a node nor free")
    if pairs != count:
        raise NotATree(f"it has {pairs} pairs, not {count}")


def _free_pieces(read: Read, link: int, used: int) -> Set[int]:
    """Returns the free pieces from this link on."""
    seen: Set[int] = set()
    while link:
        _see(link - 1, used, seen)
        link = read(_PIECE * link, 1)[0]
    return seen


def _see(piece: int, used: int, seen: Set[int]) -> None:
    """Notes a piece, which must be one that was handed out and wasn't seen."""
    if piece >= used:
        raise NotATree("a link leads past the pieces in use")
    if piece in seen:
        raise NotATree("two links lead to one piece")
    seen.add(piece)


def _pairs_below(read: Read, root: int, used: int, seen: Set[int]) -> int:
    """Returns how many pairs the nodes from the root on have, level by level."""
    # each node with the least key that it may have, and the first one that is too large
    level: List[Tuple[int, int, int]] = [(root, 0, 1 << 64)]
    is_root = True
    while True:
        nodes = [_node(read, piece, low, high, is_root, used, seen) for piece, low, high in level]
        if len({is_inner for is_inner, _, _ in nodes}) != 1:
            raise NotATree("leaves have different depths")
        if not nodes[0][0]:
            return sum(len(keys) for _, keys, _ in nodes)
        level = [child for place, node in zip(level, nodes) for child in _children(node, place[1], place[2])]
        is_root = False


def _children(node: Tuple[bool, List[int], List[int]], low: int, high: int) -> List[Tuple[int, int, int]]:
    _, keys, slots = node
    return list(zip(slots, [low, *keys], [*keys, high]))


def _node(
    read: Read, piece: int, low: int, high: int, is_root: bool, used: int, seen: Set[int]
) -> Tuple[bool, List[int], List[int]]:
    """Returns whether the node in a piece is no leaf, its keys, and its values or children."""
    _see(piece, used, seen)
    words = read(_PIECE + _PIECE * piece, _PIECE)
    n, is_inner = divmod(words[0], 2)
    fewest = (1 if is_inner else 0) if is_root else _FEWEST
    if not fewest <= n <= _MOST:
        raise NotATree(f"a node has {n} keys")
    keys = words[1 : 1 + n]
    # the keys of an inner node lie between its bounds; those of a leaf may begin with the lower one
    bounds = [low - 1 + is_inner, *keys, high]
    if any(a >= b for a, b in zip(bounds, bounds[1:])):
        raise NotATree("keys don't rise")
    return bool(is_inner), keys, words[_SLOTS_AT : _SLOTS_AT + n + is_inner]
