"""Routes calls to shards, and combines the results of shards into the result for the whole list.

The shards are consecutive pieces of one ascending list, cut at ascending bounds. A shard may be empty. These functions take bounds,
lengths and replies, and use nothing else. Those up to ``parts`` have the names of the proved functions in ``crates/bptree_shard_routing``.
"""

from __future__ import annotations

from bisect import bisect_left, bisect_right
from collections.abc import Iterable, Sequence
from typing import NamedTuple

__all__ = [
    "Part",
    "route",
    "route_below",
    "route_range",
    "len_of_whole",
    "rank_of_whole",
    "locate",
    "first_full",
    "next_full",
    "prev_full",
    "last_full",
    "next_part",
    "parts",
    "till_full",
    "first_found",
    "joined",
]


class Part(NamedTuple):
    """A run of pairs in one shard: ``count`` pairs from the index ``start`` on."""

    shard: int
    start: int
    count: int


def route(bounds: Sequence[int], key: int) -> int:
    """The number of the shard that a key belongs to. A key that equals a bound belongs to the shard after the bound."""
    return bisect_right(bounds, key)


def route_below(bounds: Sequence[int], key: int) -> int:
    """The number of the last shard that can have a key less than ``key``. A shard whose first key would be ``key`` has no such key."""
    return bisect_left(bounds, key)


def route_range(bounds: Sequence[int], lo: int | None, hi: int | None) -> tuple[int, int]:
    """The first and the last shard that can have pairs with a key that is at least ``lo`` and less than ``hi``. Either may be ``None``."""
    return 0 if lo is None else route(bounds, lo), len(bounds) if hi is None else route_below(bounds, hi)


def len_of_whole(lengths: Sequence[int]) -> int:
    """The number of pairs of the whole."""
    return sum(lengths)


def rank_of_whole(lengths: Sequence[int], shard: int, own: int) -> int:
    """How many keys of the whole list are less than a key, if ``own`` keys of its shard are."""
    return sum(lengths[:shard]) + own


def locate(lengths: Sequence[int], index: int) -> tuple[int, int] | None:
    """The shard that has an index of the whole list, and the index within that shard. ``None`` past the end."""
    for shard, length in enumerate(lengths):
        if index < length:
            return shard, index
        index -= length
    return None


def first_full(lengths: Sequence[int]) -> int | None:
    """The first shard that has a pair."""
    return next_full(lengths, -1)


def next_full(lengths: Sequence[int], after: int) -> int | None:
    """The first shard behind one that has a pair."""
    return next((shard for shard in range(after + 1, len(lengths)) if lengths[shard]), None)


def prev_full(lengths: Sequence[int], before: int) -> int | None:
    """The last shard before one that has a pair."""
    return next((shard for shard in range(before - 1, -1, -1) if lengths[shard]), None)


def last_full(lengths: Sequence[int]) -> int | None:
    """The last shard that has a pair."""
    return prev_full(lengths, len(lengths))


def next_part(lengths: Sequence[int], index: int, n: int) -> Part | None:
    """The first part of a page of at most ``n`` pairs from an index of the whole list on. ``None`` if the page is empty."""
    found = locate(lengths, index) if n else None
    if found is None:
        return None
    shard, start = found
    return Part(shard, start, min(n, lengths[shard] - start))


def parts(lengths: Sequence[int], index: int, n: int) -> list[Part]:
    """The parts of a page of at most ``n`` pairs from an index of the whole list on: one for each shard that has pairs of the page."""
    found = []
    while (part := next_part(lengths, index, n)) is not None:
        found.append(part)
        index += part.count
        n -= part.count
    return found


def till_full(shards: Iterable[int], least: Sequence[int], most: Sequence[int]) -> list[int]:
    """Of these shards, in their order, those that have to be asked for the first pair among them.

    ``least`` and ``most`` are bounds on the length of each shard. A shard that must be empty is left out, and so are all shards
    after the first one that must have a pair.
    """
    found = []
    for shard in shards:
        if most[shard]:
            found.append(shard)
        if least[shard]:
            break
    return found


def first_found(replies: Iterable[bytes]) -> bytes:
    """The first reply that is a pair, or ``none``. The replies are in the order of the shards, and each is a pair or ``none``."""
    return next((reply for reply in replies if reply != b"none"), b"none")


def joined(replies: Iterable[bytes]) -> bytes:
    """The pairs of several shards in one reply, or ``empty``."""
    return b",".join(reply for reply in replies if reply != b"empty") or b"empty"
