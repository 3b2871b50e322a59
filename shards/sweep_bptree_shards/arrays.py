"""Calls for arrays of numpy: keys are routed by the table of bounds, and go to the workers and back as raw bytes."""

from __future__ import annotations

from array import array

import numpy

from .cluster import Location, every
from .errors import LostError

__all__ = ["Arrays", "column"]

_WORD = numpy.dtype(numpy.uint64)
# So many shards are found by one comparison of all keys for each.
_FEW = 8


def column(numbers) -> numpy.ndarray:
    """Integers from 0 to 2**64 - 1 as an array of words: an array of numpy, another buffer, or a list."""
    if isinstance(numbers, (list, tuple)):
        numbers = array("Q", numbers)
    found = numpy.asarray(numbers)
    if found.ndim != 1 or found.dtype.kind not in "iu":
        raise TypeError(f"an array of integers is needed, of one dimension, and not of {found.dtype} and {found.ndim} dimensions")
    if found.dtype.kind == "i" and len(found) and found.min() < 0:
        raise OverflowError(f"{found.min()} is not from 0 to 2**64 - 1")
    return numpy.ascontiguousarray(found, _WORD)


def _raw(words: numpy.ndarray) -> memoryview:
    return memoryview(words).cast("B")


class Arrays:
    """The calls for arrays of ``Shards``, of the same names."""

    def __init__(self, shards):
        self._shards = shards
        self._cluster = shards._cluster

    def _route(self, keys: numpy.ndarray) -> numpy.ndarray:
        """The shard of each key."""
        bounds = numpy.array(self._shards.bounds(), _WORD)
        if len(bounds) < _FEW:
            # (quicker than a binary search for each key)
            return sum(((keys >= bound).view(numpy.uint8) for bound in bounds), numpy.zeros(len(keys), numpy.uint8))
        return numpy.searchsorted(bounds, keys, side="right")

    def _batch(self, kind: str, shard_of: numpy.ndarray, columns: list, types: tuple, before=None) -> list:
        """Sends the keys of each shard in one batch, and returns the columns of the reply in the order of the keys.

        ``before`` is what is added to the first of them in each shard.
        """
        locations = self._cluster.locations
        by_worker = self._shards._by_worker(range(len(locations)))
        order = None
        counts = numpy.array([len(shard_of)])
        if len(locations) > 1:
            slot_of = numpy.empty(len(locations), numpy.uint16 if len(locations) < 1 << 16 else numpy.uint32)
            slot_of[by_worker] = numpy.arange(len(locations))
            slots = slot_of[shard_of]
            counts = numpy.bincount(slots, minlength=len(locations))
            # The keys of one shard stay in their order.
            if len(locations) <= _FEW:
                order = numpy.concatenate([numpy.flatnonzero(slots == slot) for slot in range(len(locations))])
            else:
                order = numpy.argsort(slots, kind="stable")
            columns = [it[order] for it in columns]
        asked = [(locations[shard], count) for shard, count in zip(by_worker, counts.tolist()) if count]
        pieces = self._shards._run(self._cluster.batch, kind, asked, [_raw(it) for it in columns])[1] if asked else []
        results = []
        for at, kind_of in enumerate(types):
            came = numpy.frombuffer(bytearray().join(piece[at] for piece in pieces), kind_of)
            if before is not None and not at:
                came += numpy.repeat(before[by_worker], counts)
            if order is None:
                results.append(came)
            else:
                results.append(numpy.empty(len(came), came.dtype))
                results[-1][order] = came
        return results

    def get_many(self, keys):
        keys = column(keys)
        return tuple(self._batch("get", self._route(keys), [keys], (_WORD, bool)))

    def put_many(self, keys, values) -> None:
        keys, values = column(keys), column(values)
        if len(keys) != len(values):
            raise ValueError(f"there are {len(keys)} keys and {len(values)} values")
        self._batch("put", self._route(keys), [keys, values], ())
        self._shards._balance()

    def del_many(self, keys):
        keys = column(keys)
        (found,) = self._batch("del", self._route(keys), [keys], (bool,))
        self._shards._balance()
        return found

    def _starts(self) -> numpy.ndarray:
        """How many pairs there are before each shard, and in all."""
        return numpy.concatenate([[0], numpy.cumsum(self._shards.lengths())]).astype(numpy.int64)

    def rank_many(self, keys):
        keys = column(keys)
        starts = self._starts()
        return self._batch("rank", self._route(keys), [keys], (numpy.int64,), starts[:-1])[0]

    def at_many(self, indexes):
        indexes = column(indexes)
        starts = self._starts().astype(_WORD)
        # (the last shard has no pair at an index past the end)
        shard_of = numpy.minimum(numpy.searchsorted(starts[1:], indexes, side="right"), len(starts) - 2)
        return tuple(self._batch("at", shard_of, [indexes - starts[shard_of]], (_WORD, _WORD, bool)))

    def range_arrays(self, low: int, high: int | None):
        shards = self._shards._shards_between(low, high)
        parts = [(self._cluster.locations[shard], 0) for shard in shards]
        pieces = self._shards._run(self._cluster.batch, "range", parts, [], low=low, high=high)[1] if parts else []
        return tuple(numpy.frombuffer(bytearray().join(piece[at] for piece in pieces), _WORD) for at in (0, 1))

    def from_arrays(self, keys, values) -> None:
        keys, values = column(keys), column(values)
        if len(keys) != len(values):
            raise ValueError(f"there are {len(keys)} keys and {len(values)} values")
        count = max(self._shards.shards, -(-len(keys) // self._shards.limit))
        cuts = [len(keys) * at // count for at in range(1, count)] if len(keys) else []
        ascends = len(keys) < 2 or bool((keys[:-1] <= keys[1:]).all())
        bounds = (keys if ascends else numpy.partition(keys, sorted(set(cuts))))[cuts]
        bounds = numpy.unique(bounds[bounds > 0]).astype(_WORD)
        if ascends:
            ends = [0, *numpy.searchsorted(keys, bounds).tolist(), len(keys)]
        else:
            pieces = numpy.searchsorted(bounds, keys, side="right").astype(numpy.uint16 if len(bounds) < 1 << 16 else numpy.uint32)
            order = numpy.argsort(pieces, kind="stable")
            keys, values = keys[order], values[order]
            ends = [0, *numpy.cumsum(numpy.bincount(pieces, minlength=len(bounds) + 1)).tolist()]
        self._shards._run(self._load, [0, *bounds.tolist()], ends, keys, values)
        self._shards._see_bounds()

    async def _load(self, lows: list[int], ends: list[int], keys, values) -> None:
        """Makes shards of pairs, and replaces those of the table by them."""
        cluster = self._cluster
        locations = [cluster.fresh(low, high) for low, high in zip(lows, [*lows[1:], None])]

        async def fill(location: Location, start: int, end: int) -> None:
            pairs = {name: cluster.raw(_raw(it[start:end])) for name, it in (("keys", keys), ("values", values)) if start < end}
            for turn in (1, 2, 3):
                try:
                    location.length = (await cluster.call(location, "take", high=location.high, **pairs))["length"]
                    return
                except LostError:
                    # (its worker is gone: another one opens what there is of it)
                    if turn == 3:
                        raise

        try:
            await cluster.open(locations, beside=[])
            await every(fill(*it) for it in zip(locations, ends, ends[1:]))
            await cluster.replace(locations)
        except BaseException:
            await cluster.drop(locations)
            raise
