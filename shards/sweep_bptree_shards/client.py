"""The client of the shards: one ordered map over workers of Dask."""

from __future__ import annotations

import asyncio
import fcntl
import os
import time
from collections.abc import Sequence
from functools import cached_property
from itertools import accumulate

from distributed import Client

from . import routing
from .cluster import Cluster, Location
from .errors import BatchError, NotWrittenError, ShardError
from .lines import GREATEST, request
from .plan import Plan, combined, lines_with_exact_lengths
from .shard import TEXT

__all__ = ["Shards"]


class Shards:
    """One ordered map from numbers to numbers, over shards on the workers of a client of Dask.

    One client at a time uses a folder, and all workers see it. Its calls come from one thread. ``shards`` is how many shards it
    aims at: a shard that has more than ``limit`` pairs, or one and a half times its share of all, is split, and neighbours that
    have less than half of this together are merged. No shard of at most ``least`` pairs is split.

    A call that raises a ``ShardError`` has changed nothing, and a batch of it is not done later either.
    """

    def __init__(
        self,
        client: Client,
        folder: str,
        shards: int = 1,
        limit: int = 1_000_000,
        least: int = 1024,
        batch: int = 10_000,
        sync: bool = True,
        patience: float = 60,
    ):
        self.client = client
        self.folder = os.path.abspath(folder)
        self.shards, self.limit, self.least, self.batch = shards, max(limit, 2), max(least, 2), batch
        self._held_up = 0.0
        try:
            os.makedirs(self.folder, exist_ok=True)
            self._lock = os.open(os.path.join(self.folder, "lock"), os.O_RDWR | os.O_CREAT | os.O_CLOEXEC, 0o666)
        except OSError as error:
            raise NotWrittenError(f"{self.folder} cannot be made: {error.strerror}") from error
        try:
            fcntl.flock(self._lock, fcntl.LOCK_EX | fcntl.LOCK_NB)
        except BlockingIOError:
            os.close(self._lock)
            raise ShardError(f"{self.folder} is in use by another client") from None
        self._busy = asyncio.Lock()
        self._cluster = Cluster(client, self.folder, sync, patience)
        self.counts = self._cluster.counts
        try:
            self._run(self._cluster.open_table)
            self._see_bounds()
        except BaseException:
            self.close()
            raise

    def _run(self, function, *arguments, **named):
        """Runs a method of the cluster in the event loop of the client."""
        return self.client.sync(self._alone, function, *arguments, **named)

    async def _alone(self, function, *arguments, **named):
        # (a call that was interrupted from the keyboard may still be at work)
        async with self._busy:
            return await function(*arguments, **named)

    def _see_bounds(self) -> None:
        self._bounds = [location.low for location in self._cluster.locations[1:]]

    def _by_worker(self, shards) -> list[int]:
        """Shards in the order of their workers: the message to a worker is one piece then."""
        locations = self._cluster.locations
        return sorted(shards, key=lambda shard: (locations[shard].worker, shard))

    def lengths(self) -> list[int]:
        """How many pairs each shard has, in their order."""
        locations = self._cluster.locations
        if any(location.handle is None for location in locations):
            self._run(self._cluster.open, locations)
        return [location.length for location in locations]

    def bounds(self) -> list[int]:
        """The bounds between the shards."""
        return list(self._bounds)

    def processes(self) -> list[int]:
        """The number of the process of each shard."""
        return self._run(self._cluster.processes)

    # Lines.

    def _ask(self, asked: dict[int, list[bytes]]) -> dict[int, list[bytes]]:
        """Sends lines to shards, in one message to each worker, all at once. Returns the replies of each shard."""
        if not asked:
            return {}
        order = self._by_worker(asked)
        texts = [b"\n".join(asked[shard]) + b"\n" for shard in order]
        parts = [(self._cluster.locations[shard], len(text)) for shard, text in zip(order, texts)]
        sizes, pieces = self._run(self._cluster.batch, TEXT, parts, [memoryview(b"".join(texts))])
        said, ends = b"".join(column for (column,) in pieces), list(accumulate(sizes))
        return {shard: said[end - size : end].split(b"\n") for shard, size, end in zip(order, sizes, ends)}

    def answer(self, lines: Sequence[bytes]) -> list[bytes]:
        """Carries out lines of commands, and returns the replies of the program to them, in the order of the lines."""
        replies: list[bytes] = []
        for start in range(0, len(lines), self.batch):
            try:
                replies += self._batch(lines[start : start + self.batch])
            except ShardError as error:
                raise BatchError(error, replies) from error
            self._balance()
        return replies

    def _present(self, requests: list) -> set[int]:
        """Which of the keys that these requests put or delete are there."""
        of_shards: dict[int, list[int]] = {}
        for key in dict.fromkeys(it[1] for it in requests if it and it[0] in _CHANGES):
            of_shards.setdefault(routing.route(self._bounds, key), []).append(key)
        replies = self._ask({shard: [b"rank %d" % key for key in found] for shard, found in of_shards.items()})
        return {key for shard, found in of_shards.items() for key, it in zip(found, replies[shard]) if it.startswith(b"in")}

    def _batch(self, lines: Sequence[bytes]) -> list[bytes]:
        """Carries out the lines of one batch. Either all shards carry out their part of it, or no shard does."""
        requests = [request(line) for line in lines]
        # The shard that has an index of the whole depends on the lengths, and these change with the lines before it. So it is asked
        # first which of the keys that are changed before it are there.
        exact = lines_with_exact_lengths(requests)
        present = self._present(requests[:exact])
        plan = Plan(self._bounds, self.lengths(), present)
        plan.add(lines[:exact], requests[:exact])
        plan.end_exact_lengths()
        plan.add(lines[exact:], requests[exact:])
        before = self.lengths()
        came = self._ask({shard: found for shard, found in enumerate(plan.asked) if found})
        return combined(plan.steps, before, came)

    # Calls for one key or one range, as lines. Each sends messages to as few shards as possible.

    def _one(self, shard: int, line: bytes) -> bytes:
        return self._ask({shard: [line]})[shard][0]

    def get(self, key: int) -> int | None:
        """The value at a key."""
        return _number(self._one(self._shard(key), b"get %d" % key))

    def put(self, key: int, value: int) -> int | None:
        """Puts a value at a key, and gives the one that was there."""
        shard = self._shard(key)
        _see(value)
        reply = self._one(shard, b"put %d %d" % (key, value))
        self._balance()
        return None if reply == b"new" else int(reply.split()[1])

    def delete(self, key: int) -> int | None:
        """Removes a key, and gives the value that was there."""
        reply = self._one(self._shard(key), b"del %d" % key)
        self._balance()
        return None if reply == b"none" else int(reply.split()[1])

    def contains(self, key: int) -> bool:
        """Whether a key is there."""
        return self.get(key) is not None

    def rank(self, key: int) -> tuple[bool, int]:
        """Whether a key is there, and how many keys are smaller."""
        shard = self._shard(key)
        where, own = self._one(shard, b"rank %d" % key).split()
        return where == b"in", routing.rank_of_whole(self.lengths(), shard, int(own))

    def at(self, index: int) -> tuple[int, int] | None:
        """The pair at an index in the order of the keys. The first index is 0."""
        found = routing.locate(self.lengths(), index)
        return None if found is None else _pair(self._one(found[0], b"at %d" % found[1]))

    def _end(self, shard: int | None, line: bytes) -> tuple[int, int] | None:
        return None if shard is None else _pair(self._one(shard, line))

    def first(self) -> tuple[int, int] | None:
        """The pair with the least key."""
        return self._end(routing.first_full(self.lengths()), b"first")

    def last(self) -> tuple[int, int] | None:
        """The pair with the greatest key."""
        return self._end(routing.last_full(self.lengths()), b"last")

    def next(self, key: int) -> tuple[int, int] | None:
        """The pair with the least key above a key, which need not be there."""
        shard, lengths = self._shard(key), self.lengths()
        own = _pair(self._one(shard, b"next %d" % key)) if lengths[shard] else None
        return own or self._end(routing.next_full(lengths, shard), b"first")

    def prev(self, key: int) -> tuple[int, int] | None:
        """The pair with the greatest key below a key, which need not be there."""
        _see(key)
        shard, lengths = routing.route_below(self._bounds, key), self.lengths()
        own = _pair(self._one(shard, b"prev %d" % key)) if lengths[shard] else None
        return own or self._end(routing.prev_full(lengths, shard), b"last")

    def __len__(self) -> int:
        return routing.len_of_whole(self.lengths())

    def range(self, start: int, end: int) -> list[tuple[int, int]]:
        """The pairs with a key from start on and below end."""
        _see(start), _see(end)
        found = self._shards_between(start, end)
        return self._of_all(found, [b"range %d %d" % (start, end)] * len(found))

    def _shards_between(self, low: int, high: int | None) -> list[int]:
        """The shards that have a pair with a key from ``low`` on and below ``high``, or may have one."""
        if high is not None and low >= high:
            return []
        first, last = routing.route_range(self._bounds, low, high)
        lengths = self.lengths()
        return [shard for shard in range(first, last + 1) if lengths[shard]]

    def from_key(self, key: int, count: int) -> list[tuple[int, int]]:
        """At most so many pairs, from the least key that is not below a key on, upward."""
        shard, lengths = self._shard(key), self.lengths()
        own = _pairs(self._one(shard, b"ahead %d %d" % (key, count))) if lengths[shard] and count else []
        # (the rest is a page of the whole from where the next shard begins)
        found = routing.parts(lengths, routing.rank_of_whole(lengths, shard, lengths[shard]), count - len(own))
        return own + self._of_parts(found)

    def back_from(self, key: int, count: int) -> list[tuple[int, int]]:
        """At most so many pairs, from the greatest key that is not above a key on, downward."""
        shard, lengths = self._shard(key), self.lengths()
        own = _pairs(self._one(shard, b"behind %d %d" % (key, count))) if lengths[shard] and count else []
        before = routing.rank_of_whole(lengths, shard, 0)
        rest = min(count - len(own), before)
        return own + self._of_parts(routing.parts(lengths, before - rest, rest))[::-1]

    def back(self) -> list[tuple[int, int]]:
        """All pairs, from the greatest key down."""
        found = [shard for shard in range(len(self._cluster.locations) - 1, -1, -1) if self._cluster.locations[shard].length]
        return self._of_all(found, [b"back"] * len(found))

    def page(self, number: int, size: int) -> list[tuple[int, int]]:
        """A page of so many pairs, the first of which is page 0."""
        return self._of_parts(routing.parts(self.lengths(), number * size, size))

    def _of_parts(self, found: list[routing.Part]) -> list[tuple[int, int]]:
        return self._of_all([part.shard for part in found], [b"from %d %d" % (part.start, part.count) for part in found])

    def _of_all(self, shards: list[int], lines: list[bytes]) -> list[tuple[int, int]]:
        replies = self._ask({shard: [line] for shard, line in zip(shards, lines)})
        return _pairs(routing.joined(replies[shard][0] for shard in shards))

    def _shard(self, key: int) -> int:
        _see(key)
        return routing.route(self._bounds, key)

    # Calls for arrays.

    @cached_property
    def _arrays(self):
        # (numpy is needed for these calls alone)
        from .arrays import Arrays

        return Arrays(self)

    def get_many(self, keys):
        """The value at each key, or 0, and whether the key is there: an array of ``uint64`` and one of ``bool``.

        Here and below keys, values and indexes are an array of integers, another buffer of them, or a list.
        """
        return self._arrays.get_many(keys)

    def put_many(self, keys, values) -> None:
        """Stores each value at its key, all of them or none. Of equal keys the last value stays."""
        self._arrays.put_many(keys, values)

    def del_many(self, keys):
        """Removes the keys, all of them or none, and returns whether each was there. Of a key that comes twice the second is not."""
        return self._arrays.del_many(keys)

    def delete_many(self, keys):
        """The earlier name of ``del_many``, which stays as an alias."""
        return self.del_many(keys)

    def rank_many(self, keys):
        """How many keys are smaller than each of these: an array of ``int64``."""
        return self._arrays.rank_many(keys)

    def at_many(self, indexes):
        """The key and the value at each index, or 0, and whether there is a pair."""
        return self._arrays.at_many(indexes)

    def range_arrays(self, low: int = 0, high: int | None = None):
        """The keys and the values of all pairs with a key from ``low`` on and below ``high``, or to the last one."""
        _see(low), _see(high or 0)
        return self._arrays.range_arrays(low, high)

    def from_arrays(self, keys, values) -> None:
        """Replaces all pairs by these, sorted or not: in shards of equal length. Of equal keys the last value stays."""
        self._arrays.from_arrays(keys, values)

    def to_dask_dataframe(self):
        """All pairs as they are now, as a data frame of Dask with the index ``key``, the column ``value`` and known divisions.

        Each shard is a partition, which its worker copies into its own memory.
        """
        from .frames import to_dask_dataframe

        return to_dask_dataframe(self)

    def from_dask_dataframe(self, frame, column: str = "value") -> None:
        """Replaces all pairs by those of a data frame of Dask, from its index to a column. Its divisions are known, and ascend.

        Each partition is a shard. Workers make the files of the shards, and no pair passes through the client.
        """
        from .frames import from_dask_dataframe

        from_dask_dataframe(self, frame, column)

    # Bounds move between batches.

    def _most(self) -> int:
        return min(self.limit, max(self.least, 3 * len(self) // (2 * self.shards)))

    def _balance(self) -> None:
        """Splits and merges shards, as long as one is too large or two neighbours are small."""
        if time.monotonic() < self._held_up:
            return
        try:
            while self._move():
                pass
        except ShardError:
            # (the disk may be full, for example. The pairs stay in their shard until a later attempt)
            self._held_up = time.monotonic() + 1

    def _move(self) -> bool:
        lengths, most = self.lengths(), self._most()
        fullest = max(range(len(lengths)), key=lengths.__getitem__)
        if lengths[fullest] > most:
            self.split(fullest)
            return True
        for left in range(len(lengths) - 1):
            if lengths[left] + lengths[left + 1] <= most // 2:
                self.merge(left)
                return True
        return False

    def split(self, shard: int) -> None:
        """Moves the upper half of a shard into a new one behind it. It has two pairs or more.

        The new shard is on the disk in whole before the table names it, and the old one removes its half after that. What is cut
        off between leaves pairs that are in no range of the table, which are removed when a shard is opened.
        """
        self._run(self._split, shard)

    async def _split(self, shard: int) -> None:
        cluster = self._cluster
        location = cluster.locations[shard]
        high = cluster.highs()[location]
        fresh = cluster.fresh((await cluster.call(location, "middle"))["bound"], high)
        try:
            await cluster.move(location, fresh.low, fresh, high)
            locations = cluster.locations[: shard + 1] + [fresh] + cluster.locations[shard + 1 :]
            cluster.write_table(locations)
        except BaseException:
            await cluster.drop([fresh])
            raise
        cluster.locations = locations
        self._see_bounds()
        cluster.counts["splits"] += 1
        location.length -= fresh.length
        await self._cut(location, fresh.low)

    async def _cut(self, location: Location, high: int) -> None:
        try:
            location.length = (await self._cluster.call(location, "cut", high=high))["length"]
        except BaseException as error:
            # (its pairs from there on are removed when it is opened)
            self._cluster.forget(location)
            if not isinstance(error, ShardError):
                raise

    def merge(self, left: int) -> None:
        """Moves all pairs of a shard into the one before it."""
        self._run(self._merge, left)

    async def _merge(self, left: int) -> None:
        cluster = self._cluster
        location, other = cluster.locations[left], cluster.locations[left + 1]
        locations = cluster.locations[: left + 1] + cluster.locations[left + 2 :]
        try:
            await cluster.move(other, other.low, location, cluster.highs()[other])
            cluster.write_table(locations)
        except BaseException:
            # (what it has of the other is removed when it is opened)
            await cluster.close([location])
            raise
        cluster.locations = locations
        self._see_bounds()
        cluster.counts["merges"] += 1
        await cluster.drop([other])

    def close(self) -> None:
        """Closes the shards, which stay in the folder."""
        if self._lock >= 0:
            try:
                self._run(self._cluster.close, self._cluster.locations)
            except Exception:
                # (the client of Dask was closed before)
                pass
            self._cluster.end()
            os.close(self._lock)
            self._lock = -1

    def __enter__(self) -> Shards:
        return self

    def __exit__(self, *_) -> None:
        self.close()


_CHANGES = frozenset({b"put", b"del", b"clear"})


def _see(number: int) -> None:
    if not 0 <= number <= GREATEST:
        raise OverflowError(f"{number} is not from 0 to 2**64 - 1")


def _number(reply: bytes) -> int | None:
    return None if reply == b"none" else int(reply)


def _pair(reply: bytes) -> tuple[int, int] | None:
    if reply == b"none":
        return None
    key, value = reply.split()
    return int(key), int(value)


def _pairs(reply: bytes) -> list[tuple[int, int]]:
    return [] if reply == b"empty" else [_pair(it) for it in reply.split(b",")]
