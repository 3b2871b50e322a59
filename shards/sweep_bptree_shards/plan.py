"""Plans which lines of a batch go to which shard, and combines the replies of the shards into a reply to each line."""

from __future__ import annotations

from collections.abc import Callable, Iterable, Sequence

from . import routing
from .errors import BrokenError

__all__ = ["Plan", "combined", "lines_with_exact_lengths"]

Request = tuple[bytes, int, int]
# How a line's reply is found. A step is one of these:
# - the number of the shard that replies, if the line changes the shard, and else the complement of that number;
# - the reply itself, if it is known already;
# - a way to combine the replies of several shards, and their numbers.
Step = int | bytes | tuple[object, int | Sequence[int]]
_RANK, _LEN, _FIRST, _JOIN, _CLEAR = object(), object(), object(), object(), object()
_BY_INDEX = frozenset({b"at", b"page"})


def lines_with_exact_lengths(requests: Sequence[Request | None]) -> int:
    """How many lines of a batch need the exact length of each shard: those up to the last one with an index of the whole."""
    return max((at + 1 for at, it in enumerate(requests) if it and it[0] in _BY_INDEX), default=0)


class Plan:
    """The lines of a batch for each shard, and a step for each line.

    When a line is carried out, a shard has at least ``least`` and at most ``most`` pairs. While the plan is exact the two are
    equal: ``present`` has those of the changed keys that are in the map.
    """

    def __init__(self, bounds: Sequence[int], lengths: list[int], present: set[int]):
        self.bounds, self.least, self.most, self.present = bounds, lengths, lengths, present
        self.is_exact = True
        #: the lines to send to each shard
        self.asked: list[list[bytes]] = [[] for _ in lengths]
        self.steps: list[Step] = []

    def add(self, lines: Sequence[bytes], requests: Sequence[Request | None]) -> None:
        """Plans further lines, each of which has its request, or ``None`` if it is a bad line."""
        steps = self.steps
        for line, it in zip(lines, requests):
            steps.append(b"bad" if it is None else _STEPS[it[0]](self, line, it[1], it[2]))

    def end_exact_lengths(self) -> None:
        """From here on only bounds on the lengths are known."""
        self.is_exact = False
        self.most = self.least[:]

    def _get(self, line: bytes, key: int, _: int) -> Step:
        shard = routing.route(self.bounds, key)
        self.asked[shard].append(line)
        return ~shard

    def _put(self, line: bytes, key: int, _: int) -> Step:
        shard = routing.route(self.bounds, key)
        self.asked[shard].append(line)
        if not self.is_exact:
            self.most[shard] += 1
            if not self.least[shard]:
                self.least[shard] = 1
        elif key not in self.present:
            self.present.add(key)
            self.least[shard] += 1
        return shard

    def _del(self, line: bytes, key: int, _: int) -> Step:
        shard = routing.route(self.bounds, key)
        self.asked[shard].append(line)
        if not self.is_exact:
            if self.least[shard]:
                self.least[shard] -= 1
        elif key in self.present:
            self.present.remove(key)
            self.least[shard] -= 1
        return shard

    def _rank(self, line: bytes, key: int, _: int) -> Step:
        shard = routing.route(self.bounds, key)
        self.asked[shard].append(line)
        return _RANK, shard

    def _len(self, line: bytes, *_: int) -> Step:
        return _LEN, ()

    def _at(self, line: bytes, index: int, _: int) -> Step:
        found = routing.locate(self.least, index)
        if found is None:
            return b"none"
        shard, own = found
        self.asked[shard].append(b"at %d" % own)
        return ~shard

    def _page(self, line: bytes, number: int, size: int) -> Step:
        found = routing.parts(self.least, number * size, size)
        for part in found:
            self.asked[part.shard].append(b"from %d %d" % (part.start, part.count))
        return _JOIN, [part.shard for part in found]

    def _next(self, line: bytes, key: int, _: int) -> Step:
        shard = routing.route(self.bounds, key)
        return self._beside(line, shard, range(shard + 1, len(self.least)), b"first")

    def _prev(self, line: bytes, key: int, _: int) -> Step:
        shard = routing.route_below(self.bounds, key)
        return self._beside(line, shard, range(shard - 1, -1, -1), b"last")

    def _beside(self, line: bytes, shard: int, others: range, end: bytes) -> Step:
        """The pair beside a key is in the key's own shard, or at an end of another one."""
        found = routing.till_full(others, self.least, self.most)
        self._send(found, end)
        if not self.most[shard]:
            return _FIRST, found
        self.asked[shard].append(line)
        return _FIRST, [shard, *found]

    def _first(self, line: bytes, *_: int) -> Step:
        return self._end(line, range(len(self.least)))

    def _last(self, line: bytes, *_: int) -> Step:
        return self._end(line, reversed(range(len(self.least))))

    def _end(self, line: bytes, shards: Iterable[int]) -> Step:
        return _FIRST, self._send(routing.till_full(shards, self.least, self.most), line)

    def _range(self, line: bytes, start: int, end: int) -> Step:
        # (an empty range needs no shard)
        low, high = routing.route_range(self.bounds, start, end) if start < end else (0, -1)
        return _JOIN, self._send([shard for shard in range(low, high + 1) if self.most[shard]], line)

    def _all(self, line: bytes, *_: int) -> Step:
        return _JOIN, self._send(self._not_empty(), line)

    def _back(self, line: bytes, *_: int) -> Step:
        return _JOIN, self._send(self._not_empty()[::-1], line)

    def _clear(self, line: bytes, *_: int) -> Step:
        found = self._send(self._not_empty(), line)
        self.least[:] = self.most[:] = [0] * len(self.least)
        self.present.clear()
        return _CLEAR, found

    def _not_empty(self) -> list[int]:
        """The shards that may have a pair."""
        return [shard for shard, most in enumerate(self.most) if most]

    def _send(self, shards: list[int], line: bytes) -> list[int]:
        for shard in shards:
            self.asked[shard].append(line)
        return shards


_STEPS: dict[bytes, Callable[..., Step]] = {
    b"get": Plan._get,
    b"put": Plan._put,
    b"del": Plan._del,
    b"rank": Plan._rank,
    b"len": Plan._len,
    b"at": Plan._at,
    b"page": Plan._page,
    b"next": Plan._next,
    b"prev": Plan._prev,
    b"first": Plan._first,
    b"last": Plan._last,
    b"range": Plan._range,
    b"all": Plan._all,
    b"back": Plan._back,
    b"clear": Plan._clear,
}


def combined(steps: Sequence[Step], lengths: list[int], came: dict[int, list[bytes]]) -> list[bytes]:
    """Combines the replies of the shards into a reply to each line. ``lengths`` are those before the first line."""
    nexts = [iter(came.get(shard, ())).__next__ for shard in range(len(lengths))]
    replies: list[bytes] = []
    add = replies.append
    try:
        for step in steps:
            if step.__class__ is int:
                if step < 0:
                    add(nexts[~step]())
                else:
                    reply = nexts[step]()
                    if reply == b"new":
                        lengths[step] += 1
                    elif reply.startswith(b"gone"):
                        lengths[step] -= 1
                    add(reply)
            elif step.__class__ is bytes:
                add(step)
            else:
                add(_of_several(*step, lengths, nexts))
    except StopIteration:
        raise BrokenError("a shard sent fewer replies than it got lines") from None
    return replies


def _of_several(how: object, shards, lengths: list[int], nexts: list[Callable[[], bytes]]) -> bytes:
    """The reply to a line that depends on several shards."""
    if how is _RANK:
        found, own = nexts[shards]().split()
        return b"%b %d" % (found, routing.rank_of_whole(lengths, shards, int(own)))
    replies = [nexts[shard]() for shard in shards]
    if how is _LEN:
        return b"%d" % routing.len_of_whole(lengths)
    if how is _FIRST:
        return routing.first_found(replies)
    if how is _JOIN:
        return routing.joined(replies)
    lengths[:] = [0] * len(lengths)
    return b"cleared"
