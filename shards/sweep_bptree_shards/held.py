"""The map of one shard, by the functions for C: calls for arrays of keys, and the lines of the program.

Arrays are passed by their addresses. They have words of 64 bits, or bytes that are 1 for a key that was found and else 0. A shard
takes the lines of the program and three more, with replies of the same form as that of ``all``: ``from j c`` returns c pairs from
index j on, ``ahead k c`` returns c pairs from key k on, and ``behind k c`` returns c pairs from key k downward.
"""

from __future__ import annotations

import sys
from array import array
from collections.abc import Callable
from ctypes import addressof, byref, c_char, c_size_t, c_uint64

from .errors import OutOfMemoryError, ShardError
from .lines import GREATEST

__all__ = ["Map", "address", "words"]

if sys.byteorder != "little":
    raise ImportError("the files and messages of shards have words of 64 bits with the least byte first")


def words(count: int) -> array:
    """So many words of 64 bits, all 0."""
    return array("Q", bytes(8 * count))


def address(view) -> tuple[int, object]:
    """The address of words, and what has them: these bytes, or a copy if they are not aligned or can't be written to."""
    view = memoryview(view)
    if view.nbytes and not view.readonly:
        at = addressof(c_char.from_buffer(view))
        if at % 8 == 0:
            return at, view
    copy = array("Q", view.tobytes())
    return copy.buffer_info()[0], copy


class Map:
    """A map from numbers to numbers."""

    _map = None

    def __init__(self):
        try:
            from sweep_bptree import _library

            self._call = _library.functions()
        except (ImportError, OSError) as error:
            raise ShardError(f"a shard needs the package sweep_bptree and its library, on each worker: {error}") from error
        self._map = _library.Handle()
        self._ref = byref(self._map)
        self._pair = _library.Pair()
        self._size = c_size_t()
        self._commands = {
            **_value_commands(self._call, self._ref, (_library.NO_MEMORY, _library.REPLACED, _library.REMOVED)),
            **_pair_commands(self._call, self._ref, self._pair),
            **_list_commands(self._call, self._ref, self._pair),
        }
        if not self._call["new"](self._ref):
            raise OutOfMemoryError("an allocation failed for a map")

    def __len__(self) -> int:
        return self._call["len"](self._ref)

    def close(self) -> None:
        if self._map is not None and self._map.at:
            self._call["free"](self._ref)

    __del__ = close

    def many(self, kind: str, count: int, arrays: list[int]) -> None:
        """Calls ``get``, ``rank``, ``at``, ``put`` or ``del`` for so many keys or indexes, with the arrays of the function for C."""
        given = [word for at in arrays for word in (at, count)]
        if self._call[kind + "_many"](self._ref, *given) is False:
            raise OutOfMemoryError("an allocation failed for pairs: none of them was stored")

    def put_many(self, keys, values) -> None:
        """Stores pairs, whose keys and values are words in two buffers: all of them or none."""
        if len(keys):
            (keys_at, keys), (values_at, values) = address(keys), address(values)
            self.many("put", memoryview(keys).nbytes // 8, [keys_at, values_at])

    def rank(self, key: int) -> int:
        """How many keys are smaller."""
        self._call["rank"](self._ref, key, byref(self._size))
        return self._size.value

    def copy(self, start: int = 0, end: int | None = None) -> tuple[array, array]:
        """The keys and the values of the pairs from one index on, and before another."""
        count = max((len(self) if end is None else end) - start, 0)
        keys, values = words(count), words(count)
        self._call["copy"](self._ref, start, keys.buffer_info()[0], count, values.buffer_info()[0], count)
        return keys, values

    def keep(self, start: int, end: int) -> None:
        """Removes all pairs outside a range of indexes. If an allocation fails, the map is unchanged."""
        keys, values = self.copy(start, end)
        fresh = Map()
        fresh.put_many(keys, values)
        self._map.at, fresh._map.at = fresh._map.at, self._map.at

    def key_at(self, index: int) -> int:
        self._call["at"](self._ref, index, byref(self._pair))
        return self._pair.key

    def execute(self, text: bytes) -> bytes:
        """Carries out lines, each of which is a valid request, and returns their replies."""
        commands = self._commands
        replies = []
        add = replies.append
        for line in text.split(b"\n")[:-1]:
            words = line.split()
            command = commands.get(words[0])
            if command is None:
                raise ShardError(f"{line!r} is no request of a shard")
            add(command(words))
        add(b"")
        return b"\n".join(replies)


# A command takes the words of a line, and returns the reply. These functions make the commands of one map, by their names, over the
# functions for C and the reference to the map that they all take.
Commands = dict[bytes, Callable[[list[bytes]], bytes]]


def _value_commands(call: dict, ref, codes: tuple[int, int, int]) -> Commands:
    get, put, delete, rank = call["get"], call["put"], call["del"], call["rank"]
    no_memory, replaced, removed = codes
    number, size = c_uint64(), c_size_t()
    number_ref, size_ref = byref(number), byref(size)

    def get_value(words: list[bytes]) -> bytes:
        return b"%d" % number.value if get(ref, int(words[1]), number_ref) else b"none"

    def put_pair(words: list[bytes]) -> bytes:
        code = put(ref, int(words[1]), int(words[2]), number_ref)
        if code == no_memory:
            raise OutOfMemoryError("an allocation failed for a pair")
        return b"old %d" % number.value if code == replaced else b"new"

    def delete_key(words: list[bytes]) -> bytes:
        code = delete(ref, int(words[1]), number_ref)
        if code == no_memory:
            raise OutOfMemoryError("an allocation failed for a removal")
        return b"gone %d" % number.value if code == removed else b"none"

    def rank_of_key(words: list[bytes]) -> bytes:
        is_in = rank(ref, int(words[1]), size_ref)
        return b"in %d" % size.value if is_in else b"out %d" % size.value

    return {b"get": get_value, b"put": put_pair, b"del": delete_key, b"rank": rank_of_key}


def _pair_commands(call: dict, ref, pair) -> Commands:
    """The commands whose reply is one pair, which the functions write to ``pair``."""
    pair_ref = byref(pair)

    def by_number(name: str) -> Callable[[list[bytes]], bytes]:
        function = call[name]
        return lambda words: b"%d %d" % (pair.key, pair.value) if function(ref, int(words[1]), pair_ref) else b"none"

    def at_end(name: str) -> Callable[[list[bytes]], bytes]:
        function = call[name]
        return lambda words: b"%d %d" % (pair.key, pair.value) if function(ref, pair_ref) else b"none"

    return {
        b"at": by_number("at"),
        b"next": by_number("next"),
        b"prev": by_number("prev"),
        b"first": at_end("first"),
        b"last": at_end("last"),
    }


def _list_commands(call: dict, ref, pair) -> Commands:
    """The commands of many pairs, or of all."""
    length = call["len"]

    def pairs(name: str, key: int, count: int) -> bytes:
        """So many pairs from a key on: upward by the function ``range``, downward by ``range_back``."""
        found = array("Q", bytes(16 * count))
        came = call[name](ref, key, found.buffer_info()[0], count)
        numbers = found[: 2 * came].tolist()
        return b",".join(b"%d %d" % it for it in zip(numbers[::2], numbers[1::2])) or b"empty"

    def pairs_at(index: int, count: int) -> bytes:
        """So many pairs from an index on."""
        count = min(count, max(length(ref) - index, 0))
        if count:
            call["at"](ref, index, byref(pair))
        return pairs("range", pair.key, count)

    def pairs_within(words: list[bytes]) -> bytes:
        start, end = int(words[1]), int(words[2])
        return pairs("range", start, call["range_len"](ref, start, end))

    def clear(words: list[bytes]) -> bytes:
        if not call["clear"](ref):
            raise OutOfMemoryError("an allocation failed for an empty map")
        return b"cleared"

    return {
        b"range": pairs_within,
        b"ahead": lambda words: pairs("range", int(words[1]), min(int(words[2]), length(ref))),
        b"behind": lambda words: pairs("range_back", int(words[1]), min(int(words[2]), length(ref))),
        b"from": lambda words: pairs_at(int(words[1]), int(words[2])),
        b"page": lambda words: pairs_at(int(words[1]) * int(words[2]), int(words[2])),
        b"all": lambda words: pairs("range", 0, length(ref)),
        b"back": lambda words: pairs("range_back", GREATEST, length(ref)),
        b"len": lambda words: b"%d" % length(ref),
        b"clear": clear,
    }
