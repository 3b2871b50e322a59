"""One shard: a map, and its files. The host of a worker process has it."""

from __future__ import annotations

import os
import struct
from array import array
from collections.abc import Iterable, Sequence

from .errors import NotOpenError, NotWrittenError, OutOfMemoryError, ShardError
from .held import Map, address
from .log import Store

__all__ = ["CHANGES", "KINDS", "TEXT", "Shard", "changes"]

# The kinds of batches: lines of the program, all pairs between two keys, and calls for arrays by their names in C. Of each kind, how
# many bytes a key, a pair or a byte of text takes in each column of a message, and in each column of a reply.
TEXT = "text"
KINDS = {
    TEXT: ((1,), (1,)),
    "range": ((), (8, 8)),
    "get": ((8,), (8, 1)),
    "rank": ((8,), (8,)),
    "at": ((8,), (8, 8, 1)),
    "put": ((8, 8), ()),
    "del": ((8,), (1,)),
}
CHANGES = ("put", "del")
# How a line begins that changes something.
_LINES = b"put ", b"del ", b"clear\n"
# A record of the log: the client, the number of its batch, the kind, and the lines or the columns.
_HEAD = struct.Struct("<16sQQ")
_RECORDS = (TEXT, *CHANGES)
# So many clients are remembered, those that wrote last.
_CLIENTS = 16
# A piece of a snapshot has so many pairs.
_PIECE = 1 << 20


def changes(kind: str, columns: Sequence) -> bool:
    """Whether a batch changes something."""
    if kind != TEXT:
        return kind in CHANGES
    text = bytes(columns[0])
    return text.startswith(_LINES) or any(b"\n" + it in text for it in _LINES)


class Shard:
    """The pairs with a key from ``low`` on and below ``high``, in a folder. It does one batch at a time.

    A batch that changes something is written to the log before the shard replies. The log reaches the disk later: see ``redo.py``.
    The shard keeps its last reply to each client. If the reply was lost and the client sends the batch again, the shard returns that
    reply, and does not carry out the batch again. The snapshot that makes the log short is taken before the next batch. So the last
    batch can be cancelled, by cutting it off the log. ``cancelled`` has such batches.
    """

    def __init__(
        self,
        folder: str,
        low: int = 0,
        high: int | None = None,
        sync: bool = True,
        cancelled: Iterable[tuple[bytes, int]] = (),
        log_limit: int = 1 << 22,
    ):
        self.folder = os.path.abspath(folder)
        self.low, self.high, self._log_limit = low, high, log_limit
        self._map: Map | None = None
        # The last record of the log: its client, the number of its batch, and the offset of its first byte.
        self._last: tuple[bytes, int, int] | None = None
        self._cancelled: dict[bytes, int] = {}
        self._store = Store(self.folder, sync)
        try:
            self._read()
            for client, number in cancelled:
                self.cancel(client, number)
            self._load()
        except BaseException:
            self.close()
            raise

    def _read(self) -> None:
        self._store.read()
        records = self._store.log.records
        self._last = (*_HEAD.unpack_from(records[-1][1])[:2], records[-1][0]) if records else None

    def _load(self) -> None:
        """Does again what the snapshot and the log contain."""
        self._replies: dict[bytes, tuple[int, bytes]] = {}
        held = Map()
        for piece in self._store.pieces:
            if piece[:1] == b"p":
                half = len(piece) // 2
                held.put_many(piece[8 : half + 4], piece[half + 4 :])
            else:
                client, number, _ = _HEAD.unpack_from(piece, 8)
                self._remember(client, number, bytes(piece[8 + _HEAD.size :]))
        records = self._store.log.records
        for start, record in records:
            if start == records[-1][0]:
                # (a move may have cut the shard, and found no room to write that)
                self._keep(held)
            client, number, kind = _HEAD.unpack_from(record)
            data = record[_HEAD.size :]
            half = len(data) // 2
            columns = [data[:half], data[half:]] if _RECORDS[kind] == "put" else [data]
            self._remember(client, number, self._done(held, _RECORDS[kind], columns))
        self._keep(held)
        self._map = held
        self._store.pieces = self._store.log.records = []

    def _held(self) -> Map:
        """The map, which is read from the files again if it was given up."""
        if self._store is None:
            raise NotOpenError(f"{self.folder} was closed")
        if self._map is None:
            self._read()
            self._load()
        return self._map

    def _give_up(self) -> None:
        if self._map is not None:
            self._map.close()
            self._map = None

    def _keep(self, held: Map) -> None:
        """Removes the pairs that are not its own: a move was cut off before or after they were written."""
        start = held.rank(self.low)
        end = len(held) if self.high is None else held.rank(self.high)
        if (start, end) != (0, len(held)):
            held.keep(start, max(start, end))

    def _done(self, held: Map, kind: str, columns: Sequence) -> bytes:
        """Carries out a batch that changes something, and returns its reply."""
        if kind == TEXT:
            return held.execute(bytes(columns[0]))
        count = len(columns[0]) // 8
        if not count:
            return b""
        given = [address(column) for column in columns]
        if kind == "put":
            held.many(kind, count, [at for at, _ in given])
            return b""
        reply = array("B", bytes(count))
        held.many(kind, count, [given[0][0], reply.buffer_info()[0]])
        return reply.tobytes()

    def _remember(self, client: bytes, number: int, reply: bytes) -> None:
        # (the one that wrote last is last)
        self._replies.pop(client, None)
        self._replies[client] = number, reply
        if len(self._replies) > _CLIENTS:
            del self._replies[next(iter(self._replies))]

    def _snapshot(self) -> None:
        keys, values = map(memoryview, self._held().copy())
        pieces = [
            [b"p" + bytes(7), keys[at : at + _PIECE].cast("B"), values[at : at + _PIECE].cast("B")] for at in range(0, len(keys), _PIECE)
        ]
        pieces += [[b"c" + bytes(7), _HEAD.pack(client, number, 0), said] for client, (number, said) in self._replies.items()]
        self._store.snapshot(pieces)
        self._last = None

    # Batches.

    def __len__(self) -> int:
        return len(self._held())

    def read(self, kind: str, count: int, arrays: list[int]) -> None:
        """Calls a function for arrays that changes nothing: their addresses are those of the keys, and of the columns of the reply."""
        self._held().many(kind, count, arrays)

    def lines(self, text: bytes) -> bytes:
        """Carries out lines that change nothing, and returns their replies."""
        return self._held().execute(text)

    def begin(self, client: bytes, number: int, kind: str, columns: Sequence) -> bytes | None:
        """Writes a batch that changes something to the log. If the batch was done before, returns its reply. A client's numbers ascend."""
        self._held()
        last, said = self._replies.get(client, (-1, b""))
        if number == last:
            return said
        if number < last or number <= self._cancelled.get(client, -1):
            raise ShardError(f"batch {number} is older than one that was done or cancelled")
        log = self._store.log
        if log.length > max(self._log_limit, 2 * self._store.snapshot_length):
            try:
                self._snapshot()
            except (NotWrittenError, MemoryError):
                # (the log has it all; it is tried again before the next batch)
                pass
            log = self._store.log
        start = log.length
        log.append(_HEAD.pack(client, number, _RECORDS.index(kind)), *columns)
        self._last = client, number, start
        return None

    def to_disk(self) -> None:
        """Waits until the log is on the disk."""
        if self._store is None:
            raise NotOpenError(f"{self.folder} was closed")
        self._store.log.to_disk()

    def numbers(self) -> dict[str, int]:
        """The number of the last batch of each client, by the name of the client in hexadecimal digits."""
        return {client.hex(): number for client, (number, _) in self._replies.items()}

    def redo(self, client: bytes, number: int, kind: str, columns: Sequence) -> None:
        """Carries out a batch that the log may have lost with its machine, unless the batch was done or cancelled."""
        last = max(self._replies.get(client, (-1, b""))[0], self._cancelled.get(client, -1))
        if number > last and changes(kind, columns):
            self.begin(client, number, kind, columns)
            self.finish(client, number, kind, columns)
            # (a part of its keys may have been moved to another shard since)
            self._keep(self._held())

    def finish(self, client: bytes, number: int, kind: str, columns: Sequence) -> bytes:
        """Carries out a batch that is in the log, and returns its reply. If that fails, the batch is cancelled."""
        held = self._held()
        try:
            reply = self._done(held, kind, columns)
        except BaseException:
            # (the call for an array does all or nothing)
            self.cancel(client, number, is_done=kind == TEXT)
            raise
        self._remember(client, number, reply)
        return reply

    def cancel(self, client: bytes, number: int, is_done: bool = True) -> None:
        """Undoes the last batch, if it is this one of a client, in the files too. It is never done later."""
        if self._store is None:
            raise NotOpenError(f"{self.folder} was closed")
        self._cancelled[client] = max(number, self._cancelled.get(client, -1))
        if self._last is not None and self._last[:2] == (client, number):
            if is_done:
                self._give_up()
            try:
                self._store.log.cut_to(self._last[2])
            except NotWrittenError:
                # (it is cut off when the client has it opened again)
                self.close()
                raise
            self._store.log.records = self._store.log.records[:-1]
            self._last = None

    # Moves.

    def middle(self) -> int:
        """The key in the middle. There is a pair."""
        held = self._held()
        return held.key_at(len(held) // 2)

    def pairs(self, low: int = 0, high: int | None = None) -> tuple[array, array]:
        """The keys and the values of the pairs with a key from ``low`` on and below ``high``."""
        held = self._held()
        return held.copy(held.rank(low), len(held) if high is None else held.rank(high))

    def take(self, high: int | None, keys, values) -> None:
        """Adds pairs, after which its keys are below ``high``. If that fails it is as before."""
        held, before = self._held(), self.high
        self.high = high
        try:
            held.put_many(keys, values)
            self._snapshot()
        except BaseException:
            self.high = before
            self._give_up()
            raise

    def cut(self, high: int) -> None:
        """Removes the pairs from a key on. The table has said before that they are not its own."""
        self.high = high
        try:
            self._keep(self._held())
            self._snapshot()
        except NotWrittenError:
            # (the pairs that are still on the disk are removed when it is opened)
            pass
        except (OutOfMemoryError, MemoryError):
            self._give_up()

    def close(self) -> None:
        """Closes the files and releases the lock of the folder. Every batch that the shard replied to is stored."""
        if self._store is not None:
            self._store.close()
            self._store = None
        self._give_up()
