"""The shards of one worker process, and the messages that clients send to it.

A message has raw columns for all shards of a batch, one after another, and for each shard three words: its handle, the number of the
batch, and how many keys, or bytes of text, are its own. A reply has two words for each shard, its length and how much of the columns
is its own, and raw columns.
"""

from __future__ import annotations

import asyncio
import os
from array import array
from concurrent.futures import ThreadPoolExecutor

from distributed.protocol import to_serialize

from . import errors
from .errors import NotOpenError, OutOfMemoryError, ShardError
from .held import address
from .shard import CHANGES, KINDS, TEXT, Shard, changes

__all__ = ["OP", "install", "raised", "reply_of"]

#: the name of the handler in a worker
OP = "sweep_bptree"


def install(dask_worker) -> None:
    """Makes a worker ready for messages to shards."""
    if OP not in dask_worker.handlers:
        dask_worker.handlers[OP] = Host(dask_worker).serve


def raised(reply: dict) -> ShardError | None:
    """The error of a reply, if it is one."""
    name = reply.get("error")
    return None if name is None else getattr(errors, name, ShardError)(reply["text"])


def reply_of(parts: list[int], columns: list) -> dict:
    return {"parts": array("Q", parts).tobytes(), "columns": [to_serialize(memoryview(it).cast("B")) for it in columns]}


class Host:
    """The shards of one worker."""

    def __init__(self, worker):
        self._worker = worker
        self._shards: dict[int, Shard] = {}
        # One thread, so that a shard does one thing at a time.
        self._thread = ThreadPoolExecutor(1, "shards")

    async def serve(self, what: str = "", parts: bytes = b"", columns=(), **given) -> dict:
        """Handles a message, and returns the reply. If an error was raised, the reply has its name and its text."""
        try:
            if what == "move":
                return await self._move(**given)
            if what == "batch":
                return await self._called(self._batch, array("Q", parts), list(columns), **given)
            return await self._called(getattr(self, "_" + what), **given)
        except ShardError as error:
            return {"error": type(error).__name__, "text": str(error)}
        except MemoryError:
            return {"error": OutOfMemoryError.__name__, "text": "an allocation failed in a worker"}
        except Exception as error:
            # (a thread that can't be started, say)
            return {"error": ShardError.__name__, "text": f"a worker failed: {error!r}"}

    async def _called(self, function, *arguments, **named):
        return await asyncio.get_running_loop().run_in_executor(self._thread, lambda: function(*arguments, **named))

    def _shard(self, handle: int) -> Shard:
        try:
            return self._shards[handle]
        except KeyError:
            raise NotOpenError("the worker does not have the shard") from None

    # Shards.

    def _open(self, shards: list) -> dict:
        """Opens shards: of each the handle and the length, or its error."""
        opened = []
        for given in shards:
            self._release(given["folder"])
            try:
                shard = Shard(**given)
            except (ShardError, MemoryError) as error:
                name = type(error).__name__ if isinstance(error, ShardError) else OutOfMemoryError.__name__
                opened.append({"error": name, "text": str(error)})
                continue
            handle = int.from_bytes(os.urandom(7), "little")
            self._shards[handle] = shard
            opened.append({"handle": handle, "length": len(shard), "numbers": shard.numbers()})
        return {"opened": opened}

    def _release(self, folder: str) -> dict:
        """Closes the shard in a folder, or those in folders of this folder."""
        folder = os.path.abspath(folder)
        for handle, shard in list(self._shards.items()):
            if shard.folder == folder or os.path.dirname(shard.folder) == folder:
                self._shards.pop(handle).close()
        return {}

    def _close(self, handles: list) -> dict:
        for handle in handles:
            if handle in self._shards:
                self._shards.pop(handle).close()
        return {}

    def _process(self) -> dict:
        return {"process": os.getpid()}

    # Batches.

    def _batch(self, parts: array, columns: list, kind: str, client: bytes, low: int = 0, high: int | None = None) -> dict:
        shards = [self._shard(handle) for handle in parts[::3]]
        sizes = parts[2::3]
        widths = KINDS[kind][0]
        if kind == "range":
            return self._range(shards, low, high)
        if kind not in (TEXT, *CHANGES):
            return self._read(kind, shards, sizes, columns)
        batches = list(zip(shards, parts[1::3], _split(columns, widths, sizes)))
        is_change = [changes(kind, piece) for _, _, piece in batches]
        try:
            done = [shard.begin(client, number, kind, piece) if it else None for it, (shard, number, piece) in zip(is_change, batches)]
            for at, (shard, number, piece) in enumerate(batches):
                if done[at] is None:
                    done[at] = shard.finish(client, number, kind, piece) if is_change[at] else shard.lines(bytes(piece[0]))
        except BaseException:
            # (the client has the other workers cancel theirs)
            for shard, number, _ in batches:
                shard.cancel(client, number)
            raise
        return self._reply_to_changes(shards, done)

    def _reply_to_changes(self, shards: list[Shard], said: list[bytes]) -> dict:
        return reply_of([word for shard, it in zip(shards, said) for word in (len(shard), len(it))], [b"".join(said)])

    def _read(self, kind: str, shards: list[Shard], sizes: array, columns: list) -> dict:
        widths = KINDS[kind][1]
        total = sum(sizes)
        found = [array("Q" if width == 8 else "B", bytes(width * total)) for width in widths]
        if total:
            at, keys = address(columns[0])
            arrays = [(at, 8), *((it.buffer_info()[0], width) for it, width in zip(found, widths))]
            start = 0
            for shard, size in zip(shards, sizes):
                if size:
                    shard.read(kind, size, [at + width * start for at, width in arrays])
                start += size
            del keys
        return reply_of([word for shard, size in zip(shards, sizes) for word in (len(shard), size)], found)

    def _redo(self, batches: list) -> dict:
        """Has shards carry out batches that they have not done, and returns how many pairs each of them has then."""
        for handle, *batch in batches:
            self._shard(handle).redo(*batch)
        return {"lengths": [(handle, len(self._shard(handle))) for handle in {handle for handle, *_ in batches}]}

    def _to_disk(self, handles: list) -> dict:
        """Brings the logs of shards to the disk."""
        for handle in handles:
            self._shard(handle).to_disk()
        return {}

    def _cancel(self, client: bytes, batches: list) -> dict:
        for handle, number in batches:
            self._shard(handle).cancel(client, number)
        return {}

    def _range(self, shards: list[Shard], low: int, high: int | None) -> dict:
        found = [shard.pairs(low, high) for shard in shards]
        columns = [pair[0] for pair in found], [pair[1] for pair in found]
        sizes = [word for shard, pair in zip(shards, found) for word in (len(shard), len(pair[0]))]
        return reply_of(sizes, [b"".join(column) if len(column) != 1 else column[0] for column in columns])

    def copied(self, handle: int) -> tuple[array, array]:
        """All keys and values of a shard, for a task of this worker."""
        return self._thread.submit(lambda: self._shard(handle).pairs()).result()

    # Moves.

    def _take(self, handle: int, high: int | None, keys=b"", values=b"") -> dict:
        shard = self._shard(handle)
        shard.take(high, keys, values)
        return {"length": len(shard)}

    def _middle(self, handle: int) -> dict:
        return {"bound": self._shard(handle).middle()}

    async def _move(self, handle: int, low: int, address: str, target: int, high: int | None) -> dict:
        """Sends the pairs of a shard from a key on to another shard, on the worker of an address."""
        keys, values = await self._called(lambda: self._shard(handle).pairs(low))
        given = {"what": "take", "handle": target, "high": high}
        if address == self._worker.address:
            return await self.serve(**given, keys=keys, values=values)
        columns = {"keys": to_serialize(memoryview(keys).cast("B")), "values": to_serialize(memoryview(values).cast("B"))}
        try:
            return await getattr(self._worker.rpc(address), OP)(**given, **columns)
        except OSError as error:
            raise ShardError(f"the worker {address} can't be reached from {self._worker.address}: {error}") from error

    def _cut(self, handle: int, high: int) -> dict:
        shard = self._shard(handle)
        shard.cut(high)
        return {"length": len(shard)}


def _split(columns: list, widths: tuple, sizes: array) -> list[list[memoryview]]:
    """The columns of each shard."""
    views = [memoryview(column).cast("B") if len(column) else memoryview(b"") for column in columns]
    pieces, start = [], 0
    for size in sizes:
        pieces.append([view[width * start : width * (start + size)] for view, width in zip(views, widths)])
        start += size
    return pieces
