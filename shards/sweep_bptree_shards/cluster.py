"""Shards on the workers of a cluster: which worker has which, messages to them, and what is done when a worker is gone."""

from __future__ import annotations

import asyncio
import json
import os
import shutil
import time
import uuid
from array import array
from collections import Counter
from collections.abc import Iterable, Sequence

from distributed import Client
from distributed.protocol import pickle, to_serialize

from .errors import BrokenError, InUseError, LostError, NotOpenError, NotWrittenError, ShardError
from .host import OP, install, raised
from .log import write_whole
from .redo import Redo
from .shard import KINDS, changes

__all__ = ["Cluster", "Location", "every"]

# How many seconds the client waits for a reply before it checks whether the scheduler still lists the worker.
_LOOK = 0.5
# What a message raises if its worker is gone.
_GONE = (OSError, asyncio.TimeoutError, NotOpenError)


async def every(calls: Iterable) -> None:
    """Waits for all of these calls, and raises what the first one raised that failed."""
    for error in await asyncio.gather(*calls, return_exceptions=True):
        if error is not None:
            raise error


class Location:
    """The worker that has a shard, and what else the client knows of the shard."""

    def __init__(self, name: str, low: int, cancelled: Iterable[tuple[bytes, int]] = (), high: int | None = None):
        self.name = name
        #: the least key that it can have, and of a shard that the table does not have the bound behind it
        self.low, self.high = low, high
        self.length = 0
        #: the number of its last batch
        self.number = 0
        #: the worker that has it, and the number by which that knows it, if it is open
        self.worker = ""
        self.handle: int | None = None
        #: batches that failed while it could not be reached: whichever of them was its last is undone when it is opened
        self.cancelled = list(cancelled)


class Cluster:
    """The shards of a folder. Its methods run in the event loop of the client of Dask, one at a time."""

    #: the redo log has at most so many bytes, and those of one batch
    redo_limit = 1 << 26

    def __init__(self, client: Client, folder: str, sync: bool, patience: float):
        self.client, self.folder, self.sync, self.patience = client, folder, sync, patience
        #: what was done so far: messages to workers, bytes of columns in them and in their replies, and moves
        self.counts = dict.fromkeys(("messages", "bytes out", "bytes in", "splits", "merges", "opened again"), 0)
        self.locations: list[Location] = []
        self._redo: Redo | None = None
        self._me = uuid.uuid4().bytes
        # Why a shard could not be opened, and when a message to a worker failed last.
        self._why = ""
        self._failed: dict[str, float] = {}

    # The table: which shards there are, in a file that is replaced in whole.

    async def open_table(self) -> None:
        path = os.path.join(self.folder, "table")
        if os.path.exists(path):
            try:
                with open(path, encoding="ascii") as it:
                    table = json.load(it)
                self.next = table["next"]
                cancelled = {name: [(bytes.fromhex(who), number) for who, number in them] for name, them in table["cancelled"].items()}
                self.locations = [Location(name, low, cancelled.get(name, ())) for name, low in table["shards"]]
                lows = [location.low for location in self.locations]
                is_right = lows[0] == 0 and lows == sorted(set(lows))
            except (ValueError, LookupError, TypeError, AttributeError):
                is_right = False
            if not is_right:
                raise BrokenError(f"{path} is not as it was written")
        else:
            self.next = 1
            self.locations = [Location("shard-0", 0)]
        self.write_table(self.locations)
        self._remove_others()
        # (those that a client has left open that is gone)
        await self._release(self.folder)
        try:
            self._redo = Redo(self.folder)
        except OSError as error:
            raise NotWrittenError(f"{self.folder} cannot be opened: {error.strerror}") from error
        await self.open(self.locations)
        end = time.monotonic() + self.patience
        # (batches of other clients are not kept: a shard remembers the numbers of a few clients only)
        while self._redo.length:
            error = await self._shorten()
            if error is not None:
                if time.monotonic() > end:
                    raise error
                await asyncio.sleep(0.05)

    def write_table(self, locations: list[Location]) -> None:
        cancelled = {it.name: [(who.hex(), number) for who, number in it.cancelled] for it in locations if it.cancelled}
        table = {"next": self.next, "shards": [(location.name, location.low) for location in locations], "cancelled": cancelled}
        write_whole(os.path.join(self.folder, "table"), [json.dumps(table).encode("ascii")], self.sync)

    def _remove_others(self) -> None:
        """Removes the folders of shards that were not there yet, or not any more, when a move was cut off."""
        known = {location.name for location in self.locations}
        for name in os.listdir(self.folder):
            if name.startswith("shard-") and name not in known:
                shutil.rmtree(os.path.join(self.folder, name), ignore_errors=True)

    def highs(self) -> dict[Location, int | None]:
        """The bound behind each shard of the table."""
        return dict(zip(self.locations, [*(location.low for location in self.locations[1:]), None]))

    def fresh(self, low: int, high: int | None) -> Location:
        """A shard that the table does not have yet."""
        location = Location(f"shard-{self.next}", low, high=high)
        self.next += 1
        return location

    # Messages.

    async def workers(self) -> list[str]:
        return list(await self.client.scheduler.ncores(workers=None))

    async def _reply_of(self, worker: str, call):
        """Waits for the reply of a worker, and returns it. It gives up when the scheduler no longer lists the worker."""
        task = asyncio.ensure_future(call)
        while not task.done():
            await asyncio.wait({task}, timeout=_LOOK)
            # (a call to a worker that is gone can wait for a connection for half a minute)
            if not task.done() and worker not in await self.workers():
                task.cancel()
                raise OSError(f"{worker} is gone")
        return task.result()

    async def send(self, worker: str, what: str, **given) -> dict:
        """Sends a message, and returns its reply or raises the error in it."""
        self.counts["messages"] += 1
        reply = await self._reply_of(worker, getattr(self.client.rpc(worker), OP)(what=what, **given))
        error = raised(reply)
        if error is not None:
            raise error
        return reply

    async def call(self, location: Location, what: str, **given) -> dict:
        """Sends a message to one shard. If its worker is gone, the shard is forgotten."""
        await self.open([location])
        try:
            return await self.send(location.worker, what, handle=location.handle, **given)
        except _GONE as error:
            self.forget(location, error)
            raise LostError(f"{location.name} does not reply: {error}") from error

    async def processes(self) -> list[int]:
        """The number of the process of each shard."""
        found: dict[str, int] = {}
        while True:
            await self.open(self.locations)
            try:
                for location in self.locations:
                    if location.worker not in found:
                        found[location.worker] = (await self.send(location.worker, "process"))["process"]
                return [found[location.worker] for location in self.locations]
            except _GONE as error:
                self.forget(location, error)

    def forget(self, location: Location, error: BaseException | None = None) -> None:
        """The shard is opened again, as the table has it, before it is used."""
        location.handle = None
        if error is not None and not isinstance(error, NotOpenError):
            self._failed[location.worker] = time.monotonic()

    # Shards are opened, those of one worker by one message, and all of them side by side.

    async def open(self, locations: Sequence[Location], beside: Sequence[Location] | None = None) -> None:
        """Opens those of these shards that are not open, each on the worker that has the fewest of them and of those ``beside`` them.

        These are the shards of the table, if none are given.
        """
        began = time.monotonic()
        while closed := [location for location in locations if location.handle is None]:
            waited = time.monotonic() - began
            try:
                there = await self.workers()
            except OSError as error:
                raise LostError(f"the scheduler can't be reached: {error}") from error
            # (one that is gone is known for a moment still)
            now = time.monotonic()
            good = [worker for worker in there if now - self._failed.get(worker, -9) > 1] or (there if waited > 2 else [])
            if waited > self.patience:
                raise LostError(f"there is no worker for {closed[0].name}" if not good else f"{closed[0].name} can't be opened{self._why}")
            loads = Counter(it.worker for it in {*locations, *(self.locations if beside is None else beside)} if it.handle is not None)
            groups: dict[str, list[Location]] = {}
            for location in closed if good else ():
                worker = min(good, key=lambda worker: (loads[worker], worker))
                loads[worker] += 1
                groups.setdefault(worker, []).append(location)
            errors = await asyncio.gather(*(self._open_on(worker, group) for worker, group in groups.items()))
            for error in filter(None, errors):
                raise error
            if any(location.handle is None for location in closed):
                await asyncio.sleep(0.05)

    async def _open_on(self, worker: str, locations: list[Location]) -> ShardError | None:
        """Opens shards on a worker. Those that have to wait for something stay closed."""
        highs = self.highs()
        given = [
            {
                "folder": os.path.join(self.folder, location.name),
                "low": location.low,
                "high": highs.get(location, location.high),
                "sync": self.sync,
                "cancelled": location.cancelled,
            }
            for location in locations
        ]
        try:
            await self._install(worker)
            opened = (await self.send(worker, "open", shards=given))["opened"]
            await self._do_again(worker, locations, opened)
        except _GONE:
            self._failed[worker] = time.monotonic()
            return None
        except ShardError as error:
            return error
        failed = None
        for location, it in zip(locations, opened):
            error = raised(it)
            if error is None:
                self.counts["opened again"] += location.worker != ""
                location.worker, location.handle, location.length, location.cancelled = worker, it["handle"], it["length"], []
            elif isinstance(error, InUseError):
                # (a worker that the scheduler gave up for a while may have it)
                self._why = f": {error}"
                await self._release(os.path.join(self.folder, location.name))
            else:
                failed = error
        return failed

    async def _do_again(self, worker: str, locations: list[Location], opened: list) -> None:
        """Sends shards that were just opened the batches of the redo log that they have not done. A machine may have lost power."""
        names = {location.name: it for location, it in zip(locations, opened) if raised(it) is None}

        def is_missing(name: str, client: str, number: int) -> bool:
            return name in names and number > names[name]["numbers"].get(client, -1)

        missing = self._redo.batches(is_missing) if self._redo.length else ()
        batches = [(names[name]["handle"], client, number, kind, columns) for name, client, number, kind, columns in missing]
        if batches:
            lengths = dict((await self.send(worker, "redo", batches=batches))["lengths"])
            for it in names.values():
                it["length"] = lengths.get(it["handle"], it["length"])

    async def _install(self, worker: str) -> None:
        """Makes a worker ready, which has to have this package."""
        try:
            reply = await self._reply_of(worker, self.client.rpc(worker).run(function=pickle.dumps(install), wait=True))
        except ImportError as error:
            reply = {"status": "error", "exception_text": error}
        if reply["status"] != "OK":
            raise ShardError(f"the worker {worker} can't have shards: {reply['exception_text']}")

    async def _release(self, folder: str) -> None:
        """Has all workers close the shards in a folder."""

        async def release(worker: str) -> None:
            try:
                await self._install(worker)
                await self.send(worker, "release", folder=folder)
            except (*_GONE, ShardError):
                pass

        await asyncio.gather(*(release(worker) for worker in await self.workers()))

    # Batches: one message to each worker, for all of its shards.

    async def batch(self, kind: str, asked: Sequence[tuple[Location, int]], columns: Sequence, **given) -> tuple[list[int], list]:
        """Sends a batch, and returns how much of the reply belongs to each shard, and its columns in pieces, in the same order.

        ``columns`` are those of all shards, one after another, of each so many keys, or bytes of text, as ``asked`` says. If the
        batch fails and changes something, no shard has done it, now or later.
        """
        widths, back = KINDS[kind]
        parts, start = [], 0
        for location, count in asked:
            location.number += 1
            parts.append((location, location.number, start, count))
            start += count
        sizes, pieces, pending = [-1] * len(parts), {}, range(len(parts))
        end = time.monotonic() + self.patience
        is_change = changes(kind, columns)
        if is_change and self.sync and self._redo.length > self.redo_limit:
            await self._shorten()
        lengths = [location.length for location, _ in asked]
        redo_length, is_safe = self._redo.length, None
        try:
            if is_change and self.sync:
                is_safe = self._begin_redo(kind, parts, columns)
            while pending:
                await self.open([parts[at][0] for at in pending])
                groups: dict[str, list[int]] = {}
                for at in pending:
                    groups.setdefault(parts[at][0].worker, []).append(at)
                sent = [self._send_parts(kind, worker, [parts[at] for at in it], columns, widths, given) for worker, it in groups.items()]
                failed = None
                for group, reply in zip(groups.values(), await asyncio.gather(*sent, return_exceptions=True)):
                    if isinstance(reply, _GONE):
                        for at in group:
                            self.forget(parts[at][0], reply)
                        if time.monotonic() > end:
                            failed = LostError(f"{parts[group[0]][0].name} does not reply: {reply}")
                    elif isinstance(reply, BaseException):
                        failed = reply
                    else:
                        self._take_apart(reply, [parts[at][0] for at in group], group, sizes, pieces, back)
                if failed is not None:
                    raise failed
                pending = [at for at in pending if sizes[at] < 0]
            if is_safe is not None:
                await is_safe
        except BaseException:
            if is_change:
                for (location, _), length in zip(asked, lengths):
                    location.length = length
                await self._cancel_redo(is_safe, redo_length, parts)
                await self._cancel(parts)
            raise
        return sizes, [pieces[at] for at in sorted(pieces)]

    async def _send_parts(self, kind: str, worker: str, parts: list, columns: Sequence, widths: tuple, given: dict) -> dict:
        words = array("Q", [word for location, number, _, count in parts for word in (location.handle, number, count)])
        ends = [start + count for _, _, start, count in parts]
        is_one_piece = all(part[2] == end for part, end in zip(parts[1:], ends))
        pieces = []
        for column, width in zip(columns, widths):
            if is_one_piece:
                piece = column[parts[0][2] * width : ends[-1] * width]
            else:
                # (shards of another worker that is gone were between these)
                piece = memoryview(b"".join(column[start * width : (start + count) * width] for _, _, start, count in parts))
            pieces.append(self.raw(piece))
        return await self.send(worker, "batch", parts=words.tobytes(), columns=pieces, kind=kind, client=self._me, **given)

    def raw(self, piece: memoryview):
        """Bytes that a message takes as they are."""
        self.counts["bytes out"] += len(piece)
        return to_serialize(piece)

    def _take_apart(self, reply: dict, locations: list[Location], group: list[int], sizes: list[int], pieces: dict, widths: tuple) -> None:
        columns, words = reply["columns"], array("Q", reply["parts"])
        self.counts["bytes in"] += sum(map(len, columns))
        start = 0
        for location, at, length, count in zip(locations, group, words[::2], words[1::2]):
            location.length, sizes[at] = length, count
            if group[-1] - group[0] >= len(group):
                # (shards of another worker that is gone were between these)
                pieces[at] = [column[start * width : (start + count) * width] for column, width in zip(columns, widths)]
            start += count
        pieces.setdefault(group[0], columns)

    def _begin_redo(self, kind: str, parts: list, columns: Sequence) -> asyncio.Future:
        """Writes a batch to the redo log, in another thread, while the shards carry it out."""
        named = [(location.name, number, count) for location, number, _, count in parts]
        return asyncio.get_running_loop().run_in_executor(None, self._redo.append, self._me, kind, named, columns)

    async def _cancel_redo(self, is_safe: asyncio.Future | None, length: int, parts: list) -> None:
        """Cuts a batch off the redo log."""
        if is_safe is None:
            return
        await asyncio.wait({is_safe})
        # (its error is that of the batch, or comes second)
        is_safe.exception()
        try:
            self._redo.cut_to(length)
        except NotWrittenError:
            # (the table names the batch then, for each of its shards)
            for location, *_ in parts:
                self.forget(location)

    async def _shorten(self) -> ShardError | None:
        """Has all shards bring their logs to the disk, and empties the redo log. If that fails, the redo log stays as it is."""
        try:
            await self.open(self.locations)
            groups: dict[str, list[Location]] = {}
            for location in self.locations:
                groups.setdefault(location.worker, []).append(location)
            sent = (self.send(worker, "to_disk", handles=[location.handle for location in it]) for worker, it in groups.items())
            for group, reply in zip(groups.values(), await asyncio.gather(*sent, return_exceptions=True)):
                if isinstance(reply, _GONE):
                    for location in group:
                        self.forget(location, reply)
                    raise LostError(f"{group[0].name} does not reply: {reply}")
                if isinstance(reply, BaseException):
                    raise reply
            self._redo.cut_to(0)
        except ShardError as error:
            return error
        return None

    async def _cancel(self, parts: list) -> None:
        """Has each shard undo its part of a batch, now, or when it is opened."""
        groups: dict[str, list] = {}
        for location, number, *_ in parts:
            groups.setdefault(location.worker if location.handle is not None else "", []).append((location, number))

        async def cancel(worker: str, group: list) -> bool:
            try:
                if not worker:
                    raise OSError("the shards are not open")
                await self.send(worker, "cancel", client=self._me, batches=[(location.handle, number) for location, number in group])
            except (*_GONE, ShardError) as error:
                for location, number in group:
                    location.cancelled.append((self._me, number))
                    self.forget(location, error if worker else None)
                return False
            return True

        if not all(await asyncio.gather(*(cancel(worker, group) for worker, group in groups.items()))):
            self.write_table(self.locations)

    # Moves: pairs go from worker to worker.

    async def move(self, location: Location, low: int, target: Location, high: int | None) -> None:
        """Sends the pairs of a shard from a key on to another shard, whose keys are below ``high`` then."""
        await self.open([location, target])
        reply = await self.call(location, "move", low=low, address=target.worker, target=target.handle, high=high)
        target.length = reply["length"]

    async def replace(self, locations: list[Location]) -> None:
        """Replaces all shards of the table by others."""
        before = self.locations
        self.write_table(locations)
        self.locations = locations
        await self.drop(before)

    async def drop(self, locations: Sequence[Location]) -> None:
        """Closes shards that the table does not have, and removes their folders."""
        await self.close(locations)
        for location in locations:
            shutil.rmtree(os.path.join(self.folder, location.name), ignore_errors=True)

    def end(self) -> None:
        """Closes the redo log. What it has is used when the folder is opened again."""
        if self._redo is not None:
            self._redo.close()

    async def close(self, locations: Sequence[Location]) -> None:
        groups: dict[str, list[int]] = {}
        for location in locations:
            if location.handle is not None:
                groups.setdefault(location.worker, []).append(location.handle)
                location.handle = None
        sent = (asyncio.wait_for(self.send(worker, "close", handles=handles), self.patience) for worker, handles in groups.items())
        # (a worker that is gone has closed them)
        await asyncio.gather(*sent, return_exceptions=True)
