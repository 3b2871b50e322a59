"""The trials of the shards: prints 'N passed, M failed', with ', K skipped' if K is not 0, and what failed. tools/shards runs them.

    trials.py PROGRAM [LINES [KEYS]]    PROGRAM is the program bptree; the long runs take LINES (1,000,000) and KEYS (1,000,000)

test_trials.py has the same trials for pytest.
"""

from __future__ import annotations

import asyncio
import ctypes
import itertools
import logging
import os
import random
import resource
import shutil
import signal
import subprocess
import sys
import tempfile
import threading
import time
import traceback
from array import array
from bisect import bisect_left, bisect_right

import drawn
import model
import numpy
from distributed import Client
from distributed.protocol import pickle
from sweep_bptree_shards import (
    BatchError,
    BrokenError,
    NotWrittenError,
    OutOfMemoryError,
    ShardError,
    Shards,
    local_client,
    routing,
)
from sweep_bptree_shards.cluster import Cluster
from sweep_bptree_shards.errors import NotOpenError
from sweep_bptree_shards.host import Host, raised
from sweep_bptree_shards.lines import request
from sweep_bptree_shards.log import Log, Store

GIVEN = sys.argv[1:] if __name__ == "__main__" else []
PROGRAM = GIVEN[0] if GIVEN else os.environ.get("SWEEP_BPTREE_PROGRAM", "")
NUMBERS = [int(it) for it in GIVEN[1:] if it.isdigit()]
LINES = NUMBERS[0] if NUMBERS else 1_000_000
KEYS = NUMBERS[1] if len(NUMBERS) > 1 else 1_000_000
GREATEST = drawn.GREATEST
# Cases of the proved functions of shards. tools/random-calls compares the proved functions with the same cases.
CASES = os.path.join(os.path.dirname(os.path.abspath(__file__)), "..", "..", "trials", "routes")
passed = failed = skipped = 0


def same(name: str, wanted, came) -> None:
    global passed, failed
    if wanted == came:
        passed += 1
    else:
        failed += 1
        print(f"shards: {name}: {came!r:.300} in place of {wanted!r:.300}", file=sys.stderr)


def skip(name: str, why: str, may_fail: bool = True) -> None:
    """Counts what cannot be run here. It fails with CI set in the environment, unless it is a permission that is missing, and no tool."""
    global failed, skipped
    if may_fail and os.environ.get("CI"):
        failed += 1
        print(f"shards: {name}: {why}", file=sys.stderr)
    else:
        skipped += 1
        print(f"shards: skipped: {name}: {why}", file=sys.stderr)


def raises(name: str, error: type, words: str, call, *arguments):
    try:
        came = call(*arguments)
    except error as found:
        same(f"{name}, what it says", True, words in str(found) or str(found))
        return found
    same(name, error.__name__, came)
    return None


def trial(*functions) -> None:
    """Runs trials. One that ends in an error has failed."""
    global failed
    for function in functions:
        began = time.monotonic()
        try:
            function()
        except Exception:
            failed += 1
            print(f"shards: {function.__name__} ended in an error:", file=sys.stderr)
            traceback.print_exc()
        print(f"{function.__name__}: {time.monotonic() - began:.1f} s", flush=True)


def by_program(lines: list[bytes]) -> list[bytes]:
    """The replies of the program, in one process."""
    return model.by_program(PROGRAM, lines)


def same_replies(name: str, lines: list[bytes], wanted: list[bytes], came: list[bytes]) -> None:
    """Compares the bytes of all replies, and reports the first that differs."""
    is_same = b"\n".join(wanted) == b"\n".join(came)
    at = next((at for at, it in enumerate(zip(wanted, came)) if it[0] != it[1]), min(len(wanted), len(came)))
    first = None if is_same or at >= min(len(wanted), len(came)) else (at, lines[at], wanted[at][:80], came[at][:80])
    same(f"{name}, the number of replies", len(wanted), len(came))
    same(f"{name}, the first line whose reply differs", (True, None), (is_same, first))


def puts(keys, value: int = 7) -> list[bytes]:
    return [b"put %d %d" % (key, value) for key in keys]


# Routing.


def table_of_routes() -> None:
    # (bounds, key, shard): each by hand
    for bounds, key, shard in [
        ([], 0, 0),
        ([], GREATEST, 0),
        ([10], 9, 0),
        ([10], 10, 1),
        ([10], 11, 1),
        ([10, 20], 0, 0),
        ([10, 20], 19, 1),
        ([10, 20], 20, 2),
        ([10, 20], GREATEST, 2),
        ([10, 11, 12], 11, 2),
        ([1], 0, 0),
        ([GREATEST], GREATEST, 1),
        ([GREATEST], GREATEST - 1, 0),
    ]:
        same(f"route {bounds} {key}", shard, routing.route(bounds, key))
    for bounds, start, end, found in [
        ([10, 20], 0, 10, [0]),
        ([10, 20], 0, 11, [0, 1]),
        ([10, 20], 10, 20, [1]),
        ([10, 20], 9, 21, [0, 1, 2]),
        ([10, 20], 30, 5, []),
        ([], 0, GREATEST, [0]),
    ]:
        low, high = routing.route_range(bounds, start, end)
        same(f"route_range {bounds} {start} {end}", found, list(range(low, high + 1)))
    for bounds, key, shard in [([10, 20], 10, 0), ([10, 20], 11, 1), ([10, 20], 20, 1), ([10, 20], 0, 0), ([], GREATEST, 0)]:
        same(f"route_below {bounds} {key}", shard, routing.route_below(bounds, key))
    same("route_range without ends", (0, 2), routing.route_range([10, 20], None, None))


def table_of_indexes() -> None:
    # (lengths, index in the whole, shard and index in it)
    for lengths, index, found in [
        ([], 0, None),
        ([0], 0, None),
        ([3], 2, (0, 2)),
        ([3], 3, None),
        ([2, 0, 3], 1, (0, 1)),
        ([2, 0, 3], 2, (2, 0)),
        ([0, 0, 1], 0, (2, 0)),
        ([2, 0, 3], 4, (2, 2)),
        ([2, 0, 3], 5, None),
    ]:
        same(f"locate {lengths} {index}", found, routing.locate(lengths, index))
    # (lengths, index in the whole, count, parts)
    for lengths, index, count, found in [
        ([3, 3], 0, 0, []),
        ([3, 3], 2, 2, [(0, 2, 1), (1, 0, 1)]),
        ([3, 0, 3], 0, 9, [(0, 0, 3), (2, 0, 3)]),
        ([3, 0, 3], 3, 1, [(2, 0, 1)]),
        ([3, 3], 6, 5, []),
        ([0, 0], 0, 5, []),
    ]:
        same(f"parts {lengths} {index} {count}", found, [tuple(part) for part in routing.parts(lengths, index, count)])
    for least, most, found in [
        ([1, 1], [1, 1], [0]),
        ([0, 1], [0, 1], [1]),
        ([0, 1], [1, 1], [0, 1]),
        ([0, 0, 2, 5], [3, 0, 2, 5], [0, 2]),
        ([0, 0], [0, 0], []),
    ]:
        same(f"till_full {least} {most}", found, routing.till_full(range(len(least)), least, most))
    same("ends of full shards", (1, 3), (routing.first_full([0, 2, 0, 1, 0]), routing.last_full([0, 2, 0, 1, 0])))
    same("no full shard", (None, None), (routing.first_full([0, 0]), routing.last_full([])))


def routes_beside_a_list() -> None:
    """The functions over drawn shards, beside the whole list."""
    draw = random.Random(3)
    wrong = 0
    for _ in range(3000):
        keys = sorted(draw.sample(range(40), draw.randrange(20)))
        bounds = sorted(draw.sample(range(1, 40), draw.randrange(6)))
        edges = [0, *bounds, 1000]
        shards = [[key for key in keys if low <= key < high] for low, high in zip(edges, edges[1:])]
        lengths = [len(it) for it in shards]
        key, index, count, end = draw.randrange(41), draw.randrange(25), draw.randrange(9), draw.randrange(41)
        shard = routing.route(bounds, key)
        found = routing.locate(lengths, index)
        own = [it for it in shards[shard] if it > key] or [it for it in shards[shard + 1 :] if it][:1]
        after, before = routing.next_full(lengths, shard), routing.prev_full(lengths, shard)
        page = [shards[part.shard][part.start + at] for part in routing.parts(lengths, index, count) for at in range(part.count)]
        low, high = routing.route_range(bounds, key, end)
        within = [it for it in itertools.chain(*shards[low : high + 1]) if key <= it < end]
        lower = routing.route_below(bounds, key)
        smaller = [it for it in shards[lower] if it < key] or [it for it in shards[:lower] if it][-1:]
        wrong += (
            not edges[shard] <= key < edges[shard + 1]
            or routing.rank_of_whole(lengths, shard, bisect_left(shards[shard], key)) != bisect_left(keys, key)
            or (None if found is None else shards[found[0]][found[1]]) != (keys[index] if index < len(keys) else None)
            or bool(own) != (bisect_right(keys, key) < len(keys))
            or bool(smaller) != (bisect_left(keys, key) > 0)
            or (lower > 0 and edges[lower] >= key)
            or any(edges[it] >= end or edges[it + 1] <= key for it in range(low, high + 1))
            and key < end
            or (None if after is None else shards[after][0]) != next((it for it in keys if it >= edges[shard + 1]), None)
            or (None if before is None else shards[before][-1]) != next((it for it in reversed(keys) if it < edges[shard]), None)
            or page != keys[index : index + count]
            or within != [it for it in keys if key <= it < end]
            or routing.len_of_whole(lengths) != len(keys)
        )
    same("drawn shards with other results than the whole list", 0, wrong)


def routes_beside_the_proved() -> None:
    """The cases of a file. A program of the gate calls the proved functions with them, and its output is compared with that file.

    A line is 'NAME ARGUMENT .. = RESULT'. An argument is a number, ``none``, or a list of numbers separated by commas, and ``-`` is
    the empty list. The first argument is always a list. A result is a number, ``none``, or numbers separated by commas. Parts are
    separated by spaces, and ``-`` means no parts.
    """

    def read(word: str) -> int | None:
        return None if word == "none" else int(word)

    def say(it) -> str:
        if isinstance(it, list):
            return " ".join(map(say, it)) or "-"
        return "none" if it is None else ",".join(map(str, it)) if isinstance(it, tuple) else str(it)

    with open(CASES, encoding="utf-8") as it:
        lines = [line for line in it.read().splitlines() if " = " in line]
    for line in lines:
        asked, _, wanted = line.partition(" = ")
        name, first, *others = asked.split()
        numbers = [] if first == "-" else [int(it) for it in first.split(",")]
        same(line, wanted, say(getattr(routing, name)(numbers, *map(read, others))))
    same("cases of the proved functions, some", True, len(lines) > 0)


# Logs and folders.


def read(log: Log) -> list[bytes]:
    return [bytes(record) for _, record in log.records]


def logs(folder: str) -> None:
    path = os.path.join(folder, "log")
    records = [b"first", b"", b"x" * 1000, b"the last"]
    log = Log(path)
    for record in records:
        log.append(record)
    log.close()
    with open(path, "rb") as it:
        whole = it.read()
    log = Log(path)
    same("a log that is read again", (records, 0), (read(log), log.cut))
    log.close()
    # Torn at each byte of the last record.
    wrong = 0
    begin = len(whole) - 8 - len(records[-1])
    for end in range(begin, len(whole)):
        with open(path, "wb") as it:
            it.write(whole[:end])
        log = Log(path)
        log.append(b"after the tear")
        log.close()
        log = Log(path)
        wrong += read(log) != [*records[:-1], b"after the tear"] or log.cut != 0
        log.close()
    same("tears that are not cut off", 0, wrong)
    # Each bit of the last record, turned.
    wrong = 0
    for at in range(begin, len(whole)):
        for bit in range(8):
            with open(path, "wb") as it:
                it.write(whole[:at] + bytes([whole[at] ^ 1 << bit]) + whole[at + 1 :])
            log = Log(path)
            wrong += read(log) != records[:-1] or os.path.getsize(path) != begin
            log.close()
    same("turned bits that are taken", 0, wrong)
    # Zeros behind the end, as a crash of the machine can leave them.
    with open(path, "wb") as it:
        it.write(whole + bytes(5000))
    log = Log(path)
    same("zeros behind the end", (records, 5000), (read(log), log.cut))
    # A record that is cut off, with no room on the disk.
    log.cut_to(log.records[-1][0])
    log.append(b"in its place")
    log.close()
    log = Log(path)
    same("a record that was cut off", [*records[:-1], b"in its place"], read(log))
    log.close()
    # With sync a record is on the disk once flush has returned.
    synced, earlier = [], os.fdatasync
    os.fdatasync = synced.append
    try:
        for sync in (True, False):
            log = Log(path, sync)
            log.append(b"more")
            log.flush()
            log.close()
    finally:
        os.fdatasync = earlier
    same("how often a log with sync and one without wait for the disk", 1, len(synced))


def stores(folder: str) -> None:
    store = Store(folder)
    store.read()
    store.log.append(b"one")
    store.snapshot([[b"piece ", b"1"], [b"piece 2"]])
    store.log.append(b"two")
    raises("a folder that is in use", ShardError, "is in use by another process", Store, folder, True, 0.1)
    store.close()
    # What a snapshot that was cut off leaves: a file beside, and the log that was to follow.
    for name, data in [("snapshot.new", b"half"), ("log-2", b""), ("log-0", b"old")]:
        with open(os.path.join(folder, name), "wb") as it:
            it.write(data)
    store = Store(folder)
    store.read()
    same("a store that is opened again", ([b"piece 1", b"piece 2"], [b"two"]), (store.pieces, read(store.log)))
    same("its files", ["lock", "log-1", "snapshot"], sorted(os.listdir(folder)))
    store.close()
    with open(os.path.join(folder, "snapshot"), "r+b") as it:
        it.seek(20)
        it.write(b"?")
    store = Store(folder)
    raises("a snapshot that another has written to", BrokenError, "is not as it was written", store.read)
    store.close()


def full_disks(folder: str) -> None:
    """A log where writing fails, by a limit on the size of files, in a process of its own."""
    done = subprocess.run(
        [sys.executable, os.path.abspath(__file__), PROGRAM, "full", folder], stdout=subprocess.PIPE, timeout=120, check=False
    )
    same("a limit on the size of files", (0, b"ok\n"), (done.returncode, done.stdout))
    # And on a small file system, where this user may have one.
    words = ["unshare", "-rm", "sh", "-c", 'mount -t tmpfs -o size=64k tmpfs "$1" && shift && exec "$@"', "sh", folder]
    try:
        may = subprocess.run([*words, "true"], stderr=subprocess.DEVNULL, check=False).returncode == 0
    except OSError:
        may = False
    if may:
        words += [sys.executable, os.path.abspath(__file__), PROGRAM, "small", folder]
        done = subprocess.run(words, stdout=subprocess.PIPE, timeout=120, check=False)
        same("a small file system", (0, b"ok\n"), (done.returncode, done.stdout))
    else:
        skip("a small file system", "this user cannot mount one", may_fail=False)


class Alone:
    """A shard, or some, in this process, by the messages that a worker takes."""

    def __init__(self, *folders: str, cuts: list[int] | None = None, **given):
        self.host = Host(None)
        lows = [0, *(cuts or [])]
        shards = [
            {"folder": folder, "low": low, "high": high, "sync": False, **given}
            for folder, low, high in zip(folders, lows, [*lows[1:], given.pop("high", None)])
        ]
        self.handles, self.lengths = [], []
        for opened in self.host._open(shards)["opened"]:
            error = raised(opened)
            if error is not None:
                self.close()
                raise error
            self.handles.append(opened["handle"])
            self.lengths.append(opened["length"])

    def batch(self, kind: str, number: int, sizes: list[int], *columns: bytes) -> list[bytes]:
        """Carries out a batch, and returns the columns of the reply."""
        parts = array("Q", [word for handle, size in zip(self.handles, sizes) for word in (handle, number, size)])
        said = self.host._batch(parts, [memoryview(bytearray(column)) for column in columns], kind, b"x" * 16)
        self.lengths = array("Q", said["parts"])[::2].tolist()
        return [bytes(column.data) for column in said["columns"]]

    def execute(self, number: int, text: bytes) -> tuple[int, bytes]:
        """Carries out lines in the first shard. Returns how many pairs it has then, and the replies."""
        (said,) = self.batch("text", number, [len(text)], text)
        return self.lengths[0], said

    def shard(self, at: int = 0):
        return self.host._shards[self.handles[at]]

    def pairs(self) -> list[tuple[int, int]]:
        found = [self.host._shards[handle].pairs() for handle in self.handles]
        return [pair for keys, values in found for pair in zip(keys, values)]

    def close(self) -> None:
        self.host._close(self.handles)


def raw(numbers) -> bytes:
    return array("Q", numbers).tobytes()


def fill(folder: str, is_limited: bool) -> None:
    """Puts until the log takes no more. In a process of its own: prints ok if nothing is wrong."""
    if is_limited:
        resource.setrlimit(resource.RLIMIT_FSIZE, (20_000, resource.RLIM_INFINITY))
    shard = Alone(folder)
    number, kept = 0, 0
    while True:
        text = b"".join(b"put %d %d\n" % (key, key) for key in range(kept, kept + 50)) + b"len\n"
        number += 1
        try:
            length, said = shard.execute(number, text)
        except NotWrittenError as error:
            assert "cannot be written: " in str(error), error
            break
        kept += 50
        assert (length, said) == (kept, b"new\n" * 50 + b"%d\n" % kept)
    assert kept > 50
    # What failed was not done, for lines and for arrays, and reading goes on.
    for kind, columns in (("put", [raw(range(2000)), raw(range(2000))]), ("del", [raw(range(2000))])):
        number += 1
        try:
            shard.batch(kind, number, [2000], *columns)
            raise AssertionError("there was room")
        except NotWrittenError as error:
            assert "cannot be written: " in str(error), error
    assert shard.execute(number + 1, b"len\nlast\n") == (kept, b"%d\n%d %d\n" % (kept, kept - 1, kept - 1))
    if is_limited:
        resource.setrlimit(resource.RLIMIT_FSIZE, (resource.RLIM_INFINITY, resource.RLIM_INFINITY))
        assert shard.execute(number + 2, b"put 7 1\nlen\n") == (kept, b"old 7\n%d\n" % kept)
    shard.close()
    again = Alone(folder)
    assert again.execute(number + 3, b"len\nlast\n") == (kept, b"%d\n%d %d\n" % (kept, kept - 1, kept - 1))
    again.close()
    print("ok")


def one_shard(folder: str) -> None:
    at = os.path.join(folder, "shard")
    number = shard_beside_the_program(at)
    torn_log(at, number)
    pairs_past_a_bound(at, number)
    lines_of_a_shard(at, number + 6)
    raises("no map", ShardError, "needs the package sweep_bptree", without_a_map, at)


def shard_beside_the_program(at: str) -> int:
    """A shard alone, beside the program: opened again after each batch. Returns the number of its last batch."""
    lines = [line for line in drawn.lines(12_000, 11, 500, 1000) if request(line)]
    wanted = by_program(lines)
    came, number = [], 0
    # (page is asked of a shard as 'from'; log_limit makes it write snapshots)
    for start in range(0, len(lines), 600):
        shard = Alone(at, log_limit=20_000)
        for begin in range(start, min(start + 600, len(lines)), 200):
            number += 1
            asked = [as_from(line) for line in lines[begin : begin + 200]]
            text = b"".join(line + b"\n" for line in asked)
            length, said = shard.execute(number, text)
            came += said.split(b"\n")[:-1]
        same("a batch that is sent again", (length, said), shard.execute(number, text))
        shard.close()
        shard = Alone(at)
        same("and after it was opened again", (length, said), shard.execute(number, text))
        shard.close()
    same_replies("a shard alone", lines, wanted, came)
    return number


def torn_log(at: str, number: int) -> None:
    """The last batch is torn: it was not done, and can be done."""
    shard = Alone(at)
    before = shard.pairs()
    raises("an old batch", ShardError, "is older", shard.execute, 1, b"put 1 1\n")
    shard.execute(number + 1, b"clear\nput 5 50\n")
    path = shard.shard()._store.log.path
    shard.close()
    os.truncate(path, os.path.getsize(path) - 1)
    shard = Alone(at)
    same("a log with a torn tail", before, shard.pairs())
    same("the batch after it", (1, b"cleared\nnew\n"), shard.execute(number + 1, b"clear\nput 5 50\n"))
    shard.close()


def pairs_past_a_bound(at: str, number: int) -> None:
    """Pairs that are not the shard's own, as a move that was cut off leaves them."""
    shard = Alone(at, high=5)
    same("pairs past its bound", [0], shard.lengths)
    shard.close()
    # A cut that there is no room to write is done all the same, since the table has said it.
    shard = Alone(at)
    shard.execute(number + 2, b"clear\nput 1 10\nput 9 90\n")
    store = shard.shard()._store
    earlier, store.snapshot = store.snapshot, no_room
    same("a cut without room", {"length": 1}, shard.host._cut(shard.handles[0], 5))
    raises("to take pairs without room", NotWrittenError, "no room", shard.host._take, shard.handles[0], None, raw([7]), raw([7]))
    same("then it is as before", (1, b"1 10\n"), shard.execute(number + 3, b"all\n"))
    same("lines after it", (2, b"none\nnew\n1 10\n"), shard.execute(number + 4, b"get 9\nput 0 3\nlast\n"))
    store.snapshot = earlier
    shard.close()
    shard = Alone(at, high=5)
    same("opened again after a cut without room", (2, b"0 3,1 10\n"), shard.execute(number + 5, b"all\n"))
    shard.execute(number + 6, b"clear\n")
    shard.close()


def lines_of_a_shard(at: str, number: int) -> None:
    """The lines that a shard takes and the program does not."""
    shard = Alone(at)
    for line, reply in [
        (b"from 0 9", b"empty"),
        (b"ahead 3 9", b"empty"),
        (b"behind 3 9", b"empty"),
        (b"put 1 10\nput 3 30\nput 5 50\nfrom 1 1", b"new\nnew\nnew\n3 30"),
        (b"from 2 7\nget 3\nfrom 3 1\nlen", b"5 50\n30\nempty\n3"),
        (b"ahead 2 1\nahead 3 9\nahead 6 2", b"3 30\n3 30,5 50\nempty"),
        (b"behind 2 1\nbehind 3 9\nbehind 0 2\nget 1", b"1 10\n3 30,1 10\nempty\n10"),
    ]:
        number += 1
        same(repr(line), reply + b"\n", shard.execute(number + 1, line + b"\n")[1])
    shard.close()
    raises("a shard that is closed", NotOpenError, "does not have the shard", shard.execute, number + 2, b"len\n")


def redone(folder: str) -> None:
    """A shard carries out batches of the redo log unless they were done or cancelled, and stores no key of another shard."""
    at, who = os.path.join(folder, "shard"), b"x" * 16
    shard = Alone(at, high=50)
    shard.batch("put", 3, [2], raw([1, 2]), raw([10, 20]))
    shard.host._cancel(who, [(shard.handles[0], 6)])
    # (the number of a batch, its kind, its columns, and the pairs after it)
    for number, kind, columns, wanted in [
        (3, "put", [raw([1]), raw([99])], [(1, 10), (2, 20)]),
        (5, "put", [raw([1]), raw([99])], [(1, 10), (2, 20)]),
        (6, "put", [raw([1]), raw([99])], [(1, 10), (2, 20)]),
        (7, "text", [b"len\nget 1\n"], [(1, 10), (2, 20)]),
        (7, "put", [raw([8, 60, 50, 49]), raw([80, 600, 500, 490])], [(1, 10), (2, 20), (8, 80), (49, 490)]),
        (7, "put", [raw([9]), raw([90])], [(1, 10), (2, 20), (8, 80), (49, 490)]),
        (8, "text", [b"put 70 7\ndel 1\n"], [(2, 20), (8, 80), (49, 490)]),
        (9, "del", [raw([8, 3])], [(2, 20), (49, 490)]),
    ]:
        came = shard.host._redo([(shard.handles[0], who, number, kind, columns)])
        same(f"batch {number} of the redo log", wanted, shard.pairs())
        same(f"batch {number} of the redo log, the length", {"lengths": [(shard.handles[0], len(wanted))]}, came)
    same("a batch that the redo log had, sent again", [b"\1\0"], shard.batch("del", 9, [2], raw([8, 3])))
    same("the number of the last batch", {who.hex(): 9}, shard.shard().numbers())
    synced, earlier = [], os.fdatasync
    os.fdatasync = synced.append
    try:
        shard.host._to_disk(shard.handles)
    finally:
        os.fdatasync = earlier
    same("logs that are brought to the disk", 1, len(synced))
    shard.close()
    shard = Alone(at, high=50)
    same("a shard that did batches of the redo log, opened again", [(2, 20), (49, 490)], shard.pairs())
    shard.close()


def no_room(_) -> None:
    raise NotWrittenError("there is no room")


def without_a_map(at: str) -> None:
    modules = {name: sys.modules.pop(name) for name in [*sys.modules] if name.split(".")[0] == "sweep_bptree"}
    sys.modules["sweep_bptree"] = None
    try:
        Alone(at).close()
    finally:
        del sys.modules["sweep_bptree"]
        sys.modules.update(modules)


def build_refuse(folder: str) -> str | None:
    """Compiles what makes allocations fail, and returns its path."""
    library = os.path.join(folder, "refuse.so")
    source = os.path.join(os.path.dirname(os.path.abspath(__file__)), "refuse.c")
    try:
        subprocess.run([os.environ.get("CC", "cc"), "-shared", "-fPIC", "-O1", "-o", library, source], check=True)
    except OSError:
        return None
    return library


def refused(folder: str) -> None:
    """Batches of two shards, in which each allocation of the map fails in turn, in a process of its own."""
    library = build_refuse(folder)
    if library is None:
        skip("allocations that fail", "there is no C compiler")
        return
    asked = [sys.executable, os.path.abspath(__file__), PROGRAM, "refused", folder]
    done = subprocess.run(asked, env={**os.environ, "LD_PRELOAD": library}, stdout=subprocess.PIPE, timeout=300, check=False)
    same("batches in which an allocation fails", (0, True), (done.returncode, done.stdout.startswith(b"ok")))
    print(f"allocations that failed: {done.stdout.decode()}", end="", flush=True)


def refuse_each(folder: str) -> None:
    """A batch that raised is not done, now and after every opening: each of its first 40 allocations fails, and each seventh one."""
    refuse = ctypes.CDLL(None).shards_refuse
    refuse.restype, refuse.argtypes = ctypes.c_long, [ctypes.c_long]
    many = list(range(1, 1600, 2)) + list(range(2001, 3000, 2))
    text = b"".join(b"put %d 9\n" % key for key in many)
    cut = text.index(b"put 2001")
    # (fewer than a sixth of the pairs of their shard: the library inserts one after another, and after a failure removes these)
    few = list(range(1, 300, 2)) + list(range(2401, 2700, 2))
    both = [os.path.join(folder, name) for name in ("low", "high")]
    failures = {}
    for name, size, kind, sizes, columns in [
        ("put of many keys", 1000, "put", [800, 500], [raw(many), raw(many)]),
        ("put of few keys", 1200, "put", [150, 150], [raw(few), raw(few)]),
        ("lines", 1000, "text", [cut, len(text) - cut], [text]),
        ("clear", 1000, "text", [6, 6], [b"clear\n" * 2]),
    ]:
        keys, cuts = list(range(0, 4 * size, 2)), [2 * size]
        for is_once in (True, False):
            nth = number = 0
            while True:
                # (each from the same pairs; a negative number fails all from there on)
                for at in both:
                    shutil.rmtree(at, ignore_errors=True)
                shards = Alone(*both, cuts=cuts)
                shards.batch("put", 1, [size, size], raw(keys), raw(keys))
                before = shards.pairs()
                refuse(nth + 1 if is_once else -nth - 1)
                try:
                    shards.batch(kind, 2, sizes, *columns)
                    failed = False
                except OutOfMemoryError:
                    failed = True
                left = refuse(0)
                if not failed:
                    assert left == 0 or shards.pairs() != before, (name, nth)
                    if left == 0:
                        break
                else:
                    assert left > 0, (name, nth, "no allocation failed")
                    assert shards.pairs() == before, (name, nth, "done now")
                    number += 1
                    for _ in range(2):
                        shards.close()
                        shards = Alone(*both, cuts=cuts)
                        assert shards.pairs() == before, (name, nth, "done after it was opened again")
                    try:
                        shards.batch("del", 0, [1, 1], raw([0, 2 * size]))
                        raise AssertionError("an old batch was done")
                    except ShardError:
                        pass
                    shards.batch("del", 3, [1, 1], raw([0, 2 * size]))
                    assert len(shards.pairs()) == len(before) - 2
                shards.close()
                nth += 1 if nth < 40 else 7
            shards.close()
            failures[f"{name}, {'one' if is_once else 'all from one on'}"] = number
    assert all(failures.values()), failures
    print("ok", failures)


def full_each(folder: str) -> None:
    """Two shards whose log has room for ever more bytes of a batch: both carry it out, or neither does."""
    both = [os.path.join(folder, name) for name in ("low", "high")]
    keys = list(range(100))
    wrong, failed = [], 0
    for room in range(0, 900, 41):
        for at in both:
            shutil.rmtree(at, ignore_errors=True)
        shards = Alone(*both, cuts=[50])
        shards.batch("text", 1, [6, 6], b"clear\n" * 2)
        shards.batch("put", 2, [50, 50], raw(keys), raw(keys))
        before = shards.pairs()
        # (the log of the second shard is longer)
        extra = b"put 60 60\n" * 40
        shards.batch("text", 3, [0, len(extra)], extra)
        length = os.path.getsize(shards.shard(1)._store.log.path)
        resource.setrlimit(resource.RLIMIT_FSIZE, (length + room, resource.RLIM_INFINITY))
        try:
            shards.batch("put", 4, [25, 25], raw(keys[25:75]), raw([7] * 50))
            is_done = True
        except NotWrittenError:
            is_done = False
            failed += 1
        finally:
            resource.setrlimit(resource.RLIMIT_FSIZE, (resource.RLIM_INFINITY, resource.RLIM_INFINITY))
        wanted = [(key, 7 if is_done and 25 <= key < 75 else value) for key, value in before]
        for _ in range(2):
            if shards.pairs() != wanted:
                wrong.append((room, is_done))
            shards.close()
            shards = Alone(*both, cuts=[50])
        shards.close()
    same("batches that are done by half on a full disk", [], wrong)
    same("batches that failed on a full disk, and that did not", (True, True), (failed > 5, failed < 20))


def as_from(line: bytes) -> bytes:
    """The line that asks a shard for a page."""
    words = line.split()
    if words[0] != b"page":
        return line
    return b"from %d %d" % (int(words[1]) * int(words[2]), min(int(words[2]), 600))


# Many shards.


class Killer:
    """Kills workers, each a child of this process."""

    def __init__(self, client):
        self.client = client
        self.killed = 0

    def kill(self, process: int) -> None:
        with open(f"/proc/{process}/stat", encoding="ascii") as it:
            parent = int(it.read().rpartition(")")[2].split()[1])
        assert parent == os.getpid(), "no child of this process"
        os.kill(process, signal.SIGKILL)
        self.killed += 1

    def later(self, process: int, seconds: float) -> None:
        timer = threading.Timer(seconds, self.kill, (process,))
        timer.daemon = True
        timer.start()


class Faults:
    """Fills the disks of the workers, or makes allocations of the library in them fail. Counts the errors that this leads to."""

    def __init__(self, client, folder: str):
        self.client, self.folder = client, folder
        self.may_refuse = "refuse.so" in os.environ.get("LD_PRELOAD", "")
        self.raised: dict[str, int] = {}
        self._draw = random.Random(6)

    def begin(self, number: int) -> None:
        """Of each ten pieces of the run one meets a full disk, and one meets allocations that fail."""
        if number % 10 == 4:
            # (the longest log, and some others, have no room for another record, or for a part of it)
            in_workers(self.client, limit_files, max(int(largest_file(self.folder) * self._draw.random()), 4096))
        elif number % 10 == 9 and self.may_refuse:
            # (a short piece makes few allocations)
            nth = self._draw.choice((1, 1, 2, 4, 9))
            # (one allocation fails, or all from one on)
            in_workers(self.client, refuse_in_worker, nth if number % 20 == 9 else -nth)

    def end(self, number: int) -> None:
        if number % 10 == 4:
            in_workers(self.client, limit_files, resource.RLIM_INFINITY)
        elif number % 10 == 9 and self.may_refuse:
            in_workers(self.client, refuse_in_worker, 0)

    def count(self, error: Exception) -> None:
        if not isinstance(error, (NotWrittenError, OutOfMemoryError)):
            raise error
        name = type(error).__name__
        self.raised[name] = self.raised.get(name, 0) + 1

    def see(self) -> None:
        same("batches of lines that failed on a full disk, some", True, self.raised.get("NotWrittenError", 0) > 0)
        if self.may_refuse:
            same("batches of lines in which an allocation failed, some", True, self.raised.get("OutOfMemoryError", 0) > 0)
        else:
            skip("allocations that fail in the long run", "there is no C compiler")


def largest_file(folder: str) -> int:
    """The length of the largest file that workers write to."""
    return max(os.path.getsize(os.path.join(at, name)) for at, _, names in os.walk(folder) for name in names if name != "redo")


def through_faults(shards: Shards, faults: Faults, number: int, piece: list[bytes], given: list, came: list) -> None:
    """Has a piece of the lines carried out, if need be in a second attempt: adds them to ``given``, and their replies to ``came``.

    Either all shards carry out a batch, or no shard does. So if a batch raised an error, a line ``all`` has to find that no line of it was done,
    while the disk is full, and again when the fault is over. Then the batch is sent again.
    """

    def ask(lines: list[bytes]) -> None:
        came.extend(shards.answer(lines))
        given.extend(lines)

    faults.begin(number)
    try:
        ask(piece)
        piece = []
    except BatchError as error:
        faults.count(error.error)
        done = len(error.replies)
        given += piece[:done]
        came += error.replies
        piece = piece[done:]
        if isinstance(error.error, NotWrittenError):
            ask([b"all"])
    finally:
        faults.end(number)
    if piece:
        ask([b"all"])
        ask(piece)


def long_run(client, folder: str) -> None:
    """All lines in one run. Meanwhile workers are killed, disks fill, allocations fail, and shards are split and merged."""
    lines = drawn.lines(LINES, 7)
    killer, faults = Killer(client), Faults(client, folder)
    given: list[bytes] = []
    came: list[bytes] = []
    draw = random.Random(5)
    step = max(1, len(lines) // 100)
    began = time.monotonic()
    with Shards(client, folder, shards=6, least=256) as shards:
        # (all lines take some 19 bytes each)
        shards._cluster.redo_limit = 4 * len(lines)
        for number, start in enumerate(range(0, len(lines), step)):
            if number in (24, 51, 79):
                # (while the batches of this piece are on their way, two of which meet a fault)
                killer.later(draw.choice(shards.processes()), draw.random() * 0.15)
            through_faults(shards, faults, number, lines[start : start + step], given, came)
        counts = shards.counts
        same("the redo log was emptied meanwhile", True, 0 < shards._cluster._redo.length < 5 * len(lines))
        print(f"{len(lines)} lines in {time.monotonic() - began:.1f} s, {counts}, raised {faults.raised}", flush=True)
    ends = [b"all", b"len"]
    wanted = by_program([*given, *ends])
    same_replies("the long run", given, wanted[:-2], came)
    same("all lines were done", True, [line for line in given if line != b"all"] == [line for line in lines if line != b"all"])
    same("workers that were killed", 3, killer.killed)
    same("shards that were opened again, some", True, counts["opened again"] > 0)
    same("shards were split and merged under load", (True, True), (counts["splits"] > 0, counts["merges"] > 0))
    faults.see()
    with Shards(client, folder, shards=1) as shards:
        same_replies("what stays in the folder", ends, wanted[-2:], shards.answer(ends))
        shards.answer([b"clear"])
        same("one shard in the end", [0], shards.lengths())


def killed_between(client, folder: str) -> None:
    """A worker is killed after it did a batch and before its reply is used. The batch is sent again, and the reply is the same."""
    killer = Killer(client)
    with Shards(client, folder, shards=3, least=4, sync=True) as shards:
        shards.answer(puts(range(0, 90, 3)))
        same("shards of thirty pairs", True, len(shards.lengths()) > 1)
        location = shards._cluster.locations[0]

        def sent(kind: str, count: int, column: bytes) -> list[bytes]:
            """Sends the next batch of the first shard twice, and kills a worker after each. Returns both replies."""
            found = []
            for _ in range(2):
                _, ((said,),) = shards._run(shards._cluster.batch, kind, [(location, count)], [memoryview(column)])
                found.append(bytes(said))
                location.number -= 1
                killer.kill(shards.processes()[0])
            location.number += 1
            return found

        lines = b"put 1 10\nput 0 5\ndel 3\nget 1\nlen\n"
        first, again = sent("text", len(lines), lines)
        same("a batch that was cut off, both replies", first, again)
        same("the shard was opened again", True, shards.counts["opened again"] > 0)
        same("the reply", b"new\nold 7\ngone 7\n10\n%d\n" % location.length, again)
        keys = raw([6, 1, 6, 8])
        same("a removal that was cut off, both replies", [b"\1\1\0\0"] * 2, sent("del", 4, keys))
        model = {key: 7 for key in range(0, 90, 3)} | {0: 5}
        del model[3], model[6]
        same("and each was done once", sorted(model.items()), shards.range(0, GREATEST))
        # All workers at once: the nannies start others.
        for process in set(shards.processes()):
            killer.kill(process)
        same("after all workers were killed", len(model), len(shards.range(0, GREATEST)))
        shards.put(50, 1)
        same("and a put after it", 1, shards.get(50))


def killed_client(client, folder: str) -> None:
    """A client is killed in the middle of its batches. The next client finds every batch that the first one got a reply to."""
    asked = [sys.executable, os.path.abspath(__file__), PROGRAM, "client", client.scheduler.address, folder]
    with subprocess.Popen(asked, stdout=subprocess.PIPE) as other:
        for line in other.stdout:
            if int(line) == 25:
                break
        other.kill()
        rest = other.stdout.read().split()
    turns = int(rest[-1]) + 1 if rest else 26
    with Shards(client, folder, shards=4, least=16) as shards:
        found = dict(shards.range(0, GREATEST))
        same(
            "missing pairs of batches that a killed client got a reply to",
            [],
            [key for key in range(turns * 50) if found.get(key) != key // 50],
        )
        # (its last batch may have been done by some shards)
        same("pairs of a batch that it did not send", [], [key for key in found if key >= (turns + 1) * 50])
        same("more than one shard", True, len(shards.lengths()) > 1)
        same("and a put after it", found.get(0), shards.put(0, 1))


def serve_until_killed(address: str, folder: str) -> None:
    """Puts fifty keys in a batch, and prints the number of each batch that is done. In a process of its own."""
    with Client(address) as client, Shards(client, folder, shards=4, least=16) as shards:
        for turn in range(10_000):
            keys = list(range(turn * 50, turn * 50 + 50))
            random.Random(turn).shuffle(keys)
            assert shards.answer(puts(keys, turn)) == [b"new"] * 50
            print(turn, flush=True)


def cut_moves(client, folder: str) -> None:
    """A split and a merge that are cut off at each of their steps leave the list as it was."""

    class Cut(Exception):
        pass

    class CutCluster(Cluster):
        """Stops at one step of a move, before or after it, as a client that is killed there."""

        at = None

        async def send(self, worker, what, **given):
            if self.at == what:
                raise Cut(what)
            reply = await super().send(worker, what, **given)
            if self.at == f"after {what}":
                raise Cut(what)
            return reply

        def write_table(self, locations):
            if self.at == "table":
                raise Cut("table")
            super().write_table(locations)

        async def drop(self, locations):
            if self.at is None:
                await super().drop(locations)

    wanted = [(key, 7) for key in range(40)]
    for move in ("split", "merge"):
        for at in ("middle", "open", "after open", "move", "after move", "table", "cut", "after cut", None):
            here = os.path.join(folder, f"{move}-{at}")
            with Shards(client, here, shards=2 if move == "merge" else 1, limit=30 if move == "merge" else 100, least=2) as shards:
                shards.answer(puts(range(40)))
                count = len(shards.lengths())
                cluster = shards._cluster
                cluster.__class__ = CutCluster
                cluster.at = at
                try:
                    getattr(shards, move)(0)
                except Cut:
                    pass
                if at != "table":
                    cluster.at = None
                    same(f"a {move} that is cut off at {at}, by the same client", wanted, shards.range(0, GREATEST))
            with Shards(client, here, shards=count, limit=100, least=40, sync=True) as shards:
                same(f"a {move} that is cut off at {at}", wanted, shards.range(0, GREATEST))
                same(
                    f"a {move} that is cut off at {at}, ranks",
                    [(True, 0), (True, 20), (True, 39)],
                    [shards.rank(k) for k in (0, 20, 39)],
                )
                kept = {"lock", "redo", "table", *(location.name for location in shards._cluster.locations)}
                same(f"a {move} that is cut off at {at}, its files", kept, set(os.listdir(here)))


def calls(client, folder: str) -> None:
    """The calls beside a dict, and how many shards each of them asks."""
    draw = random.Random(9)
    model: dict[int, int] = {}
    wrong, most = [], {}
    with Shards(client, folder, shards=4, least=16, limit=40, sync=False) as shards:
        for turn in range(1500):
            keys = sorted(model)
            key, other, value = draw.randrange(300), draw.randrange(300), draw.randrange(99)
            index, size = draw.randrange(150), 1 + draw.randrange(30)
            at, above = bisect_left(keys, key), bisect_right(keys, key)

            def pair(number: int):
                return (keys[number], model[keys[number]]) if 0 <= number < len(keys) else None

            name, call, wanted = draw.choice(
                [
                    ("get", lambda: shards.get(key), model.get(key)),
                    ("contains", lambda: shards.contains(key), key in model),
                    ("rank", lambda: shards.rank(key), (key in model, at)),
                    ("at", lambda: shards.at(index), pair(index)),
                    ("first", shards.first, pair(0)),
                    ("last", shards.last, pair(len(keys) - 1)),
                    ("next", lambda: shards.next(key), pair(above)),
                    ("prev", lambda: shards.prev(key), pair(at - 1)),
                    ("len", lambda: len(shards), len(keys)),
                    ("range", lambda: shards.range(key, other), [(it, model[it]) for it in keys if key <= it < other]),
                    ("back", shards.back, [(it, model[it]) for it in reversed(keys)]),
                    ("from_key", lambda: shards.from_key(key, size * 3), [(it, model[it]) for it in keys[at:][: size * 3]]),
                    (
                        "back_from",
                        lambda: shards.back_from(key, size * 3),
                        [(it, model[it]) for it in keys[:above][::-1][: size * 3]],
                    ),
                    ("page", lambda: shards.page(index // 10, size), [(it, model[it]) for it in keys[index // 10 * size :][:size]]),
                ]
            )
            before = shards.counts["messages"]
            came = call()
            most[name] = max(most.get(name, 0), shards.counts["messages"] - before)
            if came != wanted:
                wrong.append((turn, name, key, wanted, came))
            if draw.random() < 0.35 if turn % 600 < 400 else draw.random() < 0.1:
                came, wanted = shards.put(key, value), model.get(key)
                model[key] = value
            elif draw.random() < 0.4:
                came, wanted = shards.delete(key), model.pop(key, None)
            else:
                continue
            if came != wanted:
                wrong.append((turn, "put or delete", key, wanted, came))
        same("calls with other results than a dict", [], wrong)
        same("more than two shards", True, len(shards.lengths()) > 2)
        at_most = {"get": 1, "contains": 1, "rank": 1, "at": 1, "first": 1, "last": 1, "next": 2, "prev": 2, "len": 0}
        same("how many shards a call asks at most", at_most, {name: most[name] for name in at_most})
        raises("a folder that cannot be made", NotWrittenError, "cannot be made", Shards, client, "/dev/null/folder")
        shards._cluster.forget(shards._cluster.locations[0])
        same("a shard that is opened again", len(model), len(shards.range(0, GREATEST)))
        raises("a key that is too great", OverflowError, "is not from 0", shards.put, GREATEST + 1, 0)
        raises("a folder that is in use", ShardError, "is in use by another client", Shards, client, folder)


def emptied_shards(client, folder: str) -> None:
    """Batches by hand in which shards of keys 0 to 3, 4 and 5, 6 and 7, 8 to 11, and 12 to 15 are emptied and filled again."""
    batches = [
        "del 4;del 5;next 3;prev 6;next 4;prev 5",
        "put 4 1;put 4 2;del 4;next 3;prev 6;put 4 3;next 3",
        "put 5 1;del 5;del 4;del 6;del 7;next 3;prev 8;range 3 9;rank 9;len",
        "del 0;del 1;del 2;del 3;first;next 0;put 3 3;put 3 4;first;del 3;first;put 2 2;first",
        "del 12;del 13;del 14;del 15;last;prev 15;put 12 1;put 12 2;del 12;last;put 13 1;last;all;back",
        "put 4 4;at 1;del 4;next 3;at 1;put 6 6;put 6 7;at 1;del 6;next 3;del 7;page 0 3;rank 15;del 6",
        "at 0;put 5 5;put 5 6;del 5;next 3;del 11;del 10;del 9;del 8;next 2;prev 12;len",
        "clear;first;last;next 0;prev 15;at 0;len;all;put 9 9;first;last;prev 15;next 3;rank 12;len;at 0;at 1",
        "put 1 1;clear;put 14 1;rank 14;len;first;prev 14;next 13;page 0 9;clear;put 3 3;rank 15;len;last;del 3;last;clear;len",
    ]
    lines = [[line.encode() for line in batch.split(";")] for batch in batches]
    wanted = iter(by_program([*puts(range(16)), *itertools.chain(*lines)])[16:])
    with Shards(client, folder, sync=False) as shards:
        # (the bounds stay)
        shards._held_up = float("inf")
        shards.answer(puts(range(16)))
        for shard in (0, 0, 2, 1):
            shards.split(shard)
        for batch in lines:
            same_replies(f"a batch by hand, {batch[0]} ..", batch, [next(wanted) for _ in batch], shards.answer(batch))


def small_shards(client, folder: str) -> None:
    """Five shards of a few pairs, which are emptied and filled again within drawn batches."""
    for batch, has_indexes in itertools.product((12, 60), (True, False)):
        lines = drawn.lines(2000, 31 + batch, 16, 50)
        # (the client knows the exact lengths at each line of a batch with indexes, and else only bounds on them)
        lines = [it for it in lines if has_indexes or not it.startswith((b"at", b"page"))]
        lines[70::83] = [b"clear"] * len(lines[70::83])
        wanted = by_program([*puts(range(16)), *lines])[16:]
        with Shards(client, os.path.join(folder, f"{batch}-{has_indexes}"), sync=False, batch=batch) as shards:
            # (the bounds stay)
            shards._held_up = float("inf")
            shards.answer(puts(range(16)))
            for shard in (0, 0, 2, 1):
                shards.split(shard)
            same("five shards", [4, 6, 8, 12], shards.bounds())
            same_replies(f"small shards, batches of {batch}, with indexes: {has_indexes}", lines, wanted, shards.answer(lines))


def in_workers(client, function, *arguments) -> None:
    """Calls a function in each worker that is there. Client.run would wait half a minute for one that was killed just now."""
    given = {"function": pickle.dumps(function), "args": pickle.dumps(arguments), "wait": True}

    async def call_each() -> None:
        cluster = Cluster(client, "", False, 1)
        calls = (cluster._reply_of(worker, client.rpc(worker).run(**given)) for worker in await cluster.workers())
        await asyncio.gather(*calls, return_exceptions=True)

    client.sync(call_each)


def limit_files(size: int) -> None:
    resource.setrlimit(resource.RLIMIT_FSIZE, (size, resource.RLIM_INFINITY))


def full_disk(client, folder: str) -> None:
    """The logs of the workers have no room: the error is clear, and all batches that were done stay."""
    with Shards(client, folder, shards=3, least=64) as shards:
        lines = puts(range(0, 3000, 5))
        shards.answer(lines)
        model = {key: 7 for key in range(0, 3000, 5)}
        in_workers(client, limit_files, largest_file(folder) + 5000)
        failed = None
        try:
            for turn in range(2000):
                batch = puts(range(turn * 7 % 3000, turn * 7 % 3000 + 40), turn)
                try:
                    replies = shards.answer(batch)
                except BatchError as error:
                    failed = error
                    break
                for line, reply in zip(batch, replies):
                    _, key, value = map(int, line.replace(b"put", b"0").split())
                    if reply != (b"old %d" % model[key] if key in model else b"new"):
                        same("a reply while the disk fills", model.get(key), reply)
                    model[key] = value
            same(
                "a full disk fails",
                (True, []),
                (isinstance(failed, BatchError) and isinstance(failed.error, NotWrittenError), failed.replies),
            )
            same("a full disk, what it says", True, "cannot be written: " in str(failed) or str(failed))
            same("a full disk: reading goes on, and nothing of the batch was done", sorted(model.items()), shards.range(0, GREATEST))
            many = list(range(60_000))
            raises("arrays on a full disk", NotWrittenError, "cannot be written: ", shards.put_many, many, many)
            raises("a removal on a full disk", NotWrittenError, "cannot be written: ", shards.del_many, many)
            raises("a load on a full disk", NotWrittenError, "cannot be written: ", shards.from_arrays, many, many)
            same("and nothing of these", sorted(model.items()), shards.range(0, GREATEST))
            # (a shard that is forgotten is opened again from its files)
            shards._cluster.forget(shards._cluster.locations[0])
        finally:
            in_workers(client, limit_files, resource.RLIM_INFINITY)
        same("and after there is room again", sorted(model.items()), shards.range(0, GREATEST))
        same("a put after it", model.get(1), shards.put(1, 123))
        model[1] = 123
    with Shards(client, folder, shards=3) as shards:
        same("and after all was opened again", sorted(model.items()), shards.range(0, GREATEST))


def lost_cancels(client, folder: str) -> None:
    """A batch fails in one shard, and the worker of another one dies before it can undo its part: that is undone when it is opened."""
    killer = Killer(client)
    for is_reopened in (False, True):
        # (those that were killed start again)
        client.wait_for_workers(3, timeout=60)
        with Shards(client, os.path.join(folder, str(is_reopened)), shards=3, least=8) as shards:
            keys = list(range(90))
            shards.from_arrays(keys, keys)
            same("three shards on three workers", 3, len(set(shards.processes())))
            processes = shards.processes()
            bounds = shards.bounds()
            path = os.path.join(folder, str(is_reopened), shards._cluster.locations[1].name)

            class KillingCluster(Cluster):
                async def send(self, worker, what, **given):
                    if what == "cancel" and worker == self.locations[0].worker:
                        killer.kill(processes[0])
                    return await super().send(worker, what, **given)

            shards._cluster.__class__ = KillingCluster
            in_workers(client, limit_files, largest_file(path) + 100)
            try:
                # (a few pairs for the first shard, and more than there is room for in the second)
                many = [*keys[:2], *range(bounds[0], bounds[1]), *range(bounds[0], bounds[1])]
                raises(
                    "a batch that fails in one shard",
                    NotWrittenError,
                    "cannot be written: ",
                    shards.put_many,
                    many,
                    [5] * len(many),
                )
            finally:
                in_workers(client, limit_files, resource.RLIM_INFINITY)
            same("what was not undone is in the table", 1, len(shards._cluster.locations[0].cancelled))
            shards._cluster.__class__ = Cluster
            if not is_reopened:
                same("a batch whose undoing was cut off", [(key, key) for key in keys], shards.range(0, GREATEST))
                # (the table has that batch still)
                shards.put_many(keys, [9] * len(keys))
        value = {key: key if is_reopened else 9 for key in keys}
        with Shards(client, os.path.join(folder, str(is_reopened)), shards=3, least=8) as shards:
            same("and opened again", list(value.items()), shards.range(0, GREATEST))


def lost_workers(client, folder: str) -> None:
    """All shards do a batch, and no worker can be reached before the reply arrives. The call raises, and the batch is undone later."""

    class LosingCluster(Cluster):
        async def send(self, worker, what, **given):
            reply = await super().send(worker, what, **given)
            if what == "batch":
                self.is_lost = True
                raise OSError("the connection broke")
            return reply

        async def workers(self):
            return [] if getattr(self, "is_lost", False) else await super().workers()

    keys = list(range(60))
    for name, change in [
        ("put_many", lambda shards: shards.put_many(range_of(80), range_of(80))),
        ("del_many", lambda shards: shards.del_many(keys)),
        ("clear", lambda shards: shards.answer([b"clear"])),
    ]:
        here = os.path.join(folder, name)
        with Shards(client, here, shards=3, least=8, patience=1) as shards:
            shards.from_arrays(keys, keys)
            shards._cluster.__class__ = LosingCluster
            # (a BatchError has the LostError in it)
            for _ in range(2):
                raises(f"{name} without workers", ShardError, "there is no worker for ", change, shards)
        sizes = [os.path.getsize(os.path.join(at, it)) for at, _, names in os.walk(here) for it in names if it.startswith("log-")]
        same(f"{name}, logs that have the batch", 3, sum(size > 0 for size in sizes))
        for _ in range(2):
            with Shards(client, here, shards=3, least=8) as shards:
                same(f"{name}, after all was opened again", [(key, key) for key in keys], shards.range(0, GREATEST))


def log_sizes(folder: str) -> dict[str, int]:
    """The logs of the shards in a folder, with their lengths."""
    found = (os.path.join(at, name) for at, _, names in os.walk(folder) for name in names if name.startswith("log-"))
    return {path: os.path.getsize(path) for path in found}


def lose_power(folder: str, on_disk: dict[str, int], draw: random.Random) -> int:
    """Cuts the logs off, as a machine can leave them that lost power: anywhere behind what is on the disk. Returns how much is lost."""
    lost = 0
    for path, size in log_sizes(folder).items():
        stays = draw.randint(on_disk.get(path, 0), size)
        os.truncate(path, stays)
        lost += size - stays
    return lost


def batches_before_a_loss(client, shards: Shards, turn: int, model: dict[int, int], folder: str) -> None:
    """Batches of each kind, of which one fails, since one worker has no room for it."""
    draw = random.Random(turn)
    for number in range(4):
        keys = draw.sample(range(2000), 300)
        shards.put_many(keys, [turn * 10 + number] * len(keys))
        model.update(dict.fromkeys(keys, turn * 10 + number))
        gone = draw.sample(range(2000), 100)
        same("removals before a loss of power", [key in model for key in gone], shards.del_many(gone).tolist())
        for key in gone:
            model.pop(key, None)
        keys = draw.sample(range(2000), 20)
        shards.answer([b"len", *puts(keys, turn), b"del %d" % keys[0], b"first"])
        model.update(dict.fromkeys(keys[1:], turn))
        model.pop(keys[0], None)
        if number == turn % 4:
            in_workers(client, limit_files, max(log_sizes(folder).values()) + 100)
            try:
                many = list(range(3000))
                raises("arrays before a loss of power", NotWrittenError, "cannot be written: ", shards.put_many, many, many)
            finally:
                in_workers(client, limit_files, resource.RLIM_INFINITY)


def lost_power(client, folder: str) -> None:
    """The machine of the workers loses power, and that of the client too in each second turn. All batches that were done are there."""
    draw = random.Random(12)
    model: dict[int, int] = {}
    lost = 0
    for turn in range(6):
        with Shards(client, folder, shards=4, least=64) as shards:
            same(f"the length after a loss of power, turn {turn}", len(model), len(shards))
            same(f"a new client after a loss of power, turn {turn}", sorted(model.items()), shards.range(0, GREATEST))
            same("the redo log of a new client is empty", 0, shards._cluster._redo.length)
            on_disk = log_sizes(folder)
            batches_before_a_loss(client, shards, turn, model, folder)
            same("the redo log has batches", True, shards._cluster._redo.length > 0)
            if turn % 2:
                # (the workers close all shards, and the client finds that when it sends the next batch)
                shards._run(shards._cluster._release, folder)
                lost += lose_power(folder, on_disk, draw)
                same(f"the same client after a loss of power, turn {turn}", sorted(model.items()), shards.range(0, GREATEST))
                shards._run(shards._cluster._shorten)
                same("the redo log is emptied", 0, shards._cluster._redo.length)
                on_disk = log_sizes(folder)
                batches_before_a_loss(client, shards, turn + 10, model, folder)
        lost += lose_power(folder, on_disk, draw)
    same("bytes that were lost, some", True, lost > 0)
    with Shards(client, folder, shards=1) as shards:
        same("after the last loss of power", sorted(model.items()), shards.range(0, GREATEST))
        full_redo(shards, model)
    with Shards(client, folder, shards=1) as shards:
        same("after the disk of the client was full", sorted(model.items()), shards.range(0, GREATEST))


def full_redo(shards: Shards, model: dict[int, int]) -> None:
    """The redo log of the client has no room: a batch of arrays and one of lines fail, and change nothing."""
    shards.put(1, 1)
    model[1] = 1
    many = list(range(3000))
    before = resource.getrlimit(resource.RLIMIT_FSIZE)
    resource.setrlimit(resource.RLIMIT_FSIZE, (shards._cluster._redo.length + 100, before[1]))
    try:
        raises("arrays on a full disk of the client", NotWrittenError, "redo cannot be written: ", shards.put_many, many, many)
        raises("lines on a full disk of the client", BatchError, "redo cannot be written: ", shards.answer, puts(many))
        same("reading goes on", sorted(model.items()), shards.range(0, GREATEST))
    finally:
        resource.setrlimit(resource.RLIMIT_FSIZE, before)
    # With sync a call waits for the disk once, in the process of the client.
    synced, earlier = [], os.fdatasync
    os.fdatasync = synced.append
    try:
        same("and a put after it", 1, shards.put(1, 2))
        shards.get(1)
    finally:
        os.fdatasync = earlier
    model[1] = 2
    same("how often a put and a get wait for the disk", 1, len(synced))


def range_of(end: int) -> array:
    return array("Q", range(end))


def refuse_in_worker(nth: int) -> int:
    """The nth allocation of the library fails, or none with 0."""
    return ctypes.CDLL(None).shards_refuse(ctypes.c_long(nth))


class ColumnsRun:
    """Calls for arrays of drawn keys, beside a plain sorted array, while workers are killed, disks fill and allocations fail."""

    def __init__(self, client, folder: str, shards: Shards):
        self.client, self.folder, self.shards = client, folder, shards
        self.killer, self.draw, self.whole = Killer(client), numpy.random.default_rng(8), model.Model()
        self.batch = max(KEYS // 200, 1000)
        self.may_refuse = "refuse.so" in os.environ.get("LD_PRELOAD", "")
        self.turn = self.done = 0
        self.raised: dict[str, int] = {}
        #: the turns with another result than the sorted array
        self.wrong: list = []
        self.calls = {"put": self.put, "del": self.delete, "get": self.get, "rank": self.rank, "at": self.at, "range": self.range}

    def run(self) -> None:
        while self.done < KEYS and len(self.wrong) <= 5:
            self.turn += 1
            turn = self.turn
            limit = 2 * KEYS if turn % 40 < 20 else KEYS // 10
            keys = self.draw.integers(0, limit, self.batch).astype(numpy.uint64)
            if turn % 7 == 0:
                # (all in one shard)
                keys = keys // numpy.uint64(16)
            values = self.draw.integers(0, 1 << 63, self.batch).astype(numpy.uint64)
            kind = ("put", "put", "get", "rank", "at", "del", "range")[turn % 7 if turn % 40 < 30 else 5]
            self.begin_faults(kind)
            try:
                if not self.calls[kind](keys, values, limit):
                    self.wrong.append((turn, kind))
                self.done += self.batch
            except (NotWrittenError, OutOfMemoryError) as error:
                name = type(error).__name__
                self.raised[name] = self.raised.get(name, 0) + 1
            finally:
                self.end_faults()
            if (turn % 10 == 0 or turn % 11 in (3, 5, 7, 9)) and not has_pairs_of(self.shards, self.whole):
                self.wrong.append((turn, kind, "all pairs"))

    def begin_faults(self, kind: str) -> None:
        turn, draw = self.turn, self.draw
        if turn in (31, 83, 147):
            self.killer.later(int(draw.choice(self.shards.processes())), float(draw.random()) * 0.05)
        if turn % 11 == 5:
            longest = largest_file(self.folder)
            in_workers(self.client, limit_files, max(longest - int(draw.integers(0, longest)), 4096))
        if kind == "put" and turn % 11 in (3, 7, 9) and self.may_refuse:
            nth = int(draw.integers(1, 12))
            in_workers(self.client, refuse_in_worker, nth if turn % 2 else -nth)

    def end_faults(self) -> None:
        if self.turn % 11 in (3, 5, 7, 9):
            in_workers(self.client, limit_files, resource.RLIM_INFINITY)
            if self.may_refuse:
                in_workers(self.client, refuse_in_worker, 0)

    # Each of these calls returns whether the result is that of the sorted array.

    def put(self, keys, values, limit: int) -> bool:
        self.shards.put_many(keys, values)
        self.whole.put(keys, values)
        return True

    def delete(self, keys, values, limit: int) -> bool:
        return numpy.array_equal(self.shards.del_many(keys), self.whole.remove(keys))

    def get(self, keys, values, limit: int) -> bool:
        came, found = self.shards.get_many(keys)
        at, there = self.whole.where(keys)
        return numpy.array_equal(found, there) and numpy.array_equal(came[there], self.whole.values[at[there]])

    def rank(self, keys, values, limit: int) -> bool:
        return numpy.array_equal(self.shards.rank_many(keys), self.whole.where(keys)[0])

    def at(self, keys, values, limit: int) -> bool:
        at = self.draw.integers(0, len(self.whole.keys) + 10, self.batch)
        came, came_values, found = self.shards.at_many(at)
        inside = at < len(self.whole.keys)
        wanted = inside, self.whole.keys[at[inside]], self.whole.values[at[inside]]
        return all(map(numpy.array_equal, wanted, (found, came[inside], came_values[inside])))

    def range(self, keys, values, limit: int) -> bool:
        low, high = sorted(self.draw.integers(0, limit, 2).tolist())
        start, end = numpy.searchsorted(self.whole.keys, numpy.array([low, high], numpy.uint64))
        wanted = self.whole.keys[start:end], self.whole.values[start:end]
        return all(map(numpy.array_equal, wanted, self.shards.range_arrays(low, high)))


def has_pairs_of(shards: Shards, whole: model.Model) -> bool:
    return all(map(numpy.array_equal, (whole.keys, whole.values), shards.range_arrays()))


def columns_run(client, folder: str) -> None:
    """Keys by arrays beside a plain sorted array: workers are killed, disks fill and allocations fail meanwhile."""
    began = time.monotonic()
    with Shards(client, folder, shards=6, least=256, limit=1 << 40) as shards:
        run = ColumnsRun(client, folder, shards)
        run.run()
        seconds = time.monotonic() - began
        print(f"{run.done} keys by arrays in {seconds:.1f} s, {shards.counts}, raised {run.raised}", flush=True)
        same("calls for arrays with other results than a sorted array", [], run.wrong)
        same("workers that were killed", 3, run.killer.killed)
        for what in ("opened again", "splits", "merges"):
            same(f"shards, some of them counted as {what}", True, shards.counts[what] > 0)
        same("batches that failed on a full disk, some", True, run.raised.get("NotWrittenError", 0) > 0)
        if run.may_refuse:
            same("batches in which an allocation failed, some", True, run.raised.get("OutOfMemoryError", 0) > 0)
        else:
            skip("allocations that fail in workers", "there is no C compiler")
    with Shards(client, folder, shards=6) as shards:
        same("all pairs after all was opened again", True, has_pairs_of(shards, run.whole))


def arrays(client, folder: str) -> None:
    """The calls for arrays: what they take, and what they return at the edges."""
    with Shards(client, folder, shards=3, least=4) as shards:
        same("an empty list", [0, 0, 0], [len(it) for it in shards.at_many([])])
        same("a key in an empty map", ([0], [False]), tuple(it.tolist() for it in shards.get_many([7])))
        same("a rank in an empty map", [0], shards.rank_many([GREATEST]).tolist())
        same("a range of an empty map", ([], []), tuple(it.tolist() for it in shards.range_arrays()))
        shards.put_many([], [])
        shards.from_arrays([], [])
        ends = [0, 1, GREATEST - 1, GREATEST]
        # (of equal keys the last value stays)
        shards.put_many([*ends, 5, 5], array("Q", [1, 2, 3, GREATEST, 6, 7]))
        same(
            "the least and the greatest keys",
            ([0, 1, 5, GREATEST - 1, GREATEST], [1, 2, 7, 3, GREATEST]),
            tuple(it.tolist() for it in shards.range_arrays()),
        )
        same("a range has not its end", [5], shards.range_arrays(2, GREATEST - 1)[0].tolist())
        same("nor a range that ends before it begins", [], shards.range_arrays(9, 2)[0].tolist())
        same("ranks at the ends", [0, 4, 2], shards.rank_many([0, GREATEST, 2]).tolist())
        came = shards.at_many([4, 5, 0, GREATEST])
        same("indexes", ([GREATEST, 0, 0, 0], [GREATEST, 0, 1, 0], [True, False, True, False]), tuple(it.tolist() for it in came))
        same("keys that are removed twice", [True, False, False], shards.del_many([5, 5, 6]).tolist())
        same("the earlier name of del_many", [False], shards.delete_many([5]).tolist())
        same(
            "arrays of 32 bits, and not in one piece",
            [True, True],
            shards.get_many(numpy.array([0, 9, 1], numpy.int32)[::2])[1].tolist(),
        )
        raises("a negative key", OverflowError, "is not from 0", shards.get_many, numpy.array([-1]))
        raises("a negative key in a list", OverflowError, "", shards.get_many, [-1])
        raises("keys of another type", TypeError, "an array of integers", shards.get_many, numpy.array([0.5]))
        raises("two dimensions", TypeError, "one dimension", shards.get_many, numpy.zeros((2, 2), int))
        raises("fewer values", ValueError, "3 keys and 2 values", shards.put_many, [1, 2, 3], [1, 2])
        raises("fewer values for a load", ValueError, "3 keys and 2 values", shards.from_arrays, [1, 2, 3], [1, 2])
        for name, keys in [
            ("random", numpy.random.default_rng(3).permutation(3000)),
            ("ascending", numpy.arange(3000)),
            ("equal", numpy.full(3000, 9)),
            ("few", numpy.array([4, 4, 0, 2])),
        ]:
            shards.from_arrays(keys, numpy.arange(len(keys)))
            last = {int(key): at for at, key in enumerate(keys)}
            same(
                f"a load of {name} keys",
                (sorted(last), [last[key] for key in sorted(last)]),
                tuple(it.tolist() for it in shards.range_arrays()),
            )
            if len(last) == 3000:
                same(f"shards of {name} keys", [1000] * 3, shards.lengths())
        kept = {"lock", "redo", "table", *(location.name for location in shards._cluster.locations)}
        same("folders after loads", kept, set(os.listdir(folder)))
        data_frames(client, shards, folder)
        shards.answer([b"clear"])


def data_frames(client, shards, folder: str) -> None:
    try:
        import dask.dataframe
        import pandas
    except ImportError as error:
        skip("data frames", str(error))
        return
    keys = numpy.arange(0, 9000, 3)
    shards.from_arrays(keys, keys * 2)
    frame = shards.to_dask_dataframe()
    same("divisions", ((0, *shards.bounds(), 8997), 3), (frame.divisions, frame.npartitions))
    whole = frame.compute()
    same(
        "a data frame",
        (keys.tolist(), (keys * 2).tolist(), "key"),
        (whole.index.tolist(), whole["value"].tolist(), whole.index.name),
    )
    same("a part of it", [3000, 3003], frame.loc[3000:3005].compute().index.tolist())
    shards.put(1, 1)
    same("it is as it was", 3000, len(frame))
    with Shards(client, os.path.join(folder, "of-frame"), shards=2) as other:
        other.put(77, 7)
        other.from_dask_dataframe(frame)
        same("shards of a data frame", (keys.tolist(), (keys * 2).tolist()), tuple(it.tolist() for it in other.range_arrays()))
        same("their bounds", shards.bounds(), other.bounds())
        table = pandas.DataFrame({"price": [5, 6, 7]}, index=[10, 20, 30])
        other.from_dask_dataframe(dask.dataframe.from_pandas(table, npartitions=2), "price")
        same("shards of another one", [(10, 5), (20, 6), (30, 7)], other.range(0, GREATEST))
        unknown = dask.dataframe.from_pandas(table, npartitions=2, sort=False)
        raises("unknown divisions", ValueError, "are not known", other.from_dask_dataframe, unknown, "price")
        wrong = dask.dataframe.from_pandas(table, npartitions=2)
        wrong.divisions = (10, 15, 30)
        raises("wrong divisions", ShardError, "its divisions are", other.from_dask_dataframe, wrong, "price")
        same("then it is as before", [(10, 5), (20, 6), (30, 7)], other.range(0, GREATEST))
    shutil.rmtree(os.path.join(folder, "of-frame"))


def network(folder: str) -> None:
    """Workers in network namespaces, with TLS, of which one is cut off."""
    tried = subprocess.run(["unshare", "-n", "ip", "link"], stdout=subprocess.DEVNULL, stderr=subprocess.DEVNULL, check=False)
    if os.geteuid() or tried.returncode or not shutil.which("openssl"):
        skip("network namespaces", "they need root, iproute2 and openssl")
        return
    # (a part of the numbers of the long runs, since each message is encrypted on both sides)
    words = [
        os.path.join(os.path.dirname(os.path.abspath(__file__)), "network.py"),
        folder,
        PROGRAM,
        str(LINES // 20),
        str(KEYS // 2),
    ]
    done = subprocess.run([sys.executable, *words], stdout=subprocess.PIPE, timeout=1200, check=False)
    print(done.stdout.decode(), end="", flush=True)
    same("workers in network namespaces", (0, True), (done.returncode, b"\nsame " in done.stdout))


def module(folder: str) -> None:
    """python3 -m sweep_bptree_shards, beside the program."""

    def run(text: bytes, *words: str, target=subprocess.PIPE):
        asked = [sys.executable, "-m", "sweep_bptree_shards", *words]
        return subprocess.run(asked, input=text, stdout=target, stderr=subprocess.PIPE, timeout=120, check=False)

    text = b"\n".join(drawn.lines(30_000, 21, 4000)) + b"\n" + b"1" * 3_000_000 + b"\nput 7 " + b"1" * 3_000_000 + b"\nall\nlen"
    wanted = subprocess.run([PROGRAM], input=text, stdout=subprocess.PIPE, check=True).stdout
    done = run(text, "--shards", "4", "--workers", "2")
    same("the module, its status", (0, b""), (done.returncode, done.stderr))
    same("the module, its replies", True, done.stdout == wanted)
    at = os.path.join(folder, "kept")
    done = run(b"put 1 10\nput 2 20\n", "--folder", at, "--workers", "1")
    same("a folder, the first run", (0, b"new\nnew\n", b""), (done.returncode, done.stdout, done.stderr))
    done = run(b"put 2 21\nall", "--folder", at, "--workers", "1")
    same("a folder, the next run", (0, b"old 20\n1 10,2 21\n", b""), (done.returncode, done.stdout, done.stderr))
    with open("/dev/full", "wb") as target:
        done = run(b"len\n", "--workers", "1", target=target)
    same("a full device as output", (1, b"i/o fault\n"), (done.returncode, done.stderr))
    os.truncate(os.path.join(at, "table"), 9)
    done = run(b"all\n", "--folder", at, "--workers", "1")
    same("a table that is cut off", (1, b"", True), (done.returncode, done.stdout, b"is not as it was written" in done.stderr))


# The trials by what they need: nothing; a folder; a folder, the program and the library; and also a client of workers.
ROUTES = (table_of_routes, table_of_indexes, routes_beside_a_list, routes_beside_the_proved)
FILES = (logs, stores)
ALONE = (full_disks, full_each, one_shard, redone, refused, module, network)
ON_WORKERS = (
    *(calls, arrays, emptied_shards, small_shards, killed_between, killed_client, cut_moves),
    *(full_disk, lost_cancels, lost_workers, lost_power),
)
# Each of these has workers of its own.
LONG = (columns_run, long_run)
WORKERS = 3


def all_there(client) -> None:
    """Waits until those workers that were killed are there again, for a minute at most."""
    client.wait_for_workers(WORKERS, timeout=60)


def main() -> int:
    if len(sys.argv) == 5:
        serve_until_killed(*sys.argv[3:])
        return 0
    alone = {"full": lambda it: fill(it, True), "small": lambda it: fill(it, False), "refused": refuse_each}.get(
        sys.argv[2] if len(sys.argv) == 4 else ""
    )
    if alone:
        alone(os.path.join(sys.argv[3], "shard"))
        return 0

    # (what a killed worker leaves unread)
    logging.getLogger("asyncio").setLevel(logging.CRITICAL)
    with tempfile.TemporaryDirectory(prefix="sweep-bptree-trials-") as top:

        def of(function, *before):
            def run():
                folder = os.path.join(top, function.__name__)
                os.makedirs(folder)
                try:
                    function(*before, folder)
                    for client in before:
                        all_there(client)
                finally:
                    shutil.rmtree(folder, ignore_errors=True)

            run.__name__ = function.__name__
            return run

        trial(*ROUTES)
        trial(*(of(it) for it in (*FILES, *ALONE)))
        library = build_refuse(top)
        if library:
            os.environ["LD_PRELOAD"] = library
        for group in (ON_WORKERS, *((it,) for it in LONG)):
            with local_client(workers=WORKERS) as client:
                trial(*(of(it, client) for it in group))
    print(f"{passed} passed, {failed} failed{f', {skipped} skipped' if skipped else ''}")
    return failed > 0


if __name__ == "__main__":
    sys.exit(main())
