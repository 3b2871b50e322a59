"""Times calls for arrays and lines over shards, each worker in a process of its own, beside one process, and the log beside sqlite3.

    speed.py PROGRAM [PAIRS]    PAIRS are in the shards (1,000,000), and ten times as many in the large load

Prints 'WHAT SHARDS BATCH CALLS-A-SECOND CLIENT-US WORKER-US': the median of five runs, and of the processor the microseconds for each
key or line, in the client and in all workers.
"""

from __future__ import annotations

import os
import random
import resource
import sqlite3
import statistics
import subprocess
import sys
import tempfile
import time
from array import array

import numpy
from sweep_bptree_shards import Shards, local_client
from sweep_bptree_shards.held import Map
from sweep_bptree_shards.log import Log
from sweep_bptree_shards.shard import Shard

PAIRS = int(sys.argv[2]) if len(sys.argv) > 2 else 1_000_000
KEYS = 1 << 40
WORKERS = 4
RUNS = 5


def used() -> float:
    it = resource.getrusage(resource.RUSAGE_SELF)
    return it.ru_utime + it.ru_stime


def size() -> int:
    """The memory of this process, in bytes."""
    with open("/proc/self/statm", encoding="ascii") as it:
        return int(it.read().split()[1]) * os.sysconf("SC_PAGE_SIZE")


def say(what: str, shards, batch, rates: list[float], *others: float) -> None:
    rate = statistics.median(rates)
    print(what, shards, batch, f"{rate:.0f}" if rate >= 1000 else f"{rate:.4g}", *(f"{it:.3g}" for it in others), flush=True)


def timed(what: str, client, shards: Shards, batch: int, count: int, call, pieces) -> None:
    """Times a call of each piece, of a batch each."""
    call(pieces[0])
    rates, at_work = [], (used(), sum(client.run(used).values()))
    for _ in range(RUNS):
        began = time.perf_counter()
        for piece in pieces:
            call(piece)
        rates.append(count / (time.perf_counter() - began))
    own, others = used() - at_work[0], sum(client.run(used).values()) - at_work[1]
    say(what, len(shards.lengths()), batch, rates, own / count / RUNS * 1e6, others / count / RUNS * 1e6)


def calls(client, shards: Shards, keys: numpy.ndarray, sync: bool, batches: tuple) -> None:
    for batch, number in batches:
        drawn = numpy.random.default_rng(batch).choice(keys, number)
        pieces = [drawn[start : start + batch] for start in range(0, number, batch)]

        def run(what: str, call) -> None:
            timed(what, client, shards, batch, number, call, pieces)

        if sync:
            run("get_many", shards.get_many)
            run("rank_many", shards.rank_many)
            indexes = [numpy.searchsorted(keys, piece) for piece in pieces]
            timed("at_many", client, shards, batch, number, shards.at_many, indexes)
        run("put_many" if sync else "put_many-no-sync", lambda piece: shards.put_many(piece, piece))
        if sync and batch >= 10_000:
            # (what it removes is put back, and that is counted too)
            run("del_many-and-put_many", lambda piece: (shards.del_many(piece), shards.put_many(piece, piece)))


def lines(client, shards: Shards, keys: numpy.ndarray, batch: int, number: int) -> None:
    draw = random.Random(batch)
    among = draw.choices(keys.tolist(), k=number)
    for name, made in (("get", b"get %d"), ("rank", b"rank %d"), ("put", b"put %d 7")):
        asked = [made % key for key in among]
        pieces = [asked[start : start + batch] for start in range(0, number, batch)]
        timed(f"line-{name}", client, shards, batch, number, shards.answer, pieces)


def over_shards(keys: numpy.ndarray) -> None:
    with tempfile.TemporaryDirectory(prefix="sweep-bptree-speed-") as folder, local_client(WORKERS) as client:
        for count in (1, 2, 4, 64):
            for sync in (True, False) if count < 64 else (True,):
                with Shards(client, os.path.join(folder, f"{count}-{sync}"), shards=count, limit=1 << 40, sync=sync) as shards:
                    if count == 1 and sync:
                        messages(client, shards)
                    shards.from_arrays(keys, keys)
                    assert len(shards.lengths()) == count, shards.lengths()
                    few = ((1, 300), (100, 30_000)) if sync and count < 64 else ()
                    calls(client, shards, keys, sync, (*few, (10_000, 200_000), (100_000, 1_000_000)))
                    if sync and count in (1, 4):
                        lines(client, shards, keys, 10_000, 100_000)
        with Shards(client, os.path.join(folder, "large"), shards=WORKERS, limit=1 << 40) as shards:
            large = numpy.random.default_rng(2).integers(0, 1 << 62, 10 * PAIRS).astype(numpy.uint64)
            for name, given in (("random", large), ("ascending", numpy.sort(large))):
                times = []
                for _ in range(3):
                    began = time.perf_counter()
                    shards.from_arrays(given, given)
                    times.append(time.perf_counter() - began)
                say(f"from_arrays-{name}-seconds", WORKERS, len(large), times)


def messages(client, shards: Shards) -> None:
    """The round trip of an empty message, to one worker, and to four at once: what Dask itself takes."""
    cluster = shards._cluster
    workers = list(client.nthreads())

    async def many(count: int) -> None:
        import asyncio

        await asyncio.gather(*(cluster.send(worker, "close", handles=[]) for worker in workers[:count]))

    for worker in workers:
        shards._run(cluster._install, worker)
    for count in (1, WORKERS):
        for _ in range(50):
            shards._run(many, count)
        times, at_work = [], (used(), sum(client.run(used).values()))
        for _ in range(500):
            began = time.perf_counter()
            shards._run(many, count)
            times.append(time.perf_counter() - began)
        own, others = used() - at_work[0], sum(client.run(used).values()) - at_work[1]
        each = 1e3 / 500 / count
        say("message-milliseconds", count, 0, [it * 1e3 for it in times], min(times) * 1e3, own * each, others * each)


def one_process(program: str, keys: numpy.ndarray) -> None:
    """The map itself in one process, and the program with one file."""
    held, words = Map(), array("Q", keys.tobytes())
    held.put_many(words, words)
    drawn = numpy.random.default_rng(3).choice(keys, 100_000)
    found, there = numpy.empty_like(drawn), numpy.empty(len(drawn), numpy.uint8)
    for name, arrays in (("get", (drawn, found, there)), ("rank", (drawn, found)), ("put", (drawn, drawn))):
        rates = []
        for _ in range(2 * RUNS):
            began = time.perf_counter()
            held.many(name, len(drawn), [it.ctypes.data for it in arrays])
            rates.append(len(drawn) / (time.perf_counter() - began))
        say(f"library-{name}_many", "-", len(drawn), rates)
    held.close()
    puts = b"".join(b"put %d 1\n" % key for key in keys.tolist())
    text = b"".join(b"get %d\n" % key for key in drawn.tolist()) * 5
    rates = []
    for _ in range(3):
        times = []
        for given in (puts, puts + text):
            began = time.perf_counter()
            subprocess.run([program], input=given, stdout=subprocess.PIPE, check=True)
            times.append(time.perf_counter() - began)
        rates.append(5 * len(drawn) / (times[1] - times[0]))
    say("program-get", "-", "file", rates)


def one_shard(keys: numpy.ndarray) -> None:
    """A shard of all pairs, put in random order: its memory, its files, and how long it takes to be opened again."""
    with tempfile.TemporaryDirectory(prefix="sweep-bptree-speed-") as folder:
        before = size()
        shard = Shard(folder, sync=False)
        shuffled = numpy.random.default_rng(4).permutation(keys)
        for number, start in enumerate(range(0, len(keys), 10_000)):
            piece = shuffled[start : start + 10_000].tobytes()
            shard.begin(b"x" * 16, number + 1, "put", [piece, piece])
            shard.finish(b"x" * 16, number + 1, "put", [piece, piece])
        pairs = len(shard)
        print(f"memory of a shard: {(size() - before) / pairs:.1f} bytes a pair", flush=True)
        shard.close()
        files = sum(os.path.getsize(os.path.join(folder, name)) for name in os.listdir(folder))
        began = time.perf_counter()
        shard = Shard(folder, sync=False)
        took = time.perf_counter() - began
        print(f"opening of a shard: {took / pairs * 1e6:.3f} us a pair, with {files / pairs:.1f} bytes a pair on disk", flush=True)
        shard.close()


def logs() -> None:
    """A record of a batch that is on the disk, in a log of this package and in a table of sqlite3."""
    for length in (32, 1_600, 400_000):
        data = os.urandom(length)
        for sync in (True, False):
            with tempfile.TemporaryDirectory(prefix="sweep-bptree-speed-") as folder:
                log = Log(os.path.join(folder, "log"), sync)
                base = sqlite3.connect(os.path.join(folder, "base"), isolation_level=None)
                base.execute("pragma journal_mode=wal")
                base.execute(f"pragma synchronous={'full' if sync else 'off'}")
                base.execute("create table batches (number integer primary key, batch blob)")

                def to_log() -> None:
                    log.append(data)
                    log.flush()

                def to_base() -> None:
                    base.execute("insert into batches (batch) values (?)", (data,))

                for name, call in (("log", to_log), ("sqlite3", to_base)):
                    times = []
                    for _ in range(200 if length < 100_000 else 50):
                        began = time.perf_counter()
                        call()
                        times.append((time.perf_counter() - began) * 1e6)
                    say(f"{name}-{'sync' if sync else 'no-sync'}-microseconds", "-", length, times)
                base.close()
                log.close()


def main() -> None:
    keys = numpy.unique(numpy.random.default_rng(1).integers(0, KEYS, PAIRS).astype(numpy.uint64))
    logs()
    one_shard(keys)
    one_process(sys.argv[1], keys)
    over_shards(keys)


if __name__ == "__main__":
    main()
