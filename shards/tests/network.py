"""Workers on other machines: each in a network namespace of its own, with TLS between all of them, and one that is cut off.

    network.py FOLDER PROGRAM LINES KEYS    needs root: makes namespaces and certificates, and runs the trial in one of them

Prints 'same N' for N comparisons that hold, and ends with an error otherwise.
"""

from __future__ import annotations

import os
import subprocess
import sys
import threading
import time

import drawn
import numpy
from distributed import Client
from distributed.security import Security
from model import Model, by_program
from sweep_bptree_shards import Shards

WORKERS = 3
TURNS = 60
# (addresses of the namespaces alone)
NET, PORT = "10.77.0", 8786
# Dask gives up a connection that is silent for so long, which is the least that it takes.
SILENCE = "11s"


def run(*words: str) -> None:
    subprocess.run(words, check=True, stdout=subprocess.DEVNULL, stderr=subprocess.PIPE)


def certificates(folder: str) -> list[str]:
    """Makes an authority, and a certificate that it signed. Returns the options for the scheduler and the workers."""
    at = {name: os.path.join(folder, name) for name in ("ca.pem", "ca.key", "node.pem", "node.key", "node.csr")}
    curve = ["-newkey", "ec", "-pkeyopt", "ec_paramgen_curve:prime256v1", "-nodes"]
    run("openssl", "req", "-x509", *curve, "-days", "30", "-subj", "/CN=shards", "-keyout", at["ca.key"], "-out", at["ca.pem"])
    run("openssl", "req", *curve, "-subj", "/CN=node", "-keyout", at["node.key"], "-out", at["node.csr"])
    signed = ["-CA", at["ca.pem"], "-CAkey", at["ca.key"], "-CAcreateserial", "-days", "30"]
    run("openssl", "x509", "-req", "-in", at["node.csr"], *signed, "-out", at["node.pem"])
    return ["--tls-ca-file", at["ca.pem"], "--tls-cert", at["node.pem"], "--tls-key", at["node.key"]]


class Network:
    """A namespace for the scheduler and the client, and one for each worker, with a bridge in the first."""

    def __init__(self):
        self.hub, *self.others = (f"shards-{os.getpid()}-{number}" for number in range(WORKERS + 1))
        self.made: list[str] = []

    def __enter__(self) -> Network:
        try:
            for name in (self.hub, *self.others):
                run("ip", "netns", "add", name)
                self.made.append(name)
                run("ip", "-n", name, "link", "set", "lo", "up")
            run("ip", "-n", self.hub, "link", "add", "bridge", "type", "bridge")
            run("ip", "-n", self.hub, "addr", "add", f"{NET}.1/24", "dev", "bridge")
            run("ip", "-n", self.hub, "link", "set", "bridge", "up")
            for number, name in enumerate(self.others):
                run("ip", "-n", self.hub, "link", "add", f"to{number}", "type", "veth", "peer", "name", "eth", "netns", name)
                run("ip", "-n", self.hub, "link", "set", f"to{number}", "master", "bridge", "up")
                run("ip", "-n", name, "addr", "add", f"{NET}.{10 + number}/24", "dev", "eth")
                run("ip", "-n", name, "link", "set", "eth", "up")
        except BaseException:
            self.__exit__()
            raise
        return self

    def __exit__(self, *_) -> None:
        for name in self.made:
            subprocess.run(["ip", "netns", "del", name], check=False)


def main() -> int:
    folder = sys.argv[1]
    if len(sys.argv) > 5:
        trial(sys.argv[5], sys.argv[6:], folder, sys.argv[2], int(sys.argv[3]), int(sys.argv[4]))
        return 0
    os.environ.update(
        DASK_DISTRIBUTED__COMM__TIMEOUTS__TCP=SILENCE,
        DASK_DISTRIBUTED__COMM__TIMEOUTS__CONNECT="10s",
        DASK_DISTRIBUTED__COMM__REQUIRE_ENCRYPTION="True",
        DASK_LOGGING__DISTRIBUTED="critical",
    )
    started: list[subprocess.Popen] = []

    def start(where: str, *words: str) -> None:
        log = open(os.path.join(folder, f"log-{len(started)}"), "wb")
        started.append(subprocess.Popen(["ip", "netns", "exec", where, sys.executable, "-m", *words], stdout=log, stderr=log))

    with Network() as network:
        tls = certificates(folder)
        try:
            start(network.hub, "distributed.cli.dask_scheduler", "--host", f"{NET}.1", "--port", str(PORT), "--no-dashboard", *tls)
            for number, name in enumerate(network.others):
                options = ["--host", f"{NET}.{10 + number}", "--nthreads", "1", "--memory-limit", "0", "--no-dashboard"]
                options += ["--local-directory", os.path.join(folder, f"worker-{number}")]
                start(name, "distributed.cli.dask_worker", f"tls://{NET}.1:{PORT}", *options, *tls)
            asked = [
                "ip",
                "netns",
                "exec",
                network.hub,
                sys.executable,
                os.path.abspath(__file__),
                *sys.argv[1:],
                network.hub,
                *tls,
            ]
            return subprocess.run(asked, check=False, timeout=1000).returncode
        finally:
            for it in started:
                it.terminate()
            for it in started:
                try:
                    it.wait(20)
                except subprocess.TimeoutExpired:
                    it.kill()


def trial(hub: str, tls: list[str], folder: str, program: str, lines: int, keys: int) -> None:
    """In the namespace of the scheduler: arrays beside a plain sorted array and lines beside the program, while a worker is cut off."""
    security = Security(tls_ca_file=tls[1], tls_client_cert=tls[3], tls_client_key=tls[5], require_encryption=True)
    with Client(f"tls://{NET}.1:{PORT}", security=security) as client:
        client.wait_for_workers(WORKERS, timeout=60)
        by_arrays = Shards(client, os.path.join(folder, "arrays"), shards=6, least=64)
        by_lines = Shards(client, os.path.join(folder, "lines"), shards=6, least=64)
        with by_arrays, by_lines:
            same, longest = batches(client, by_arrays, by_lines, hub, program, lines, keys)
            for name, shards in (("arrays", by_arrays), ("lines", by_lines)):
                assert shards.counts["opened again"] > 0 and shards.counts["splits"] > 0, shards.counts
                print(f"{name}: {shards.counts}", flush=True)
            # The command line over the same cluster.
            words = ["--scheduler", f"tls://{NET}.1:{PORT}", *tls, "--shards", "4", "--folder", os.path.join(folder, "by-module")]
            asked = drawn.lines(5000, 19, 1000)
            module = [sys.executable, "-m", "sweep_bptree_shards", *words]
            done = subprocess.run(module, input=b"".join(it + b"\n" for it in asked), stdout=subprocess.PIPE, timeout=120, check=True)
            assert done.stdout.split(b"\n")[:-1] == by_program(program, asked), "the command line"
        print(f"a call took {longest:.1f} s, while a worker was cut off\nsame {same}", flush=True)


def batches(client, by_arrays, by_lines, hub: str, program: str, lines: int, keys: int) -> tuple[int, float]:
    """Makes calls, and returns how many comparisons held and how long the longest call took."""
    draw = numpy.random.default_rng(4)
    model, size = Model(), keys // TURNS // 4
    asked = drawn.lines(lines, 17, 10_000, max(lines // 50, 1))
    wanted, replies = by_program(program, asked), []
    same, longest, victim = 0, 0.0, None

    def timed(call, *arguments):
        nonlocal longest
        began = time.monotonic()
        result = call(*arguments)
        longest = max(longest, time.monotonic() - began)
        return result

    for turn in range(TURNS):
        if turn == 21:
            # A worker that has shards goes away without a word while a batch is under way.
            victim = int(by_arrays._cluster.locations[1].worker.split(":")[1].split(".")[-1]) - 10
            threading.Timer(0.03, run, ("ip", "-n", hub, "link", "set", f"to{victim}", "down")).start()
        if turn == 40:
            # And comes back.
            run("ip", "-n", hub, "link", "set", f"to{victim}", "up")
        given = draw.integers(0, 1 << 62, size).astype(numpy.uint64)
        if turn % 3 == 2:
            given[: size // 2] = draw.choice(model.keys, size // 2)
            assert numpy.array_equal(timed(by_arrays.del_many, given), model.remove(given)), f"a removal, turn {turn}"
        else:
            for start in range(0, size, size // 5):
                timed(by_arrays.put_many, given[start : start + size // 5], given[start : start + size // 5] // 3)
            model.put(given, given // 3)
        found = numpy.concatenate([given[: size // 2], draw.choice(model.keys, size - size // 2)])
        values, is_there = timed(by_arrays.get_many, found)
        at, there = model.where(found)
        assert numpy.array_equal(is_there, there), f"whether keys are there, turn {turn}"
        assert numpy.array_equal(values[there], model.values[at[there]]), f"values, turn {turn}"
        assert numpy.array_equal(timed(by_arrays.rank_many, found), at), f"ranks, turn {turn}"
        index = draw.integers(0, len(model.keys), size)
        for came, right in zip(timed(by_arrays.at_many, index), (model.keys[index], model.values[index], index >= 0)):
            assert numpy.array_equal(came, right), f"pairs at indexes, turn {turn}"
        if turn % 5 == 0 or 20 < turn < 25:
            for came, right in zip(timed(by_arrays.range_arrays), (model.keys, model.values)):
                assert numpy.array_equal(came, right), f"all pairs, turn {turn}"
        piece = asked[turn * lines // TURNS : (turn + 1) * lines // TURNS]
        replies += timed(by_lines.answer, piece)
        assert replies == wanted[: len(replies)], f"lines, turn {turn}"
        same += 5
    assert len(replies) == lines and longest > 5, f"no call waited for the worker that was cut off, but {longest:.1f} s at most"
    return same, longest


if __name__ == "__main__":
    sys.exit(main())
