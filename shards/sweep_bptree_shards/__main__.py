"""Reads commands from standard input, and prints the same replies as the program ``bptree``.

    python3 -m sweep_bptree_shards [--shards N] [--workers N] [--folder DIR] < FILE
    python3 -m sweep_bptree_shards [--shards N] --folder DIR --scheduler ADDRESS [--tls-ca-file F --tls-cert F --tls-key F] < FILE

The first one starts workers on this machine, the second one uses those of a scheduler. With a folder the pairs stay there, and the
next run begins with them. The status is 0 at the end of the input, 1 if reading, writing or a worker fails, and 3 if an allocation
fails.
"""

from __future__ import annotations

import argparse
import os
import sys
import tempfile

from collections.abc import Iterator
from contextlib import contextmanager

from distributed import Client
from distributed.security import Security

from . import BatchError, OutOfMemoryError, ShardError, Shards, local_client
from .lines import LONGEST

_BLOCK = 1 << 20


def serve(shards: Shards, source: int, target: int) -> None:
    """Prints a reply to each line of a file. It replies to the lines it has before it waits for more."""
    rest = b""
    while True:
        data = os.read(source, _BLOCK)
        lines = (rest + data).split(b"\n")
        rest = lines.pop()
        if not data and rest:
            lines.append(rest)
        # (what is longer than any good line is bad, however long it is)
        rest = rest[: LONGEST + 1]
        try:
            replies, failed = shards.answer(lines), None
        except BatchError as error:
            replies, failed = error.replies, error
        text = memoryview(b"".join(reply + b"\n" for reply in replies))
        while text:
            text = text[os.write(target, text) :]
        if failed:
            raise failed.error
        if not data:
            return


@contextmanager
def client_of(given: argparse.Namespace) -> Iterator[Client]:
    """A client of workers on this machine, or of a scheduler."""
    if not given.scheduler:
        with local_client(given.workers) as client:
            yield client
        return
    security = Security(
        tls_ca_file=given.tls_ca_file,
        tls_client_cert=given.tls_cert,
        tls_client_key=given.tls_key,
        require_encryption=given.scheduler.startswith("tls://"),
    )
    with Client(given.scheduler, security=security) as client:
        yield client


def main() -> int:
    parser = argparse.ArgumentParser(
        prog="sweep_bptree_shards", description="Reads commands from standard input and prints a reply to each."
    )
    parser.add_argument("--shards", type=int, default=3, help="how many shards it aims at (3)")
    parser.add_argument("--limit", type=int, default=1_000_000, help="how many pairs a shard has at most before it is split (1000000)")
    parser.add_argument("--workers", type=int, default=3, help="how many processes on this machine have them (3)")
    parser.add_argument(
        "--folder",
        help="the folder that stores the pairs, on a disk that all workers can access; by default the pairs are discarded at the end",
    )
    parser.add_argument("--scheduler", help="the address of a scheduler of Dask, such as tls://HOST:8786, in place of workers here")
    parser.add_argument("--tls-ca-file", help="the certificate of the authority that signed those of the cluster")
    parser.add_argument("--tls-cert", help="the certificate of this client")
    parser.add_argument("--tls-key", help="its private key")
    given = parser.parse_args()
    if given.shards < 1 or given.workers < 1:
        parser.error("there is one shard and one worker at least")
    if given.scheduler and not given.folder:
        parser.error("--scheduler needs --folder")
    try:
        with tempfile.TemporaryDirectory(prefix="sweep-bptree-") as beside:
            folder = given.folder or os.path.join(beside, "shards")
            # (what nobody reads again need not reach the disk itself)
            sync = bool(given.folder)
            with client_of(given) as client, Shards(client, folder, given.shards, limit=given.limit, sync=sync) as shards:
                serve(shards, 0, 1)
    except OutOfMemoryError:
        print("out of memory", file=sys.stderr)
        return 3
    except ShardError as error:
        print(error, file=sys.stderr)
        return 1
    except OSError as error:
        print("i/o fault" if not given.scheduler else f"i/o fault: {error}", file=sys.stderr)
        return 1
    return 0


if __name__ == "__main__":
    sys.exit(main())
