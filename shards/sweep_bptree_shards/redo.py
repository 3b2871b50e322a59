"""The redo log of a folder: the batches that the logs of shards may not have on the disk yet.

With ``sync`` the client writes each batch to this file while the shards carry it out, and waits until it is on the disk. The shards
write to their own logs and do not wait: the system brings these to the disk some time later. A worker that is killed loses nothing by
that. A machine that loses power can lose the last records of a log. Then the client, when it opens the shard, sends it the batches of
the redo log that it has not done. The numbers of the batches show which ones these are.

From time to time all shards bring their logs to the disk, and the redo log is emptied.
"""

from __future__ import annotations

import json
import os
import struct
from collections.abc import Callable, Iterator, Sequence

from .log import Log, read_records, sync_folder
from .shard import KINDS

__all__ = ["Redo"]

# Before the columns of a batch, its head as JSON, and before that the length of the head.
_LENGTH = struct.Struct("<Q")


class Redo:
    """The redo log in a folder, which one client has."""

    def __init__(self, folder: str):
        self._log = Log(os.path.join(folder, "redo"))
        self._log.records = []
        sync_folder(folder)
        # The offset of a batch that could not be cut off.
        self._cut: int | None = None

    @property
    def length(self) -> int:
        """How many bytes it has."""
        return self._log.length if self._cut is None else self._cut

    def append(self, client: bytes, kind: str, parts: Sequence[tuple[str, int, int]], columns: Sequence) -> None:
        """Writes a batch, and waits for the disk. ``parts`` has for each shard its name, the number of the batch and its share."""
        if self._cut is not None:
            self.cut_to(self._cut)
        head = json.dumps((client.hex(), kind, parts)).encode("ascii")
        self._log.append(_LENGTH.pack(len(head)), head, *columns)
        self._log.flush()

    def cut_to(self, length: int) -> None:
        """Removes what was appended since it had so many bytes. That takes no room on the disk."""
        self._cut = min(length, self.length)
        self._log.cut_to(self._cut)
        self._cut = None

    def batches(self, is_wanted: Callable[[str, str, int], bool]) -> Iterator[tuple[str, bytes, int, str, list[bytes]]]:
        """The parts of shards in batches: the name of the shard, the client, the number of the batch, its kind, and the columns.

        ``is_wanted`` gets the name, the client in hexadecimal digits, and the number, and says which parts these are.
        """
        with open(self._log.path, "rb") as it:
            data = it.read()
        for _, record in read_records(data if self._cut is None else data[: self._cut]):
            (size,) = _LENGTH.unpack_from(record)
            head = _LENGTH.size + size
            client, kind, parts = json.loads(bytes(record[_LENGTH.size : head]))
            columns, total = [], sum(count for _, _, count in parts)
            for width in KINDS[kind][0]:
                columns.append((width, record[head : head + width * total]))
                head += width * total
            start = 0
            for name, number, count in parts:
                if is_wanted(name, client, number):
                    own = [bytes(column[width * start : width * (start + count)]) for width, column in columns]
                    yield name, bytes.fromhex(client), number, kind, own
                start += count

    def close(self) -> None:
        self._log.close()
