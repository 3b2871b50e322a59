"""Records in a file, each of which is there in whole or not at all, and the folder of a shard: its snapshot and its log.

A record is its length, a checksum of its length and its bytes, and its bytes. A file is read up to the first record that is torn
or whose checksum differs. The rest of a log is cut off. A snapshot is never torn, since it gets its name once it is written.
"""

from __future__ import annotations

import fcntl
import os
import struct
import time
import zlib
from collections.abc import Iterable, Iterator

from .errors import BrokenError, InUseError, NotWrittenError

__all__ = ["Log", "Store", "read_records", "sync_folder", "write_whole"]

_HEAD = struct.Struct("<II")
# A record has at most so many bytes, so that a torn length does not read far.
_MOST = 1 << 31
# One call of the system writes at most so many buffers.
_BUFFERS = 64


def _record(*pieces) -> list:
    """A record of these bytes, one after another, as buffers to be written."""
    length = sum(map(len, pieces))
    if length > _MOST:
        raise NotWrittenError(f"a record of {length} bytes is too long: pass fewer keys in one call")
    # (with the length, so that zeros are no record)
    checksum = zlib.crc32(length.to_bytes(4, "little"))
    for piece in pieces:
        checksum = zlib.crc32(piece, checksum)
    return [_HEAD.pack(length, checksum), *pieces]


def read_records(data: bytes) -> Iterator[tuple[int, memoryview]]:
    """Each whole record with the position behind it, up to the first that is torn."""
    at, view = 0, memoryview(data)
    while at + _HEAD.size <= len(data):
        length, checksum = _HEAD.unpack_from(data, at)
        at += _HEAD.size
        found = view[at : at + length]
        if length > _MOST or len(found) < length or zlib.crc32(found, zlib.crc32(length.to_bytes(4, "little"))) != checksum:
            return
        at += length
        yield at, found


def _write(file: int, pieces: Iterable) -> int:
    """Writes all of these bytes, and returns how many they are."""
    rest = [memoryview(piece) for piece in pieces if len(piece)]
    length = sum(map(len, rest))
    at = 0
    while at < len(rest):
        done = os.writev(file, rest[at : at + _BUFFERS])
        while at < len(rest) and done >= len(rest[at]):
            done -= len(rest[at])
            at += 1
        if done:
            rest[at] = rest[at][done:]
    return length


def sync_folder(folder: str) -> None:
    file = os.open(folder, os.O_RDONLY | os.O_DIRECTORY)
    try:
        os.fsync(file)
    finally:
        os.close(file)


def write_whole(path: str, pieces: Iterable, sync: bool = True) -> int:
    """Replaces a file by one of these bytes, and returns how many they are. After a failure or a crash the old file is there."""
    beside = path + ".new"
    try:
        file = os.open(beside, os.O_WRONLY | os.O_CREAT | os.O_TRUNC | os.O_CLOEXEC, 0o666)
        try:
            length = _write(file, pieces)
            if sync:
                os.fsync(file)
        finally:
            os.close(file)
        os.rename(beside, path)
        if sync:
            sync_folder(os.path.dirname(path))
        return length
    except OSError as error:
        try:
            os.unlink(beside)
        except OSError:
            pass
        raise NotWrittenError(f"{path} cannot be written: {error.strerror}") from error


class Log:
    """An append-only file of records. With ``sync`` the records are on the disk itself once ``flush`` has returned."""

    def __init__(self, path: str, sync: bool = True):
        self.path = path
        self.sync = sync
        self._file = os.open(path, os.O_RDWR | os.O_CREAT | os.O_CLOEXEC, 0o666)
        self._is_torn = False
        #: each record with the offset of its first byte
        self.records: list[tuple[int, memoryview]] = []
        self.length = 0
        with open(path, "rb") as it:
            data = it.read()
        for end, record in read_records(data):
            self.records.append((self.length, record))
            self.length = end
        #: how many bytes were behind the last whole record
        self.cut = len(data) - self.length
        if self.cut:
            self.cut_to(self.length)
        os.lseek(self._file, self.length, os.SEEK_SET)

    def cut_to(self, length: int) -> None:
        """Removes the records from a position on. That takes no room on the disk."""
        # (a failure leaves a torn log)
        self._is_torn = True
        try:
            os.ftruncate(self._file, length)
            if self.sync:
                os.fsync(self._file)
            os.lseek(self._file, length, os.SEEK_SET)
        except OSError as error:
            raise NotWrittenError(f"{self.path} cannot be cut off: {error.strerror}") from error
        self._is_torn, self.length = False, length

    def append(self, *pieces) -> None:
        """Writes a record. If that fails the file is as it was."""
        if self._is_torn:
            raise NotWrittenError(f"{self.path} cannot be written: an earlier record is torn, so open it again")
        record = _record(*pieces)
        try:
            self.length += _write(self._file, record)
        except OSError as error:
            try:
                self.cut_to(self.length)
            except NotWrittenError:
                # (it is cut off when the file is opened again)
                pass
            raise NotWrittenError(f"{self.path} cannot be written: {error.strerror}") from error

    def flush(self) -> None:
        """With ``sync``, waits for the disk."""
        if self.sync:
            self.to_disk()

    def to_disk(self) -> None:
        """Waits for the disk."""
        try:
            os.fdatasync(self._file)
        except OSError as error:
            raise NotWrittenError(f"{self.path} cannot be written: {error.strerror}") from error

    def close(self) -> None:
        if self._file >= 0:
            os.close(self._file)
            self._file = -1


class Store:
    """The folder of a shard: a snapshot, and the log of what was done since. One process at a time has it.

    ``pieces`` are the records of the snapshot, and ``log.records`` those of the log, as ``read`` found them.
    """

    def __init__(self, folder: str, sync: bool = True, patience: float = 0.2):
        self.folder = folder
        self.sync = sync
        self.log: Log | None = None
        try:
            os.makedirs(folder, exist_ok=True)
            self._lock = os.open(os.path.join(folder, "lock"), os.O_RDWR | os.O_CREAT | os.O_CLOEXEC, 0o666)
        except OSError as error:
            raise NotWrittenError(f"{folder} cannot be made: {error.strerror}") from error
        try:
            self._take_lock(patience)
        except BaseException:
            self.close()
            raise

    def _take_lock(self, patience: float) -> None:
        end = time.monotonic() + patience
        while True:
            try:
                fcntl.flock(self._lock, fcntl.LOCK_EX | fcntl.LOCK_NB)
                return
            except BlockingIOError:
                # (a process that was killed just now may still be ending)
                if time.monotonic() > end:
                    raise InUseError(f"{self.folder} is in use by another process") from None
                time.sleep(0.01)

    @property
    def _snapshot(self) -> str:
        return os.path.join(self.folder, "snapshot")

    def _log_path(self, turn: int) -> str:
        return os.path.join(self.folder, f"log-{turn}")

    def read(self) -> None:
        """Reads the snapshot and the log."""
        if self.log is not None:
            self.log.close()
        self.turn = 0
        self.pieces: list[memoryview] = []
        self.snapshot_length = 0
        try:
            if os.path.exists(self._snapshot):
                with open(self._snapshot, "rb") as it:
                    data = it.read()
                ends = list(read_records(data))
                if not ends or ends[-1][0] != len(data) or ends[-1][1] != b"end %d" % len(ends):
                    raise BrokenError(f"{self._snapshot} is not as it was written")
                self.turn = int(bytes(ends[0][1]))
                self.pieces = [piece for _, piece in ends[1:-1]]
                self.snapshot_length = len(data)
            self.log = Log(self._log_path(self.turn), self.sync)
            # (logs that a later snapshot has taken in, and files that were not finished)
            for name in os.listdir(self.folder):
                if name.endswith(".new") or (name.startswith("log-") and name != f"log-{self.turn}"):
                    os.unlink(os.path.join(self.folder, name))
            if self.sync:
                sync_folder(self.folder)
        except OSError as error:
            raise NotWrittenError(f"{self.folder} cannot be opened: {error.strerror}") from error

    def snapshot(self, pieces: Iterable[list]) -> None:
        """Writes a snapshot of these records, each some buffers, and begins a new log. If that fails the old ones stay."""
        turn = self.turn + 1
        records = [_record(b"%d" % turn), *(_record(*piece) for piece in pieces)]
        records.append(_record(b"end %d" % (len(records) + 1)))
        # The new log is there, and empty, before the snapshot that it follows.
        try:
            fresh = Log(self._log_path(turn), self.sync)
        except OSError as error:
            raise NotWrittenError(f"{self._log_path(turn)} cannot be made: {error.strerror}") from error
        try:
            length = write_whole(self._snapshot, (buffer for record in records for buffer in record), self.sync)
        except BaseException:
            fresh.close()
            # (the new snapshot may be there, and the folder could not be synced)
            self.read()
            self.pieces = self.log.records = []
            raise
        self.log.close()
        try:
            os.unlink(self.log.path)
        except OSError:
            pass
        self.log, self.turn, self.snapshot_length = fresh, turn, length

    def close(self) -> None:
        if self._lock >= 0:
            if self.log is not None:
                self.log.close()
            os.close(self._lock)
            self._lock = -1
