"""The errors of this package."""

from __future__ import annotations

__all__ = ["BatchError", "BrokenError", "LostError", "NotWrittenError", "OutOfMemoryError", "ShardError"]


class ShardError(Exception):
    """A call that failed. What it was to change is not changed, neither now nor after the folder is opened again."""


class OutOfMemoryError(ShardError):
    """An allocation failed in a worker."""


class NotWrittenError(ShardError):
    """A log, a snapshot or the table cannot be written, as on a full disk."""


class BrokenError(ShardError):
    """A file does not contain what was written to it."""


class LostError(ShardError):
    """No worker can be reached that could open a shard."""


class BatchError(ShardError):
    """A batch of lines failed. ``error`` is the reason, and ``replies`` has the replies to the batches before it."""

    def __init__(self, error: Exception, replies: list[bytes]):
        super().__init__(error, replies)
        self.error = error
        self.replies = replies

    @property
    def answers(self) -> list[bytes]:
        """The earlier name of ``replies``, which stays as an alias."""
        return self.replies

    def __str__(self) -> str:
        return str(self.error)


class InUseError(ShardError):
    """Another process has the folder of a shard."""


class NotOpenError(ShardError):
    """The worker does not have the shard: the client opens it again."""
