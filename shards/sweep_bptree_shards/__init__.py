"""One ordered map from numbers to numbers over many machines, on Dask distributed.

    with local_client(workers=3) as client, Shards(client, "folder", shards=4) as shards:
        shards.put_many([7, 9], [70, 90])
        values, found = shards.get_many(numpy.arange(10))
        shards.answer([b"rank 9", b"all"])     # [b'in 1', b'7 70,9 90']

docs/guide/cluster.md has the first steps, and docs/SCALING.md the costs and what happens when a worker dies.
"""

from .client import Shards
from .errors import BatchError, BrokenError, LostError, NotWrittenError, OutOfMemoryError, ShardError
from .local import local_client

__version__ = "0.10.4"

__all__ = ["BatchError", "BrokenError", "LostError", "NotWrittenError", "OutOfMemoryError", "ShardError", "Shards", "local_client"]
