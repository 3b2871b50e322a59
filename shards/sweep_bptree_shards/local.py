"""Workers on this machine alone, in processes of their own."""

from __future__ import annotations

import logging
import os
import tempfile
from collections.abc import Iterator
from contextlib import contextmanager

import dask
from distributed import Client, LocalCluster

__all__ = ["local_client"]


@contextmanager
def local_client(workers: int = 3) -> Iterator[Client]:
    """A client of a cluster of so many workers. All of it listens on the loopback device alone."""
    logging.getLogger("distributed").setLevel(logging.CRITICAL)
    # (for the processes of the workers)
    os.environ.setdefault("DASK_LOGGING__DISTRIBUTED", "critical")
    # (a worker that ends is started again. But if it is not there 15 seconds after it ended, since its start takes long or it ended a
    # second time, Dask by default gives it up for good)
    settings = {"distributed.deploy.lost-worker-timeout": "1000 hours"}
    with tempfile.TemporaryDirectory(prefix="sweep-bptree-") as folder, dask.config.set({"temporary-directory": folder, **settings}):
        cluster = LocalCluster(
            n_workers=workers,
            threads_per_worker=1,
            processes=True,
            host="127.0.0.1",
            dashboard_address="127.0.0.1:0",
            worker_dashboard_address="127.0.0.1:0",
            local_directory=os.path.join(folder, "workers"),
            silence_logs=logging.CRITICAL,
            # (a map is no result of a task that Dask could put aside)
            memory_limit=0,
            # (no extension is used here, and one of them fails if a worker is closed twice at once)
            extensions={},
        )
        try:
            with Client(cluster) as client:
                yield client
        finally:
            cluster.close()
