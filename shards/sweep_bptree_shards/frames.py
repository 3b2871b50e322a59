"""Data frames of Dask, with a partition for each shard."""

from __future__ import annotations

import os
from array import array

import dask.dataframe
import numpy
import pandas
from distributed import get_worker, wait

from .arrays import column as words
from .errors import ShardError
from .host import OP
from .shard import Shard

__all__ = ["from_dask_dataframe", "to_dask_dataframe"]


def _frame(keys: array, values: array) -> pandas.DataFrame:
    index = pandas.Index(numpy.asarray(keys), name="key", dtype=numpy.uint64)
    return pandas.DataFrame({"value": numpy.asarray(values)}, index=index)


def _frame_of(handle: int) -> pandas.DataFrame:
    """The pairs of a shard of this worker."""
    return _frame(*get_worker().handlers[OP].__self__.copied(handle))


def to_dask_dataframe(shards):
    cluster, client = shards._cluster, shards.client
    for turn in (1, 2, 3):
        lengths = shards.lengths()
        futures = [client.submit(_frame_of, location.handle, workers=[location.worker], pure=False) for location in cluster.locations]
        wait(futures)
        gone = [location for location, future in zip(cluster.locations, futures) if future.status != "finished"]
        if not gone:
            break
        if turn == 3:
            raise ShardError("the shards can't be copied: a worker is gone") from futures[cluster.locations.index(gone[0])].exception()
        for location in gone:
            cluster.forget(location)
    last = shards.last() if sum(lengths) else None
    lows = [location.low for location in cluster.locations]
    divisions = [*lows, max(lows[-1], last[0] if last else 0)]
    return dask.dataframe.from_delayed(futures, meta=_frame(array("Q"), array("Q")), divisions=divisions, verify_meta=False)


def _stored(frame: pandas.DataFrame, column: str, **given) -> int:
    """Makes the folder of a shard of a partition, and returns how many pairs there are."""
    keys, values = words(frame.index.to_numpy()), words(frame[column].to_numpy())
    low, high = given["low"], given["high"]
    if len(keys) and (keys.min() < low or (high is not None and keys.max() >= high)):
        raise ShardError(f"a partition has keys from {keys.min()} to {keys.max()}, and its divisions are {low} and {high}")
    shard = Shard(**given)
    try:
        shard.take(high, keys.tobytes(), values.tobytes())
        return len(shard)
    finally:
        shard.close()


def from_dask_dataframe(shards, frame, column: str) -> None:
    cluster, client = shards._cluster, shards.client
    if not frame.known_divisions:
        raise ValueError("the divisions of the data frame are not known: frame.set_index(.., sorted=True) finds them")
    lows = [0, *map(int, frame.divisions[1:-1])]
    if lows != sorted(set(lows)) or int(frame.divisions[0]) < 0:
        raise ValueError(f"the divisions do not ascend from 0 on: {frame.divisions}")
    locations = [cluster.fresh(low, high) for low, high in zip(lows, [*lows[1:], None])]
    try:
        futures = [
            client.submit(
                _stored,
                partition,
                column,
                folder=os.path.join(cluster.folder, location.name),
                low=location.low,
                high=location.high,
                sync=cluster.sync,
                pure=False,
            )
            for location, partition in zip(locations, client.compute(frame.to_delayed()))
        ]
        client.gather(futures)
        shards._run(cluster.replace, locations)
    except BaseException:
        shards._run(cluster.drop, locations)
        raise
    shards._see_bounds()
    shards._balance()
