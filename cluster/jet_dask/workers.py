"""Worker processes of this machine, for a run that has no scheduler."""

from __future__ import annotations

import contextlib
import logging
import tempfile
from typing import Iterator, Optional

import dask
from distributed import LocalCluster

# Of the tasks that a lost worker had, those that a scheduler holds back are not given to an idle worker until another task ends or a
# worker comes: so it is to hold back none.
HELD_BACK = "distributed.scheduler.worker-saturation"


@contextlib.contextmanager
def local_workers(count: int, dashboard: Optional[str] = None) -> Iterator[LocalCluster]:
    """So many processes of one thread each, on the loopback, with a folder of their own; they end with the block."""
    logging.getLogger("distributed").setLevel(logging.CRITICAL)
    with tempfile.TemporaryDirectory(prefix="jet-dask-") as folder, dask.config.set({HELD_BACK: float("inf")}):
        with LocalCluster(
            n_workers=count,
            threads_per_worker=1,
            processes=True,
            host="127.0.0.1",
            dashboard_address=dashboard,
            local_directory=folder,
            silence_logs=logging.CRITICAL,
        ) as cluster:
            yield cluster
