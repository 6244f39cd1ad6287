"""Engines that a test names by --executor."""

import logging
from concurrent.futures import Executor, ThreadPoolExecutor


def dask() -> Executor:
    """Dask's, with two worker processes of this machine."""
    from distributed import Client, LocalCluster
    cluster = LocalCluster(n_workers=2, threads_per_worker=1, processes=True, dashboard_address=None, silence_logs=logging.CRITICAL)
    return Client(cluster).get_executor()


def thread() -> Executor:
    return ThreadPoolExecutor(1)


def nothing() -> None:
    """What is no engine."""
