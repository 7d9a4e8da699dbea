"""Executors by name: this process, a pool of processes, a cluster of dask, MPI."""

from __future__ import annotations

import multiprocessing
import os
from collections.abc import Callable, Iterator
from concurrent.futures import Executor, Future, ProcessPoolExecutor
from contextlib import contextmanager
from typing import Any

NAMES = ("processes", "here", "dask", "mpi")


class Here(Executor):
    """Runs each call at once, in this process."""

    def submit(self, fn: Callable[..., Any], /, *args: Any, **kwargs: Any) -> Future[Any]:
        """Return the future of a call that is over."""
        future: Future[Any] = Future()
        try:
            future.set_result(fn(*args, **kwargs))
        except Exception as error:  # noqa: BLE001
            future.set_exception(error)
        return future


@contextmanager
def executor(
    name: str, workers: int | None = None, scheduler: str | None = None
) -> Iterator[tuple[Executor, int]]:
    """Give the executor of a name, and how many calls keep it busy.

    Parameters
    ----------
    name : str
        'processes': a pool of processes of this machine. 'here': this process. 'dask': the cluster whose scheduler has
        the address, or one of this machine. 'mpi': the processes of `mpiexec -n N python3 -m mpi4py.futures`.
    workers : int, optional
        The processes; else as many as there are processors.
    scheduler : str, optional
        For dask, as 'tcp://host:8786'.
    """
    if name == "here":
        yield Here(), 1
    elif name == "processes":
        count = workers or os.cpu_count() or 1
        with ProcessPoolExecutor(count, multiprocessing.get_context("spawn")) as pool:
            yield pool, 2 * count
    elif name == "dask":
        from distributed import Client

        local = (
            {} if scheduler else {"n_workers": workers, "threads_per_worker": 1, "dashboard_address": None}
        )
        client: Any = Client(scheduler, **local)  # type: ignore[no-untyped-call]
        with client, client.get_executor() as pool:
            yield pool, 2 * max(1, sum(client.ncores().values()))
    elif name == "mpi":
        from mpi4py import MPI
        from mpi4py.futures import MPIPoolExecutor

        # One process of all submits, and the others work.
        with MPIPoolExecutor(workers) as pool:
            yield pool, 2 * max(1, workers or MPI.COMM_WORLD.Get_size() - 1)
    else:
        raise ValueError(f"an executor is one of {', '.join(NAMES)}")
