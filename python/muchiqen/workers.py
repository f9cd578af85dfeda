"""Runs the tiles of a round: what one worker does, and the pools of workers."""

import json
import logging
import os
import resource
from collections.abc import Callable, Iterable, Iterator
from concurrent.futures import ProcessPoolExecutor, as_completed
from concurrent.futures.process import BrokenProcessPool
from dataclasses import dataclass
from multiprocessing import get_context
from types import TracebackType
from typing import Any, Protocol

import numpy as np
import numpy.typing as npt

from .command import Command
from .errors import NotConfirmed, WorkerLost
from .grid import Places
from .tiles import Task
from .topology import Integers, read

MOST_TRIES = 4
"""How often a tile is tried where its worker dies."""


@dataclass(frozen=True)
class Answer:
    """What a worker gives back for a tile.

    ``kept`` says of each position of the tile's own arcs whether it is left, ``held`` are the
    numbers of own arcs that are held (known where it was certified), ``verdict`` is the checker's
    word or None. ``processor`` is seconds, of this worker and its program; ``memory`` is the most
    bytes that the worker and its largest program had so far.
    """

    tile: int
    kept: npt.NDArray[np.bool_]
    held: list[int]
    verdict: str | None
    worker: int
    processor: float
    memory: tuple[int, int]


def thin_tile(task: Task) -> Answer:
    """Thin one tile: run the command, ask the checker, and tell what is left."""
    before = _processor()
    command = Command.at(task.program)
    text = task.text()
    out = command.simplify(text, task.bound, hold=True, weights=task.weights)
    verdict, held = None, []
    if task.certify:
        certificate = command.layers(text, task.bound, hold=True, weights=task.weights)
        verdict = command.check(text, out, certificate, task.bound, hold=True, weights=task.weights)
        held = [arc for arc in json.loads(certificate)["held"] if arc < task.owned]
    after = read(out)
    kept = kept_positions(
        task.places[: task.starts[task.owned]].astype(np.int64),
        task.starts[: task.owned + 1],
        after.places,
        after.starts,
    )
    memory = _peak(resource.RUSAGE_SELF), _peak(resource.RUSAGE_CHILDREN)
    return Answer(task.tile, kept, held, verdict, os.getpid(), _processor() - before, memory)


def _processor() -> float:
    used = [resource.getrusage(who) for who in (resource.RUSAGE_SELF, resource.RUSAGE_CHILDREN)]
    return sum(usage.ru_utime + usage.ru_stime for usage in used)


def _peak(who: int) -> int:
    return resource.getrusage(who).ru_maxrss * 1024


def kept_positions(
    places: Places, starts: Integers, after: Places, after_starts: Integers
) -> npt.NDArray[np.bool_]:
    """Find the positions of thinned arcs among those before.

    Raises NotConfirmed where an arc after is no sublist of the one before with its ends.
    """
    kept = np.zeros(len(places), dtype=bool)
    rows, left = places.tolist(), after.tolist()
    for arc in range(len(starts) - 1):
        at, end = int(starts[arc]), int(starts[arc + 1])
        for position in left[after_starts[arc] : after_starts[arc + 1]]:
            while at < end and rows[at] != position:
                at += 1
            if at == end:
                raise NotConfirmed(f"arc {arc} of a tile has a position that it had not")
            kept[at] = True
            at += 1
        if end > starts[arc] and not (kept[starts[arc]] and kept[end - 1]):
            kept = _with_last(kept, rows, int(starts[arc]), end, arc)
    return kept


def _with_last(
    kept: npt.NDArray[np.bool_], rows: list[list[int]], low: int, end: int, arc: int
) -> npt.NDArray[np.bool_]:
    """Take the last position in place of an equal one before it."""
    last = low + int(np.flatnonzero(kept[low:end])[-1])
    if rows[last] != rows[end - 1] or not kept[low]:
        raise NotConfirmed(f"arc {arc} of a tile lost an end")
    kept[last], kept[end - 1] = False, True
    return kept


class Pool(Protocol):
    """Something that runs tiles."""

    def run(self, tasks: Iterable[Task]) -> Iterator[Answer]:
        """Give the answers as they come."""

    def __enter__(self) -> "Pool":
        """Start the workers."""

    def __exit__(
        self,
        kind: type[BaseException] | None,
        error: BaseException | None,
        trace: TracebackType | None,
    ) -> None:
        """End the workers that were started here."""


class Processes:
    """A pool of processes on this machine. A tile whose worker dies is tried again."""

    def __init__(self, workers: int | None, work: Callable[[Task], Answer] = thin_tile) -> None:
        self._workers = workers or os.cpu_count() or 1
        self._work = work
        self._pool = self._fresh()

    def _fresh(self) -> ProcessPoolExecutor:
        return ProcessPoolExecutor(self._workers, mp_context=get_context("forkserver"))

    def run(self, tasks: Iterable[Task]) -> Iterator[Answer]:
        """Give the answers as they come. Raises WorkerLost where a tile's worker died each time."""
        waiting = {task.tile: task for task in tasks}
        for _ in range(MOST_TRIES):
            futures = [self._pool.submit(self._work, task) for task in waiting.values()]
            try:
                for future in as_completed(futures):
                    answer = future.result()
                    del waiting[answer.tile]
                    yield answer
            except BrokenProcessPool:
                self._pool.shutdown(cancel_futures=True)
                self._pool = self._fresh()
            if not waiting:
                return
        raise WorkerLost(next(iter(waiting)), MOST_TRIES)

    def __enter__(self) -> "Processes":
        return self

    def __exit__(
        self,
        kind: type[BaseException] | None,
        error: BaseException | None,
        trace: TracebackType | None,
    ) -> None:
        self._pool.shutdown(cancel_futures=True)


class Dask:
    """A Dask distributed cluster: the client's, or a local one that ends with this pool."""

    def __init__(
        self, client: Any, workers: int | None, work: Callable[[Task], Answer] = thin_tile
    ) -> None:
        self._client, self._own, self._workers = client, client is None, workers
        self._cluster: Any = None
        self._work = work

    def __enter__(self) -> "Dask":
        if self._own:
            from distributed import Client, LocalCluster

            self._cluster = LocalCluster(
                n_workers=self._workers or os.cpu_count(),
                threads_per_worker=1,
                dashboard_address=None,
                silence_logs=logging.CRITICAL,
            )
            self._client = Client(self._cluster)
        return self

    def run(self, tasks: Iterable[Task]) -> Iterator[Answer]:
        """Give the answers as they come; Dask tries a tile again where its worker dies.

        Raises WorkerLost where a tile's workers died as often as Dask allows.
        """
        from distributed import KilledWorker
        from distributed import as_completed as completed

        futures = {}
        for task in tasks:
            future = self._client.submit(self._work, task, pure=False)
            futures[future.key] = (future, task.tile)
        for future in completed([future for future, _ in futures.values()]):
            try:
                yield future.result()
            except KilledWorker as error:
                raise WorkerLost(futures[future.key][1], MOST_TRIES) from error

    def __exit__(
        self,
        kind: type[BaseException] | None,
        error: BaseException | None,
        trace: TracebackType | None,
    ) -> None:
        if self._own:
            self._client.close()
            self._cluster.close()


def pool_for(client: Any, workers: int | None) -> Pool:
    """Give the pool: ``"processes"``, a client's cluster, or for None a local cluster.

    Without ``distributed`` None means processes.
    """
    if isinstance(client, (Processes, Dask)):
        return client
    if client == "processes":
        return Processes(workers)
    if client is None and not _has_distributed():
        return Processes(workers)
    return Dask(client, workers)


def _has_distributed() -> bool:
    try:
        import distributed  # noqa: F401
    except ImportError:
        return False
    return True


__all__ = ["Answer", "Dask", "Pool", "Processes", "kept_positions", "pool_for", "thin_tile"]
