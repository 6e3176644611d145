"""Who judges the files of a night: processes of this machine, or the workers of a Dask cluster."""

from __future__ import annotations

import multiprocessing
import os
import signal
import threading
from collections import deque
from concurrent.futures import BrokenExecutor, CancelledError, Future, ProcessPoolExecutor, ThreadPoolExecutor
from contextlib import contextmanager
from functools import partial
from importlib import import_module
from multiprocessing.connection import wait
from typing import Any, Callable, Deque, Iterator, List, NamedTuple, Optional, Protocol, Sequence, TypeVar

from .judge import File, Outcome, all_judged

# Files that go to a worker at once, and such batches under way for each worker, so that none waits while results are written.
BATCH, UNDER_WAY = 8, 3

SCHEDULER_SECONDS = 10  # to wait for a scheduler

Result = TypeVar("Result")


class NoScheduler(OSError):
    """A Dask scheduler that cannot be had."""


class CrewLost(Exception):
    """Workers that ended before their work."""


class Promise(Protocol):
    """What will come of a batch of files."""

    def result(self) -> List[Outcome]:
        """It, once it is there."""


class Crew(NamedTuple):
    """How a batch of files is given to a worker, and how many workers there are."""

    give: Callable[[Sequence[File]], Promise]
    size: int


def outcomes(crew: Crew, files: Sequence[File]) -> Iterator[Outcome]:
    """What comes of each file, in their order."""
    under_way: Deque[Promise] = deque()
    for first in range(0, len(files), BATCH):
        under_way.append(crew.give(files[first : first + BATCH]))
        if len(under_way) > UNDER_WAY * crew.size:
            yield from under_way.popleft().result()
    while under_way:
        yield from under_way.popleft().result()


@contextmanager
def machine(workers: Optional[int]) -> Iterator[Crew]:
    """So many workers of this machine, one a core if not said; CrewLost where one ends."""
    size = workers or os.cpu_count() or 1
    try:
        with Processes(size) if size > 1 else ThreadPoolExecutor(size) as executor:
            yield Crew(lambda files: executor.submit(all_judged, files), size)
    except BrokenExecutor as error:
        raise CrewLost("a worker process was ended") from error


class Processes(ProcessPoolExecutor):
    """Processes that begin afresh, so share nothing that is open here; an interrupt is left to their parent, whom none outlives."""

    def __init__(self, size: int) -> None:
        super().__init__(size, mp_context=multiprocessing.get_context("spawn"), initializer=_watch_parent)

    def submit(self, task: Callable[..., Result], /, *given: Any, **named: Any) -> Future[Result]:
        """A task; a process that is started for it takes over that interrupts are blocked meanwhile."""
        before = signal.pthread_sigmask(signal.SIG_BLOCK, [signal.SIGINT])
        try:
            return super().submit(task, *given, **named)
        finally:
            signal.pthread_sigmask(signal.SIG_SETMASK, before)


def _watch_parent() -> None:
    """Sees to it that this process ends when the parent has ended, however that was."""
    threading.Thread(target=_end_with_parent, daemon=True).start()


def _end_with_parent() -> None:
    """Waits until the parent has ended, then ends this process."""
    parent = multiprocessing.parent_process()
    if parent:
        wait([parent.sentinel])
        os._exit(1)


@contextmanager
def cluster(scheduler: str) -> Iterator[Crew]:
    """The workers of a Dask cluster; NoScheduler where there is none, or no Dask here, and CrewLost where it is lost."""
    try:
        distributed = import_module("distributed")
    except ImportError as error:
        raise NoScheduler("--scheduler wants Dask (Debian's python3-distributed)") from error
    try:
        client = distributed.Client(scheduler, timeout=SCHEDULER_SECONDS)
    except (OSError, ValueError) as error:
        raise NoScheduler(f"{scheduler}: {error}") from error
    try:
        with client:
            yield Crew(partial(client.submit, all_judged, pure=False), sum(client.nthreads().values()) or 1)
    except (CancelledError, distributed.KilledWorker) as error:
        raise CrewLost(f"{scheduler}: the cluster was lost") from error
