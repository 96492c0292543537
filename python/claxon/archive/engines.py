"""What verifies batches: threads of this process, or the workers of a Dask scheduler."""
import os
import sys
import time
from abc import ABC, abstractmethod
from contextlib import contextmanager
from functools import partial
from typing import Any, Dict, FrozenSet, Iterator, List, NamedTuple, Optional, Type

from . import batch
from .batch import Attempt, ToShow
from .names import shown_text

# How long the scheduler and its workers have to answer, and for how long it holds, in seconds.
_PATIENCE, _PAUSE = 15, 2.0

# For so many seconds another worker may come where all are left out: a cluster may just begin.
_GRACE = 5.0


class EngineError(Exception):
    """Batches can't be verified any more. The text says why."""


class _Gone(Exception):
    """Dask's scheduler doesn't answer any more."""


@contextmanager
def _connected() -> Iterator[None]:
    """Around calls that connect to the scheduler, for whose time Dask has an OSError."""
    try:
        yield
    except OSError as error:
        raise _Gone(str(error)) from error


class Engine(ABC):
    """Its futures are those of Python or of Dask, which have the same calls."""

    @abstractmethod
    def processors(self) -> int:
        """How many there are now; 0 where no worker has shown yet that it can verify files."""

    @abstractmethod
    def submit(self, names: bytes, avoided: FrozenSet[str], is_alone: bool) -> Any:
        """A future for a batch, which these workers don't get as long as there are others. One
        that is to be alone goes to a worker without any other, which there has to be."""

    @abstractmethod
    def attempt(self, future: Any) -> Optional[Attempt]:
        """What came of a batch that is done. None where it isn't any more, as what came of it went
        away with its worker: it is run again."""

    @abstractmethod
    def cancel(self, future: Any) -> bool:
        """False where the batch goes on to its end."""

    def has_others(self, workers: FrozenSet[str]) -> bool:
        """Whether there are other workers than these."""
        return False

    def has_idle(self, avoided: FrozenSet[str]) -> bool:
        """Whether a batch can be submitted that is to be alone."""
        return False

    def leave_out(self, worker: str, why: str) -> None:
        """Gives no more batches to a worker."""

    def lost(self, futures: List[Any]) -> List[Any]:
        """Those of the futures whose workers are gone, which is asked now and then."""
        return []


class _Threads(Engine):
    def __init__(self, executor: Any, jobs: int, beside: Optional[str]) -> None:
        from threading import Semaphore

        self._jobs = jobs
        self._submit = partial(
            executor.submit, batch.attempt, beside=beside, turn=Semaphore(jobs)
        )

    def processors(self) -> int:
        return self._jobs

    def submit(self, names: bytes, avoided: FrozenSet[str], is_alone: bool) -> Any:
        return self._submit(names)

    def attempt(self, future: Any) -> Attempt:
        found = Attempt(*future.result())
        if not found.is_able:
            raise EngineError(found.why)
        return found

    def cancel(self, future: Any) -> bool:
        return bool(future.cancel())


class Errors(NamedTuple):
    """Those of Dask: of a task whose workers died, and of an answer that takes too long."""

    killed: Type[BaseException]
    late: Type[BaseException]


class _Workers(Engine):
    """Those of a scheduler. Each has to show first that it can verify the files."""

    def __init__(self, client: Any, errors: Errors, beside: Optional[str], to_show: ToShow) -> None:
        self._client = client
        self._errors = errors
        self._beside = beside
        self._to_show = to_show
        self._asked_at = -_PAUSE
        self._in_vain_since = time.monotonic()  # since when all workers are left out
        self._threads: Dict[str, int] = {}  # of all workers that are there
        self._tried: Dict[str, Any] = {}  # the futures of those that are being tried
        self._first: Any = None  # a task for any worker, as long as there is none
        self._able: FrozenSet[str] = frozenset()
        self._left_out: Dict[str, str] = {}
        self._workers_of: Dict[Any, FrozenSet[str]] = {}

    def processors(self) -> int:
        if time.monotonic() - self._asked_at > _PAUSE:
            with _connected():
                self._threads = dict(self._client.nthreads())
            self._asked_at = time.monotonic()
            self._able = frozenset(self._able & self._threads.keys())
            self._try_new()
        self._take_tried()
        if not self._threads or set(self._threads) - set(self._left_out):
            self._in_vain_since = time.monotonic()
        elif time.monotonic() - self._in_vain_since > _GRACE:
            raise EngineError(f"no worker is left: {', '.join(sorted(self._left_out))}")
        return sum(self._threads.get(worker, 0) for worker in self._able)

    def _try_new(self) -> None:
        """Those that are gone may come back."""
        for worker in [*self._tried, *self._left_out]:
            if worker not in self._threads:
                self._tried.pop(worker, None)
                self._left_out.pop(worker, None)
        known = {*self._able, *self._tried, *self._left_out}
        for worker in self._threads.keys() - known:
            self._tried[worker] = self._try([worker])
        if self._threads:
            self._first = None
        elif self._first is None:
            # A cluster that grows with its tasks has no worker before the first one.
            self._first = self._try(None)

    def _try(self, workers: Optional[List[str]]) -> Any:
        """A future for why one of these workers can't verify files; None is any."""
        to_show = tuple(self._to_show)
        return self._client.submit(
            batch.why_unable, self._beside, to_show, workers=workers, pure=False, priority=10
        )

    def _take_tried(self) -> None:
        for worker, future in list(self._tried.items()):
            if not future.done():
                continue
            del self._tried[worker]
            try:
                why = self._result(future)
            except self._errors.killed as error:
                why = str(error)
            except self._errors.late:
                continue  # it is tried again
            if why:
                self.leave_out(worker, why)
            else:
                self._able = self._able | {worker}

    def leave_out(self, worker: str, why: str) -> None:
        if worker in self._left_out or worker not in self._threads:
            return
        self._able = self._able - {worker}
        self._left_out[worker] = why
        sys.stderr.write(f"claxon-archive: {shown_text(f'{worker} is left out: {why}')}\n")
        sys.stderr.flush()

    def has_others(self, workers: FrozenSet[str]) -> bool:
        return bool(self._able - workers)

    def has_idle(self, avoided: FrozenSet[str]) -> bool:
        self.processors()  # asks who is there
        return bool(self._idle(avoided))

    def _idle(self, avoided: FrozenSet[str]) -> FrozenSet[str]:
        """Those of the workers for a batch that have none."""
        workers = self._able - avoided or self._able
        return workers.difference(*self._workers_of.values())

    def submit(self, names: bytes, avoided: FrozenSet[str], is_alone: bool) -> Any:
        workers = self._able - avoided or self._able
        if is_alone:
            workers = frozenset(sorted(self._idle(avoided))[:1])
        future = self._client.submit(
            batch.attempt,
            names,
            self._beside,
            tuple(self._to_show),
            workers=sorted(workers),
            pure=False,
        )
        self._workers_of[future] = workers
        return future

    def attempt(self, future: Any) -> Optional[Attempt]:
        try:
            found = Attempt(*self._result(future))
        except self._errors.killed as error:
            self._asked_at = -_PAUSE  # who is there is asked again
            found = Attempt("", None, str(error), True, has_died=True)
        except self._errors.late:
            if not future.done():
                return None
            with _connected():
                future.cancel()
            found = Attempt("", None, "", False)
        self._workers_of.pop(future, None)
        if not found.is_able:
            self.leave_out(found.worker, found.why)
        return found

    def _result(self, future: Any) -> Any:
        """Of a future that is done, or was. The error `late` says that it isn't any more, or takes
        too long."""
        try:
            return future.result(timeout=1)
        except self._errors.late:
            if not future.done():
                raise
        return future.result(timeout=_PATIENCE)

    def cancel(self, future: Any) -> bool:
        self._workers_of.pop(future, None)
        with _connected():
            future.cancel()
        return True

    def lost(self, futures: List[Any]) -> List[Any]:
        self.processors()  # asks who is there
        there = self._threads.keys()
        return [
            future
            for future in futures
            if not future.done() and not self._workers_of.get(future, frozenset()) & there
        ]


def processors_here() -> int:
    """How many processors this process may use."""
    return len(os.sched_getaffinity(0))


@contextmanager
def open_engine(
    jobs: int, scheduler: Optional[str], beside: Optional[str], to_show: ToShow
) -> Iterator[Engine]:
    """`beside` is where the program is if no other is named."""
    if scheduler is None:
        from concurrent.futures import ThreadPoolExecutor

        # So many processes of `claxon verify` run at once. The other threads have the next batch
        # ready, or make rows of what a process told.
        with ThreadPoolExecutor(2 * jobs) as executor:
            yield _Threads(executor, jobs, beside)
        return
    with _open_cluster(scheduler, beside, to_show) as engine:
        yield engine


@contextmanager
def _open_cluster(scheduler: str, beside: Optional[str], to_show: ToShow) -> Iterator[Engine]:
    import asyncio
    import logging

    try:
        import cloudpickle
        import distributed
        from distributed.comm import CommClosedError
    except ImportError as error:
        raise EngineError(
            f"--scheduler needs Dask's scheduler, and {error.name} is missing here: Debian's"
            " python3-distributed has it, for /usr/bin/python3"
        ) from error
    # What Dask logs of a scheduler that is gone is in the error too.
    logging.disable(logging.CRITICAL)
    # So workers need nothing of this package.
    cloudpickle.register_pickle_by_value(batch)
    try:
        client = distributed.Client(scheduler, timeout=_PATIENCE, set_as_default=False)
    except (OSError, ValueError) as error:
        raise EngineError(f"{scheduler}: no answer of a scheduler: {error}") from error
    try:
        if not client.nthreads():
            sys.stderr.write(f"claxon-archive: {scheduler} has no worker yet; waiting for one\n")
        errors = Errors(distributed.KilledWorker, distributed.TimeoutError)
        yield _Workers(client, errors, beside, to_show)
    except (
        asyncio.CancelledError,
        distributed.CancelledError,
        RuntimeError,
        CommClosedError,
        _Gone,
    ) as error:
        raise EngineError(f"{scheduler} is gone, or dropped a batch: {error}") from error
    finally:
        client.close()
