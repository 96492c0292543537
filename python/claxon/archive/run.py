"""A run: files are found, verified in batches, and their verdicts kept."""
import gc
import os
import queue
import signal
import threading
import time
from collections import Counter, deque
from contextlib import ExitStack, contextmanager, suppress
from typing import Any, Callable, Deque, Dict, FrozenSet, Iterator, List, NamedTuple, Optional
from typing import Tuple

from .._program import installed_program
from .batch import Attempt, Row, ToShow, find_program, unread_row, version_of, why_unable
from .engines import Engine, EngineError, open_engine
from .finding import Finder, OperandError, check_operand, first_entries
from .progress import Progress
from .results import Due, DueFile, Results, outermost, ranges_of

# A batch ends at so many bytes or files, so that a process has work for some tenths of a second.
# The last batches are smaller, so that all processors have work until the end. With many processors
# batches are larger: a scheduler hands out no more than some hundreds a second.
_BYTES, _LEAST_BYTES, _FILES = 64 << 20, 4 << 20, 500
_BYTES_A_PROCESSOR, _FILES_A_PROCESSOR, _MOST_FILES = 1 << 20, 10, 5000

# How many files are held that are due, but aren't in a batch.
_MOST_WAITING = 5000

# While files are being found, a processor without work waits for so many seconds for a large batch,
# and they are listed after so many.
_PAUSE, _LISTED = 1.0, 0.5

# How many objects are made, and not dropped, between two looks for cycles among them.
_COLLECTED = 50000

# How many workers try a file that can't be read.
_TRIES = 3

# After so many deaths of its workers a batch is run alone; after so many more a file isn't read.
_DEATHS, _DEATHS_ALONE = 2, 4


class Wanted(NamedTuple):
    """What a run is asked for. The paths of folders are absolute."""

    folders: List[bytes]
    jobs: int
    scheduler: Optional[str]
    older_than: Optional[float]
    has_other_names: bool
    sample: float = 0  # hundredths of the right files


class Batch(NamedTuple):
    """Files that are verified together, and the workers that couldn't read them."""

    files: List[DueFile]
    tried: FrozenSet[str] = frozenset()
    deaths: int = 0  # how often its workers died
    is_alone: bool = False  # it goes to a worker that has no other batch


def program_beside() -> Optional[str]:
    """The program in the folders in which this package may lie: of the repository, or of an archive
    of the built programs; or that of its wheel."""
    top = os.path.realpath(__file__)
    for _ in range(4):
        top = os.path.dirname(top)
    for path in (os.path.join(top, "bin", "claxon"), os.path.join(top, "claxon")):
        if os.path.isfile(path) and os.access(path, os.X_OK):
            return path
    return installed_program()


def check_operands(folders: List[bytes]) -> None:
    """OperandError where one is neither a folder nor a file that is there."""
    for folder in folders:
        check_operand(folder)


def _look_into(folders: List[bytes], results: Results) -> List[Tuple[bytes, List[bytes]]]:
    """The operands with some of what is in them. OperandError where one is empty, and rows stand
    below it: its disk may not be mounted."""
    seen = []
    for folder in folders:
        entries = first_entries(folder)
        number = results.number_below(ranges_of([folder])) if entries == [] else 0
        if number > 0:
            raise OperandError(
                f"{os.fsdecode(folder)}: it is empty, and the results have {number:,} files below"
                " it; nothing was changed"
            )
        seen.append((folder, entries or []))
    return seen


def _version_wanted(beside: Optional[str]) -> str:
    """That of the program here, or else of this package."""
    try:
        return version_of(find_program(beside))
    except OSError:
        from .. import __version__

        return __version__


def run(wanted: Wanted, results: Results, progress: Progress) -> None:
    """Verifies what is due. KeyboardInterrupt stops it after the batches at hand."""
    beside = program_beside()
    folders = outermost(wanted.folders)
    seen = _look_into(folders, results)
    to_show = ToShow("", [])
    if wanted.scheduler is not None:
        to_show = ToShow(_version_wanted(beside), seen)
    else:
        why = why_unable(beside)
        if why:
            raise EngineError(why)
    with ExitStack() as stack:

        def start() -> Engine:
            opened = open_engine(wanted.jobs, wanted.scheduler, beside, to_show)
            return stack.enter_context(opened)

        with remembered_interrupts() as interrupted:
            Verification(wanted, results, progress, start, interrupted).run(folders)


@contextmanager
def fewer_collections() -> Iterator[None]:
    """Files and rows are many, and none is part of a cycle: to look for cycles among them as often
    as usual takes a tenth of the time."""
    usual = gc.get_threshold()
    gc.set_threshold(_COLLECTED, *usual[1:])
    try:
        yield
    finally:
        gc.set_threshold(*usual)


@contextmanager
def remembered_interrupts() -> Iterator[threading.Event]:
    """Ctrl-C raises KeyboardInterrupt, and is remembered: Python drops what is raised in a
    `__del__`, as that of Dask's futures."""
    interrupted = threading.Event()

    def interrupt(number: int, frame: Any) -> None:
        interrupted.set()
        raise KeyboardInterrupt

    is_main = threading.current_thread() is threading.main_thread()
    if not is_main or signal.getsignal(signal.SIGINT) is not signal.default_int_handler:
        yield interrupted
        return
    signal.signal(signal.SIGINT, interrupt)
    try:
        yield interrupted
    finally:
        signal.signal(signal.SIGINT, signal.default_int_handler)


class Verification:
    """Batches that are verified, a few more at a time than there are processors for, while files
    are found."""

    def __init__(
        self,
        wanted: Wanted,
        results: Results,
        progress: Progress,
        start: Callable[[], Engine],
        interrupted: Optional[threading.Event] = None,
    ) -> None:
        """`start` opens the engine, when the first file is due."""
        self._wanted = wanted
        self._results = results
        self._progress = progress
        self._start = start
        self._interrupted = interrupted or threading.Event()
        self._engine: Optional[Engine] = None
        # The finder where it found more, None at its end, and futures that are done.
        self._events: "queue.SimpleQueue[Any]" = queue.SimpleQueue()
        self._running: Dict[Any, Batch] = {}
        self._again: Deque[Batch] = deque()  # batches that failed
        self._alone: Deque[Batch] = deque()  # those that are run alone, when no others are left
        # Files that are due, but aren't in a batch yet, and the size of all of them.
        self._waiting: Deque[DueFile] = deque()
        self._size = 0
        self._last = 0  # the number of the last of them
        self._has_more = False  # there may be more rows
        self._due: Optional[Due] = None  # how much is due, once it is known
        self._taken = 0  # the size of the files in batches
        self._submitted_at = self._listed_at = time.monotonic()
        self._unshown: List[Tuple[int, int, "Counter[str]"]] = []
        self._read: Dict[str, int] = {}  # how many files each worker has read

    def run(self, folders: List[bytes]) -> None:
        passed_over = self._results.inodes() if self._wanted.has_other_names else None
        self._before = 0.0
        if self._wanted.older_than is not None:
            self._before = time.time() - self._wanted.older_than * 86400
        self._results.start_listing(ranges_of(folders))
        unchanged = self._results.unchanged(self._before)
        self._finder = Finder(folders, passed_over, unchanged.others, self._events.put)
        self._finder.start()
        try:
            while self._due is None or self._is_any_left():
                if self._interrupted.is_set():
                    raise KeyboardInterrupt
                self._take_events()
                while self._submit_next():
                    pass
        except BaseException as error:
            self._stop(isinstance(error, (KeyboardInterrupt, EngineError)))
            raise
        finally:
            self._finder.stop()
            unchanged.close()

    def _is_any_left(self) -> bool:
        return bool(self._waiting or self._again or self._alone or self._running)

    # ---- what came

    def _take_events(self) -> None:
        """Takes what came, or waits for it for some time."""
        with suppress(queue.Empty):
            self._take(self._events.get(timeout=_LISTED))
        for _ in range(self._events.qsize()):
            self._take(self._events.get())
        if self._due is None and time.monotonic() - self._listed_at > _LISTED:
            self._list_found()
        if self._engine is not None:
            for future in self._engine.lost(list(self._running)):
                self._engine.cancel(future)
                self._take_deaths(self._running.pop(future), 1, "the workers that had it died")

    def _take(self, event: Any) -> None:
        if event is None:
            self._end_listing()
        elif event is self._finder:
            self._list_found()
            self._finder.go_on()
        elif event in self._running:
            found = self._opened().attempt(event)
            if found is None:
                event.add_done_callback(self._events.put)
                return
            self._keep(self._running[event], found)
            del self._running[event]

    def _list_found(self) -> None:
        """Lists what was found since it was done before."""
        part = self._finder.take()
        self._results.list_files(part, self._before)
        self._listed_at = time.monotonic()
        self._has_more = True
        self._progress.found(part.number)

    def _end_listing(self) -> None:
        if self._finder.error is not None:
            raise self._finder.error
        self._list_found()
        self._due = self._results.end_listing(self._wanted.sample)
        self._has_more = True
        self._fill()
        if self._due.files > 0:
            self._progress.start(self._due)
        for shown_late in self._unshown:
            self._progress.add(*shown_late)

    def _keep(self, batch: Batch, found: Attempt) -> None:
        """Keeps the verdicts of a batch, or goes on with one that failed."""
        if found.rows is not None:
            self._keep_rows(batch, found.rows, found.worker)
        elif found.has_died:
            self._take_deaths(batch, _DEATHS_ALONE, found.why)
        elif not found.is_able:
            self._put_back(batch)
        else:
            self._halve(batch, found.why)

    def _take_deaths(self, batch: Batch, number: int, why: str) -> None:
        """So many workers died that had the batch. Another batch there may be why, until it was
        alone."""
        batch = batch._replace(deaths=batch.deaths + number)
        if not batch.is_alone and batch.deaths >= _DEATHS:
            self._put_back(batch._replace(deaths=0, is_alone=True))
        elif batch.is_alone and (len(batch.files) > 1 or batch.deaths >= _DEATHS_ALONE):
            self._halve(batch, why)
        else:
            self._put_back(batch)

    def _halve(self, batch: Batch, why: str) -> None:
        """A batch that failed is halved until the file that does it is alone."""
        middle = len(batch.files) // 2
        if middle == 0:
            self._put(batch, [unread_row(batch.files[0].path, why, None)])
            return
        for files in (batch.files[:middle], batch.files[middle:]):
            self._put_back(batch._replace(files=files, deaths=0))

    def _put_back(self, batch: Batch) -> None:
        (self._alone if batch.is_alone else self._again).append(batch)

    def _keep_rows(self, batch: Batch, rows: List[Row], worker: str) -> None:
        """What a worker couldn't read others try. Where they can, and it reads nothing, it is left
        out."""
        engine = self._opened()
        unread = {row[0] for row in rows if row[4] == "not read"}
        number = len(rows) - len(unread)
        self._read[worker] = self._read.get(worker, 0) + number
        for other in batch.tried if number else ():
            if self._read[other] == 0:
                engine.leave_out(other, f"it reads no file, also of {number} that {worker} reads")
        tried = batch.tried | {worker}
        if unread and len(tried) < _TRIES and engine.has_others(tried):
            files = [file for file in batch.files if file.path in unread]
            self._put_back(batch._replace(files=files, tried=tried))
            rows = [row for row in rows if row[0] not in unread]
        self._put(batch, rows)

    def _put(self, batch: Batch, rows: List[Row]) -> None:
        """Keeps rows, and then shows them."""
        self._results.put(rows, {file.path: file for file in batch.files})
        verdicts = Counter(row[4] for row in rows)
        shown_now = len(rows), sum(row[1] or 0 for row in rows), verdicts
        if self._due is None:
            self._unshown.append(shown_now)
        else:
            self._progress.add(*shown_now)

    # ---- what is handed out

    def _opened(self) -> Engine:
        if self._engine is None:
            self._engine = self._start()
            self._results.start_run()
        return self._engine

    def _fill(self) -> None:
        """Takes some of the files that are due."""
        while self._has_more and len(self._waiting) < _MOST_WAITING:
            files = self._results.due(self._last)
            self._waiting += files
            self._size += sum(file.size for file in files)
            self._last = files[-1].number if files else self._last
            self._has_more = bool(files)

    def _submit_next(self) -> bool:
        """Submits a batch, if there is one to submit now."""
        self._fill()
        if not self._again and not self._waiting:
            return self._submit_alone()
        processors = self._opened().processors()
        if processors == 0 or len(self._running) >= 4 + processors * 5 // 4:
            return False
        if self._again:
            self._submit(self._again.popleft())
        elif self._due is not None:
            self._submit(self._next_batch(self._due.size - self._taken, processors))
        elif self._is_enough(processors):
            self._submit(self._next_batch(self._size, processors))
        else:
            return False
        return True

    def _submit_alone(self) -> bool:
        """Submits a batch that is run alone, if no other is left."""
        is_last = self._due is not None and all(batch.is_alone for batch in self._running.values())
        if not self._alone or not is_last or not self._opened().has_idle(self._alone[0].tried):
            return False
        self._submit(self._alone.popleft())
        return True

    def _is_enough(self, processors: int) -> bool:
        """Whether a batch is submitted while files are being found: what is left then is enough for
        all processors, or one has nothing to do."""
        if self._size >= 2 * processors * _LEAST_BYTES or len(self._waiting) >= _MOST_WAITING:
            return True
        is_idle = len(self._running) < processors
        return is_idle and time.monotonic() - self._submitted_at > _PAUSE

    def _next_batch(self, size: int, processors: int) -> Batch:
        """The files that are left have this size together."""
        most_files, most_bytes = _limits(size, processors)
        files: List[DueFile] = []
        taken = 0
        while self._waiting and len(files) < most_files and taken < most_bytes:
            file = self._waiting.popleft()
            files.append(file)
            taken += file.size
            if not self._waiting:
                self._fill()
        self._size -= taken
        self._taken += taken
        return Batch(files)

    def _submit(self, batch: Batch) -> None:
        names = b"".join(file.path + b"\0" for file in batch.files)
        future = self._opened().submit(names, batch.tried, batch.is_alone)
        self._running[future] = batch
        self._submitted_at = time.monotonic()
        future.add_done_callback(self._events.put)

    def _stop(self, is_kept: bool) -> None:
        """Ends the batches at hand, and keeps their verdicts, or drops them."""
        for future in list(self._running):
            if not future.done() and self._opened().cancel(future):
                del self._running[future]
        for future in list(self._running) if is_kept else ():
            try:
                found = self._opened().attempt(future)
            except EngineError:
                continue
            if found is not None and found.rows is not None:
                self._put(self._running[future], found.rows)


def _limits(size: int, processors: int) -> Tuple[int, int]:
    """The number of files and of bytes at which a batch ends. Files of `size` bytes are left."""
    files = min(max(_FILES, processors * _FILES_A_PROCESSOR), _MOST_FILES)
    least = max(_LEAST_BYTES, processors * _BYTES_A_PROCESSOR)
    return files, max(least, min(_BYTES, size // (2 * max(1, processors))))
