"""The FLAC files below folders."""
import itertools
import operator
import os
import stat
import threading
import time
from typing import Any, Callable, FrozenSet, Iterator, List, NamedTuple, Optional, Tuple

MARKER = b"fLaC"

# By what a file is known: its path, its size, the times of the last changes of its content and of
# its inode in nanoseconds since 1970, and its inode.
Known = Tuple[bytes, int, int, int, int]

# With its device, by which it isn't known: a disk has another where it is mounted anew.
File = Tuple[bytes, int, int, int, int, int]

# What lies in a folder is sorted, so that rows of neighbours are put together, which takes less
# time. With more entries each of so many are sorted: all would take much memory.
_SORTED = 10000

# What is called for a file or folder that can't be read. The path of a folder ends with a slash.
Unreadable = Callable[[bytes, OSError], object]

# Files that aren't opened in search of the marker, by their devices and inodes.
Inodes = FrozenSet[Tuple[int, int]]

# So many files are compared together: the memory of few is used again while caches have it.
_COMPARED = 300

# So many files that may be due are handed over, and listed before others are searched: threads of
# Python that work by turns take less time than two at once.
_FILES = 3000

# After so many seconds without a comparison the search is slow, and what was found isn't compared.
_SLOW = 0.3

# After so many entries it is looked whether the files are enough, or the search is stopped.
_STEP = 30

# How a name ends: whatever the case of each letter.
_ENDINGS = tuple(
    bytes(letters) for letters in itertools.product(b".", b"fF", b"lL", b"aA", b"cC")
)

# How many entries of a folder tell that it is seen elsewhere too.
_ENTRIES = 10


class OperandError(Exception):
    """An operand can't be verified. The text says why."""


def check_operand(operand: bytes) -> None:
    """OperandError where it is neither a folder nor a file that is there."""
    try:
        mode = os.stat(operand).st_mode
    except OSError as error:
        raise OperandError(f"{os.fsdecode(operand)}: {error.strerror or error}") from error
    if not stat.S_ISREG(mode) and not stat.S_ISDIR(mode):
        raise OperandError(f"{os.fsdecode(operand)}: neither a folder nor a file")


def first_entries(operand: bytes) -> Optional[List[bytes]]:
    """The paths of some of what is in a folder; None of a file, or where it can't be read."""
    try:
        with os.scandir(operand) as entries:
            return [entry.path for entry in itertools.islice(entries, _ENTRIES)]
    except OSError:
        return None


class Found:
    """Files that were found. More may be put to the end while others are taken."""

    def __init__(self) -> None:
        self.files: List[Known] = []
        self.devices: List[int] = []  # that of each file

    def taken(self) -> Tuple[List[Known], List[int]]:
        """All of them, which are taken away."""
        devices = _taken(self.devices, len(self.devices))
        return _taken(self.files, len(devices)), devices


def _taken(found: List[Any], number: int) -> List[Any]:
    """So many of the first ones, which are taken away."""
    taken = found[:number]
    del found[:number]
    return taken


class Part(NamedTuple):
    """A part of what is found: how many files, those of them that may be due, and what can't be
    read, with the reason."""

    number: int
    files: List[File]
    unread: List[Tuple[bytes, str]]


class Finder(threading.Thread):
    """Finds files while others are verified, and passes over those that aren't due."""

    def __init__(
        self,
        operands: List[bytes],
        passed_over: Optional[Inodes],
        others: Callable[[List[Known], List[int]], List[File]],
        hand: Callable[[Optional["Finder"]], object],
    ) -> None:
        """`others` gives those of the files, of such devices, that may be due. Hands itself over
        where there is much to take, and waits until `go_on` is called; hands over None at its
        end."""
        super().__init__(daemon=True)
        self._operands = operands
        self._passed_over = passed_over
        self._get_others = others
        self._hand = hand
        self._turn = threading.Semaphore(0)
        self._is_stopped = False
        self._found = Found()
        self._compared_at = time.monotonic()
        # What wasn't taken, and a lock for who takes of it, or of what was found.
        self._number = 0
        self._others: List[File] = []
        self._unread: List[Tuple[bytes, str]] = []
        self._lock = threading.Lock()
        self.error: Optional[BaseException] = None

    def take(self) -> Part:
        """What was found since the last call. Where the search is slow, files that weren't compared
        yet are among those that may be due."""
        is_slow = time.monotonic() - self._compared_at > _SLOW
        with self._lock:
            found = _with_devices(*self._found.taken()) if is_slow else []
            others = _taken(self._others, len(self._others))
            unread = _taken(self._unread, len(self._unread))
            number = self._number + len(found)
            self._number = 0
        return Part(number, others + found, unread)

    def go_on(self) -> None:
        self._turn.release()

    def stop(self) -> None:
        self._is_stopped = True
        self._turn.release()

    def run(self) -> None:
        try:
            for operand in self._operands:
                if not self._is_stopped:
                    self._find_below(operand)
            self._compare()
        except BaseException as error:
            self.error = error
        self._hand(None)

    def _find_below(self, operand: bytes) -> None:
        """Finds the files of an operand, or some of them if it is stopped."""
        for is_end in find(operand, self._passed_over, self._put_unread, self._found):
            if self._is_stopped:
                return
            if is_end or len(self._found.files) >= _COMPARED:
                self._compare()

    def _compare(self) -> None:
        """Passes over those of the found files that aren't due."""
        with self._lock:
            files, devices = self._found.taken()
        others = self._get_others(files, devices)
        self._compared_at = time.monotonic()
        with self._lock:
            self._number += len(files)
            self._others += others
        if len(self._others) >= _FILES:
            self._hand_over()

    def _put_unread(self, path: bytes, error: OSError) -> None:
        self._unread.append((path, error.strerror or str(error)))
        if len(self._unread) >= _FILES:
            self._hand_over()

    def _hand_over(self) -> None:
        if not self._is_stopped:
            self._hand(self)
            self._turn.acquire()


def _with_devices(files: List[Known], devices: List[int]) -> List[File]:
    return [(*file, device) for file, device in zip(files, devices)]


def find(
    operand: bytes,
    passed_over: Optional[Inodes],
    unreadable: Unreadable,
    found: Found,
) -> Iterator[bool]:
    """Puts the FLAC files below a folder into `found`, or the file itself if the operand is one.
    After a few entries it yields, so that files can be taken: True if others may follow whose paths
    are less.

    These are the regular files whose names end with `.flac`, in whatever case. Unless `passed_over`
    is None, they are also those that begin with the marker, but for these inodes. Below the operand
    symbolic links to folders aren't followed.
    """
    try:
        status = os.stat(operand)
    except OSError as error:
        unreadable(_as_folder(operand), error)
        return
    if stat.S_ISREG(status.st_mode):
        yield True
        _put(operand, status, found)
        return
    folders = [operand] if stat.S_ISDIR(status.st_mode) else []
    while folders:
        folder = folders.pop()
        below: List[bytes] = []
        try:
            with os.scandir(folder) as entries:
                for ordered in _by_name(entries):
                    yield _is_less(ordered[-1].path, found)
                    while ordered:
                        some = ordered[: -_STEP - 1 : -1]
                        del ordered[-_STEP:]  # with the status that each keeps
                        _find_among(some, below, passed_over, unreadable, found)
                        yield False
        except OSError as error:
            unreadable(_as_folder(folder), error)
        folders += reversed(below)


def _is_less(path: bytes, found: Found) -> bool:
    """Whether the path is less than that of the last file, if that wasn't taken."""
    return any(path < last[0] for last in found.files[-1:])


def _put(path: bytes, status: os.stat_result, found: Found) -> None:
    changed, ctime = status.st_mtime_ns, status.st_ctime_ns
    found.files.append((path, status.st_size, changed, ctime, status.st_ino))
    found.devices.append(status.st_dev)


def _by_name(entries: "Iterator[os.DirEntry[bytes]]") -> "Iterator[List[os.DirEntry[bytes]]]":
    """Lists of entries, each with the first name at its end."""
    ordered = list(itertools.islice(entries, _SORTED))
    while ordered:
        ordered.sort(key=operator.attrgetter("name"), reverse=True)
        yield ordered
        ordered = list(itertools.islice(entries, _SORTED))


def _find_among(
    entries: "List[os.DirEntry[bytes]]",
    folders: List[bytes],
    passed_over: Optional[Inodes],
    unreadable: Unreadable,
    found: Found,
) -> None:
    """Puts the FLAC files among entries of a folder into `found`, folders into `folders`."""
    for entry in entries:
        is_named = entry.name.endswith(_ENDINGS)
        # Most that are so named are files, which their status tells too.
        if not is_named and entry.is_dir(follow_symlinks=False):
            folders.append(entry.path)
        elif is_named or passed_over is not None:
            try:
                status = entry.stat()
                if not stat.S_ISREG(status.st_mode):
                    if entry.is_dir(follow_symlinks=False):
                        folders.append(entry.path)
                elif is_named or _is_marked(entry, status, passed_over):
                    _put(entry.path, status, found)
            except OSError as error:
                if entry.is_dir(follow_symlinks=False):
                    folders.append(entry.path)
                elif is_named or not isinstance(error, FileNotFoundError):
                    unreadable(entry.path, error)


def _is_marked(
    entry: "os.DirEntry[bytes]", status: os.stat_result, passed_over: Optional[Inodes]
) -> bool:
    """Whether the file begins with the marker, and isn't to be passed over."""
    if passed_over is None or (status.st_dev, status.st_ino) in passed_over:
        return False
    file = os.open(entry.path, os.O_RDONLY | os.O_NONBLOCK)
    try:
        return os.read(file, len(MARKER)) == MARKER
    finally:
        os.close(file)


def _as_folder(path: bytes) -> bytes:
    return path.rstrip(b"/") + b"/"


def is_missing(path: bytes) -> bool:
    """Whether there is no regular file of this path. False where that can't be told."""
    try:
        return not stat.S_ISREG(os.stat(path).st_mode)
    except (FileNotFoundError, NotADirectoryError):
        return True
    except OSError:
        return False
