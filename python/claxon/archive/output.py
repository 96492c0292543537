"""Where a report goes: standard output, or a file, which is replaced as a whole."""
import errno
import os
import re
import stat
import sys
import tempfile
from contextlib import contextmanager
from typing import BinaryIO, Iterator

from .names import shown
from .page_parts import TITLE

STANDARD = "-"

# How the reports of each form begin. What begins otherwise isn't replaced.
_STARTS = {
    "html": b'<!DOCTYPE html>\n<html lang="en">\n(<.*>\n)*<title>%s<' % re.escape(TITLE).encode(),
    "csv": rb"path,size,changed,verified,verdict,",
    "json": rb'\[\n(\]\n|\{"path": )',
    "text": rb"/[^\n]*: (wrong|not supported|not read|missing), ",
}

# Enough for a path with all escapes.
_START = 1 << 16


class OutputError(Exception):
    """A report can't go there. The text says why."""


class ClosedOutput(Exception):
    """The program that reads standard output has ended, as `head` does."""


class Output:
    """Where a report of this form goes. `-` is standard output."""

    def __init__(self, name: str, form: str, results: str) -> None:
        self._name = name
        self._form = form
        self._results = results
        self.is_standard = name == STANDARD

    def check(self) -> None:
        """Refuses a file that would be destroyed: the results, and what is no report."""
        if self.is_standard:
            return
        path, results = os.path.realpath(self._name), os.path.realpath(self._results)
        names = (results + end for end in ("", "-wal", "-shm", "-journal", ".lock"))
        if path in names or _is_same(path, results):
            raise self._error("it belongs to the results; it is left alone")
        if os.path.isdir(path):
            raise self._error(os.strerror(errno.EISDIR))
        if _is_replaced(path):
            self._check_file(path)

    def _check_file(self, path: str) -> None:
        if not os.access(os.path.dirname(path), os.W_OK):
            raise self._error("nothing can be written to its folder")
        if os.path.exists(path) and os.path.getsize(path) > 0 and not self._is_report(path):
            raise self._error(f"it isn't a report of the form {self._form}; it is left alone")

    def _is_report(self, path: str) -> bool:
        with open(path, "rb") as file:
            return re.match(_STARTS[self._form], file.read(_START)) is not None

    def _error(self, text: str) -> OutputError:
        return OutputError(f"{shown(os.fsencode(self._name))}: {text}")

    @contextmanager
    def open(self) -> Iterator[BinaryIO]:
        """Opens it, and keeps what is written. A file stays as it was where that fails."""
        if self.is_standard:
            with standard_output() as output:
                yield output
            return
        self.check()
        path = os.path.realpath(self._name)
        if _is_replaced(path):
            with _replaced(path) as file:
                yield file
        else:
            with open(path, "wb") as pipe:
                yield pipe


def _is_same(path: str, other: str) -> bool:
    return os.path.exists(path) and os.path.exists(other) and os.path.samefile(path, other)


def _is_replaced(path: str) -> bool:
    """Whether a new file gets this name: pipes and devices are written to."""
    return os.path.isfile(path) or not os.path.exists(path)


@contextmanager
def standard_output() -> Iterator[BinaryIO]:
    if sys.stdout is None:
        raise OSError(errno.EBADF, "standard output is closed")
    try:
        yield sys.stdout.buffer
        sys.stdout.buffer.flush()
    except BrokenPipeError:
        # What Python writes in the end goes nowhere.
        os.dup2(os.open(os.devnull, os.O_WRONLY), sys.stdout.fileno())
        raise ClosedOutput from None


@contextmanager
def _replaced(path: str) -> Iterator[BinaryIO]:
    """A file beside this one, which gets its name in the end."""
    descriptor, beside = tempfile.mkstemp(dir=os.path.dirname(path), prefix=".claxon-archive-")
    try:
        with open(descriptor, "wb") as file:
            os.chmod(beside, _mode(path))
            yield file
            file.flush()
            os.fsync(descriptor)
        os.replace(beside, path)
    except BaseException:
        os.unlink(beside)
        raise


def _mode(path: str) -> int:
    """The mode of the file that is there, or that of a new one."""
    try:
        return stat.S_IMODE(os.stat(path).st_mode)
    except FileNotFoundError:
        mask = os.umask(0)
        os.umask(mask)
        return 0o666 & ~mask
