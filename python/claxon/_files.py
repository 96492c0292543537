"""Bytes from a file object."""
import io
import os
from types import TracebackType
from typing import Any, BinaryIO, Optional, Protocol, Type, Union

from claxon._errors import ReadFailed

_STEP = 1 << 16  # bytes that are passed at once, at least


class Readable(Protocol):
    """A file object, as `open`, `zipfile`, `gzip`, `Popen`, `mmap` and others give it.

    It may have `read1`, which is then called, as `read` of a buffered file waits for all bytes; and
    `seek` and `tell`, without which the stream can't seek.
    """

    def read(self, size: int, /) -> Union[bytes, bytearray, memoryview, None]:
        """At most so many bytes; none at the end, and None where none is there yet."""


File = Union[str, bytes, "os.PathLike[str]", "os.PathLike[bytes]", Readable]


def _is_failure(error: OSError) -> bool:
    """Whether a file failed. It didn't where no byte came yet, or in time, as a socket or a handler
    of a signal says it, nor where it can't be used so at all.
    """
    if isinstance(error, TimeoutError) and error.errno is None:
        return False
    return not isinstance(error, (BlockingIOError, io.UnsupportedOperation, ReadFailed))


class _Failures:
    """Raises what a file raises where it fails as ReadFailed."""

    def __enter__(self) -> None:
        pass

    def __exit__(
        self,
        kind: Optional[Type[BaseException]],
        error: Optional[BaseException],
        trace: Optional[TracebackType],
    ) -> None:
        if isinstance(error, OSError) and _is_failure(error):
            failed = ReadFailed(*error.args)
            if error.filename is not None:
                failed.filename = error.filename
            raise failed from error


_failures = _Failures()


def opened(file: File) -> Optional[BinaryIO]:
    """The file that a path names. None of a file object."""
    if hasattr(file, "read"):
        return None
    is_data = isinstance(file, (bytearray, memoryview))
    if isinstance(file, bytes):  # no path has a zero byte, and each head has some
        is_data = b"\0" in file or (file[:4] == b"fLaC" and not os.path.exists(file))
    if is_data:
        raise TypeError(
            "a path or a file object is needed: bytes of a FLAC stream go in by io.BytesIO(data)"
        )
    return open(file, "rb", buffering=0)


class Source:
    """Bytes from a file object, one after another."""

    def __init__(self, file: Readable) -> None:
        self._file: Any = file
        self._began: Optional[int] = None  # where in the file the stream begins, once it is needed
        self._next: Optional[int] = None  # the position in the stream to go to before a read
        # Of a buffered file, `read` waits for all bytes that it is asked for.
        waits = hasattr(file, "read1") and not isinstance(file, io.BytesIO)
        self._read1 = self._file.read1 if waits else None

    def read(self, most: int) -> bytes:
        """At least one byte and at most this number of them; none where the file ends."""
        with _failures:
            if self._next is not None and self._began is not None:
                self._file.seek(self._began + self._next)
                self._next = None
            found = self._read1(most) if self._read1 else None
            if not found:  # `read1` gives no byte at the end, and also where none is there yet
                found = self._file.read(1 if self._read1 else most)
        if found is None:
            raise BlockingIOError("the file object has no bytes yet: it has to wait for them")
        if isinstance(found, str):
            raise TypeError("the file object gives text: it has to be opened for bytes")
        return bytes(found)

    def can_seek(self) -> bool:
        """Whether the file can go to a place. Some, as mmap, can and don't say it."""
        seekable = getattr(self._file, "seekable", None)
        if seekable is None:
            return hasattr(self._file, "seek") and hasattr(self._file, "tell")
        return bool(seekable())

    def length(self, position: int) -> int:
        """The number of bytes of the stream, of which so many were given. The next ones are those
        after them.
        """
        if not self.can_seek():
            raise io.UnsupportedOperation("the file can't seek")
        with _failures:
            if self._began is None:
                self._began = int(self._file.tell()) - position
            self._next = position
            self._file.seek(0, io.SEEK_END)
            return int(self._file.tell()) - self._began

    def go_to(self, position: int) -> None:
        """Gives the bytes from here on next. The file is moved when they are read."""
        self._next = position

    def passes(self, count: int) -> bool:
        """Whether it passed this number of bytes without reading them."""
        if count < _STEP or not self.can_seek():
            return False
        with _failures:
            try:
                self._file.seek(count, io.SEEK_CUR)
            except ValueError:  # as of mmap, past the end
                return False
        return True
