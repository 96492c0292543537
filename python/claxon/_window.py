"""The bytes of a stream that are held."""
import ctypes
from array import array
from typing import Optional, Union

from claxon._calls import MAX_FRAME_BYTES
from claxon._files import Source

FIRST_WINDOW = 1 << 18  # bytes


class Window:
    """Bytes that were read or handed in, and aren't decoded yet.

    It is doubled where a frame doesn't fit.
    """

    def __init__(self, source: Optional[Source]) -> None:
        self._source = source
        self._bytes = array("B", bytes(FIRST_WINDOW))
        self.address = self._bytes.buffer_info()[0]
        self.at = ctypes.c_size_t(0)  # where the next frame begins
        self.end = 0  # the number of bytes in it
        self.start = 0  # the position in the file of its first byte
        self.has_ended = False  # whether no more bytes come

    def position(self) -> int:
        """The position in the file of the next frame."""
        return self.start + self.at.value

    def pass_to(self, position: int) -> None:
        """Passes the bytes before this position, or all."""
        self.at.value = min(position - self.start, self.end)

    def held(self) -> int:
        """The number of bytes that the next frame may have."""
        return min(self.end - self.at.value, MAX_FRAME_BYTES)

    def bytes_from(self, position: int, count: int) -> bytes:
        """Some of the bytes that are held: so many from this position on, or fewer."""
        start = position - self.start
        return self._bytes[start : min(start + count, self.end)].tobytes()

    def fill(self, most: int) -> bool:
        """Reads once, at most so many bytes. False where none come, or not from a file."""
        if self.has_ended or self._source is None:
            return False
        if self.end == len(self._bytes) or self.at.value:
            size = len(self._bytes)
            full = self.end - self.at.value == size
            self._resize(min(2 * size, MAX_FRAME_BYTES) if full else size)
        part = self._source.read(min(most, len(self._bytes) - self.end))
        self._put(part)
        self.has_ended = not part
        return bool(part)

    def feed(self, data: memoryview) -> None:
        """Appends bytes. Those that are held are moved where they take half of it or less."""
        count = self.end - self.at.value + len(data)
        size = len(self._bytes)
        if self.end + len(data) > size:
            self._resize(size if 2 * count <= size else 2 * count)
        self._put(data)

    def _put(self, part: Union[bytes, memoryview]) -> None:
        with memoryview(self._bytes) as view:
            view[self.end : self.end + len(part)] = part
        self.end += len(part)

    def _resize(self, size: int) -> None:
        """Drops the bytes before the next frame, and makes it no smaller than this."""
        at = self.at.value
        if at:
            ctypes.memmove(self.address, self.address + at, self.end - at)
            self.at.value = 0
            self.start += at
            self.end -= at
        if size > len(self._bytes):
            self._bytes.frombytes(bytes(size - len(self._bytes)))
            self.address = self._bytes.buffer_info()[0]

    def skip_to(self, position: int, step: int) -> bool:
        """Passes the bytes before this position, also those that have to be read, at most so many
        at once. False where they end before, or more have to be handed in.
        """
        while True:
            self.pass_to(position)
            count = position - self.position()
            if not count:
                return True
            if self._source is not None and not self.has_ended and self._source.passes(count):
                self.start += count
            elif not self.fill(min(count, step)):
                return False

    def can_seek(self) -> bool:
        return self._source is not None and self._source.can_seek()

    def length(self) -> int:
        """The number of bytes of the whole stream. Raises OSError where the file can't seek."""
        assert self._source is not None
        return self._source.length(self.start + self.end)

    def go_to(self, position: int) -> None:
        """Goes to this position in the file. Bytes that are held aren't read again."""
        assert self._source is not None
        if not self.start <= position <= self.start + self.end:
            self.start, self.end = position, 0
            self._source.go_to(position)
        self.at.value = position - self.start
        self.has_ended = False
