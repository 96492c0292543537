"""Streams whose bytes are handed in."""
from typing import Optional, Union

from claxon._errors import Error
from claxon._lock import alone
from claxon._stream import Stream
from claxon._types import StreamInfo

Bytes = Union[bytes, bytearray, memoryview]


class Feed(Stream):
    """A FLAC stream whose bytes are handed in as they come, in pieces of any size.

    `blocks` gives the blocks that are whole, and ends where more bytes are needed: call it after
    each `feed`. It raises Error as that of `Flac`, also where the head can't be decoded. Then
    `resync` goes on, and returns None as long as the bytes that are there have no frame.

    One thread may feed and another one take blocks: each call waits for those of other threads.
    """

    def __init__(self, pictures: bool = False) -> None:
        super().__init__(None, pictures)
        self._head_fault: Optional[Error] = None

    @property
    def info(self) -> Optional[StreamInfo]:
        """What the streaminfo says. None before it is there."""
        return self._head.streaminfo

    @alone
    def feed(self, data: Bytes) -> None:
        """Hands in the next bytes. Take the blocks before the next ones: bytes and blocks that
        aren't taken are held.

        Raises ValueError after `close`.
        """
        if self._window.has_ended:
            raise ValueError("no bytes can be handed in after close()")
        with memoryview(data) as view, view.cast("B") as found:
            self._window.feed(found)

    @alone
    def close(self) -> None:
        """Says that all bytes were handed in. `blocks` then raises InputEnds if they are cut."""
        self._window.has_ended = True

    def _has_frames(self) -> bool:
        if self._head_fault is not None and not self._head.is_over():
            raise self._head_fault.with_traceback(None)
        try:
            return self._head.go_on()
        except Error as fault:
            self._head_fault = fault
            raise
