"""Streams of files."""
import operator
from types import TracebackType
from typing import TYPE_CHECKING, Any, BinaryIO, Iterator, Optional, Type

from claxon import _reading
from claxon._errors import NoSuchSample
from claxon._files import File, Source, opened
from claxon._lock import alone
from claxon._samples import name_of
from claxon._seeking import Seeker
from claxon._stream import Blocks, Stream
from claxon._types import Block, StreamInfo

if TYPE_CHECKING:
    import numpy


class Flac(Stream):
    """A FLAC stream: a path, or a file object that gives bytes, from where it stands.

    The file is read as it is decoded, and never held as a whole. Of its head only the streaminfo,
    the comments, the seek table and the cue sheet are kept, and the pictures if they are asked for.
    A block is given when the last byte of its frame was read. A file object isn't closed, and is
    read past the frames that are decoded.

    Threads may share it: each call, as that for the next block, waits for those of other threads.
    Several streams run side by side.

    Raises Error where the head can't be decoded, OSError where the file can't be opened, and
    ReadFailed, which is one, where it can't be read.
    """

    info: StreamInfo

    def __init__(self, file: File, pictures: bool = False) -> None:
        self._owned: Optional[BinaryIO] = opened(file)
        self._closed = False
        try:
            super().__init__(Source(self._owned or file), pictures)  # type: ignore[arg-type]
            self._head.go_on()
            assert self._head.streaminfo is not None
            self.info = self._head.streaminfo
            self._seeker = Seeker(self._frames)
        except BaseException:
            if self._owned is not None:
                self._owned.close()
            raise

    def __enter__(self) -> "Flac":
        return self

    def __exit__(
        self,
        kind: Optional[Type[BaseException]],
        error: Optional[BaseException],
        trace: Optional[TracebackType],
    ) -> None:
        self.close()

    @alone
    def close(self) -> None:
        """Closes the file if it was passed as a path. No block can be read any more."""
        self._closed = True
        if self._owned is not None:
            self._owned.close()

    def _expect_open(self) -> None:
        if self._closed:
            raise ValueError("the stream is closed")

    @property
    def duration(self) -> Optional[float]:
        """The length in seconds. None where the streaminfo leaves it unknown."""
        return self.info.duration

    def blocks(self, dtype: Any = None, start: Optional[int] = None) -> Iterator[Block]:
        """The blocks after those that were read before.

        With a `start` the stream goes to this sample, as by `seek`, and the first block begins
        there: the samples of its frame that come before aren't in it.

        With a `dtype` the samples are of full scale, as soundfile has them: "int16" or "int32", of
        which the upper bits are the stream's, or as many of these as there is space for; "float32"
        or "float64", the stream's numbers divided by 2 to the power of their bit depth less 1, from
        -1 to 1. A type may be named as numpy does, such as "i2" or numpy.int16.

        Raises Error where no block can be decoded. Then `resync` goes on after the fault.
        """
        name = name_of(dtype)
        if start is None:
            return Blocks(self, name)
        self.seek(start)
        return Blocks(self, name, operator.index(start))

    def read(
        self,
        frames: int = -1,
        *,
        dtype: Any = None,
        always_2d: bool = False,
        missing: "_reading.Missing" = "raise",
    ) -> "numpy.ndarray[Any, Any]":
        """So many samples of each channel, or all that are left: from the one that was sought, or
        after those that were read.

        What they are, and what is raised, is as `claxon.read` has it. Fewer are given at the end.
        After an exception the stream stands where the fault is, for `resync`; the samples before it
        are lost.
        """
        wanted = _reading.wanted(dtype, always_2d, missing)
        found: "numpy.ndarray[Any, Any]" = self._read(operator.index(frames), wanted)
        return found

    @alone
    def _read(self, frames: int, wanted: "_reading.Wanted") -> Any:
        self._expect_open()
        return _reading.read_on(self, frames, wanted)

    # ---- seeking

    def can_seek(self) -> bool:
        """Whether `seek` can go to a sample: whether the file can seek."""
        return self._window.can_seek()

    @alone
    def seek(self, sample: int) -> int:
        """Goes to a frame whose block has this sample of each channel, the first of which is 0.

        The next block of `blocks` is that one. Returns how many of its samples come before this
        one. `read` begins at the sample itself. The frame is found by the times that frames have; a
        seek table isn't looked at.

        Raises NoSuchSample where no block has it, ValueError where it is negative, OSError where
        the file can't seek, as a pipe, and ReadFailed where it fails. After an exception the stream
        goes on where it stood. The time is linear in the bytes where the stream is damaged, or
        hasn't the sample, and else far less.
        """
        self._expect_open()
        sample = operator.index(sample)
        if sample < 0:
            raise ValueError("a sample to seek can't be negative")
        # No header has a number of 64 bits.
        if sample >= 1 << 64 or not self._seeker.seek(sample):
            raise NoSuchSample(f"no block has the sample {sample}")
        self._time, self._is_within = sample, True
        return sample - int(self._frames.found.time)
