"""What samples are read into: an array of numpy, or an array for each channel."""
from array import array
from typing import Any, List, Optional, Protocol

from claxon import _samples
from claxon._frames import Frames


class Sink(Protocol):
    """Samples that are read, from the first one on."""

    is_planar: bool  # how frames have to be decoded for it

    def add(self, frames: Frames, first: int, last: int) -> None:
        """Adds these samples of the block that was decoded."""

    def add_silence(self, count: int) -> None:
        """Adds so many samples of each channel that are 0."""

    def result(self) -> Any:
        """All of them."""


class NumpySink:
    """An array with a row for each sample of all channels, or without rows for a single channel."""

    is_planar = False

    def __init__(self, channels: int, dtype: Optional[str], count: int, always_2d: bool) -> None:
        self._numpy = _samples.needed_numpy()
        self._dtype = dtype
        self._always_2d = always_2d
        self._count = 0
        self._channels = channels
        self._out = self._made(count)
        # Flat arrays are converted twice as fast as rows.
        self._flat = self._out.reshape(-1)
        self._decoded: Optional["array[int]"] = None  # the samples that `_view` shows
        self._view: Any = None

    def _made(self, count: int) -> Any:
        """Space for so many, which a streaminfo may say falsely. What isn't written takes none."""
        try:
            return self._numpy.empty((count, self._channels), self._dtype or "i4")
        except (MemoryError, ValueError):
            return self._numpy.empty((0, self._channels), self._dtype or "i4")

    def _resize(self, count: int) -> None:
        del self._flat  # it would show memory that is freed
        self._out.resize((count, self._channels), refcheck=False)
        self._flat = self._out.reshape(-1)

    def _space(self, count: int) -> Any:
        """Where so many more go to."""
        start, end = self._count, self._count + count
        if end > len(self._out):
            self._resize(max(end, len(self._out) * 3 // 2))
        self._count = end
        return self._flat[start * self._channels : end * self._channels]

    def add(self, frames: Frames, first: int, last: int) -> None:
        if frames.samples is not self._decoded:
            self._decoded = frames.samples
            self._view = self._numpy.frombuffer(frames.samples, "i4")
        samples = self._view[first * self._channels : last * self._channels]
        _samples.put(samples, frames.bits(), self._dtype, self._space(last - first))

    def add_silence(self, count: int) -> None:
        self._space(count)[...] = 0

    def result(self) -> Any:
        if self._count < len(self._out):
            self._resize(self._count)
        return self._flat if self._channels == 1 and not self._always_2d else self._out


class ArraySink:
    """A list of one array for each channel."""

    is_planar = True

    def __init__(self, channels: int, dtype: Optional[str]) -> None:
        self._dtype = dtype
        self._arrays: List["array[Any]"] = [
            array(_samples.LETTERS[dtype or "i4"]) for _ in range(channels)
        ]

    def add(self, frames: Frames, first: int, last: int) -> None:
        assert frames.samples is not None
        planar, duration = memoryview(frames.samples)[: frames.count()], frames.found.duration
        if self._dtype is not None:
            planar = _samples.converted(planar, frames.bits(), self._dtype)
        for channel, found in enumerate(self._arrays):
            at = channel * duration
            found.frombytes(planar[at + first : at + last].cast("B"))

    def add_silence(self, count: int) -> None:
        for found in self._arrays:
            found.frombytes(bytes(count * found.itemsize))

    def result(self) -> List["array[Any]"]:
        return self._arrays
