"""Samples of a stream that are read at once."""
import warnings
from typing import TYPE_CHECKING, Any, List, Literal, NamedTuple, Optional, Tuple, Type

from claxon import _samples
from claxon._errors import Error, FormatError, InputEnds, MissingSamplesWarning, NoSuchSample
from claxon._errors import TrailingDataWarning, Unsupported
from claxon._sinks import ArraySink, NumpySink, Sink

if TYPE_CHECKING:
    from claxon._flac import Flac

Missing = Literal["raise", "silence"]


class Wanted(NamedTuple):
    """How samples are wanted."""

    dtype: Optional[str]
    always_2d: bool
    fills: bool  # what is missing by silence
    has_numpy: bool  # else an array for each channel


def wanted(dtype: Any, always_2d: bool, missing: str, with_numpy: bool = True) -> Wanted:
    """ValueError where the arguments of a call are wrong."""
    if missing not in ("raise", "silence"):
        raise ValueError('missing is "raise" or "silence"')
    has_numpy = with_numpy and _samples.numpy() is not None
    return Wanted(_samples.name_of(dtype), bool(always_2d), missing == "silence", has_numpy)


class Reading:
    """Reads samples of a stream into a sink, from `start` on.

    Times are those that frames have: what is missing, or there twice, is seen by them.
    """

    def __init__(self, flac: "Flac", sink: Sink, start: int, wanted: Wanted) -> None:
        self._flac = flac
        self._frames = flac._frames
        self._sink = sink
        self._total = flac.info.samples
        self._fills = wanted.fills
        self._gaps: List[Tuple[int, int]] = []  # what is missing, and silence in its place
        self._passed = 0  # samples that are repeated
        self._trailing: Optional[Error] = None  # what is said of data after the last sample
        self.at = start  # the next sample
        self.is_before = False  # whether the block that has it may begin before it

    def run(self, stop: Optional[int]) -> None:
        """Reads to before this sample, or to the end."""
        try:
            while stop is None or self.at < stop:
                try:
                    if not self._frames.next(self._sink.is_planar):
                        break
                except (FormatError, Unsupported, InputEnds) as error:
                    if not self._goes_on_after(error):
                        break
                else:
                    self._add_block(stop)
        finally:
            self._flac._time, self._flac._is_within = self.at, self.is_before

    def _goes_on_after(self, error: Error) -> bool:
        """Whether another frame follows a fault. Raises it where it isn't passed over."""
        if error.position is not None and self.at == self._total:
            self._trailing = error
            return False
        if not self._fills:
            raise error
        return self._frames.resync(True) is not None

    def _add_block(self, stop: Optional[int]) -> None:
        """Adds what is wanted of the block that was decoded."""
        found = self._frames.found
        time = int(found.time)
        end = time + int(found.duration)
        if self.is_before and end <= self.at:
            return
        if found.channels != self._flac.info.channels:
            self._refuse(FormatError, "the number of channels changes within the stream")
        if self._fills and self._total is not None and time >= self._total:
            return
        if time > self.at:
            self._pass_gap(time if stop is None else min(time, stop))
        elif time < self.at and not self.is_before:
            self._pass_repeated(time, end)
        last = end if stop is None else min(end, stop)
        if time <= self.at < last:
            self._sink.add(self._frames, self.at - time, last - time)
            self.at = last
        self.is_before = self.at < end
        if self.is_before:
            self._frames.put_back()

    def _refuse(self, kind: Type[Error], text: str) -> None:
        """Raises this of the block that was decoded, which is the next one again."""
        self._frames.put_back()
        raise kind(text, self._frames.window.position())

    def _pass_gap(self, end: int) -> None:
        """The samples before this one are missing."""
        if not self._fills and self.is_before:
            self._refuse(NoSuchSample, f"no block has the sample {self.at}")
        if not self._fills:
            self._refuse(FormatError, f"the samples from {self.at} to {end} are missing")
        self._fill(end)

    def _pass_repeated(self, time: int, end: int) -> None:
        """The block begins before the next sample."""
        end = min(end, self.at)
        if not self._fills:
            self._refuse(FormatError, f"the samples from {time} to {end} are repeated")
        self._passed += end - time

    def _fill(self, end: int) -> None:
        """Puts silence in the place of what is missing before this sample."""
        self._gaps.append((self.at, end))
        self._sink.add_silence(end - self.at)
        self.at = end

    def finish(self, stop: Optional[int]) -> None:
        """Where the stream ended before this sample, or before those that the streaminfo says: they
        are missing. If it doesn't say how many there are, fewer are read.
        """
        end = self._total if stop is None else stop
        if self._total is None and self.is_before and self.at and (stop is None or self.at < stop):
            raise NoSuchSample(f"no block has the sample {self.at}")
        if self._total is None or end is None or self.at >= end:
            return
        if self._fills:
            self._fill(end)
        elif self.is_before:
            raise NoSuchSample(f"no block has the sample {self.at}")
        else:
            text = f"the streaminfo says {self._total} samples, {self.at} were found"
            raise InputEnds(text)

    def warn(self, level: int) -> None:
        """Warns of what was passed over. The level is that of who called for samples."""
        if self._trailing is not None:
            text = "the last sample is followed by what is no frame, at byte"
            text = f"{text} {self._trailing.position}: {self._trailing}"
            warnings.warn(text, TrailingDataWarning, stacklevel=level)
        texts = []
        if self._gaps:
            count = sum(end - start for start, end in self._gaps)
            texts.append(f"{count} samples are missing and silent, from {self._gaps[0][0]} on")
        if self._passed:
            texts.append(f"{self._passed} samples are repeated and left out")
        if texts:
            warnings.warn("; ".join(texts), MissingSamplesWarning, stacklevel=level)


def _sink_of(flac: "Flac", wanted: Wanted, count: int) -> Sink:
    if wanted.has_numpy:
        return NumpySink(flac.info.channels, wanted.dtype, max(0, count), wanted.always_2d)
    return ArraySink(flac.info.channels, wanted.dtype)


def read_on(flac: "Flac", frames: int, wanted: Wanted) -> Any:
    """The samples from where the stream stands; a negative number of them stands for all."""
    start, total = flac._time, flac.info.samples
    if start is None:  # after `resync` the next block says it
        start = total or 0
        if flac._frames.next(is_planar=not wanted.has_numpy):
            start = int(flac._frames.found.time)
            flac._frames.put_back()
    stop = None if frames < 0 else start + frames
    if total is not None and stop is not None:
        stop = min(stop, max(start, total))
    sink = _sink_of(flac, wanted, (stop or total or start) - start)
    reading = Reading(flac, sink, start, wanted)
    reading.is_before = flac._is_within
    reading.run(stop)
    reading.finish(stop)
    reading.warn(6)
    return sink.result()


def read_file(flac: "Flac", asked: Tuple[int, Optional[int], int], wanted: Wanted) -> Any:
    """The samples of a stream of which nothing was read: those from `start` to before `stop`, or so
    many frames.
    """
    start, stop = _range_of(asked, flac.info.samples)
    total = flac.info.samples
    count = (total if stop is None else stop) or start
    sink = _sink_of(flac, wanted, count - start)
    if (stop is None or stop > start) and start != total:
        reading = Reading(flac, sink, start, wanted)
        reading.is_before = start > 0
        if start and flac.can_seek():
            try:
                flac.seek(start)
            except NoSuchSample:
                if not wanted.fills:
                    raise
        reading.run(stop)
        reading.finish(stop)
        reading.warn(4)
    return sink.result()


def _range_of(
    asked: Tuple[int, Optional[int], int], total: Optional[int]
) -> Tuple[int, Optional[int]]:
    """The first sample and the one after the last, if that is known; as of a slice."""
    start, stop, frames = asked
    if frames >= 0 and stop is not None:
        raise TypeError("only one of frames and stop can be given")
    if total is not None:
        start, stop, _ = slice(start, stop).indices(total)
        stop = None if asked[1] is None else stop
    elif start < 0 or (stop is not None and stop < 0):
        raise ValueError("the stream doesn't say its length, from which start and stop count back")
    if frames >= 0:
        stop = start + frames if total is None else min(start + frames, total)
    return start, stop
