"""What a stream says of itself, and the samples of a frame."""
from dataclasses import dataclass
from typing import TYPE_CHECKING, Any, NamedTuple, Optional, Tuple

from claxon import _samples

if TYPE_CHECKING:
    import numpy


@dataclass(frozen=True)
class StreamInfo:
    """What a stream says of itself. None stands for what it leaves unknown."""

    min_block_size: int  # in samples of each channel; the last block may be smaller
    max_block_size: int
    min_frame_size: Optional[int]  # in bytes
    max_frame_size: Optional[int]
    sample_rate: int  # in Hz
    channels: int  # 1 to 8
    bits_per_sample: int  # 1 to 32
    samples: Optional[int]  # of each channel
    md5: Optional[bytes]  # of the samples, interleaved, each little-endian in whole bytes

    @property
    def duration(self) -> Optional[float]:
        """The length in seconds."""
        return None if self.samples is None else self.samples / self.sample_rate


class Block(NamedTuple):
    """The samples of a frame: signed numbers of its bit depth, four bytes each, or as `dtype` says.

    `planar` has all of them, channel after channel, and `samples[ch]` those of one channel. Both
    are views, of format "i", "h", "f" or "d", of memory that belongs to this block alone. It isn't
    written again, and stays as long as there is a view of it.
    """

    time: int  # the number of samples of each channel before it
    channels: int  # 1 to 8
    duration: int  # the number of samples of each channel
    samples: Tuple[memoryview, ...]
    planar: memoryview
    sample_rate: Optional[int] = None  # in Hz; None where the frame leaves it to the streaminfo
    bits_per_sample: Optional[int] = None  # 1 to 32; None as for the sample rate

    @property
    def array(self) -> "numpy.ndarray[Any, Any]":
        """The same memory as an array of numpy, with a row for each sample of all channels."""
        flat = _samples.needed_numpy().frombuffer(self.planar, self.planar.format)
        array: "numpy.ndarray[Any, Any]" = flat.reshape(self.channels, self.duration).T
        return array

    def since(self, sample: int) -> "Block":
        """The block without its samples before this one of the stream, in memory of its own."""
        before = sample - self.time
        if not 0 <= before < self.duration:
            raise ValueError(f"the block hasn't the sample {sample}")
        duration = self.duration - before
        planar = _samples.joined([samples[before:] for samples in self.samples])
        samples = tuple(planar[at : at + duration] for at in range(0, len(planar), duration))
        return self._replace(time=sample, duration=duration, samples=samples, planar=planar)
