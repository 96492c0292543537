"""MD5 sums of samples."""
import ctypes
import threading
from array import array

from claxon import _calls
from claxon._calls import library
from claxon._types import Block


class Md5:
    """The MD5 sum of samples of so many bits, for comparison with `StreamInfo.md5`.

    Raises ValueError where there aren't 1 to 32 bits per sample.
    """

    def __init__(self, bits_per_sample: int) -> None:
        if not 1 <= bits_per_sample <= 32:
            raise ValueError("an MD5 sum is of samples of 1 to 32 bits")
        self._bits_per_sample = bits_per_sample
        self._hasher = _calls.Md5()
        self._interleaved = array("i", bytes(4))
        self._lock = threading.Lock()
        library.claxon_md5_start(self._hasher)

    def update(self, block: Block) -> None:
        """Hashes the samples of a block, after those that were hashed before. Raises ValueError
        where they were taken with a `dtype`.
        """
        count = len(block.planar)
        with self._lock:
            if len(self._interleaved) < count:
                self._interleaved = array("i", bytes(4 * count))
            with memoryview(self._interleaved) as places:
                for channel, samples in enumerate(block.samples):
                    places[channel : count : block.channels] = samples
            address = self._interleaved.buffer_info()[0]
            library.claxon_md5_samples(self._hasher, address, count, self._bits_per_sample)

    def digest(self) -> bytes:
        """The sum of the samples that were hashed. More may be hashed after it."""
        found = (ctypes.c_uint8 * 16)()
        with self._lock:
            library.claxon_md5_finish(self._hasher, found)
        return bytes(found)
