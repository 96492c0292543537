"""Threads that read side by side, each a stream of its own."""
import io
import threading
import time
import unittest
from typing import List

import claxon
from streams.frames import frame, frame_header
from tests import FRAME_OF_5, head
from tests.test_live import numbered_frame
from tests.test_seeking import made_head


def slow_frame() -> bytes:
    """A damaged frame that takes long to decode, as each sample is predicted from 32."""
    # The type, 32 samples of 8 bits, a precision of 15 bits, no shift, the coefficients, and the
    # residual: the bit 1 for each sample, which stands for 0.
    samples = "".join(f"{at:08b}" for at in range(1, 33))
    coefficients = 31 * f"{0:015b}" + f"{1:015b}"
    residual = "00" + "0000" + "0000" + (65535 - 32) * "1"
    bits = 8 * ("0" + "111111" + "0" + samples + "1110" + "00000" + coefficients + residual)
    damaged = frame(frame_header(65535, 7), [bits])
    return damaged[:-1] + bytes([damaged[-1] ^ 1])


class Searcher(threading.Thread):
    """Goes to the frame after all damaged ones, by one long call of the library."""

    def __init__(self, content: bytes) -> None:
        super().__init__()
        self._feed = claxon.Feed()  # all bytes are searched at once
        self._feed.feed(content)
        self.began = self.ended = 0.0
        self.samples: List[List[int]] = []

    def run(self) -> None:
        try:
            next(self._feed.blocks())
        except claxon.FormatError:
            self.began = time.perf_counter()
            self._feed.resync()
            self.ended = time.perf_counter()
        self.samples = [block.planar.tolist() for block in self._feed.blocks()]


class Threads(unittest.TestCase):
    def given_meanwhile(self, frames: int) -> int:
        """How many blocks another stream gave in the middle half of the time that the call took:
        with Python's lock held it would give none.
        """
        after = numbered_frame(1, 8 * [[1, 2, 3]])
        thread = Searcher(made_head(65535, 0, 8) + frames * slow_frame() + after)
        flac = claxon.Flac(io.BytesIO(head() + 200000 * FRAME_OF_5))
        times: List[float] = []
        thread.start()
        for block in flac.blocks():
            self.assertEqual(block.planar.tolist(), [5])
            times.append(time.perf_counter())
            if not thread.is_alive():
                break
        thread.join()
        self.assertEqual(thread.samples, [8 * [1, 2, 3]])
        quarter = (thread.ended - thread.began) / 4
        return sum(thread.began + quarter < at < thread.ended - quarter for at in times)

    def test_side_by_side(self) -> None:
        """A call of the library lets other threads run. Where the machine is busy they may not run
        at once, so longer calls are tried.
        """
        for frames in (50, 100, 200):
            given = self.given_meanwhile(frames)
            if given > 100:
                return
        self.fail(f"{given} blocks were given by one thread while another one was in a call")
