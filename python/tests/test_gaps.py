"""Samples that are missing or repeated, by the times of frames: `read` never joins what isn't next
to each other."""
import io
import random
import unittest
import warnings
from typing import Any, List, Optional, Tuple
from unittest import mock

import claxon
from claxon import _samples
from streams.frames import constant, frame, frame_header
from tests import Trickle
from tests.test_live import numbered_frame
from tests.test_seeking import Made, made, made_head

SIZE, COUNT = 250, 40


def silent(stream: Made, *numbers: int) -> List[int]:
    """The samples, and zeros for those of frames with these numbers."""
    samples = list(stream.samples)
    for number in numbers:
        samples[SIZE * number : SIZE * (number + 1)] = SIZE * [0]
    return samples


class GapCase(unittest.TestCase):
    def setUp(self) -> None:
        self.stream = made(COUNT, SIZE)

    def content(self, numbers: List[int], is_known: bool = True) -> bytes:
        """The stream of just these frames."""
        head = self.stream.head if is_known else made_head(SIZE, 0)
        return head + b"".join(self.stream.frames[number] for number in numbers)

    def read(self, content: bytes, *place: Optional[int], seeks: bool = True) -> List[int]:
        """What is read with silence. A warning has to be caught."""
        file: Any = io.BytesIO(content) if seeks else Trickle(content, 999)
        samples, _ = claxon.read_arrays(file, *place, missing="silence")  # type: ignore[arg-type]
        return samples[0].tolist()

    def expect_refused(self, content: bytes, text: str, *place: Any) -> None:
        """Also of a file that can't seek, and with silence there is a warning."""
        files: List[Any] = [io.BytesIO(content), Trickle(content, 999)]
        for file in files:
            with self.assertRaises(claxon.FormatError) as raised:
                claxon.read_arrays(file, *place)
            self.assertEqual(str(raised.exception), text)

    def expect_silence(self, content: bytes, expected: List[int], *place: Any) -> None:
        for seeks in (True, False):
            with self.assertWarns(claxon.MissingSamplesWarning) as warned:
                found = self.read(content, *place, seeks=seeks)
            start, stop = (*place, None, None)[:2]
            self.assertEqual(found, expected[start:stop])
            self.assertEqual(warned.filename, __file__)


class Gaps(GapCase):
    def test_missing(self) -> None:
        """Ten frames aren't there."""
        numbers = [number for number in range(COUNT) if not 7 <= number < 17]
        content, text = self.content(numbers), "the samples from 1750 to 4250 are missing"
        expected = silent(self.stream, *range(7, 17))
        for place in ((), (0, 6000), (1000,), (1700, 5000)):
            self.expect_refused(content, text, *place)
            self.expect_silence(content, expected, *place)
        self.expect_refused(self.content(numbers, False), text)
        self.expect_silence(self.content(numbers, False), expected)

    def test_position(self) -> None:
        """It is that of the frame after the gap."""
        content = self.content([0, 1, 4, 5])
        with self.assertRaises(claxon.FormatError) as raised:
            claxon.read(io.BytesIO(content))
        self.assertEqual(raised.exception.position, len(self.content([0, 1])))

    def test_parts_beside_it(self) -> None:
        """Samples before and after a gap are read as ever."""
        content = self.content([*range(7), *range(17, COUNT)])
        with warnings.catch_warnings():
            warnings.simplefilter("error")
            for start, stop in ((0, 1750), (300, 1111), (4250, None), (5000, 5001)):
                for missing in ("raise", "silence"):
                    found, _ = claxon.read_arrays(
                        io.BytesIO(content), start, stop, missing=missing  # type: ignore[arg-type]
                    )
                    self.assertEqual(found[0].tolist(), self.stream.samples[start:stop])

    def test_within_it(self) -> None:
        """No block has the first sample."""
        content = self.content([*range(7), *range(17, COUNT)])
        expected = silent(self.stream, *range(7, 17))
        for start in (1750, 3000, 4249):
            for file in (io.BytesIO(content), Trickle(content, 999)):
                self.assertRaises(claxon.NoSuchSample, claxon.read, file, start)
            for stop in (4000, 4300, 9999):
                if start < stop:
                    self.expect_silence(content, expected, start, stop)

    def test_in_front_and_at_the_end(self) -> None:
        numbers = list(range(3, COUNT - 2))
        content = self.content(numbers)
        self.expect_refused(content, "the samples from 0 to 750 are missing")
        self.expect_silence(content, silent(self.stream, 0, 1, 2, COUNT - 2, COUNT - 1))
        cut = self.content(list(range(COUNT - 2)))
        self.assertRaises(claxon.InputEnds, claxon.read, io.BytesIO(cut))
        self.expect_silence(cut, silent(self.stream, COUNT - 2, COUNT - 1))

    def test_damaged(self) -> None:
        """With silence a damaged frame is one that is missing."""
        content = bytearray(self.content(list(range(COUNT))))
        for number in (3, 4, 20):
            content[len(self.content(list(range(number + 1)))) - 1] ^= 1
        self.assertRaises(claxon.FormatError, claxon.read, io.BytesIO(content))
        self.expect_silence(bytes(content), silent(self.stream, 3, 4, 20))

    def test_swapped(self) -> None:
        """The one that comes too late is repeated time."""
        content = self.content([0, 1, 3, 2, *range(4, COUNT)])
        self.expect_refused(content, "the samples from 500 to 750 are missing")
        self.expect_silence(content, silent(self.stream, 2))

    def test_repeated(self) -> None:
        for numbers in ([0, 1, 1], [0, 1, 2, 0, 1, 2], [0, 0]):
            content = self.content([*numbers, *range(max(numbers) + 1, COUNT)])
            place = [at for at in range(1, len(numbers)) if numbers[at] <= numbers[at - 1]][0]
            start = SIZE * numbers[place]
            text = f"the samples from {start} to {start + SIZE} are repeated"
            self.expect_refused(content, text)
            self.expect_silence(content, self.stream.samples)

    def test_repeated_last_frame(self) -> None:
        content = self.content([*range(COUNT), COUNT - 1])
        self.expect_refused(content, "the samples from 9750 to 10000 are repeated")

    def test_times_beyond_the_end(self) -> None:
        """Of a frame of another stream: with silence it isn't taken."""
        far = numbered_frame(99999, [SIZE * [1]])
        content = self.content([0, 1]) + far + self.content(list(range(2, COUNT)))[42:]
        self.expect_refused(content, "the samples from 500 to 24999750 are missing")
        self.assertEqual(self.read(content), self.stream.samples)

    def test_at_random(self) -> None:
        """Silence stands just where frames are missing."""
        source = random.Random(3)
        for _ in range(60):
            kept = sorted(source.sample(range(COUNT), source.randrange(1, COUNT)))
            lost = [number for number in range(COUNT) if number not in kept]
            expected = silent(self.stream, *lost)
            start, stop = sorted(source.sample(range(SIZE * COUNT), 2))
            is_hit = any(SIZE * n < stop and start < SIZE * (n + 1) for n in lost)
            with warnings.catch_warnings(record=True) as caught:
                warnings.simplefilter("always")
                found = self.read(self.content(kept), start, stop)
            self.assertEqual(found, expected[start:stop])
            self.assertEqual(bool(caught), is_hit)
            if is_hit:
                with self.assertRaises(claxon.Error):
                    claxon.read(io.BytesIO(self.content(kept)), start, stop)

    def test_other_words(self) -> None:
        for missing in ("zeros", "", None, 0):
            with self.assertRaises(ValueError):
                claxon.read(io.BytesIO(self.stream.content()), missing=missing)  # type: ignore

    def test_other_channels(self) -> None:
        content = self.content([0, 1]) + numbered_frame(2, 2 * [SIZE * [1]])
        for missing in ("raise", "silence"):
            with self.assertRaises(claxon.FormatError) as raised:
                claxon.read(io.BytesIO(content), missing=missing)  # type: ignore[arg-type]
            self.assertEqual(raised.exception.position, len(self.content([0, 1])))


class Sizes(unittest.TestCase):
    def frame(self, number: int, size: int, is_variable: bool) -> bytes:
        header = frame_header(size, 0, 1, 9, number=number, is_variable=is_variable)
        return frame(header, [constant(number % 100, 8)])

    def made(self, sizes: List[int], is_variable: bool) -> Tuple[bytes, List[int]]:
        """A stream of blocks of these sizes, whose streaminfo has both bounds, and its samples."""
        samples: List[int] = []
        frames = b""
        for number, size in enumerate(sizes):
            first = len(samples) if is_variable else number
            frames += self.frame(first, size, is_variable)
            samples += size * [first % 100]
        head = bytearray(made_head(max(sizes), len(samples)))
        head[8:10] = max(16, min(sizes)).to_bytes(2, "big")
        return bytes(head) + frames, samples

    def test_two_bounds(self) -> None:
        """A shorter last block is where it is, whether the streaminfo counts it or not."""
        for is_variable, sizes in ((False, 5 * [300] + [70]), (True, [300, 20, 77, 300, 16, 9])):
            content, samples = self.made(sizes, is_variable)
            files: List[Any] = [io.BytesIO(content), Trickle(content, 99)]
            for file in files:
                self.assertEqual(claxon.read_arrays(file)[0][0].tolist(), samples)
            flac = claxon.Flac(io.BytesIO(content))
            self.assertEqual(sum(block.duration for block in flac.blocks()), len(samples))
            with mock.patch.object(_samples, "numpy", return_value=None):
                self.assertEqual([samples.tolist() for samples in flac.read()], [[]])

    def test_missing(self) -> None:
        content, samples = self.made(5 * [300] + [70], False)
        place = len(made_head(300, 0))
        size = len(self.frame(1, 300, False))
        without = content[: place + 2 * size] + content[place + 3 * size :]
        with self.assertRaises(claxon.FormatError) as raised:
            claxon.read(io.BytesIO(without))
        self.assertEqual(str(raised.exception), "the samples from 600 to 900 are missing")
