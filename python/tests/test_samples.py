"""Samples of other types, beside a sum for each sample, and what soundfile reads, where it is."""
import io
import itertools
import random
import struct
import unittest
from array import array
from typing import Any, Iterator, List, Tuple
from unittest import mock

import claxon
from claxon import _samples
from streams.frames import MARKER, metadata_block
from tests import DATA, TOP, cases, verbatim_frame

SONG = TOP / "examples" / "tagged.flac"
LETTERS = {"i2": "h", "i4": "i", "f4": "f", "f8": "d"}


NAMES = {"i2": "int16", "i4": "int32", "f4": "float32", "f8": "float64"}


def single(number: float) -> float:
    """The nearest number of single precision."""
    return float(struct.unpack("f", struct.pack("f", number))[0])


def expected_of(sample: int, bits: int, dtype: str) -> float:
    """A sample of full scale: by the definition, alone."""
    if dtype in ("f4", "f8"):
        number = sample / (1 << bits - 1)
        return single(number) if dtype == "f4" else number
    width = 16 if dtype == "i2" else 32
    return sample << width - bits if bits <= width else sample >> bits - width


def made_stream(bits: int, channels: List[List[int]]) -> bytes:
    """A stream of one frame, of this bit depth."""
    sizes = 2 * b"\x00\x10" + bytes(6)
    fields = 44100 << 44 | len(channels) - 1 << 41 | bits - 1 << 36 | len(channels[0])
    streaminfo = sizes + fields.to_bytes(8, "big") + bytes(16)
    return MARKER + metadata_block(0, streaminfo, True) + verbatim_frame(channels, bits)


def made_channels(source: random.Random, bits: int) -> List[List[int]]:
    """Noise, and the ends of the range."""
    least, most = -1 << bits - 1, (1 << bits - 1) - 1
    numbers = [least, most, 0, -1, least + 1, *(source.randint(least, most) for _ in range(60))]
    duration = source.randrange(1, 200)
    return [source.choices(numbers, k=duration) for _ in range(source.randrange(1, 5))]


def streams() -> Iterator[Tuple[int, List[List[int]], bytes]]:
    source = random.Random(9)
    for bits in range(1, 33):
        channels = made_channels(source, bits)
        yield bits, channels, made_stream(bits, channels)


class Depths(unittest.TestCase):
    def expect_blocks(self, stream: bytes, dtype: Any, expected: List[List[float]]) -> None:
        with claxon.Flac(io.BytesIO(stream)) as flac:
            [block] = flac.blocks(dtype)
        self.assertEqual((block.planar.format, block.planar.contiguous), (LETTERS[dtype], True))
        self.assertEqual(block.planar.tolist(), [sample for ch in expected for sample in ch])
        self.assertEqual([samples.tolist() for samples in block.samples], expected)
        feed = claxon.Feed()
        feed.feed(stream)
        self.assertEqual([block.planar for block in feed.blocks(dtype)], [block.planar])

    def expect_read(self, stream: bytes, dtype: Any, expected: List[List[float]]) -> None:
        samples, rate = claxon.read_arrays(io.BytesIO(stream), dtype=dtype)
        self.assertEqual(samples, [array(LETTERS[dtype], channel) for channel in expected])
        self.assertEqual({channel.typecode for channel in samples}, {LETTERS[dtype]})
        part, _ = claxon.read_arrays(io.BytesIO(stream), 1, 7, dtype=dtype)
        self.assertEqual([channel.tolist() for channel in part], [ch[1:7] for ch in expected])

    def expect_all(self) -> None:
        for bits, channels, stream in streams():
            for dtype in LETTERS:
                with self.subTest(bits=bits, dtype=dtype):
                    expected = [[expected_of(x, bits, dtype) for x in ch] for ch in channels]
                    self.expect_blocks(stream, dtype, expected)
                    self.expect_read(stream, dtype, expected)

    def test_without_numpy(self) -> None:
        with mock.patch.object(_samples, "numpy", return_value=None):
            self.expect_all()

    def test_with_numpy(self) -> None:
        try:
            import numpy  # noqa: F401
        except ImportError:
            self.skipTest("numpy isn't installed")
        self.expect_all()

    def test_as_they_are(self) -> None:
        """Without a type they have the stream's numbers."""
        for bits, channels, stream in streams():
            for samples, _ in (
                claxon.read_arrays(io.BytesIO(stream)),
                claxon.read_arrays(io.BytesIO(stream), dtype=None),
            ):
                self.assertEqual(samples, [array("i", channel) for channel in channels])

    def test_memory(self) -> None:
        """It belongs to the block alone, also where no number changes."""
        for bits, dtype in ((32, "i4"), (16, "i2"), (24, "f4")):
            stream = made_stream(bits, [[1, 2, 3]])
            frame = stream[42:]
            flac = claxon.Flac(io.BytesIO(stream + frame))
            first, second = flac.blocks(dtype)
            before = second.planar.tolist()
            first.planar[0] = 0
            self.assertEqual(second.planar.tolist(), before)

    def test_other_types(self) -> None:
        for dtype in ("i8", "", "int8", 4, "<i2"):
            with claxon.Flac(SONG) as flac:
                self.assertRaises(ValueError, flac.blocks, dtype)
                self.assertEqual(next(flac.blocks()).time, 0)
            self.assertRaises(ValueError, claxon.read, SONG, dtype=dtype)

    def test_md5(self) -> None:
        """The sum is of the stream's numbers: of others it is refused."""
        with claxon.Flac(SONG) as flac:
            for dtype in ("i2", "f4"):
                block = next(flac.blocks(dtype))
                self.assertRaises(ValueError, claxon.Md5(8).update, block)


class Others(unittest.TestCase):
    def test_soundfile(self) -> None:
        """libsndfile, over libFLAC, has the same numbers of the same files."""
        try:
            import numpy
            import soundfile  # type: ignore[import]
        except ImportError:
            self.skipTest("soundfile isn't installed (Debian's python3-soundfile)")
        depths = set()
        names = [case.name for case in cases() if case.result == "ok"]
        for path in [SONG, *(DATA / name for name in names)]:
            for dtype, name in NAMES.items():
                try:
                    expected, _ = soundfile.read(path, dtype=name, always_2d=True)
                    samples, _ = claxon.read_arrays(path, dtype=dtype)
                except (soundfile.LibsndfileError, claxon.Error):
                    continue  # a depth or a stream that one of them refuses
                with self.subTest(path.name, dtype=dtype):
                    found = numpy.stack([numpy.frombuffer(ch, dtype) for ch in samples], axis=1)
                    self.assertEqual(found.dtype, expected.dtype)
                    self.assertTrue(numpy.array_equal(found, expected))
                with claxon.Flac(path) as flac:
                    depths.add((flac.info.bits_per_sample, dtype))
        for depth, dtype in itertools.product((8, 16, 24), LETTERS):
            self.assertIn((depth, dtype), depths)

    def test_numpy(self) -> None:
        """numpy takes them without a copy."""
        try:
            import numpy
        except ImportError:
            self.skipTest("numpy isn't installed")
        for dtype in LETTERS:
            with claxon.Flac(SONG) as flac:
                for block in flac.blocks(dtype):
                    planar = numpy.frombuffer(block.planar, dtype)
                    self.assertEqual(planar.tolist(), block.planar.tolist())
                    self.assertTrue(numpy.shares_memory(planar, numpy.asarray(block.samples[0])))
