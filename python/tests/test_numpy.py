"""Arrays of numpy, as soundfile has them."""
import io
import itertools
import random
import unittest
import warnings
from typing import Any, Iterator, List, Tuple
from unittest import mock

import claxon
from claxon import _samples
from tests import DATA, TOP, Trickle, cases
from tests.test_samples import expected_of, streams
from tests.test_seeking import made, made_head

SONG = TOP / "examples" / "tagged.flac"
DTYPES = {"int16": "i2", "int32": "i4", "float32": "f4", "float64": "f8"}

try:
    import numpy
except ImportError:
    numpy = None
try:
    import soundfile  # type: ignore[import]
except ImportError:
    soundfile = None


def types_of(name: str) -> List[Any]:
    """The ways to name a type."""
    return [name, DTYPES[name], getattr(numpy, name), numpy.dtype(name)]


@unittest.skipIf(numpy is None, "numpy isn't installed")
class Arrays(unittest.TestCase):
    def test_values(self) -> None:
        """Of each depth, beside a sum for each sample."""
        for bits, channels, stream in streams():
            columns = numpy.array(channels, "i8").T
            for name in DTYPES:
                short = DTYPES[name]
                expected = [[expected_of(x, bits, short) for x in row] for row in columns.tolist()]
                for dtype in types_of(name):
                    found, rate = claxon.read(io.BytesIO(stream), dtype=dtype, always_2d=True)
                    self.assertEqual((found.dtype, found.shape, rate), (name, columns.shape, 44100))
                    self.assertEqual(found.tolist(), expected)
            found, _ = claxon.read(io.BytesIO(stream), always_2d=True)
            self.assertEqual((found.dtype, found.tolist()), ("int32", columns.tolist()))

    def test_shapes(self) -> None:
        for bits, channels, stream in streams():
            found, _ = claxon.read(io.BytesIO(stream))
            shape = (len(channels[0]), len(channels))
            self.assertEqual(found.shape, shape if len(channels) > 1 else shape[:1])
            self.assertTrue(found.flags.c_contiguous and found.flags.writeable)
            empty, _ = claxon.read(io.BytesIO(stream), 0, 0, always_2d=True)
            self.assertEqual(empty.shape, (0, len(channels)))

    def test_slices(self) -> None:
        """Starts and stops are those of a slice."""
        source = random.Random(2)
        stream = made(12, 250)
        samples = numpy.array(stream.samples)
        places = [None, 0, 250, 1000, 2999, 3000, 9999, -1, -250, -3000, -9999]
        for start, stop in itertools.product(places[1:], places):
            if source.random() < 0.5:
                start = source.randrange(-3000, 3000)
            files: List[Any] = [io.BytesIO(stream.content()), Trickle(stream.content(), 999)]
            for file in files:
                found, _ = claxon.read(file, start or 0, stop)
                self.assertEqual(found.tolist(), samples[start:stop].tolist())

    def test_frames(self) -> None:
        stream = made(12, 250)
        for start, frames in itertools.product((0, 5, 250, 2990, 3000, -20), (-1, 0, 1, 250, 9999)):
            found, _ = claxon.read(io.BytesIO(stream.content()), start, frames=frames)
            expected = stream.samples[start:] if frames < 0 else stream.samples[start:][:frames]
            self.assertEqual(found.tolist(), expected)
        for frames in (0, 5):
            with self.assertRaises(TypeError):
                claxon.read(io.BytesIO(stream.content()), stop=5, frames=frames)

    def test_unknown_length(self) -> None:
        stream = made(300, 250, False)
        found, _ = claxon.read(io.BytesIO(stream.content()), 3, dtype="f8")
        self.assertEqual((found * 128).tolist(), stream.samples[3:])
        for places in ((-1, None), (0, -1)):
            self.assertRaises(ValueError, claxon.read, io.BytesIO(stream.content()), *places)

    def test_length_that_is_false(self) -> None:
        """A streaminfo that says too many samples costs no memory."""
        stream = made(12, 250)
        content = made_head(250, (1 << 36) - 1) + b"".join(stream.frames)
        self.assertRaises(claxon.InputEnds, claxon.read, io.BytesIO(content))
        found, _ = claxon.read(io.BytesIO(content), stop=3000, dtype="int16")
        self.assertEqual((found >> 8).tolist(), stream.samples)

    def test_silence(self) -> None:
        stream = made(12, 250)
        content = stream.head + b"".join(stream.frames[:3] + stream.frames[5:])
        self.assertRaises(claxon.FormatError, claxon.read, io.BytesIO(content))
        with self.assertWarns(claxon.MissingSamplesWarning) as warned:
            found, _ = claxon.read(io.BytesIO(content), missing="silence")
        self.assertEqual(warned.filename, __file__)
        expected = stream.samples[:750] + 500 * [0] + stream.samples[1250:]
        self.assertEqual(found.tolist(), expected)

    def test_blocks(self) -> None:
        """The array of a block is its memory, with a row for each sample."""
        for bits, channels, stream in streams():
            for name in DTYPES:
                [block] = claxon.Flac(io.BytesIO(stream)).blocks(name)
                self.assertEqual(block.array.dtype, name)
                self.assertEqual(block.array.T.tolist(), [ch.tolist() for ch in block.samples])
                self.assertTrue(numpy.shares_memory(block.array, numpy.asarray(block.planar)))
            [block] = claxon.Flac(io.BytesIO(stream)).blocks()
            self.assertEqual(block.array.T.tolist(), channels)

    def test_other_types(self) -> None:
        others = ["int8", "uint8", "complex64", numpy.int64, numpy.dtype(">i2"), int, "", 4, [1]]
        for dtype in others:
            with self.assertRaises(ValueError):
                claxon.read(SONG, dtype=dtype)


@unittest.skipIf(numpy is None, "numpy isn't installed")
class Places(unittest.TestCase):
    """Where reading goes on."""

    def test_after_seek(self) -> None:
        """It begins at the sample itself."""
        stream = made(40, 250)
        flac = claxon.Flac(io.BytesIO(stream.content()))
        for sample in random.Random(1).sample(range(10000), 200):
            flac.seek(sample)
            self.assertEqual(flac.read(7).tolist(), stream.samples[sample : sample + 7])
            self.assertEqual(flac.read(600).tolist(), stream.samples[sample + 7 :][:600])
        flac.seek(9000)
        self.assertEqual(flac.read().tolist(), stream.samples[9000:])
        self.assertEqual((flac.read().tolist(), flac.read(5).tolist()), ([], []))

    def test_in_pieces(self) -> None:
        stream = made(40, 250)
        for piece in (1, 99, 250, 251, 3000):
            flac, found = claxon.Flac(Trickle(stream.content(), 999)), []  # type: Any, List[int]
            for _ in range(10000 // piece + 2):
                found += flac.read(piece).tolist()
            self.assertEqual(found, stream.samples)

    def test_beside_blocks(self) -> None:
        """A block that was read in part is given whole; after a block the next one is read."""
        stream = made(40, 250)
        flac = claxon.Flac(io.BytesIO(stream.content()))
        self.assertEqual(next(flac.blocks()).time, 0)
        self.assertEqual(flac.read(10).tolist(), stream.samples[250:260])
        block = next(flac.blocks())
        self.assertEqual(block.planar.tolist(), stream.samples[250:500])
        self.assertEqual(flac.read(1).tolist(), stream.samples[500:501])

    def test_blocks_from_a_sample(self) -> None:
        for stream in (made(40, 250), made(40, 250, False)):
            flac = claxon.Flac(io.BytesIO(stream.content()))
            for start in (0, 1, 249, 250, 5123, 9999):
                times, found = [], []  # type: List[int], List[int]
                for block in flac.blocks(start=start):
                    self.assertEqual(block.samples[0].tolist(), block.planar.tolist())
                    self.assertEqual(block.duration, len(block.planar))
                    times.append(block.time)
                    found += block.planar.tolist()
                self.assertEqual(found, stream.samples[start:])
                self.assertEqual(times, [start, *range(start // 250 * 250 + 250, 10000, 250)])
            self.assertRaises(claxon.NoSuchSample, flac.blocks, start=10000)
            self.assertRaises(ValueError, flac.blocks, start=-1)
        path = DATA / "left_channel_alone.flac"
        whole, _ = claxon.read(path, dtype="f8")
        with claxon.Flac(path) as flac:
            arrays = [block.array for block in flac.blocks("f8", 4000)]
        self.assertEqual(numpy.concatenate(arrays).tolist(), whole[4000:].tolist())

    def test_numbers(self) -> None:
        """Numbers of samples are integers, also those of numpy."""
        flac = claxon.Flac(SONG)
        self.addCleanup(flac.close)
        calls: List[Any] = [flac.seek, flac.read, lambda at: flac.blocks(start=at)]
        calls += [lambda at: claxon.read(SONG, at), lambda at: claxon.read(SONG, 0, at)]
        for call in [*calls, lambda at: claxon.read(SONG, frames=at)]:
            for number in (1.0, "1", None) if call is not calls[2] else (1.0, "1"):
                if call in calls[4:] and number is None:
                    continue
                with self.assertRaises(TypeError):
                    call(number)
            call(numpy.int64(1))
        self.assertEqual(flac.seek(numpy.uint8(9)), 9)

    def test_faults(self) -> None:
        """After one it goes on as blocks do."""
        stream = made(40, 250)
        content = bytearray(stream.content())
        content[len(stream.head) + len(stream.frames[0]) - 1] ^= 1
        flac = claxon.Flac(io.BytesIO(content))
        for _ in range(2):
            self.assertRaises(claxon.FormatError, flac.read, 5)
        flac.resync()
        self.assertEqual(flac.read(300).tolist(), stream.samples[250:550])
        flac.close()
        self.assertRaises(ValueError, flac.read)

    def test_gaps(self) -> None:
        """Also between two calls."""
        stream = made(12, 250)
        content = stream.head + b"".join(stream.frames[:3] + stream.frames[5:])
        flac = claxon.Flac(io.BytesIO(content))
        self.assertEqual(flac.read(750).tolist(), stream.samples[:750])
        for _ in range(2):
            self.assertRaises(claxon.FormatError, flac.read, 5)
        with self.assertWarns(claxon.MissingSamplesWarning) as warned:
            self.assertEqual(flac.read(490, missing="silence").tolist(), 490 * [0])
        self.assertEqual(warned.filename, __file__)
        with self.assertWarns(claxon.MissingSamplesWarning):
            found = flac.read(20, missing="silence").tolist()
        self.assertEqual(found, 10 * [0] + stream.samples[1250:1260])
        self.assertEqual(flac.read().tolist(), stream.samples[1260:])


def readable() -> Iterator[Tuple[Any, Any]]:
    """Files that both read, and a type."""
    names = [case.name for case in cases() if case.result == "ok"]
    for path in [SONG, *(DATA / name for name in names)]:
        for dtype in DTYPES:
            try:
                soundfile.read(path, dtype=dtype)
                claxon.read(path, dtype=dtype)
            except (soundfile.LibsndfileError, claxon.Error):
                continue
            yield path, dtype


@unittest.skipIf(soundfile is None, "soundfile isn't installed (Debian's python3-soundfile)")
class Soundfile(unittest.TestCase):
    def expect_same(self, path: Any, **options: Any) -> None:
        expected, rate = soundfile.read(path, **options)
        found, found_rate = claxon.read(path, **options)
        self.assertEqual((found.dtype, found.shape), (expected.dtype, expected.shape))
        self.assertEqual(found_rate, rate)
        self.assertTrue(numpy.array_equal(found, expected))

    def test_whole_and_parts(self) -> None:
        tried = 0
        source = random.Random(4)
        for path, dtype in readable():
            length = soundfile.info(path).frames
            for _ in range(4):
                options: Any = {"always_2d": source.random() < 0.5, "dtype": dtype}
                if source.random() < 0.7:
                    options["start"] = source.randrange(-length, length)
                if source.random() < 0.3:
                    options["stop"] = source.randrange(-length, length)
                elif source.random() < 0.4:
                    options["frames"] = source.randrange(-1, length)
                with self.subTest(path.name, **options):
                    self.expect_same(path, **options)
                    tried += 1
        self.assertGreater(tried, 60)

    def test_after_seek(self) -> None:
        for path, dtype in readable():
            with claxon.Flac(path) as flac, soundfile.SoundFile(path) as file:
                for sample in (0, file.frames // 2, file.frames - 1):
                    flac.seek(sample)
                    file.seek(sample)
                    for frames in (3, 0, -1):
                        expected = file.read(frames, dtype=dtype, always_2d=True)
                        found = flac.read(frames, dtype=dtype, always_2d=True)
                        self.assertTrue(numpy.array_equal(found, expected))


class WithoutNumpy(unittest.TestCase):
    def setUp(self) -> None:
        patch = mock.patch.object(_samples, "numpy", return_value=None)
        patch.start()
        self.addCleanup(patch.stop)

    def test_read(self) -> None:
        """Then `read` gives an array for each channel."""
        for dtype in (None, "int16", "f8"):
            found: Any = claxon.read(SONG, -2000, dtype=dtype)
            self.assertEqual(found, claxon.read_arrays(SONG, -2000, dtype=dtype))

    def test_after_seek(self) -> None:
        flac, stream = claxon.Flac(SONG), claxon.read_arrays(SONG)[0]
        self.addCleanup(flac.close)
        flac.seek(5000)
        for start, stop in ((5000, 5005), (5005, 9000), (9000, None)):
            found: Any = flac.read(-1 if stop is None else stop - start)
            self.assertEqual(found, [stream[0][start:stop]])
        with self.assertRaises(ImportError) as raised:
            next(flac.blocks(start=0)).array
        self.assertIn("numpy", str(raised.exception))

    def test_warnings(self) -> None:
        with warnings.catch_warnings():
            warnings.simplefilter("error")
            self.assertEqual(len(claxon.read_arrays(SONG, missing="silence")[0][0]), 9876)
