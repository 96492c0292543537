"""How files are read: objects, windows, cut and damaged streams."""
import ctypes
import ctypes.util
import gc
import io
import itertools
import os
import pickle
import random
import re
import subprocess
import time
import tracemalloc
import unittest
import warnings
from array import array
from subprocess import PIPE
from typing import ContextManager, Dict, Optional, Tuple
from unittest import mock

import claxon
from claxon import _calls
from claxon._errors import CLASSES
from claxon._window import FIRST_WINDOW
from streams.frames import MARKER, constant, frame, frame_header, metadata_block
from tests import ALLOWED, DATA, FRAME_OF_5, STREAMINFO, TOP, Trickle, comments, decode, head
from tests import result_of, verbatim_frame

SONG = TOP / "examples" / "tagged.flac"
MAX_FRAME_BYTES = 16777215


class Zeros:
    """A file object: some bytes, and then as many zeros. It counts what it gives."""

    def __init__(self, content: bytes, zeros: int, after: bytes = b"") -> None:
        self._parts = [io.BytesIO(content), io.BytesIO(after)]
        self._zeros = zeros
        self.given = 0
        self.most = 0

    def read(self, most: int) -> bytes:
        self.most = max(self.most, most)
        found = self._parts[0].read(most)
        if not found:
            found = bytes(min(most, self._zeros))
            self._zeros -= len(found)
        if not found:
            found = self._parts[1].read(most)
        self.given += len(found)
        return found


class Objects(unittest.TestCase):
    def test_info_tags_and_vendor(self) -> None:
        """Those that examples/tagged.txt has for this file."""
        expected = (TOP / "examples" / "tagged.txt").read_text().splitlines()
        with claxon.Flac(SONG) as flac:
            info = flac.info
            fields = {
                "sample_rate": info.sample_rate,
                "channels": info.channels,
                "bits_per_sample": info.bits_per_sample,
                "samples": info.samples,
                "min_block_size": info.min_block_size,
                "max_block_size": info.max_block_size,
                "min_frame_size": info.min_frame_size,
                "max_frame_size": info.max_frame_size,
                "md5sum": (info.md5 or b"").hex(),
                "vendor": flac.vendor,
            }
            for name, value in fields.items():
                self.assertIn(f"{name}: {value}", expected)
            self.assertEqual(flac.tags["TITLE"], "C:\\music\ttab")
            artists = ["Björk \u2028\u2029\x85\x1b", "\U0001d11e"]
            self.assertEqual(flac.tags.get_all("ARTIST"), artists)
            self.assertEqual(flac.tags["A:B C"], "d=e")
            self.assertEqual(flac.tags["EMPTY"], "")
            self.assertEqual(flac.tags["LYRICS"], "a line\nCOMMENT=no tag")
            self.assertEqual(len(flac.tags), 5)
            self.assertEqual(flac.duration, 9876 / 8000)
            self.assertEqual(info.duration, 9876 / 8000)

    def test_unknown(self) -> None:
        unknown = bytearray(STREAMINFO)
        unknown[14:18] = bytes(4)
        flac = claxon.Flac(io.BytesIO(MARKER + metadata_block(0, bytes(unknown), True)))
        self.assertEqual(flac.info.samples, None)
        self.assertEqual(flac.info.md5, None)
        self.assertEqual((flac.info.min_frame_size, flac.info.max_frame_size), (None, None))
        self.assertEqual((flac.vendor, flac.tags), (None, {}))
        self.assertEqual((flac.duration, flac.info.duration), (None, None))
        self.assertEqual(list(flac.blocks()), [])

    def test_names(self) -> None:
        """A path can be text, bytes or a Path; the others are file objects."""
        expected = decode(SONG)
        self.assertEqual(decode(str(SONG)), expected)
        self.assertEqual(decode(os.fsencode(SONG)), expected)
        with open(SONG, "rb") as file:
            self.assertEqual(decode(file), expected)
            self.assertFalse(file.closed)
        with open(SONG, "rb", buffering=0) as file:
            self.assertEqual(decode(file), expected)
        self.assertRaises(FileNotFoundError, claxon.Flac, SONG.with_name("missing.flac"))
        self.assertRaises(IsADirectoryError, claxon.read, SONG.parent)

    def test_pipe(self) -> None:
        with subprocess.Popen(["cat", str(SONG)], stdout=PIPE) as process:
            self.assertEqual(decode(process.stdout), decode(SONG))

    def test_from_where_it_stands(self) -> None:
        file = io.BytesIO(b"other" + head() + FRAME_OF_5)
        file.seek(5)
        self.assertEqual(claxon.read_arrays(file), ([array("i", [5])], 44100))

    def test_other_objects(self) -> None:
        with open(SONG, encoding="latin-1") as file:
            self.assertRaises(TypeError, claxon.Flac, file)

        class NotReady:
            def read(self, most: int) -> None:
                return None

        self.assertRaises(BlockingIOError, claxon.Flac, NotReady())

    def test_close(self) -> None:
        with claxon.Flac(SONG) as flac:
            blocks = flac.blocks()
            next(blocks)
        self.assertRaises(ValueError, next, blocks)
        self.assertRaises(ValueError, flac.resync)
        flac.close()
        self.assertEqual(flac.tags["EMPTY"], "")
        # A file whose head is refused is closed too.
        with warnings.catch_warnings(record=True) as caught:
            warnings.simplefilter("always", ResourceWarning)
            with self.assertRaises(claxon.Unsupported):
                claxon.Flac(DATA / "id3.flac")
            del flac, blocks
            gc.collect()
        self.assertEqual(caught, [])

    def test_errors(self) -> None:
        for kind in (claxon.FormatError, claxon.Unsupported, claxon.InputEnds, claxon.OutOfMemory):
            self.assertTrue(issubclass(kind, claxon.Error))
            error = pickle.loads(pickle.dumps(kind("frame CRC mismatch", 42)))
            self.assertIs(type(error), kind)
            self.assertEqual((str(error), error.position), ("frame CRC mismatch", 42))

    def test_version(self) -> None:
        """The library's is that of the header, whose interface is the one that the module has."""
        self.assertEqual(claxon.library_version(), (TOP / "VERSION").read_text().strip())
        self.assertEqual(claxon.__version__, (TOP / "VERSION").read_text().strip())
        header = (TOP / "c" / "claxon.h").read_text()
        [declared] = re.findall(r"^#define CLAXON_VERSION (\d+)$", header, re.M)
        self.assertEqual(_calls.library.claxon_version(), int(declared))
        self.assertEqual(_calls.INTERFACE, int(declared) // 100)

    def test_structs(self) -> None:
        """They have the layout that the header asserts."""
        header = (TOP / "c" / "claxon.h").read_text()
        sizes = re.findall(r"sizeof\(struct claxon_(\w+)\) == (\d+)", header)
        self.assertEqual(len(sizes), 11)
        for name, size in sizes:
            self.assertEqual(ctypes.sizeof(getattr(_calls, name.title())), int(size), name)
        fields = re.findall(r"offsetof\(struct claxon_(\w+), (\w+)\) == (\d+)", header)
        for name, field, offset in fields:
            found = getattr(getattr(_calls, name.title()), field)
            self.assertEqual(found.offset, int(offset), (name, field))

    def test_statuses(self) -> None:
        """Each status of the header is known, and each that is a fault has its class."""
        header = (TOP / "c" / "claxon.h").read_text()
        statuses = header[header.index("enum claxon_status") : header.index("};")]
        pairs = re.findall(r"CLAXON_(\w+) = (\d+)", statuses)
        found = {name: int(number) for name, number in pairs}
        self.assertEqual(len(found), 9)
        for name, number in found.items():
            self.assertEqual(getattr(_calls, name), number)
        classes = {
            found[name]: getattr(claxon, name.title().replace("_", ""))
            for name in ("FORMAT_ERROR", "UNSUPPORTED", "INPUT_ENDS")
        }
        self.assertEqual(CLASSES, {**classes, found["OUT_OF_MEMORY"]: claxon.OutOfMemory})


class Blocks(unittest.TestCase):
    def test_buffers(self) -> None:
        """They stay as they are, and no two blocks share memory."""
        path = DATA / "seven_and_other_channels.flac"
        with claxon.Flac(path) as flac:
            blocks = list(flac.blocks())
        again = []
        with claxon.Flac(path) as flac:
            for block in flac.blocks():
                again.append((block.time, block.planar.tolist()))
        self.assertEqual([(block.time, block.planar.tolist()) for block in blocks], again)
        for block in blocks:
            self.assertEqual((block.planar.format, block.planar.itemsize), ("i", 4))
            self.assertEqual(len(block.planar), block.channels * block.duration)
            self.assertEqual(len(block.samples), block.channels)
            joined = [sample for samples in block.samples for sample in samples.tolist()]
            self.assertEqual(joined, block.planar.tolist())
        for changed in blocks:
            others = [block.planar for block in blocks if block is not changed]
            before = [planar.tolist() for planar in others]
            for at in range(len(changed.planar)):
                changed.planar[at] ^= 1
            self.assertEqual([planar.tolist() for planar in others], before)

    def test_numpy(self) -> None:
        """numpy takes a block without a copy."""
        try:
            import numpy
        except ImportError:
            self.skipTest("numpy isn't installed")
        with claxon.Flac(DATA / "left_channel_alone.flac") as flac:
            for block in flac.blocks():
                planar = numpy.frombuffer(block.planar, "i4").reshape(block.channels, -1)
                self.assertEqual(planar.tolist(), [samples.tolist() for samples in block.samples])
                for ch, samples in enumerate(block.samples):
                    channel = numpy.frombuffer(samples, "i4")
                    self.assertTrue(numpy.shares_memory(planar[ch], channel))
                    self.assertTrue(numpy.shares_memory(numpy.asarray(samples), channel))
                planar[0, 0] = 12345
                self.assertEqual(block.samples[0][0], 12345)

    def test_rates_and_depths(self) -> None:
        """Those that a frame's header says itself, by the codes of the format."""
        rates: Dict[int, Tuple[bytes, Optional[int]]] = {
            0: (b"", None), 1: (b"", 88200), 4: (b"", 8000), 9: (b"", 44100), 11: (b"", 96000),
            12: (b"\x60", 96000), 13: (b"\xac\x45", 44101), 14: (b"\xff\xff", 655350),
        }  # fmt: skip
        depths = {0: None, 1: 8, 2: 12, 4: 16, 5: 20, 6: 24}
        for (code, (field, rate)), (number, bits) in itertools.product(
            rates.items(), depths.items()
        ):
            header = frame_header(1, 0, number, code, rate_field=field, is_small=True)
            stream = head() + frame(header, [constant(0, bits or 8)])
            with self.subTest(code=code, number=number):
                [block] = claxon.Flac(io.BytesIO(stream)).blocks()
                self.assertEqual((block.sample_rate, block.bits_per_sample), (rate, bits))
                self.assertEqual(block[:3], (0, 1, 1))

    def test_blocks_go_on(self) -> None:
        """A second call goes on after the blocks of the first one."""
        with claxon.Flac(SONG) as flac:
            first = next(flac.blocks())
            others = list(flac.blocks())
        with claxon.Flac(SONG) as flac:
            self.assertEqual(list(flac.blocks()), [first, *others])
        self.assertEqual([block.time for block in [first, *others]], [0, 4096, 8192])

    def test_small_blocks_after_large_ones(self) -> None:
        """A list of blocks holds no more than twice what their samples take, and the largest."""
        large = verbatim_frame([65535 * [7]])
        stream = head() + large + 3000 * FRAME_OF_5
        tracemalloc.start()
        self.addCleanup(tracemalloc.stop)
        with claxon.Flac(io.BytesIO(stream)) as flac:
            blocks = list(flac.blocks())
        size = tracemalloc.get_traced_memory()[0]
        self.assertEqual(len(blocks), 3001)
        self.assertLess(size, 2 * 4 * 65535 + 3000 * 1024)


class Windows(unittest.TestCase):
    def test_large_frames(self) -> None:
        """The window grows where a frame doesn't fit, whatever stands before and after it."""
        source = random.Random(1)
        channels = [[source.randrange(-128, 128) for _ in range(65535)] for _ in range(8)]
        large = verbatim_frame(channels)
        expected = [sample for channel in channels for sample in channel]
        stream = head() + FRAME_OF_5 + large + FRAME_OF_5 + large + FRAME_OF_5
        for step in (1 << 30, 4099):
            with claxon.Flac(Trickle(stream, step)) as flac:
                found = [block.planar.tolist() for block in flac.blocks()]
            self.assertEqual(found, [[5], expected, [5], expected, [5]])

    def test_no_end_of_a_frame(self) -> None:
        """A number whose zeros have no end: refused where the largest frame would have ended."""
        content = head() + frame_header(16) + b"\x10\x00"
        half = MAX_FRAME_BYTES // 2
        for zeros, kind in ((half, claxon.InputEnds), (1 << 40, claxon.FormatError)):
            file = Zeros(content, zeros)
            start = time.process_time()
            flac = claxon.Flac(file)
            with self.assertRaises(kind) as raised:
                next(flac.blocks())
            self.assertEqual(raised.exception.position, len(head()))
            self.assertLess(file.given, len(head()) + MAX_FRAME_BYTES + 1)
            self.assertLess(time.process_time() - start, 10)
        self.assertEqual(str(raised.exception), "frame longer than 16777215 bytes")

    def test_pictures_are_not_held(self) -> None:
        """Padding, pictures and others are skipped in small steps, or by `seek`."""
        picture, last = metadata_block(6, b"", length=(1 << 24) - 1), metadata_block(1, b"", True)
        file = Zeros(head(picture), (1 << 24) - 1, last + FRAME_OF_5)
        tracemalloc.start()
        self.addCleanup(tracemalloc.stop)
        flac = claxon.Flac(file)
        peak = tracemalloc.get_traced_memory()[1]
        self.assertLess(peak, 1 << 20)
        self.assertLess(file.most, (1 << 16) + 1)
        self.assertEqual([block.planar.tolist() for block in flac.blocks()], [[5]])

        content = head(picture) + bytes((1 << 24) - 1) + last + FRAME_OF_5

        class Counted(io.BytesIO):
            given = 0

            def read(self, most: Optional[int] = -1) -> bytes:
                found = super().read(most)
                self.given += len(found)
                return found

        counted = Counted(content + b"damage")
        flac = claxon.Flac(counted)
        self.assertLess(counted.given, 100)
        blocks = flac.blocks()
        self.assertEqual(next(blocks).planar.tolist(), [5])
        with self.assertRaises(claxon.FormatError) as damaged:
            next(blocks)
        self.assertEqual(damaged.exception.position, len(content))
        for end in (len(content) - len(last) - len(FRAME_OF_5) - 1, len(head()) + 4):
            with self.assertRaises(claxon.InputEnds) as raised:
                claxon.Flac(io.BytesIO(content[:end]))
            self.assertEqual(raised.exception.position, len(head()))


def opened(stream: bytes) -> Tuple[int, str]:
    """What claxon_open says of all bytes: the status, and the text of an error."""
    info, error = _calls.Info(), ctypes.create_string_buffer(256)
    status = _calls.library.claxon_open(stream, len(stream), info, error, 256)
    return status, error.value.decode() if status else ""


class Heads(unittest.TestCase):
    """A head that is read block by block has the faults that claxon_open names in all of it."""

    def expect_same(self, stream: bytes, step: int = 1 << 30) -> int:
        status, text = opened(stream)
        try:
            claxon.Flac(Trickle(stream, step))
        except claxon.Error as error:
            kind = claxon.Unsupported if text in ALLOWED else CLASSES[status]
            self.assertEqual((kind, text), (type(error), str(error)))
        else:
            self.assertEqual(status, 0)
        return status

    def test_cut(self) -> None:
        stream = SONG.read_bytes()
        statuses = [self.expect_same(stream[:end], 7) for end in range(0xD0)]
        self.assertEqual(statuses, 0xCD * [3] + 3 * [0])

    def test_random_heads(self) -> None:
        source = random.Random(2)
        good = comments("v", "TITLE=a", "ARTIST=b")
        contents = [
            (0, STREAMINFO),
            (0, STREAMINFO[:10] + bytes(24)),
            (1, bytes(5)),
            (1, b""),
            (2, b"abcd"),
            (2, b"abc"),
            (3, bytes(18)),
            (4, good),
            (4, good[:-1]),
            (4, comments("", "TITLE")),
            (4, bytes(7)),
            (5, bytes(9)),
            (6, bytes(70000)),
            (9, b"other"),
            (127, b"forbidden"),
        ]
        statuses = set()
        for _ in range(3000):
            blocks = [contents[0]] if source.random() < 0.9 else []
            blocks += [source.choice(contents[1:]) for _ in range(source.randrange(5))]
            if source.random() < 0.1:
                blocks.append(contents[0])
            last = len(blocks) - 1 if source.random() < 0.9 else -1
            parts = [metadata_block(*block, at == last) for at, block in enumerate(blocks)]
            stream = MARKER + b"".join(parts)
            if source.random() < 0.3:
                stream = stream[: source.randrange(len(stream) + 1)]
            if source.random() < 0.3:
                changed = bytearray(stream)
                for _ in range(2 if stream else 0):
                    changed[source.randrange(min(len(stream), 100))] = source.randrange(256)
                stream = bytes(changed)
            statuses.add(self.expect_same(stream))
        self.assertEqual(statuses, {0, 1, 2, 3})

    def test_many_blocks(self) -> None:
        padding, last = metadata_block(1, b""), metadata_block(1, b"", True)
        for count in (65534, 65535):
            start = time.process_time()
            self.expect_same(head(count * padding, last))
            self.assertLess(time.process_time() - start, 20)
        with self.assertRaises(claxon.Unsupported) as raised:
            claxon.Flac(io.BytesIO(head(65535 * padding, last)))
        self.assertEqual(str(raised.exception), "more than 65536 metadata blocks are not supported")
        self.assertEqual(raised.exception.position, 4 + 38 + 4 * 65535)

    def test_many_tags(self) -> None:
        """Their time is linear: 100,000 tags take no more than some seconds."""
        tags = [f"N{at % 7}={at}" for at in range(100000)]
        start = time.process_time()
        flac = claxon.Flac(io.BytesIO(head(metadata_block(4, comments("", *tags), True))))
        self.assertEqual(flac.tags.get_all("N3"), [str(at) for at in range(3, 100000, 7)])
        self.assertLess(time.process_time() - start, 20)

    def test_positions(self) -> None:
        stream = head(metadata_block(1, bytes(3)), metadata_block(127, b"abc", True))
        with self.assertRaises(claxon.FormatError) as raised:
            claxon.Flac(io.BytesIO(stream))
        self.assertEqual(raised.exception.position, 4 + 38 + 7)


class Damage(unittest.TestCase):
    def test_cut_anywhere(self) -> None:
        """Whole frames are given, and then that the stream ends; after a frame just its end."""
        stream = SONG.read_bytes()
        whole, _ = decode(SONG)
        ends = [len(stream)]
        with claxon.Flac(SONG) as flac:
            blocks = [block.duration for block in flac.blocks()]
        starts = [at for at in range(len(stream)) if stream[at : at + 4] == b"\xff\xf8\xc4\x02"]
        last = stream.index(b"\xff\xf8\x74\x02")
        ends = [*starts[1:], last, len(stream)]
        self.assertEqual(len(blocks), len(ends))
        for end in range(starts[0], len(stream), 5):
            samples, error = decode(io.BytesIO(stream[:end]))
            count = sum(place <= end for place in ends)
            self.assertEqual(samples, whole[: 4 * sum(blocks[:count])])
            at = ends[count - 1] if count else starts[0]
            self.assertEqual(result_of(error), "ok" if end - at < 2 else "IO")
        with self.assertRaises(claxon.InputEnds) as raised:
            claxon.read(io.BytesIO(stream[: ends[0]]))
        text = "the streaminfo says 9876 samples, 4096 were found"
        self.assertEqual(str(raised.exception), text)

    def test_resync(self) -> None:
        """It goes to the next frame that can be decoded, over bytes that only look like one."""
        damage = b"\xff\xf8\xff\xff\xf9\x70" + FRAME_OF_5[:-1] + b"\xff"
        for zeros in (0, 1, 1000, 300000):
            stream = head() + FRAME_OF_5 + damage + bytes(zeros) + FRAME_OF_5 + damage
            for step in (1 << 30, 1, 4099) if zeros <= 1000 else (1 << 30, 4099):
                with claxon.Flac(Trickle(stream, step)) as flac:
                    self.expect_damage(flac, len(damage) + zeros)

    def test_resync_between_windows(self) -> None:
        """The sync code may stand where a window ends, or be parted by it."""
        for place in range(FIRST_WINDOW - 2, FIRST_WINDOW + 1):
            stream = head() + FRAME_OF_5 + bytes(place - len(FRAME_OF_5)) + FRAME_OF_5
            with claxon.Flac(io.BytesIO(stream)) as flac:
                self.assertRaises(claxon.FormatError, list, flac.blocks())
                self.assertEqual(flac.resync(), place - len(FRAME_OF_5))
                self.assertEqual([block.planar.tolist() for block in flac.blocks()], [[5]])

    def test_resync_to_blocks_of_several_sizes(self) -> None:
        """A frame of a stream whose blocks differ in size has another bit after its sync code."""
        header = frame_header(1, 0, 1, 9, is_variable=True, is_small=True)
        other = frame(header, [constant(5, 8)])
        with claxon.Flac(io.BytesIO(head() + b"damage" + other)) as flac:
            self.assertRaises(claxon.FormatError, list, flac.blocks())
            self.assertEqual(flac.resync(), len(b"damage"))
            self.assertEqual([block.planar.tolist() for block in flac.blocks()], [[5]])

    def test_memory_that_is_refused(self) -> None:
        """The calls may be repeated."""
        stream = head() + FRAME_OF_5 + b"damage" + FRAME_OF_5

        def refused(call: str) -> ContextManager[object]:
            return mock.patch.object(_calls.library, call, return_value=_calls.OUT_OF_MEMORY)

        with claxon.Flac(Trickle(stream, 1)) as flac:
            with refused("claxon_frames_next_planar"):
                self.assertRaises(claxon.OutOfMemory, list, flac.blocks())
            blocks = flac.blocks()
            self.assertEqual(next(blocks).planar.tolist(), [5])
            self.assertRaises(claxon.FormatError, next, blocks)
            place = len(head()) + len(FRAME_OF_5)
            with refused("claxon_search_next"):
                with self.assertRaises(claxon.OutOfMemory) as raised:
                    flac.resync()
            self.assertEqual(raised.exception.position, place + 1)
            self.assertEqual(flac.resync(), len(b"damage"))
            self.assertEqual([block.planar.tolist() for block in flac.blocks()], [[5]])

    def test_resync_to_the_next_byte(self) -> None:
        stream = head() + FRAME_OF_5 + b"\xff" + FRAME_OF_5
        with claxon.Flac(io.BytesIO(stream)) as flac:
            self.assertRaises(claxon.FormatError, list, flac.blocks())
            self.assertEqual(flac.resync(), 1)
            self.assertEqual([block.planar.tolist() for block in flac.blocks()], [[5]])

    def expect_damage(self, flac: claxon.Flac, length: int) -> None:
        position = len(head())
        for skipped in (length, None):
            blocks = flac.blocks()
            self.assertEqual(next(blocks).planar.tolist(), [5])
            with self.assertRaises(claxon.FormatError) as raised:
                next(blocks)
            position += len(FRAME_OF_5)
            self.assertEqual(raised.exception.position, position)
            self.assertEqual(flac.resync(), skipped)
            position += length
        self.assertEqual(list(flac.blocks()), [])
        self.assertEqual(flac.resync(), None)

    def test_resync_is_linear(self) -> None:
        """Headers of the largest frames, one after another: without a limit they take 20 s."""
        hostile = (frame_header(65535, 7) + b"\x02") * 30000
        stream = head() + hostile + bytes(200000) + FRAME_OF_5
        start = time.process_time()
        with claxon.Flac(io.BytesIO(stream)) as flac:
            self.assertRaises(claxon.FormatError, next, flac.blocks())
            self.assertEqual(flac.resync(), len(hostile) + 200000)
            self.assertEqual([block.planar.tolist() for block in flac.blocks()], [[5]])
        self.assertLess(time.process_time() - start, 10)

    def test_resync_over_few_headers(self) -> None:
        """As many of them as damage makes don't hide the frame that follows at once."""
        hostile = (frame_header(65535, 7) + b"\x02") * 60
        with claxon.Flac(io.BytesIO(head() + hostile + FRAME_OF_5 + bytes(100000))) as flac:
            self.assertRaises(claxon.FormatError, next, flac.blocks())
            self.assertEqual(flac.resync(), len(hostile))
            self.assertEqual(next(flac.blocks()).planar.tolist(), [5])

    def test_resync_after_a_large_block(self) -> None:
        """Small frames count as small ones, whatever came before them."""
        large = verbatim_frame(8 * [65535 * [7]])
        damaged = 100 * (FRAME_OF_5[:-1] + b"\xff")
        with claxon.Flac(io.BytesIO(head() + large + damaged + FRAME_OF_5)) as flac:
            self.assertRaises(claxon.FormatError, list, flac.blocks())
            self.assertEqual(flac.resync(), len(damaged))
            self.assertEqual([block.planar.tolist() for block in flac.blocks()], [[5]])

    def test_fault_again(self) -> None:
        """Without `resync` the fault is found again."""
        with claxon.Flac(DATA / "bad_footer.flac") as flac:
            self.assertRaises(claxon.FormatError, list, flac.blocks())
            self.assertRaises(claxon.FormatError, list, flac.blocks())
