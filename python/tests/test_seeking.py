"""Seeking: samples are compared with those of a walk from the start, or of a made stream."""
import io
import itertools
import random
import subprocess
import time
import unittest
import unittest.mock
from array import array
from subprocess import PIPE
from typing import BinaryIO, Iterator, List, NamedTuple, Optional, Sequence

import claxon
from claxon import _calls
from streams import frames as writer
from streams.frames import MARKER, constant, frame_header, metadata_block
from tests import DATA, TOP, Trickle, cases
from tests.test_live import numbered_frame

SONG = TOP / "examples" / "tagged.flac"


def made_head(size: int, samples: int, channels: int = 1, max_frame: int = 0) -> bytes:
    """The head of a stream of blocks of this size, 8 bits, this number of samples or 0."""
    fields = 44100 << 44 | channels - 1 << 41 | 7 << 36 | samples
    sizes = 2 * size.to_bytes(2, "big") + bytes(3) + max_frame.to_bytes(3, "big")
    return MARKER + metadata_block(0, sizes + fields.to_bytes(8, "big") + bytes(16), True)


class Made(NamedTuple):
    """A stream of one channel: its frames, and all its samples."""

    head: bytes
    frames: List[bytes]
    samples: List[int]
    size: int

    def content(self) -> bytes:
        return self.head + b"".join(self.frames)


def made(count: int, size: int, known: bool = True, seed: int = 1) -> Made:
    """Frames of noise or of constants, so that their lengths differ much."""
    source = random.Random(seed)
    frames, samples = [], []
    for number in range(count):
        noise = [source.randrange(-128, 128) for _ in range(size)]
        block = noise if source.random() < 0.5 else size * noise[:1]
        frames.append(numbered_frame(number, [block]))
        samples += block
    return Made(made_head(size, count * size if known else 0), frames, samples, size)


class Counted(io.BytesIO):
    """It counts what is called, and fails in the call with one number."""

    def __init__(self, content: bytes, failing: int = -1) -> None:
        super().__init__(content)
        self.calls, self.given, self.failing = 0, 0, failing

    def _count(self) -> None:
        self.calls += 1
        if self.calls == self.failing:
            raise OSError("a failure that is made")

    def read(self, most: Optional[int] = -1) -> bytes:
        self._count()
        found = super().read(most)
        self.given += len(found)
        return found

    def seek(self, place: int, whence: int = 0) -> int:
        self._count()
        return super().seek(place, whence)

    def tell(self) -> int:
        self._count()
        return super().tell()


class ShortReads(io.BytesIO):
    def read(self, most: Optional[int] = -1) -> bytes:
        return super().read(min(most or 0, 7))


def walk(content: bytes) -> List[claxon.Block]:
    """The blocks from the start on, over faults too."""
    flac = claxon.Flac(io.BytesIO(content))
    found: List[claxon.Block] = []
    while True:
        try:
            found += flac.blocks()
            return found
        except claxon.Error:
            if flac.resync() is None:
                return found


class SeekCase(unittest.TestCase):
    def expect_block(self, flac: claxon.Flac, sample: int, block: claxon.Block) -> None:
        self.assertEqual(flac.seek(sample), sample - block.time)
        found = next(flac.blocks())
        self.assertEqual((found.time, found.planar.tolist()), (block.time, block.planar.tolist()))

    def expect_samples(self, flac: claxon.Flac, sample: int, stream: Made) -> None:
        before = flac.seek(sample)
        block = next(flac.blocks())
        start = sample // stream.size * stream.size
        self.assertEqual((block.time, before), (start, sample - start))
        self.assertEqual(block.planar.tolist(), stream.samples[start : start + stream.size])

    def expect_none(self, flac: claxon.Flac, sample: int) -> None:
        with self.assertRaises(claxon.NoSuchSample) as raised:
            flac.seek(sample)
        self.assertEqual(str(raised.exception), f"no block has the sample {sample}")


def real_files() -> Iterator[bytes]:
    """Whole files of encoders, with the number of channels that they say: all from the start on."""
    names = [DATA / case.name for case in cases() if case.result == "ok"]
    for path in [*names, *(TOP / "examples").glob("*.flac")]:
        content = path.read_bytes()
        blocks = walk(content)
        channels = claxon.Flac(io.BytesIO(content)).info.channels
        ends = [0, *(block.time + block.duration for block in blocks)]
        if all(b.channels == channels and b.time == end for b, end in zip(blocks, ends)):
            yield content


class Borders(SeekCase):
    def test_files(self) -> None:
        """The first and the last sample of each block, and the one after all."""
        tried = 0
        for content in real_files():
            blocks = walk(content)
            flac = claxon.Flac(io.BytesIO(content))
            for block in random.Random(1).sample(blocks, len(blocks)):
                for sample in (block.time, block.time + block.duration - 1):
                    self.expect_block(flac, sample, block)
                    tried += 1
            end = sum(block.duration for block in blocks)
            self.expect_none(flac, end)
            self.expect_none(flac, 1 << 64)
            if blocks:
                self.expect_block(flac, end - 1, blocks[-1])
        self.assertGreater(tried, 200)

    def test_short_reads(self) -> None:
        for content in real_files():
            blocks = walk(content)
            buffered = io.BufferedReader(io.BytesIO(content))  # type: ignore[arg-type]
            files: List[BinaryIO] = [ShortReads(content), buffered]
            for file, block in itertools.product(files, blocks[::3]):
                file.seek(0)
                self.expect_block(claxon.Flac(file), block.time, block)

    def test_from_where_it_stands(self) -> None:
        """The file object doesn't begin with the stream, and what is before it looks like one."""
        stream = made(30, 500)
        before = made(9, 500, seed=2).content()
        file = io.BytesIO(before + stream.content())
        file.seek(len(before))
        flac = claxon.Flac(file)
        for sample in range(0, 15000, 499):
            self.expect_samples(flac, sample, stream)

    def test_lengths(self) -> None:
        """The number of samples may be unknown, too small or too large."""
        stream = made(60, 700)
        total = len(stream.samples)
        for samples in (0, 1, total - 1, total + 1, 1 << 35):
            head = made_head(stream.size, samples)
            flac = claxon.Flac(io.BytesIO(head + b"".join(stream.frames)))
            for sample in (0, 1, 699, 700, 20000, total - 701, total - 700, total - 1):
                self.expect_samples(flac, sample, stream)
            self.expect_none(flac, total)

    def test_garbage_after_frames(self) -> None:
        stream = made(60, 700)
        noise = bytes(random.Random(3).choices(range(256), k=100000))
        for garbage in (b"TAG" + bytes(125), bytes(200000), noise):
            flac = claxon.Flac(io.BytesIO(stream.content() + garbage))
            for sample in range(0, len(stream.samples), 999):
                self.expect_samples(flac, sample, stream)
            self.expect_none(flac, len(stream.samples))

    def test_back_and_forth(self) -> None:
        """Between seeks blocks are read, up to the end too; it goes on from each place."""
        stream = made(300, 400)
        source = random.Random(4)
        flac = claxon.Flac(io.BytesIO(stream.content()))
        blocks = flac.blocks()
        for _ in range(400):
            sample = source.randrange(len(stream.samples))
            before, count = flac.seek(sample), source.randrange(1, 6)
            start = sample - before
            some = itertools.islice(blocks, count)
            found = [value for block in some for value in block.planar.tolist()]
            self.assertEqual(found, stream.samples[start : start + 400 * count])
            if source.random() < 0.05:
                rest = [block.duration for block in flac.blocks()]
                self.assertEqual(sum(rest), max(0, len(stream.samples) - start - 400 * count))
            blocks = flac.blocks()

    def test_few_bytes_are_read(self) -> None:
        """Of 800 KB, some windows."""
        stream = made(400, 4096)
        file = Counted(stream.content())
        flac = claxon.Flac(file)
        for sample in random.Random(5).sample(range(len(stream.samples)), 50):
            file.given = 0
            self.expect_samples(flac, sample, stream)
            self.assertLess(file.given, 1 << 17)

    def test_long_stream(self) -> None:
        """Of 10 MB too, and all of them for a sample that isn't there."""
        source = random.Random(9)
        noise = [source.getrandbits(8 * 16384).to_bytes(16384, "big") for _ in range(640)]
        frames = [
            writer.with_crc16(frame_header(16384, number=number) + b"\x02" + block)
            for number, block in enumerate(noise)
        ]
        file = Counted(made_head(16384, 0) + b"".join(frames))
        flac = claxon.Flac(file)
        for number in (639, 0, *source.sample(range(640), 50)):
            file.given = 0
            self.assertEqual(flac.seek(16384 * number + 77), 77)
            block = next(flac.blocks())
            self.assertEqual(block.time, 16384 * number)
            self.assertEqual(block.planar.tolist(), array("b", noise[number]).tolist())
            self.assertLess(file.given, 1 << 18)
        start = time.process_time()
        self.expect_none(flac, 640 * 16384)
        self.assertLess(time.process_time() - start, 10)

    def test_large_frames(self) -> None:
        """Frames of 260 KB, whose size the streaminfo leaves unknown, or has wrong."""
        source = random.Random(8)
        frames, blocks = [], []
        for number in range(6):
            noise = source.choices(range(-128, 128), k=4 * 65535)
            frames.append(numbered_frame(number, [noise[ch::4] for ch in range(4)]))
            blocks.append([noise[ch::4] for ch in range(4)])
        for size, samples in itertools.product((0, 20, (1 << 24) - 1), (0, 6 * 65535)):
            content = made_head(65535, samples, 4, size) + b"".join(frames)
            flac = claxon.Flac(io.BytesIO(content))
            for number in (5, 0, 3, 4, 1, 2):
                self.assertEqual(flac.seek(65535 * number + 77), 77)
                found = next(flac.blocks())
                self.assertEqual([ch.tolist() for ch in found.samples], blocks[number])

    def test_closed_and_negative(self) -> None:
        flac = claxon.Flac(SONG)
        self.assertRaises(ValueError, flac.seek, -1)
        self.assertEqual(next(flac.blocks()).time, 0)
        flac.close()
        self.assertRaises(ValueError, flac.seek, 0)

    def test_pipe(self) -> None:
        """It is refused, and nothing is lost."""
        with subprocess.Popen(["cat", str(SONG)], stdout=PIPE) as process:
            assert process.stdout
            flac = claxon.Flac(process.stdout)
            blocks = flac.blocks()
            self.assertEqual(next(blocks).time, 0)
            self.assertRaises(io.UnsupportedOperation, flac.seek, 5000)
            self.assertEqual([block.time for block in blocks], [4096, 8192])
        flac = claxon.Flac(Trickle(SONG.read_bytes(), 9))
        self.assertFalse(flac.can_seek())
        self.assertRaises(OSError, flac.seek, 0)


class Damage(SeekCase):
    def test_footers(self) -> None:
        """A sample of a damaged frame isn't found; all others are, and faults stay faults."""
        stream = made(100, 600)
        frames = [bytearray(frame) for frame in stream.frames]
        for frame in frames[::3]:
            frame[-1] ^= 1
        flac = claxon.Flac(io.BytesIO(stream.head + b"".join(map(bytes, frames))))
        for number in range(100):
            if number % 3:
                self.expect_samples(flac, 600 * number + 5, stream)
            else:
                self.expect_none(flac, 600 * number + 5)
        flac.seek(601)
        blocks = flac.blocks()
        self.assertEqual([next(blocks).time, next(blocks).time], [600, 1200])
        self.assertRaises(claxon.FormatError, next, blocks)
        self.expect_none(flac, 0)
        flac.resync()
        self.assertEqual(next(flac.blocks()).time, 2400)

    def test_at_random(self) -> None:
        """What is found is what a walk over all faults finds."""
        source = random.Random(6)
        for _ in range(60):
            stream = made(40, 300, source.random() < 0.5, source.randrange(99))
            content = bytearray(stream.content())
            for _ in range(source.randrange(30)):
                place = source.randrange(len(stream.head), len(content))
                content[place] ^= 1 << source.randrange(8)
            if source.random() < 0.3:
                del content[source.randrange(len(stream.head), len(content)) :]
            whole = {block.time: block for block in walk(bytes(content))}
            flac = claxon.Flac(io.BytesIO(bytes(content)))
            for number in source.sample(range(41), 41):
                if 300 * number in whole:
                    self.expect_block(flac, 300 * number + 299, whole[300 * number])
                else:
                    self.expect_none(flac, 300 * number)

    def test_times_out_of_order(self) -> None:
        stream = made(80, 300)
        for seed in range(5):
            frames = random.Random(seed).sample(stream.frames, 80)
            flac = claxon.Flac(io.BytesIO(stream.head + b"".join(frames)))
            for sample in range(0, len(stream.samples), 300):
                self.expect_samples(flac, sample, stream)

    def test_headers_and_frames_in_samples(self) -> None:
        """A header within samples misleads nobody. A whole frame there is a frame of the stream."""
        stream = made(40, 300)
        inner = numbered_frame(1, [list(range(100))])
        for number, part in ((20, stream.frames[7][:7]), (20, stream.frames[30][:7]), (3, inner)):
            block = [byte - 256 if byte > 127 else byte for byte in part]
            block = (block + 300 * [1])[:300]
            frames = list(stream.frames)
            frames[number] = numbered_frame(number, [block])
            samples = list(stream.samples)
            samples[300 * number : 300 * (number + 1)] = block
            changed = stream._replace(frames=frames, samples=samples)
            flac = claxon.Flac(io.BytesIO(changed.content()))
            for sample in range(0, 12000, 150):
                if part is inner and sample // 300 == 1:
                    self.assertEqual(flac.seek(sample), sample - 300)
                else:
                    self.expect_samples(flac, sample, changed)

    def test_failures(self) -> None:
        """Each read, seek and tell fails in turn. Then the stream goes on where it stood."""
        stream = made(200, 3000)
        for taken, sample in itertools.product((0, 2), (0, 299999, 600000)):
            calls = 1
            while True:
                file = Counted(stream.content())
                flac = claxon.Flac(file)
                times = [block.time for block in itertools.islice(flac.blocks(), taken)]
                file.calls, file.failing = 0, calls
                try:
                    if sample < len(stream.samples):
                        flac.seek(sample)
                        times = [sample // 3000 * 3000 - 3000]
                    else:
                        self.expect_none(flac, sample)
                    is_done = True
                except claxon.ReadFailed as error:
                    self.assertEqual(str(error), "a failure that is made")
                    self.assertIs(type(error.__cause__), OSError)
                    is_done = False
                file.failing = -1
                block = next(flac.blocks())
                self.assertEqual(block.time, times[-1] + 3000 if times else 0)
                found = stream.samples[block.time :][:3000]
                self.assertEqual(block.planar.tolist(), found)
                if is_done:
                    break
                self.expect_samples(flac, 123456, stream)
                calls += 1
            self.assertGreater(calls, 3)

    def test_memory_that_is_refused(self) -> None:
        stream = made(20, 300)
        flac = claxon.Flac(io.BytesIO(stream.content()))
        call = _calls.library.claxon_seeker_next_planar
        found = [0]

        def refused(*arguments: object) -> int:
            found[0] += 1
            return _calls.OUT_OF_MEMORY if found[0] == 3 else int(call(*arguments))

        with unittest.mock.patch.object(_calls.library, "claxon_seeker_next_planar", refused):
            with self.assertRaises(claxon.OutOfMemory):
                for sample in range(0, 6000, 300):
                    flac.seek(sample)
        self.expect_samples(flac, 3210, stream)
        with unittest.mock.patch.object(
            _calls.library, "claxon_seeker_next_planar", return_value=_calls.OUT_OF_MEMORY
        ):
            self.assertRaises(claxon.OutOfMemory, flac.seek, 6000)
        self.assertEqual(next(flac.blocks()).time, 3300)

    def test_hostile(self) -> None:
        """Headers everywhere, of large blocks that have the sample or not; sync codes too. A frame
        after them is found where budget is left.
        """
        start = time.process_time()
        header = frame_header(65535)
        later = numbered_frame(77, [65535 * [0]])[:8]
        codes = (b"\xff\xf8", b"\xff", b"\xff\xf8\x69\x02")
        for repeated in (header + b"\x02", later + b"\x02", *codes):
            content = made_head(65535, 1 << 30) + repeated * (4000000 // len(repeated))
            flac = claxon.Flac(io.BytesIO(content))
            for sample in (1, 77 * 65535, 1 << 29):
                self.expect_none(flac, sample)
            self.assertRaises(claxon.Error, next, flac.blocks())
            flac.resync()
        few = made_head(65535, 0) + 40 * (header + b"\x02") + numbered_frame(0, [65535 * [7]])
        self.assertEqual(claxon.Flac(io.BytesIO(few)).seek(5), 5)
        self.assertLess(time.process_time() - start, 60)


class Resync(unittest.TestCase):
    def test_sync_codes_everywhere(self) -> None:
        """40 MB of them took 89 s when each was tried by itself."""
        content = made_head(16, 0) + 20000000 * b"\xff\xf8"
        flac = claxon.Flac(io.BytesIO(content))
        self.assertRaises(claxon.FormatError, next, flac.blocks())
        start = time.process_time()
        self.assertIsNone(flac.resync())
        self.assertLess(time.process_time() - start, 10)

    def test_frames_of_the_stream(self) -> None:
        """Frames of another number of channels or bit depth are passed, if there is a head."""
        frame = numbered_frame(1, [[1, 2, 3]])
        other = numbered_frame(2, [[1, 2, 3], [4, 5, 6]])
        content = made_head(16, 0) + b"damage" + other + frame
        flac = claxon.Flac(io.BytesIO(content))
        self.assertRaises(claxon.FormatError, next, flac.blocks())
        self.assertEqual(flac.resync(), len(b"damage" + other))
        self.assertEqual(next(flac.blocks()).planar.tolist(), [1, 2, 3])
        feed = claxon.Feed()
        whole = writer.frame(frame_header(3, 1, 4), [constant(1, 16), constant(2, 16)])
        feed.feed(b"no head" + whole)
        self.assertRaises(claxon.FormatError, next, feed.blocks())
        self.assertIsNotNone(feed.resync())
        self.assertEqual(next(feed.blocks()).planar.tolist(), [1, 1, 1, 2, 2, 2])

    def test_hostile(self) -> None:
        """Headers of large blocks everywhere: linear, and the frame after them is found."""
        start = time.process_time()
        for channels in (1, 8):
            hostile = (frame_header(65535, channels - 1) + b"\x02") * 200000
            frame = numbered_frame(1, channels * [[1, 2, 3]])
            content = made_head(16, 0, channels) + hostile + bytes(3000000) + frame
            flac = claxon.Flac(io.BytesIO(content))
            self.assertRaises(claxon.FormatError, next, flac.blocks())
            self.assertEqual(flac.resync(), len(hostile) + 3000000)
            self.assertEqual(next(flac.blocks()).planar.tolist(), channels * [1, 2, 3])
        self.assertLess(time.process_time() - start, 30)


class Read(unittest.TestCase):
    def expect(self, found: Sequence["array[int]"], expected: Sequence[int]) -> None:
        self.assertEqual([samples.tolist() for samples in found], [list(expected)])

    def test_slices(self) -> None:
        source = random.Random(7)
        for known in (True, False):
            stream = made(12, 250, known)
            for _ in range(300):
                start = source.choice([0, 250, 1000, source.randrange(3000)])
                stop = source.choice([None, 250, 1000, 2999, 3000, source.randrange(3000)])
                files: List[claxon.Readable] = [io.BytesIO(stream.content())]
                for file in (*files, Trickle(stream.content(), 999)):
                    found, rate = claxon.read_arrays(file, start, stop)
                    self.expect(found, stream.samples[start:stop])
                    self.assertEqual(rate, 44100)

    def test_past_the_end(self) -> None:
        stream = made(12, 250)
        for start, stop in ((3000, None), (9999, None), (2990, 9999), (5, 5), (7, 3), (0, 0)):
            found, _ = claxon.read_arrays(io.BytesIO(stream.content()), start, stop)
            self.expect(found, stream.samples[start:stop])
        unknown = made(12, 250, False)
        found, _ = claxon.read_arrays(io.BytesIO(unknown.content()), 2990, 9999)
        self.expect(found, unknown.samples[2990:])
        for start in (3000, 3001):
            files: List[claxon.Readable] = [io.BytesIO(unknown.content())]
            for file in (*files, Trickle(unknown.content(), 999)):
                with self.assertRaises(claxon.NoSuchSample):
                    claxon.read_arrays(file, start)
        for start, stop in ((-1, None), (0, -1), (-700, -20), (-9999, 5), (10, -9999)):
            found, _ = claxon.read_arrays(io.BytesIO(stream.content()), start, stop)
            self.expect(found, stream.samples[start:stop])
            unknown = made(12, 250, False)
            self.assertRaises(ValueError, claxon.read, io.BytesIO(unknown.content()), start, stop)

    def test_only_these_are_decoded(self) -> None:
        """What is damaged elsewhere doesn't matter; a cut file does."""
        stream = made(12, 250)
        content = bytearray(stream.content())
        content[len(stream.head) + len(stream.frames[0]) - 1] ^= 1
        found, _ = claxon.read_arrays(io.BytesIO(content), 300, 1111)
        self.expect(found, stream.samples[300:1111])
        self.assertRaises(claxon.FormatError, claxon.read, io.BytesIO(content), 0, 1111)
        self.assertRaises(claxon.NoSuchSample, claxon.read, io.BytesIO(content), 100, 1111)
        cut = stream.content()[: -len(stream.frames[-1])]
        with self.assertRaises(claxon.InputEnds) as raised:
            claxon.read_arrays(io.BytesIO(cut), 300)
        self.assertEqual(str(raised.exception), "the streaminfo says 3000 samples, 2750 were found")
        self.expect(claxon.read_arrays(io.BytesIO(cut), 300, 2750)[0], stream.samples[300:2750])

    def test_song(self) -> None:
        samples, _ = claxon.read_arrays(SONG)
        found, rate = claxon.read_arrays(SONG, start=4000, stop=8200)
        self.assertEqual((found, rate), ([samples[0][4000:8200]], 8000))
