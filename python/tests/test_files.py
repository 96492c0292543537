"""Files: reads and seeks that fail, bytes in place of a path, and data after the frames."""
import errno
import io
import itertools
import os
import pickle
import unittest
import warnings
from array import array
from typing import Any, Callable, List, Optional, Tuple

import claxon
from streams.frames import frame, frame_header, head_with, streaminfo, verbatim
from tests import FRAME_OF_5, TOP, FolderCase, Trickle, head
from tests.test_seeking import Counted, Made, made, made_head

SONG = TOP / "examples" / "tagged.flac"
CALLS: List[Callable[..., Any]] = [claxon.Flac, claxon.read]


class FailsOnce(Trickle):
    """A byte at a time, but for an exception in place of the byte with a number."""

    def __init__(self, content: bytes, error: OSError, place: int) -> None:
        super().__init__(content, 1)
        self._error: Optional[OSError] = error
        self._place = place

    def read(self, most: int) -> bytes:
        if self._content.tell() == self._place and self._error:
            error, self._error = self._error, None
            raise error
        return super().read(most)


class Failures(FolderCase):
    def test_each_read_of_blocks(self) -> None:
        """After it the stream goes on where it stood: no block is lost."""
        content = head() + 3 * FRAME_OF_5
        for place in range(len(head()), len(content)):
            error = ConnectionResetError(errno.ECONNRESET, "Connection reset by peer")
            flac = claxon.Flac(FailsOnce(content, error, place))
            found: List[List[int]] = []
            with self.assertRaises(claxon.ReadFailed) as raised:
                for block in flac.blocks():
                    found.append(block.planar.tolist())
            self.assertIs(raised.exception.__cause__, error)
            found += [block.planar.tolist() for block in flac.blocks()]
            self.assertEqual(found, [[5], [5], [5]])

    def test_each_read_of_resync(self) -> None:
        """It goes on to the same frame, and counts all bytes that it skipped."""
        content = head() + b"damage" + FRAME_OF_5
        for place in range(len(head()), len(content)):
            error, failures = OSError(errno.EIO, "Input/output error"), []
            flac = claxon.Flac(FailsOnce(content, error, place))

            def again(call: Callable[[], Any]) -> Any:
                try:
                    return call()
                except claxon.ReadFailed as failure:
                    failures.append(failure)
                    return call()

            def samples() -> List[List[int]]:
                return [block.planar.tolist() for block in flac.blocks()]

            self.assertRaises(claxon.FormatError, again, samples)
            self.assertEqual(again(flac.resync), len(b"damage"))
            self.assertEqual(again(samples), [[5]])
            self.assertEqual(len(failures), 1)

    def test_each_read_of_a_head(self) -> None:
        for place in range(len(head())):
            file = FailsOnce(head(), OSError("a failure that is made"), place)
            with self.assertRaises(claxon.ReadFailed) as raised:
                claxon.Flac(file)
            self.assertEqual(str(raised.exception), "a failure that is made")

    def test_each_call_of_read(self) -> None:
        """`read` calls read, seek and tell."""
        stream = made(60, 3000)
        for start in (0, 100000):
            for failing in itertools.count(1):
                file = Counted(stream.content(), failing)
                try:
                    samples, _ = claxon.read_arrays(file, start)
                except claxon.ReadFailed as error:
                    self.assertEqual(str(error), "a failure that is made")
                    continue
                self.assertEqual(samples[0].tolist(), stream.samples[start:])
                break
            self.assertGreater(failing, 4)

    def test_numbers_and_texts(self) -> None:
        """Those of the exception of the file, by which callers tell them apart."""
        made_errors = [
            OSError("text"),
            OSError(),
            OSError(errno.EIO, "Input/output error"),
            OSError(errno.EIO, "Input/output error", "name"),
            TimeoutError(errno.ETIMEDOUT, "Connection timed out"),
            InterruptedError(errno.EINTR, "Interrupted system call"),
        ]
        for error in made_errors:
            with self.assertRaises(OSError) as raised:
                claxon.Flac(FailsOnce(head(), error, 9))
            found = raised.exception
            self.assertIs(type(found), claxon.ReadFailed)
            self.assertEqual(found.args, error.args)
            for name in ("errno", "strerror", "filename"):
                self.assertEqual(getattr(found, name), getattr(error, name))
            self.assertEqual(str(found), str(error))
            self.assertEqual(str(pickle.loads(pickle.dumps(found))), str(error))

    @unittest.skipUnless(os.path.exists("/proc/self/mem"), "there is no /proc/self/mem")
    def test_path(self) -> None:
        """The memory at 0 can't be read."""
        for call in CALLS:
            with self.assertRaises(claxon.ReadFailed) as raised:
                call("/proc/self/mem")
            self.assertEqual(raised.exception.errno, errno.EIO)

    def test_others_stay(self) -> None:
        """No bytes yet, or not in time, and a file that isn't for reading or can't be opened."""
        missing = self.folder / "missing.flac"
        for call in CALLS:
            others = BlockingIOError("not yet"), TimeoutError(), io.UnsupportedOperation("no reads")
            for error in others:
                with self.assertRaises(type(error)) as raised:
                    call(FailsOnce(head(), error, 9))
                self.assertIs(raised.exception, error)
            self.assertRaises(FileNotFoundError, call, missing)
            self.assertRaises(IsADirectoryError, call, self.folder)
            with open(self.folder / "out", "wb") as file:
                self.assertRaises(io.UnsupportedOperation, call, file)


class Data(FolderCase):
    def test_refused(self) -> None:
        """The bytes of a stream aren't a path: the text says how they go in."""
        song = SONG.read_bytes()
        some = [song, bytearray(song), memoryview(song), song[:4], b"ID3\3\0" + song, bytearray()]
        for data, call in itertools.product(some, CALLS):
            with self.assertRaises(TypeError) as raised:
                call(data)
            self.assertIn("io.BytesIO(data)", str(raised.exception))
        self.assertEqual(claxon.read_arrays(io.BytesIO(song)), claxon.read_arrays(SONG))

    def test_paths(self) -> None:
        """Paths of bytes stay paths, also one that begins as a stream does."""
        self.addCleanup(os.chdir, os.getcwd())
        os.chdir(self.folder)
        for name in (b"song.flac", b"fLaC", b"fLaC \xff"):
            with open(name, "wb") as file:
                file.write(SONG.read_bytes())
            self.assertEqual(claxon.read_arrays(name), claxon.read_arrays(SONG))
        self.assertRaises(FileNotFoundError, claxon.read, b"missing.flac")
        self.assertRaises(TypeError, claxon.read, 1.5)


def id3v1(title: bytes) -> bytes:
    """A tag of ID3v1.1: title, artist, album, year, comment with the track, genre."""
    fields = [title.ljust(30, b"\0"), bytes(30), bytes(30), b"2001", bytes(29), b"\7", b"\x0c"]
    return b"TAG" + b"".join(fields)


def apev2(items: List[Tuple[bytes, bytes]]) -> bytes:
    """A tag of APEv2: a header, items of UTF-8, and a footer."""
    content = b"".join(
        len(value).to_bytes(4, "little") + bytes(4) + key + b"\0" + value for key, value in items
    )
    sizes = [2000, len(content) + 32, len(items)]
    fields = b"APETAGEX" + b"".join(number.to_bytes(4, "little") for number in sizes)
    header, footer = ((flags << 24).to_bytes(4, "little") + bytes(8) for flags in (0xA0, 0x80))
    return fields + header + content + fields + footer


ID3 = id3v1("Stück".encode("latin-1"))
APE = apev2([(b"Title", "Stück".encode()), (b"Artist", b"x")])


class TrailingData(unittest.TestCase):
    def read(
        self, content: bytes, start: int = 0, stop: Optional[int] = None
    ) -> Tuple[List["array[int]"], List[warnings.WarningMessage]]:
        with warnings.catch_warnings(record=True) as caught:
            warnings.simplefilter("always")
            return claxon.read_arrays(io.BytesIO(content), start, stop)[0], caught

    def expect_warning(self, stream: Made, after: bytes, start: int = 0) -> None:
        content = stream.content()
        samples, caught = self.read(content + after, start)
        self.assertEqual(samples[0].tolist(), stream.samples[start:])
        [warning] = caught
        self.assertIs(warning.category, claxon.TrailingDataWarning)
        self.assertTrue(issubclass(warning.category, UserWarning))
        self.assertEqual(warning.filename, __file__)
        self.assertIn(f"at byte {len(content)}", str(warning.message))

    def test_tags(self) -> None:
        """All samples are returned with a warning, as the streaminfo says how many there are."""
        self.assertEqual((len(ID3), len(APE)), (128, 32 + 20 + 16 + 32))
        stream = made(12, 250)
        for after in (ID3, APE, APE + ID3, bytes(1000), b"\xff\xf8", stream.frames[3][:-1]):
            for start in (0, 1, 2750, 2999):
                self.expect_warning(stream, after, start)

    def test_frame_that_is_damaged(self) -> None:
        """After the last sample it is no more than other data."""
        stream = made(12, 250)
        frame = bytearray(stream.frames[3])
        frame[-1] ^= 1
        self.expect_warning(stream, bytes(frame))

    def test_no_warning(self) -> None:
        """Where nothing follows the frames, or isn't looked at."""
        stream = made(12, 250)
        self.assertEqual(self.read(stream.content())[1], [])
        for start, stop in ((0, 3000), (0, 9999), (0, 2999), (3000, None), (5, 5)):
            samples, caught = self.read(stream.content() + ID3, start, stop)
            self.assertEqual(samples[0].tolist(), stream.samples[start:stop])
            self.assertEqual(caught, [])

    def test_error_stays(self) -> None:
        """With fewer or more samples, with an unknown number, and with damage before the end."""
        stream = made(12, 250)
        frames = b"".join(stream.frames)
        for total in (0, 2999, 3001, 1 << 35):
            with self.assertRaises(claxon.FormatError) as raised:
                self.read(made_head(250, total) + frames + ID3)
            self.assertEqual(raised.exception.position, len(stream.content()))
        for place in (len(stream.head) + 20, len(stream.content()) - 1):
            damaged = bytearray(stream.content() + ID3)
            damaged[place] ^= 1
            self.assertRaises(claxon.FormatError, self.read, bytes(damaged))
        self.assertRaises(claxon.InputEnds, self.read, stream.content()[:-1])

    def test_blocks_and_warnings_as_errors(self) -> None:
        stream = made(12, 250)
        flac = claxon.Flac(io.BytesIO(stream.content() + ID3))
        with self.assertRaises(claxon.FormatError):
            for block in flac.blocks():
                last = block
        self.assertEqual(last.time, 2750)
        with warnings.catch_warnings():
            warnings.simplefilter("error", claxon.TrailingDataWarning)
            with self.assertRaises(claxon.TrailingDataWarning):
                claxon.read(io.BytesIO(stream.content() + ID3))


class NotSupported(unittest.TestCase):
    """What the format allows, and the library refuses: as the programs say it."""

    def expect(self, kind: Any, content: bytes, text: str, position: int) -> None:
        for call in CALLS:
            with self.assertRaises(claxon.Error) as raised:
                flac = call(io.BytesIO(content))
                list(flac.blocks())
            self.assertIs(type(raised.exception), kind)
            self.assertEqual(str(raised.exception), text)
            self.assertEqual(raised.exception.position, position)

    def test_id3v2(self) -> None:
        text = "stream starts with ID3 header rather than FLAC header"
        tag = b"ID3\x04\0\0\0\0\0\x0a" + bytes(10)
        self.expect(claxon.Unsupported, tag + head() + FRAME_OF_5, text, 0)
        self.expect(claxon.FormatError, b"IDx" + head(), "invalid stream header", 0)

    def test_sample_rates(self) -> None:
        for rate in (0, 655360, (1 << 20) - 1):
            content = head_with(streaminfo(rate=rate, samples=1)) + FRAME_OF_5
            self.expect(claxon.Unsupported, content, "invalid sample rate", 4)

    def test_32_bits(self) -> None:
        """Their code was reserved once. In other streams it is ill-formed."""
        subframe = verbatim([1, 2], 32)
        frames = [frame(frame_header(2, 0, code, 9), [subframe]) for code in (7, 3)]
        reserved = "invalid frame header, encountered reserved value"
        for bits, at, kind in ((32, 0, True), (32, 1, False), (24, 0, False)):
            content = head_with(streaminfo(bits=bits, samples=2)) + frames[at]
            text = "32-bit samples are not supported" if kind else reserved
            self.expect(claxon.Unsupported if kind else claxon.FormatError, content, text, 42)
        good = frame(frame_header(2, 0, 0, 9), [subframe])
        found, _ = claxon.read_arrays(io.BytesIO(head_with(streaminfo(bits=32)) + good))
        self.assertEqual(found[0].tolist(), [1, 2])
