"""Pictures: blocks that are made here by RFC 9639, section 8.8, and by metaflac, where it is."""
import io
import random
import re
import shutil
import subprocess
import tracemalloc
import unittest
from typing import List

import claxon
from streams.frames import metadata_block
from tests import FRAME_OF_5, TOP, FolderCase, Trickle, comments, head

SONG = TOP / "examples" / "tagged.flac"
MOST = (1 << 32) - 1
PNG = bytes.fromhex("89504e470d0a1a0a")  # how each PNG file begins


def numbered(*numbers: int) -> bytes:
    return b"".join(number.to_bytes(4, "big") for number in numbers)


def content_of(picture: claxon.Picture) -> bytes:
    """The content of a block, field by field."""
    mime, description = picture.mime.encode("latin-1"), picture.description.encode()
    sizes = numbered(picture.width, picture.height, picture.depth, picture.colors)
    return (
        numbered(picture.type, len(mime))
        + mime
        + numbered(len(description))
        + description
        + sizes
        + numbered(len(picture.data))
        + picture.data
    )


FRONT = claxon.Picture(3, "image/png", "façade", 640, 480, 24, 0, PNG)
OTHERS = [
    claxon.Picture(0, "", "", 0, 0, 0, 0, b""),
    claxon.Picture(4, "image/gif", "x", 1, 2, 8, 256, bytes(range(256))),
    claxon.Picture(3, "-->", "a link", 0, 0, 0, 0, b"https://example.org/front.jpg"),
    claxon.Picture(MOST, "~ ", "\0\U0001d11e", MOST, MOST, MOST, MOST, b"\xff"),
]


def stream_of(contents: List[bytes]) -> bytes:
    """A stream with these picture blocks among others."""
    blocks = [metadata_block(6, content) for content in contents]
    tags = metadata_block(4, comments("v", "TITLE=a"))
    return head(*blocks[:1], tags, *blocks[1:], metadata_block(1, b"", True)) + FRAME_OF_5


def opened(stream: bytes) -> claxon.Flac:
    return claxon.Flac(io.BytesIO(stream), pictures=True)


class Made(unittest.TestCase):
    def expect_pictures(self, flac: claxon.Flac, pictures: List[claxon.Picture]) -> None:
        for _ in range(2):
            self.assertEqual(flac.pictures, pictures)
        self.assertEqual(flac.tags, {"TITLE": "a"})
        self.assertEqual([block.planar.tolist() for block in flac.blocks()], [[5]])

    def test_bytes_by_hand(self) -> None:
        """Each field at its place, as the RFC's table has them."""
        content = bytes.fromhex(
            "00000003" "00000009" "696d6167652f706e67" "00000002" "c3a9"
            "00000280" "000001e0" "00000018" "00000000" "00000008" "89504e470d0a1a0a"
        )
        expected = claxon.Picture(3, "image/png", "é", 640, 480, 24, 0, PNG)
        self.assertEqual(opened(head(metadata_block(6, content, True))).pictures, [expected])

    def test_several(self) -> None:
        """In the order of the blocks, read in pieces of any size."""
        for count in range(len(OTHERS) + 1):
            pictures = [FRONT, *OTHERS[:count]]
            stream = stream_of([content_of(picture) for picture in pictures])
            self.expect_pictures(opened(stream), pictures)
            for step in (1, 61):
                trickle = Trickle(stream, step)
                flac = claxon.Flac(trickle, pictures=True)
                self.expect_pictures(flac, pictures)

    def test_none(self) -> None:
        with claxon.Flac(SONG, pictures=True) as flac:
            self.assertEqual(flac.pictures, [])

    def test_large(self) -> None:
        """As large as a block can be, and as a file that can seek has it."""
        size = (1 << 24) - 1 - len(content_of(FRONT)) + len(PNG)
        large = FRONT._replace(data=PNG + random.Random(1).getrandbits(8 * 99).to_bytes(99, "big"))
        large = large._replace(data=large.data + bytes(size - len(large.data)))
        stream = stream_of([content_of(large), content_of(FRONT)])
        self.expect_pictures(opened(stream), [large, FRONT])

    def test_feed(self) -> None:
        """A picture is there with the last byte of its block."""
        contents = [content_of(picture) for picture in (FRONT, OTHERS[1])]
        stream, feed, counts = stream_of(contents), claxon.Feed(pictures=True), []
        for byte in stream:
            feed.feed(bytes([byte]))
            blocks = list(feed.blocks())
            counts.append(len(feed.pictures))
        self.assertEqual(len(blocks), 1)
        self.assertEqual(feed.pictures, [FRONT, OTHERS[1]])
        ends = [stream.index(content) + len(content) for content in contents]
        self.assertEqual([counts.index(count) + 1 for count in (1, 2)], ends)

    def test_not_asked_for(self) -> None:
        """Then they are passed over, and nothing of them is held."""
        stream = stream_of([content_of(FRONT._replace(data=bytes(1 << 23)))])
        tracemalloc.start()
        self.addCleanup(tracemalloc.stop)
        for flac in (claxon.Flac(io.BytesIO(stream)), claxon.Feed()):
            self.assertRaises(ValueError, getattr, flac, "pictures")
        self.assertLess(tracemalloc.get_traced_memory()[1], 1 << 21)


class IllFormed(unittest.TestCase):
    def expect_refused(self, content: bytes, text: str) -> None:
        """The fault is at the block, and is none of the stream."""
        stream = stream_of([content_of(FRONT), content])
        flac = opened(stream)
        for _ in range(2):
            with self.assertRaises(claxon.FormatError) as raised:
                flac.pictures
            self.assertEqual(str(raised.exception), text)
            place = stream.rindex(metadata_block(6, content))
            self.assertEqual(raised.exception.position, place)
        self.assertEqual([block.planar.tolist() for block in flac.blocks()], [[5]])

    def test_lengths(self) -> None:
        """Cut anywhere, longer by a byte, and with a length that is wrong."""
        content = content_of(FRONT)
        for end in range(1, len(content)):
            self.expect_refused(content[:end], "picture block is too short")
        self.expect_refused(content + b"x", "picture block is too long")
        for place in (4, 17, len(content) - 12):
            for length in (1 << 31, (1 << 32) - 1, len(content)):
                changed = content[:place] + numbered(length) + content[place + 4 :]
                self.expect_refused(changed, "picture block is too short")
        for length, text in ((7, "picture block is too long"), (9, "picture block is too short")):
            changed = content[:-12] + numbered(length) + PNG
            self.expect_refused(changed, text)

    def test_texts(self) -> None:
        for mime in ("image/\n", "\x7f", "é"):
            content = content_of(FRONT._replace(mime=mime))
            self.expect_refused(content, "picture's media type isn't printable ASCII")
        content = content_of(FRONT).replace("façade".encode(), "façade".encode("latin-1") + b"x")
        self.expect_refused(content, "picture's description isn't UTF-8")

    def test_head_that_is_cut(self) -> None:
        """Within a picture it is cut as within any other block."""
        stream = stream_of([content_of(FRONT)])
        for end in range(42, 42 + 4 + len(content_of(FRONT))):
            with self.assertRaises(claxon.InputEnds) as raised:
                opened(stream[:end])
            self.assertEqual(raised.exception.position, 42)


@unittest.skipUnless(shutil.which("metaflac"), "metaflac isn't installed (Debian's flac)")
class Metaflac(FolderCase):
    def test_imported(self) -> None:
        """Pictures that metaflac puts into a file, beside what it lists."""
        path, image = self.folder / "song.flac", self.folder / "front.png"
        shutil.copy(SONG, path)
        image.write_bytes(PNG + bytes(300))
        texts = ["3|image/png|façade|640x480x24|", "4|image/gif||1x2x8/256|", "3|-->|x|1x1x24|"]
        for text in texts:
            name = "https://example.org/a" if "-->" in text else str(image)
            command = ["metaflac", "--no-utf8-convert", f"--import-picture-from={text}{name}"]
            subprocess.check_call([*command, str(path)])
        with claxon.Flac(path, pictures=True) as flac:
            pictures = flac.pictures
            self.assertEqual(sum(block.duration for block in flac.blocks()), 9876)
        expected = [
            FRONT._replace(data=PNG + bytes(300)),
            claxon.Picture(4, "image/gif", "", 1, 2, 8, 256, PNG + bytes(300)),
            claxon.Picture(3, "-->", "x", 1, 1, 24, 0, b"https://example.org/a"),
        ]
        self.assertEqual(pictures, expected)
        self.expect_listed(str(path), pictures)

    def expect_listed(self, path: str, pictures: List[claxon.Picture]) -> None:
        command = ["metaflac", "--list", "--no-utf8-convert", "--block-type=PICTURE", path]
        listed = subprocess.check_output(command).decode("utf-8")
        found = []
        names = ("type", "MIME type", "description", "width", "height", "depth", "colors")
        for part in listed.split("METADATA block #")[1:]:
            lines = dict(re.findall(r"^  ([\w ]+): (.*)$", part.replace("  type: 6", ""), re.M))
            found.append([lines[name].split(" (")[0] for name in (*names, "data length")])
        fields = [[str(field) for field in picture[:-1]] for picture in pictures]
        lengths = [len(picture.data) for picture in pictures]
        self.assertEqual(found, [[*row, str(length)] for row, length in zip(fields, lengths)])
