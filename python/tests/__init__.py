"""Tests of the module: `run_tests` in the folder above runs them.

Expected values are those of crates/claxon_cases, which were made without this decoder, or stand in
the streams that are written here.
"""
import io
import pathlib
import shutil
import sys
import tempfile
import unittest
from array import array
from typing import Any, Dict, Iterator, NamedTuple, Optional, Sequence, Tuple, Type

import claxon

TOP = pathlib.Path(__file__).resolve().parent.parent.parent
sys.path.insert(0, str(TOP / "tools"))
from streams.frames import MARKER, frame, frame_header, metadata_block, verbatim  # noqa: E402

CASES = TOP / "crates" / "claxon_cases"
DATA = CASES / "data"

# How the texts of crates/claxon_cases begin, by the class of the error.
PREFIXES: Dict[Type[claxon.Error], str] = {
    claxon.FormatError: "Ill-formed FLAC stream: ",
    claxon.Unsupported: "A currently unsupported feature of the FLAC format was encountered: ",
}

# Ill-formed for the decoder, and not supported for the programs and this module.
ALLOWED = ("stream starts with ID3 header rather than FLAC header", "invalid sample rate")

# A streaminfo: blocks of 16 samples, 44100 Hz, one channel, 8 bits, 1 sample.
STREAMINFO = bytes.fromhex(
    "0010" "0010" "000000" "000000" "0ac44070" "00000001" "00000000000000000000000000000000"
)

# A frame of one sample of 8 bits, 5, from the lines of streams.txt.
FRAME_OF_5 = bytes.fromhex("fff8690200009a00053458")


class Case(NamedTuple):
    """A file, the number of its samples, the FNV-1a hash of their bytes, and the result."""

    name: str
    samples: int
    digest: int
    result: str


def cases() -> Iterator[Case]:
    for line in (CASES / "stdout").read_text().splitlines():
        name, count, digest, result = line.split(" ", 3)
        if name.endswith(".flac"):
            yield Case(name, int(count), int(digest, 16), result)


def result_of(error: Optional[claxon.Error]) -> str:
    """An error as the cases write it."""
    if error is None:
        return "ok"
    if isinstance(error, claxon.InputEnds):
        return "IO"
    is_allowed = isinstance(error, claxon.Unsupported) and str(error) in ALLOWED
    return (PREFIXES[claxon.FormatError] if is_allowed else PREFIXES[type(error)]) + str(error)


def interleaved(block: claxon.Block) -> "array[int]":
    samples = array("i", bytes(4 * len(block.planar)))
    for channel, found in enumerate(block.samples):
        samples[channel :: block.channels] = array("i", found.tobytes())
    return samples


def decode(file: Any) -> Tuple[bytes, Optional[claxon.Error]]:
    """The bytes of all samples, interleaved, and the error that they end with."""
    found = bytearray()
    try:
        with claxon.Flac(file) as flac:
            for block in flac.blocks():
                found += interleaved(block).tobytes()
    except claxon.Error as error:
        return bytes(found), error
    return bytes(found), None


class FolderCase(unittest.TestCase):
    """Tests that each have an empty folder, which is removed after them."""

    def setUp(self) -> None:
        folder = tempfile.TemporaryDirectory()
        self.addCleanup(folder.cleanup)
        self.folder = pathlib.Path(folder.name)


def copy_module(folder: pathlib.Path) -> None:
    """Copies the module under test into a folder, without the library that it may have inside."""
    package = pathlib.Path(claxon.__file__).parent
    ignored = shutil.ignore_patterns("libclaxon*", "__pycache__")
    shutil.copytree(package, folder / "claxon", ignore=ignored)


class Trickle:
    """A file object that gives at most `step` bytes a call, and has no call but `read`."""

    def __init__(self, content: bytes, step: int) -> None:
        self._content = io.BytesIO(content)
        self._step = step

    def read(self, most: int) -> bytes:
        return self._content.read(min(most, self._step))


def head(*blocks: bytes) -> bytes:
    """The marker, the streaminfo above and these metadata blocks, the last of which is marked."""
    first = metadata_block(0, STREAMINFO, not blocks)
    return MARKER + first + b"".join(blocks)


def verbatim_frame(channels: Sequence[Sequence[int]], bits: int = 8) -> bytes:
    """Frame 0 of these samples, each channel in a verbatim subframe."""
    header = frame_header(len(channels[0]), len(channels) - 1)
    return frame(header, [verbatim(channel, bits) for channel in channels])


def comments(vendor: str, *tags: str) -> bytes:
    """The content of a Vorbis comment block."""
    texts = [text.encode() for text in (vendor, *tags)]
    fields = [len(text).to_bytes(4, "little") + text for text in texts]
    return fields[0] + len(tags).to_bytes(4, "little") + b"".join(fields[1:])
