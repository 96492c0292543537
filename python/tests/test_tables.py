"""Seek tables and cue sheets."""
import io
import re
import shutil
import struct
import subprocess
import unittest
from typing import Any, List, Sequence, Tuple

import claxon
from streams.frames import metadata_block
from tests import FRAME_OF_5, TOP, FolderCase, Trickle, head

SONG = TOP / "examples" / "tagged.flac"
Point = Tuple[int, int, int]
PLACEHOLDER = ((1 << 64) - 1, 0, 0)


def table_of(points: Sequence[Point]) -> bytes:
    """Each point takes 18 bytes (RFC 9639, section 8.5)."""
    return b"".join(
        sample.to_bytes(8, "big") + offset.to_bytes(8, "big") + samples.to_bytes(2, "big")
        for sample, offset, samples in points
    )


def sheet_of(sheet: claxon.CueSheet) -> bytes:
    """A cue sheet by the table of RFC 9639, section 8.7."""
    content = sheet.catalog.encode().ljust(128, b"\0") + sheet.lead_in.to_bytes(8, "big")
    content += bytes([sheet.is_cd << 7]) + bytes(258) + bytes([len(sheet.tracks)])
    for track in sheet.tracks:
        content += track.offset.to_bytes(8, "big") + bytes([track.number])
        content += track.isrc.encode().ljust(12, b"\0")
        content += bytes([(not track.is_audio) << 7 | track.has_pre_emphasis << 6]) + bytes(13)
        content += bytes([len(track.indexes)])
        for index in track.indexes:
            content += index.offset.to_bytes(8, "big") + bytes([index.number]) + bytes(3)
    return content


def stream_of(*blocks: Tuple[int, bytes]) -> bytes:
    contents = [metadata_block(kind, content) for kind, content in blocks]
    return head(*contents, metadata_block(1, b"", True)) + FRAME_OF_5


def opened(*blocks: Tuple[int, bytes]) -> claxon.Flac:
    return claxon.Flac(io.BytesIO(stream_of(*blocks)))


SHEET = claxon.CueSheet(
    "1234567890123", 88200, True,
    (
        claxon.CueTrack(1, 0, "ABCDE1234567", True, False, (claxon.CueIndex(1, 0),)),
        claxon.CueTrack(
            2, 588 * 75, "", False, True, (claxon.CueIndex(0, 0), claxon.CueIndex(1, 588))
        ),
        claxon.CueTrack(170, 588 * 200, "", True, False, ()),
    ),
)  # fmt: skip


class SeekTables(unittest.TestCase):
    def test_points(self) -> None:
        points = [(0, 0, 4096), (4096, 5000, 4096), ((1 << 64) - 2, (1 << 63) + 1, 65535)]
        flac = opened((3, table_of([*points, PLACEHOLDER, PLACEHOLDER])))
        self.assertEqual(flac.seek_table, points)
        self.assertEqual(flac.seek_table[1].offset, 5000)
        self.assertEqual([block.planar.tolist() for block in flac.blocks()], [[5]])

    def test_none(self) -> None:
        self.assertEqual(opened().seek_table, [])
        self.assertEqual(opened((3, b"")).seek_table, [])
        self.assertEqual(opened((3, table_of([(1, 2, 3)])), (3, b"x")).seek_table, [(1, 2, 3)])

    def test_ill_formed(self) -> None:
        """It is no fault of the stream."""
        for length in (1, 17, 19):
            flac = opened((3, table_of([(1, 2, 3), (4, 5, 6)])[:length]))
            for _ in range(2):
                with self.assertRaises(claxon.FormatError) as raised:
                    flac.seek_table
                self.assertEqual(raised.exception.position, 42)
            self.assertEqual([block.planar.tolist() for block in flac.blocks()], [[5]])

    def test_feed(self) -> None:
        feed = claxon.Feed()
        for byte in stream_of((3, table_of([(1, 2, 3)])), (5, sheet_of(SHEET))):
            feed.feed(bytes([byte]))
            list(feed.blocks())
        self.assertEqual((feed.seek_table, feed.cue_sheet), ([(1, 2, 3)], SHEET))


class CueSheets(unittest.TestCase):
    def test_sheet(self) -> None:
        for step in (1, 1 << 30):
            flac = claxon.Flac(Trickle(stream_of((5, sheet_of(SHEET))), step))
            self.assertEqual(flac.cue_sheet, SHEET)
        self.assertIsNone(opened().cue_sheet)
        self.assertEqual(opened((5, sheet_of(SHEET)), (5, b"")).cue_sheet, SHEET)

    def test_bytes_by_hand(self) -> None:
        """Each field at its place."""
        content = b"42" + bytes(126) + struct.pack(">Q", 7) + b"\x80" + bytes(258) + b"\x01"
        content += struct.pack(">Q", 9) + b"\xaa" + b"GBAYE0000001" + b"\xc0" + bytes(13) + b"\x01"
        content += struct.pack(">Q", 11) + b"\x05" + bytes(3)
        track = claxon.CueTrack(170, 9, "GBAYE0000001", False, True, (claxon.CueIndex(5, 11),))
        self.assertEqual(opened((5, content)).cue_sheet, claxon.CueSheet("42", 7, True, (track,)))

    def test_ill_formed(self) -> None:
        content = sheet_of(SHEET)
        wrong = [content[:end] for end in range(len(content))] + [content + b"x"]
        wrong.append(b"\xff" + content[1:])
        for changed in wrong:
            flac = opened((5, changed))
            with self.assertRaises(claxon.FormatError) as raised:
                flac.cue_sheet
            self.assertIn("cue sheet", str(raised.exception))
        self.assertEqual([block.planar.tolist() for block in flac.blocks()], [[5]])


@unittest.skipUnless(shutil.which("metaflac"), "metaflac isn't installed (Debian's flac)")
class Metaflac(FolderCase):
    """Those that metaflac makes, beside what it lists."""

    def listed(self, path: Any, kind: str) -> str:
        command = ["metaflac", "--list", f"--block-type={kind}", str(path)]
        return subprocess.check_output(command).decode("utf-8", "replace")

    def test_seek_table(self) -> None:
        path = self.folder / "song.flac"
        shutil.copy(SONG, path)
        points = ["0", "5000", "9000", "X", "X"]
        command = ["metaflac", *(f"--add-seekpoint={point}" for point in points)]
        subprocess.check_call([*command, str(path)])
        pattern = r"point \d+: sample_number=(\d+), stream_offset=(\d+), frame_samples=(\d+)"
        found = re.findall(pattern, self.listed(path, "SEEKTABLE"))
        expected = [tuple(map(int, fields)) for fields in found]
        self.assertEqual(len(expected), 3)
        with claxon.Flac(path) as flac:
            self.assertEqual(flac.seek_table, expected)
            times = [block.time for block in flac.blocks()]
        self.assertEqual([point[0] for point in expected], times)

    def test_cue_sheet(self) -> None:
        path, cue = self.folder / "song.flac", self.folder / "song.cue"
        raw = ["--force-raw-format", "--endian=little", "--sign=signed", "--channels=1", "--bps=16"]
        command = ["flac", "--silent", *raw, "--sample-rate=44100", "-", "-o", str(path)]
        subprocess.run(command, input=bytes(2 * 2 * 44100), check=True)
        lines = ["CATALOG 1234567890123", 'FILE "song.flac" WAVE', "  TRACK 01 AUDIO"]
        lines += ["    ISRC ABCDE1234567", "    INDEX 01 00:00:00", "  TRACK 02 AUDIO"]
        lines += ["    FLAGS PRE", "    INDEX 00 00:00:30", "    INDEX 01 00:01:00"]
        cue.write_text("\n".join(lines) + "\n")
        command = ["metaflac", f"--import-cuesheet-from={cue}", "--no-cued-seekpoints", str(path)]
        subprocess.run(command, check=True)
        text = self.listed(path, "CUESHEET")
        with claxon.Flac(path) as flac:
            sheet = flac.cue_sheet
        assert sheet is not None
        tracks: List[claxon.CueTrack] = list(sheet.tracks)
        self.assertEqual(re.findall(r"media catalog number: (\d*)", text), [sheet.catalog])
        self.assertEqual(re.findall(r"lead-in: (\d+)", text), [str(sheet.lead_in)])
        self.assertEqual(re.findall(r"is CD: (\w+)", text), [str(sheet.is_cd).lower()])
        offsets = re.findall(r"^ {6}offset: (\d+)$", text, re.M)
        self.assertEqual(offsets, [str(track.offset) for track in tracks])
        numbers = re.findall(r"^ {6}number: (\d+)", text, re.M)
        self.assertEqual(numbers, [str(track.number) for track in tracks])
        places = re.findall(r"^ {10}offset: (\d+)\n {10}number: (\d+)$", text, re.M)
        indexes = [index for track in tracks for index in track.indexes]
        self.assertEqual([(int(n), int(at)) for at, n in places], indexes)
        self.assertEqual([track.isrc for track in tracks], ["ABCDE1234567", "", ""])
        self.assertEqual([track.has_pre_emphasis for track in tracks], [False, True, False])
        self.assertEqual([len(track.indexes) for track in tracks], [1, 2, 0])
