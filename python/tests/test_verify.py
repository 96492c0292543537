"""`verify`, beside the lines of the program, and of a double that gives them by the man page."""
import json
import os
import pathlib
import subprocess
import sys
import unittest
from typing import Any, Dict
from unittest import mock

import claxon
from claxon import _program
from claxon.archive import run
from tests import DATA, TOP, FolderCase
from tests.test_seeking import made

SONG = TOP / "examples" / "tagged.flac"
BUILT = TOP / "crates" / "claxon_cli" / "out" / "claxon_cli"

# By the man page claxon(1).
WRONG: Dict[str, Any] = {
    "name": "-", "verdict": "wrong", "frames": 321, "samples": 1314808, "sample_rate": 44100,
    "channels": 2, "bits_per_sample": 16, "streaminfo_samples": 1323000, "md5": "wrong",
    "computed_md5": "00112233445566778899aabbccddeeff",
    "places": [
        {"start_byte": 8234, "end_byte": 12000, "start_sample": 4096, "end_sample": 8192,
         "what": "Ill-formed FLAC stream: frame CRC mismatch"},
        {"start_byte": 50000, "end_byte": 50001, "start_sample": 40960, "end_sample": 45056,
         "what": "1 frame is missing"},
    ],
    "left_out": 3, "notes": ["1 byte after the last frame"], "later": [1],
}  # fmt: skip


class Double(FolderCase):
    """A program in the place of claxon."""

    def double(self, said: str, status: int = 0, errors: str = "") -> None:
        """Makes it print this, after its arguments and the length of its input into a file."""
        program = self.folder / "claxon"
        program.write_text(
            f"#!{sys.executable}\nimport sys\n"
            f"print(sys.argv[1:], len(sys.stdin.buffer.read()), file=open({self.seen!r}, 'w'))\n"
            f"print({said!r})\nprint({errors!r}, file=sys.stderr)\nsys.exit({status})\n"
        )
        program.chmod(0o755)
        patch = mock.patch.dict(os.environ, {"CLAXON_PROGRAM": str(program)})
        patch.start()
        self.addCleanup(patch.stop)

    @property
    def seen(self) -> str:
        return str(self.folder / "seen")

    def test_members(self) -> None:
        self.double(json.dumps(WRONG), 1)
        report = claxon.verify(SONG)
        self.assertEqual((report.verdict, report.is_right), ("wrong", False))
        self.assertEqual(report.name, str(SONG))
        names = ["frames", "samples", "sample_rate", "channels", "bits_per_sample", "md5"]
        for name in [*names, "streaminfo_samples", "computed_md5", "left_out"]:
            self.assertEqual(getattr(report, name), WRONG[name])
        self.assertEqual(report.notes, ("1 byte after the last frame",))
        self.assertEqual(report.reason, None)
        text = "Ill-formed FLAC stream: frame CRC mismatch"
        self.assertEqual(report.places[0], claxon.Place(8234, 12000, 4096, 8192, text))
        self.assertEqual(report.places[1].what, "1 frame is missing")
        self.assertEqual(report.members["later"], [1])
        size = SONG.stat().st_size
        seen = pathlib.Path(self.seen).read_text()
        self.assertEqual(seen, f"['verify', '--json', '-'] {size}\n")
        claxon.verify(str(SONG), md5=False)
        seen = pathlib.Path(self.seen).read_text()
        self.assertEqual(seen, f"['verify', '--json', '--no-md5', '-'] {size}\n")

    def test_few_members(self) -> None:
        reason = "an ID3v2 tag in front of the stream"
        self.double(json.dumps({"name": "-", "verdict": "not supported", "reason": reason}), 3)
        report = claxon.verify(os.fsencode(SONG))
        self.assertEqual((report.verdict, report.reason), ("not supported", reason))
        self.assertEqual((report.name, report.samples, report.md5), (str(SONG), None, None))
        self.assertEqual((report.places, report.left_out, report.notes), ((), 0, ()))

    def test_names(self) -> None:
        """Any name goes, as the program reads its standard input."""
        self.double(json.dumps({"name": "-", "verdict": "ok"}))
        for name in (b"-", b"--help", b"\xff.flac"):
            path = os.path.join(os.fsencode(self.folder), name)
            with open(path, "wb"):
                self.assertEqual(claxon.verify(path).name, os.fsdecode(path))

    def test_no_report(self) -> None:
        for said in ("", "no JSON", "[]", "{}", '{"verdict": "ok", "places": [{}]}', "null"):
            self.double(said, 2, "usage: claxon")
            with self.assertRaises(OSError) as raised:
                claxon.verify(SONG)
            self.assertIn("gives no report: usage: claxon", str(raised.exception))

    def test_files_that_cannot_be_opened(self) -> None:
        self.double(json.dumps(WRONG))
        self.assertRaises(FileNotFoundError, claxon.verify, self.folder / "missing.flac")
        self.assertRaises(IsADirectoryError, claxon.verify, self.folder)

    def test_program_that_is_missing(self) -> None:
        """The error says how to get it."""
        variables = {"PATH": str(self.folder), "CLAXON_PROGRAM": ""}
        beside = mock.patch.object(run, "program_beside", return_value=None)
        with mock.patch.dict(os.environ, variables), beside:
            with self.assertRaises(FileNotFoundError) as raised:
                claxon.verify(SONG)
            for word in ("wheel", "Debian", "archive", "CLAXON_PROGRAM"):
                self.assertIn(word, str(raised.exception))
        with mock.patch.dict(os.environ, {"CLAXON_PROGRAM": "/missing/claxon"}):
            with self.assertRaises(OSError) as failed:
                claxon.verify(SONG)
            self.assertIn("/missing/claxon: ", str(failed.exception))

    def test_program_of_a_wheel(self) -> None:
        """It is the last one that is looked for, also by claxon-archive."""
        self.double("")
        program = str(self.folder / "claxon")
        variables = {"PATH": "/missing", "CLAXON_PROGRAM": ""}
        elsewhere = mock.patch.object(run, "__file__", "/missing/site/claxon/archive/run.py")
        inside = mock.patch.object(run, "installed_program", return_value=program)
        with mock.patch.dict(os.environ, variables), elsewhere, inside:
            self.assertEqual(run.program_beside(), program)
            self.assertEqual(_program.find_program(), program)


def works() -> bool:
    """Whether the program can be run here at once."""
    try:
        program = _program.find_program()
        if program == str(TOP / "claxon") and not BUILT.exists():
            return False  # it is to be proved and built first
        return not subprocess.call(
            [program, "--version"], stdout=subprocess.DEVNULL, stderr=subprocess.DEVNULL
        )
    except OSError:
        return False


@unittest.skipUnless(works(), "the program claxon isn't built")
class Program(FolderCase):
    def test_right(self) -> None:
        report = claxon.verify(SONG)
        self.assertEqual((report.verdict, report.md5, report.is_right), ("ok", "ok", True))
        self.assertEqual((report.frames, report.samples, report.places), (3, 9876, ()))
        with claxon.Flac(SONG) as flac:
            assert flac.info.md5
            self.assertEqual(report.computed_md5, flac.info.md5.hex())
        without = claxon.verify(SONG, md5=False)
        self.assertEqual((without.md5, without.computed_md5), ("not computed", None))

    def test_gap(self) -> None:
        """Frames that are missing have a place, where `read` says it too."""
        stream = made(40, 250)
        path = self.folder / "song.flac"
        path.write_bytes(stream.head + b"".join(stream.frames[:7] + stream.frames[17:]))
        report = claxon.verify(path)
        self.assertEqual(report.verdict, "wrong")
        [place] = report.places
        self.assertEqual((place.start_sample, place.end_sample), (1750, 4250))
        self.assertEqual(place.what, "10 frames are missing")
        with self.assertRaises(claxon.FormatError) as raised:
            claxon.read(path)
        self.assertEqual(raised.exception.position, place.start_byte)

    def test_not_supported(self) -> None:
        """There `Flac` or `read` raise Unsupported, and nowhere else, but for metadata blocks that
        `claxon verify` passes over."""
        tried = set()
        passed_over = "bad_separator.flac", "excess_comment_data.flac", "large_application.flac"
        for path in sorted(DATA.glob("*.flac")):
            report = claxon.verify(path)
            try:
                claxon.read(path)
                kind = None
            except claxon.Error as error:
                kind = type(error)
            tried.add(report.verdict)
            if path.name in passed_over:
                self.assertNotEqual((path.name, report.verdict), (path.name, "ok"))
            elif report.verdict == "not supported":
                self.assertEqual((path.name, kind), (path.name, claxon.Unsupported))
            elif report.verdict == "ok":
                self.assertEqual((path.name, kind), (path.name, None))
            else:
                self.assertNotEqual((path.name, kind), (path.name, claxon.Unsupported))
        self.assertGreaterEqual(tried, {"ok", "wrong", "not supported"})
