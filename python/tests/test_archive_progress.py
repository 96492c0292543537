"""How far a run is, at a terminal and elsewhere."""
import contextlib
import io
import os
import pty
import re
import subprocess
import sys
import unittest
from subprocess import PIPE
from unittest import mock

from claxon.archive.progress import Progress, not_right_text
from claxon.archive.results import Due
from tests.archives import GO_ON, PYTHON, RIGHT, Archive, python_with


class Shown(Archive):
    """What a terminal shows."""

    def at_terminal(self, python: str, path: str) -> str:
        self.write_many(1200)
        self.wrap("sleep 0.3\n" + GO_ON)
        terminal, program_end = pty.openpty()
        environment = {**self.environment(), "PYTHONPATH": path, "TERM": "xterm", "COLUMNS": "120"}
        process = subprocess.Popen(
            self.command(str(self.files), "--jobs", "1", python=python),
            env=environment,
            stdout=PIPE,
            stderr=program_end,
        )
        os.close(program_end)
        shown = b""
        try:
            while True:
                shown += os.read(terminal, 65536)
        except OSError:  # the other end is closed
            pass
        os.close(terminal)
        process.communicate()
        self.assertEqual(process.returncode, 1)
        return shown.decode()

    def counted(self) -> str:
        verdicts = [row.verdict for row in self.rows.values()]
        counts = (verdicts.count(verdict) for verdict in ("wrong", "not supported"))
        return "{} wrong, {} not supported".format(*counts)

    def test_line(self) -> None:
        """Without tqdm."""
        hidden = self.folder / "hidden"
        hidden.mkdir()
        (hidden / "tqdm.py").write_text("raise ImportError\n")
        shown = self.at_terminal(sys.executable, f"{hidden}:{PYTHON}")
        self.assertRegex(shown, r"^\r[1-9][\d,]* files found\x1b\[K")
        self.assertRegex(
            shown,
            r"\r500 of 1,200 files, 0:\d\d:\d\d left, \d+ wrong, \d+ not supported,"
            r" [\d.]+ kB of [\d.]+ kB, [\d.]+ k?B/s\x1b",
        )
        last = re.findall(r"\r1,200 of 1,200 files, 0:00:00 left, (.*), .* kB of .*\x1b", shown)
        self.assertEqual(last, [self.counted()])
        self.assertTrue(shown.endswith("\r\x1b[K"), shown[-20:])

    def test_bar(self) -> None:
        python = python_with("tqdm")
        if python is None:
            self.skipTest("no interpreter here has tqdm (Debian's python3-tqdm)")
        shown = self.at_terminal(python, str(PYTHON))
        self.assertIn("finding: ", shown)
        self.assertIn("500 of 1,200 files", shown)
        self.assertRegex(shown, rf"100%.*B/s, 1,200 of 1,200 files, {self.counted()}")

    def test_no_terminal(self) -> None:
        self.write("1.flac", RIGHT)
        self.assertEqual(self.run_files().errors, "")


class Counted(unittest.TestCase):
    def test_text(self) -> None:
        self.assertEqual(not_right_text({"ok": 5}), "0 wrong")
        self.assertEqual(not_right_text({"wrong": 1234, "ok": 1}), "1,234 wrong")
        counts = {"not read": 2, "not supported": 1}
        self.assertEqual(not_right_text(counts), "0 wrong, 1 not supported, 2 not read")

    def test_line(self) -> None:
        """At a terminal it fits; elsewhere nothing is left out."""
        for columns, is_terminal in ((0, True), (40, True), (80, False)):
            errors = io.StringIO()
            with contextlib.redirect_stderr(errors), mock.patch.object(
                errors, "isatty", return_value=is_terminal
            ), mock.patch.object(errors, "fileno", return_value=2), mock.patch(
                "os.get_terminal_size", return_value=os.terminal_size((columns, 24))
            ), mock.patch("time.monotonic", side_effect=[0, 0, 0, 100, 100]):
                progress = Progress()
                progress.start(Due(4, 1000))
                progress.add(2, 500, {"wrong": 1, "not read": 1})
            text = "2 of 4 files, 0:01:40 left, 1 wrong, 1 not read, 500 B of 1.0 kB, 5 B/s"
            line = f"\r{text[: columns - 1] if columns else text}\x1b[K"
            self.assertEqual(errors.getvalue(), line if is_terminal else f"{text}\n")
