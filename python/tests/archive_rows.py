"""Results of `claxon-archive` that are made of rows."""
import contextlib
import io
import os
import subprocess
import sys
from subprocess import DEVNULL, PIPE
from typing import Any, Dict

from claxon.archive.command import main
from claxon.archive.results import COLUMNS, DueFile, Results
from tests import FolderCase
from tests.archives import PYTHON, Ended

# A row that is wrong, but for its path.
WRONG: Dict[str, Any] = {
    "size": 1000,
    "changed": 1_700_000_000_000_000_000,
    "verified": 1_750_000_000,
    "verdict": "wrong",
    "samples": 88200,
    "md5": "wrong",
    "byte": 500,
    "sample": 44100,
    "damage": "Ill-formed FLAC stream: frame CRC mismatch",
    "places": 1,
    "parts": "500-510",
    "version": "0.0.0",
}

# What a name may hold to deceive who reads it.
DECEIVING = "\x00\x01\x1b\x7f\x80\x9b\u061c\u200e\u200f\u2028\u2029\u202a\u202e\u2066\u2069"


class Made(FolderCase):
    """Results that are made of rows, without any file."""

    def setUp(self) -> None:
        super().setUp()
        self.results = self.folder / "archive.sqlite"
        self.put()

    def put(self, *rows: Dict[str, Any]) -> None:
        """Adds a right file, and rows of these values beside those of `WRONG`."""
        right: Dict[str, Any] = {"path": b"/a/right.flac", "verdict": "ok", "md5": "ok"}
        right.update(size=64, changed=1, verified=1, samples=1, version="0.0.0")
        made = [right, *({**WRONG, **row} for row in rows)]
        results = Results(str(self.results), is_new=True)
        results.start_listing([])
        results.start_run()
        known = [tuple(row.get(name) for name in COLUMNS[:16]) for row in made]
        found = {row["path"]: DueFile(row["path"], 0, None, None, None) for row in made}
        results.put(known, found)  # type: ignore
        results.close()

    def run_archive(self, *words: str, **more: Any) -> Ended:
        """In this process, which takes less time, unless another one needs something more."""
        words = ("--results", str(self.results), *words)
        if not more:
            return self.run_here(*words)
        command = [sys.executable, "-m", "claxon.archive", *words]
        environment = {**os.environ, "PYTHONPATH": str(PYTHON)}
        more = {"env": environment, "stdin": DEVNULL, "stdout": PIPE, "timeout": 300, **more}
        ended = subprocess.run(command, stderr=PIPE, **more)
        return Ended(ended.returncode, ended.stdout or b"", ended.stderr.decode())

    def run_here(self, *words: str) -> Ended:
        written, errors = io.BytesIO(), io.StringIO()
        output = io.TextIOWrapper(written)
        with contextlib.redirect_stdout(output), contextlib.redirect_stderr(errors):
            try:
                status = main(list(words))
            except SystemExit as ended:
                status = int(str(ended.code))
        output.flush()
        return Ended(status, written.getvalue(), errors.getvalue())

    def text(self) -> str:
        return self.run_archive("--report", "text").output.decode()
