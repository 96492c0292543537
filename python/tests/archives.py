"""Folders of small files of each kind of wrong, and runs of `claxon-archive` over them.

What has to be said of each is in tools/streams/damaged.py, worked by hand. The program `claxon`
is the one at the top of the repository, or that of the environment variable CLAXON_PROGRAM.
"""
import contextlib
import itertools
import json
import os
import re
import shlex
import shutil
import signal
import sqlite3
import subprocess
import sys
import time
from subprocess import DEVNULL, PIPE
from typing import Any, Callable, Dict, Iterator, List, NamedTuple, Optional, Set, Tuple, Union
from unittest import mock

from claxon.archive import finding
from claxon.archive.progress import Progress
from claxon.archive.results import Results
from claxon.archive.run import Wanted, run
from streams import damaged
from tests import TOP, FolderCase

PROGRAM = os.environ.get("CLAXON_PROGRAM") or str(TOP / "claxon")
PYTHON = TOP / "python"
ROWS = {row.name: row for row in damaged.rows()}
RIGHT, WRONG = ROWS["right"], ROWS["a flipped bit in the middle"]
TAG = ROWS["an ID3v2 tag"]
OTHER_SUM = ROWS["another MD5 sum"]  # as large as the right one
COLUMNS = "path, size, changed, verdict, samples, md5, byte, sample, damage, places, parts, version"

# For `Archive.wrap`: what logs the files that are handed over, and what verifies them.
LOG = 'cat $given >> "${given%/*}/log"\n'
GO_ON = 'exec "$real" "$@" < $given'

MOUNTS = ["unshare", "--map-root-user", "--mount"]


class Ended(NamedTuple):
    status: int
    output: bytes
    errors: str


def has_modules(python: str, *names: str) -> bool:
    command = [python, "-c", "".join(f"import {name};" for name in names)]
    return subprocess.call(command, stdout=DEVNULL, stderr=DEVNULL) == 0


def python_with(*names: str) -> Optional[str]:
    """An interpreter that has these modules: Debian's packages are for Debian's own."""
    for python in (sys.executable, "/usr/bin/python3"):
        if os.path.exists(python) and has_modules(python, *names):
            return python
    return None


def can_mount() -> bool:
    command = [*MOUNTS, "sh", "-c", "mount -t tmpfs none /mnt"]
    return bool(shutil.which("unshare")) and subprocess.call(command, stderr=DEVNULL) == 0


def damage_of(row: damaged.Row) -> Optional[str]:
    """What is wrong first with the stream, or why it isn't supported."""
    if row.verdict == "ok":
        return None
    if row.reason is not None:
        return str(row.reason)
    if row.places:
        return str(row.places[0][4])
    said = re.search(r"the streaminfo says (\d+)", row.line)
    if said:
        return f"{said[0]} sample" + ("" if said[1] == "1" else "s")
    return "the MD5 sum of the samples isn't that of the streaminfo"


def expected(row: damaged.Row) -> Dict[str, Any]:
    """What the results have to say of the stream."""
    places = row.places if row.verdict == "wrong" else ()
    return {
        "size": len(row.data),
        "verdict": row.verdict,
        "samples": row.counts and row.counts[1],
        "md5": row.counts and row.md5,
        "byte": places[0][0] if places else None,
        "sample": places[0][2] if places else None,
        "damage": damage_of(row),
        "places": len(places) if row.verdict == "wrong" else None,
        "rate": row.stream.rate if row.counts else None,
        "total": row.json("").get("streaminfo_samples"),
    }


class Archive(FolderCase):
    """A folder of files, and runs of the program over it."""

    @classmethod
    def setUpClass(cls) -> None:
        # In the background of a shell it may be ignored, and then by what is started too.
        signal.signal(signal.SIGINT, signal.default_int_handler)

    def setUp(self) -> None:
        super().setUp()
        self.files = self.folder / "files"
        self.files.mkdir()
        self.results = self.folder / "archive.sqlite"
        self.program = PROGRAM
        self.rows: Dict[bytes, damaged.Row] = {}

    def write(self, name: Union[str, bytes], row: damaged.Row) -> bytes:
        path = os.path.join(os.fsencode(self.files), os.fsencode(name))
        os.makedirs(os.path.dirname(path), exist_ok=True)
        with open(path, "wb") as file:
            file.write(row.data)
        self.rows[path] = row
        return path

    def write_many(self, number: int) -> None:
        """Two thirds are right, and the others of each kind in turn."""
        kinds = [row for row in ROWS.values() if len(row.data) < 1000]
        for index in range(number):
            row = kinds[index * 37 % len(kinds)] if index % 3 == 0 else RIGHT
            self.write(f"{index % 17}/{index}.flac", row)

    def environment(self) -> Dict[str, str]:
        return {**os.environ, "PYTHONPATH": str(PYTHON), "CLAXON_PROGRAM": self.program}

    def command(self, *words: str, python: str = sys.executable) -> List[str]:
        return [python, "-m", "claxon.archive", "--results", str(self.results), *words]

    def run_archive(self, *words: str, python: str = sys.executable, **more: Any) -> Ended:
        command = self.command(*words, python=python)
        more = {"env": self.environment(), "stdin": DEVNULL, "timeout": 300, **more}
        ended = subprocess.run(command, stdout=PIPE, stderr=PIPE, **more)
        return Ended(ended.returncode, ended.stdout, ended.stderr.decode())

    def run_files(self, *words: str, **more: Any) -> Ended:
        return self.run_archive(str(self.files), *words, **more)

    def start(self, *words: str, python: str = sys.executable) -> "subprocess.Popen[bytes]":
        command = self.command(str(self.files), *words, python=python)
        process = subprocess.Popen(command, env=self.environment(), stdout=PIPE, stderr=PIPE)
        self.addCleanup(process.communicate)
        self.addCleanup(process.kill)
        return process

    def kept(self, columns: str = COLUMNS) -> List[Dict[str, Any]]:
        """The rows of the results."""
        database = sqlite3.connect(self.results, timeout=60)
        database.row_factory = sqlite3.Row
        try:
            found = database.execute(f"SELECT {columns} FROM files ORDER BY path").fetchall()
        except sqlite3.OperationalError:  # there are no tables yet
            found = []
        database.close()
        return [dict(row) for row in found]

    def by_path(self) -> Dict[bytes, Dict[str, Any]]:
        return {row["path"]: row for row in self.kept("*")}

    def check_kept(self) -> None:
        """The results have just the files that were written, with what has to be said of each."""
        found = self.by_path()
        self.assertEqual(sorted(found), sorted(self.rows))
        for path, row in self.rows.items():
            with self.subTest(row.name):
                wanted = expected(row)
                self.assertEqual({name: found[path][name] for name in wanted}, wanted)
                self.assertEqual(found[path]["changed"], os.stat(path).st_mtime_ns)

    def wrap(self, script: str, name: str = "claxon") -> None:
        """Puts a script of this name in front of `claxon verify`. In it "$@" are the arguments,
        `given` the file with the list of names, and `real` the program."""
        wrapper = self.folder / name
        wrapper.write_text(
            f"#!/bin/sh\nreal={shlex.quote(PROGRAM)}\n"
            'if [ "$1" != verify ]; then exec "$real" "$@"; fi\n'
            f"given={shlex.quote(str(self.folder))}/given.$$\ncat > $given\n"
            f'if [ ! -s $given ]; then exec "$real" "$@" < $given; fi\n{script}\n'
        )
        wrapper.chmod(0o755)
        self.program = str(wrapper)

    def count_verified(self) -> Dict[bytes, int]:
        """How often each file was handed over, if `wrap` was told to log that."""
        log = self.folder / "log"
        names = log.read_bytes().split(b"\0")[:-1] if log.exists() else []
        return {name: names.count(name) for name in set(names)}

    def wait_until(self, condition: Callable[[], Any], seconds: float = 60) -> Any:
        ends = time.monotonic() + seconds
        while time.monotonic() < ends:
            found = condition()
            if found:
                return found
            time.sleep(0.02)
        return self.fail("it took too long")

    def wait_for_rows(self) -> None:
        self.wait_until(lambda: self.results.exists() and self.kept("path"))


class Kept(Archive):
    def setUp(self) -> None:
        super().setUp()
        self.wrap(LOG + GO_ON)

    @contextlib.contextmanager
    def database(self) -> Iterator[sqlite3.Connection]:
        database = sqlite3.connect(self.results)
        with database:
            yield database
        database.close()

    def row(self, path: bytes) -> Dict[str, Any]:
        return self.by_path()[path]

    def query(self, select: str) -> List[Any]:
        with self.database() as database:
            return database.execute(select).fetchall()

    def verdicts(self) -> List[str]:
        """Those of the history, in the order of their times."""
        return [row[0] for row in self.query("SELECT verdict FROM history ORDER BY path, number")]

    def age(self, days: int) -> None:
        """As if all were so many days older."""
        with self.database() as database:
            seconds = days * 86400
            database.execute("UPDATE files SET verified = verified - ?", (seconds,))
            database.execute(
                "UPDATE history SET time = time - ?, before = before - ?",
                (seconds, seconds),
            )

    def rot(self, path: bytes) -> None:
        """Flips a bit as a disk does: size, times and inode stay as they are known."""
        before = os.stat(path)
        with open(path, "r+b") as file:
            file.write(OTHER_SUM.data)
        os.utime(path, ns=(before.st_atime_ns, before.st_mtime_ns))
        with self.database() as database:
            database.execute(
                "UPDATE files SET ctime = ? WHERE path = ?", (os.stat(path).st_ctime_ns, path)
            )


DASK = python_with("distributed")


class OnCluster(Archive):
    """A scheduler of Dask with workers on this machine."""

    def setUp(self) -> None:
        super().setUp()
        self.workers: List["subprocess.Popen[bytes]"] = []

    def serve(self, module: str, *words: str, **more: Any) -> "subprocess.Popen[bytes]":
        log = open(self.folder / f"{module}.log", "ab")
        process = subprocess.Popen(
            [DASK or "", "-m", f"distributed.cli.{module}", *words, "--no-dashboard"],
            cwd=self.folder,
            env={**os.environ, "CLAXON_PROGRAM": self.program},
            stdin=DEVNULL,
            stdout=log,
            stderr=log,
            start_new_session=True,
            **more,
        )
        log.close()

        def end() -> None:
            try:
                os.killpg(process.pid, signal.SIGKILL)
            except ProcessLookupError:
                pass
            process.wait()

        self.addCleanup(end)
        return process

    def start_scheduler(self) -> str:
        """Its address."""
        told = self.folder / "scheduler.json"
        self.scheduler = self.serve(
            "dask_scheduler", "--host", "127.0.0.1", "--port", "0", "--scheduler-file", str(told)
        )
        self.wait_until(lambda: told.exists() and told.read_text())
        return str(json.loads(told.read_text())["address"])

    def add_worker(self, address: str, **more: Any) -> None:
        self.workers.append(self.serve("dask_worker", address, "--nthreads", "1", **more))

    def start_cluster(self) -> str:
        """The address of the scheduler of two workers."""
        address = self.start_scheduler()
        for _ in range(2):
            self.add_worker(address)
        return address

    def run_on(self, address: str, *words: str) -> Ended:
        return self.run_files("--scheduler", address, *words, python=DASK or "")

    def start_on(self, address: str) -> "subprocess.Popen[bytes]":
        return self.start("--scheduler", address, python=DASK or "")

    def interrupt(self) -> Tuple[Set[bytes], str]:
        """Interrupts a run: the files of which it had kept verdicts, and what it says."""
        self.write_many(3000)
        self.wrap(LOG + "sleep 0.5\n" + GO_ON)
        process = self.start_on(self.start_cluster())
        self.wait_for_rows()
        kept = {row["path"] for row in self.kept("path")}
        process.send_signal(signal.SIGINT)
        _, errors = process.communicate(timeout=120)
        self.assertEqual(process.returncode, 130, errors)
        return kept, errors.decode()


class FoundSlowly(Archive):
    """Files are found so slowly that others are verified meanwhile."""

    def find_slowly(self, then: Callable[[], object]) -> Any:
        """Finds some files at once, and the others when the first have verdicts."""
        real = finding._put
        numbers = itertools.count()

        def put(*words: Any) -> None:
            number = next(numbers)
            if number == 40:
                time.sleep(0.6)
            if number == 41:
                self.wait_until(lambda: len(self.kept("path")) >= 41)
                then()
            real(*words)

        return mock.patch.object(finding, "_put", put)

    def run_here(self, scheduler: Optional[str] = None) -> None:
        results = Results(str(self.results), is_new=True)
        wanted = Wanted([os.fsencode(self.files)], 2, scheduler, None, False)
        try:
            with mock.patch.dict(os.environ, {"CLAXON_PROGRAM": self.program}):
                run(wanted, results, Progress())
        finally:
            results.close()

    def check_interrupt(self, scheduler: Optional[str] = None) -> None:
        """What was verified is kept, and the next run goes on."""
        with self.find_slowly(lambda: os.kill(os.getpid(), signal.SIGINT)):
            self.assertRaises(KeyboardInterrupt, self.run_here, scheduler)
        self.assertGreaterEqual(len(self.kept("path")), 41)
        self.assertLess(len(self.kept("path")), 100)
        self.run_files()
        self.check_kept()
