"""`claxon-archive` where files, programs, disks and users do what they shouldn't."""
import io
import json
import os
import shlex
import signal
import subprocess
import tempfile
import threading
import time
import tracemalloc
import unittest
from subprocess import DEVNULL, PIPE
from typing import Any, Set
from unittest import mock

from claxon.archive import batch
from claxon.archive.progress import Progress
from claxon.archive.results import Results
from claxon.archive.run import Wanted, run
from streams import damaged
from tests.archives import GO_ON, LOG, MOUNTS, RIGHT, WRONG, Archive, Ended, FoundSlowly, can_mount


def faulty_file(number: int) -> bytes:
    """A stream of right frames, each with one behind it that has a flipped bit."""
    frames = []
    for index in range(number):
        frame = damaged.frame(index, index % 100)
        frames.append(frame if index % 2 == 0 else damaged.flipped(frame, [len(frame) - 1]))
    return damaged.head(16 * number, bytes(16)) + b"".join(frames)


class Ends(Archive):
    """Processes that end early."""

    def test_kill_9(self) -> None:
        """Verdicts that were told are kept; the next run goes on after them."""
        self.write_many(3000)
        self.wrap(LOG + "sleep 0.2\n" + GO_ON)
        kept: Set[bytes] = set()
        logged = 0
        for _ in range(2):
            process = self.start("--jobs", "1")
            self.wait_until(
                lambda: len(self.kept("path") if self.results.exists() else []) > len(kept)
            )
            process.kill()
            process.wait()
            self.assertTrue(kept <= {row["path"] for row in self.kept("path")})
            kept = {row["path"] for row in self.kept("path")}
            self.assertLess(len(kept), 3000)
            time.sleep(0.5)  # the process of its last batch ends
            logged = (self.folder / "log").stat().st_size
        self.assertEqual(self.run_files().status, 1)
        self.check_kept()
        last = (self.folder / "log").read_bytes()[logged:].split(b"\0")[:-1]
        right = {path for path, row in self.rows.items() if row.verdict == "ok"}
        self.assertEqual(kept & right & set(last), set())
        self.assertEqual(kept | set(last), set(self.rows))
        self.assertLessEqual(max(self.count_verified().values()), 3)
        self.assertEqual(len(last), len(set(last)))

    def test_kill_9_once(self) -> None:
        """Each file is verified once or twice."""
        self.write_many(3000)
        self.wrap(LOG + "sleep 0.1\n" + GO_ON)
        process = self.start("--jobs", "2")
        self.wait_for_rows()
        process.kill()
        process.wait()
        self.assertEqual(self.run_files().status, 1)
        self.check_kept()
        self.assertEqual(set(self.count_verified()), set(self.rows))
        self.assertLessEqual(set(self.count_verified().values()), {1, 2})

    def test_interrupt(self) -> None:
        """The batches at hand are kept."""
        self.write_many(3000)
        self.wrap(LOG + "sleep 0.2\n" + GO_ON)
        process = self.start("--jobs", "2")
        self.wait_for_rows()
        process.send_signal(signal.SIGINT)
        _, errors = process.communicate()
        self.assertEqual(process.returncode, 130)
        self.assertEqual(errors.decode(), "claxon-archive: stopped; the next run goes on\n")
        kept = {row["path"] for row in self.kept("path")}
        self.assertEqual(kept, set(self.count_verified()))
        self.assertEqual(self.run_files().status, 1)
        again = {path for path, number in self.count_verified().items() if number > 1}
        self.assertEqual(again, {path for path in kept if self.rows[path].verdict != "ok"})
        self.check_kept()

    def test_claxon_dies(self) -> None:
        """The file that it was at isn't read; what it told is kept, and the others are verified."""
        self.write_many(100)
        names = sorted(self.rows, key=lambda path: os.path.basename(path))
        die = 'head -z -n 3 $given | "$real" verify --json --files0-from - \nkill -9 $$'
        first = f'if [ -e "${{given%/*}}/died" ]; then {GO_ON}; fi\ntouch "${{given%/*}}/died"\n'
        self.wrap(first + die)
        self.assertEqual(self.run_files("--jobs", "1").status, 1)
        wrong = [row for row in self.kept("*") if row["verdict"] == "not read"]
        self.assertEqual(len(wrong), 1)
        self.assertEqual(
            wrong[0]["damage"], "claxon was ended by signal 9 before it told a verdict"
        )
        self.assertEqual(len(self.kept()), len(names))
        self.assertEqual(self.run_files().status, 1)
        self.check_kept()

    def test_claxon_fails(self) -> None:
        """What it says last on standard error is in the rows."""
        self.write("1.flac", RIGHT)
        self.wrap("echo more >&2\necho 'no memory' >&2\nexit 1")
        self.assertEqual(self.run_files().status, 3)
        (row,) = self.kept("*")
        self.assertEqual(
            row["damage"], "claxon ended with status 1 before it told a verdict: no memory"
        )

    def test_no_claxon(self) -> None:
        self.write("1.flac", RIGHT)
        self.program = str(self.folder / "none")
        self.assertEqual(
            self.run_files(),
            Ended(3, b"", f"claxon-archive: {self.program}: No such file or directory\n"),
        )
        self.program = "/bin/true"
        ended = self.run_files()
        self.assertEqual(
            ended,
            Ended(
                3, b"", "claxon-archive: /bin/true isn't the program `claxon`: it has no version\n"
            ),
        )
        with open(self.folder / "old", "w") as old:
            old.write(
                '#!/bin/sh\nif [ "$1" = --version ]; then echo claxon 0.0.1; else exit 2; fi\n'
            )
        os.chmod(old.name, 0o755)
        self.program = old.name
        ended = self.run_files()
        self.assertEqual((ended.status, ended.output), (3, b""))
        self.assertIn("doesn't do: `verify --json` of a right file ended with", ended.errors)

    def test_garbage(self) -> None:
        path = self.write("1.flac", RIGHT)
        self.wrap("echo ok")
        self.assertEqual(self.run_files().status, 3)
        row = self.by_path()[path]
        self.assertEqual(row["verdict"], "not read")
        self.assertIn("printed what isn't the object of a file: b'ok\\n'", row["damage"])


class Poison(Archive):
    """A file that ends what verifies it."""

    def setUp(self) -> None:
        super().setUp()
        for index in range(100):
            self.write(f"{index % 7}/{index}.flac", WRONG if index % 9 == 0 else RIGHT)
        self.poison = self.write("3/poison.flac", RIGHT)

    def check_poison(self, why: str, calls: int = 30) -> None:
        """That file alone isn't read, with the reason; the next run reads it."""
        row = self.by_path()[self.poison]
        self.assertEqual((row["verdict"], row["unread"]), ("not read", row["damage"]))
        self.assertIn(why, row["damage"])
        others = [row["verdict"] for path, row in self.by_path().items() if path != self.poison]
        self.assertEqual(len(others), 100)
        self.assertEqual(set(others), {"ok", "wrong"})
        log = self.folder / "calls"
        self.assertLess(len(log.read_text()) if log.exists() else 0, calls)

    def check_wrapped(self, script: str, why: str) -> None:
        count = 'printf . >> "${given%/*}/calls"\n'
        self.wrap(f"{count}if grep -q poison $given; then\n{script}\nelse\n{GO_ON}\nfi")
        ended = self.run_files("--jobs", "2")
        self.assertEqual((ended.status, ended.errors), (1, ""))
        self.check_poison(why)
        self.wrap(GO_ON)
        self.assertEqual(self.run_files().status, 1)
        self.check_kept()

    def test_garbage(self) -> None:
        self.check_wrapped("echo '{'", "printed what isn't the object of a file: b'{\\n'")

    def test_other_object(self) -> None:
        self.check_wrapped("echo '{}'", "printed what isn't the object of a file: b'{}\\n'")

    def test_other_values(self) -> None:
        """What SQLite can't keep."""
        why = "printed what isn't the object of a file: "
        for samples in ("99999999999999999999", "[1]"):
            member = f'"samples":{samples}'
            told = '{"verdict":"ok","md5":"ok",%s}' % member
            self.check_wrapped(f"echo '{told}'", f"{why}b'{told}\\n'")
            self.results.unlink()
            (self.folder / "calls").unlink()

    def test_memory(self) -> None:
        """What decodes an object is refused memory."""
        real = batch._right_row

        def row(file: batch.File, *more: Any) -> batch.Row:
            if b"poison" in file[0]:
                raise MemoryError
            return real(file, *more)

        results = Results(str(self.results), is_new=True)
        wanted = Wanted([os.fsencode(self.files)], 2, None, None, False)
        with mock.patch.dict(os.environ, {"CLAXON_PROGRAM": self.program}):
            with mock.patch.object(batch, "_right_row", row):
                run(wanted, results, Progress())
        results.close()
        self.check_poison("memory is refused")

    def test_signal(self) -> None:
        self.wrap(
            "tr '\\0' '\\n' < $given | while read -r name; do\n"
            'case "$name" in *poison*) exit 1 ;; esac\n'
            'printf \'%s\\0\' "$name" | "$real" verify --json --files0-from -\ndone || kill -11 $$'
        )
        self.assertEqual(self.run_files("--jobs", "2").status, 1)
        self.check_poison("claxon was ended by signal 11 before it told a verdict")

    def test_program_is_gone(self) -> None:
        """It is no fault of a file: what was verified stays, and the run ends."""
        self.assertEqual(self.run_files().status, 1)
        before = self.kept("*")
        self.wrap('rm "$0"\nexit 1')
        ended = self.run_files("--older-than", "0")
        self.assertEqual((ended.status, ended.output), (3, b""))
        self.assertEqual(
            ended.errors, f"claxon-archive: {self.program}: No such file or directory\n"
        )
        self.assertEqual(
            [row["verdict"] for row in self.kept("*")], [row["verdict"] for row in before]
        )


class Large(Archive):
    def test_many_places(self) -> None:
        number = 20000
        path = self.files / "1.flac"
        path.write_bytes(faulty_file(number))
        ended = self.run_files("--jobs", "1")
        self.assertEqual((ended.status, ended.errors), (1, ""))
        row = self.by_path()[os.fsencode(path)]
        self.assertEqual((row["verdict"], row["samples"]), ("wrong", 8 * number))
        self.assertEqual(row["places"], number // 2)
        self.assertEqual((row["byte"], row["sample"], row["parts"]), (53, 16, "0-999"))

    def test_memory(self) -> None:
        """It doesn't grow with the number of places."""
        place = '{"start_byte":%d,"end_byte":%d,"start_sample":0,"end_sample":0,"what":"x"}'
        places = ",".join(place % (10 * index, 10 * index + 5) for index in range(100000))
        line = '{"name":"x","verdict":"wrong","samples":0,"md5":"wrong","places":[' + places
        with tempfile.TemporaryFile() as output:
            output.write(f"{line}]}}\n".encode())
            output.seek(0)
            del line, places
            tracemalloc.start()
            (row,) = batch._rows("claxon", "0", [(b"/x", 1000000, 0)], output)
            _, peak = tracemalloc.get_traced_memory()
            tracemalloc.stop()
        self.assertEqual(row[10:12], (100000, "0-999"))
        self.assertLess(peak, 16 << 20)

    def test_long_line(self) -> None:
        """Its places are read in pieces, wherever these end."""
        what = 'a "text" of },{"start_byte": and [ends] \\'
        places = [
            {"start_byte": 10 * index, "end_byte": 10 * index + 5, "what": f"{what}{index}"}
            for index in range(50)
        ]
        told = {"name": "x", "verdict": "wrong", "samples": 1, "md5": "wrong", "places": places}
        told["left_out"] = 7
        line = json.dumps(told, separators=(",", ":")).encode() + b"\n"
        file = (b"/x", 1000, 0)
        rows = []
        for length in [*range(200, 400, 7), 1 << 20]:
            with mock.patch.object(batch, "_LONG", length):
                rows.append(list(batch._rows("claxon", "0", [file], io.BytesIO(line))))
                cut = io.BytesIO(line[:-1])
                self.assertEqual(list(batch._rows("claxon", "0", [file], cut)), [])
        for (row,) in rows:
            self.assertEqual(row[:3] + row[4:], rows[-1][0][:3] + rows[-1][0][4:])
        self.assertEqual(rows[0][0][10:12], (57, rows[-1][0][11]))
        self.assertEqual(rows[0][0][9], what + "0")


class Names(Archive):
    def test_not_text(self) -> None:
        """Names that aren't UTF-8 go in batches too."""
        for index in range(400):
            self.write(b"%d \xff\n.flac" % index, WRONG if index % 5 == 0 else RIGHT)
            self.write(f"{index}.flac", RIGHT)
        temporary = self.folder / "temporary \udcff"
        temporary.mkdir()
        self.wrap('printf . >> "${given%/*}/calls"\n' + GO_ON)
        environment = {**self.environment(), "TMPDIR": str(temporary)}
        ended = self.run_files("--jobs", "2", env=environment)
        self.assertEqual((ended.status, ended.errors), (1, ""))
        self.check_kept()
        self.assertLess(len((self.folder / "calls").read_text()), 8)
        self.assertEqual(list(temporary.iterdir()), [])

    def test_not_text_and_gone(self) -> None:
        path = self.write(b"\xff.flac", RIGHT)
        self.wrap("rm -f " + shlex.quote(str(self.files)) + "/*\n" + GO_ON)
        self.assertEqual(self.run_files().status, 3)
        self.assertEqual(self.by_path()[path]["unread"], "No such file or directory")

    def test_shown(self) -> None:
        """No name writes to a terminal, or turns a line around."""
        name = "a\x1b[2J\u202egnp.\u2066x\u200f.flac"
        self.write(name, WRONG)
        shown = "a\\u{1b}[2J\\u{202e}gnp.\\u{2066}x\\u{200f}.flac"
        self.run_files()
        report = self.run_archive("--report", "text").output.decode()
        self.assertIn(shown, report)
        self.assertNotIn("\u202e", report)
        ended = self.run_archive(f"{self.files}/\x1b\u202e none")
        self.assertIn("/\\u{1b}\\u{202e} none: No such file or directory\n", ended.errors)


@unittest.skipUnless(can_mount(), "nothing can be mounted here")
class Full(Archive):
    def run_with(self, mount: str, *words: str) -> "subprocess.CompletedProcess[bytes]":
        command = " ".join(map(shlex.quote, self.command(str(self.files), *words)))
        return subprocess.run(
            [*MOUNTS, "sh", "-c", f"{mount} || exit 99\n{command}"],
            env={**self.environment(), "TMPDIR": str(self.folder / "small")},
            stdin=DEVNULL,
            stdout=PIPE,
            stderr=PIPE,
        )

    def test_temporary_folder(self) -> None:
        """The error names it, and the next run goes on."""
        small = self.folder / "small"
        small.mkdir()
        self.write_many(300)
        (self.files / "large.flac").write_bytes(faulty_file(20000))
        ended = self.run_with(f"mount -t tmpfs -o size=600k none {small}", "--jobs", "1")
        self.assertEqual((ended.returncode, ended.stdout), (3, b""))
        self.assertEqual(
            ended.stderr.decode(), f"claxon-archive: {small}: No space left on device\n"
        )
        self.assertNotIn("not read", [row["verdict"] for row in self.kept()])
        self.assertEqual(self.run_files().status, 1)
        self.assertEqual(len(self.kept()), 301)

    def test_folder_of_lists(self) -> None:
        """That of SQLite's temporary files."""
        small = self.folder / "small"
        small.mkdir()
        for index in range(300):
            (self.files / ("x" * 200 + f"{index}.flac")).touch()
        mount = f"mount -t tmpfs -o size=8k none {small}"
        self.run_files()
        environment = {"SQLITE_TMPDIR": str(small)}
        with mock.patch.dict(os.environ, environment):
            ended = self.run_with(mount, "--older-than", "0")
        if ended.returncode == 1:
            self.skipTest("SQLite keeps so few rows in memory")
        self.assertEqual(ended.returncode, 3)
        self.assertIn(f"claxon-archive: {small}: ", ended.stderr.decode())


class SlowFinding(FoundSlowly):
    def test_kept(self) -> None:
        self.write_many(100)
        self.wrap(LOG + GO_ON)
        with self.find_slowly(lambda: None):
            self.run_here()
        self.check_kept()
        self.assertEqual(set(self.count_verified().values()), {1})

    def test_interrupt(self) -> None:
        self.write_many(100)
        before = threading.active_count()
        self.check_interrupt()
        self.wait_until(lambda: threading.active_count() == before)


if __name__ == "__main__":
    unittest.main()
