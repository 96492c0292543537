"""Where reports go, what they may replace, and whose results they may be of."""
import os
import re
import resource
import shlex
import shutil
import signal
import sqlite3
import subprocess
import sys
import unittest
from subprocess import DEVNULL, PIPE

from claxon.archive.output import Output, OutputError
from tests import FolderCase
from tests.archive_rows import Made
from tests.archives import MOUNTS, PYTHON, Ended

# A report of each form: its option and its file.
REPORTS = (
    ("--html", "page.html"),
    ("--report", "rows.csv"),
    ("--report", "rows.json"),
    ("--report", "rows.txt"),
)


class Replaced(Made):
    """What a report is written over."""

    def check_left_alone(self, option: str, name: str) -> None:
        with open(os.path.realpath(name), "rb") as file:
            before = file.read()
        ended = self.run_archive(option, name)
        self.assertEqual((ended.status, ended.output), (3, b""))
        self.assertRegex(ended.errors, rf"^claxon-archive: {re.escape(name)}: .* left alone\n$")
        with open(os.path.realpath(name), "rb") as file:
            self.assertEqual(file.read(), before)

    def test_results(self) -> None:
        link, hard = self.folder / "link.html", self.folder / "hard.html"
        link.symlink_to(self.results)
        os.link(self.results, hard)
        for name in (self.results, link, hard):
            self.check_left_alone("--html", str(name))
        self.assertEqual(self.run_archive("--report", "text").status, 0)

    def test_files_of_the_results(self) -> None:
        """Those beside them, which SQLite or a run may make at any time."""
        for end in ("-wal", "-shm", "-journal", ".lock"):
            ended = self.run_archive("--html", f"{self.results}{end}")
            self.assertEqual(ended.status, 3)
            self.assertIn("it belongs to the results; it is left alone\n", ended.errors)
            self.assertFalse(os.path.exists(f"{self.results}{end}"))

    def test_other_files(self) -> None:
        for content in ("fLaC", "<!DOCTYPE html>\n<html>\n", "\n", "path\n", "a: wrong, b\n"):
            for name in ("a.html", "a.csv", "a.json", "a.txt"):
                (self.folder / name).write_text(content)
                option = "--html" if name == "a.html" else "--report"
                self.check_left_alone(option, str(self.folder / name))
        self.put({"path": b"/a/wrong.flac"})
        for option, name, other in (
            ("--html", "page.html", "page.csv"),
            ("--report", "rows.csv", "rows.json"),
            ("--report", "rows.json", "rows.txt"),
            ("--report", "rows.txt", "rows.csv"),
        ):
            shutil.rmtree(self.folder / "other", ignore_errors=True)
            (self.folder / "other").mkdir()
            path = self.folder / "other" / name
            self.assertEqual(self.run_archive(option, str(path)).status, 1)
            path.rename(path.with_name(other))
            self.check_left_alone("--report", str(path.with_name(other)))

    def test_before_anything_is_done(self) -> None:
        """Also where there are no results yet."""
        self.results = self.folder / "new.sqlite"
        text = self.folder / "text.html"
        text.write_text("a")
        for name in (text, self.results):
            ended = self.run_archive(str(self.folder), "--html", str(name))
            self.assertEqual((ended.status, ended.output), (3, b""))
            self.assertFalse(self.results.exists())
            self.assertFalse(os.path.exists(f"{self.results}.lock"))

    def test_reports(self) -> None:
        """An earlier report, or an empty file, is replaced; a link to it stays one."""
        for option, name in REPORTS:
            path, link = self.folder / name, self.folder / f"link-{name}"
            path.touch(mode=0o640)
            os.chmod(path, 0o640)
            link.symlink_to(name)
            for number in range(3):
                self.put(*({"path": b"/a/%d.flac" % index} for index in range(number + 1)))
                before = os.stat(path).st_ino
                ended = self.run_archive(option, str(link))
                self.assertEqual((ended.status, ended.errors), (1, ""))
                self.assertIn(f"{number}.flac", path.read_text())
                self.assertNotEqual(os.stat(path).st_ino, before)
                self.assertEqual(os.stat(path).st_mode & 0o777, 0o640)
                self.assertTrue(link.is_symlink())
            self.results.unlink()

    def test_nothing_wrong(self) -> None:
        """Reports of no file are reports too."""
        for option, name in REPORTS:
            for _ in range(2):
                ended = self.run_archive(option, str(self.folder / name))
                self.assertEqual((ended.status, ended.errors), (0, ""))

    def test_new_mode(self) -> None:
        old = os.umask(0o027)
        self.addCleanup(os.umask, old)
        self.run_archive("--html", str(self.folder / "page.html"))
        self.assertEqual(os.stat(self.folder / "page.html").st_mode & 0o777, 0o640)

    def test_write_fails(self) -> None:
        """The earlier report stays, and nothing else."""
        path = self.folder / "page.html"
        self.assertEqual(self.run_archive("--html", str(path)).status, 0)
        before, names = path.read_text(), sorted(os.listdir(self.folder))
        self.put(*({"path": b"/a/%d.flac" % index} for index in range(300)))

        def limit_size() -> None:
            signal.signal(signal.SIGXFSZ, signal.SIG_IGN)
            resource.setrlimit(resource.RLIMIT_FSIZE, (50000, 50000))

        ended = self.run_archive("--html", str(path), preexec_fn=limit_size)
        self.assertEqual((ended.status, ended.output), (3, b""))
        self.assertIn("File too large", ended.errors)
        self.assertEqual(path.read_text(), before)
        self.assertEqual(sorted(os.listdir(self.folder)), names)

    def test_folders(self) -> None:
        ended = self.run_archive("--html", str(self.folder))
        self.assertEqual((ended.status, ended.output), (3, b""))
        self.assertIn(f"{self.folder}: Is a directory\n", ended.errors)
        ended = self.run_archive("--html", str(self.folder / "none" / "page.html"))
        self.assertEqual((ended.status, ended.output), (3, b""))
        self.assertIn("nothing can be written to its folder\n", ended.errors)

    def test_pipe(self) -> None:
        """What is no regular file is written to."""
        pipe = self.folder / "pipe.html"
        os.mkfifo(pipe)
        command = ["cat", str(pipe)]
        with subprocess.Popen(command, stdout=PIPE) as cat:
            self.assertEqual(self.run_archive("--html", str(pipe)).status, 0)
            self.assertIn(b"All files are right.", cat.communicate()[0])
        self.assertEqual(self.run_archive("--html", "/dev/null").status, 0)


class Standard(Made):
    """Standard output."""

    TABLE = "verdict               files      size\n"

    def test_page(self) -> None:
        ended = self.run_archive("--html", "-")
        self.assertEqual(ended.status, 0)
        self.assertTrue(ended.output.startswith(b"<!DOCTYPE html>\n"))
        self.assertTrue(ended.errors.startswith(self.TABLE))
        self.assertFalse(os.path.exists("-"))

    def test_text(self) -> None:
        self.put({"path": b"/a/wrong.flac"})
        one, other = self.run_archive("--report", "-"), self.run_archive("--report", "text")
        self.assertEqual(one, other)
        self.assertEqual(one.output.count(b"\n"), 1)

    def test_beside_a_file(self) -> None:
        """The table is on standard output where no report is."""
        path = self.folder / "rows.csv"
        ended = self.run_archive("--report", str(path))
        self.assertTrue(ended.output.decode().startswith(self.TABLE))
        ended = self.run_archive("--report", str(path), "--html", "-")
        self.assertTrue(ended.output.startswith(b"<!DOCTYPE html>\n"))

    def test_refused(self) -> None:
        for words in (
            ["--report", "csv", "--html", "-"],
            ["--report", "a.json", "--html", "a.json"],
            ["--report", "rows.xml"],
            ["--report", "rows"],
        ):
            ended = self.run_archive(*words)
            self.assertEqual((ended.status, ended.output), (2, b""), words)

    def test_head(self) -> None:
        self.put(*({"path": b"/a/%d.flac" % index} for index in range(5000)))
        for form in ("text", "csv", "json"):
            self.check_head(f"--report {form}")
        self.check_head("--html -")

    def check_head(self, words: str) -> None:
        command = [sys.executable, "-m", "claxon.archive", "--results", str(self.results)]
        status = self.folder / "status"
        script = f"{{ {shlex.join(command)} {words}; echo $? > {status}; }} | head -n 1"
        environment = {**os.environ, "PYTHONPATH": str(PYTHON)}
        ended = subprocess.run(
            ["sh", "-c", script], env=environment, stdin=DEVNULL, stdout=PIPE, stderr=PIPE
        )
        self.assertEqual(ended.stdout.count(b"\n"), 1)
        self.assertEqual((status.read_text(), ended.stderr), ("0\n", b""))

    def test_full(self) -> None:
        with open("/dev/full", "wb") as full:
            for words in (["--report", "json"], ["--html", "-"]):
                ended = self.run_archive(*words, stdout=full)
                self.assertEqual(
                    (ended.status, ended.errors), (3, "claxon-archive: No space left on device\n")
                )

    def test_closed(self) -> None:
        ended = self.run_archive("--report", "text", preexec_fn=lambda: os.close(1))
        self.assertEqual(ended.status, 3)
        self.assertEqual(ended.errors, "claxon-archive: standard output is closed\n")
        ended = self.run_archive("--report", "text", preexec_fn=lambda: os.close(2))
        self.assertEqual((ended.status, ended.output, ended.errors), (0, b"", ""))


class ReadOnly(Made):
    """Results that can't be written to."""

    def setUp(self) -> None:
        super().setUp()
        self.put({"path": b"/a/wrong.flac"})
        self.disk = self.folder / "disk"
        self.disk.mkdir()
        shutil.copy(self.results, self.disk)

    def on_disk(self, script: str) -> Ended:
        """Runs the script where `disk` is read-only, with the command in "$@"."""
        mount = [*MOUNTS, "sh", "-c"]
        bind = f"mount --bind {self.disk} {self.disk} && mount -o remount,ro,bind {self.disk}"
        if not shutil.which("unshare") or subprocess.call([*mount, bind], stderr=DEVNULL) != 0:
            self.skipTest("a disk can't be mounted here")
        results = str(self.disk / self.results.name)
        command = [sys.executable, "-m", "claxon.archive", "--results", results]
        ended = subprocess.run(
            [*mount, f"{bind}\n{script}", "sh", *command],
            env={**os.environ, "PYTHONPATH": str(PYTHON)},
            stdin=DEVNULL,
            stdout=PIPE,
            stderr=PIPE,
        )
        return Ended(ended.returncode, ended.stdout, ended.stderr.decode())

    def test_disk(self) -> None:
        ended = self.on_disk('"$@" --report text')
        self.assertEqual(ended, self.run_archive("--report", "text"))
        self.assertEqual(ended.status, 1)
        ended = self.on_disk('"$@" --html - > /dev/null')
        self.assertEqual(ended.status, 1)

    def test_run_that_was_killed(self) -> None:
        """Rows that SQLite has in its log are read, or the report is refused."""
        database = sqlite3.connect(self.results)
        database.execute("UPDATE files SET verdict = 'missing' WHERE verdict = 'wrong'")
        database.commit()
        for end in ("-wal", "-shm"):
            shutil.copy(f"{self.results}{end}", self.disk)
        database.close()
        self.assertIn(b": missing, ", self.on_disk('"$@" --report text').output)
        (self.disk / f"{self.results.name}-shm").unlink()
        ended = self.on_disk('"$@" --report text')
        self.assertEqual((ended.status, ended.output), (3, b""))
        self.assertIn("archive.sqlite-wal to another folder\n", ended.errors)

    @unittest.skipIf(os.getuid() != 0, "only root can become another user")
    def test_other_user(self) -> None:
        os.chmod(self.folder, 0o755)
        os.chmod(self.results, 0o644)
        python = "/usr/bin/python3"

        def become_nobody() -> None:
            os.setgroups([])
            os.setgid(65534)
            os.setuid(65534)

        command = [python, "-c", "import claxon.archive"]
        environment = {**os.environ, "PYTHONPATH": str(PYTHON), "PYTHONDONTWRITEBYTECODE": "1"}
        if not os.path.exists(python) or subprocess.call(
            command, env=environment, preexec_fn=become_nobody, stderr=DEVNULL, cwd="/"
        ):
            self.skipTest("another user can't run the program here")
        command = [python, "-m", "claxon.archive", "--results", str(self.results)]
        ended = subprocess.run(
            [*command, "--report", "text"],
            env=environment,
            preexec_fn=become_nobody,
            stdout=PIPE,
            stderr=PIPE,
            cwd="/",
        )
        self.assertEqual((ended.returncode, ended.stdout.decode()), (1, self.text()))
        os.chmod(self.results, 0o600)
        ended = subprocess.run(
            [*command, "--report", "text"],
            env=environment,
            preexec_fn=become_nobody,
            stdout=PIPE,
            stderr=PIPE,
            cwd="/",
        )
        self.assertEqual(
            (ended.returncode, ended.stderr.decode()),
            (3, f"claxon-archive: {self.results}: Permission denied\n"),
        )

    def test_nothing_is_written(self) -> None:
        before = self.results.read_bytes()
        self.run_archive("--report", "csv")
        self.assertEqual(self.results.read_bytes(), before)
        empty = self.folder / "empty.sqlite"
        empty.touch()
        self.results = empty
        self.assertEqual(self.run_archive("--report", "csv").status, 3)
        self.assertEqual(empty.stat().st_size, 0)


class Refused(FolderCase):
    def test_check(self) -> None:
        """By itself, without a run."""
        results = str(self.folder / "archive.sqlite")
        for name in ("-", str(self.folder / "new.html"), "/dev/null"):
            Output(name, "html", results).check()
        with self.assertRaises(OutputError):
            Output(results, "html", results).check()
