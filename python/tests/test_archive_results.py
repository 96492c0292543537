"""The file of results: damaged, of another version, in use, on a full disk, or read-only."""
import io
import os
import resource
import shlex
import shutil
import socket
import sqlite3
import subprocess
from subprocess import DEVNULL, PIPE
from typing import Any, Dict

from tests.archives import GO_ON, MOUNTS, RIGHT, TAG, WRONG, Archive, Ended, Kept

# The tables of version 1, with rows that its program made.
VERSION_1 = """
PRAGMA journal_mode = WAL;
PRAGMA application_id = 1668047224;
PRAGMA user_version = 1;
CREATE TABLE files (
    path BLOB PRIMARY KEY, size INTEGER, changed INTEGER, verified INTEGER NOT NULL,
    verdict TEXT NOT NULL, samples INTEGER, md5 TEXT, byte INTEGER, sample INTEGER, damage TEXT,
    places INTEGER, parts TEXT, version TEXT
) WITHOUT ROWID;
CREATE TABLE runs (
    id INTEGER PRIMARY KEY, began REAL NOT NULL, ended REAL NOT NULL, files INTEGER NOT NULL,
    bytes INTEGER NOT NULL
);
INSERT INTO files VALUES
    (X'gone', 64, 1795908345922820839, 1795908347, 'missing', 32, 'ok', NULL, NULL,
        'there is no such file any more', NULL, NULL, '0.3.0'),
    (X'loop', NULL, NULL, 1795908350, 'not read', NULL, NULL, NULL, NULL,
        'Too many levels of symbolic links', NULL, NULL, NULL),
    (X'ok', 64, 1795908345922227343, 1795908347, 'ok', 32, 'ok', NULL, NULL, NULL, NULL, NULL,
        '0.3.0'),
    (X'tag', 74, 1795908345922639976, 1795908347, 'not supported', NULL, NULL, NULL, NULL,
        'an ID3v2 tag in front of the stream', NULL, NULL, '0.3.0'),
    (X'wrong', 75, 1795908345922455483, 1795908347, 'wrong', 32, 'wrong', 53, 16,
        'Ill-formed FLAC stream: frame CRC mismatch', 1, '706-853', '0.3.0');
INSERT INTO runs VALUES (1, 1795908347.03, 1795908347.96, 5, 277);
"""


class ResultsFile(Archive):
    def check_refused(self, *texts: str) -> None:
        """An error that names the results, which stay as they are."""
        before = self.results.read_bytes()
        for words in ([str(self.files)], ["--report", "text"]):
            ended = self.run_archive(*words)
            self.assertEqual((ended.status, ended.output), (3, b""))
            self.assertTrue(
                ended.errors.startswith(f"claxon-archive: {self.results}: "), ended.errors
            )
            self.assertEqual(ended.errors.count("\n"), 1)
            for text in texts:
                self.assertIn(text, ended.errors)
        self.assertEqual(self.results.read_bytes(), before)

    def test_not_a_database(self) -> None:
        self.write("1.flac", RIGHT)
        self.results.write_bytes(b"a list of files\n" * 100)
        self.check_refused("file is not a database")

    def test_other_database(self) -> None:
        sqlite3.connect(self.results).execute("CREATE TABLE files (path TEXT)").connection.close()
        self.check_refused("not one of claxon-archive")

    def test_versions(self) -> None:
        self.write("1.flac", RIGHT)
        for version in 0, 3:
            self.results.unlink() if self.results.exists() else None
            self.run_files()
            database = sqlite3.connect(self.results)
            database.execute(f"PRAGMA user_version = {version}")
            database.close()
            self.check_refused(f"version {version}", "version 2")

    def test_damaged(self) -> None:
        """Its pages after the first are overwritten."""
        self.write_many(1000)
        self.run_files()
        with open(self.results, "r+b") as file:
            size = file.seek(0, io.SEEK_END)
            file.seek(4096)
            file.write(b"\xa5" * (size - 4096))
        self.check_refused("malformed")

    def test_no_folder_of_it(self) -> None:
        self.results = self.folder / "none" / "archive.sqlite"
        ended = self.run_files()
        self.assertEqual(ended.status, 3)
        self.assertIn("none/archive.sqlite.lock: No such file or directory", ended.errors)
        self.assertEqual(
            self.run_archive("--report", "text").errors,
            f"claxon-archive: {self.results}: no such file\n",
        )

    def test_second_run(self) -> None:
        """It is refused, and names who writes; the first run goes on. A report doesn't wait."""
        self.write_many(1200)
        hold = "while [ ! -e go ]; do sleep 0.1; done"
        self.wrap(f'cd "${{given%/*}}"\nif [ -e first ]; then {hold}; fi\ntouch first\n{GO_ON}')
        process = self.start("--jobs", "1")
        self.wait_for_rows()
        who = f"another run writes to it: process {process.pid} on {socket.gethostname()}"
        link = self.folder / "link.sqlite"
        link.symlink_to(self.results)
        self.assertEqual(
            self.run_files(), Ended(3, b"", f"claxon-archive: {self.results}: {who}\n")
        )
        first, self.results = self.results, link
        self.assertEqual(self.run_files(), Ended(3, b"", f"claxon-archive: {link}: {who}\n"))
        self.results = first
        self.assertEqual(self.run_archive("--report", "json").status, 1)
        self.assertIsNone(process.poll())
        (self.folder / "go").touch()
        process.communicate()
        self.assertEqual(process.returncode, 1)
        self.check_kept()
        self.assertEqual(os.path.exists(f"{self.results}.lock"), False)

    def test_limited_size(self) -> None:
        """A write fails: what was told before is kept, and the next run goes on."""
        self.write_many(4000)
        self.wrap("sleep 0.1\n" + GO_ON)
        limit = 300 << 10

        def limit_size() -> None:
            resource.setrlimit(resource.RLIMIT_FSIZE, (limit, limit))

        ended = self.run_files("--jobs", "1", preexec_fn=limit_size)
        self.check_full(ended)

    def test_full_disk(self) -> None:
        """The results alone are on a small disk."""
        command = [*MOUNTS, "true"]
        if not shutil.which("unshare") or subprocess.call(command, stderr=DEVNULL) != 0:
            self.skipTest("a small disk can't be mounted here")
        self.write_many(4000)
        disk = self.folder / "disk"
        disk.mkdir()
        self.results = disk / "archive.sqlite"
        kept = self.folder / "kept"
        words = " ".join(map(shlex.quote, self.command(str(self.files), "--jobs", "1")))
        script = (
            f"mount -t tmpfs -o size=400k none {disk} || exit 99\n{words}\nstatus=$?\n"
            f"mkdir {kept} && cp {disk}/* {kept} && exit $status"
        )
        ended = subprocess.run(
            [*MOUNTS, "sh", "-c", script],
            env=self.environment(),
            stdin=DEVNULL,
            stdout=PIPE,
            stderr=PIPE,
        )
        if ended.returncode == 99:
            self.skipTest("a small disk can't be mounted here")
        shown = Ended(ended.returncode, ended.stdout, ended.stderr.decode())
        self.assertIn("database or disk is full", shown.errors)
        shown = shown._replace(errors=shown.errors.replace(str(disk), str(kept)))
        self.results = kept / "archive.sqlite"
        self.check_full(shown)

    def check_full(self, ended: Ended) -> None:
        self.assertEqual((ended.status, ended.output), (3, b""))
        self.assertTrue(ended.errors.startswith(f"claxon-archive: {self.results}: "), ended.errors)
        self.assertEqual(ended.errors.count("\n"), 1)
        before = self.kept()
        self.assertGreater(len(before), 0)
        self.assertLess(len(before), 4000)
        self.assertEqual(self.run_files().status, 1)
        after = self.kept()
        self.assertTrue({row["path"] for row in before} < {row["path"] for row in after})
        self.check_kept()


class LastVersion(Kept):
    """Results of version 1."""

    def setUp(self) -> None:
        super().setUp()
        self.make_old()

    def make_old(self) -> None:
        script = VERSION_1
        for name, row in (("ok", RIGHT), ("wrong", WRONG), ("tag", TAG), ("gone", RIGHT)):
            self.write(f"{name}.flac", row)
        (self.files / "gone.flac").unlink()
        os.symlink("loop.flac", self.files / "loop.flac")
        for name in ("ok", "wrong", "tag", "gone", "loop"):
            path = self.files / f"{name}.flac"
            script = script.replace(f"X'{name}'", f"X'{os.fsencode(path).hex()}'")
        for changed, name in (
            (1795908345922227343, "ok"),
            (1795908345922639976, "tag"),
            (1795908345922455483, "wrong"),
        ):
            os.utime(self.files / f"{name}.flac", ns=(0, changed))
        database = sqlite3.connect(self.results)
        database.executescript(script)
        database.close()

    def check_rows(self, rows: Dict[bytes, Dict[str, Any]]) -> None:
        found = {
            os.path.basename(path).decode(): (row["verdict"], row["missing"], row["unread"])
            for path, row in rows.items()
        }
        self.assertEqual(
            found,
            {
                "gone.flac": ("ok", 1795908347, None),
                "loop.flac": ("not read", None, "Too many levels of symbolic links"),
                "ok.flac": ("ok", None, None),
                "tag.flac": ("not supported", None, None),
                "wrong.flac": ("wrong", None, None),
            },
        )

    def test_run(self) -> None:
        """What is right isn't verified again; from then on it is known by its inode too."""
        self.assertEqual(self.run_files().status, 1)
        verified = {os.path.basename(path) for path in self.count_verified()}
        self.assertEqual(verified, {b"wrong.flac", b"tag.flac"})
        self.check_rows(self.by_path())
        row, status = self.row(os.fsencode(self.files / "ok.flac")), os.stat(self.files / "ok.flac")
        self.assertEqual(
            (row["ctime"], row["device"], row["inode"]),
            (status.st_ctime_ns, status.st_dev, status.st_ino),
        )
        self.assertEqual(row["path_text"], str(self.files / "ok.flac"))
        self.assertEqual(row["verified"], 1795908347)
        self.assertEqual(sorted(self.verdicts()), ["not supported", "ok", "ok", "wrong"])
        self.assertEqual(self.query("SELECT count(*) FROM runs WHERE files = 5"), [(1,)])
        self.rot(os.fsencode(self.files / "ok.flac"))
        self.run_files()
        self.assertEqual(self.run_files("--sample", "100%").status, 1)
        self.assertEqual(self.row(os.fsencode(self.files / "ok.flac"))["verdict"], "wrong")

    def test_report(self) -> None:
        """It doesn't change them."""
        before = self.results.read_bytes()
        ended = self.run_archive("--report", "text")
        self.assertEqual(ended.status, 1)
        lines = [line.split("/")[-1] for line in ended.output.decode().splitlines()]
        self.assertEqual(
            [line.split(",")[0] for line in lines],
            [
                "gone.flac: missing",
                "loop.flac: not read",
                "tag.flac: not supported",
                "wrong.flac: wrong",
            ],
        )
        self.assertEqual(self.run_archive("--report", "json").status, 1)
        self.assertEqual(self.results.read_bytes(), before)

    def test_forget(self) -> None:
        self.assertEqual(self.run_archive("--forget-missing").status, 1)
        rows = self.by_path()
        self.assertNotIn(os.fsencode(self.files / "gone.flac"), rows)
        self.assertEqual(len(rows), 4)


class ReadOnly(Kept):
    """Results that can't be written."""

    def setUp(self) -> None:
        super().setUp()
        self.write("1.flac", RIGHT)
        self.write("2.flac", WRONG)
        self.assertEqual(self.run_files().status, 1)

    def check_reports(self, **more: Any) -> None:
        for words in ("--report text", "--report csv", "--report json"):
            ended = self.run_archive(*words.split(), **more)
            self.assertEqual(ended.status, 1, ended.errors)
            self.assertIn(b"2.flac", ended.output)

    def test_of_another_user(self) -> None:
        os.chmod(self.results, 0o444)
        os.chmod(self.folder, 0o555)
        self.addCleanup(os.chmod, self.folder, 0o755)
        more: Dict[str, Any] = {}
        if os.getuid() == 0:
            more["preexec_fn"] = lambda: os.setuid(65534)
            try:
                status = self.run_archive("--version", **more).status
            except PermissionError:
                status = -1
            if status != 0:
                self.skipTest("another user can't read this interpreter or repository")
        self.check_reports(**more)
        self.assertEqual([path.name for path in self.folder.glob("archive.sqlite?*")], [])

    def test_on_a_read_only_disk(self) -> None:
        command = [*MOUNTS, "true"]
        if not shutil.which("unshare") or subprocess.call(command, stderr=subprocess.DEVNULL) != 0:
            self.skipTest("a disk can't be mounted here")
        disk = shlex.quote(str(self.folder))
        words = " ".join(map(shlex.quote, self.command("--report", "text")))
        mount = f"mount --bind {disk} {disk} && mount -o remount,bind,ro {disk}"
        script = f"{mount} || exit 99\n{words}"
        ended = subprocess.run(
            [*MOUNTS, "sh", "-c", script],
            env=self.environment(),
            stdout=subprocess.PIPE,
            stderr=subprocess.PIPE,
        )
        if ended.returncode == 99:
            self.skipTest("a disk can't be mounted here")
        self.assertEqual(ended.returncode, 1, ended.stderr)
        self.assertIn(b"2.flac", ended.stdout)
