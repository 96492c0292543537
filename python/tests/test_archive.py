"""`claxon-archive` over small files of each kind of wrong."""
import os
import re
import shlex
import shutil
import socket
import sqlite3
import subprocess
import time
import unittest
from subprocess import DEVNULL
from typing import List
from unittest import mock

from claxon.archive import finding
from claxon.archive.progress import Progress
from claxon.archive.results import Results
from claxon.archive.run import Wanted, run
from tests import TOP
from tests.archives import GO_ON, LOG, PROGRAM, RIGHT, ROWS, TAG, WRONG, Archive, expected


class Verdicts(Archive):
    def test_jobs(self) -> None:
        """A thousand files, by one process and by four."""
        self.write_many(1000)
        self.assertEqual(self.run_files("--jobs", "1").status, 1)
        self.check_kept()
        one = self.kept()
        self.results.unlink()
        ended = self.run_files("--jobs", "4")
        self.assertEqual((ended.status, ended.errors), (1, ""))
        self.assertEqual(self.kept(), one)
        self.assertEqual(len({row["damage"] for row in one}) > 20, True)

    def test_each_kind(self) -> None:
        for index, row in enumerate(ROWS.values()):
            self.write(f"{index}.flac", row)
        self.run_files()
        self.check_kept()
        version = subprocess.check_output([PROGRAM, "--version"]).decode().split()[1]
        self.assertEqual({row["version"] for row in self.kept()}, {version})

    def test_names(self) -> None:
        """Any name but the empty one."""
        names: List[bytes] = [
            b"a\nb",
            b"\n",
            b"\xff\xfe",
            b"-",
            b"--json",
            b" ",
            b"a'b\"c\\d",
            b"\xc3\xa9",
        ]
        names += [b"\xff\n", b"x" * 250, b"\xe2\x82" * 125, b"%s\x01\x7f", b"\xed\xb2\x80"]
        for index, name in enumerate(names):
            self.write(name + b".flac", WRONG if index % 2 else RIGHT)
            self.write(name + b".d/1.flac", RIGHT if index % 2 else WRONG)
        self.write(b"upper.FLAC", RIGHT)
        self.assertEqual(self.run_files("--jobs", "3").status, 1)
        self.check_kept()

    def test_folders(self) -> None:
        """Several, one below another one, relative ones, a file, links."""
        self.write("a/1.flac", RIGHT)
        self.write("a b/2.flac", RIGHT)
        self.write("a/b/3.flac", RIGHT)
        os.symlink("a", self.files / "link")
        link = self.files / "a" / "link.flac"
        os.symlink("1.flac", link)
        self.rows[os.fsencode(link)] = RIGHT
        words = ["files/a/b/", "files/a", str(self.files) + "/a b/2.flac", "files/../files/a"]
        self.assertEqual(self.run_archive(*words, cwd=self.folder).status, 0)
        self.check_kept()
        ended = self.run_archive("files/a b", cwd=self.folder)
        self.assertRegex(ended.output.decode(), "\nok +1 +64 B\n")

    def test_parts(self) -> None:
        """Where the damage is, in thousandths of the file."""
        flipped = ROWS["a flipped bit in the middle"]  # bytes 53 to 64 of 75
        cut = ROWS["cut at byte 55"]  # bytes 53 to 55 of 55
        self.write("1.flac", flipped)
        self.write("2.flac", cut)
        self.write("3.flac", ROWS["another MD5 sum"])
        self.run_files()
        parts = [row["parts"] for row in self.kept()]
        self.assertEqual(parts, ["706-853", "963-999 1000-1999", None])


class WhileFinding(Archive):
    """Batches that begin while other files are being found."""

    def write_large(self, number: int) -> None:
        """Right files of a mebibyte: padding in the head, which takes no space on disk."""
        last, content = RIGHT.data[4] & 0x80, (1 << 20).to_bytes(3, "big")
        for index in range(number):
            path = self.write(f"large/{index}.flac", RIGHT)
            with open(path, "wb") as file:
                file.write(RIGHT.data[:4] + bytes([RIGHT.data[4] & 0x7F]) + RIGHT.data[5:42])
                file.write(bytes([last | 1]) + content)
                file.seek(1 << 20, os.SEEK_CUR)
                file.write(RIGHT.data[42:])

    def test_verdicts(self) -> None:
        self.write_large(400)
        large = set(self.rows)
        self.rows.clear()
        self.write_many(500)
        self.wrap(LOG + GO_ON)
        self.assertEqual(self.run_files("--jobs", "2").status, 1)
        self.assertEqual(set(self.count_verified().values()), {1})
        found = self.by_path()
        self.assertEqual({found.pop(path)["verdict"] for path in large}, {"ok"})
        self.assertEqual(sorted(found), sorted(self.rows))
        for path, row in self.rows.items():
            wanted = expected(row)
            self.assertEqual({name: found[path][name] for name in wanted}, wanted)

    def test_stopped(self) -> None:
        """What was verified is kept; the next run goes on."""
        self.write_large(700)
        self.wrap(LOG + GO_ON)
        progress = Progress()
        results = Results(str(self.results), is_new=True)
        wanted = Wanted([os.fsencode(self.files)], 2, None, None, False)
        with mock.patch.dict(os.environ, {"CLAXON_PROGRAM": self.program}), mock.patch.object(
            progress, "found", side_effect=[None, KeyboardInterrupt]
        ), mock.patch.object(finding, "_FILES", 300):
            self.assertRaises(KeyboardInterrupt, run, wanted, results, progress)
        results.close()
        kept = {row["path"] for row in self.kept("path")}
        self.assertEqual(kept, set(self.count_verified()))
        self.assertLess(len(kept), 300)
        self.assertEqual(self.run_files("--jobs", "2").status, 0)
        self.assertEqual(set(self.count_verified()), set(self.rows))
        self.assertEqual(set(self.count_verified().values()), {1})
        self.assertEqual({row["verdict"] for row in self.kept()}, {"ok"})


class Again(Archive):
    """Runs one after another."""

    def setUp(self) -> None:
        super().setUp()
        for index in range(40):
            self.write(f"{index}.flac", RIGHT)
        self.wrap(LOG + GO_ON)
        self.assertEqual(self.run_files().status, 0)
        (self.folder / "log").unlink()

    def test_unchanged(self) -> None:
        before = self.kept("*")
        ended = self.run_files()
        self.assertEqual((ended.status, self.count_verified()), (0, {}))
        self.assertEqual(self.kept("*"), before)
        self.assertRegex(ended.output.decode(), "\nok +40 +2.6 kB\n")

    def test_new_and_changed(self) -> None:
        longer = self.write("3.flac", WRONG)
        touched = self.write("4.flac", RIGHT)
        os.utime(touched, ns=(0, 1))
        new = self.write("new.flac", WRONG)
        self.assertEqual(self.run_files().status, 1)
        self.assertEqual(self.count_verified(), {longer: 1, touched: 1, new: 1})
        self.check_kept()

    def test_unchanged_among_missing(self) -> None:
        """There are more rows between two files than files that were found."""
        for index in range(1, 39):
            os.unlink(self.files / f"{index}.flac")
        self.assertEqual(self.run_files().status, 3)
        self.assertEqual(self.count_verified(), {})

    def test_many(self) -> None:
        """More than are listed together, and folders that hold files and folders."""
        database = sqlite3.connect(self.results)
        paths = []
        for index in range(8000):
            folder = self.files / f"{index % 11}" / f"{index % 7}"
            path = (folder if index % 2 else folder.parent) / f"{index}.flac"
            path.parent.mkdir(parents=True, exist_ok=True)
            path.touch()
            paths.append(os.fsencode(path))
            status = path.stat()
            times = status.st_mtime_ns, status.st_ctime_ns
            identity = (*times, status.st_dev, status.st_ino)
            database.execute(
                "INSERT INTO files (path, path_text, size, changed, ctime, device, inode, verified,"
                " verdict) VALUES (?, ?, 0, ?, ?, ?, ?, ?, 'ok')",
                (paths[-1], str(path), *identity, int(time.time())),
            )
        database.commit()
        database.close()
        self.assertEqual((self.run_files().status, self.count_verified()), (0, {}))
        touched = [paths[0], paths[4321], paths[7999]]
        for name in touched:
            os.utime(name, ns=(0, 1))
        self.assertEqual(self.run_files().status, 1)
        self.assertEqual(self.count_verified(), {name: 1 for name in touched})

    def test_older_than(self) -> None:
        database = sqlite3.connect(self.results)
        with database:
            database.execute(
                "UPDATE files SET verified = verified - 864000 WHERE substr(path, -6) = ?",
                (b"1.flac",),
            )
        database.close()
        self.assertEqual(self.run_files("--older-than", "11").status, 0)
        self.assertEqual(self.count_verified(), {})
        self.assertEqual(self.run_files("--older-than", "9.5").status, 0)
        self.assertEqual(
            self.count_verified(), {path: 1 for path in self.rows if path.endswith(b"1.flac")}
        )
        self.assertEqual(self.run_files("--older-than", "9.5").status, 0)
        self.assertEqual(len(self.count_verified()), 4)

    def test_missing(self) -> None:
        """A file that is gone is missing until it comes back or is forgotten."""
        gone = [os.fsencode(f"{self.files}/{index}.flac") for index in (5, 6)]
        for path in gone:
            os.unlink(path)
        for _ in range(2):
            ended = self.run_files()
            self.assertEqual(ended.status, 3)
            self.assertRegex(ended.output.decode(), "\nmissing +2 ")
        rows = [self.by_path()[path] for path in gone]
        self.assertEqual([(row["verdict"], row["missing"] > 0) for row in rows], [("ok", True)] * 2)
        self.write("5.flac", RIGHT)
        self.assertEqual(self.run_files().status, 3)
        self.assertEqual(self.count_verified(), {gone[0]: 1})
        self.assertEqual(self.run_archive("--forget-missing").status, 0)
        del self.rows[gone[1]]
        self.check_kept()

    def test_pipe_in_place_of_a_file(self) -> None:
        path = self.files / "5.flac"
        path.unlink()
        os.mkfifo(path)
        self.assertEqual(self.run_files().status, 3)
        self.assertIsNotNone(self.by_path()[os.fsencode(path)]["missing"])

    def test_vanishes(self) -> None:
        """After it was found, before `claxon` opens it."""
        path = self.write("new.flac", RIGHT)
        self.wrap(f"rm -f {shlex.quote(os.fsdecode(path))}\n{GO_ON}")
        self.assertEqual(self.run_files().status, 3)
        row = self.by_path()[path]
        self.assertEqual((row["verdict"], row["damage"]), ("not read", "No such file or directory"))
        self.assertEqual(self.run_files().status, 3)
        self.assertIsNotNone(self.by_path()[path]["missing"])

    def test_changes_while_it_is_verified(self) -> None:
        """The next run verifies it again."""
        path = self.write("new.flac", RIGHT)
        self.wrap(f"{LOG}printf a >> {shlex.quote(os.fsdecode(path))}\n{GO_ON}")
        self.assertEqual(self.run_files().status, 0)
        self.wrap(LOG + GO_ON)
        self.run_files()
        self.run_files()
        self.assertEqual(self.count_verified(), {path: 2})


class Unreadable(Archive):
    def test_file_and_folder(self) -> None:
        """A link to itself, and a folder whose path is too long, which root can't read either."""
        self.write("1.flac", RIGHT)
        loop = self.files / "loop.flac"
        os.symlink("loop.flac", loop)
        deep, folder = os.fsencode(self.files), os.open(self.files, os.O_RDONLY)
        while len(deep) < 4200:
            os.mkdir("d" * 250, dir_fd=folder)
            below = os.open("d" * 250, os.O_RDONLY, dir_fd=folder)
            os.close(folder)
            folder = below
            deep += b"/" + b"d" * 250
        os.close(folder)
        for _ in range(2):
            self.assertEqual(self.run_files().status, 3)
            rows = [row for row in self.kept("*") if row["verdict"] != "ok"]
            self.assertEqual(
                [(row["path"][-9:], row["verdict"], row["damage"]) for row in rows],
                [
                    (b"dddddddd/", "not read", "File name too long"),
                    (b"loop.flac", "not read", "Too many levels of symbolic links"),
                ],
            )
        loop.unlink()
        shutil.rmtree(self.files / ("d" * 250))
        self.write("loop.flac", RIGHT)
        self.assertEqual(self.run_files().status, 0)
        self.check_kept()

    @unittest.skipIf(os.getuid() == 0, "root can read all files and folders")
    def test_permissions(self) -> None:
        below = os.path.dirname(self.write("below/1.flac", RIGHT))
        self.assertEqual(self.run_files().status, 0)
        file = self.write("2.flac", RIGHT)
        os.chmod(file, 0)
        os.chmod(below, 0)
        ended = self.run_files()
        os.chmod(below, 0o700)
        self.assertEqual(ended.status, 3)
        found = {path: (row["verdict"], row["damage"]) for path, row in self.by_path().items()}
        denied = ("not read", "Permission denied")
        self.assertEqual(
            found, {file: denied, below + b"/": denied, below + b"/1.flac": ("ok", None)}
        )

    def test_what_is_no_file(self) -> None:
        """Pipes, sockets and folders are passed over."""
        self.write("1.flac", RIGHT)
        os.mkfifo(self.files / "pipe.flac")
        (self.files / "folder.flac").mkdir()
        server = socket.socket(socket.AF_UNIX)
        server.bind(str(self.files / "socket.flac"))
        server.close()
        os.symlink("/dev/zero", self.files / "device.flac")
        os.symlink("folder.flac", self.files / "link.flac")
        for words in ("", "--all"):
            self.assertEqual(self.run_files(*words.split()).status, 0)
            self.check_kept()

    def test_all(self) -> None:
        """By the marker. Its own files aren't opened, and a link that leads nowhere is no file."""
        self.results = self.files / "archive.sqlite"
        self.write("1.flac", RIGHT)
        self.write("other", WRONG)
        self.write("2.flac", ROWS["another marker"])
        (self.files / "text.txt").write_text("fLa")
        os.symlink("none", self.files / "nowhere")
        self.assertEqual(self.run_files("--all").status, 1)
        self.check_kept()
        self.assertEqual(self.run_files().status, 1)
        self.check_kept()


class Arguments(Archive):
    def test_refused(self) -> None:
        commands: List[List[str]] = [
            [],
            ["--report", "text", "--results"],
            [str(self.files), "--jobs", "0"],
            [str(self.files), "--jobs", "x"],
            [str(self.files), "--older-than", "-1"],
            [str(self.files), "--older-than", "nan"],
            [str(self.files), "--report", "xml"],
            [str(self.files), "--jobs", "2", "--scheduler", "tcp://127.0.0.1:1"],
        ]
        for words in commands:
            ended = self.run_archive(*words)
            self.assertEqual((ended.status, ended.output), (2, b""), words)
            self.assertTrue(ended.errors.startswith("usage: claxon-archive "), ended.errors)
        self.assertEqual(self.results.exists(), False)

    def test_statuses(self) -> None:
        self.assertEqual(self.run_files().status, 0)
        self.write("1.flac", RIGHT)
        self.assertEqual(self.run_files().status, 0)
        os.symlink("none", self.files / "2.flac")
        self.assertEqual(self.run_files().status, 3)
        self.write("3.flac", TAG)
        self.assertEqual(self.run_files().status, 1)

    def test_help(self) -> None:
        ended = self.run_archive("--help")
        self.assertEqual((ended.status, ended.errors), (0, ""))
        page = (TOP / "docs" / "man" / "claxon-archive.1").read_text().replace("\\-", "-")
        for option in set(re.findall(r"--[a-z-]+", ended.output.decode())) - {"--help"}:
            self.assertIn(option, page)


class Memory(Archive):
    def peak(self) -> int:
        """The memory of a run, in kilobytes."""
        process = subprocess.Popen(
            self.command(str(self.files)), env=self.environment(), stdout=DEVNULL, stdin=DEVNULL
        )
        _, status, usage = os.wait4(process.pid, 0)
        process.returncode = os.WEXITSTATUS(status)
        self.assertEqual(process.returncode, 0)
        return int(usage.ru_maxrss)

    def test_many_rows(self) -> None:
        """It doesn't grow with the number of rows, found or made."""
        self.write("1.flac", RIGHT)
        one = self.peak()
        database = sqlite3.connect(self.results)
        for index in range(20000):
            path = self.files / f"{index:05}.flac"
            path.touch()
            status = path.stat()
            database.execute(
                "INSERT INTO files (path, path_text, size, changed, verified, verdict)"
                " VALUES (?, ?, 0, ?, ?, 'ok')",
                (os.fsencode(path), str(path), status.st_mtime_ns, int(time.time())),
            )
        database.commit()
        database.close()
        self.assertLess(self.peak(), one + 8000)
        self.assertLess(one, 60000)
