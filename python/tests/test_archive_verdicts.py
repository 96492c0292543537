"""What `claxon-archive` keeps of files: verdicts, their history, what isn't read or is missing."""
import os
import pathlib
import re
import shutil
import subprocess
import time
import unittest
from subprocess import DEVNULL
from typing import Dict, Tuple

from claxon.archive.results import DueFile, Results
from tests import TOP
from tests.archives import LOG, OTHER_SUM, RIGHT, ROWS, TAG, WRONG, Archive, Kept, python_with

FUSE = python_with("fusepy")

# The first reads of a file with this in its path give 50 bytes; the next one fails.
FAILING_READ = r"""
#define _GNU_SOURCE
#include <dlfcn.h>
#include <errno.h>
#include <stdio.h>
#include <stdlib.h>
#include <string.h>
#include <unistd.h>

ssize_t read(int file, void *bytes, size_t size) {
    ssize_t (*next)(int, void *, size_t);
    *(void **)&next = dlsym(RTLD_NEXT, "read");
    char link[64], path[5000];
    snprintf(link, sizeof link, "/proc/self/fd/%d", file);
    ssize_t length = readlink(link, path, sizeof path - 1);
    const char *failing = getenv("FAILING_READ");
    if (failing != NULL && length > 0) {
        path[length] = 0;
        off_t at = lseek(file, 0, SEEK_CUR);
        if (strstr(path, failing) != NULL && at >= 0) {
            if (at >= 50) {
                errno = EIO;
                return -1;
            }
            if (size > (size_t)(50 - at))
                size = (size_t)(50 - at);
        }
    }
    return next(file, bytes, size);
}
"""


class FailedReads(Kept):
    def setUp(self) -> None:
        super().setUp()
        self.first = self.write("1.flac", RIGHT)
        self.second = self.write("2.flac", RIGHT)

    def check_failed_read(self, make_fail: Dict[str, str]) -> None:
        """A read that fails inside a frame takes no verdict away, and the next run tries again."""
        environment = {**self.environment(), **make_fail}
        for words in ("", "--older-than 0"):
            ended = self.run_files(*words.split(), env=environment)
            self.assertEqual(ended.status, 3, ended.errors)
            self.assertRegex(ended.output.decode(), "\nwrong +0 ")
            self.assertRegex(ended.output.decode(), "\nnot read +1 ")
            self.assertEqual(self.run_files().status, 0)
        self.assertEqual(self.count_verified(), {self.first: 2, self.second: 4})
        self.assertEqual(self.verdicts(), ["ok", "ok"])
        self.assertEqual(self.run_files("--older-than", "0", env=environment).status, 3)
        row = self.row(self.second)
        self.assertEqual((row["verdict"], row["unread"]), ("ok", "Input/output error"))
        report = self.run_archive("--report", "text").output.decode()
        self.assertTrue(report.startswith(f"{self.files}/2.flac: not read, Input/output error ("))
        self.assertEqual(report.count("\n"), 1)

    def test_read_fails(self) -> None:
        source, library = self.folder / "read.c", self.folder / "read.so"
        source.write_text(FAILING_READ)
        if not shutil.which("cc"):
            self.skipTest("there is no cc")
        subprocess.check_call(["cc", "-shared", "-fPIC", "-o", str(library), str(source), "-ldl"])
        self.check_failed_read({"LD_PRELOAD": str(library), "FAILING_READ": "/2.flac"})

    def test_told_as_a_place(self) -> None:
        """As a program tells it that calls such a file wrong."""
        place = (
            '{\\"start_byte\\":%d,\\"end_byte\\":64,\\"start_sample\\":0,\\"end_sample\\":32,'
            '\\"what\\":\\"%s\\"}'
        )
        places = (
            place % (42, "Ill-formed FLAC stream: frame CRC mismatch")
            + ","
            + place % (53, "Input/output error")
        )
        self.wrap(
            f"{LOG}IFS=\ntr '\\0' '\\n' < $given | while read -r name; do\n"
            'if [ "$FAIL" ] && [ "${name##*/}" = 2.flac ]; then\n'
            'echo "{\\"name\\":\\"2\\",\\"verdict\\":\\"wrong\\",\\"frames\\":0,\\"samples\\":0,'
            f'\\"md5\\":\\"wrong\\",\\"places\\":[{places}],\\"notes\\":[]}}"\n'
            'else printf \'%s\\0\' "$name" | "$real" verify --json --files0-from -\nfi\ndone'
        )
        self.check_failed_read({"FAIL": "yes"})

    def test_never_read(self) -> None:
        loop = os.fsencode(self.files / "loop.flac")
        os.symlink("loop.flac", loop)
        for _ in range(2):
            self.assertEqual(self.run_files().status, 3)
            row = self.row(loop)
            why = "Too many levels of symbolic links"
            self.assertEqual((row["verdict"], row["unread"], row["damage"]), ("not read", why, why))
        self.assertEqual(self.verdicts(), ["ok", "ok"])

    def test_wrong_and_not_read(self) -> None:
        """It stays wrong."""
        path = self.write("3.flac", WRONG)
        self.assertEqual(self.run_files().status, 1)
        path_away = path + b".away"
        os.rename(path, path_away)
        os.symlink(b"3.flac", path)
        self.assertEqual(self.run_files().status, 1)
        row = self.row(path)
        self.assertEqual(row["verdict"], "wrong")
        self.assertEqual(row["unread"], "Too many levels of symbolic links")
        os.rename(path_away, path)
        self.assertEqual(self.run_files().status, 1)
        self.assertIsNone(self.row(path)["unread"])


@unittest.skipIf(FUSE is None, "no interpreter here has fusepy (Debian's python3-fusepy)")
class FailedDisk(Kept):
    """Files on a disk whose reads fail, by FUSE."""

    def setUp(self) -> None:
        super().setUp()
        self.disk, self.failing = self.folder / "disk", self.folder / "failing"
        self.disk.mkdir()
        for name in ("1.flac", "2.flac"):
            (self.disk / name).write_bytes(RIGHT.data)
        script = str(pathlib.Path(__file__).parent / "failing_disk.py")
        command = [FUSE or "", script, str(self.disk), str(self.files), str(self.failing)]
        process = subprocess.Popen(command, stdout=DEVNULL, stderr=DEVNULL)
        self.addCleanup(process.wait)
        self.addCleanup(process.kill)
        self.wait_until(lambda: os.path.ismount(self.files) or process.poll() is not None)
        if process.poll() is not None:
            self.skipTest("FUSE can't mount anything here")
        # Who isn't root mounts by fusermount, which is a package of its own.
        unmount = ["umount"] if os.getuid() == 0 else ["fusermount", "-u"]
        self.addCleanup(subprocess.call, [*unmount, str(self.files)])

    def test_read_fails(self) -> None:
        """It takes no verdict away, and the next run reads again."""
        self.assertEqual(self.run_files().status, 0)
        self.failing.write_text("2.flac")
        ended = self.run_files("--older-than", "0")
        self.assertEqual(ended.status, 3, ended.errors)
        self.assertRegex(ended.output.decode(), "\nwrong +0 ")
        row = self.row(os.fsencode(self.files / "2.flac"))
        self.assertEqual((row["verdict"], row["unread"]), ("ok", "Input/output error"))
        self.failing.unlink()
        self.assertEqual(self.run_files().status, 0)
        self.assertEqual(sorted(self.count_verified().values()), [2, 3])
        self.assertEqual(self.verdicts(), ["ok", "ok"])

    def test_first_read_fails(self) -> None:
        """Nothing is known of the file until it is read."""
        (self.disk / "3.flac").write_bytes(WRONG.data)
        self.failing.write_text("3.flac")
        self.assertEqual(self.run_files().status, 3)
        path = os.fsencode(self.files / "3.flac")
        self.assertEqual(self.row(path)["verdict"], "not read")
        self.failing.unlink()
        self.assertEqual(self.run_files().status, 1)
        self.assertEqual(self.row(path)["verdict"], "wrong")
        self.assertEqual(self.verdicts(), ["ok", "ok", "wrong"])


class Identity(Kept):
    def setUp(self) -> None:
        super().setUp()
        self.paths = [self.write(f"{index:02}.flac", RIGHT) for index in range(10)]
        self.assertEqual(self.run_files().status, 0)
        (self.folder / "log").unlink()

    def test_restored_with_the_old_time(self) -> None:
        path = self.paths[3]
        before = os.stat(path)
        for data, status, verdict in (
            (OTHER_SUM.data, 1, "wrong"),
            (RIGHT.data, 0, "ok"),
        ):
            with open(path, "r+b") as file:
                file.write(data)
            os.utime(path, ns=(before.st_atime_ns, before.st_mtime_ns))
            self.assertEqual(self.run_files().status, status)
            self.assertEqual(self.row(path)["verdict"], verdict)
        self.assertEqual(self.count_verified(), {path: 2})
        self.assertEqual(self.run_files().status, 0)
        self.assertEqual(self.count_verified(), {path: 2})

    def test_other_inode(self) -> None:
        """A copy that is put in its place, if its size and times are known to be the same."""
        path = self.paths[3]
        shutil.copy2(path, path + b".new")
        os.rename(path + b".new", path)
        with self.database() as database:
            database.execute(
                "UPDATE files SET ctime = ? WHERE path = ?", (os.stat(path).st_ctime_ns, path)
            )
        self.assertEqual(self.run_files().status, 0)
        self.assertEqual(self.count_verified(), {path: 1})

    def test_what_is_not_right(self) -> None:
        """It is verified at each run."""
        wrong, tag = self.write("wrong.flac", WRONG), self.write("tag.flac", TAG)
        for _ in range(3):
            self.assertEqual(self.run_files().status, 1)
        self.assertEqual(self.count_verified(), {wrong: 3, tag: 3})

    def test_two_paths_of_one_file(self) -> None:
        link = os.path.join(os.fsencode(self.files), b"link.flac")
        os.link(self.paths[0], link)
        self.run_files()
        select = "SELECT path_text FROM files GROUP BY device, inode HAVING count(*) = 2"
        self.assertEqual(len(self.query(select)), 1)
        row, status = self.row(link), os.stat(link)
        self.assertEqual((row["device"], row["inode"]), (status.st_dev, status.st_ino))
        self.assertEqual(row["ctime"], status.st_ctime_ns)

    def test_large_numbers(self) -> None:
        """Times after the year 2262, and before 1677, have more than 63 bits."""
        for path, seconds in zip(self.paths, (10_000_000_000, -10_000_000_000)):
            with self.subTest(seconds):
                os.utime(path, (1 << 33, seconds))
                if abs(os.stat(path).st_mtime_ns) < 1 << 63:
                    self.skipTest("the file system doesn't have such times")
                for _ in range(2):
                    self.assertEqual(self.run_files().status, 0)
                self.assertEqual(self.count_verified()[path], 1)

    def test_sample(self) -> None:
        """All files once in so many runs, those first that were verified longest ago."""
        self.age(10)
        with self.database() as database:
            for index, path in enumerate(self.paths):
                database.execute(
                    "UPDATE files SET verified = verified - ? WHERE path = ?", (index % 5, path)
                )
        rotten = self.paths[2]
        self.rot(rotten)
        self.assertEqual(self.run_files().status, 0)
        self.assertEqual(self.count_verified(), {})
        self.assertEqual(self.run_files("--sample", "40%").status, 0)
        four = {path: 1 for path in self.paths if self.paths.index(path) % 5 > 2}
        self.assertEqual(self.count_verified(), four)
        self.assertEqual(self.run_files("--sample", "40").status, 1)
        self.assertEqual(self.count_verified()[rotten], 1)
        self.assertEqual(self.run_files("--sample", "40%").status, 1)
        self.assertEqual(set(self.count_verified()), set(self.paths))

    def test_sample_of_new_files(self) -> None:
        """What is verified in the run isn't verified twice."""
        self.results.unlink()
        self.assertEqual(self.run_files("--sample", "100%").status, 0)
        self.assertEqual(set(self.count_verified().values()), {1})
        self.assertEqual(self.run_files("--sample", "0.1%").status, 0)
        self.assertEqual(sum(self.count_verified().values()), 11)


class History(Kept):
    def test_verdicts(self) -> None:
        """A row where the verdict or the file changes, and none where neither does."""
        path = self.write("1.flac", RIGHT)
        for row in (RIGHT, WRONG, WRONG, RIGHT, OTHER_SUM):
            self.write("1.flac", row)
            os.utime(path, ns=(0, len(row.data)))
            self.run_files()
            self.run_files()
            self.age(1)
        self.assertEqual(self.verdicts(), ["ok", "wrong", "ok", "wrong"])
        rows = self.query("SELECT number, size, changed, time, before, md5 FROM history")
        self.assertEqual([row[0] for row in rows], [1, 2, 3, 4])
        self.assertEqual([row[1] for row in rows], [64, 75, 64, 64])
        self.assertEqual([row[2] for row in rows], [64, 75, 64, 64])
        self.assertEqual(rows[0][4], None)
        self.assertEqual([row[5] for row in rows], ["ok", "wrong", "ok", "wrong"])
        times = [found[4] - before[3] for before, found in zip(rows, rows[1:])]
        for seconds, days in zip(times, (0, 1, 0)):
            self.assertAlmostEqual(seconds, 86400 * days, delta=300)

    def test_rot(self) -> None:
        """Right in May, wrong now, of the same size and time: by a query, and in the report."""
        rotten = self.write("1.flac", RIGHT)
        replaced = self.write("2.flac", RIGHT)
        self.run_files()
        self.age(100)
        self.rot(rotten)
        self.write("2.flac", WRONG)
        os.utime(replaced, ns=(0, 1))
        self.assertEqual(self.run_files("--older-than", "90").status, 1)
        page = (TOP / "docs" / "man" / "claxon-archive.1").read_text()
        shown = re.findall(r'sqlite3 archive.sqlite "(.*?)"', page.replace("\\-", "-"), re.DOTALL)
        (select,) = [select for select in shown if "before" in select]
        found = self.query(select)
        day = time.strftime("%Y-%m-%d", time.gmtime(time.time() - 100 * 86400))
        self.assertEqual(found, [(os.fsdecode(rotten), day)])
        lines = self.run_archive("--report", "text").output.decode().splitlines()
        self.assertIn("it was ok on ", lines[0])
        self.assertIn("its size and time of change are still the same", lines[0])
        self.assertNotIn("still the same", lines[1])

    def test_sum(self) -> None:
        """Two copies of a piece have the same one, also where the streaminfo lost it."""
        rows = RIGHT, ROWS["no MD5 sum"]
        names = [self.write(f"{index}.flac", row) for index, row in enumerate(rows)]
        self.run_files()
        select = f"SELECT path FROM files WHERE sum = '{RIGHT.data[26:42].hex()}'"
        self.assertEqual([row[0] for row in self.query(select)], names)

    def test_forgotten(self) -> None:
        """The history of a file that was forgotten goes on when it is there again."""
        self.write("0.flac", RIGHT)
        path = self.write("1.flac", RIGHT)
        self.run_files()
        os.unlink(path)
        self.assertEqual(self.run_files("--forget-missing").status, 0)
        self.assertEqual(len(self.by_path()), 1)
        self.write("1.flac", RIGHT)
        self.write("2.flac", RIGHT)
        self.run_files()
        found = self.query("SELECT path, number, verdict, before FROM history")
        names = [(name[-6:], *others) for name, *others in found]
        right = ("ok", None)
        self.assertEqual(
            names,
            [(b"0.flac", 1, *right), (b"1.flac", 1, *right), (b"1.flac", 2, *right)]
            + [(b"2.flac", 1, *right)],
        )

    def test_new(self) -> None:
        """Rows of files that are new are put in ways of their own, with the same result: also many,
        between others, of a file that was forgotten, and of one that is found twice."""
        kept = []
        for is_new in (0, 1):
            results = Results(str(self.folder / f"{is_new}.sqlite"), is_new=True)
            results.start_listing([])
            results.start_run()
            self.put_many(results, is_new)
            tables = ("files", "history")
            kept.append([results.select(f"SELECT * FROM {name}", []) for name in tables])
            results.close()
        self.assertEqual(kept[0], kept[1])
        self.assertEqual([len(rows) for rows in kept[0]], [358, 361])

    def put_many(self, results: Results, is_new: int) -> None:
        def put(verified: int, *rows: Tuple[int, str]) -> None:
            no, paths = None, [b"/\xff%03d" % name for name, _ in rows]
            found = {path: DueFile(path, 9, 3, 4, 5, is_new) for path in paths}
            told = [
                (path, 9, 2, verified, verdict, 6, "ok", no, no, no, no, no, "7", 8, no, "00")
                for path, (_, verdict) in zip(paths, rows)
            ]
            results.put(told, found)  # type: ignore

        put(10, *((name, "ok") for name in range(0, 400, 2)))
        put(11, *((name, "ok") for name in range(399, 250, -1) if name % 2))
        put(12, (1, "ok"), (3, "wrong"), (5, "not read"), (7, "ok"), (9, "ok"))
        results.select("DELETE FROM files WHERE path IN (?, ?)", [b"/\xff000", b"/\xff398"])
        put(13, (0, "ok"), (398, "ok"))
        put(14, (500, "ok"), (501, "ok"))
        put(15, (501, "ok"), (502, "ok"), (1, "wrong"))
        results.select("DELETE FROM files WHERE path = ?", [b"/\xff502"])
        put(16, *((name, "ok") for name in range(600, 675)), (502, "ok"))

    def test_path_text(self) -> None:
        self.write("live/é 'x'.flac", RIGHT)
        self.write(b"live/\xff\\.flac", RIGHT)
        self.run_files()
        found = self.query("SELECT path_text FROM files WHERE path_text LIKE '%/live/%'")
        texts = [f"{self.files}/live/é 'x'.flac", f"{self.files}/live/\\xff\\.flac"]
        self.assertEqual(sorted(row[0] for row in found), sorted(texts))


class Missing(Kept):
    def setUp(self) -> None:
        super().setUp()
        self.paths = [self.write(f"{index % 2}/{index:03}.flac", RIGHT) for index in range(240)]
        self.wrong = self.write("wrong.flac", WRONG)
        self.assertEqual(self.run_files().status, 1)
        (self.folder / "log").unlink()

    def check_unchanged(self, *words: str, text: str) -> None:
        """The run ends before anything is changed."""
        before = self.kept("*")
        for more in ((), ("--forget-missing",)):
            ended = self.run_archive(*words, *more)
            self.assertEqual((ended.status, ended.output), (3, b""))
            self.assertEqual(ended.errors, f"claxon-archive: {text}\n")
            self.assertEqual(self.kept("*"), before)
        self.assertEqual(os.path.exists(f"{self.results}.lock"), False)

    def test_empty_operand(self) -> None:
        """As of a disk that isn't mounted."""
        self.files.rename(self.folder / "away")
        self.files.mkdir()
        text = f"{self.files}: it is empty, and the results have 241 files below it"
        self.check_unchanged(str(self.files), text=f"{text}; nothing was changed")
        other = self.folder / "away"
        self.check_unchanged(
            str(other), str(self.files), text=f"{text}; nothing was changed"
        )
        self.files.rmdir()
        other.rename(self.files)
        self.assertEqual(self.run_files().status, 1)
        self.assertEqual(self.count_verified(), {self.wrong: 1})

    def test_new_empty_folder(self) -> None:
        empty = self.folder / "empty"
        empty.mkdir()
        self.assertEqual(self.run_archive(str(empty)).status, 0)

    def test_no_operand(self) -> None:
        none, pipe = self.folder / "none", self.folder / "pipe"
        os.mkfifo(pipe)
        text = f"{none}: No such file or directory"
        self.check_unchanged(str(self.files), str(none), text=text)
        self.check_unchanged(str(pipe), text=f"{pipe}: neither a folder nor a file")
        self.results = self.folder / "new.sqlite"
        self.assertEqual(self.run_archive(str(none)).status, 3)
        self.assertEqual(self.results.exists(), False)

    def test_beside_the_verdict(self) -> None:
        """A file that comes back as it was isn't verified again."""
        away = self.folder / "away"
        (self.files / "0").rename(away)
        (self.files / "wrong.flac").unlink()
        ended = self.run_files()
        self.assertEqual(ended.status, 3)
        self.assertRegex(ended.output.decode(), "\nmissing +121 ")
        row = self.row(self.paths[0])
        self.assertEqual(row["verdict"], "ok")
        self.assertLess(abs(row["missing"] - time.time()), 60)
        self.assertEqual(self.row(self.wrong)["verdict"], "wrong")
        report = self.run_archive("--report", "csv").output.decode().splitlines()
        self.assertEqual(len(report), 122)
        missing_since = row["missing"]
        self.assertEqual(self.run_files().status, 3)
        self.assertEqual(self.row(self.paths[0])["missing"], missing_since)
        away.rename(self.files / "0")
        self.assertEqual(self.run_files().status, 3)
        self.assertIsNone(self.row(self.paths[0])["missing"])
        self.assertEqual(self.count_verified(), {})

    def test_forget(self) -> None:
        """No more than so many."""
        shutil.rmtree(self.files / "0")
        ended = self.run_files("--forget-missing")
        self.assertEqual(ended.status, 1)
        self.assertEqual(
            ended.errors,
            "claxon-archive: 120 files are missing, more than 100: none was forgotten"
            " (--at-most 120 forgets them)\n",
        )
        self.assertEqual(len(self.kept("path")), 241)
        ended = self.run_archive("--forget-missing", "--at-most", "119", "--report", "text")
        self.assertEqual(ended.status, 1)
        self.assertEqual(len(self.kept("path")), 241)
        ended = self.run_files("--forget-missing", "--at-most", "120")
        self.assertEqual((ended.status, ended.errors), (1, ""))
        self.assertEqual(len(self.kept("path")), 121)
        self.assertEqual(len(self.verdicts()), 241)


class Words(Archive):
    def test_version(self) -> None:
        version = (TOP / "VERSION").read_text().strip()
        ended = self.run_archive("--version")
        self.assertEqual(ended, (0, f"claxon-archive {version}\n".encode(), ""))

    def test_refused(self) -> None:
        for words in ("--sample 0", "--sample 101%", "--sample x", "--sample nan", "--at-most -1"):
            ended = self.run_files(*words.split())
            self.assertEqual((ended.status, ended.output), (2, b""), words)
        self.assertEqual(self.results.exists(), False)


if __name__ == "__main__":
    unittest.main()
