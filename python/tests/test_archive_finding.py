"""How files are found, and which of them may be due: neither needs the program `claxon`."""
import contextlib
import itertools
import os
import sqlite3
import threading
import time
from typing import Any, Iterator, List, Tuple
from unittest import mock

from claxon.archive import finding
from claxon.archive.finding import File, Finder, Known, Part
from claxon.archive.results import ALL, Due, Results, ranges_of
from tests import FolderCase


def file_of(path: bytes) -> File:
    status = os.stat(path)
    times = status.st_mtime_ns, status.st_ctime_ns
    return (path, status.st_size, *times, status.st_ino, status.st_dev)


class Finding(FolderCase):
    """Finds files of which the even ones may be due."""

    def setUp(self) -> None:
        super().setUp()
        self.compared: List[List[bytes]] = []
        self.events: List[Any] = []
        self.parts: List[Part] = []

    def write(self, *names: str) -> List[bytes]:
        for name in names:
            path = self.folder / name
            path.parent.mkdir(parents=True, exist_ok=True)
            path.write_bytes(name.encode())
        return [os.fsencode(self.folder / name) for name in names]

    def others(self, files: List[Known], devices: List[int]) -> List[File]:
        self.compared.append([path for path, *_ in files])
        every = zip(files, devices)
        return [(*file, device) for file, device in every if int(file[0][-6:-5]) % 2 == 0]

    def take(self, finder: Any) -> None:
        """As a run does: at its end too."""
        self.events.append(finder)
        self.parts.append(self.finder.take())
        if finder is not None:
            self.finder.go_on()

    def find(self, *operands: bytes) -> None:
        self.finder = Finder(list(operands), None, self.others, self.take)
        self.finder.run()
        self.assertIsNone(self.finder.error)
        self.assertIsNone(self.events[-1])

    def found(self) -> Tuple[int, List[File]]:
        every = itertools.chain.from_iterable(part.files for part in self.parts)
        return sum(part.number for part in self.parts), sorted(every)

    def test_order(self) -> None:
        """The paths that are compared together ascend; a space is less than a slash."""
        names = [f"{folder}/{index}.flac" for folder in ("a", "a b", "a/c") for index in range(9)]
        paths = self.write(*names, "a/cover.jpg", "a/b.flac/1.flac", "a/3")
        paths = [path for path in paths if path.endswith(b".flac")]
        self.find(os.fsencode(self.folder))
        for part in self.compared:
            self.assertEqual(part, sorted(part))
        compared = list(itertools.chain.from_iterable(self.compared))
        self.assertEqual((sorted(compared), len(self.compared)), (sorted(paths), 2))
        even = sorted(file_of(path) for path in paths if int(path[-6:-5]) % 2 == 0)
        self.assertEqual(self.found(), (28, even))

    def test_parts(self) -> None:
        """Few are compared at once; many that may be due are handed over before more are found."""
        paths = self.write(*(f"{index:04}.flac" for index in range(1000)))
        with mock.patch.multiple(finding, _COMPARED=100, _FILES=200):
            self.find(os.fsencode(self.folder))
        self.assertEqual(len(self.events), 3)
        self.assertEqual([len(part.files) for part in self.parts], [240, 240, 20])
        self.assertLess(max(map(len, self.compared)), 130)
        even = [file_of(path) for path in paths[::2]]
        self.assertEqual(self.found(), (1000, even))

    def test_operands(self) -> None:
        """A file, a folder, and what isn't there."""
        one, other = self.write("2.flac", "below/4.flac")
        gone = os.fsencode(self.folder / "6.flac")
        self.find(one, gone, os.path.dirname(other))
        self.assertEqual(self.found(), (2, [file_of(one), file_of(other)]))
        unread = [unread for part in self.parts for unread in part.unread]
        self.assertEqual(unread, [(gone + b"/", "No such file or directory")])

    def test_stalled(self) -> None:
        """What was found before a disk stalls is taken, once, and the search is left to itself."""
        paths = self.write(*(f"{index}.flac" for index in range(10)))
        goes_on, real = threading.Event(), finding._put
        self.addCleanup(goes_on.set)

        def put(path: bytes, *others: Any) -> None:
            if path == paths[7]:
                goes_on.wait(60)
            real(path, *others)

        ended = threading.Event()
        with mock.patch.object(finding, "_put", put):
            self.finder = Finder(
                [os.fsencode(self.folder)], None, self.others, lambda finder: ended.set()
            )
            self.finder.start()
            time.sleep(2 * finding._SLOW)
            part = self.finder.take()
            self.assertEqual(part, (7, [file_of(path) for path in paths[:7]], []))
            self.assertEqual(self.finder.take(), (0, [], []))
            self.assertEqual(self.compared, [])
            goes_on.set()
            self.assertTrue(ended.wait(60))
        self.assertEqual(self.finder.take(), (3, [file_of(paths[8])], []))
        self.assertEqual(self.compared, [paths[7:]])

    def test_stopped(self) -> None:
        """It ends soon, also where it waits."""
        self.write(*(f"{index:04}.flac" for index in range(400)))
        with mock.patch.multiple(finding, _COMPARED=30, _FILES=30):
            self.finder = Finder(
                [os.fsencode(self.folder)] * 3, None, self.others, self.events.append
            )
            self.finder.start()
            while not self.events:
                time.sleep(0.01)
            self.finder.stop()
            self.finder.join(60)
        self.assertFalse(self.finder.is_alive())
        self.assertEqual(self.events, [self.finder, None])
        self.assertLess(self.finder.take().number, 130)

    def test_error(self) -> None:
        """One of the comparison ends the search, and is told."""
        self.write("1.flac")
        self.finder = Finder(
            [os.fsencode(self.folder)], None, lambda *_: [][0], self.events.append
        )
        self.finder.run()
        self.assertIsInstance(self.finder.error, IndexError)
        self.assertEqual(self.events, [None])


class Compared(FolderCase):
    """Found files beside rows of the results: each is left that may be due."""

    def setUp(self) -> None:
        super().setUp()
        self.results = Results(str(self.folder / "archive.sqlite"), is_new=True)
        self.addCleanup(self.results.close)
        self.files: List[Known] = [(b"/%03d" % index, 1, 2, 3, index) for index in range(100)]
        self.put(*self.files)

    def put(self, *files: Known, **values: Any) -> None:
        columns = {"verified": 50, "verdict": "ok", "path_text": "", **values}
        names = ["path", "size", "changed", "ctime", "inode", *columns]
        with self.database() as database:
            database.executemany(
                f"INSERT OR REPLACE INTO files ({', '.join(names)})"
                f" VALUES ({', '.join('?' * len(names))})",
                ((*file, *columns.values()) for file in files),
            )

    @contextlib.contextmanager
    def database(self) -> Iterator[sqlite3.Connection]:
        database = sqlite3.connect(self.results.path)
        with database:
            yield database
        database.close()

    def others(self, files: List[Known], before: float = 0.0) -> List[Known]:
        unchanged = self.results.unchanged(before)
        others = unchanged.others(files, [9] * len(files))
        unchanged.close()
        self.assertEqual({file[5] for file in others} - {9}, set())
        return [file[:5] for file in others]

    def test_unchanged(self) -> None:
        self.assertEqual(self.others(self.files), [])
        self.assertEqual(self.others(self.files[40:41]), [])
        self.assertEqual(self.others([]), [])

    def test_each_member(self) -> None:
        """A file isn't known by another path, size, time or inode."""
        for member in range(5):
            changed: List[Any] = list(self.files[50])
            changed[member] = b"/050 " if member == 0 else 7
            path, size, time_of_change, ctime, inode = changed
            file: Known = (path, size, time_of_change, ctime, inode)
            self.assertEqual(self.others([*self.files[:50], file, *self.files[51:]]), [file])

    def test_new_and_missing(self) -> None:
        new: Known = (b"/050 new", 1, 2, 3, 4)
        self.assertEqual(self.others([*self.files[:51], new, *self.files[51:]]), [new])
        self.assertEqual(self.others([*self.files[:30], *self.files[60:]]), [])
        # More rows lie between them than are read: it may be due.
        self.assertEqual(self.others([self.files[0], self.files[99]]), [self.files[99]])

    def test_not_right(self) -> None:
        wrong, unread, missing = self.files[3], self.files[5], self.files[7]
        self.put(wrong, verdict="wrong")
        self.put(unread, unread="Input/output error")
        self.put(missing, missing=60)
        self.assertEqual(self.others(self.files), [wrong, unread, missing])
        self.assertEqual(self.others(self.files[8:]), [])
        self.put(*self.files, verdict="not supported")
        self.assertEqual(self.others(self.files), self.files)

    def test_many_not_right(self) -> None:
        """More rows of what isn't right, or isn't there, than are read lie between two files."""
        self.put(*((b"/000 %03d" % index, 1, 2, 3, 4) for index in range(500)), verdict="wrong")
        two = [self.files[0], self.files[99]]
        self.assertEqual(self.others(two), two)
        self.assertEqual(self.others(self.files[1:]), [])

    def test_older(self) -> None:
        self.put(self.files[3], verified=10)
        self.assertEqual(self.others(self.files, 11.0), [self.files[3]])
        self.assertEqual(self.others(self.files, 10.0), [])
        self.assertEqual(self.others(self.files, 51.0), self.files)

    def test_taken_over(self) -> None:
        """Their change of the inode isn't known."""
        path, size, changed, *_ = self.files[3]
        with self.database() as database:
            database.execute("UPDATE files SET ctime = NULL, inode = NULL WHERE path = ?", (path,))
        self.assertEqual(self.others(self.files), [self.files[3]])

    def test_order(self) -> None:
        """Where paths don't ascend none is taken for another one that isn't right."""
        self.put(self.files[60], verdict="wrong")
        for files in (self.files[::-1], self.files[50:] + self.files[:50], self.files[1::-1] * 2):
            self.assertTrue(set(self.others(files)) >= {self.files[60]} & set(files))

    def test_closed(self) -> None:
        """A call that comes after it, by the thread that finds files, finds none."""
        unchanged = self.results.unchanged(0.0)
        unchanged.close()
        self.assertEqual(unchanged.others([(b"/x", 1, 2, 3, 4)], [5]), [])

    def test_not_written(self) -> None:
        unchanged = self.results.unchanged(0.0)
        self.addCleanup(unchanged.close)
        with self.assertRaises(sqlite3.OperationalError):
            unchanged._database.execute("DELETE FROM files")

    def test_while_rows_are_put(self) -> None:
        """By the run's own connection: it doesn't wait, and sees what was put before."""
        with self.results.transaction():
            self.results.select("UPDATE files SET verdict = 'wrong' WHERE inode = 3", [])
            self.assertEqual(self.others(self.files), [])
        self.assertEqual(self.others(self.files), [self.files[3]])


class Counted(FolderCase):
    """Rows are counted alike with and without a look at their paths."""

    def test_ranges(self) -> None:
        results = Results(str(self.folder / "archive.sqlite"), is_new=True)
        self.addCleanup(results.close)
        columns = "path, size, verdict, path_text, verified"
        insert = f"INSERT INTO files ({columns}) VALUES (?, ?, ?, '', 1)"
        for index, name in enumerate((b"a", b"a/1", b"a/2", b"a b/1", b"b/1")):
            verdict = "wrong" if name == b"a/2" else "ok"
            results.select(insert, [b"/" + name, 1 << index, verdict])
        self.assertEqual(results.counts(ALL), {"ok": Due(4, 27), "wrong": Due(1, 4)})
        every = ranges_of([b"/a", b"/a b", b"/b"])
        self.assertEqual(results.counts(every), {"ok": Due(4, 27), "wrong": Due(1, 4)})
        self.assertEqual(results.counts(ranges_of([b"/a"])), {"ok": Due(2, 3), "wrong": Due(1, 4)})
        self.assertEqual(results.counts(ranges_of([b"/a b"])), {"ok": Due(1, 8)})
        self.assertEqual(results.counts([]), {"ok": Due(0, 0)})

    def test_changed_since(self) -> None:
        """They are counted again where rows were changed."""
        results = Results(str(self.folder / "archive.sqlite"), is_new=True)
        self.addCleanup(results.close)
        self.assertEqual(results.counts(ALL), {"ok": Due(0, 0)})
        insert = "INSERT INTO files (path, path_text, size, verified, verdict, missing)"
        for index, missing in enumerate((None, 5)):
            results.select(f"{insert} VALUES (?, '', 7, 1, 'ok', ?)", [b"/%d" % index, missing])
            self.assertEqual(results.counts(ALL)["ok"], Due(1, 7))
        self.assertEqual(results.counts(ALL)["missing"], Due(1, 7))
        results.forget_missing(ALL)
        self.assertEqual(results.counts(ALL), {"ok": Due(1, 7)})
        results.select("UPDATE files SET size = 9", [])
        self.assertEqual(results.counts(ALL), {"ok": Due(1, 9)})
