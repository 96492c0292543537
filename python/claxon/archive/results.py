"""The results: a database of SQLite with a row for each file."""
import fcntl
import itertools
import math
import operator
import os
import sqlite3
import time
from contextlib import contextmanager
from typing import Any, Dict, Iterable, Iterator, List, NamedTuple, Optional, Tuple, Union

from . import tables
from .batch import SIGN, Row, signed, unread_row
from .finding import File, Inodes, Part, is_missing
from .reading import open_to_read
from .tables import NOT_RIGHT, SHOWN, STATE, path_text
from .unchanged import Unchanged

COLUMNS = tables.COLUMNS

VERDICTS = ("ok", "wrong", "not supported", "not read", "missing")

# How many files are looked up in the results by one statement. Older versions of SQLite allow no
# more than 999 values in it.
_CHUNK = 300 if sqlite3.sqlite_version_info >= (3, 32) else 150

# How many rows of files that are new are put by one statement, of these columns of `incoming`, and
# into the history of these.
_NEW = 70
_NEW_VALUES = operator.itemgetter(0, 1, 2, 3, 5, 6, *range(12, tables.ROW_COLUMNS))
_HISTORY_VALUES = operator.itemgetter(0, 3, 1, 2, 6, 15)

# Paths are bytes, for which the module would look for an adapter each time, in vain.
sqlite3.register_adapter(bytes, bytes)

# What is missing, and what is said of folders.
_IS_NOT_THERE = "(missing IS NOT NULL OR substr(path, -1) = x'2f')"

# How long a write waits for another program that reads the results, in seconds.
_PATIENCE = 600

Ranges = List[Tuple[bytes, bytes]]


class ResultsError(Exception):
    """The results can't be used. The text says why."""


class TemporaryError(Exception):
    """The folder for SQLite's temporary files can't be used. The text names it."""


class Due(NamedTuple):
    """How much is to be verified."""

    files: int
    size: int


class DueFile(NamedTuple):
    """A file that is to be verified, as it was found."""

    path: bytes
    size: int
    ctime: Optional[int]
    device: Optional[int]
    inode: Optional[int]
    is_new: int = 0  # 1: the results have no row of it
    number: int = 0  # among the files that are due, from 1 on


class Run(NamedTuple):
    """A run: its number in the history, when it began, in seconds since 1970, what it verified, and
    in how many seconds."""

    id: int
    began: float
    files: int
    size: int
    seconds: float


def outermost(paths: Iterable[bytes]) -> List[bytes]:
    """The paths, each absolute, without those that are below another one."""
    kept: List[bytes] = []
    for path in sorted(path.rstrip(b"/") + b"/" for path in paths):
        if not kept or not path.startswith(kept[-1]):
            kept.append(path)
    return [path.rstrip(b"/") or b"/" for path in kept]


def ranges_of(paths: Iterable[bytes]) -> Ranges:
    """The ranges of these paths and of all that is below them. No path is below another one."""
    found: Ranges = []
    for path in paths:
        if path != b"/":
            found.append((path, path + b"\0"))
        found.append((path.rstrip(b"/") + b"/", path.rstrip(b"/") + b"0"))
    return found


ALL: Ranges = [(b"/", b"0")]


class Lock:
    """Keeps other runs from the same results. The system drops it where this process dies."""

    def __init__(self, results: str) -> None:
        self._path = os.path.realpath(results) + ".lock"
        while not self._take():
            pass

    def _take(self) -> bool:
        """False where another run has just removed the file that was locked here."""
        self._file = open(self._path, "a+", encoding="utf-8")
        try:
            fcntl.flock(self._file, fcntl.LOCK_EX | fcntl.LOCK_NB)
        except BlockingIOError:
            self._file.seek(0)
            raise ResultsError(f"another run writes to it: {self._file.read().strip()}") from None
        try:
            is_there = os.path.samestat(os.fstat(self._file.fileno()), os.stat(self._path))
        except FileNotFoundError:
            is_there = False
        if is_there:
            self._file.truncate(0)
            self._file.write(f"process {os.getpid()} on {os.uname().nodename}\n")
            self._file.flush()
        return is_there

    def release(self) -> None:
        os.unlink(self._path)
        self._file.close()


class Results:
    """An open database of results."""

    def __init__(self, path: str, is_new: bool, is_read: bool = False) -> None:
        """Opens it; makes it where there is none, if `is_new` allows that. If `is_read` nothing is
        written to it."""
        self.path = path
        if not is_new and not os.path.exists(path):
            raise ResultsError("no such file")
        self._run: Optional[int] = None
        self._counted: Optional[Tuple[Tuple[Ranges, int], Due]] = None
        if is_read:
            self._database = open_to_read(path, _PATIENCE)
        else:
            self._database = sqlite3.connect(path, timeout=_PATIENCE, isolation_level=None)
            # Where the power fails, the last verdicts can be lost, and are found again.
            self._database.execute("PRAGMA synchronous = NORMAL")
        self._database.create_function("path_text", 1, path_text, deterministic=True)
        self._check_version(is_read)

    def close(self) -> None:
        self._database.close()

    def _check_version(self, is_read: bool) -> None:
        database = self._database
        (application,) = database.execute("PRAGMA application_id").fetchone()
        (version,) = database.execute("PRAGMA user_version").fetchone()
        (number,) = database.execute("SELECT count(*) FROM sqlite_master").fetchone()
        if (application, version, number) == (0, 0, 0):
            if is_read:
                raise ResultsError("it has no results")
            self._make_tables()
        elif application != tables.APPLICATION:
            raise ResultsError("it is a database, but not one of claxon-archive; it is left alone")
        elif version == 1:
            self._take_over(is_read)
        elif version != tables.VERSION:
            raise ResultsError(
                f"its tables have version {version}, and this program's have version"
                f" {tables.VERSION}; it is left alone: name another file, or take the version that"
                " made it"
            )
        elif not is_read:
            self._database.execute(tables.PUT_INDEX)

    def _make_tables(self) -> None:
        self._database.execute("PRAGMA journal_mode = WAL")
        with self.transaction():
            self._execute_all(tables.TABLES)
            self._database.execute(f"PRAGMA application_id = {tables.APPLICATION}")
            self._database.execute(f"PRAGMA user_version = {tables.VERSION}")

    def _take_over(self, is_read: bool) -> None:
        """Makes the tables of this version from those of version 1, or shows them as such."""
        if is_read:
            for statement in tables.VIEWS_OF_VERSION_1:
                self._database.execute(statement)
            return
        with self.transaction():
            for statement in tables.TAKE_OVER:
                self._database.execute(statement)

    def _execute_all(self, statements: str) -> None:
        for statement in statements.split(";\n")[:-1]:
            self._database.execute(statement)

    @contextmanager
    def transaction(self) -> Iterator[None]:
        self._database.execute("BEGIN IMMEDIATE")
        try:
            yield
            self._database.execute("COMMIT")
        except BaseException:
            if self._database.in_transaction:
                self._database.execute("ROLLBACK")
            raise

    def inodes(self) -> Inodes:
        """Those of its own files. To open and close one would drop SQLite's locks."""
        found = set()
        for end in ("", "-wal", "-shm", "-journal", ".lock"):
            try:
                status = os.stat(os.path.realpath(self.path) + end)
            except OSError:
                continue
            found.add((status.st_dev, status.st_ino))
        return frozenset(found)

    # ---- finding what is to be verified

    def number_below(self, ranges: Ranges) -> int:
        """How many files there are rows of."""
        return sum(
            self._count(
                "files WHERE path >= ? AND path < ? AND substr(path, -1) <> x'2f'", *limits
            )
            for limits in ranges
        )

    def start_listing(self, ranges: Ranges) -> None:
        with _temporary():
            self._database.execute("PRAGMA temp_store = FILE")
            self._execute_all(tables.TEMPORARY_TABLES)
            self._database.executemany("INSERT INTO within VALUES (?, ?)", ranges)
        self._ranges = ranges
        self._there: Optional[int] = None
        self._found = 0
        self._has_taken_over = self._count("files WHERE ctime IS NULL AND verdict = 'ok'") > 0

    def unchanged(self, before: float) -> Unchanged:
        """Tells what was verified since this time, and needn't be listed."""
        return Unchanged(self.path, before, _PATIENCE)

    def list_files(self, part: Part, before: float) -> None:
        """Lists those of the files that are to be verified: also those that were verified before
        this time; and what can't be read."""
        files = [_as_stored(file) for file in part.files]
        with _temporary():
            for start in range(0, len(files), _CHUNK):
                chunk = files[start : start + _CHUNK]
                self._execute_for(tables.PUT_DUE, tables.FOUND_ROW, chunk, before)
            self._database.executemany("INSERT INTO unread VALUES (?, ?)", part.unread)
        self._found += part.number
        if self._has_taken_over and files:
            with self.transaction():
                self._put_inodes(files)

    def _put_inodes(self, files: List[Tuple[Any, ...]]) -> None:
        """Completes rows that were taken over."""
        self._database.executemany(
            "UPDATE files SET ctime = ?, device = ?, inode = ?"
            " WHERE path = ? AND size = ? AND changed = ? AND ctime IS NULL AND verdict = 'ok'",
            (
                (ctime, device, inode, path, size, changed)
                for path, size, changed, ctime, inode, device in files
            ),
        )

    def end_listing(self, sample: float) -> Due:
        """Puts rows of what can't be read, marks what is missing, and lists so many hundredths of
        the right files again."""
        there = self._count_there()
        with self.transaction():
            self._database.execute(
                f"DELETE FROM files WHERE {NOT_RIGHT} AND verdict = 'not read'"
                " AND substr(path, -1) = x'2f'"
                " AND EXISTS (SELECT 1 FROM within WHERE path >= low AND path < high)"
            )
            back = self._unmark_missing()
            if self._number_not_found(there + back) > 0:
                self._mark_missing()
            unread = self._database.execute("SELECT path, min(reason) FROM unread GROUP BY path")
            self._put_rows(
                (*unread_row(path, why, None), None, None, None, path_text(path))
                for path, why in unread
            )
        if sample > 0:
            with _temporary():
                self._list_sample(sample)
        files, size = self._database.execute("SELECT count(*), total(size) FROM due").fetchone()
        return Due(files, int(size))

    def _count_there(self) -> int:
        """How many rows there are of what isn't missing, or were before the run put any."""
        if self._there is None:
            rows = "within JOIN files ON path >= low AND path < high"
            not_there = self._count(f"{rows} WHERE {NOT_RIGHT} AND {_IS_NOT_THERE}")
            self._there = self._number_and_size(self._ranges).files - not_there
        return self._there

    def _number_not_found(self, there: int) -> int:
        """How many of so many rows are of files that weren't found."""
        unread = self._count(
            "files JOIN (SELECT DISTINCT path FROM unread) USING (path) WHERE missing IS NULL"
        )
        new = self._count("due WHERE is_new")
        return there - (self._found - new) - unread

    def _unmark_missing(self) -> int:
        back = [path for path in self._paths("missing IS NOT NULL") if not is_missing(path)]
        self._database.executemany(
            "UPDATE files SET missing = NULL WHERE path = ?", ((path,) for path in back)
        )
        return len(back)

    def _mark_missing(self) -> None:
        now = int(time.time())
        condition = (
            "missing IS NULL AND substr(path, -1) <> x'2f'"
            " AND path NOT IN (SELECT path FROM unread)"
        )
        for path in self._paths(condition):
            if is_missing(path):
                self._database.execute(
                    "UPDATE files SET missing = ? WHERE path = ?", (now, path)
                )

    def _paths(self, condition: str) -> Iterator[bytes]:
        """The paths of rows that the run is about, which may be changed meanwhile."""
        ranges = self._database.execute("SELECT low, high FROM within").fetchall()
        for row in self._rows(condition, ranges, ["path"]):
            yield row["path"]

    def _list_sample(self, percent: float) -> None:
        """Those of the right files that were verified longest ago."""
        right = (
            "FROM within JOIN files ON path >= low AND path < high"
            " WHERE verdict = 'ok' AND missing IS NULL AND unread IS NULL"
        )
        (number,) = self._database.execute(f"SELECT count(*) {right}").fetchone()
        self._database.execute(
            f"INSERT INTO due SELECT path, size, ctime, device, inode, 0 {right}"
            " AND path NOT IN (SELECT path FROM due) ORDER BY verified, path LIMIT ?",
            (math.ceil(number * percent / 100),),
        )

    def number_missing(self, ranges: Ranges) -> int:
        return sum(
            self._count("files WHERE path >= ? AND path < ? AND missing IS NOT NULL", *limits)
            for limits in ranges
        )

    def forget_missing(self, ranges: Ranges) -> None:
        """Drops the rows of what is missing. Their history stays."""
        with self.transaction():
            for low, high in ranges:
                self._database.execute(
                    "DELETE FROM files WHERE path >= ? AND path < ? AND missing IS NOT NULL",
                    (low, high),
                )

    def due(self, last: int) -> List[DueFile]:
        """Some of the files that are to be verified, after the one with this number."""
        rows = self._database.execute(
            "SELECT path, size, ctime, device, inode, is_new, rowid FROM due WHERE rowid > ?"
            " ORDER BY rowid LIMIT 1000",
            (last,),
        )
        return list(map(DueFile._make, rows))

    def _count(self, rows: str, *values: Any) -> int:
        (number,) = self._database.execute(f"SELECT count(*) FROM {rows}", values).fetchone()
        return int(number)

    # ---- verdicts

    def start_run(self) -> None:
        self._count_there()
        now = time.time()
        with self.transaction():
            cursor = self._database.execute(
                "INSERT INTO runs (began, ended, files, bytes) VALUES (?, ?, 0, 0)", (now, now)
            )
            self._run = cursor.lastrowid

    def put(self, rows: List[Row], found: Dict[bytes, DueFile]) -> None:
        """Keeps what is known of these files now, all or nothing. A file that couldn't be read
        keeps the verdict that it has."""
        size = sum(row[1] or 0 for row in rows)
        new: List[Tuple[Any, ...]] = []
        others: List[Tuple[Any, ...]] = []
        for row in rows:
            file = found[row[0]]
            known = row + file[2:5] + (path_text(row[0]),)
            (new if file.is_new and row[4] == "ok" else others).append(known)
        with self.transaction():
            self._put_new(new)
            if others:
                self._put_rows(others)
            self._database.execute(
                "UPDATE runs SET ended = ?, files = files + ?, bytes = bytes + ? WHERE id = ?",
                (time.time(), len(rows), size, self._run),
            )

    def _put_new(self, rows: List[Tuple[Any, ...]]) -> None:
        """Puts rows of right files that the results have no rows of. Most are such ones, and so
        they are put without a look at what was there, and without the values that all have."""
        put: List[Tuple[Any, ...]] = []
        for start in range(0, len(rows), _NEW):
            chunk = rows[start : start + _NEW]
            try:
                self._execute_for(tables.PUT_NEW, tables.NEW_ROW, map(_NEW_VALUES, chunk))
                put += chunk
            except sqlite3.IntegrityError:  # one was found twice
                self._put_rows(chunk)
        if put and not self._put_history_between(min(put)[0], max(put)[0], len(put)):
            for start in range(0, len(put), _NEW):
                values = map(_HISTORY_VALUES, put[start : start + _NEW])
                self._execute_for(tables.PUT_NEW_HISTORY, tables.NEW_HISTORY_ROW, values)

    def _put_history_between(self, first: bytes, last: bytes, number: int) -> bool:
        """Puts the rows between these paths into the history, if they are so many and none is in
        it. From table to table that takes less time."""
        between = "path BETWEEN ? AND ? LIMIT ?)"
        rows = self._count(f"(SELECT 1 FROM files WHERE {between}", first, last, number + 1)
        if rows != number or self._count(f"(SELECT 1 FROM history WHERE {between}", first, last, 1):
            return False
        self._database.execute(tables.PUT_HISTORY_BETWEEN, (self._run, first, last))
        return True

    def _execute_for(self, put: str, row: str, values: Iterable[Any], *more: Any) -> None:
        """Executes a statement over many rows, which takes less time than many statements."""
        found = list(values)
        statement = put.format(rows=", ".join([row] * len(found)), run=self._run)
        self._database.execute(statement, [*itertools.chain.from_iterable(found), *more])

    def _put_rows(self, rows: Iterable[Tuple[Any, ...]]) -> None:
        places = ", ".join("?" * tables.ROW_COLUMNS)
        self._database.executemany(f"INSERT INTO incoming VALUES ({places})", rows)
        self._database.execute(tables.PUT_HISTORY, {"run": self._run})
        self._database.execute(tables.PUT_READ)
        self._database.execute(tables.PUT_UNREAD)
        self._database.execute("DELETE FROM incoming")

    def last_run(self) -> Optional[Run]:
        """The last run that verified something."""
        row = self._database.execute(
            "SELECT id, began, files, bytes, ended - began FROM runs WHERE files > 0"
            " ORDER BY id DESC LIMIT 1"
        ).fetchone()
        return Run(*row) if row else None

    # ---- reading

    def select(
        self, statement: str, values: Union[List[Any], Dict[str, Any]]
    ) -> List[Tuple[Any, ...]]:
        return self._database.execute(statement, values).fetchall()

    def _has_all(self, ranges: Ranges) -> bool:
        """Whether all rows are in these ranges: those of a table are counted in less time."""
        (first, last), within = ALL[0], sorted(ranges)
        ends = [first, *(high for _, high in within)]
        between = zip(ends, [*(low for low, _ in within), last])
        select = "SELECT 1 FROM files WHERE path >= ? AND path < ? LIMIT 1"
        return not any(self.select(select, list(limits)) for limits in between)

    def _number_and_size(self, ranges: Ranges) -> Due:
        """Those of all rows. They are read again only where this connection changed rows since."""
        key = ranges, self._database.total_changes
        if self._counted is None or self._counted[0] != key:
            select = "SELECT count(*), total(size) FROM files"
            if self._has_all(ranges):
                rows = self.select(select, [])
            else:
                select += " WHERE path >= ? AND path < ?"
                rows = [row for limits in ranges for row in self.select(select, [*limits])]
            number, size = (sum(row[column] for row in rows) for column in (0, 1))
            self._counted = key, Due(number, int(size))
        return self._counted[1]

    def counts(self, ranges: Ranges) -> Dict[str, Due]:
        """How many files there are of each verdict, and their sizes."""
        every = self._number_and_size(ranges)
        found: Dict[str, Due] = {}
        # Most are right: to count the others alone, by their index, takes less time.
        select = (
            f"SELECT {STATE}, count(*), total(size) FROM files"
            f" WHERE path >= ? AND path < ? AND {NOT_RIGHT} GROUP BY 1"
        )
        for limits in ranges:
            for verdict, files, size in self._database.execute(select, limits):
                before = found.get(verdict, Due(0, 0))
                found[verdict] = Due(before.files + files, before.size + int(size))
        files, size = (sum(due[member] for due in found.values()) for member in (0, 1))
        return {"ok": Due(every.files - files, every.size - size), **found}

    def not_right(self, ranges: Ranges) -> Iterator[Dict[str, Any]]:
        """The rows of what isn't right, in order of paths."""
        return self._rows(NOT_RIGHT, sorted(ranges), COLUMNS)

    def _rows(
        self, condition: str, ranges: Ranges, columns: List[str]
    ) -> Iterator[Dict[str, Any]]:
        """Rows in pages, the first column of which is the path: between them others may write."""
        select = (
            f"SELECT {', '.join(SHOWN[column] for column in columns)} FROM files"
            f" WHERE {condition} AND path >= ? AND path < ? ORDER BY path LIMIT 1000"
        )
        for low, high in ranges:
            while True:
                page = self._database.execute(select, (low, high)).fetchall()
                for row in page:
                    yield dict(zip(columns, row))
                if not page:
                    break
                low = page[-1][0] + b"\0"


def _as_stored(file: File) -> Tuple[Any, ...]:
    """The file with numbers that SQLite can store."""
    path, *numbers = file
    if -SIGN <= min(numbers) and max(numbers) < SIGN:
        return file
    return (path, *map(signed, numbers))


@contextmanager
def _temporary() -> Iterator[None]:
    """For statements that write to temporary tables alone: where there is no room, the error names
    their folder."""
    try:
        yield
    except sqlite3.OperationalError as error:
        if "full" not in str(error):
            raise
        raise TemporaryError(f"{_temporary_folder()}: no room for SQLite's lists") from error


def _temporary_folder() -> str:
    """Where SQLite puts temporary files: the first of these in which files can be made."""
    named = [os.environ.get(name, "") for name in ("SQLITE_TMPDIR", "TMPDIR")]
    for folder in [*named, "/var/tmp", "/usr/tmp", "/tmp"]:
        if os.path.isdir(folder) and os.access(folder, os.W_OK | os.X_OK):
            return folder
    return "."
