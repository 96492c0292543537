"""The files that the results know as they are."""
import sqlite3
import threading
from typing import List

from . import tables
from .finding import File, Known


class Unchanged:
    """Tells found files that are right and unchanged from others.

    The thread that finds files calls it, with a connection to the results of its own: to find them
    in one thread, and to compare them in another one, takes more time.
    """

    def __init__(self, results: str, before: float, patience: float) -> None:
        """Files that were verified before this time aren't known. `patience` is how long it waits
        for who writes to the results."""
        self._database = sqlite3.connect(
            results, timeout=patience, isolation_level=None, check_same_thread=False
        )
        self._database.execute("PRAGMA query_only = ON")
        self._database.execute("PRAGMA cache_size = -256")  # KiB: each page is read once
        self._select = tables.KNOWN_SINCE if before else tables.KNOWN
        self._values = (before,) if before else ()
        self._is_open = True
        self._lock = threading.Lock()

    def others(self, files: List[Known], devices: List[int]) -> List[File]:
        """Those that aren't right and unchanged, with their devices. Where paths don't ascend, some
        that are may be among them."""
        with self._lock:
            if not self._is_open or not files:
                return []
            return self._others(files, devices)

    def _others(self, files: List[Known], devices: List[int]) -> List[File]:
        """Most are known: to read all rows between two paths takes less time than to look each up.
        What isn't right has few rows, which an index has."""
        between, most = (files[0][0], files[-1][0]), 2 * len(files)
        rows = self._database.execute(self._select, (*between, *self._values, most)).fetchall()
        not_right = self._database.execute(tables.NOT_RIGHT_BETWEEN, (*between, most)).fetchall()
        if rows == files and not not_right:
            return []
        unchanged = set(rows) if len(not_right) < most else set()
        paths = {path for (path,) in not_right}
        return [
            (*file, device)
            for file, device in zip(files, devices)
            if file not in unchanged or file[0] in paths
        ]

    def close(self) -> None:
        """Waits for a call of `others`, but not for calls after it."""
        with self._lock:
            self._is_open = False
            self._database.close()
