"""Opens results that nothing is written to."""
import os
import sqlite3
import urllib.parse


def open_to_read(path: str, patience: float) -> sqlite3.Connection:
    """The database of this path, also one of another user, or on a disk that is read-only.

    OSError says why it can't be read. `patience` is how long it waits for who writes to it.
    """
    with open(path, "rb"):
        pass
    address = f"file:{urllib.parse.quote(os.fsencode(os.path.abspath(path)))}"
    database = _open(f"{address}?mode=ro", patience)
    try:
        database.execute("SELECT count(*) FROM sqlite_master").fetchone()
    except sqlite3.OperationalError:
        # SQLite has no place for the files that tell it who else has opened it. Where there are
        # none nobody writes to it.
        database.close()
        log = f"{os.path.realpath(path)}-wal"
        if os.path.exists(log) and os.path.getsize(log) > 0:
            raise OSError(
                f"{path}: a run was ended early, and nothing can be written beside it: copy it and"
                f" {os.path.basename(log)} to another folder"
            ) from None
        database = _open(f"{address}?immutable=1", patience)
    return database


def _open(address: str, patience: float) -> sqlite3.Connection:
    return sqlite3.connect(address, timeout=patience, isolation_level=None, uri=True)
