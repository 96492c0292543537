"""A file system that shows a folder, and whose reads fail: those of the file whose name is in a
file beside the folder.

    python3 failing_disk.py FOLDER MOUNTPOINT FAILING

It needs Debian's python3-fusepy.
"""
import errno
import os
import pathlib
import sys
from typing import Any, Dict, List

import fusepy


class FailingDisk(fusepy.Operations):  # type: ignore[misc]
    use_ns = True  # times are in nanoseconds

    def __init__(self, folder: str, failing: pathlib.Path) -> None:
        self._folder = folder
        self._failing = failing

    def _path(self, path: str) -> str:
        return os.path.join(self._folder, path.lstrip("/"))

    def getattr(self, path: str, handle: Any = None) -> Dict[str, int]:
        try:
            status = os.stat(self._path(path))
        except OSError as error:
            raise fusepy.FuseOSError(error.errno) from error
        names = ("st_mode", "st_ino", "st_nlink", "st_size")
        found = {name: getattr(status, name) for name in names}
        return {**found, "st_mtime": status.st_mtime_ns, "st_ctime": status.st_ctime_ns}

    def readdir(self, path: str, handle: Any) -> List[str]:
        return [".", "..", *os.listdir(self._path(path))]

    def read(self, path: str, size: int, offset: int, handle: Any) -> bytes:
        if self._failing.exists() and os.path.basename(path) == self._failing.read_text():
            raise fusepy.FuseOSError(errno.EIO)
        with open(self._path(path), "rb") as file:
            file.seek(offset)
            return file.read(size)


if __name__ == "__main__":
    disk = FailingDisk(sys.argv[1], pathlib.Path(sys.argv[3]))
    fusepy.FUSE(disk, sys.argv[2], foreground=True, nothreads=True, use_ino=True)
