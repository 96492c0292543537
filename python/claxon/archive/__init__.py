"""Verifies the FLAC files of an archive, and keeps the verdicts in SQLite.

    python3 -m claxon.archive FOLDER .. --results archive.sqlite

It runs `claxon verify --json` over all files that are new, were changed, or were verified long ago:
on this machine, or on the workers of a Dask scheduler. It can be stopped at any time, and the next
run goes on. `claxon-archive(1)` has its options, verdicts and statuses.
"""
from .command import main

__all__ = ["main"]
