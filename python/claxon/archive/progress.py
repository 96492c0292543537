"""How far a run is, on standard error."""
import os
import sys
import time
from collections import Counter
from typing import Any, Mapping

from .results import Due

# Seconds between two lines, where standard error isn't a terminal.
_PAUSE = 60


def size_text(size: float) -> str:
    """A number of bytes with a unit."""
    for unit in ("B", "kB", "MB", "GB", "TB"):
        if size < 999.5:
            return f"{size:.0f} {unit}" if unit == "B" or size >= 99.5 else f"{size:.1f} {unit}"
        size /= 1000
    return f"{size:.1f} PB"


def time_text(seconds: float) -> str:
    minutes, second = divmod(int(seconds), 60)
    hours, minute = divmod(minutes, 60)
    return f"{hours}:{minute:02d}:{second:02d}"


def not_right_text(verdicts: Mapping[str, int]) -> str:
    """How many files aren't right: `2 wrong, 1 not read`."""
    others = (verdict for verdict in ("not supported", "not read") if verdicts.get(verdict))
    counts = (f"{verdicts[verdict]:,} {verdict}" for verdict in others)
    return ", ".join([f"{verdicts.get('wrong', 0):,} wrong", *counts])


class Progress:
    """A line that changes at a terminal; elsewhere a line now and then."""

    def __init__(self) -> None:
        self._is_terminal = sys.stderr.isatty()
        self._shown_at = time.monotonic() - (0 if not self._is_terminal else _PAUSE)
        self._found = self._files = self._size = 0
        self._verdicts: "Counter[str]" = Counter()
        self._due = Due(0, 0)
        self._began = time.monotonic()

    def found(self, files: int) -> None:
        """So many files more were found."""
        self._found += files
        self._show(f"{self._found:,} files found")

    def start(self, due: Due) -> None:
        """So much is to be verified."""
        self._due, self._began = due, time.monotonic()

    def add(self, files: int, size: int, verdicts: Mapping[str, int]) -> None:
        """So much more was verified, with so many of each verdict, and is kept."""
        self._files += files
        self._size += size
        self._verdicts.update(verdicts)
        seconds = time.monotonic() - self._began
        rate = self._size / seconds if seconds else 0
        left = time_text((self._due.size - self._size) / rate) if rate else "?"
        self._show(
            f"{self._files:,} of {self._due.files:,} files, {left} left,"
            f" {not_right_text(self._verdicts)}, {size_text(self._size)} of"
            f" {size_text(self._due.size)}, {size_text(rate)}/s"
        )

    def end(self) -> None:
        if self._is_terminal:
            self._write("\r\x1b[K")

    def _show(self, text: str) -> None:
        now = time.monotonic()
        if now - self._shown_at < (0.2 if self._is_terminal else _PAUSE):
            return
        self._shown_at = now
        self._write(self._fitting(text) if self._is_terminal else f"{text}\n")

    def _fitting(self, text: str) -> str:
        """The text in place of the line before. One that is wider than the terminal couldn't be
        written over."""
        try:
            columns = os.get_terminal_size(sys.stderr.fileno()).columns or len(text) + 1
        except OSError:
            columns = len(text) + 1
        return f"\r{text[: columns - 1]}\x1b[K"

    def _write(self, text: str) -> None:
        try:
            sys.stderr.write(text)
            sys.stderr.flush()
        except OSError:  # the terminal is gone, which ends no run
            pass


class Bar(Progress):
    """The bar of tqdm."""

    def __init__(self, tqdm: Any) -> None:
        super().__init__()
        self._tqdm = tqdm
        self._bar = tqdm(desc="finding", unit=" files", dynamic_ncols=True, leave=False)

    def found(self, files: int) -> None:
        self._bar.update(files)

    def start(self, due: Due) -> None:
        super().start(due)
        self._bar.close()
        self._bar = self._tqdm(total=due.size, unit="B", unit_scale=True, dynamic_ncols=True)

    def add(self, files: int, size: int, verdicts: Mapping[str, int]) -> None:
        self._files += files
        self._verdicts.update(verdicts)
        text = f"{self._files:,} of {self._due.files:,} files, {not_right_text(self._verdicts)}"
        self._bar.set_postfix_str(text, refresh=False)
        self._bar.update(size)

    def end(self) -> None:
        self._bar.close()


def open_progress() -> Progress:
    """The bar at a terminal, if there is tqdm."""
    if sys.stderr.isatty():
        try:
            from tqdm import tqdm
        except ImportError:
            return Progress()
        return Bar(tqdm)
    return Progress()
