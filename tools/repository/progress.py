"""What is said while crates are proved: on standard error, which a terminal shows as one line that
changes."""
import os
import re
import sys
import time
from pathlib import Path
from typing import Iterable, List, Tuple

SO_FAR = re.compile(r"^so far: (\d+) of (\d+) functions checked", re.MULTILINE)


def functions_so_far(log: Path) -> Tuple[int, int]:
    """How many functions of how many the toolchain said last that it had checked."""
    try:
        found = SO_FAR.findall(log.read_text(errors="replace"))
    except OSError:
        found = []
    return (int(found[-1][0]), int(found[-1][1])) if found else (0, 0)


class Progress:
    """Says what the command of this name does, and how far it is."""

    def __init__(self, name: str) -> None:
        self.name = name
        self.names: List[str] = []
        self.started = time.time()
        self.is_terminal = os.isatty(2)
        self.is_shown = False
        self.shown = 0.0

    def say(self, text: str) -> None:
        self.clear()
        print(f"{self.name}: {text}", file=sys.stderr, flush=True)

    def say_end_of(self, log: Path) -> None:
        """Says where the toolchain's words are, and the last of them."""
        self.say(f"what the toolchain said is in {log}, and ends so:")
        lines = log.read_text(errors="replace").splitlines()
        for line in (line for line in lines[-20:] if not SO_FAR.match(line)):
            print(f"    {line}", file=sys.stderr, flush=True)

    def elapsed(self) -> str:
        seconds = int(time.time() - self.started)
        return f"{seconds // 60}:{seconds % 60:02}"

    def proving(self, names: Iterable[str]) -> str:
        """`proving NAME, 2 of 8`: the crates that are proved now, and the place of the last of them
        among all that the program uses."""
        places = sorted(self.names.index(name) for name in names)
        text = ", ".join(self.names[place] for place in places)
        return f"proving {text}, {places[-1] + 1} of {len(self.names)}"

    def begin(self, name: str) -> None:
        """Where there is no terminal, each crate has a line."""
        if not self.is_terminal:
            self.say(f"{self.proving([name])}, {self.elapsed()}")

    def show(self, names: List[str], logs: Iterable[Path]) -> None:
        """On a terminal the line changes each second."""
        if not self.is_terminal or not names or time.time() < self.shown + 1:
            return
        self.shown = time.time()
        counts = [functions_so_far(log) for log in logs]
        checked, count = (sum(column) for column in zip(*counts))
        functions = f": {checked} of {count} functions" if count else ""
        self.write(f"{self.proving(names)}{functions}, {self.elapsed()}")

    def write(self, text: str) -> None:
        try:
            columns = os.get_terminal_size(2).columns
        except OSError:
            columns = 0
        width = columns - 1 if columns > 1 else 79
        print(f"\r{text[:width]:{width}}", end="", file=sys.stderr, flush=True)
        self.is_shown = True

    def clear(self) -> None:
        if self.is_shown:
            self.write("")
            print("\r", end="", file=sys.stderr, flush=True)
            self.is_shown = False
