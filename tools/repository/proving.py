"""Proves and builds crates by the toolchain's command `rt`: each as soon as those that it uses are
proved, side by side where there are processors.

`rt` lets one command at a time work in a crate and those below it. So what is proved beside another
crate is proved in a copy, in a temporary folder, and then moved to its place.
"""
import fcntl
import os
import re
import shutil
import signal
import subprocess
import sys
import tempfile
import time
from pathlib import Path
from typing import Dict, List, NoReturn, Optional, Sequence

from repository.crates import (
    TOP,
    Crate,
    all_sums,
    built_file,
    count_lines,
    has_library,
    with_used,
    write_record,
)
from repository.progress import Progress
from repository.proved_lines import keep_line

SIGNALS = (signal.SIGHUP, signal.SIGINT, signal.SIGTERM)
# Each job of a check may take so much memory, and more than four for a crate gain little.
BYTES_OF_JOB = 2_000_000_000
MOST_JOBS = 4


# The limit of a control group, and what it uses: of version 2, and of version 1.
GROUPS = (
    ("/sys/fs/cgroup/memory.max", "/sys/fs/cgroup/memory.current"),
    (
        "/sys/fs/cgroup/memory/memory.limit_in_bytes",
        "/sys/fs/cgroup/memory/memory.usage_in_bytes",
    ),
)


def free_memory() -> int:
    """The free memory in bytes, also under the limit of a control group, as a container has it."""
    found = re.search(r"^MemAvailable: *(\d+) kB$", Path("/proc/meminfo").read_text(), re.MULTILINE)
    free = [1024 * int(found[1]) if found else 0]
    for limit, used in GROUPS:
        try:
            free.append(int(Path(limit).read_text()) - int(Path(used).read_text()))
        except (OSError, ValueError):
            # There is no such group, or the limit is the word `max`.
            continue
    return min(free)


class Jobs:
    """How many jobs there are for one crate, and for all that are proved at one time: more than
    there are processors, as a crate doesn't always use all its jobs."""

    def __init__(self) -> None:
        processors = len(os.sched_getaffinity(0))
        fitting = max(1, free_memory() // BYTES_OF_JOB)
        self.of_one = min(MOST_JOBS, processors, fitting)
        self.of_all = min(2 * processors if processors > 1 else 1, fitting)


def toolchain(progress: Progress, reason: str) -> str:
    """The name of the toolchain; where its command is missing, this one ends."""
    try:
        words = ["rt", "version"]
        return subprocess.run(words, capture_output=True, text=True, check=True).stdout.strip()
    except (OSError, subprocess.CalledProcessError):
        missing = "the Rattle toolchain is missing: its command `rt` isn't on the PATH"
        progress.say(f"{reason}, and {missing}")
        sys.exit(1)


def lock(progress: Progress, reason: str) -> int:
    """Waits until no other command proves here, and returns what keeps others out until it is
    closed. All may be built then, so this command begins again where it had to wait."""
    file = os.open(TOP / "crates.txt", os.O_RDONLY)
    try:
        fcntl.flock(file, fcntl.LOCK_EX | fcntl.LOCK_NB)
    except BlockingIOError:
        progress.say(
            f"{reason}; another command is proving in this copy of the repository, so this one"
            " waits for it"
        )
        fcntl.flock(file, fcntl.LOCK_EX)
        os.close(file)
        os.execv("/proc/self/exe", ["python3", "-ES", "-X", "utf8", *sys.argv])
    except OSError:
        # Some file systems have no locks.
        pass
    return file


def replace_folder(source: Path, to: Path) -> None:
    new = to.with_name(f"{to.name}.new")
    shutil.rmtree(new, ignore_errors=True)
    to.parent.mkdir(exist_ok=True)
    shutil.move(str(source), str(new))
    shutil.rmtree(to, ignore_errors=True)
    new.rename(to)


def link_folder(source: Path, to: Path) -> None:
    """Copies a folder whose files are never written into again, by links where that can be."""
    try:
        shutil.copytree(source, to, copy_function=os.link)
    except (OSError, shutil.Error):
        shutil.rmtree(to, ignore_errors=True)
        shutil.copytree(source, to)


class Copies:
    """Copies of crates with those that they use, in a temporary folder."""

    def __init__(self) -> None:
        self.folder: Optional[Path] = None

    def make(self, crate: Crate) -> Path:
        """Copies a crate, the libraries that it uses, and the work that was kept of it."""
        if self.folder is None:
            self.folder = Path(tempfile.mkdtemp(prefix="claxon."))
        top = self.folder / crate.name
        for used in with_used([crate]):
            folder = top / "crates" / used.name
            for part in used.parts():
                shutil.copytree(part, folder / part.name)
            kept = "incremental" if used == crate else "rlib"
            if (used.out / kept).is_dir():
                link_folder(used.out / kept, folder / "out" / kept)
        lines = [f"{used.line}\n" for used in with_used([crate])]
        (top / "crates.txt").write_text("".join(lines))
        return top

    def take(self, crate: Crate, top: Path) -> None:
        """Moves the library that was built in a copy, and what was kept, to their place."""
        out = top / "crates" / crate.name / "out"
        if (out / "incremental").is_dir():
            replace_folder(out / "incremental", crate.out / "incremental")
        # The toolchain writes a library's stamp last.
        if (out / "rlib" / "stamp").exists():
            replace_folder(out / "rlib", crate.out / "rlib")
        shutil.rmtree(top, ignore_errors=True)

    def remove(self) -> None:
        if self.folder is not None:
            shutil.rmtree(self.folder, ignore_errors=True)


class Run:
    """A command of the toolchain for a crate, in this copy of the repository or another."""

    def __init__(
        self, crate: Crate, top: Path, jobs: int, process: "subprocess.Popen[bytes]"
    ) -> None:
        self.crate = crate
        self.top = top
        self.jobs = jobs
        self.process = process

    @property
    def log(self) -> Path:
        return self.crate.out / "build.log"


class Builder:
    """Proves and builds one crate and the libraries that it uses."""

    def __init__(self, progress: Progress, crate: Crate, toolchain: str, lock: int) -> None:
        self.progress = progress
        self.crate = crate
        self.toolchain = toolchain
        self.lock = lock
        self.jobs = Jobs()
        self.running: List[Run] = []
        self.copies = Copies()
        self.signal: Optional[int] = None
        self.failed = False
        # A source that is edited from now on has another sum than the record.
        self.sums = {used.name: all_sums(used) for used in with_used([crate])}
        self.ways: Dict[str, int] = {}

    def __enter__(self) -> "Builder":
        self.progress.names = [used.name for used in with_used([self.crate])]
        for number in SIGNALS:
            if signal.getsignal(number) != signal.SIG_IGN:
                signal.signal(number, self.note_signal)
        return self

    def __exit__(self, *_: object) -> None:
        for run in self.running:
            run.process.terminate()
        self.copies.remove()
        for number in SIGNALS:
            if signal.getsignal(number) == self.note_signal:
                signal.signal(number, signal.SIG_DFL)

    def note_signal(self, number: int, _: object) -> None:
        self.signal = number

    def start(
        self, crate: Crate, top: Path, words: Sequence[str], jobs: int, niceness: int
    ) -> None:
        """Starts a command. What it says goes to the crate's log, what a program prints nowhere."""
        crate.out.mkdir(exist_ok=True)
        self.progress.begin(crate.name)
        verb, *more = words
        with open(crate.out / "build.log", "wb") as log:
            process = subprocess.Popen(
                ["nice", "-n", str(niceness), "rt", verb, "--jobs", str(jobs), *more],
                cwd=top / "crates" / crate.name,
                stdin=subprocess.DEVNULL,
                stdout=subprocess.DEVNULL if verb == "run" else log,
                stderr=log,
                # So the lock is held as long as the toolchain works, also without this process.
                pass_fds=[self.lock],
            )
        self.running.append(Run(crate, top, jobs, process))

    def way(self, crate: Crate) -> int:
        """How much is to be proved from a crate on, up to the one that is built."""
        if crate.name not in self.ways:
            above = [it for it in with_used([self.crate]) if crate.name in it.uses]
            self.ways[crate.name] = count_lines(crate) + max(map(self.way, above), default=0)
        return self.ways[crate.name]

    def start_libraries(self, left: List[Crate]) -> None:
        """Starts what can be proved now, first what most others wait for; the others are nicer."""
        waiting = {crate.name for crate in left} | {run.crate.name for run in self.running}
        ready = [crate for crate in left if not waiting & {*crate.uses}]
        for crate in sorted(ready, key=self.way, reverse=True):
            free = self.jobs.of_all - sum(run.jobs for run in self.running)
            if free < min(2, self.jobs.of_one):
                return
            is_next = all(self.way(run.crate) <= self.way(crate) for run in self.running)
            top = TOP
            if any(run.top == TOP for run in self.running):
                try:
                    top = self.copies.make(crate)
                except (OSError, shutil.Error):
                    return
            self.start(crate, top, ["lib"], min(self.jobs.of_one, free), 0 if is_next else 10)
            left.remove(crate)

    def wait(self) -> None:
        """Waits until a command ends, and takes what it built."""
        while True:
            if self.signal is not None:
                self.stop(self.signal)
            ended = [run for run in self.running if run.process.poll() is not None]
            for run in ended:
                self.finish(run)
            if ended:
                return
            names = [run.crate.name for run in self.running]
            self.progress.show(names, [run.log for run in self.running])
            time.sleep(0.1)

    def finish(self, run: Run) -> None:
        self.running.remove(run)
        if run.top != TOP:
            self.copies.take(run.crate, run.top)
        if run.process.returncode == 0:
            sums = self.sums[run.crate.name]
            write_record(built_file(run.crate), self.toolchain, sums)
            keep_line(run.crate, "", self.toolchain, run.log.read_text(errors="replace"), sums)
            return
        self.failed = True
        what = f"{run.crate.name} isn't proved"
        if run.crate.is_program:
            what = "the build or its trial run failed"
        self.progress.say(what)
        self.progress.say_end_of(run.log)

    def wait_for_all(self) -> None:
        while self.running:
            self.wait()
        self.progress.clear()
        if self.failed:
            sys.exit(1)

    def prove_libraries(self) -> None:
        """Proves the libraries that the crate uses. Where one isn't proved no other is begun."""
        used = with_used([self.crate])[:-1]
        left = [crate for crate in used if not has_library(crate, self.toolchain)]
        while left and not self.failed:
            self.start_libraries(left)
            self.wait()
        self.wait_for_all()

    def run_program(self, arguments: Sequence[str]) -> None:
        """Proves and builds a program, and runs it as a trial."""
        self.start(self.crate, TOP, ["run", "--", *arguments], self.jobs.of_one, 0)
        self.wait_for_all()

    def stop(self, number: int) -> NoReturn:
        """Ends the toolchain, which ends all processes that it started, and then this one by the
        same signal."""
        for other in SIGNALS:
            signal.signal(other, signal.SIG_IGN)
        for run in self.running:
            run.process.terminate()
        for run in self.running:
            run.process.wait()
            if run.top != TOP:
                self.copies.take(run.crate, run.top)
        self.running = []
        self.copies.remove()
        self.progress.say(
            "stopped before it was built; what is proved so far is kept for the next run"
        )
        signal.signal(number, signal.SIG_DFL)
        os.kill(os.getpid(), number)
        # Another thread could take the signal, but there is none.
        sys.exit(128 + number)
