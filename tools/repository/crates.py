"""What crates.txt and programs.txt list, the sources of a crate, and whether what was built of them
is up to date.

Beside what is built here stands a record: the sum of each source that it was built from. What the
toolchain's own commands built has none, and is up to date where no source is newer.
"""
import functools
import hashlib
import os
import re
from pathlib import Path
from typing import Dict, Iterable, Iterator, List, NamedTuple, Optional, Tuple

TOP = Path(os.path.abspath(__file__)).parent.parent.parent
PARTS = ("src", "specs", "proofs")


class Crate(NamedTuple):
    """A crate, and the crates of the repository that it uses itself."""

    name: str
    is_static: bool
    uses: Tuple[str, ...]
    line: str

    @property
    def folder(self) -> Path:
        return TOP / "crates" / self.name

    @property
    def out(self) -> Path:
        return self.folder / "out"

    @property
    def is_program(self) -> bool:
        return (self.folder / "src" / "main.rt").exists()

    def parts(self) -> List[Path]:
        """The folders of its sources."""
        return [self.folder / part for part in PARTS if (self.folder / part).is_dir()]

    def sources(self) -> List[Path]:
        found = []
        for part in self.parts():
            for folder, _, names in os.walk(part):
                found += [Path(folder, name) for name in names]
        return sorted(found)


class Program(NamedTuple):
    """A program, its crate, and the arguments of its trial run."""

    name: str
    crate: Crate
    trial: Tuple[str, ...]


class Built(NamedTuple):
    """What is built: the file that shows when, and its record."""

    file: Path
    record: Path


@functools.lru_cache(maxsize=None)
def read_crates() -> Dict[str, Crate]:
    """The crates of crates.txt, by name."""
    rows = {}
    for line in (TOP / "crates.txt").read_text().splitlines():
        head, colon, uses = line.partition("#")[0].partition(":")
        if colon:
            name, *kind = head.split()
            rows[name] = ("staticlib" in kind, uses.split(), line)
    return {
        name: Crate(name, is_static, tuple(use for use in uses if use in rows), line)
        for name, (is_static, uses, line) in rows.items()
    }


def static_library() -> Crate:
    """The crate of the library for C."""
    return next(crate for crate in read_crates().values() if crate.is_static)


def read_programs() -> Dict[str, Program]:
    """The programs of programs.txt, by name, whose crates are in this copy of the repository."""
    found = {}
    for line in (TOP / "programs.txt").read_text().splitlines():
        words = line.partition("#")[0].split()
        if words and words[1] in read_crates():
            found[words[0]] = Program(words[0], read_crates()[words[1]], tuple(words[2:]))
    return found


def with_used(crates: Iterable[Crate]) -> List[Crate]:
    """These crates and all that they use, each after those that it uses."""
    found: List[Crate] = []

    def add(crate: Crate) -> None:
        for use in crate.uses:
            add(read_crates()[use])
        if crate not in found:
            found.append(crate)

    for crate in crates:
        add(crate)
    return found


def with_record(file: Path) -> Built:
    return Built(file, file.with_name(f"{file.name}.built_from"))


def built_file(crate: Crate) -> Built:
    """What the toolchain builds of a crate. It removes the folder of a library before it builds it
    again, and the record in it."""
    if crate.is_program:
        return with_record(crate.out / crate.name)
    if crate.is_static:
        return with_record(crate.out / f"lib{crate.name}.a")
    folder = crate.out / "rlib"
    return Built(folder / f"{crate.name}.rlib" / "format", folder / "built_from")


def sum_of_file(path: Path) -> str:
    return hashlib.sha256(path.read_bytes()).hexdigest()


@functools.lru_cache(maxsize=None)
def sums_of(crate: Crate) -> Dict[str, str]:
    """The sum of each source of a crate itself, by its name from the top of the repository."""
    return {str(path.relative_to(TOP)): sum_of_file(path) for path in crate.sources()}


def all_sums(crate: Crate, more: Iterable[Path] = ()) -> Dict[str, str]:
    """The sums of all that a crate is built from: its sources, those of the crates that it uses,
    their lines of crates.txt, and more files."""
    found = {str(path.relative_to(TOP)): sum_of_file(path) for path in more}
    for used in with_used([crate]):
        found.update(sums_of(used))
        found[f"crates.txt ({used.name})"] = hashlib.sha256(used.line.encode()).hexdigest()
    return found


def identity(file: Path) -> str:
    """What tells a built file from one that was built again later."""
    found = file.stat()
    return f"{found.st_size} {found.st_mtime_ns}"


def write_record(built: Built, toolchain: str, sums: Dict[str, str]) -> None:
    """Records what a file was built from."""
    lines = [identity(built.file), toolchain, *(f"{sums[name]}  {name}" for name in sorted(sums))]
    built.record.write_text("".join(f"{line}\n" for line in lines))


class Record(NamedTuple):
    toolchain: str
    sums: Dict[str, str]


def read_record(built: Built) -> Optional[Record]:
    """The record of a built file, or None where there is none or it is of an older file."""
    try:
        found, toolchain, *lines = built.record.read_text().splitlines()
    except (OSError, ValueError):
        return None
    if found != identity(built.file):
        return None
    return Record(toolchain, {line[66:]: line[:64] for line in lines})


def newer_files(built: Built, crate: Crate, more: Iterable[Path]) -> Iterator[Path]:
    """The sources that are newer than what was built, and folders, in which one was added or
    removed."""
    limit = built.file.stat().st_mtime_ns
    paths = [TOP / "crates.txt", *more]
    for used in with_used([crate]):
        for part in used.parts():
            paths += [Path(folder) for folder, _, _ in os.walk(part)]
        paths += used.sources()
    return (path for path in paths if path.stat().st_mtime_ns > limit)


def why_to_build(built: Built, crate: Crate, more: Iterable[Path] = ()) -> Optional[str]:
    """Why something has to be built of a crate and of more files; None where it is up to date."""
    if not built.file.exists():
        return "it isn't built yet"
    record = read_record(built)
    if record is None:
        newer = (path.relative_to(TOP) for path in newer_files(built, crate, more))
        return next((f"{name} is newer than what is built" for name in newer), None)
    sums = all_sums(crate, more)
    names = sorted({*sums, *record.sums})
    changed = (name for name in names if sums.get(name) != record.sums.get(name))
    return next((f"{name} has changed" for name in changed), None)


def has_library(crate: Crate, toolchain: str) -> bool:
    """Whether the toolchain can build on the library as it stands, which has its stamp then."""
    built = built_file(crate)
    record = read_record(built)
    is_of_another = record is not None and record.toolchain != toolchain
    has_stamp = (built.record.parent / "stamp").exists()
    return has_stamp and not is_of_another and why_to_build(built, crate) is None


def count_lines(crate: Crate) -> int:
    """About how much there is to prove in a crate."""
    return sum(len(re.findall(b"\n", path.read_bytes())) for path in crate.sources())
