"""Verifies a batch of files by one process of `claxon verify`.

It imports Python's own modules alone, as it is sent to the workers of a cluster as it is.
"""
import errno
import json
import os
import shutil
import stat
import subprocess
import sys
import tempfile
import time
from contextlib import ExitStack, contextmanager, nullcontext, suppress
from typing import IO, Any, ContextManager, Dict, Iterator, List, NamedTuple, Optional, Tuple

# What is known of a file that was verified, in the order of the first columns of the results.
Row = Tuple[
    bytes,  # path; that of a folder ends with a slash
    Optional[int],  # size in bytes
    Optional[int],  # time of the last change, in nanoseconds since 1970
    int,  # when this was found, in seconds since 1970
    str,  # verdict
    Optional[int],  # samples of each channel that were decoded
    Optional[str],  # verdict on the MD5 sum
    Optional[int],  # the byte at which the first damage begins
    Optional[int],  # the sample at which it begins
    Optional[str],  # what is wrong first, or why the file isn't supported or read
    Optional[int],  # the number of places that aren't right
    Optional[str],  # where they are: ranges of thousandths of the file, and of what is missing
    Optional[str],  # version of claxon
    Optional[int],  # sample rate in Hz
    Optional[int],  # samples of each channel that the streaminfo says
    Optional[str],  # the MD5 sum of the samples as computed, in hexadecimal digits
]

# A file as it was just before it was verified: the first three columns.
File = Tuple[bytes, int, int]

_PROGRAM = "CLAXON_PROGRAM"

# The versions of programs that were asked for them, by their paths and the times of their files.
_VERSIONS: Dict[Tuple[str, int], str] = {}

# A right stream of 32 samples.
_RIGHT = bytes.fromhex(
    "664c614380000022001000100000000000000ac4407000000020a2178117d5e9ed5f7660ab3e6719c6a2"
    "fff86902000fb700017a27fff86902010fa200027b51"
)

# The member of an object that has the MD5 sum of the samples as computed.
_SUM = "computed_md5"

# Longer lines are decoded in pieces: a file that is made of faults has millions of places.
_LONG = 1 << 20
_PLACES, _BETWEEN = b'"places":[', b'},{"start_byte":'

# What the system says of reads that fail. Such a read inside a frame may be told as a place.
_READ_FAILED = frozenset(os.strerror(number) for number in errno.errorcode)
_READ_NOTE = "a read failed"

# The number of places that are wanted of a file: its parts are those of all.
_ALL_PLACES = str(2**40)

# How the text begins of a file that ends inside a frame, and how many thousandths are said to be
# missing at most.
_CUT, _MOST_MISSING = "truncated", 99_000

# What is raised where a line isn't the object of a file.
_NOT_AN_OBJECT = (ValueError, AttributeError, LookupError, TypeError)

# The integers of SQLite have 64 bits, one of which is the sign.
SIGN = 1 << 63


class Unable(Exception):
    """No file can be verified here. The text says why."""


def signed(number: int) -> int:
    """The number as an integer of SQLite."""
    return (number + SIGN) % (2 * SIGN) - SIGN


def find_program(beside: Optional[str]) -> str:
    """The path of the program `claxon`. `beside` is where it is if no other is named."""
    named = os.environ.get(_PROGRAM)
    if named:
        return os.path.abspath(named) if os.sep in named else named
    found = shutil.which("claxon")
    if found is None and beside is not None and os.access(beside, os.X_OK):
        found = beside
    if found is None:
        raise FileNotFoundError(
            f"the program `claxon` wasn't found on {os.uname().nodename}: it isn't on the PATH, and"
            f" the environment variable {_PROGRAM} doesn't name it"
        )
    return os.path.abspath(found)


def version_of(program: str) -> str:
    """The version of the program. OSError says why there is none."""
    try:
        key = program, os.stat(program).st_mtime_ns
        if key in _VERSIONS:
            return _VERSIONS[key]
        output = subprocess.run(
            [program, "--version"], stdin=subprocess.DEVNULL, capture_output=True, check=False
        ).stdout.split()
    except OSError as error:
        raise OSError(f"{program}: {error.strerror}") from error
    if len(output) != 2 or output[0] != b"claxon":
        raise OSError(f"{program} isn't the program `claxon`: it has no version")
    return _VERSIONS.setdefault(key, output[1].decode("ascii", "replace"))


def check_program(program: str) -> None:
    """Tries the program on a right file; where it is to be built first, this waits. OSError and
    Unable say why it doesn't do."""
    version_of(program)
    with ExitStack() as stack:
        with _temporary():
            folder = stack.enter_context(tempfile.TemporaryDirectory(prefix="claxon-archive-"))
            with open(os.path.join(folder, "right"), "wb") as right:
                right.write(_RIGHT)
            with open(os.path.join(folder, "list"), "wb") as names:
                names.write(b"right\0")
        # Its standard error is no terminal then: it shows how it is built, and no progress.
        shown = stack.enter_context(subprocess.Popen(["cat"], stdin=subprocess.PIPE, stdout=2))
        ended = subprocess.run(
            [program, "verify", "--json", "--files0-from", "list"],
            stdin=subprocess.DEVNULL,
            stdout=subprocess.PIPE,
            stderr=shown.stdin,
            cwd=folder,
            check=False,
        )
    if ended.returncode != 0 or b'"verdict":"ok"' not in ended.stdout:
        raise OSError(
            f"{program} doesn't do: `verify --json` of a right file ended with status"
            f" {ended.returncode}"
        )


# What a process of `claxon verify` runs in.
Turn = ContextManager[object]


# ---- what a worker does


class ToShow(NamedTuple):
    """What a worker has to show before it is given files."""

    version: str
    # The operands, each with some of what is in it, of which it has to see one.
    operands: List[Tuple[bytes, List[bytes]]]


class Attempt(NamedTuple):
    """What came of a batch."""

    worker: str
    rows: Optional[List[Row]]  # None if it failed
    why: str  # it failed
    is_able: bool  # whether other files can be verified there
    has_died: bool = False  # the worker, with all batches that it had


def attempt(
    names: bytes, beside: Optional[str], to_show: Any = None, turn: Turn = nullcontext()
) -> Tuple[str, Optional[List[Row]], str, bool]:
    """Verifies a batch as `verify_batch`: the members of an `Attempt`. No exception leaves it."""
    worker = _worker()
    try:
        rows = verify_batch(names, beside, turn)
        if to_show is not None and any(row[4] == "not read" for row in rows):
            _check_seen(to_show[1])
        return worker, rows, "", True
    except Unable as error:
        return worker, None, str(error), False
    except Exception as error:
        why = "memory is refused" if isinstance(error, MemoryError) else str(error)
        unable = why_unable(beside, to_show)
        return worker, None, unable or why or type(error).__name__, not unable


def why_unable(beside: Optional[str], to_show: Any = None) -> str:
    """Why no file can be verified here; an empty text if files can be. `to_show` has the
    members of a `ToShow`."""
    try:
        program = find_program(beside)
        check_program(program)
        if to_show is not None:
            version, operands = to_show
            if version_of(program) != version:
                return f"{program} has version {version_of(program)}, and {version} is wanted"
            _check_seen(operands)
    except (OSError, Unable) as error:
        return str(error)
    return ""


def _worker() -> str:
    """The address of the worker of Dask that this is, or an empty text."""
    distributed = sys.modules.get("distributed")
    try:
        return str(distributed.get_worker().address) if distributed else ""
    except ValueError:
        return ""


def _check_seen(operands: List[Tuple[bytes, List[bytes]]]) -> None:
    for operand, entries in operands:
        if not os.path.exists(operand):
            raise Unable(f"it doesn't see {os.fsdecode(operand)}")
        if entries and not any(os.path.lexists(entry) for entry in entries):
            raise Unable(f"it doesn't see what is in {os.fsdecode(operand)}")


# ---- a batch


def verify_batch(names: bytes, beside: Optional[str], turn: Turn = nullcontext()) -> List[Row]:
    """A row for each of the files whose paths are in `names`, each ended by a zero byte. A file
    that isn't a regular one any more has none."""
    try:
        program = find_program(beside)
        version = version_of(program)
    except OSError as error:
        raise Unable(str(error)) from error
    rows: List[Row] = []
    files: List[File] = []
    for path in names.split(b"\0")[:-1]:
        try:
            status = os.stat(path)
        except OSError as error:
            rows.append(unread_row(path, error.strerror or str(error), version))
            continue
        if stat.S_ISREG(status.st_mode):
            changed = status.st_mtime_ns
            files.append((path, status.st_size, signed(changed)))
    return rows + _verify_files(program, version, files, turn)


def is_text(path: bytes) -> bool:
    """Whether the path is UTF-8, as it has to be in a list for `claxon verify`."""
    try:
        path.decode("utf-8")
    except UnicodeDecodeError:
        return False
    return True


def _verify_files(program: str, version: str, files: List[File], turn: Turn) -> List[Row]:
    """Where the process ends early, the file that it was at isn't read, and a next one goes on."""
    rows: List[Row] = []
    in_vain = 0
    while len(rows) < len(files):
        left = files[len(rows) :]
        told, why = _run(program, version, left, turn)
        rows += told
        if len(told) < len(left):
            rows.append(unread_row(left[len(told)][0], why, version))
            in_vain = 0 if told else in_vain + 1
        if in_vain > 1:
            check_program(program)
    return rows


def _run(program: str, version: str, files: List[File], turn: Turn) -> Tuple[List[Row], str]:
    """The rows of the files of which `claxon verify` told, also before it was killed, and how it
    ended.

    It writes each object at once. They go to a file, since a pipe would wake this process for each.
    Its session is its own, so that Ctrl-C at a terminal doesn't end it.
    """
    with ExitStack() as stack:
        with _temporary():
            names, folder = _put_names(files, stack)
            output = stack.enter_context(tempfile.TemporaryFile())
            errors = stack.enter_context(tempfile.TemporaryFile())
        with turn:
            status = subprocess.call(
                [program, "verify", "--json", "--places", _ALL_PLACES, "--files0-from", "-"],
                stdin=names,
                stdout=output,
                stderr=errors,
                start_new_session=True,
                cwd=folder,
            )
        output.seek(0)
        rows = list(_rows(program, version, files, output))
        if len(rows) == len(files):
            return rows, ""
        _check_room(output)
        errors.seek(0)
        lines = [line for line in errors.read().decode("utf-8", "replace").split("\n") if line]
    how = f"ended with status {status}" if status >= 0 else f"was ended by signal {-status}"
    return rows, ": ".join([f"claxon {how} before it told a verdict", *lines[-1:]])


@contextmanager
def _temporary() -> Iterator[None]:
    """For what is written to the temporary folder: an error names it."""
    try:
        yield
    except OSError as error:
        raise Unable(f"{tempfile.gettempdir()}: {error.strerror or error}") from error


def _put_names(files: List[File], stack: ExitStack) -> Tuple[IO[bytes], Optional[str]]:
    """The list of the files, and the folder in which it holds. A name that isn't UTF-8 is that of a
    link in a folder of its own."""
    paths = [path for path, _, _ in files]
    folder: Optional[str] = None
    if not is_text(b"\0".join(paths)):
        folder = stack.enter_context(tempfile.TemporaryDirectory(prefix="claxon-archive-"))
        for index, path in enumerate(paths):
            if not is_text(path):
                paths[index] = b"%d" % index
                os.symlink(path, os.path.join(os.fsencode(folder), paths[index]))
    names = stack.enter_context(tempfile.TemporaryFile())
    names.write(b"\0".join([*paths, b""]))
    names.seek(0)
    return names, folder


def _check_room(output: IO[bytes]) -> None:
    """Whether the process may have ended early for want of room is tried while its output takes
    it."""
    with _temporary():
        output.seek(0, os.SEEK_END)
        output.write(bytes(1 << 16))
        output.flush()


def _rows(program: str, version: str, files: List[File], output: IO[bytes]) -> Iterator[Row]:
    """The rows of the lines that are whole."""
    lines, objects = _decoded(output)
    for file, line, told in zip(files, lines, objects):
        try:
            is_right = told["verdict"] == "ok"
            row = _right_row(file, told, version) if is_right else _other_row(file, told, version)
        except _NOT_AN_OBJECT:
            raise _other_output(program, line + b"\n") from None
        yield row
    for file in files[len(objects) :]:
        line = output.readline(_LONG)
        try:
            found = _row_of_line(file, line, output, version)
        except _NOT_AN_OBJECT:
            raise _other_output(program, line) from None
        if found is None:
            return
        yield found


def _other_output(program: str, line: bytes) -> OSError:
    begin = line[:200]
    return OSError(f"{program} printed what isn't the object of a file: {begin!r}")


def _decoded(output: IO[bytes]) -> Tuple[List[bytes], List[Any]]:
    """The lines, and what they tell, if they are short: to decode them as one array takes less
    time. None where one isn't an object: they are read again then."""
    found: List[Any] = []
    lines: List[bytes] = []
    if output.seek(0, os.SEEK_END) <= _LONG:
        output.seek(0)
        lines = output.read().split(b"\n")[:-1]
        with suppress(ValueError):
            found = json.loads((b"[" + b",".join(lines) + b"]").decode())
    if len(found) != len(lines) or not found:
        output.seek(0)
        return [], []
    return lines, found


def _row_of_line(file: File, line: bytes, output: IO[bytes], version: str) -> Optional[Row]:
    """The row of a line of which this is the begin, or all. None if the line isn't whole."""
    if line.endswith(b"\n"):
        return _other_row(file, json.loads(line.decode()), version)
    places = _Places(file[1])
    told = _long_object(line, output, places) if len(line) == _LONG else None
    return None if told is None else _kept(_row(file, told, places, version))


def _other_row(file: File, told: Dict[str, Any], version: str) -> Row:
    """The row of a file of which this is told, right or not."""
    places = _Places(file[1])
    places.add(told.get("places", []))
    return _kept(_row(file, told, places, version))


def _right_row(file: File, told: Dict[str, Any], version: str) -> Row:
    """The same of a file that is right, in less time, as most are."""
    samples, md5 = told.get("samples"), told.get("md5")
    rate, total, computed = told.get("sample_rate"), told.get("streaminfo_samples"), told.get(_SUM)
    for value in (samples, md5, rate, total, computed):
        if not _is_kept(value):
            raise ValueError
    now, no = int(time.time()), None
    return (*file, now, "ok", samples, md5, no, no, no, no, no, version, rate, total, computed)


def _kept(row: Row) -> Row:
    """ValueError where SQLite can't keep a value of it."""
    if not all(map(_is_kept, row)):
        raise ValueError
    return row


def _is_kept(value: Any) -> bool:
    """Whether SQLite can keep the value."""
    if isinstance(value, int):
        return -SIGN <= value < SIGN
    if isinstance(value, str):
        value.encode()  # ValueError where it isn't text
        return True
    return value is None or isinstance(value, bytes)


class _Places:
    """What is kept of the places of a file that aren't right: the first, what is wrong at the last
    and its first sample, their number, and in which thousandths of the file they are."""

    def __init__(self, size: int) -> None:
        self._size = max(size, 1)
        self._ranges: List[List[int]] = []
        self.first: Dict[str, Any] = {}
        self.last = ""
        self.last_sample: Optional[int] = None
        self.is_cut = False
        self.number = 0

    def add(self, places: List[Dict[str, Any]]) -> None:
        if not places:
            return
        self.first = self.first or places[0]
        self.last = str(places[-1]["what"])
        self.last_sample = places[-1].get("start_sample")
        is_at_end = places[-1]["start_byte"] == self._size
        self.is_cut = self.last.startswith(_CUT) or (
            is_at_end and self.last.endswith(" missing")
        )
        self.number += len(places)
        for place in places:
            if place["start_byte"] < self._size:
                self._add_range(place["start_byte"], place["end_byte"])

    def _add_range(self, start: int, end: int) -> None:
        first = min(999, start * 1000 // self._size)
        last = max(first, min(999, (end * 1000 - 1) // self._size))
        if self._ranges and first <= self._ranges[-1][1] + 1:
            self._ranges[-1][1] = max(self._ranges[-1][1], last)
        else:
            self._ranges.append([first, last])

    def parts(self, missing: int) -> Optional[str]:
        """As `17-17 500-612`, the first being 0; from 1000 on so many are missing."""
        ranges = [*self._ranges, [1000, 999 + missing]] if missing else self._ranges
        return " ".join(f"{first}-{last}" for first, last in ranges) or None


def _long_object(begin: bytes, output: IO[bytes], places: _Places) -> Optional[Dict[str, Any]]:
    """The object of a line of which this is the begin, with its last places alone: the others are
    added to `places`. None if the line isn't whole."""
    head, _, rest = begin.partition(_PLACES)
    while not rest.endswith(b"\n"):
        end = rest.rfind(_BETWEEN)
        if end >= 0:
            places.add(json.loads(b"[" + rest[: end + 1] + b"]"))
            rest = rest[end + 2 :]
        more = output.readline(_LONG)
        if not more:
            return None
        rest += more
    told: Dict[str, Any] = json.loads(head.rstrip(b",") + b"}")
    told.update(json.loads(b"{" + _PLACES + rest))
    places.add(told["places"])
    return told


def unread_row(path: bytes, why: str, version: Optional[str]) -> Row:
    """The row of a file that couldn't be read."""
    now, no = int(time.time()), None
    return (path, no, no, now, "not read", no, no, no, no, why, no, no, version, no, no, no)


def _row(file: File, told: Dict[str, Any], places: _Places, version: str) -> Row:
    verdict = told["verdict"]
    has_failed = _READ_NOTE in told.get("notes", ())
    if verdict == "not read" or places.last in _READ_FAILED or has_failed:
        why = places.last if places.last in _READ_FAILED else _READ_NOTE
        return unread_row(file[0], str(told.get("reason") or why), version)
    is_wrong = verdict == "wrong"
    return (
        *file,
        int(time.time()),
        verdict,
        told.get("samples"),
        told.get("md5"),
        places.first.get("start_byte") if is_wrong else None,
        places.first.get("start_sample") if is_wrong else None,
        None if verdict == "ok" else _what_is_wrong(told, places),
        places.number + told.get("left_out", 0) if is_wrong else None,
        places.parts(_missing(told, places)) if is_wrong else None,
        version,
        told.get("sample_rate"),
        told.get("streaminfo_samples"),
        told.get(_SUM),
    )


def _missing(told: Dict[str, Any], places: _Places) -> int:
    """What is missing at the end of the file, in thousandths of what is there, by the number of
    samples. It is 0 where that isn't known."""
    there, said = told.get("samples", 0), told.get("streaminfo_samples", 0)
    if places.number > 0:
        there = places.last_sample or 0
        is_known = places.is_cut and "left_out" not in told
    else:
        is_known = told.get("md5") != "ok"
    if not is_known or said <= there:
        return 0
    return max(1, min(_MOST_MISSING, (int(said) - int(there)) * 1000 // max(1, int(there))))


def _what_is_wrong(told: Dict[str, Any], places: _Places) -> str:
    if "reason" in told:
        return str(told["reason"])
    if places.first:
        return str(places.first["what"])
    said = told.get("streaminfo_samples", told["samples"])
    if said != told["samples"]:
        return f"the streaminfo says {said} sample" + ("" if said == 1 else "s")
    return "the MD5 sum of the samples isn't that of the streaminfo"
