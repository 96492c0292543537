"""Runs decoders over a file, with limits of time and memory, and reads their results."""
import dataclasses
import json
import os
import re
import resource
import subprocess
from typing import Any, Dict, List, Optional, Sequence, Tuple

HEAD = re.compile(
    r"head blocks (\d+)-(\d+) frames (?:\d+|none)-(?:\d+|none) rate (\d+) channels ([1-8])"
    r" width (\d+) samples (\d+|none) md5 ([0-9a-f]{32})"
)
BLOCK = re.compile(r"block time (\d+) channels ([1-8]) duration ([1-9]\d*) fnv ([0-9a-f]{16})")
FAULT = re.compile(
    r"fault (IO|Ill-formed FLAC stream: .+"
    r"|A currently unsupported feature of the FLAC format was .+)"
)
MAX_FAULTS = 10000
STOPPED = f"stopped after {MAX_FAULTS} faults"


@dataclasses.dataclass
class Limits:
    """The limits of one run: seconds of processor time, and mebibytes of memory, 0 for no limit."""

    seconds: int
    memory: int

    def set(self, process: int) -> None:
        """Limits a process that has just started. A limit that it sets itself would need a copy
        of this process."""
        try:
            resource.prlimit(process, resource.RLIMIT_CPU, (self.seconds, self.seconds + 1))
            if self.memory:
                resource.prlimit(
                    process, resource.RLIMIT_AS, (self.memory << 20, self.memory << 20)
                )
        except ProcessLookupError:
            pass


@dataclasses.dataclass
class Run:
    """What a program wrote and how it ended; `failure` is None where it ended by itself within
    its limits."""

    output: bytes
    errors: str
    status: int
    failure: Optional[str]

    def first_error(self) -> str:
        return self.errors.split("\n")[0]


def run(command: Sequence[str], limits: Limits) -> Run:
    """Runs a program until it ends or its time is over."""
    process = subprocess.Popen(
        command, stdin=subprocess.DEVNULL, stdout=subprocess.PIPE, stderr=subprocess.PIPE
    )
    limits.set(process.pid)
    try:
        output, errors = process.communicate(timeout=4 * limits.seconds)
    except subprocess.TimeoutExpired:
        process.kill()
        process.communicate()
        return Run(b"", "", -1, "timeout")
    failure = f"signal {-process.returncode}" if process.returncode < 0 else None
    return Run(output, errors.decode("utf-8", "replace"), process.returncode, failure)


@dataclasses.dataclass
class Trace:
    """The trace of `claxon trace` up to its first fault. `wrong` is what no run may do, or None."""

    head: Optional[Tuple[str, ...]] = None
    blocks: List[Tuple[int, int, int, str]] = dataclasses.field(default_factory=list)
    fault: Optional[str] = None
    wrong: Optional[str] = None


def check_ending(finished: Run, path: str, lines: List[str], trace: Trace) -> Optional[str]:
    """What is wrong with the end of a trace, or None."""
    faults = sum(line.startswith("fault") for line in lines)
    if finished.status != (1 if faults else 0):
        return f"status {finished.status} with {faults} faults"
    was_stopped = faults == MAX_FAULTS and lines[-1] != "fault IO"
    expected = STOPPED if was_stopped else ".+" if lines[-1:] == ["fault IO"] else None
    pattern = f"{re.escape(path)}: {expected}\n" if expected else ""
    if not re.fullmatch(pattern, finished.errors):
        return f"errors: {finished.first_error()}"
    has_ended = lines[-1:] in (["end"], ["fault IO"]) or (not trace.head and len(lines) == 1)
    return None if has_ended or was_stopped else "no last line"


def read_line(line: str, trace: Trace) -> bool:
    """Adds a line to a trace, and returns whether it has the form of one."""
    block, fault, head = BLOCK.fullmatch(line), FAULT.fullmatch(line), HEAD.fullmatch(line)
    if block and trace.head:
        if trace.fault is None:
            trace.blocks.append((int(block[1]), int(block[2]), int(block[3]), block[4]))
    elif fault:
        trace.fault = trace.fault or fault[1].removeprefix("Ill-formed FLAC stream: ")
    elif head and not trace.head:
        trace.head = head.groups()
    else:
        return line == "end" and trace.head is not None
    return True


def claxon(program: str, path: str, limits: Limits) -> Trace:
    """Runs `claxon trace`."""
    finished = run([program, "trace", path], limits)
    trace = Trace(wrong=finished.failure)
    if trace.wrong:
        return trace
    lines = finished.output.decode("utf-8", "replace").split("\n")[:-1]
    for line in lines:
        if not read_line(line, trace):
            trace.wrong = f"line: {line[:80]}"
            return trace
    trace.wrong = check_ending(finished, path, lines, trace)
    return trace


STATUSES = {"ok": 0, "wrong": 1, "not supported": 3}


def verdict(
    program: str, path: str, limits: Limits
) -> Tuple[Optional[Dict[str, Any]], Optional[str]]:
    """Runs `claxon verify --json`: the object that it prints, or None, and what no run may do,
    or None."""
    finished = run([program, "verify", "--json", path], limits)
    if finished.failure or finished.errors:
        return None, finished.failure or f"errors: {finished.first_error()}"
    try:
        found = json.loads(finished.output)
    except ValueError:
        return None, f"no JSON: {finished.output[:80]!r}"
    if finished.status != STATUSES.get(found["verdict"]) or finished.output.count(b"\n") != 1:
        return None, f"status {finished.status} with the verdict {found['verdict']}"
    return found, None


@dataclasses.dataclass
class Samples:
    """The result of `flac`: why it refused the stream, or None; and the samples as bytes of a
    WAV file."""

    refusal: Optional[str] = None
    data: bytes = b""


def refusal_of(finished: Run) -> Optional[str]:
    """The first error message of `flac`, with N for each number, or None."""
    for line in finished.errors.split("\n"):
        line = line.split(".flac: ")[-1].strip()
        if line and not line.startswith("WARNING, cannot check MD5 signature"):
            return re.sub(r"\d+", "N", line.removeprefix("*** Got error code "))
    return None if finished.status == 0 else f"status {finished.status}"


def flac(program: str, path: str, limits: Limits) -> Samples:
    """Runs `flac -d`."""
    wav = path + ".wav"
    finished = run([program, "-d", "-s", "-f", "-o", wav, path], limits)
    samples = Samples(finished.failure or refusal_of(finished))
    if os.path.exists(wav):
        with open(wav, "rb") as file:
            samples.data = data_chunk(file.read())
        os.remove(wav)
    return samples


def data_chunk(wav: bytes) -> bytes:
    """The content of the data chunk of a WAV file."""
    at = 12
    while at + 8 <= len(wav):
        size = int.from_bytes(wav[at + 4 : at + 8], "little")
        if wav[at : at + 4] == b"data":
            return wav[at + 8 : at + 8 + size]
        at += 8 + size + size % 2
    return b""
