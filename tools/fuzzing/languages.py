"""What the library for C, its claxon_stream.h, the crate for Rust and the module for Python say of
a stream in pieces: it has to be the same, and what the library says of all bytes at once.

The crate is asked by its example `events`, and claxon_stream.h by stream_calls.c in this folder.
"""
import ctypes
import functools
import io
import itertools
import os
import struct
import subprocess
import sys
import tempfile
from pathlib import Path
from random import Random
from typing import Callable, Iterable, Iterator, List, NamedTuple, Optional, Tuple

from fuzzing.engine import BUFFERS, Engine, Event, Events, Pieces, block_event, cuts_of, pieces_of
from repository.crates import TOP

sys.path.insert(0, str(TOP / "python"))
import claxon  # noqa: E402
from claxon import _calls, _errors  # noqa: E402
from claxon._calls import NEED_MORE, NO_MORE, OK  # noqa: E402

KINDS = {1: "FormatError", 2: "Unsupported", 3: "InputEnds", 4: "OutOfMemory"}
UNLIMITED = (1 << 64) - 1
library = _calls.library


def fault_of(status: int, text: bytes) -> Tuple[str, str]:
    """The kind and the text of a fault. That the bytes end has other texts in other languages."""
    kind = KINDS.get(status, str(status))
    return kind, "" if kind == "InputEnds" else text.decode()


# ---- the library for C


def opened(data: bytes) -> Tuple[Optional[_calls.Info], Events]:
    """What is known of the stream, or the fault of its head."""
    info, error = _calls.Info(), BUFFERS.error
    status = library.claxon_open(data, len(data), info, error, len(error))
    if status == OK:
        return info, []
    return None, [("head", *fault_of(status, error.value))]


def in_memory(data: bytes, info: _calls.Info) -> Events:
    """What the calls for whole bytes say, by which those for pieces are specified."""
    events: Events = []
    at, memory = ctypes.c_size_t(info.first_frame), ctypes.c_char_p(data)
    while True:
        arguments = BUFFERS.arguments()
        status = library.claxon_next_block_planar(memory, len(data), at, info, *arguments)
        if status == OK:
            events.append(BUFFERS.event())
            continue
        if status == NO_MORE:
            return events
        events.append(("fault", at.value, *fault_of(status, BUFFERS.error.value)))
        begin, at.value = at.value, min(at.value + 1, len(data))
        budget = ctypes.c_uint64(UNLIMITED)
        found = library.claxon_find_frame(memory, len(data), at, info, budget, BUFFERS.block)
        events.append(("skipped", at.value - begin if found == OK else None))
        if found != OK:
            return events


class Times:
    """The times of blocks that are shown."""

    def __init__(self, info: _calls.Info) -> None:
        self._info = info
        self.clock = _calls.Clock()
        library.claxon_clock_start(self.clock, info)

    def note(self, frame: _calls.Frame) -> Event:
        """The event of a block that was decoded."""
        time = ctypes.c_uint64(BUFFERS.block.time)
        library.claxon_clock_show(self.clock, self._info, frame, time)
        event = BUFFERS.event()
        return event[0], time.value, *event[2:]


def by_calls(data: bytes, pieces: Pieces, info: _calls.Info) -> Tuple[Events, Events, bool]:
    """What the calls for pieces say, the same with the times of the clock, and whether the search
    passed a header over."""
    events: Events = []
    shown: Events = []
    engine, times = Engine(data, pieces), Times(info)
    for event in engine.walk(info.first_frame, info):
        if event[0] == "fault":
            event = (*event[:2], *fault_of(*event[2:]))
        events.append(event)
        shown.append(times.note(engine.frames.last) if event[0] == "block" else event)
    return events, shown, bool(engine.search.has_passed_over)


class Seeks:
    """The seeks in a stream by the calls for pieces, one after another."""

    def __init__(self, data: bytes, pieces: Pieces, info: _calls.Info) -> None:
        self._data, self._info = data, info
        self._lengths = itertools.cycle(pieces or [1])
        self._times = Times(info)
        self._frames = _calls.Frames()

    def _note_first(self) -> None:
        """Notes the first two frames, where the clock needs them."""
        frames, memory = self._frames, self._data
        library.claxon_frames_go_on(frames, self._info.first_frame)
        for _ in range(2):
            if not library.claxon_clock_needs_frames(self._times.clock):
                break
            arguments = [self._info, *BUFFERS.arguments()]
            if library.claxon_frames_next_planar(frames, memory, len(memory), 0, 1, *arguments):
                break
            self._times.note(frames.last)

    def events(self, sample: int) -> Events:
        """How many samples come before the one that is sought, and the block that has it."""
        self._note_first()
        data, info, seeker = self._data, self._info, _calls.Seeker()
        library.claxon_seeker_start(seeker, info, len(data), sample, self._times.clock)
        start, end = 0, 0
        while True:
            held = data[start:end] if start < len(data) else b""
            arguments = [info, *BUFFERS.arguments()[:3]]
            is_end = end >= len(data)
            status = library.claxon_seeker_next_planar(
                seeker, held, len(held), start, is_end, *arguments
            )
            if status != NEED_MORE:
                break
            last = end if start <= seeker.position <= end else seeker.position
            start, end = seeker.position, max(last, min(len(data), last + next(self._lengths)))
        if status != OK:
            return [("sought", None)]
        self._frames.last = seeker.found
        before = sample - BUFFERS.block.time
        return [("sought", before), self._times.note(seeker.found)]


def samples_of(rng: Random, shown: Events) -> List[int]:
    """Samples to seek: at the borders of blocks, and others."""
    blocks = [event for event in shown if event[0] == "block"]
    times = [block[1] + rng.choice((-1, 0, block[3] - 1, block[3])) for block in blocks]
    picked = [rng.choice(times) for _ in range(3)] if times else []
    return [min(max(0, sample), (1 << 32) - 1) for sample in (*picked, rng.randrange(100000))]


@functools.lru_cache(maxsize=1)
def stream_calls() -> ctypes.CDLL:
    """The calls of claxon_stream.h. OSError where they can't be built."""
    name = Path(library._name).resolve()
    with tempfile.TemporaryDirectory() as folder:
        built, source = Path(folder, "stream_calls.so"), Path(__file__).with_name("stream_calls.c")
        words = ["cc", "-O1", "-fPIC", "-shared", "-I", str(TOP / "c"), "-o", str(built)]
        subprocess.run([*words, str(source), str(name)], check=True)
        found = ctypes.CDLL(str(built))
    found.stream_begin.restype = found.stream_over.restype = ctypes.c_void_p
    found.stream_over.argtypes = [ctypes.c_char_p, ctypes.c_size_t, ctypes.c_size_t]
    found.stream_seek.argtypes = [ctypes.c_void_p, ctypes.c_uint64]
    found.stream_block.restype = ctypes.POINTER(_calls.Block)
    found.stream_samples.restype = ctypes.c_void_p
    found.stream_position.restype = ctypes.c_uint64
    found.stream_error.restype = ctypes.c_char_p
    for call in ("end", "feed_end", "open", "next_block", "resync", "block", "samples", "position"):
        getattr(found, f"stream_{call}").argtypes = [ctypes.c_void_p]
    found.stream_error.argtypes = [ctypes.c_void_p]
    found.stream_feed.argtypes = [ctypes.c_void_p, ctypes.c_char_p, ctypes.c_size_t]
    return found


def by_stream(data: bytes, pieces: Pieces) -> Events:
    """What claxon_stream.h says."""
    calls, cuts = stream_calls(), cuts_of(data, pieces)
    stream = ctypes.c_void_p(calls.stream_begin())

    def answered(call: Callable[[ctypes.c_void_p], int]) -> int:
        while True:
            status = call(stream)
            if status != NEED_MORE:
                return status
            cut = next(cuts, None)
            if cut is None:
                calls.stream_feed_end(stream)
            else:
                calls.stream_feed(stream, cut, len(cut))

    try:
        status = answered(calls.stream_open)
        if status != OK:
            return [("head", *fault_of(status, calls.stream_error(stream)))]
        return list(stream_events(calls, stream, answered))
    finally:
        calls.stream_end(stream)


def stream_events(
    calls: ctypes.CDLL,
    stream: ctypes.c_void_p,
    answered: Callable[[Callable[[ctypes.c_void_p], int]], int],
) -> Iterator[Event]:
    while True:
        status = answered(calls.stream_next_block)
        if status == NO_MORE:
            return
        begin = calls.stream_position(stream)
        if status == OK:
            block = calls.stream_block(stream).contents
            size = 4 * block.channels * block.duration
            yield block_event(block, ctypes.string_at(calls.stream_samples(stream), size))
            continue
        yield ("fault", begin, *fault_of(status, calls.stream_error(stream)))
        status = answered(calls.stream_resync)
        yield ("skipped", calls.stream_position(stream) - begin if status == OK else None)
        if status != OK:
            return


def sought_by_stream(data: bytes, piece: int, samples: List[int]) -> Events:
    """What claxon_stream_seek finds."""
    calls = stream_calls()
    events: Events = []
    stream = ctypes.c_void_p(calls.stream_over(data, len(data), piece))
    for sample in samples:
        if calls.stream_seek(stream, sample) != OK or calls.stream_next_block(stream) != OK:
            events.append(("sought", None))
            continue
        block = calls.stream_block(stream).contents
        size = 4 * block.channels * block.duration
        events.append(("sought", sample - block.time))
        events.append(block_event(block, ctypes.string_at(calls.stream_samples(stream), size)))
    calls.stream_end(stream)
    return events


# ---- the module for Python


def named(error: claxon.Error) -> Tuple[str, str]:
    """The kind and the text of an exception, as the library has them: some faults are told as what
    isn't supported."""
    kind, text = type(error).__name__, str(error)
    if text == _errors._32_BITS:
        text = _errors._RESERVED
    if text in (*_errors._ALLOWED, _errors._RESERVED):
        kind = "FormatError"
    return kind, "" if kind == "InputEnds" else text


class PieceFile(io.RawIOBase):
    """A file whose reads give the pieces."""

    def __init__(self, data: bytes, pieces: Pieces) -> None:
        self._cuts = [cut for cut in cuts_of(data, pieces) if cut]

    def read(self, most: int = -1) -> bytes:
        if not self._cuts:
            return b""
        cut = self._cuts.pop(0)
        if len(cut) > most:
            self._cuts.insert(0, cut[most:])
        return cut[:most]


def python_events(
    stream: "claxon.Flac | claxon.Feed", more: Callable[[], bool]
) -> Iterator[Event]:
    """What a stream says. `more` hands in bytes, if it can."""
    while True:
        try:
            for block in stream.blocks():
                yield python_block(block)
            if not more():
                return
        except claxon.Error as error:
            if isinstance(stream, claxon.Feed) and not stream._head.is_over():
                yield ("head", *named(error))
                return
            yield ("fault", error.position, *named(error))
            skipped = stream.resync()
            while skipped is None and more():
                skipped = stream.resync()
            yield ("skipped", skipped)
            if skipped is None:
                return


def python_block(block: claxon.Block) -> Event:
    fields = (block.time, block.channels, block.duration)
    rate, bits = block.sample_rate or 0, block.bits_per_sample or 0
    return ("block", *fields, rate, bits, block.planar.tobytes())


def sought_by_file(data: bytes, samples: List[int]) -> Events:
    """What `seek` of claxon.Flac finds."""
    flac = claxon.Flac(io.BytesIO(data))
    events: Events = []
    for sample in samples:
        try:
            events.append(("sought", flac.seek(sample)))
            events.append(python_block(next(flac.blocks())))
        except claxon.NoSuchSample:
            events.append(("sought", None))
    return events


def by_file(data: bytes, pieces: Pieces) -> Events:
    """What claxon.Flac says."""
    try:
        flac = claxon.Flac(PieceFile(data, pieces))
    except claxon.Error as error:
        return [("head", *named(error))]
    return list(python_events(flac, lambda: False))


def by_feed(data: bytes, pieces: Pieces) -> Events:
    """What claxon.Feed says."""
    feed, cuts = claxon.Feed(), cuts_of(data, pieces)

    def more() -> bool:
        cut, was_open = next(cuts, None), not feed._window.has_ended
        if cut is not None:
            feed.feed(cut)
        elif was_open:
            feed.close()
        return was_open

    return list(python_events(feed, more))


# ---- the crate for Rust


def events_program() -> Path:
    """The example of the crate. `cargo build --release --example events` builds it."""
    return TOP / "rust" / "target" / "release" / "examples" / "events"


@functools.lru_cache(maxsize=1)
def program_of(process: int) -> "subprocess.Popen[bytes]":
    """It, for this process of ours."""
    return subprocess.Popen(
        [str(events_program())], stdin=subprocess.PIPE, stdout=subprocess.PIPE
    )


def by_crate(data: bytes, pieces: Pieces, samples: List[int], has_head: bool) -> List[Events]:
    """What FlacReader says, without positions, and Decoder; and what they find at the samples."""
    program = program_of(os.getpid())
    assert program.stdin and program.stdout
    numbers = [len(pieces), *pieces, len(samples), *samples, len(data)]
    program.stdin.write(struct.pack(f"<{len(numbers)}I", *numbers) + data)
    program.stdin.flush()
    found: List[Events] = [[]]
    while True:
        line = program.stdout.readline().decode()
        if not line:
            raise ChildProcessError("the example events ended")
        kind, *words = line.split()
        if kind == "end":
            if len(found) == (4 if has_head else 2):
                return found
            found.append([])
        elif kind == "block":
            time, channels, duration, rate, bits = map(int, words)
            stored = program.stdout.read(4 * channels * duration)
            found[-1].append((kind, time, channels, duration, rate, bits, stored))
        elif kind in ("skipped", "sought"):
            found[-1].append((kind, int(words[0]) if words[0].isdigit() else None))
        else:
            position = [int(words.pop(0))] if kind == "fault" and words[0].isdigit() else []
            found[-1].append((kind, *position, words[0], " ".join(words[1:])))


# ---- all of them


class Answer(NamedTuple):
    """Who was asked, and what it said."""

    name: str
    events: Events
    has_positions: bool = True


def without_positions(events: Events) -> Events:
    return [(event[0], *event[2:]) if event[0] == "fault" else event for event in events]


def difference(expected: Events, answer: Answer) -> Optional[str]:
    """How the answer differs, or None."""
    if not answer.has_positions:
        expected = without_positions(expected)
    for wanted, found in zip(expected, answer.events):
        if wanted != found:
            what = "another" if wanted[0] == found[0] else f"{found[0]} for"
            return f"{answer.name}: {what} {wanted[0]}"
    if len(expected) != len(answer.events):
        return f"{answer.name}: {'more' if len(answer.events) > len(expected) else 'fewer'} events"
    return None


def answers_of(data: bytes, pieces: Pieces) -> Iterable[Answer]:
    yield Answer("claxon_stream.h", by_stream(data, pieces))
    yield Answer("Flac", by_file(data, pieces))
    yield Answer("Feed", by_feed(data, pieces))


def sought_of(data: bytes, pieces: Pieces, samples: List[int]) -> Iterable[Answer]:
    yield Answer("claxon_stream_seek", sought_by_stream(data, max(pieces, default=1), samples))
    yield Answer("Flac.seek", sought_by_file(data, samples))


def compare(rng: Random, data: bytes) -> Tuple[List[str], List[str]]:
    """The kinds of difference in what is said of a stream, and outcomes to count."""
    pieces = pieces_of(rng, len(data))
    info, expected = opened(data)
    kinds: List[str] = []
    samples: List[int] = []
    sought: Events = []
    passes_over = False
    if info:
        whole, expected, passes_over = by_calls(data, pieces, info)
        if not passes_over and in_memory(data, info) != whole:
            kinds.append("claxon_frames_next: another answer than of all bytes")
        samples, seeks = samples_of(rng, expected), Seeks(data, pieces, info)
        sought = [event for sample in samples for event in seeks.events(sample)]
    reader, decoder, *found = by_crate(data, pieces, samples, info is not None)
    answers = [*answers_of(data, pieces), Answer("FlacReader", reader, has_positions=False)]
    answers.append(Answer("Decoder", decoder))
    kinds += [kind for kind in (difference(expected, answer) for answer in answers) if kind]
    if info:
        names = ("FlacReader::seek", "Decoder::seek")
        answers = [Answer(*pair) for pair in zip(names, found)]
        answers += sought_of(data, pieces, samples)
        kinds += [kind for kind in (difference(sought, answer) for answer in answers) if kind]
    outcomes = ["a head with a fault" if info is None else "a head"]
    outcomes += [event[0] for event in (*expected, *sought)]
    outcomes += ["a header passed over"] * passes_over
    return kinds, outcomes
