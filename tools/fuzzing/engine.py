"""Streams in pieces for the library for C: how they are made and cut, and what drives its calls."""
import ctypes
import itertools
import re
import sys
from array import array
from random import Random
from typing import Any, Callable, Iterator, List, Tuple

from fuzzing import finding, mutation
from fuzzing.mutation import Pick
from repository.crates import TOP

sys.path.insert(0, str(TOP / "python"))
from claxon import _calls  # noqa: E402
from claxon._calls import NEED_MORE, NO_MORE, OK  # noqa: E402

PARTS = ("marker", "header", "content")

# A part of a head: where the next one begins, and the first byte that is needed. A block: its time,
# channels, duration, sample rate and bit depth, and its samples. A fault: its position, status and
# text. The bytes that are skipped after it, or None where no frame is left.
Event = Tuple[Any, ...]
Events = List[Event]
Pieces = List[int]

library = _calls.library


def with_stray_byte(rng: Random, data: bytes) -> bytes:
    """The stream with a byte before one of its sync codes, so that a fault shows within a frame."""
    codes = [match.start() for match in re.finditer(rb"\xff[\xf8\xf9]", data)]
    at = rng.choice(codes) if codes else len(data)
    return data[:at] + rng.choice((b"\xff", b"\0")) + data[at:]


def made(rng: Random, pick: Pick) -> bytes:
    """A stream: as for all decoders, or as for searches."""
    if rng.random() < 0.5:
        data = finding.made(rng, pick)
    else:
        data = mutation.make(rng, pick)[: finding.MAX_SIZE]
    return with_stray_byte(rng, data) if rng.random() < 0.3 else data


def pieces_of(rng: Random, length: int) -> Pieces:
    """Lengths of pieces: of a byte, of any, or all at once."""
    most = rng.choice((1, 2, 7, 100, 1460, length + 1))
    pieces, left = [], length
    while left > 0:
        pieces.append(rng.randint(1, most))
        left -= pieces[-1]
    return pieces


def cuts_of(data: bytes, pieces: Pieces) -> Iterator[bytes]:
    at = 0
    for piece in pieces:
        yield data[at : at + piece]
        at += piece
    yield data[at:]


def block_event(block: _calls.Block, samples: bytes) -> Event:
    return ("block", *finding.fields_of(block), samples[: 4 * block.channels * block.duration])


class Buffers:
    """What a call writes to."""

    def __init__(self) -> None:
        self.block, self.error = _calls.Block(), ctypes.create_string_buffer(128)
        self.samples = array("i", bytes(4 * 8 * 65535))

    def arguments(self) -> List[Any]:
        address, count = self.samples.buffer_info()
        return [address, count, self.block, self.error, len(self.error)]

    def event(self) -> Event:
        count = self.block.channels * self.block.duration
        return block_event(self.block, self.samples[:count].tobytes())

    def fault(self, position: int, status: int) -> Event:
        return "fault", position, status, self.error.value


BUFFERS = Buffers()


class Held:
    """Bytes that come in pieces. That they end is known with the last one, or later."""

    def __init__(self, data: bytes, pieces: Pieces) -> None:
        self._data, ends = data, list(itertools.accumulate(pieces))
        if not ends or ends[-1] <= len(data):
            ends.append(len(data))
        self._ends = [min(end, len(data)) for end in reversed(ends)]
        self.end = 0

    def has_ended(self) -> bool:
        return not self._ends

    def arguments(self, position: int) -> List[Any]:
        """The bytes from there on."""
        start = min(position, self.end)
        held = self._data[start : self.end]
        return [held, len(held), start, self.has_ended()]

    def read(self) -> None:
        self.end = self._ends.pop()


class Wrong(Exception):
    """What no call may answer."""


class Engine:
    """The head, the frames and the searches of a stream in pieces."""

    def __init__(self, data: bytes, pieces: Pieces, is_planar: bool = True) -> None:
        self.head, self.metadata = _calls.Head(), _calls.Metadata()
        self.frames, self.search = _calls.Frames(), _calls.Search()
        self.too_few = 0  # so many bytes of the stream weren't enough for the last answer
        self._held = Held(data, pieces)
        self._decode = library.claxon_frames_next
        if is_planar:
            self._decode = library.claxon_frames_next_planar

    def parts(self, info: _calls.Info) -> Iterator[Event]:
        """The parts of the head, up to a fault. `info` is filled."""
        head, error = self.head, BUFFERS.error
        arguments = info, self.metadata, error, len(error)
        library.claxon_head_start(head, 0)
        while True:
            status = self._answer(library.claxon_head_next, head, *arguments)
            if status == NO_MORE:
                return
            if status != OK:
                yield BUFFERS.fault(head.begin, status)
                return
            yield PARTS[head.part], head.begin, head.position

    def walk(self, begin: int, info: _calls.Info, is_lost: bool = False) -> Iterator[Event]:
        """The blocks and the faults from a position on, and what is skipped after each fault; if
        it is lost, as after a fault there."""
        library.claxon_frames_start(self.frames, begin)
        library.claxon_search_start(self.search, begin)
        while True:
            if is_lost:
                event = self._skipped(begin, info)
                yield event
                if event[1] is None:
                    return
            begin = self.frames.position
            status = self._answer(self._decode, self.frames, info, *BUFFERS.arguments())
            if status == NO_MORE:
                return
            is_lost = status != OK
            yield BUFFERS.fault(begin, status) if is_lost else BUFFERS.event()

    def _skipped(self, begin: int, info: _calls.Info) -> Event:
        """What is skipped after a fault. Frames go on from there."""
        BUFFERS.block, found = _calls.Block(*finding.UNTOUCHED), ctypes.c_uint64()
        library.claxon_search_go_on(self.search, self.frames, begin + 1)
        arguments = info, found, BUFFERS.block
        status = self._answer(library.claxon_search_next, self.search, *arguments)
        if status == NO_MORE:
            return "skipped", None
        if status != OK:
            raise Wrong(f"status {status} of a search")
        library.claxon_frames_go_on(self.frames, found.value)
        return "skipped", found.value - begin

    def _answer(self, call: Callable[..., int], state: Any, *arguments: Any) -> int:
        """The status of a call, which gets as many bytes as it needs."""
        self.too_few = 0
        while True:
            status = call(state, *self._held.arguments(state.position), *arguments)
            if (status == NEED_MORE) != (state.needed > 0):
                raise Wrong(f"{state.needed} bytes are needed, status {status}")
            if status != NEED_MORE:
                return status
            self.too_few = self._held.end
            if self._held.has_ended() or state.position + state.needed <= self.too_few:
                raise Wrong("more is needed, though it is there, or nothing more is")
            self._held.read()
