"""What the calls of the library for C for streams in pieces have to answer, one answer after
another, by the slow decoder."""
import itertools
import sys
from array import array
from random import Random
from typing import Dict, Iterator, List, NamedTuple, Optional, Tuple, Union

from fuzzing import differences, finding, slow_decoder
from fuzzing.differences import TEXTS, UNSUPPORTED
from fuzzing.engine import BUFFERS, Engine, Event, Wrong, pieces_of
from fuzzing.finding import Place
from fuzzing.slow_decoder import Fault, Frame, HeadReader, StreamInfo
from repository.crates import TOP

sys.path.insert(0, str(TOP / "python"))
from claxon import _calls  # noqa: E402

UNLIMITED = finding.UNLIMITED
# The fields of answers, for the names of differences.
NAMES: Dict[str, Tuple[str, ...]] = {
    "marker": ("next", "position"),
    "header": ("begin", "position", "content", "length", "type", "last"),
    "content": ("next", "position", "streaminfo", "tags"),
    "head": ("position", "first frame"),
    "block": (
        *("time", "channels", "duration", "sample rate", "bit depth", "samples"),
        *("position", "end", "number", "duration of the frame", "blocking strategy"),
    ),
    "fault": ("position", "status", "text", "position after it"),
    "skipped": ("bytes", "position after it", "block"),
    "end": ("position",),
}


class Wanted(NamedTuple):
    """An answer, which is given when so many bytes of the stream are there."""

    event: Event
    end: int = UNLIMITED


def fault_wanted(at: int, fault: Fault, *after: bool) -> Wanted:
    status, text = _calls.FORMAT_ERROR, TEXTS[str(fault)]
    if text == "IO":
        status, text = _calls.INPUT_ENDS, "the bytes end"
    elif text.startswith(UNSUPPORTED):
        status, text = _calls.UNSUPPORTED, text[len(UNSUPPORTED) :]
    return Wanted(("fault", at, status, text.encode(), *after))


class Model:
    """What the slow decoder says of a stream."""

    def __init__(self, data: bytes, is_planar: bool) -> None:
        self.data, self.is_planar = data, is_planar
        self.streaminfo: Optional[StreamInfo] = None
        self._frames: Dict[int, Union[Frame, Fault]] = {}

    def answers(self) -> Iterator[Wanted]:
        head = HeadReader(self.data)
        try:
            yield from self._head(head)
        except Fault as fault:
            self.streaminfo = head.streaminfo
            yield fault_wanted(head.begin, fault)
            yield from self._walk(head.begin, True)
        else:
            self.streaminfo = head.streaminfo
            yield Wanted(("head", head.at, head.at), head.at)
            yield from self._walk(head.at, False)

    def _head(self, head: HeadReader) -> Iterator[Wanted]:
        head.read_marker()
        yield Wanted(("marker", head.at, head.at), head.at)
        while not head.is_last:
            head.read_header()
            has_all = head.block_type in (0, 2, 4, 127)
            position = head.at + (0 if has_all else max(0, head.length - 1))
            said = head.at, head.length, head.block_type, head.is_last
            yield Wanted(("header", head.begin, position, *said), head.at)
            head.read_content()
            assert head.streaminfo is not None
            event = "content", head.begin, head.at, told(head.streaminfo), head.tags
            yield Wanted(event, head.at)

    def _walk(self, at: int, is_lost: bool) -> Iterator[Wanted]:
        """The blocks and the faults from a position on."""
        while True:
            if is_lost:
                found = self._next_frame(at + 1)
                if found is None:
                    # Where a head is cut after a whole block, the search begins beyond the end.
                    end = max(len(self.data), at + 1)
                    yield Wanted(("skipped", None, end, finding.UNTOUCHED))
                    return
                frame = self._frame(found)
                assert isinstance(frame, Frame)
                end, block = found + frame.length, self._block(found, frame)
                yield Wanted(("skipped", found - at, end, block))
                at = found
            if len(self.data) - at < 2:
                yield Wanted(("end", len(self.data)))
                return
            frame = self._frame(at)
            is_lost = isinstance(frame, Fault)
            if isinstance(frame, Fault):
                yield fault_wanted(at, frame, True)
                continue
            end, header = at + frame.length, frame.header
            numbers = header.coded_number, header.block_size, header.is_variable
            event = ("block", *self._block(at, frame), self._samples(frame), at, end, *numbers)
            yield Wanted(event, end)
            at = end

    def _frame(self, at: int) -> Union[Frame, Fault]:
        """The frame that begins there, or why none does."""
        if at not in self._frames:
            try:
                bit_depth = self.streaminfo.bits_per_sample if self.streaminfo else 0
                self._frames[at] = slow_decoder.read_frame(self.data[at:], bit_depth)
            except Fault as fault:
                self._frames[at] = fault
        return self._frames[at]

    def _next_frame(self, start: int) -> Optional[int]:
        """The position of the first frame of the stream from there on."""
        at = self.data.find(b"\xff", start)
        while at >= 0:
            frame = self._frame(at)
            if isinstance(frame, Frame) and finding.has_format(frame.header, self.streaminfo):
                return at
            at = self.data.find(b"\xff", at + 1)
        return None

    def _block(self, at: int, frame: Frame) -> finding.Fields:
        return finding.block_of(Place(at, frame.header), self.data, self.streaminfo)

    def _samples(self, frame: Frame) -> bytes:
        order = frame.channels if self.is_planar else zip(*frame.channels)
        return array("i", itertools.chain.from_iterable(order)).tobytes()


def told(said: "StreamInfo | _calls.Info") -> Tuple[object, ...]:
    """What a streaminfo says."""
    return (
        *(said.min_block_size, said.max_block_size, said.min_frame_size, said.max_frame_size),
        *(said.sample_rate, said.channels, said.bits_per_sample, said.samples, bytes(said.md5)),
    )


def answers_of(engine: Engine, length: int) -> Iterator[Event]:
    """What the library says."""
    info, head, metadata = _calls.Info(), engine.head, engine.metadata
    is_lost = False
    for event in engine.parts(info):
        if event[0] == "header":
            said = metadata.content, metadata.length, metadata.type, metadata.is_last
            event = (*event, *said)
        elif event[0] == "content":
            event = (*event, told(info), info.tags)
        is_lost = event[0] == "fault"
        yield event
    if not is_lost:
        yield "head", head.position, info.first_frame
    frames = engine.frames
    for event in engine.walk(head.begin if is_lost else head.position, info, is_lost):
        if event[0] == "block":
            last = frames.last
            event = (*event, last.position, last.end, last.number, last.duration, last.is_variable)
        elif event[0] == "fault":
            least = length if event[2] == _calls.INPUT_ENDS else event[1] + 1
            event = (*event, least <= frames.position <= length)
        else:
            event = (*event, engine.search.position, finding.fields_of(BUFFERS.block))
        yield event
    if event[:2] != ("skipped", None):
        yield "end", frames.position


def named(event: Event) -> str:
    return f"fault, {event[3].decode()}" if event[0] == "fault" else str(event[0])


def difference(wanted: Wanted, found: Event, too_few: int) -> Optional[str]:
    """How an answer differs, or None."""
    expected = wanted.event
    if found == expected:
        return f"{found[0]}: late" if too_few >= wanted.end else None
    if found[0] != expected[0]:
        return f"{named(found)}: expected {named(expected)}"
    fields = zip(NAMES[found[0]], found[1:], expected[1:])
    others = ", another ".join(name for name, field, right in fields if field != right)
    return f"{named(found)}: another {others}, expected {named(expected)}"


def compare(rng: Random, data: bytes) -> Tuple[List[str], List[str]]:
    """The kinds of difference in what is said of a stream, and outcomes to count."""
    is_planar, pieces = rng.random() < 0.5, pieces_of(rng, len(data))
    engine = Engine(data, pieces, is_planar)
    answers, outcomes = answers_of(engine, len(data)), []
    kind: Optional[str] = None
    try:
        for wanted in Model(data, is_planar).answers():
            found = next(answers, ("nothing",))
            outcomes.append(found[0])
            kind = difference(wanted, found, engine.too_few)
            if kind:
                break
        else:
            more = next(answers, None)
            kind = f"{more[0]} after the last answer" if more else None
    except Wrong as wrong:
        kind = f"wrong: {wrong}"
    if engine.search.has_passed_over:
        outcomes.append("a header passed over")
        kind = kind and differences.kind_of("very much work was in vain", kind)
    return [kind] if kind else [], outcomes
