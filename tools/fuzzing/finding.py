"""What the searches of the library for C have to answer, by the slow decoder at each position of
a stream."""
import collections
import ctypes
import dataclasses
import os
import pickle
import resource
import sys
from random import Random
from typing import Any, Counter, Dict, Iterator, List, NamedTuple, Optional, Set, Tuple

from fuzzing import mutation, slow_decoder
from fuzzing.mutation import Pick
from fuzzing.slow_decoder import Fault, FrameHeader, Incomplete, StreamInfo
from repository.crates import TOP
from streams.frames import with_crc8

sys.path.insert(0, str(TOP / "python"))
from claxon import _calls  # noqa: E402

OK, NO_MORE, TOO_SMALL, OVER_BUDGET = 0, 5, 6, 7
ANSWERS = {
    OK: "found", NO_MORE: "no more", TOO_SMALL: "buffer too small", OVER_BUDGET: "over budget"
}
# What is said of a block: its time, channels, duration, sample rate and bit depth.
Fields = Tuple[int, int, int, int, int]
MAX_HEADER = 16
MAX_SIZE = 1 << 14
UNLIMITED = (1 << 64) - 1
UNTOUCHED: Fields = (0x123456789ABCDEF, 99, 98, 97, 96)
UNTOUCHED_SAMPLE = 0x12345678

_POSITION, _TO_SIZE = ctypes.c_uint64, ctypes.POINTER(ctypes.c_size_t)
_BYTES: List[Any] = [ctypes.c_void_p, ctypes.c_size_t]
_INFO, _BLOCK = ctypes.POINTER(_calls.Info), ctypes.POINTER(_calls.Block)
# The calls for whole bytes, which the module for Python doesn't make.
ARGUMENTS: Dict[str, List[Any]] = {
    "next_block_planar": [*_BYTES, _TO_SIZE, _INFO, *_BYTES, _BLOCK, ctypes.c_char_p, _BYTES[1]],
    "find_frame": [*_BYTES, _TO_SIZE, _INFO, ctypes.POINTER(_POSITION), _BLOCK],
    "seek": [*_BYTES, _INFO, _POSITION, _POSITION, _TO_SIZE, _BLOCK],
    "seek_block": [*_BYTES, _INFO, _POSITION, _POSITION, _TO_SIZE, *_BYTES, _BLOCK],
}
for _name, _arguments in ARGUMENTS.items():
    _call = getattr(_calls.library, f"claxon_{_name}")
    _call.argtypes, _call.restype = _arguments, ctypes.c_uint32


@dataclasses.dataclass
class Place:
    """A position at which a header of the stream's frames stands, or the bytes end within what
    may be one."""

    at: int
    header: Optional[FrameHeader]  # None where the bytes end within it
    length: int = 0  # the number of bytes of the frame, if it is there
    samples: Tuple[int, ...] = ()  # then its samples, interleaved
    # As many bytes are read in vain where a header begins no whole frame: the slow decoder says it
    # of frames that are cut alone.
    least: int = 0
    most: int = 0
    is_cut: bool = False  # whether the bytes end within the header or the frame
    may_follow: bool = False  # whether more bytes can make a frame of the stream


def has_format(header: FrameHeader, streaminfo: Optional[StreamInfo]) -> bool:
    """Whether the header is one of the stream's frames. Without a streaminfo it has to say the
    bit depth itself."""
    has_wide_side = header.channel_code >= 8 and header.bit_depth == 32
    if header.bit_depth == 0 or has_wide_side:
        return False
    if streaminfo is None:
        return True
    known = (streaminfo.channels, streaminfo.bits_per_sample)
    return (header.channels, header.bit_depth) == known


def completed(
    data: bytes, streaminfo: Optional[StreamInfo], bit_depth: int
) -> Optional[FrameHeader]:
    """A header that begins with these bytes, which end within it, or None: its fields are those
    that are refused least."""
    first = bytes([0xFF, 0xF8, 0x10, streaminfo.channels - 1 << 4 if streaminfo else 2, 0])
    if not first.startswith(data[:1]):
        return None
    data += first[len(data) :]
    for _ in range(2 * MAX_HEADER):
        try:
            length = slow_decoder.header_of(data, bit_depth).length
            return slow_decoder.read_header(with_crc8(data[: length - 1]), bit_depth)
        except Incomplete as fault:
            data += b"\x80" if str(fault) == "incomplete coded number" else b"\0"
        except Fault:
            return None
    raise AssertionError("a header without an end")


def cut_place(data: bytes, at: int, streaminfo: Optional[StreamInfo], bit_depth: int) -> Place:
    """The place where the bytes end within a header."""
    header = completed(data[at:], streaminfo, bit_depth)
    return Place(
        at, None, is_cut=True, may_follow=header is not None and has_format(header, streaminfo)
    )


def place_at(data: bytes, at: int, streaminfo: Optional[StreamInfo]) -> Optional[Place]:
    """What begins at the position, or None: neither a header of the stream's frames nor what may
    be one."""
    bit_depth = streaminfo.bits_per_sample if streaminfo else 0
    try:
        header = slow_decoder.read_header(data[at : at + 2 * MAX_HEADER], bit_depth)
    except Incomplete:
        return cut_place(data, at, streaminfo, bit_depth)
    except Fault:
        return None
    if not has_format(header, streaminfo):
        return None
    try:
        frame = slow_decoder.read_frame(data[at:], bit_depth)
        samples = tuple(
            ctypes.c_int32(sample).value for at_once in zip(*frame.channels) for sample in at_once
        )
        return Place(at, header, frame.length, samples)
    except Incomplete:
        left = len(data) - at
        return Place(at, header, least=left, most=left, is_cut=True, may_follow=True)
    except Fault:
        return Place(at, header, least=header.length, most=len(data) - at)


def places_of(data: bytes, streaminfo: Optional[StreamInfo]) -> List[Place]:
    positions = (at for at in range(len(data)) if data[at] == 0xFF or at + 1 == len(data))
    found = (place_at(data, at, streaminfo) for at in positions)
    return [place for place in found if place]


def samples_of(header: FrameHeader) -> int:
    return header.channels * header.block_size


def block_of(place: Place, data: bytes, streaminfo: Optional[StreamInfo]) -> Fields:
    """What a search says of the block."""
    header = place.header
    assert header is not None
    if streaminfo:
        time = slow_decoder.time_of(streaminfo, header)
    else:
        time = header.coded_number * (1 if header.is_variable else header.block_size)
    bits = header.bit_depth if data[place.at + 3] >> 1 & 7 else 0
    return time, header.channels, header.block_size, header.sample_rate or 0, bits


class Left(NamedTuple):
    """What is left of a budget."""

    least: int
    most: int

    def less(self, place: Place) -> "Left":
        """After the try of a header whose block has no more samples."""
        assert place.header is not None
        samples = samples_of(place.header)
        return Left(
            max(0, self.least - samples - place.most), max(0, self.most - samples - place.least)
        )


def walk(places: List[Place], budget: int) -> Optional[Tuple[int, Optional[Place], Left]]:
    """The status of a search through these places, the place where it ends, and what is left of
    the budget; or None where this depends on how many bytes were read in vain."""
    left = Left(budget, budget)
    for place in places:
        if place.header is None:
            continue
        if samples_of(place.header) > left.most:
            return OVER_BUDGET, place, left
        if samples_of(place.header) > left.least:
            return None
        left = left.less(place)
        if place.length:
            return OK, place, left
    return NO_MORE, None, left


def fields_of(block: _calls.Block) -> Fields:
    return block.time, block.channels, block.duration, block.sample_rate, block.bits_per_sample


@dataclasses.dataclass
class Searched:
    """A stream that is searched: its bytes, what is known of it for the library and the model,
    and its places."""

    data: bytes
    info: _calls.Info
    streaminfo: Optional[StreamInfo]
    places: List[Place]
    outcomes: Counter[str] = dataclasses.field(default_factory=collections.Counter)

    def find(self, start: int, budget: int) -> Tuple[int, int, int, Fields]:
        """The answer of claxon_find_frame: status, position, budget and block."""
        at, left, block = ctypes.c_size_t(start), ctypes.c_uint64(budget), _calls.Block(*UNTOUCHED)
        status = _calls.library.claxon_find_frame(
            self.data, len(self.data), at, self.info, left, block
        )
        self.outcomes[f"claxon_find_frame: {ANSWERS.get(status, status)}"] += 1
        return status, at.value, left.value, fields_of(block)

    def seek(self, sample: int, budget: int) -> Tuple[int, int, Fields]:
        """The answer of claxon_seek: status, position and block."""
        at, block = ctypes.c_size_t(UNLIMITED - 1), _calls.Block(*UNTOUCHED)
        status = _calls.library.claxon_seek(
            self.data, len(self.data), self.info, sample, budget, at, block
        )
        self.outcomes[f"claxon_seek: {ANSWERS.get(status, status)}"] += 1
        return status, at.value, fields_of(block)

    def seek_block(
        self, sample: int, budget: int, count: int
    ) -> Tuple[int, int, Fields, Tuple[int, ...]]:
        """The answer of claxon_seek_block with room for so many samples: status, position, block
        and samples, of which one more could be written."""
        at, block = ctypes.c_size_t(UNLIMITED - 1), _calls.Block(*UNTOUCHED)
        samples = (ctypes.c_int32 * (count + 1))(*(count + 1) * [UNTOUCHED_SAMPLE])
        status = _calls.library.claxon_seek_block(
            self.data, len(self.data), self.info, sample, budget, at, samples, count, block
        )
        self.outcomes[f"claxon_seek_block: {ANSWERS.get(status, status)}"] += 1
        return status, at.value, fields_of(block), tuple(samples)

    def against_find(self, start: int, budget: int) -> Optional[str]:
        """How the answer of claxon_find_frame differs, or None."""
        places = [place for place in self.places if place.at >= start]
        walked = walk(places, budget)
        found, at, found_left, block = self.find(start, budget)
        if walked is None:
            return None
        status, place, left = walked
        if found != status:
            return f"find: status {found}, expected {status}"
        if not left.least <= found_left <= left.most:
            return "find: another budget"
        if place is None:
            is_untouched = block == UNTOUCHED
            return self.against_end(places, start, at) if is_untouched else "find: a block of none"
        if at != place.at:
            return f"find: another position, status {status}"
        if block != (block_of(place, self.data, self.streaminfo) if status == OK else UNTOUCHED):
            return f"find: another block, status {status}"
        return None

    def against_end(self, places: List[Place], start: int, at: int) -> Optional[str]:
        """How the position differs at which a search that found none goes on: before it no frame
        can begin, and it is the end, or the bytes end within what begins there."""
        length = len(self.data)
        if (
            at < start
            or at > min([place.at for place in places if place.may_follow], default=length)
        ):
            return "find: goes on where a frame was passed"
        if at not in [length, *(place.at for place in places if place.is_cut)]:
            return "find: goes on too early"
        return None

    def against_seek(self, sample: int, budget: int) -> Optional[str]:
        """How the answer of claxon_seek differs, or None. It may find any frame with the sample,
        whatever the budget is."""
        places = [
            place
            for place in self.places
            if place.at >= self.info.first_frame and self.has_sample(place, sample)
        ]
        frames = {place.at: place for place in places if place.length}
        found, at, block = self.seek(sample, budget)
        if found != OK:
            if (at, block) != (UNLIMITED - 1, UNTOUCHED):
                return f"seek: something was changed, status {found}"
            return None if self.may_end(found, places, budget) else f"seek: status {found}"
        if at not in frames:
            return "seek: no such frame"
        return (
            None
            if block == block_of(frames[at], self.data, self.streaminfo)
            else "seek: another block"
        )

    def may_end(self, status: int, places: List[Place], budget: int) -> bool:
        """Whether claxon_seek may find none: there is none, or headers that begin no frame cost
        more than the budget."""
        if status == NO_MORE:
            return not any(place.length for place in places)
        in_vain = [place for place in places if not place.length]
        most = sum(samples_of(place.header) + place.most for place in in_vain if place.header)
        return status == OVER_BUDGET and most > budget

    def against_seek_block(self, sample: int, budget: int) -> Optional[str]:
        """How the answers of claxon_seek_block differ from that of claxon_seek and the samples
        of the frame that this finds, or None: with just as much room as they need, and with room
        for one less."""
        status, at, block = self.seek(sample, budget)
        found = next(
            (place for place in self.places if status == OK and place.at == at), Place(0, None)
        )
        count = len(found.samples)
        at_end = at + found.length if found.length else at
        if self.seek_block(sample, budget, count) != (
            status, at_end, block, (*found.samples, UNTOUCHED_SAMPLE)
        ):
            return f"seek_block: another answer, status {status}"
        if (
            count
            and self.seek_block(sample, budget, count - 1) != (
                TOO_SMALL, at, block, count * (UNTOUCHED_SAMPLE,)
            )
        ):
            return "seek_block: another answer without room"
        return None

    def has_sample(self, place: Place, sample: int) -> bool:
        if place.header is None:
            return False
        time, _, duration, _, _ = block_of(place, self.data, self.streaminfo)
        return time <= sample < time + duration


def head_of(data: bytes) -> Tuple[Optional[StreamInfo], Optional[int]]:
    """The streaminfo and the position of the first frame, by the slow decoder, or two None."""
    try:
        streaminfo, _, first_frame = slow_decoder.read_head(data)
    except Fault:
        return None, None
    return streaminfo, first_frame


def opened(data: bytes) -> Tuple[Optional[_calls.Info], Optional[StreamInfo], Optional[str]]:
    """What claxon_open and the slow decoder say of a stream, two None where both refuse it, and
    how they differ, or None."""
    info, error = _calls.Info(), ctypes.create_string_buffer(128)
    status = _calls.library.claxon_open(data, len(data), info, error, 128)
    streaminfo, first_frame = head_of(data)
    if (status == OK) != (streaminfo is not None):
        return None, None, f"another head: status {status}"
    if streaminfo is None:
        return None, None, None
    if (info.first_frame, info.channels, info.bits_per_sample) != (
        first_frame, streaminfo.channels, streaminfo.bits_per_sample
    ):
        return None, None, "another head"
    return info, streaminfo, None


def budgets_of(rng: Random, places: List[Place]) -> List[int]:
    """No limit, none at all, and what some headers cost, or one less."""
    total, sums = 0, []
    for place in places:
        if place.header is not None:
            total += samples_of(place.header)
            sums += [total, total - 1]
            total += place.most
    return [UNLIMITED, 0, *rng.sample(sums, min(4, len(sums)))]


def tries_of(rng: Random, searched: Searched) -> Iterator[Optional[str]]:
    """Each search that is tried in a stream, as how its answer differs."""
    places, length = searched.places, len(searched.data)
    near = [max(0, place.at + offset) for place in places for offset in (0, 1)]
    starts = {
        0,
        length,
        max(0, length - 1),
        rng.randrange(length + 1),
        *rng.sample(near, min(4, len(near))),
    }
    for start in sorted(starts):
        for budget in budgets_of(rng, [place for place in places if place.at >= start]):
            yield searched.against_find(start, budget)
    times = [
        block_of(place, searched.data, searched.streaminfo)
        for place in places
        if place.header is not None
    ]
    samples = [
        max(0, time + offset)
        for time, _, duration, _, _ in times
        for offset in (0, duration - 1, duration, -1)
    ]
    for sample in {0, rng.getrandbits(16), UNLIMITED, *rng.sample(samples, min(8, len(samples)))}:
        with_sample = [place for place in places if searched.has_sample(place, sample)]
        for budget in budgets_of(rng, with_sample):
            yield searched.against_seek(sample, budget)
            yield searched.against_seek_block(sample, budget)


def piece_of(
    rng: Random, data: bytes, places: List[Place], streaminfo: Optional[StreamInfo]
) -> bytes:
    """A header, a frame, a part of one, or a frame with another number."""
    place = rng.choice(places)
    assert place.header is not None
    choice, whole = rng.random(), data[place.at : place.at + (place.length or 40)]
    if choice < 0.4:
        return whole[:place.header.length]
    if choice < 0.6:
        return whole[: rng.randrange(len(whole) + 1)]
    if choice < 0.8 or not place.length or not streaminfo:
        return whole
    return mutation.with_number(
        whole, streaminfo, place.header.is_variable, rng.getrandbits(rng.choice((3, 7, 12)))
    )


def crowded(rng: Random, data: bytes) -> bytes:
    """The stream with headers and frames of it between and within its frames, or cut."""
    streaminfo = head_of(data)[0]
    places = [place for place in places_of(data, streaminfo) if place.header is not None]
    count = rng.choice((0, 1, 2, 4, 8)) if places else 0
    for piece in [piece_of(rng, data, places, streaminfo) for _ in range(count)]:
        at = rng.randrange(len(data) + 1)
        data = data[:at] + piece + data[at:]
    return data[: rng.randrange(len(data) + 1)] if rng.random() < 0.2 else data


def made(rng: Random, pick: Pick) -> bytes:
    """A small stream; `pick` returns a source."""
    data = mutation.make(rng, pick)[:MAX_SIZE]
    return crowded(rng, data) if rng.random() < 0.7 else data


def compare(rng: Random, data: bytes) -> Tuple[List[str], Counter[str]]:
    """The kinds of difference in the searches of a stream, as one of its kind and as one of
    which nothing is known, and how many had which outcome."""
    info, streaminfo, wrong = opened(data)
    kinds: Set[str] = {wrong} if wrong else set()
    outcomes: Counter[str] = collections.Counter()
    for known, says in ((info, streaminfo), (_calls.Info(), None)):
        if known is None:
            continue
        searched = Searched(data, known, says, places_of(data, says))
        kinds.update(answer for answer in tries_of(rng, searched) if answer)
        outcomes.update(searched.outcomes)
        outcomes["frames"] += sum(place.length > 0 for place in searched.places)
        outcomes["headers without a whole frame"] += sum(
            place.length == 0 for place in searched.places
        )
    return sorted(kinds), outcomes


def compare_in_child(rng: Random, data: bytes, seconds: int) -> Tuple[List[str], Dict[str, int]]:
    """The same in a process of its own, which the library may end."""
    readable, writable = os.pipe()
    child = os.fork()
    if child == 0:
        os.close(readable)
        resource.setrlimit(resource.RLIMIT_CPU, (seconds, seconds))
        with os.fdopen(writable, "wb") as pipe:
            pickle.dump(compare(rng, data), pipe)
        os._exit(0)
    os.close(writable)
    with os.fdopen(readable, "rb") as pipe:
        result = pipe.read()
    status = os.waitpid(child, 0)[1]
    if status != 0:
        return [f"wrong: signal {os.WTERMSIG(status)}, status {os.WEXITSTATUS(status)}"], {}
    kinds, outcomes = pickle.loads(result)
    return kinds, outcomes
