"""What `claxon verify` has to say of a stream, as far as the slow decoder tells: all places, but
for the names of faults; of a stream whose head is wrong those of its frames.

It was written from RFC 9639 and docs/man/claxon.1, without claxon's code.
"""
import contextlib
import dataclasses
from typing import Any, Dict, List, NamedTuple, Optional, Sequence, Tuple

from fuzzing import slow_decoder
from fuzzing.slow_decoder import Fault, Frame, FrameHeader, Reading, StreamInfo, fits

# Application and comment blocks above it are passed over.
MAX_LENGTH = 10485760


class Head(NamedTuple):
    """A head of which blocks may be passed over, and the position of the first frame."""

    streaminfo: StreamInfo
    is_supported: bool
    end: int


def is_text(data: bytes) -> bool:
    try:
        data.decode("utf-8")
    except UnicodeDecodeError:
        return False
    return True


def has_name(entry: bytes) -> bool:
    name, equals, _ = entry.partition(b"=")
    return not entry or (bool(equals) and all(0x20 <= byte <= 0x7D for byte in name))


def are_supported(body: bytes) -> bool:
    """Whether Vorbis comments are read, and not passed over. Raises a fault where a length or a
    number is wrong before that is known."""
    if len(body) > MAX_LENGTH:
        return False
    at = 4 + int.from_bytes(body[:4], "little")
    if at + 4 > len(body):
        raise Fault("length in comments")
    if not is_text(body[4:at]):
        return False
    count = int.from_bytes(body[at : at + 4], "little")
    if count >= len(body) // 4:
        raise Fault("number of comments")
    at += 4
    for _ in range(count):
        if at == len(body):
            raise Fault("number of comments")
        start, end = at + 4, at + 4 + int.from_bytes(body[at : at + 4], "little")
        if start > len(body):
            return False
        if end > len(body):
            raise Fault("length in comments")
        if not is_text(body[start:end]) or not has_name(body[start:end]):
            return False
        at = end
    return at == len(body)


def head_of(data: bytes) -> Optional[Head]:
    """The head, if it isn't refused."""
    try:
        blocks, end = slow_decoder.read_metadata_blocks(data)
        types = [block_type for block_type, _ in blocks]
        if types[0] != 0 or types.count(0) > 1 or 127 in types or len(types) > 65536:
            return None
        has_comments, is_supported = False, True
        for block_type, body in blocks:
            if block_type == 2 and len(body) < 4:
                return None
            if block_type == 2 and len(body) > MAX_LENGTH:
                is_supported = False
            if block_type == 4:
                is_read = are_supported(body)
                is_supported = is_supported and is_read and not has_comments
                has_comments = has_comments or is_read
        return Head(slow_decoder.read_streaminfo(blocks[0][1]), is_supported, end)
    except Fault:
        return None


def reading_after(data: bytes, head: Head) -> Reading:
    """The frames after a head up to the first fault."""
    reading = Reading(head.streaminfo)
    try:
        slow_decoder.read_frames(data, head.end, head.streaminfo, reading)
    except Fault as fault:
        reading.fault = str(fault)
    return reading


def gap_text(count: int, is_variable: bool, what: str) -> str:
    thing = "sample" if is_variable else "frame"
    return f"{count} {thing if count == 1 else thing + 's'} {'is' if count == 1 else 'are'} {what}"


@dataclasses.dataclass
class Due:
    """What the next frame has to be."""

    strategy: Optional[bool] = None
    number: int = 0
    sample: int = 0

    def first_sample(self, streaminfo: StreamInfo, frame: Frame) -> int:
        """The number of the frame's first sample."""
        header = frame.header
        if header.coded_number == self.number:
            return self.sample
        size = 1 if header.is_variable else streaminfo.max_block_size
        return header.coded_number * size

    def after(self, streaminfo: StreamInfo, frame: Frame) -> "Due":
        header = frame.header
        step = header.block_size if header.is_variable else 1
        sample = self.first_sample(streaminfo, frame) + header.block_size
        return Due(header.is_variable, header.coded_number + step, sample)


@dataclasses.dataclass
class Place:
    """Bytes, samples and what is wrong first; and of a place that has ended the numbers that were
    due in it and didn't come, and those of frames that came too early."""

    start: int
    first: int
    what: str
    end: int = 0
    after: int = 0
    skipped: Tuple[int, int] = (0, 0)
    early: Tuple[int, int] = (0, 0)

    def go_on(self, end: int, after: int) -> None:
        self.end, self.after = end, after
        if self.what.endswith(" missing"):
            self.what = "frames are out of order"

    def told(self) -> Tuple[int, int, int, int, str]:
        return self.start, self.end, self.first, self.after, self.what


class FirstFrame(StreamInfo):
    """What the first frame that says its whole format says, where the head is wrong."""


def said(streaminfo: StreamInfo, number: int) -> str:
    """The number that a frame should have, and what says it."""
    if isinstance(streaminfo, FirstFrame):
        return f"but the first frame has {number}"
    return f"but the streaminfo says {number}"


def other_format(streaminfo: StreamInfo, header: FrameHeader) -> Optional[str]:
    """How a frame's format differs from the streaminfo's, or None."""
    if header.channels != streaminfo.channels:
        counted = "1 channel" if header.channels == 1 else f"{header.channels} channels"
        return f"{counted}, {said(streaminfo, streaminfo.channels)}"
    if header.bit_depth != streaminfo.bits_per_sample:
        counted = "1 bit" if header.bit_depth == 1 else f"{header.bit_depth} bits"
        return f"{counted} per sample, {said(streaminfo, streaminfo.bits_per_sample)}"
    return None


def other_stream(streaminfo: StreamInfo, due: Due, frame: Frame) -> Optional[str]:
    """Why a frame isn't one of the stream, or None."""
    header = frame.header
    other = other_format(streaminfo, header)
    if other is not None:
        return other
    if header.sample_rate not in (None, streaminfo.sample_rate):
        return f"{header.sample_rate} Hz, {said(streaminfo, streaminfo.sample_rate)}"
    if due.strategy not in (None, header.is_variable):
        return "the blocking strategy differs from the first frame's"
    bit_depth = streaminfo.bits_per_sample
    if not all(fits(sample, bit_depth) for channel in frame.channels for sample in channel):
        is_first = isinstance(streaminfo, FirstFrame)
        than = "those of the first frame" if is_first else "the streaminfo says"
        return f"a sample has more bits than {than}"
    last = due.sample + header.block_size
    if streaminfo.samples and due.sample <= streaminfo.samples < last:
        return "frames after the streaminfo's last sample"
    return None


class Places:
    """The places of frames that are given one after another."""

    def __init__(self, streaminfo: StreamInfo) -> None:
        self._streaminfo = streaminfo
        self._due = Due()
        self._begun: Optional[Place] = None
        self.ended: List[Place] = []
        self.frames, self.samples = 0, 0

    def begin(self, at: int, what: str) -> None:
        self._begun = self._begun or Place(at, self._due.sample, what)

    def add(self, at: int, frame: Frame) -> None:
        due, number = self._due, frame.header.coded_number
        self.frames += 1
        self.samples += frame.header.block_size
        what = other_stream(self._streaminfo, due, frame)
        sample = due.first_sample(self._streaminfo, frame)
        last = self.ended[-1] if self.ended else None
        if what is None and number < due.number:
            if last is None or not last.skipped[0] <= number < last.skipped[1]:
                what = "frames are repeated"
            else:
                last.go_on(at, sample)
                last.early = last.skipped[1], max(due.number, last.early[1])
                last.skipped = last.skipped[0], number
                self._begun = None
        elif what is None:
            self._go_on(at, frame, sample)
        if what is None:
            self._due = due.after(self._streaminfo, frame)
        else:
            self.begin(at, what)

    def _go_on(self, at: int, frame: Frame, sample: int) -> None:
        """The frame ends a place, or some are missing before it."""
        due, number = self._due.number, frame.header.coded_number
        if self._begun is None:
            if number == due:
                return
            if self.ended and self.ended[-1].early == (due, number):
                self.ended[-1].go_on(at, sample)
                self.ended[-1].early = 0, 0
                return
            text = gap_text(number - due, frame.header.is_variable, "missing")
            self.begin(at, text)
        place = self._begun
        assert place is not None
        place.end, place.after, place.skipped = at, sample, (due, number)
        self.ended.append(place)
        self._begun = None

    def finish(self, end: int) -> None:
        samples = self._streaminfo.samples
        if self._begun is None and self._due.sample < samples:
            self.begin(end, gap_text(samples - self._due.sample, True, "missing"))
        if self._begun is not None:
            self._begun.end, self._begun.after = end, max(self._due.sample, samples)
            self.ended.append(self._begun)

    def told(self) -> List[Tuple[int, int, int, int, str]]:
        return [place.told() for place in self.ended]


def frame_at(data: bytes, at: int, streaminfo: StreamInfo) -> Optional[Frame]:
    """The frame of the stream that begins at this byte, if one does."""
    if data[at] != 0xFF or data[at + 1 : at + 2] not in (b"\xf8", b"\xf9"):
        return None
    try:
        frame = slow_decoder.read_frame(data[at:], streaminfo.bits_per_sample)
    except Fault:
        return None
    return None if other_format(streaminfo, frame.header) else frame


def why_none(data: bytes, at: int, streaminfo: StreamInfo) -> str:
    """How the format of the header at this byte differs, if there is one, or "". Where the head is
    wrong it is what stands at the first byte."""
    none = "the head" if at == 0 and isinstance(streaminfo, FirstFrame) else ""
    try:
        header = slow_decoder.read_header(data[at:], streaminfo.bits_per_sample)
    except Fault:
        return none
    return other_format(streaminfo, header) or none


def format_of(data: bytes) -> Optional[FirstFrame]:
    """What the first frame says that says its bit depth, if there is one."""
    for at in range(len(data) - 1):
        if data[at] != 0xFF or data[at + 1] not in (0xF8, 0xF9):
            continue
        with contextlib.suppress(Fault):
            if slow_decoder.read_header(data[at:], 0).bit_depth == 0:
                continue
            header = slow_decoder.read_frame(data[at:], 0).header
            size, rate = header.block_size, header.sample_rate or 0
            return FirstFrame(
                size, size, rate, header.channels, header.bit_depth, 0, bytes(16)
            )
    return None


def places_of(data: bytes, at: int, streaminfo: StreamInfo) -> Places:
    """The places of a stream whose frames begin at this byte. Damage ends where the next frame
    begins; what is wrong in it is "". One byte after the last frame is no place."""
    places = Places(streaminfo)
    while at < len(data):
        frame = frame_at(data, at, streaminfo)
        if frame:
            places.add(at, frame)
            at += frame.length
            continue
        positions = range(at + 1, len(data))
        end = next((it for it in positions if frame_at(data, it, streaminfo)), len(data))
        if (at, end) != (len(data) - 1, len(data)):
            places.begin(at, why_none(data, at, streaminfo))
        at = end
    places.finish(len(data))
    return places


def has_small_frames(streaminfo: StreamInfo) -> bool:
    """Whether a frame of the largest block has at most 512 KiB, though its samples are as they are.
    In other files damage may be told to be longer."""
    samples = streaminfo.max_block_size * streaminfo.channels
    return samples * (streaminfo.bits_per_sample + 1) // 8 <= 512 << 10


def are_same(place: Tuple[Any, ...], wanted: Tuple[int, int, int, int, str]) -> bool:
    """Whether a place is the one that is wanted, whatever its fault is called."""
    return place[:4] == wanted[:4] and wanted[4] in ("", place[4])


def are_told(
    streaminfo: StreamInfo,
    found: Sequence[Tuple[Any, ...]],
    left_out: int,
    wanted: Sequence[Tuple[int, int, int, int, str]],
) -> bool:
    """Whether the places that are found are the first of those that are wanted, with as many left
    out; of files with large frames whether the first begins where it has to."""
    if wanted and not isinstance(streaminfo, FirstFrame) and not has_small_frames(streaminfo):
        return bool(found) and (found[0][0], found[0][2]) == (wanted[0][0], wanted[0][2])
    is_whole = len(wanted) == len(found) + left_out
    return is_whole and all(map(are_same, found, wanted))


def size_note(found: Sequence[Frame]) -> Optional[str]:
    """What is noted where a frame before the last one has another block size than the first, and
    the block size is fixed."""
    sizes = [frame.header.block_size for frame in found]
    others = [size for size in sizes[:-1] if size != sizes[0]]
    if not others or found[0].header.is_variable:
        return None
    return f"the fixed block size changes from {sizes[0]} to {others[0]}"


def has_right_sum(streaminfo: StreamInfo, expected: Reading) -> bool:
    """Whether the samples have the MD5 sum of the streaminfo, or it has none."""
    if not any(streaminfo.md5):
        return True
    return streaminfo.md5 == slow_decoder.md5_of(expected.frames, streaminfo.bits_per_sample)


def places_in(found: Dict[str, Any]) -> List[Tuple[Any, ...]]:
    """The places of an object."""
    keys = "start_byte", "end_byte", "start_sample", "end_sample", "what"
    return [tuple(place[key] for key in keys) for place in found["places"]]


def difference_of_frames(data: bytes, found: Dict[str, Any]) -> Optional[str]:
    """The same of a file whose head is wrong: its frames are told where one of them says its bit
    depth."""
    known = format_of(data)
    is_told = known is not None and has_small_frames(known)
    if known is None or not is_told or "frames" not in found:
        return None if is_told == ("frames" in found) else "verify: frames without a head"
    keys = "frames", "samples", "sample_rate", "channels", "bits_per_sample", "md5"
    wanted = places_of(data, 0, known)
    numbers = known.sample_rate, known.channels, known.bits_per_sample
    if tuple(map(found.get, keys)) != (wanted.frames, wanted.samples, *numbers, "not computed"):
        return "verify: numbers of a file without a head"
    if not are_told(known, places_in(found), found.get("left_out", 0), wanted.told()):
        return "verify: places of a file without a head"
    return None


def difference(data: bytes, expected: Reading, found: Dict[str, Any]) -> Optional[str]:
    """How the object that `claxon verify --json` prints differs from what is expected, or None."""
    verdict, head = found["verdict"], head_of(data)
    if head is None and verdict == "wrong":
        return difference_of_frames(data, found)
    if head is None:
        has_head = "frames" in found or verdict == "ok"
        return f"verify: {verdict}, but no head" if has_head else None
    if "frames" not in found or ("reason" in found and verdict == "wrong"):
        return "verify: a head that is refused"
    if expected.streaminfo is None:
        expected = reading_after(data, head)
    streaminfo = head.streaminfo
    wanted = places_of(data, head.end, streaminfo).told()
    if not are_told(streaminfo, places_in(found), found.get("left_out", 0), wanted):
        return "verify: places"
    if wanted:
        return "verify: right with a place" if verdict == "ok" else None
    samples = sum(frame.header.block_size for frame in expected.frames)
    if (found["frames"], found["samples"]) != (len(expected.frames), samples):
        return "verify: numbers of frames and samples"
    noted = [note for note in found["notes"] if note.startswith("the fixed block size")]
    if noted != list(filter(None, [size_note(expected.frames)])):
        return "verify: a note on block sizes"
    is_right = streaminfo.samples in (0, samples) and has_right_sum(streaminfo, expected)
    right = "ok" if head.is_supported else "not supported"
    return None if verdict == (right if is_right else "wrong") else f"verify: {verdict}"
