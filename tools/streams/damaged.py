"""Small streams for `claxon verify`: for each kind of wrong the smallest that has just it, with
what is to be said of it.

The wanted results are worked by hand from RFC 9639 and from what docs/PROGRAMS.md says of `claxon
verify`. Most streams are a head of 42 bytes and frames of 11 bytes with 16 samples each, so that
frame N begins at the byte 42 + 11 N.
"""
import dataclasses
import struct
from typing import Any, Dict, Iterable, Iterator, List, Optional, Sequence, Tuple

from streams import frames as writer

CRC = "Ill-formed FLAC stream: frame CRC mismatch"
SYNC = "Ill-formed FLAC stream: frame sync code missing"
CUT = "truncated: the file ends inside a frame"
CUT_HEAD = "truncated: the file ends inside the metadata"
DEEP_SAMPLES = "32-bit samples"
BLOCK_NOTE = "a block size is out of the streaminfo's bounds"
FRAME_NOTE = "a frame size is out of the streaminfo's bounds"
BYTE_NOTE, MD5_NOTE, LENGTH_NOTE = "1 byte after the last frame", "no MD5 sum", "unknown length"
STRATEGY = "the blocking strategy differs from the first frame's"
WIDE_SAMPLE = "a sample has more bits than the streaminfo says"
WRONG_MD5 = "but their MD5 sum isn't that of the streaminfo"
NO_FILE, HEAD = "not a FLAC file", "the head"
INFO_LENGTH = "Ill-formed FLAC stream: invalid streaminfo metadata block length"
SECOND = ": a second stream begins"
# The first byte of a place and that after it, the first sample and that after it, and what is
# wrong.
Place = Tuple[int, int, int, int, str]
MISSING = "1 frame is missing"
SECOND_MISSING = 53, 53, 16, 32, MISSING
REPEATED, OUT_OF_ORDER = "frames are repeated", "frames are out of order"
BEYOND = "frames after the streaminfo's last sample"


@dataclasses.dataclass(frozen=True)
class Format:
    """What a streaminfo says, and what the headers of frames say, where it isn't another
    `Format`."""

    rate: int = 44100
    channels: int = 1
    bits: int = 8
    blocks: Tuple[int, int] = (16, 16)
    sizes: Tuple[int, int] = (0, 0)


PLAIN = Format()


def frame(
    number: int,
    sample: int,
    size: int = 16,
    stream: Format = PLAIN,
    is_variable: bool = False,
    channel_code: Optional[int] = None,
) -> bytes:
    """A frame of `size` samples in each channel, all the same."""
    channel_code = stream.channels - 1 if channel_code is None else channel_code
    header = writer.frame_header(
        size,
        channel_code,
        writer.BIT_DEPTH_CODES[stream.bits],
        writer.RATE_CODES.get(stream.rate, 0),
        number,
        is_variable=is_variable,
        is_small=True,
    )
    depths = [
        writer.bit_depth_of(channel_code, channel, stream.bits)
        for channel in range(stream.channels)
    ]
    return writer.frame(header, [writer.constant(sample, depth) for depth in depths])


def md5_of(samples: Iterable[int], stream: Format = PLAIN, size: int = 16) -> bytes:
    """The MD5 sum of frames, each of 16 such samples, or of another number, in each channel."""
    blocks = [[[sample] * size] * stream.channels for sample in samples]
    return writer.md5_of(blocks, stream.bits)


def head(samples: int, md5: bytes, stream: Format = PLAIN) -> bytes:
    content = writer.streaminfo(
        stream.blocks, stream.sizes, stream.rate, stream.channels, stream.bits, samples, md5
    )
    return writer.head_with(content)


def numbered(
    numbers: Sequence[int],
    of: Optional[int] = None,
    samples: Optional[int] = None,
    md5: Optional[bytes] = None,
    stream: Format = PLAIN,
    frames: Optional[Format] = None,
) -> bytes:
    """A stream of `of` frames of 16 samples, of which just those of these numbers are there, in
    this order. The samples of frame N are N + 1. The frames are right where `of` and `frames` are
    left out."""
    of = len(numbers) if of is None else of
    md5 = md5_of(range(1, of + 1), stream) if md5 is None else md5
    front = head(16 * of if samples is None else samples, md5, stream)
    return front + b"".join(
        frame(number, number + 1, stream=frames or stream) for number in numbers
    )


TWO, THREE = numbered([0, 1]), numbered([0, 1, 2])


def variable(number: int, sample: int) -> bytes:
    """A frame of a stream whose block size is variable."""
    return frame(number, sample, is_variable=True)


def flipped(data: bytes, positions: Iterable[int], bit: int = 1) -> bytes:
    """The data, with the lowest bit of these bytes flipped, or another one."""
    changed = bytearray(data)
    for position in positions:
        changed[position] ^= bit
    return bytes(changed)


@dataclasses.dataclass
class Row:
    """A stream, and what is to be said of it: the line without the name, the first place as a
    brief line has it, and the parts of the JSON object. Without `counts` there are no frames, but a
    reason; with both the head is wrong, or something isn't supported."""

    name: str
    data: bytes
    line: str
    counts: Optional[Tuple[int, int]] = None
    first_place: str = ""
    places: Tuple[Place, ...] = ()
    md5: str = "ok"
    notes: Tuple[str, ...] = ()
    reason: Optional[str] = None
    stream: Format = PLAIN
    once: Optional["Row"] = None  # as it is told where it can't be read twice, if it differs

    @property
    def verdict(self) -> str:
        return self.line.split(",")[0]

    @property
    def has_wrong_head(self) -> bool:
        return self.verdict == "wrong" and self.reason is not None

    @property
    def status(self) -> int:
        return {"ok": 0, "wrong": 1, "not supported": 3}[self.verdict]

    def place_lines(self) -> List[str]:
        if self.verdict != "wrong":
            return []
        lines = []
        for start, end, first, after, what in self.places:
            where = f"byte {start}" if start == end else f"bytes {start} to {end}"
            lines.append(f"  {where}, samples {first} to {after}: {what}")
        return lines

    def text(self, shown_name: str, is_brief: bool = False) -> str:
        lines = [self.line + self.first_place] if is_brief else [self.line, *self.place_lines()]
        return "".join(f"{shown_name}: {line}\n" for line in lines)

    def json(self, name: str, computes_md5: bool = True) -> Dict[str, Any]:
        """The object, as Python's json reads it."""
        wanted: Dict[str, Any] = {"name": name, "verdict": self.verdict}
        if self.counts:
            keys = "start_byte", "end_byte", "start_sample", "end_sample", "what"
            wanted.update(
                frames=self.counts[0],
                samples=self.counts[1],
                sample_rate=self.stream.rate,
                channels=self.stream.channels,
                bits_per_sample=self.stream.bits,
                md5=self.md5 if computes_md5 else "not computed",
                places=[dict(zip(keys, place)) for place in self.places],
                notes=list(self.notes),
            )
            said = int.from_bytes(self.data[18:26], "big") % 2 ** 36
            if said and not self.has_wrong_head:
                wanted["streaminfo_samples"] = said
        if self.reason is not None:
            wanted["reason"] = self.reason
        return wanted


def line_of(verdict: str, counts: Tuple[int, int], *parts: str) -> str:
    frames, samples = (
        f"{count} {thing}{'' if count == 1 else 's'}"
        for count, thing in zip(counts, ("frame", "sample"))
    )
    return ", ".join((verdict, frames, samples, *parts))


def right(
    name: str,
    data: bytes,
    counts: Tuple[int, int] = (2, 32),
    notes: Tuple[str, ...] = (),
    stream: Format = PLAIN,
) -> Row:
    """A row of a stream that is right."""
    md5 = "none" if MD5_NOTE in notes else "ok"
    line = line_of("ok", counts, *notes)
    return Row(name, data, line, counts, md5=md5, notes=notes, stream=stream)


def wrong(
    name: str,
    data: bytes,
    counts: Tuple[int, int],
    *places: Place,
    said: Optional[int] = None,
    notes: Tuple[str, ...] = (),
    unsupported: Optional[str] = None,
    **members: Any,
) -> Row:
    """A row of a stream with these places. `said` is the number of samples in the streaminfo, where
    it is another one, and `unsupported` what isn't supported of a metadata block. Where neither
    places nor the number are wrong, the MD5 sum is."""
    parts = [] if said is None else [f"but the streaminfo says {said}"]
    if not places and said is None:
        parts.append(WRONG_MD5)
    if unsupported is not None:
        parts.append(f"not supported: {unsupported}")
        notes += (f"not supported: {unsupported}",)
    line = line_of("wrong", counts, *parts, *number_of(places))
    members.setdefault("md5", "none" if MD5_NOTE in notes else "wrong")
    return Row(name, data, line, counts, first_of(places), places, notes=notes, **members)


def number_of(places: Sequence[Place]) -> List[str]:
    """How many places there are, if there are some, as a part of a line."""
    return ["1 place" if len(places) == 1 else f"{len(places)} places"] if places else []


def first_of(places: Sequence[Place]) -> str:
    """What a brief line has of the first place."""
    if not places:
        return ""
    start, _, first, _, what = places[0]
    before = "" if len(places) == 1 else ", the first"
    return f"{before} at byte {start} after {first} samples: {what}"


def refused(name: str, data: bytes, verdict: str, reason: str) -> Row:
    """A row of a stream whose head is refused."""
    return Row(name, data, f"{verdict}, {reason}", reason=reason)


def headless(
    name: str,
    data: bytes,
    counts: Tuple[int, int],
    *places: Place,
    reason: str = NO_FILE,
    notes: Tuple[str, ...] = (),
    stream: Format = PLAIN,
) -> Row:
    """A row of a stream whose head is wrong, and whose frames are told, but of standard input."""
    line = line_of(f"wrong, {reason}", counts, *number_of(places))
    return Row(
        name,
        data,
        line,
        counts,
        first_of(places),
        places,
        md5="not computed",
        notes=notes,
        reason=reason,
        stream=stream,
        once=refused(name, data, "wrong", reason),
    )


def right_rows() -> Iterator[Row]:
    """Streams that are right, with all that is noted of one."""
    yield right("right", TWO)
    yield right("no frame", head(0, bytes(16)), (0, 0), (MD5_NOTE, LENGTH_NOTE))
    yield right("no MD5 sum", numbered([0, 1], md5=bytes(16)), notes=(MD5_NOTE,))
    yield right("unknown length", numbered([0, 1], samples=0), notes=(LENGTH_NOTE,))
    large = Format(blocks=(17, 20))
    yield right("a block that is too small", numbered([0, 1], stream=large), notes=(BLOCK_NOTE,))
    last = head(32, md5_of([1, 1])) + frame(0, 1, 18) + frame(1, 1, 14)
    yield right("a block that is too large", last, notes=(BLOCK_NOTE,))
    short = head(18, md5_of([1], size=18)) + frame(0, 1) + frame(1, 1, 2)
    yield right("a short last block", short, (2, 18))
    for sizes, is_out, other in (
        ((16, 32, 16), True, 32),
        ((16, 8, 32, 16), True, 8),
        ((8, 16, 16), True, 16),
        ((16, 16, 32), True, None),
        ((8, 16), True, None),
        ((16, 16, 8), False, None),
    ):
        blocks = [[[number] * size] for number, size in enumerate(sizes)]
        data = head(sum(sizes), writer.md5_of(blocks, 8)) + b"".join(
            frame(number, number, size) for number, size in enumerate(sizes)
        )
        notes = (BLOCK_NOTE,) if is_out else ()
        if other:
            notes += (f"the fixed block size changes from {sizes[0]} to {other}",)
        name = "blocks of " + ", ".join(map(str, sizes))
        yield right(name, data, (len(sizes), sum(sizes)), notes=notes)
    data = head(64, md5_of([1], size=64)) + b"".join(
        frame(first, 1, count, is_variable=True) for first, count in ((0, 16), (16, 32), (48, 16))
    )
    yield right("variable blocks of other sizes", data, (3, 64), notes=(BLOCK_NOTE,))
    outside = (12, 0), (0, 10), (5, 10), (12, 13)
    for sizes in (*outside, (11, 11), (0, 11), (11, 0), (1, 20)):
        where = "out of" if sizes in outside else "within"
        yield right(
            f"frames {where} {sizes[0]} to {sizes[1]} bytes",
            numbered([0, 1], stream=Format(sizes=sizes)),
            notes=(FRAME_NOTE,) if sizes in outside else (),
        )
    yield right("a byte after", TWO + b"\xff", notes=(BYTE_NOTE,))
    noted = dataclasses.replace(large, sizes=(12, 12))
    yield right(
        "all notes",
        numbered([0, 1], samples=0, md5=bytes(16), stream=noted) + b"\0",
        notes=(MD5_NOTE, LENGTH_NOTE, BLOCK_NOTE, FRAME_NOTE, BYTE_NOTE),
    )
    yield right("variable blocks", TWO[:42] + variable(0, 1) + variable(16, 2))
    deep = Format(bits=24, channels=2)
    yield right("24 bits, two channels", numbered([0, 1], stream=deep), stream=deep)


def order_rows() -> Iterator[Row]:
    """Frames that are all right by themselves, and not where they have to be."""
    swapped = 53, 75, 16, 48, OUT_OF_ORDER
    yield wrong("two frames swapped", numbered([0, 2, 1, 3]), (4, 64), swapped)
    first_last = 42, 86, 0, 64, OUT_OF_ORDER
    yield wrong("a frame three too early", numbered([3, 0, 1, 2, 4]), (5, 80), first_last)
    swapped = 53, 97, 16, 80, OUT_OF_ORDER
    yield wrong("two pairs swapped", numbered([0, 3, 4, 1, 2, 5]), (6, 96), swapped)
    yield wrong(
        "a frame overwritten by the next one",
        numbered([0, 2, 2, 3]),
        (4, 64),
        SECOND_MISSING,
        (64, 75, 48, 48, REPEATED),
    )
    yield wrong("a frame missing", numbered([0, 2], of=3), (2, 32), SECOND_MISSING, said=48)
    gap = 53, 53, 16, 64, "3 frames are missing"
    yield wrong("three frames missing", numbered([0, 4], of=5), (2, 32), gap, said=80)
    place = 64, 75, 32, 32, REPEATED
    yield wrong("a frame twice", numbered([0, 1, 1, 2], of=3), (4, 64), place, said=48)
    place = 64, 86, 32, 32, BEYOND
    yield wrong("two frames twice", numbered([0, 1, 0, 1], of=2), (4, 64), place, said=32)
    yield wrong(
        "the last frame missing",
        numbered([0, 1], of=3),
        (2, 32),
        (64, 64, 32, 48, "16 samples are missing"),
        said=48,
    )
    later = numbered([1, 2], of=2, samples=48, md5=md5_of([2, 3]))
    place = 42, 42, 0, 16, MISSING
    yield wrong("numbers from 1 on", later, (2, 32), place, said=48, md5="ok")
    start = numbered([0, 1], samples=64)[:42] + variable(0, 1)
    place = 53, 53, 16, 48, "32 samples are missing"
    yield wrong("a gap of samples", start + variable(48, 2), (2, 32), place, said=64, md5="ok")
    data = TWO[:42] + variable(0, 1) + variable(15, 2)
    yield wrong("a sample twice", data, (2, 32), (53, 64, 16, 32, REPEATED), md5="ok")
    yield wrong(
        "a frame missing, unknown length",
        numbered([0, 2], of=3, samples=0, md5=md5_of([1, 3])),
        (2, 32),
        SECOND_MISSING,
        md5="ok",
        notes=(LENGTH_NOTE,),
    )


def strategy_rows() -> Iterator[Row]:
    """Frames of both blocking strategies."""
    other, last = variable(16, 2), variable(32, 3)
    for name, data, end, after in (
        ("another blocking strategy from the middle on", THREE[:53] + other + last, 75, 48),
        ("another blocking strategy in the middle", THREE[:53] + other + THREE[64:], 64, 32),
        (
            "fixed blocks in the middle",
            THREE[:42] + variable(0, 1) + THREE[53:64] + last,
            64,
            32,
        ),
    ):
        yield wrong(name, data, (3, 48), (53, end, 16, after, STRATEGY), md5="ok")


def format_rows() -> Iterator[Row]:
    """Frames that disagree with the streaminfo."""
    fast, stereo = Format(rate=48000), Format(channels=2)
    for name, stream, what in (
        ("48 kHz", fast, "44100 Hz, but the streaminfo says 48000"),
        ("two channels", stereo, "1 channel, but the streaminfo says 2"),
        ("16 bits", Format(bits=16), "8 bits per sample, but the streaminfo says 16"),
    ):
        data = numbered([0, 1], md5=bytes(16), stream=stream, frames=PLAIN)
        name, place = "a streaminfo of " + name, (42, 64, 0, 32, what)
        once = wrong(name, data, (2, 32), place, notes=(MD5_NOTE,), stream=stream)
        if stream is fast:
            yield once
        else:
            # In a file only frames of the streaminfo's format are looked for.
            none = wrong(name, data, (0, 0), place, said=32, notes=(MD5_NOTE,), stream=stream)
            yield dataclasses.replace(none, once=once)
    three = numbered([0, 1, 2], md5=bytes(16))
    place = 53, 66, 16, 32, "2 channels, but the streaminfo says 1"
    for name, number in ("", 1), (" with another number", 7):
        data = three[:53] + frame(number, 2, stream=stereo) + three[64:]
        name = "a frame of two channels" + name
        once = wrong(name, data, (3, 48), place, notes=(MD5_NOTE,))
        yield wrong(name, data, (2, 32), place, said=48, notes=(MD5_NOTE,), once=once)
    yield wrong(
        "a frame of 48 kHz",
        THREE[:53] + frame(1, 2, stream=fast) + THREE[64:],
        (3, 48),
        (53, 64, 16, 32, "48000 Hz, but the streaminfo says 44100"),
        md5="ok",
    )


def wide_frame(number: int, sample: int) -> bytes:
    """A frame of 16 samples of 9 bits, in a stream of 8 bits. It has 30 bytes."""
    header = writer.frame_header(
        16, 0, writer.BIT_DEPTH_CODES[8], writer.RATE_CODES[44100], number, is_small=True
    )
    residual = writer.bits_of(0, 6) + writer.escaped_partition([sample] * 16, 9, 4)
    return writer.frame(header, [writer.subframe_header(8) + residual])


def wide_rows() -> Iterator[Row]:
    """Frames in order, with samples that don't fit in the bit depth, or are the least or the
    greatest that do. The MD5 sums are those of the samples' lowest bytes."""
    first, last = frame(0, 1), frame(2, 3)
    for sample in 128, 200, 255, -129, -256:
        yield wrong(
            f"a sample of {sample} in 8 bits",
            head(48, md5_of([1, sample, 3])) + first + wide_frame(1, sample) + last,
            (3, 48),
            (53, 83, 16, 32, WIDE_SAMPLE),
            md5="ok",
        )
    for sample in 127, -128:
        data = head(48, md5_of([1, sample, 3])) + first + wide_frame(1, sample) + last
        yield right(f"a sample of {sample} in 8 bits", data, (3, 48))
    yield wrong(
        "wide samples in two frames",
        head(48, md5_of([200, 201, 3])) + wide_frame(0, 200) + wide_frame(1, 201) + last,
        (3, 48),
        (42, 102, 0, 32, WIDE_SAMPLE),
        md5="ok",
    )
    pair = Format(bits=16, channels=2)
    header = writer.frame_header(16, 8, writer.BIT_DEPTH_CODES[16], 9, is_small=True)
    for name, side in ("right of -98303", 65535), ("right of -32768", 0):
        block = [[-32768] * 16, [-32768 - side] * 16]
        data = head(16, writer.md5_of([block], 16), pair)
        subframes = writer.constant(-32768, 16), writer.constant(side, 17)
        data += writer.frame(header, subframes)
        if side:
            place = 42, len(data), 0, 16, WIDE_SAMPLE
            yield wrong(name, data, (1, 16), place, md5="ok", stream=pair)
        else:
            yield right(name, data, (1, 16), stream=pair)
    deep = Format(bits=32)
    for sample in 2**31 - 1, -(2**31):
        header = writer.frame_header(16, rate_code=9, is_small=True)
        data = head(16, md5_of([sample], deep), deep)
        data += writer.frame(header, [writer.constant(sample, 32)])
        yield right(f"a sample of {sample} in 32 bits", data, (1, 16), stream=deep)


def sum_rows() -> Iterator[Row]:
    yield wrong("another MD5 sum", numbered([0, 1], md5=md5_of([1, 1])), (2, 32))
    for samples, start, end in (16, 53, 16), (1, 42, 0), (31, 53, 16):
        data = numbered([0, 1], samples=samples)
        name, place = f"{samples} samples in the streaminfo", (start, 64, end, samples, BEYOND)
        yield wrong(name, data, (2, 32), place, said=samples, md5="ok")
    for samples, what in (
        (33, "1 sample is missing"),
        (48, "16 samples are missing"),
        (2**36 - 1, f"{2**36 - 33} samples are missing"),
    ):
        data = numbered([0, 1], samples=samples)
        name, place = f"{samples} samples in the streaminfo", (64, 64, 32, samples, what)
        yield wrong(name, data, (2, 32), place, said=samples, md5="ok")
    place = 42, 42, 0, 16, "16 samples are missing"
    yield wrong(
        "no frame, but samples", head(16, bytes(16)), (0, 0), place, said=16, notes=(MD5_NOTE,)
    )


def bytes_after(position: int, sample: int, data: bytes, what: str = "") -> Place:
    """The place of bytes after the last frame."""
    said = f"{len(data)} bytes after the last frame{what}"
    return position, position + len(data), sample, sample, said


def trailing_rows() -> Iterator[Row]:
    """Bytes after the last frame."""
    is_id3, is_ape, are_zeros = ": an ID3v1 tag", ": an APE tag", ": zeros"
    ape = b"APETAGEX" + struct.pack("<IIII8x", 2000, 41, 1, 0x80000000) + bytes(9)
    for name, more, what in (
        ("an ID3v1 tag", b"TAG" + b"title".ljust(124, b"\0") + b"\xff", is_id3),
        ("an APE tag", ape, is_ape),
        ("2 zeros", bytes(2), are_zeros),
        ("3 zeros", bytes(3), are_zeros),
        ("4096 zeros", bytes(4096), are_zeros),
        ("other bytes", b"hello", ""),
        ("other bytes after zeros", bytes(4) + b"a", ""),
        ("a byte after two zeros", b"\0\0\1", ""),
        ("127 bytes of a tag", b"TAG".ljust(127, b"a"), ""),
        ("129 bytes of a tag", b"TAG".ljust(129, b"a"), ""),
        ("7 bytes of a tag", b"APETAGE", ""),
    ):
        place = bytes_after(64, 32, more, what)
        yield wrong(name + " after", TWO + more, (2, 32), place, md5="ok")
    for name, more, counts in ("as long", TWO, (4, 64)), ("longer", THREE, (5, 80)):
        place = bytes_after(64, 32, more, SECOND)
        yield wrong(f"a second stream, {name}", TWO + more, counts, place, said=32)
    tag = b"TAG".ljust(128, b"\0")
    yield wrong(
        "a tag, unknown length",
        numbered([0, 1], samples=0) + tag,
        (2, 32),
        bytes_after(64, 32, tag, is_id3),
        md5="ok",
        notes=(LENGTH_NOTE,),
    )
    yield wrong(
        "a frame missing, and a tag",
        numbered([0, 2], of=3) + tag,
        (2, 32),
        SECOND_MISSING,
        bytes_after(64, 48, tag, is_id3),
        said=48,
    )
    yield wrong(
        "a flipped bit in the last frame, and a tag",
        flipped(THREE, [72]) + tag,
        (2, 32),
        (64, 203, 32, 48, CRC),
        said=48,
    )
    yield wrong(
        "only zeros after the head",
        head(0, bytes(16)) + bytes(4),
        (0, 0),
        bytes_after(42, 0, bytes(4), are_zeros),
        notes=(MD5_NOTE, LENGTH_NOTE),
    )


def negative_shift_frame(number: int, sample: int) -> bytes:
    """A frame of 16 equal samples by a linear predictor of order 1, whose shift is -1. It has 17
    bytes, of which 11 are read up to the shift."""
    header = writer.frame_header(
        16, 0, writer.BIT_DEPTH_CODES[8], writer.RATE_CODES[44100], number, is_small=True
    )
    predictor = writer.bits_of(sample, 8) + writer.linear_predictor([1], 7, -1)
    residual = writer.bits_of(0, 6) + writer.rice_partition([0] * 15, 0, 4)
    return writer.frame(header, [writer.subframe_header(32) + predictor + residual])


def lost_rows() -> Iterator[Row]:
    """Streams of which a frame is damaged. Of standard input the frame after it is lost too, as the
    decoder has read its first byte."""
    for name, data, end, what in (
        ("a flipped bit of a sync code, odd frames", flipped(THREE, [53]), 64, SYNC),
        ("a byte is cut out of a frame", THREE[:63] + THREE[64:], 63, CRC),
        ("a byte is put into a frame", THREE[:61] + b"\0" + THREE[61:], 65, CRC),
    ):
        once = wrong(name, data, (1, 16), (53, len(data), 16, 48, what), said=48)
        yield wrong(name, data, (2, 32), (53, end, 16, 32, what), said=48, once=once)


def fault_rows() -> Iterator[Row]:
    """Frames that can't be decoded."""
    places = [
        (42 + 11 * index, 53 + 11 * index, 16 * index, 16 * index + 16, CRC)
        for index in range(1, 20, 2)
    ]
    data = flipped(numbered(range(21)), [place[0] + 8 for place in places])
    yield wrong("ten flipped bits", data, (11, 176), *places, said=336)
    first, last = (42, 53, 0, 16, CRC), (64, 75, 32, 48, CRC)
    for name, position, place in (
        ("the first frame", 50, first),
        ("the middle", 61, (53, 64, 16, 32, CRC)),
        ("the last frame", 72, last),
    ):
        data = flipped(THREE, [position])
        yield wrong("a flipped bit in " + name, data, (2, 32), place, said=48)
    yield wrong(
        "a flipped bit in the first and the last frame",
        flipped(THREE, [50, 72]),
        (1, 16),
        first,
        last,
        said=48,
    )
    data = flipped(numbered(range(4)), [61, 72])
    yield wrong("flipped bits in neighbours", data, (2, 32), (53, 75, 16, 48, CRC), said=64)
    # No frame begins there, so decoding goes on two bytes on: with frames of 12 bytes at the next
    # frame, with those of 11 at none.
    deep = Format(bits=16)
    yield wrong(
        "a flipped bit of a sync code",
        flipped(numbered([0, 1, 2], stream=deep), [54]),
        (2, 32),
        (54, 66, 16, 32, SYNC),
        said=48,
        stream=deep,
    )
    # The code of 24 bits becomes that of 32 bits: the frame is damaged, since the stream has 24
    # bits.
    deep = Format(bits=24)
    yield wrong(
        "a flipped bit of a bit depth code",
        flipped(numbered([0, 1], stream=deep), [55 + 3], bit=2),
        (1, 16),
        (55, 68, 16, 32, DEEP_SAMPLES + " are not supported"),
        said=32,
        stream=deep,
    )
    data = numbered([0], of=3) + negative_shift_frame(1, 2) + frame(2, 3)
    shift = "Ill-formed FLAC stream: negative linear predictor coefficient shift"
    yield wrong("a negative shift", data, (2, 32), (53, 70, 16, 32, shift), said=48)
    data = numbered([0], of=2) + b"bytes!" + frame(1, 2)
    yield wrong("bytes between frames", data, (2, 32), (53, 59, 16, 16, SYNC), md5="ok")
    # As a sector of the same file over parts of the frames 1 and 2.
    data = numbered([0, 1, 3, 2, 2, 3, 4], of=5)
    later = 53, 86, 16, 32, CRC
    yield wrong("a later frame in damage", flipped(data, [61, 83]), (5, 80), later)
    data = numbered([0, 1, 2, 0, 1, 3, 4], of=5)
    earlier = 64, 97, 32, 48, CRC
    yield wrong("an earlier frame in damage", flipped(data, [72, 94]), (5, 80), earlier)
    for length in 55, 58, 63:
        place = 53, length, 16, 32, CUT
        yield wrong(f"cut at byte {length}", TWO[:length], (1, 16), place, said=32)
    lost = 53, 53, 16, 32, "16 samples are missing"
    yield wrong("cut between frames", TWO[:53], (1, 16), lost, said=32)
    lost = 54, 54, 16, 32, "16 samples are missing"
    yield wrong(
        "cut after a byte of a frame", TWO[:54], (1, 16), lost, said=32, notes=(BYTE_NOTE,)
    )


def head_rows() -> Iterator[Row]:
    """Streams that are refused before a frame, or because of what isn't supported."""
    yield refused("an empty file", b"", "wrong", CUT_HEAD)
    yield refused("41 bytes", TWO[:41], "wrong", CUT_HEAD)
    unsupported, tag = "not supported", "an ID3v2 tag in front of the stream"
    # RFC 3533, section 6; ISO/IEC 14496-12, section 4.3.
    yield refused("a page of Ogg", b"OggS\0\2" + bytes(20) + TWO, unsupported, "an Ogg file")
    yield refused("a box of MP4", b"\0\0\0\x18ftypM4A " + TWO, unsupported, "an MP4 file")
    yield refused("an ID3v2 tag", b"ID3\4" + bytes(6) + TWO, unsupported, tag)
    for rate in 0, 655351, 2**20 - 1:
        data = numbered([0, 1], stream=Format(rate=rate), frames=PLAIN)
        reason = "a sample rate of 0 or above 655350 Hz"
        yield refused(f"a rate of {rate} Hz", data, unsupported, reason)
    high = Format(rate=655350)
    yield right("655350 Hz", numbered([0, 1], stream=high), stream=high)
    wide = Format(bits=32)
    pair = dataclasses.replace(wide, channels=2)
    side = writer.with_crc8(frame(0, 1, stream=pair, channel_code=8)[:3] + b"\x80\0\x0f")
    feature = "A currently unsupported feature of the FLAC format was encountered: "
    for name, stream, data, before, reason in (
        ("32 bits a sample", wide, frame(0, 1, stream=wide), "", DEEP_SAMPLES),
        ("a side channel of 33 bits", pair, side, feature, "side channels of 33 bits"),
    ):
        yield Row(
            name,
            head(16, bytes(16), stream) + data,
            f"{unsupported}, {reason}",
            (0, 0),
            places=((42, 42 + len(data), 0, 16, f"{before}{reason} are not supported"),),
            md5="not computed",
            notes=(MD5_NOTE,),
            reason=reason,
            stream=stream,
        )


def without_marker(data: bytes) -> bytes:
    return b"fLaD" + data[4:]


def headless_rows() -> Iterator[Row]:
    """Streams whose heads are wrong: what their frames are by what they say themselves."""
    at_head, short = (0, 42, 0, 0, HEAD), without_marker(THREE)
    yield headless("another marker", without_marker(TWO), (2, 32), at_head)
    what, lost = "a wrong head, ", (0, 0, 0, 16, MISSING)
    yield headless(what + "it is missing", TWO[42:], (2, 32))
    yield headless(what + "20 bytes are missing", TWO[20:], (2, 32), (0, 22, 0, 0, HEAD))
    yield headless(what + "53 bytes are missing", THREE[53:], (2, 32), lost)
    yield headless(what + "50 bytes are missing", THREE[50:], (2, 32), (0, 3, 0, 16, HEAD))
    place = 0, 53, 0, 16, HEAD
    yield headless(what + "the first frame too", flipped(short, [50]), (2, 32), place)
    for name, position, place in (
        ("a frame too", 61, (53, 64, 16, 32, CRC)),
        ("the last frame too", 72, (64, 75, 32, 32, CRC)),
    ):
        yield headless(what + name, flipped(short, [position]), (2, 32), at_head, place)
    for name, data, end, reason in (
        ("no streaminfo", b"fLaC\1" + TWO[5:], 42, "streaminfo block missing"),
        (
            "a short streaminfo",
            TWO[:7] + b"\x21" + TWO[8:41] + TWO[42:],
            41,
            "invalid streaminfo metadata block length",
        ),
        (
            "other block sizes",
            numbered([0, 1], stream=Format(blocks=(32, 16)), frames=PLAIN),
            42,
            "inconsistent bounds, min block size > max block size",
        ),
        *wrong_comments(),
    ):
        reason = f"Ill-formed FLAC stream: {reason}"
        yield headless(what + name, data, (2, 32), (0, end, 0, 0, HEAD), reason=reason)
    data = TWO[:5] + b"\1" + TWO[6:]
    yield headless(what + "a long streaminfo", data, (2, 32), at_head, reason=INFO_LENGTH)
    data = with_blocks(TWO, b"\1\1\0\0" + bytes(4))
    place = 0, len(data) - 22, 0, 0, HEAD
    yield headless(what + "a long block", data, (2, 32), place, reason=CUT_HEAD)
    yield from headless_format_rows(what, at_head)
    yield from headless_end_rows(what, at_head)


def wrong_comments() -> Iterator[Tuple[str, bytes, int, str]]:
    """Streams of two frames with Vorbis comments in which a length, a number or the type is wrong:
    the name, the stream, where its first frame begins, and what is wrong."""
    data = with_blocks(TWO, comments(b"vendor", b"A=b"))
    for name, position, reason in (
        ("a long vendor string", 49, "vendor string too long"),
        ("many tags", 58, "too many entries for Vorbis comment block"),
        ("a long tag", 62, "Vorbis comment too long for Vorbis comment block"),
    ):
        yield name, flipped(data, [position]), len(data) - 22, reason
    data = data[:42] + b"\x7f" + data[43:]
    yield "another type of block", data, len(data) - 22, "invalid metadata block type"


def plain_frame(number: int, sample: int) -> bytes:
    """A frame that leaves the bit depth to the streaminfo."""
    header = writer.frame_header(
        16, rate_code=writer.RATE_CODES[44100], number=number, is_small=True
    )
    return writer.frame(header, [writer.constant(sample, 8)])


def headless_format_rows(what: str, at_head: Place) -> Iterator[Row]:
    """Frames of other formats, and those that don't say theirs."""
    deep = Format(bits=24, channels=2)
    data = without_marker(numbered([0, 1], stream=deep))
    yield headless(what + "24 bits, two channels", data, (2, 32), at_head, stream=deep)
    front, last = without_marker(THREE[:53]), frame(2, 3)
    for other, counts, text in (
        (Format(channels=2), (2, 32), "2 channels, but the first frame has 1"),
        (Format(bits=16), (2, 32), "16 bits per sample, but the first frame has 8"),
        (Format(rate=48000), (3, 48), "48000 Hz, but the first frame has 44100"),
    ):
        middle = frame(1, 2, stream=other)
        place = 53, 53 + len(middle), 16, 32, text
        yield headless(what + text, front + middle + last, counts, at_head, place)
    text = "a sample has more bits than those of the first frame"
    data = front + wide_frame(1, 200) + last
    yield headless(what + text, data, (3, 48), at_head, (53, 83, 16, 32, text))
    data = front + variable(16, 2) + last
    yield headless(what + STRATEGY, data, (3, 48), at_head, (53, 64, 16, 32, STRATEGY))
    empty = without_marker(head(32, bytes(16)))
    data = empty + plain_frame(0, 1) + frame(1, 2)
    yield headless(what + "a frame that says no bit depth", data, (2, 32), at_head)
    data = empty + plain_frame(0, 1) + plain_frame(1, 2)
    yield refused(what + "frames that say no bit depth", data, "wrong", NO_FILE)
    data = without_marker(numbered([0, 1], frames=Format(rate=12345)))
    no_rate = Format(rate=0)
    yield headless(what + "no sample rate", data, (2, 32), at_head, stream=no_rate)


def headless_end_rows(what: str, at_head: Place) -> Iterator[Row]:
    """What is missing, and what stands after the last frame."""
    two, tag = without_marker(TWO), b"TAG".ljust(128, b"\0")
    for name, data, counts, place in (
        ("a frame missing", numbered([0, 2]), (2, 32), SECOND_MISSING),
        ("a cut frame", TWO[:60], (1, 16), (53, 60, 16, 16, CUT)),
        ("a tag", TWO + tag, (2, 32), bytes_after(64, 32, tag, ": an ID3v1 tag")),
        ("a second stream", TWO + TWO, (4, 64), bytes_after(64, 32, TWO, SECOND)),
    ):
        yield headless(what + name, without_marker(data), counts, at_head, place)
    yield headless(what + "a byte after", two + b"\xff", (2, 32), at_head, notes=(BYTE_NOTE,))
    yield refused(what + "no frame", two[:42], "wrong", NO_FILE)
    yield refused(what + "no frame, but zeros", two[:42] + bytes(100), "wrong", NO_FILE)


def comments(vendor: bytes, *tags: bytes, left: bytes = b"") -> bytes:
    """A Vorbis comment block."""
    texts = [struct.pack("<I", len(text)) + text for text in (vendor, *tags)]
    content = texts[0] + struct.pack("<I", len(tags)) + b"".join(texts[1:]) + left
    return b"\4" + struct.pack(">I", len(content))[1:] + content


def with_blocks(data: bytes, *blocks: bytes) -> bytes:
    """The stream with these blocks after its streaminfo, and padding after them."""
    padding = b"\x81\0\0\1\0"
    return data[:4] + b"\0" + data[5:42] + b"".join(blocks) + padding + data[42:]


def passed_over(name: str, reason: str, *blocks: bytes) -> Iterator[Row]:
    """Streams with metadata blocks that `flac -t` accepts and claxon refuses: right and damaged."""
    data = with_blocks(TWO, *blocks)
    yield Row(name, data, f"not supported, {reason}", (2, 32), reason=reason)
    start = len(data) - 22
    damaged = flipped(data, [start + 10])
    place = start, start + 11, 0, 16, CRC
    yield wrong(f"{name}, damaged", damaged, (1, 16), place, said=32, unsupported=reason)


def block_rows() -> Iterator[Row]:
    """Streams with comments, and with metadata blocks that are passed over."""
    yield right("comments", with_blocks(TWO, comments(b"vendor", b"A=b", b"C=")))
    name = "a tag's name with a byte other than 0x20 to 0x7d"
    text, second = "a tag or vendor string that isn't UTF-8", "a second Vorbis comment block"
    cases: List[Tuple[str, str, List[bytes]]] = [
        ("a tilde", name, [comments(b"", b"A~=b")]),
        ("another letter in a name", name, [comments(b"", "Ä=b".encode())]),
        ("no separator", "a tag without '='", [comments(b"", b"Ab")]),
        ("a tag in Latin-1", text, [comments(b"", b"A=\xe4")]),
        ("a vendor in Latin-1", text, [comments(b"\xe4")]),
        ("bytes left", "bytes after the last tag", [comments(b"", b"A=b", left=b"\0\1")]),
        ("two blocks", second, [comments(b""), comments(b"", b"A=b")]),
        ("a tilde in the second", name, [comments(b""), comments(b"", b"~=b")]),
    ]
    for what, reason, blocks in cases:
        yield from passed_over(what, reason, *blocks)
    data = with_blocks(numbered([0, 1], md5=b"\1" * 16), comments(b"", b"A"))
    yield wrong("no separator, another sum", data, (2, 32), unsupported="a tag without '='")


def large_rows() -> Iterator[Row]:
    """Streams with metadata blocks of more than 10 MiB, which are passed over."""
    content = bytes(10 * 2**20 + 1)
    comment_block = comments(b"", b"A=" + content)
    yield from passed_over(
        "large comments", "Vorbis comment blocks larger than 10 MiB", comment_block
    )
    application = b"\2" + struct.pack(">I", len(content))[1:] + content
    yield from passed_over(
        "a large application", "application blocks larger than 10 MiB", application
    )


def rows() -> Iterator[Row]:
    """All but those of `large_rows`."""
    parts = right_rows, order_rows, strategy_rows, format_rows, wide_rows, sum_rows, lost_rows
    for part in (*parts, trailing_rows, fault_rows, head_rows, block_rows, headless_rows):
        yield from part()
