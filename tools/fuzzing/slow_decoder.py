"""A slow FLAC decoder, with whose results a fuzzing run compares those of claxon.

It was written from RFC 9639 and the choices that docs/FORMAT.md lists, without claxon's code.
Samples are computed modulo 2^32. A fault is raised where claxon has to stop. What claxon has to
decode although it breaks a rule of the RFC is a remark.
"""
import dataclasses
from typing import List, Optional, Sequence, Set, Tuple

from streams import frames
from streams.frames import FIXED_COEFFICIENTS, crc8, crc16

# The most bytes of an application or a comment block, and the most metadata blocks.
MAX_CONTENT = 10485760
MAX_BLOCKS = 65536

Channels = List[List[int]]
# The positions and sizes of fields, in bits.
Fields = List[Tuple[int, int]]
Blocks = List[Tuple[int, bytes]]


class Fault(Exception):
    """The stream can't be decoded further."""


class Incomplete(Fault):
    """The input ends too early."""


def wrap(number: int) -> int:
    """The signed number of 32 bits that is equal modulo 2^32."""
    return (number + 0x80000000 & 0xFFFFFFFF) - 0x80000000


def fits(number: int, bit_depth: int) -> bool:
    return -(1 << bit_depth - 1) <= number < 1 << bit_depth - 1


class BitReader:
    """Reads bits, the most significant of a byte first. `fields` are the positions and sizes of
    fields to change."""

    def __init__(self, data: bytes) -> None:
        self.bits = bin(int.from_bytes(b"\1" + data, "big"))[3:]
        self.at = 0
        self.fields: Fields = []

    def read(self, count: int) -> int:
        end = self.at + count
        if end > len(self.bits):
            raise Incomplete("incomplete subframe")
        bits = self.bits[self.at:end]
        self.at = end
        return int(bits, 2) if count else 0

    def read_field(self, count: int) -> int:
        self.fields.append((self.at, count))
        return self.read(count)

    def read_signed(self, count: int) -> int:
        number = self.read(count)
        return number - (1 << count) if count and number >> count - 1 else number

    def read_unary(self) -> int:
        one = self.bits.find("1", self.at)
        if one < 0:
            raise Incomplete("incomplete subframe")
        count = one - self.at
        self.at = one + 1
        return count


@dataclasses.dataclass
class StreamInfo:
    """The streaminfo block."""

    min_block_size: int
    max_block_size: int
    sample_rate: int
    channels: int
    bits_per_sample: int
    samples: int
    md5: bytes
    min_frame_size: int = 0
    max_frame_size: int = 0


@dataclasses.dataclass
class FrameHeader:
    """A frame header. `length` is the number of its bytes, with the CRC; `is_overlong` says
    whether the coded number could have been written in fewer bytes."""

    is_variable: bool
    block_size: int
    sample_rate: Optional[int]
    channel_code: int
    bit_depth: int
    coded_number: int
    length: int
    is_overlong: bool = False

    @property
    def channels(self) -> int:
        return self.channel_code + 1 if self.channel_code < 8 else 2

    def bit_depth_of(self, channel: int) -> int:
        """The bit depth of a subframe."""
        return frames.bit_depth_of(self.channel_code, channel, self.bit_depth)


@dataclasses.dataclass
class Frame:
    """`length` is the number of its bytes, with the footer; `fields` are the positions and sizes
    of fields worth changing."""

    header: FrameHeader
    channels: Channels
    length: int
    fields: Fields
    remarks: Set[str]


BIT_DEPTHS = {1: 8, 2: 12, 4: 16, 5: 20, 6: 24, 7: 32}
SAMPLE_RATES = {
    1: 88200,
    2: 176400,
    3: 192000,
    4: 8000,
    5: 16000,
    6: 22050,
    7: 24000,
    8: 32000,
    9: 44100,
    10: 48000,
    11: 96000,
}


def read_coded_number(data: bytes, at: int) -> Tuple[int, int]:
    """The coded number at a position, and the position after it."""
    first = data[at]
    ones = 8 - (first ^ 0xFF).bit_length()
    if ones == 0:
        return first, at + 1
    if ones == 1 or ones == 8:
        raise Fault("coded number")
    number = first & (1 << 7 - ones) - 1
    for byte in data[at + 1 : at + ones]:
        if byte >> 6 != 2:
            raise Fault("coded number")
        number = number << 6 | byte & 0x3F
    if at + ones > len(data):
        raise Incomplete("incomplete coded number")
    return number, at + ones


def read_block_size(code: int, data: bytes, at: int) -> Tuple[int, int]:
    """The block size, and the position after its field."""
    if code == 1:
        return 192, at
    if code in (6, 7):
        end = at + code - 5
        return int.from_bytes(data[at:end], "big") + 1, end
    return (576 << code - 2 if code < 6 else 256 << code - 8), at


def read_sample_rate(code: int, data: bytes, at: int) -> Tuple[Optional[int], int]:
    """The sample rate, None for that of the streaminfo, and the position after its field."""
    if code < 12:
        return SAMPLE_RATES.get(code), at
    end = at + (1 if code == 12 else 2)
    return int.from_bytes(data[at:end], "big") * (1000, 1, 10)[code - 12], end


def codes_of(data: bytes) -> Tuple[int, int, int, int]:
    """The codes of the block size, the sample rate, the channels and the bit depth in a frame
    header."""
    codes: List[int] = []
    for index in range(4):
        if index >= len(data):
            raise Incomplete("incomplete frame header")
        codes += divmod(data[index], 16)
        if index == 1 and (data[0] != 0xFF or data[1] >> 2 != 0x3E):
            raise Fault("sync code")
        if index == 1 and data[1] & 2 or index == 2 and codes[4] == 0:
            raise Fault("reserved value in the frame header")
        if index == 2 and codes[5] == 15:
            raise Fault("sample rate code 15")
    if codes[6] > 10 or codes[7] in (6, 7) or codes[7] & 1:
        raise Fault("reserved value in the frame header")
    return codes[4], codes[5], codes[6], codes[7] >> 1


def is_overlong(number: int, length: int) -> bool:
    return length > 1 and number < 1 << (7 if length == 2 else 5 * length - 4)


def header_of(data: bytes, stream_bit_depth: int) -> FrameHeader:
    """The frame header that the bytes begin with, whatever its CRC is."""
    block_size_code, sample_rate_code, channel_code, bit_depth_code = codes_of(data)
    if len(data) < 5:
        raise Incomplete("incomplete frame header")
    number, at = read_coded_number(data, 4)
    has_spare_bytes = is_overlong(number, at - 4)
    block_size, at = read_block_size(block_size_code, data, at)
    sample_rate, at = read_sample_rate(sample_rate_code, data, at)
    if at >= len(data):
        raise Incomplete("incomplete frame header")
    bit_depth = BIT_DEPTHS.get(bit_depth_code, stream_bit_depth)
    return FrameHeader(
        bool(data[1] & 1),
        block_size,
        sample_rate,
        channel_code,
        bit_depth,
        number,
        at + 1,
        has_spare_bytes,
    )


def check_numbers(data: bytes, block_size_code: int) -> None:
    """Refuses the coded number or the block size of a frame header, which may be cut after them."""
    number, at = read_coded_number(data, 4)
    if not data[1] & 1 and number > 0x7FFFFFFF:
        raise Fault("frame number above 31 bits")
    if block_size_code == 7 and data[at : at + 2] == b"\xff\xff":
        raise Fault("block size 65536")


def read_header(data: bytes, stream_bit_depth: int) -> FrameHeader:
    """The frame header that the bytes begin with, if claxon has to read it."""
    codes = codes_of(data)
    if codes[3] == 7:
        raise Fault("bit depth code of 32 bits")
    if len(data) > 4:
        check_numbers(data, codes[0])
    header = header_of(data, stream_bit_depth)
    if crc8(data[: header.length - 1]) != data[header.length - 1]:
        raise Fault("frame header CRC")
    return header


def read_rice_codes(reader: BitReader, parameter: int, count: int, remarks: Set[str]) -> List[int]:
    """Residual samples in Rice codes."""
    bits, at, residual = reader.bits, reader.at, []
    for _ in range(count):
        one = bits.find("1", at)
        end = one + 1 + parameter
        if one < 0 or end > len(bits):
            raise Incomplete("incomplete subframe")
        zigzag = one - at << parameter | int("0" + bits[one + 1 : end], 2)
        if zigzag >= 0xFFFFFFFF:
            remarks.add("residual sample beyond 32 bits")
            zigzag &= 0xFFFFFFFF
        residual.append(zigzag >> 1 ^ -(zigzag & 1))
        at = end
    reader.at = at
    return residual


def read_residual(
    reader: BitReader, block_size: int, predictor_order: int, remarks: Set[str]
) -> List[int]:
    method = reader.read_field(2)
    if method > 1:
        raise Fault("residual coding method")
    partition_count = 1 << reader.read_field(4)
    if block_size % partition_count:
        raise Fault("partition order")
    if predictor_order > block_size // partition_count:
        raise Fault("partition below the predictor order")
    if predictor_order == block_size // partition_count:
        remarks.add("empty partition")
    residual = []
    for partition in range(partition_count):
        rice_parameter = reader.read_field(4 + method)
        count = block_size // partition_count - (predictor_order if partition == 0 else 0)
        if rice_parameter == (31 if method else 15):
            bit_depth = reader.read_field(5)
            residual += [reader.read_signed(bit_depth) for _ in range(count)]
        else:
            residual += read_rice_codes(reader, rice_parameter, count, remarks)
    return residual


def restore(
    samples: List[int], residual: List[int], coefficients: Sequence[int], shift: int
) -> List[int]:
    """The samples of a channel, from its warm-up samples and its residual."""
    oldest_first = coefficients[::-1]
    order = len(oldest_first)
    for residual_sample in residual:
        previous = samples[len(samples) - order :]
        samples.append(
            wrap((sum(map(int.__mul__, oldest_first, previous)) >> shift) + residual_sample)
        )
    return samples


def read_linear_predictor(
    reader: BitReader, bit_depth: int, block_size: int, predictor_order: int
) -> Tuple[List[int], List[int], int]:
    """The warm-up samples, the coefficients and the shift of a linear predictor."""
    warm_up = [reader.read_signed(bit_depth) for _ in range(predictor_order)]
    precision = reader.read_field(4) + 1
    if precision == 16:
        raise Fault("coefficient precision")
    reader.fields.append((reader.at, 5))
    shift = reader.read_signed(5)
    if shift < 0:
        raise Fault("negative shift")
    return warm_up, [reader.read_signed(precision) for _ in range(predictor_order)], shift


def read_predicted(
    reader: BitReader,
    subframe_type: int,
    bit_depth: int,
    block_size: int,
    remarks: Set[str],
    is_measured: bool,
) -> List[int]:
    predictor_order = subframe_type - 31 if subframe_type > 31 else subframe_type - 8
    if predictor_order > block_size:
        raise Fault(f"order of a {'linear' if subframe_type > 31 else 'fixed'} predictor")
    if subframe_type > 31:
        warm_up, coefficients, shift = read_linear_predictor(
            reader, bit_depth, block_size, predictor_order
        )
    else:
        warm_up = [reader.read_signed(bit_depth) for _ in range(predictor_order)]
        coefficients, shift = list(FIXED_COEFFICIENTS[predictor_order]), 0
    residual = read_residual(reader, block_size, predictor_order, remarks)
    return [] if is_measured else restore(warm_up, residual, coefficients, shift)


def read_subframe(
    reader: BitReader, bit_depth: int, block_size: int, remarks: Set[str], is_measured: bool
) -> List[int]:
    """The samples of one subframe, or none where only its length is measured."""
    if reader.read_field(1):
        raise Fault("padding bit of a subframe")
    subframe_type = reader.read_field(6)
    if 2 <= subframe_type <= 7 or 13 <= subframe_type <= 31:
        raise Fault("reserved subframe type")
    wasted_bits = reader.read_unary() + 1 if reader.read_field(1) else 0
    if wasted_bits > 31:
        raise Fault("wasted bits above 31")
    if wasted_bits >= bit_depth:
        raise Fault("wasted bits alone")
    bit_depth -= wasted_bits
    if subframe_type == 0:
        samples = [reader.read_signed(bit_depth)] * block_size
    elif subframe_type == 1:
        samples = [reader.read_signed(bit_depth) for _ in range(block_size)]
    else:
        samples = read_predicted(reader, subframe_type, bit_depth, block_size, remarks, is_measured)
    if not all(fits(sample, bit_depth) for sample in samples):
        remarks.add("sample beyond its bit depth")
    return [wrap(sample << wasted_bits) for sample in samples] if wasted_bits else samples


def undo_decorrelation(channel_code: int, channels: Channels) -> Channels:
    """Left and right from left/side, side/right or mid/side, modulo 2^32. Other channels stay."""
    if channel_code < 8:
        return channels
    if channel_code == 8:
        return [channels[0], [wrap(left - side) for left, side in zip(*channels)]]
    if channel_code == 9:
        return [[wrap(side + right) for side, right in zip(*channels)], channels[1]]
    pairs = [(wrap(2 * mid + (side & 1)), side) for mid, side in zip(*channels)]
    return [
        [wrap(mid + side) >> 1 for mid, side in pairs],
        [wrap(mid - side) >> 1 for mid, side in pairs],
    ]


def read_subframes(
    data: bytes, header: FrameHeader, remarks: Set[str], is_measured: bool
) -> Tuple[Channels, BitReader]:
    """The samples of each subframe, and the bit reader after the last one."""
    reader = BitReader(data)
    depths = [header.bit_depth_of(channel) for channel in range(header.channels)]
    if max(depths) > 32:
        raise Fault("side channel of 33 bits")
    return [
        read_subframe(reader, bit_depth, header.block_size, remarks, is_measured)
        for bit_depth in depths
    ], reader


def measure(data: bytes, header: FrameHeader) -> Tuple[int, Fields]:
    """The length of the subframes after a frame header, in bits, and the fields in them."""
    _, reader = read_subframes(data, header, set(), True)
    return reader.at, reader.fields


def read_frame(data: bytes, stream_bit_depth: int) -> Frame:
    """The frame that the bytes begin with, in a stream of this bit depth, or 0 if it is unknown."""
    header = read_header(data, stream_bit_depth)
    if header.bit_depth == 0:
        raise Fault("unknown bit depth")
    remarks: Set[str] = set()
    channels, reader = read_subframes(data[header.length:], header, remarks, False)
    if reader.read(-reader.at % 8):
        remarks.add("padding bits that are ones")
    footer_start = header.length + reader.at // 8
    if footer_start + 2 > len(data):
        raise Incomplete("incomplete frame footer")
    if crc16(data[: footer_start + 2]):
        raise Fault("frame CRC")
    channels = undo_decorrelation(header.channel_code, channels)
    if not all(fits(sample, header.bit_depth) for channel in channels for sample in channel):
        remarks.add("sample beyond its bit depth")
    fields = [(8 * header.length + at, count) for at, count in reader.fields]
    return Frame(header, channels, footer_start + 2, fields, remarks)


def read_streaminfo(body: bytes) -> StreamInfo:
    if len(body) != 34:
        raise Fault("length of the streaminfo")
    packed = int.from_bytes(body[10:18], "big")
    streaminfo = StreamInfo(
        int.from_bytes(body[0:2], "big"),
        int.from_bytes(body[2:4], "big"),
        packed >> 44,
        (packed >> 41 & 7) + 1,
        (packed >> 36 & 31) + 1,
        packed & (1 << 36) - 1,
        body[18:],
        int.from_bytes(body[4:7], "big"),
        int.from_bytes(body[7:10], "big"),
    )
    if streaminfo.min_block_size > streaminfo.max_block_size:
        raise Fault("bounds of block sizes")
    if streaminfo.min_block_size < 16:
        raise Fault("block size below 16")
    if streaminfo.min_frame_size > streaminfo.max_frame_size > 0:
        raise Fault("bounds of frame sizes")
    if not 0 < streaminfo.sample_rate <= 655350:
        raise Fault("sample rate outside FLAC 1.3.1")
    return streaminfo


def check_comment(entry: bytes) -> None:
    name, equals, _ = entry.partition(b"=")
    if not equals:
        raise Fault("no = in a comment")
    if not all(0x20 <= byte <= 0x7D for byte in name):
        raise Fault("byte of a field name")
    check_utf8(entry)


def check_utf8(text: bytes) -> None:
    try:
        text.decode("utf-8")
    except UnicodeDecodeError:
        raise Fault("UTF-8 in comments")


def read_text(body: bytes, at: int, most: int, what: str) -> Tuple[bytes, int]:
    """The text after its length, and the position after it. The length is refused above `most`."""
    start = at + 4
    if start > len(body):
        raise Incomplete("incomplete head")
    end = start + int.from_bytes(body[at:start], "little")
    if end - start > most:
        raise Fault(f"length of {what}")
    if end > len(body):
        raise Incomplete("incomplete head")
    return body[start:end], end


def read_comments(body: bytes, length: int) -> int:
    """The number of tags in a comment block of this length, of which so many bytes are there."""
    if length < 8:
        raise Fault("comment block below 8 bytes")
    if length > MAX_CONTENT:
        raise Fault("comment block above 10 MiB")
    vendor, at = read_text(body, 0, length - 8, "the vendor string")
    check_utf8(vendor)
    if at + 4 > len(body):
        raise Incomplete("incomplete head")
    count = int.from_bytes(body[at : at + 4], "little")
    if count >= length // 4:
        raise Fault("number of comments")
    at, tags = at + 4, 0
    for _ in range(count):
        if at == length:
            raise Fault("missing comments")
        if at + 4 > length:
            break
        entry, at = read_text(body, at, length - at - 4, "a comment")
        if entry:
            check_comment(entry)
            tags += 1
    if at < length:
        raise Fault("bytes after comments")
    return tags


def read_metadata_blocks(data: bytes) -> Tuple[Blocks, int]:
    """The type and the content of each metadata block, and the position of the first frame."""
    if data[:4] != b"fLaC":
        raise Fault("ID3" if data[:3] == b"ID3" else "magic")
    blocks, at, is_last = [], 4, 0
    while not is_last:
        if at + 4 > len(data):
            raise Incomplete("incomplete head")
        is_last, block_type = data[at] >> 7, data[at] & 127
        length = int.from_bytes(data[at + 1 : at + 4], "big")
        at += 4 + length
        if at > len(data):
            raise Incomplete("incomplete head")
        blocks.append((block_type, data[at - length : at]))
    return blocks, at


class HeadReader:
    """Reads a head, one part after another. A fault is one of what begins at `begin`."""

    def __init__(self, data: bytes) -> None:
        self.data = data
        self.begin = self.at = 0
        self.block_type = self.length = self.tags = 0
        self.is_last = False
        self.streaminfo: Optional[StreamInfo] = None
        self.blocks: Blocks = []

    def read_marker(self) -> None:
        if len(self.data) < 4:
            raise Incomplete("incomplete head")
        if self.data[:4] != b"fLaC":
            raise Fault("ID3" if self.data[:3] == b"ID3" else "magic")
        self.begin = self.at = 4

    def read_header(self) -> None:
        """The header of a metadata block, before its content."""
        header = self.data[self.at : self.at + 4]
        if len(self.blocks) == MAX_BLOCKS:
            raise Fault("number of metadata blocks")
        if len(header) < 4:
            raise Incomplete("incomplete head")
        self.is_last, self.block_type = header[0] >= 128, header[0] & 127
        self.length = int.from_bytes(header[1:], "big")
        self.at += 4

    def read_content(self) -> None:
        body = self.data[self.at : self.at + self.length]
        self._check_length()
        if self.block_type == 4:
            self.tags = read_comments(body, self.length)
        if len(body) < self.length:
            raise Incomplete("incomplete head")
        streaminfo = read_streaminfo(body) if self.block_type == 0 else self.streaminfo
        types = [block_type for block_type, _ in self.blocks]
        if streaminfo is None:
            raise Fault("no streaminfo block first")
        if self.block_type in (0, 4) and self.block_type in types:
            raise Fault("second comments" if self.block_type else "second streaminfo")
        self.streaminfo = streaminfo
        self.blocks.append((self.block_type, body))
        self.begin = self.at = self.at + self.length

    def _check_length(self) -> None:
        """Refuses a block for what its header says."""
        if self.block_type == 127:
            raise Fault("type of a metadata block")
        if self.block_type == 0 and self.length != 34:
            raise Fault("length of the streaminfo")
        if self.block_type == 2 and self.length < 4:
            raise Fault("application block below 4 bytes")
        if self.block_type == 2 and self.length > MAX_CONTENT:
            raise Fault("application block above 10 MiB")


def read_head(data: bytes) -> Tuple[StreamInfo, Blocks, int]:
    """The streaminfo, the metadata blocks, and the position of the first frame."""
    head = HeadReader(data)
    head.read_marker()
    while not head.is_last:
        head.read_header()
        head.read_content()
    assert head.streaminfo is not None
    return head.streaminfo, head.blocks, head.at


def has_invalid_seek_table(blocks: Blocks) -> bool:
    """Whether there are several seek tables, or one that ends within a seek point."""
    lengths = [len(body) for block_type, body in blocks if block_type == 3]
    return len(lengths) > 1 or any(length % 18 for length in lengths)


def remarks_of(streaminfo: StreamInfo, frame: Frame) -> Set[str]:
    """Where a frame differs from the streaminfo, or has an overlong coded number."""
    header, remarks = frame.header, frame.remarks
    if header.channels != streaminfo.channels or header.bit_depth != streaminfo.bits_per_sample:
        remarks.add("frame differs from the streaminfo")
    if header.sample_rate not in (None, streaminfo.sample_rate):
        remarks.add("frame differs from the streaminfo")
    if header.block_size > streaminfo.max_block_size:
        remarks.add("block size above the maximum")
    if header.is_overlong:
        remarks.add("overlong coded number")
    return remarks


@dataclasses.dataclass
class Reading:
    """A stream as far as it could be decoded. `fault` is None where all of it was."""

    streaminfo: Optional[StreamInfo] = None
    frames: List[Frame] = dataclasses.field(default_factory=list)
    fault: Optional[str] = None
    remarks: Set[str] = dataclasses.field(default_factory=set)


def read_frames(data: bytes, at: int, streaminfo: StreamInfo, reading: Reading) -> None:
    while len(data) - at > 1:
        frame = read_frame(data[at:], streaminfo.bits_per_sample)
        reading.remarks |= remarks_of(streaminfo, frame)
        reading.frames.append(frame)
        at += frame.length
    if at < len(data):
        reading.remarks.add("one byte after the last frame")


def md5_of(found: Sequence[Frame], bit_depth: int) -> bytes:
    """The MD5 sum of the samples of frames."""
    return frames.md5_of([frame.channels for frame in found], bit_depth)


def time_of(streaminfo: StreamInfo, header: FrameHeader) -> int:
    """The time of a block: the number of its first interchannel sample."""
    if header.is_variable:
        return header.coded_number
    is_fixed = streaminfo.min_block_size == streaminfo.max_block_size
    return header.coded_number * (streaminfo.min_block_size if is_fixed else header.block_size)


def is_in_order(streaminfo: StreamInfo, frames: List[Frame]) -> bool:
    """Whether the time of each frame is the end of the one before it. The first may have any
    time."""
    headers = [frame.header for frame in frames]
    ends = [time_of(streaminfo, header) + header.block_size for header in headers]
    has_fixed_frame = not all(header.is_variable for header in headers)
    is_legacy = streaminfo.min_block_size != streaminfo.max_block_size and has_fixed_frame
    return (
        not is_legacy
        and all(time_of(streaminfo, header) == end for header, end in zip(headers[1:], ends))
    )


def remarks_of_all(streaminfo: StreamInfo, frames: List[Frame]) -> Set[str]:
    """What breaks a rule of the RFC in all the frames together."""
    remarks, sample_count = set(), sum(frame.header.block_size for frame in frames)
    if streaminfo.bits_per_sample < 4:
        remarks.add("bit depth below 4")
    if streaminfo.samples not in (0, sample_count):
        remarks.add("number of samples")
    if any(streaminfo.md5) and streaminfo.md5 != md5_of(frames, streaminfo.bits_per_sample):
        remarks.add("MD5 sum differs")
    if len({frame.header.is_variable for frame in frames}) > 1:
        remarks.add("blocking strategy changes")
    if not is_in_order(streaminfo, frames):
        remarks.add("coded numbers out of order")
    return remarks


def read_stream(data: bytes) -> Reading:
    """Decodes a stream up to its first fault."""
    reading = Reading()
    try:
        reading.streaminfo, blocks, at = read_head(data)
        if has_invalid_seek_table(blocks):
            reading.remarks.add("invalid seek table")
        read_frames(data, at, reading.streaminfo, reading)
    except Fault as fault:
        reading.fault = str(fault)
    if reading.streaminfo:
        reading.remarks |= remarks_of_all(reading.streaminfo, reading.frames)
    return reading
