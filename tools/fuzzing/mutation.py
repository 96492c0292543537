"""Makes unusual and damaged streams from others, most of them with correct CRCs."""
import dataclasses
from random import Random
from typing import Callable, List, Optional, Tuple

from fuzzing import random_frames, slow_decoder
from fuzzing.slow_decoder import Blocks, Fault, FrameHeader, Incomplete, StreamInfo, header_of
from streams import frames as writer
from streams.frames import metadata_block, with_crc8, with_crc16

# A frame whose subframes don't end within this number of bytes isn't lengthened further.
MAX_FRAME_SIZE = 1 << 16


@dataclasses.dataclass
class Source:
    """A stream to change: its bytes, its streaminfo and metadata blocks, and the frames that
    could be decoded."""

    data: bytes
    streaminfo: Optional[StreamInfo]
    blocks: Blocks
    frames: List[bytes]


# Returns a source.
Pick = Callable[[Random], Source]


def load(path: str) -> Source:
    """The stream of a file, of which only the first mebibyte is read."""
    with open(path, "rb") as file:
        data = file.read(1 << 20)
    try:
        blocks, at = slow_decoder.read_metadata_blocks(data)
    except Fault:
        return Source(data, None, [], [])
    stream, frames = slow_decoder.read_stream(data), []
    for frame in stream.frames:
        frames.append(data[at : at + frame.length])
        at += frame.length
    return Source(data, stream.streaminfo, blocks, frames)


def change_header(rng: Random, frame: bytes, streaminfo: StreamInfo) -> bytes:
    """The frame with a change of one field of its header."""
    old = header_of(frame, streaminfo.bits_per_sample)
    sample_rate_code, bit_depth_code = frame[2] & 15, frame[3] >> 1 & 7
    new = dataclasses.replace(old)
    field = rng.randrange(6)
    if field == 0:
        new.coded_number = rng.getrandbits(rng.choice((7, 11, 31, 32, 36)))
    elif field == 1:
        size = old.block_size
        sizes = (
            random_frames.random_block_size(rng),
            min(65536, size + 1),
            max(1, size - 1),
            65536,
            65535,
        )
        new.block_size = rng.choice(sizes)
    elif field == 2:
        new.channel_code = rng.randrange(16)
    elif field == 3:
        bit_depth_code = rng.randrange(8)
    elif field == 4:
        sample_rate_code = rng.randrange(16)
    else:
        new.is_variable = not old.is_variable
    return (
        random_frames.write_header(rng, new, sample_rate_code, bit_depth_code) + frame[old.length:]
    )


def set_bits(data: bytes, at: int, count: int, number: int) -> bytes:
    bits = int.from_bytes(data, "big")
    shift = 8 * len(data) - at - count
    bits &= ~((1 << count) - 1 << shift)
    return (bits | number << shift).to_bytes(len(data), "big")


def change_fields(rng: Random, frame: bytes, streaminfo: StreamInfo) -> bytes:
    """The frame with random values in some fields of its subframes."""
    header = header_of(frame, streaminfo.bits_per_sample)
    _, fields = slow_decoder.measure(frame[header.length:], header)
    for at, count in rng.sample(fields, min(len(fields), rng.randint(1, 3))):
        frame = set_bits(frame, 8 * header.length + at, count, rng.getrandbits(count))
    return frame


def flip_bits(rng: Random, data: bytes) -> bytes:
    data = bytearray(data)
    for _ in range(rng.choice((1, 1, 1, 2, 4, 8))):
        data[rng.randrange(len(data))] ^= 1 << rng.randrange(8)
    return bytes(data)


def set_bytes(rng: Random, data: bytes) -> bytes:
    data = bytearray(data)
    for _ in range(rng.choice((1, 1, 2, 4))):
        data[rng.randrange(len(data))] = rng.choice((0, 0xFF, 0x7F, 0x80, rng.randrange(256)))
    return bytes(data)


def piece_of(rng: Random, data: bytes) -> Tuple[int, bytes]:
    at = rng.randrange(len(data))
    return at, data[at : at + rng.choice((1, 2, 4, 16, 64, rng.randint(1, len(data))))]


def drop_piece(rng: Random, data: bytes) -> bytes:
    at, piece = piece_of(rng, data)
    return data[:at] + data[at + len(piece) :]


def repeat_piece(rng: Random, data: bytes) -> bytes:
    at, piece = piece_of(rng, data)
    return data[:at] + piece * rng.choice((2, 2, 3, 8)) + data[at + len(piece) :]


def add_bytes(rng: Random, data: bytes) -> bytes:
    at = rng.randrange(len(data) + 1)
    return data[:at] + rng.randbytes(rng.choice((1, 2, 5, 40))) + data[at:]


def cut(rng: Random, data: bytes) -> bytes:
    return data[: rng.randrange(len(data))]


DAMAGES = (flip_bits, flip_bits, set_bytes, set_bytes, drop_piece, repeat_piece, add_bytes, cut)


def damage(rng: Random, data: bytes) -> bytes:
    return rng.choice(DAMAGES)(rng, data) if data else data


def change_body(rng: Random, frame: bytes, streaminfo: StreamInfo) -> bytes:
    """The frame with damage between its header and its footer."""
    end = header_of(frame, streaminfo.bits_per_sample).length
    return frame[:end] + damage(rng, frame[end:-2]) + frame[-2:]


def fit_length(rng: Random, body: bytes, header: FrameHeader) -> bytes:
    """The subframes without the bytes after their end, or with random bytes appended until they
    end."""
    while len(body) < MAX_FRAME_SIZE:
        try:
            count, _ = slow_decoder.measure(body, header)
        except Incomplete:
            body += rng.randbytes(16 + len(body) // 2)
            continue
        body, padding = body[: (count + 7) // 8], -count % 8
        if padding and rng.random() < 0.9:
            body = body[:-1] + bytes([body[-1] >> padding << padding])
        return body
    return body


def repair(rng: Random, frame: bytes, streaminfo: StreamInfo) -> bytes:
    """The frame with correct CRCs and, where its subframes can be decoded, with their length."""
    try:
        header = header_of(frame, streaminfo.bits_per_sample)
        header_bytes, body = frame[: header.length - 1], frame[header.length:-2]
        frame = with_crc8(header_bytes) + body
        frame = frame[:header.length] + fit_length(rng, body, header)
    except Fault:
        pass
    return with_crc16(frame)


def change_frame(rng: Random, frame: bytes, streaminfo: StreamInfo) -> bytes:
    """The frame with one to three changes, mostly with correct CRCs."""
    for _ in range(rng.choice((1, 1, 1, 2, 3))):
        try:
            frame = rng.choice((change_header, change_fields, change_fields, change_body))(
                rng, frame, streaminfo
            )
        except Fault:
            pass
    return repair(rng, frame, streaminfo) if rng.random() < 0.95 else frame


def write_streaminfo(streaminfo: StreamInfo) -> bytes:
    """Its 34 bytes, with frame sizes of 0, which means unknown."""
    return writer.streaminfo(
        (streaminfo.min_block_size, streaminfo.max_block_size),
        (0, 0),
        streaminfo.sample_rate,
        streaminfo.channels,
        streaminfo.bits_per_sample,
        streaminfo.samples,
        streaminfo.md5,
    )


def changed_streaminfo(rng: Random, streaminfo: StreamInfo) -> bytes:
    body = write_streaminfo(streaminfo)
    if rng.random() < 0.06:
        body = rng.choice((flip_bits, set_bytes, set_bytes, drop_piece))(rng, body)
    return body


def new_comments(rng: Random) -> bytes:
    entries = [
        rng.choice((b"A=B", b"TITLE=x", b"=", b"", b"no", b"x\x7e=y", "é=é".encode(), b"a=\xff"))
        for _ in range(rng.randint(0, 3))
    ]
    body = b"\x02\0\0\0ab" + len(entries).to_bytes(4, "little")
    for entry in entries:
        body += len(entry).to_bytes(4, "little") + entry
    return body


def new_block(rng: Random) -> Tuple[int, bytes]:
    """The type and the content of a random metadata block."""
    if rng.random() < 0.5:
        body = new_comments(rng)
        return 4, damage(rng, body) if rng.random() < 0.3 else body
    return rng.choice((0, 1, 1, 2, 2, 3, 5, 6, 7, 64, 126, 127)), rng.randbytes(
        rng.choice((0, 1, 3, 4, 8, 18, 34, 90))
    )


def write_head(rng: Random, streaminfo: StreamInfo, blocks: Blocks) -> bytes:
    """`fLaC` and the metadata blocks, mostly with the streaminfo first."""
    kept = (
        [block for block in blocks if block[0] != 0 and len(block[1]) < 5000]
        if rng.random() < 0.3
        else []
    )
    kept += [new_block(rng) for _ in range(rng.randint(1, 2))] if rng.random() < 0.1 else []
    written = [(0, changed_streaminfo(rng, streaminfo))] + kept
    if rng.random() < 0.01:
        rng.shuffle(written)
    head = writer.MARKER
    for index, (block_type, body) in enumerate(written):
        length = len(body) + (rng.choice((-1, 1)) if rng.random() < 0.005 and body else 0)
        head += metadata_block(block_type, body, index + 1 == len(written), length)
    return head


def near(rng: Random, number: int) -> int:
    """The number, or that minus or plus one, or a large one."""
    others = (number - 1, number + 1, 0xFFFFFFFF, rng.getrandbits(32))
    return max(0, rng.choice((number,) * 20 + others)) & 0xFFFFFFFF


def edge_comments(rng: Random) -> bytes:
    """A comment block whose lengths and count are right, or wrong by one or by much."""
    choices = (
        b"A=B",
        b"TITLE=x=y",
        b"=",
        b"",
        b"no",
        b" }=",
        b"x\x7e=y",
        b"\x1f=",
        "x=é".encode(),
        b"a=\xc3",
    )
    entries = [rng.choice(choices) for _ in range(rng.randint(0, 3))]
    vendor = rng.choice((b"", b"", b"ab", "é".encode(), b"\xff"))
    body = (
        near(rng, len(vendor)).to_bytes(4, "little")
        + vendor
        + near(rng, len(entries)).to_bytes(4, "little")
    )
    for entry in entries:
        body += near(rng, len(entry)).to_bytes(4, "little") + entry
    return body + rng.choice((b"",) * 10 + (b"\0", bytes(3), bytes(4), bytes(9)))


def edge_streaminfo(rng: Random, streaminfo: StreamInfo) -> bytes:
    """A streaminfo block with fields at or beyond the ends of their valid ranges."""
    block_sizes = (0, 15, 16, 17, 4096, 65535)
    streaminfo = dataclasses.replace(
        streaminfo,
        sample_rate=rng.choice((0, 1, 8000, 44100, 655350, 655351, 1048575)),
        min_block_size=rng.choice(block_sizes[1:5] * 3 + block_sizes),
        max_block_size=rng.choice(block_sizes[3:] * 3 + block_sizes),
    )
    body = write_streaminfo(streaminfo)
    frame_sizes = (
        rng.choice((0, 0, 1, 14)).to_bytes(3, "big")
        + rng.choice((0, 0, 13, 0xFFFFFF)).to_bytes(3, "big")
    )
    return body[:4] + frame_sizes + body[10:]


def edge_block(rng: Random, streaminfo: StreamInfo) -> Tuple[int, bytes]:
    if rng.random() < 0.6:
        return 4, edge_comments(rng)
    if rng.random() < 0.1:
        return 0, edge_streaminfo(rng, streaminfo)
    return rng.choice((1, 2, 2, 3, 5, 6, 7, 126, 127)), rng.randbytes(
        rng.choice((0, 1, 3, 4, 5, 18))
    )


def edge_head(rng: Random, streaminfo: StreamInfo) -> bytes:
    """A head with fields at or beyond the ends of their valid ranges."""
    first = edge_streaminfo(rng, streaminfo) if rng.random() < 0.6 else write_streaminfo(streaminfo)
    blocks = (
        [(0, first)] + [edge_block(rng, streaminfo) for _ in range(rng.choice((0, 1, 1, 1, 2, 3)))]
    )
    head = rng.choice((b"fLaC",) * 20 + (b"ID3\4", b"fLaD"))
    for index, (block_type, body) in enumerate(blocks):
        head += metadata_block(block_type, body, index + 1 == len(blocks))
    return head


def streaminfo_for(rng: Random, streaminfo: StreamInfo, frames: List[bytes]) -> StreamInfo:
    """A streaminfo that mostly agrees with the first frame and gives neither the number of
    samples nor the MD5 sum."""
    streaminfo = dataclasses.replace(streaminfo)
    if rng.random() < 0.97:
        streaminfo.samples, streaminfo.md5 = 0, bytes(16)
    if rng.random() < 0.9:
        streaminfo.min_block_size, streaminfo.max_block_size = rng.choice(
            ((16, 65535), (16, 65535), (4096, 4096))
        )
    try:
        header = header_of(frames[0], streaminfo.bits_per_sample)
    except Fault:
        return streaminfo
    if rng.random() < 0.97:
        streaminfo.channels, streaminfo.bits_per_sample = header.channels, header.bit_depth
        if header.sample_rate and header.sample_rate <= 655350:
            streaminfo.sample_rate = header.sample_rate
    return streaminfo


def random_streaminfo(rng: Random) -> StreamInfo:
    """A streaminfo for new frames."""
    bits_per_sample = rng.choice(
        (8, 12, 16, 16, 20, 24, 24, 32, rng.randint(4, 32), rng.randint(1, 32))
    )
    channels = rng.choice((1, 2, 2, 2, rng.randint(1, 8)))
    return StreamInfo(16, 65535, 44100, channels, bits_per_sample, 0, bytes(16))


def with_number(frame: bytes, streaminfo: StreamInfo, is_variable: bool, number: int) -> bytes:
    """The frame with another coded number and correct CRCs."""
    old = header_of(frame, streaminfo.bits_per_sample)
    at = slow_decoder.read_coded_number(frame, 4)[1]
    fields = bytes([0xFF, 0xF8 | is_variable]) + frame[2:4] + writer.coded_number(number)
    header = with_crc8(fields + frame[at : old.length - 1])
    return with_crc16(header + frame[old.length : -2])


def in_order(
    rng: Random, streaminfo: StreamInfo, frames: List[bytes]
) -> Tuple[StreamInfo, List[bytes]]:
    """The frames with coded numbers in order, and a streaminfo with their block sizes."""
    block_sizes = [header_of(frame, streaminfo.bits_per_sample).block_size for frame in frames]
    can_be_fixed = (
        len(set(block_sizes[:-1])) < 2
        and block_sizes[-1] <= block_sizes[0]
        and 16 <= block_sizes[0] < 65536
    )
    is_fixed = can_be_fixed and rng.random() < 0.6
    if is_fixed:
        streaminfo = dataclasses.replace(
            streaminfo, min_block_size=block_sizes[0], max_block_size=block_sizes[0]
        )
        numbers = list(range(len(block_sizes)))
    else:
        streaminfo = dataclasses.replace(streaminfo, min_block_size=16, max_block_size=65535)
        numbers = [sum(block_sizes[:index]) for index in range(len(block_sizes))]
    return streaminfo, [
        with_number(frame, streaminfo, not is_fixed, number)
        for frame, number in zip(frames, numbers)
    ]


def join(rng: Random, streaminfo: StreamInfo, blocks: Blocks, frames: List[bytes]) -> bytes:
    """A head and the frames, mostly with coded numbers in order."""
    try:
        if rng.random() < 0.8:
            streaminfo, frames = in_order(rng, streaminfo, frames)
    except Fault:
        pass
    return write_head(rng, streaminfo, blocks) + b"".join(frames)


def changed_stream(rng: Random, source: Source, others: List[bytes]) -> bytes:
    """A stream of changed frames of a source, sometimes with frames of others."""
    assert source.streaminfo is not None  # as it has frames
    first = rng.randrange(len(source.frames))
    frames = source.frames[first : first + rng.choice((1, 1, 2, 3, 5))]
    if rng.random() < 0.1:
        frames += others[:2]
    streaminfo = streaminfo_for(rng, source.streaminfo, frames)
    frames = [
        change_frame(rng, frame, source.streaminfo) if rng.random() < 0.6 else frame
        for frame in frames
    ]
    if rng.random() < 0.1:
        rng.shuffle(frames)
    return join(rng, streaminfo, source.blocks, frames)


def new_stream(rng: Random) -> bytes:
    """A stream of new frames."""
    streaminfo = random_streaminfo(rng)
    frames = [
        repair(rng, random_frames.new_frame(rng, streaminfo), streaminfo)
        for _ in range(rng.choice((1, 1, 2, 4)))
    ]
    if rng.random() < 0.2:
        frames = [change_frame(rng, frame, streaminfo) for frame in frames]
    return join(rng, streaminfo, [], frames)


def damaged_file(rng: Random, source: Source, other: Source) -> bytes:
    """A file with damage and no repair of its CRCs."""
    data = source.data
    if rng.random() < 0.1:
        data += other.data
    for _ in range(rng.choice((1, 1, 2, 5))):
        data = damage(rng, data)
    return data


def make(rng: Random, pick: Pick) -> bytes:
    """A stream; `pick` returns a source."""
    source, other, choice = pick(rng), pick(rng), rng.random()
    if choice < 0.1:
        return damaged_file(rng, source, other)
    if choice > 0.88 and source.frames and source.streaminfo:
        frame = rng.choice(source.frames)
        data = edge_head(rng, streaminfo_for(rng, source.streaminfo, [frame])) + frame
    elif choice < 0.45 or not source.frames:
        data = new_stream(rng)
    else:
        data = changed_stream(rng, source, other.frames)
    return damage(rng, data) if rng.random() < 0.04 else data
