"""Writes heads and frames of streams by the definitions of RFC 9639.

Bits are text of the digits 0 and 1. What a test wants to be wrong it makes of what is right.
"""
import functools
import hashlib
from typing import Iterable, List, Sequence, Tuple

MARKER = b"fLaC"
BIT_DEPTH_CODES = {8: 1, 12: 2, 16: 4, 20: 5, 24: 6, 32: 7}
RATE_CODES = {44100: 9, 48000: 10}
# Of fixed predictors, by their order. As of each predictor, the first belongs to the newest sample.
FIXED_COEFFICIENTS: Tuple[Tuple[int, ...], ...] = ((), (1,), (2, -1), (3, -3, 1), (4, -6, 4, -1))


@functools.lru_cache(maxsize=None)
def crc_table(polynomial: int, width: int) -> List[int]:
    """The CRC of each byte."""
    table = []
    for byte in range(256):
        rest = byte << width - 8
        for _ in range(8):
            rest <<= 1
            if rest >> width:
                rest ^= polynomial
        table.append(rest)
    return table


def crc8(content: bytes) -> int:
    """The CRC of a frame header (section 9.1.8)."""
    table, rest = crc_table(0x107, 8), 0
    for byte in content:
        rest = table[rest ^ byte]
    return rest


def crc16(content: bytes) -> int:
    """The CRC of a frame (section 9.3)."""
    table, rest = crc_table(0x18005, 16), 0
    for byte in content:
        rest = rest << 8 & 0xFF00 ^ table[rest >> 8 ^ byte]
    return rest


def with_crc8(fields: bytes) -> bytes:
    return fields + bytes([crc8(fields)])


def with_crc16(content: bytes) -> bytes:
    return content + crc16(content).to_bytes(2, "big")


def bits_of(number: int, count: int) -> str:
    """The lowest bits of a number."""
    return f"{number & (1 << count) - 1:0{count}b}" if count else ""


def bytes_of(bits: str) -> bytes:
    """The bits in bytes, with zeros as padding."""
    bits += "0" * (-len(bits) % 8)
    return int("1" + bits, 2).to_bytes(len(bits) // 8 + 1, "big")[1:]


def streaminfo(
    blocks: Tuple[int, int] = (16, 16),
    sizes: Tuple[int, int] = (0, 0),
    rate: int = 44100,
    channels: int = 1,
    bits: int = 8,
    samples: int = 0,
    md5: bytes = bytes(16),
) -> bytes:
    """The content of a streaminfo block (section 8.2): the bounds of block sizes and of frame
    sizes, and so on."""
    numbers = b"".join(size.to_bytes(2, "big") for size in blocks)
    numbers += b"".join(size.to_bytes(3, "big") for size in sizes)
    packed = rate << 44 | channels - 1 << 41 | bits - 1 << 36 | samples
    return numbers + packed.to_bytes(8, "big") + md5


def metadata_block(kind: int, content: bytes, last: bool = False, length: int = -1) -> bytes:
    """A metadata block, of another length than its content has if one is given."""
    length = len(content) if length < 0 else length
    return bytes([kind | last << 7]) + length.to_bytes(3, "big") + content


def head_with(content: bytes) -> bytes:
    """A head with this streaminfo alone."""
    return MARKER + metadata_block(0, content, True)


def md5_of(blocks: Iterable[Sequence[Sequence[int]]], bit_depth: int) -> bytes:
    """The MD5 sum of the channels of blocks: the samples interleaved, each in whole little-endian
    bytes."""
    size = (bit_depth + 7) // 8
    mask = (1 << 8 * size) - 1
    data = b"".join(
        (sample & mask).to_bytes(size, "little")
        for channels in blocks
        for at_once in zip(*channels)
        for sample in at_once
    )
    return hashlib.md5(data).digest()


def coded_number(number: int, length: int = 1) -> bytes:
    """The coded number in `length` bytes, or in more where it doesn't fit into them (section
    9.1.5)."""
    while length < 7 and number >> (7 if length == 1 else 5 * length + 1):
        length += 1
    if length == 1:
        return bytes([number])
    first = 0xFF00 >> length & 0xFF | number >> 6 * (length - 1)
    rest = (0x80 | number >> 6 * index & 0x3F for index in reversed(range(length - 1)))
    return bytes([first, *rest])


def header_fields(
    sizes: Tuple[int, bytes],
    rates: Tuple[int, bytes] = (0, b""),
    channel_code: int = 0,
    depth_code: int = 0,
    number: bytes = b"\0",
    is_variable: bool = False,
) -> bytes:
    """The fields of a frame header before its CRC (section 9.1): the block size and the rate as
    a code and the field of that code, and the coded number."""
    codes = bytes([sizes[0] << 4 | rates[0], channel_code << 4 | depth_code << 1])
    return bytes([0xFF, 0xF8 | is_variable]) + codes + number + sizes[1] + rates[1]


def frame_header(
    block_size: int,
    channel_code: int = 0,
    depth_code: int = 0,
    rate_code: int = 0,
    number: int = 0,
    rate_field: bytes = b"",
    is_variable: bool = False,
    is_small: bool = False,
) -> bytes:
    """A frame header, with its CRC. The block size has a byte where it is small, else two.
    Without codes the rate and the bit depth are those of the streaminfo."""
    sizes = (6, 1) if is_small else (7, 2)
    fields = header_fields(
        (sizes[0], (block_size - 1).to_bytes(sizes[1], "big")),
        (rate_code, rate_field),
        channel_code,
        depth_code,
        coded_number(number),
        is_variable,
    )
    return with_crc8(fields)


def frame(header: bytes, subframes: Iterable[str]) -> bytes:
    """A frame of a header and the bits of subframes."""
    return with_crc16(header + bytes_of("".join(subframes)))


def subframe_header(subframe_type: int, wasted_bits: int = 0) -> str:
    wasted = "1" + "0" * (wasted_bits - 1) + "1" if wasted_bits else "0"
    return "0" + bits_of(subframe_type, 6) + wasted


def samples_as_they_are(samples: Iterable[int], bit_depth: int) -> str:
    return "".join(bits_of(sample, bit_depth) for sample in samples)


def constant(sample: int, bit_depth: int, wasted_bits: int = 0) -> str:
    """A constant subframe."""
    return subframe_header(0, wasted_bits) + bits_of(sample, bit_depth)


def verbatim(samples: Iterable[int], bit_depth: int, wasted_bits: int = 0) -> str:
    """A verbatim subframe."""
    return subframe_header(1, wasted_bits) + samples_as_they_are(samples, bit_depth)


def zigzag(sample: int) -> int:
    """The number that a Rice code stores for a residual sample (section 9.2.7.2)."""
    return 2 * sample if sample >= 0 else -2 * sample - 1


def rice_partition(samples: Iterable[int], rice_parameter: int, parameter_size: int) -> str:
    """A partition of Rice codes, whose parameter has so many bits."""
    numbers = [zigzag(sample) for sample in samples]
    codes = (
        "0" * (number >> rice_parameter) + "1" + bits_of(number, rice_parameter)
        for number in numbers
    )
    return bits_of(rice_parameter, parameter_size) + "".join(codes)


def escaped_partition(samples: Iterable[int], sample_size: int, parameter_size: int) -> str:
    """A partition of samples as they are."""
    escape = bits_of(-1, parameter_size)
    return escape + bits_of(sample_size, 5) + samples_as_they_are(samples, sample_size)


def linear_predictor(coefficients: Iterable[int], precision: int, shift: int) -> str:
    """The fields of a linear predictor after its warm-up samples (section 9.2.6)."""
    fields = bits_of(precision - 1, 4) + bits_of(shift, 5)
    return fields + samples_as_they_are(coefficients, precision)


def residual_of(samples: Sequence[int], coefficients: Sequence[int], shift: int) -> List[int]:
    """The differences of the samples after the warm-up samples from their predictions."""
    order, residual = len(coefficients), []
    for index in range(order, len(samples)):
        newest_first = samples[index - order : index][::-1]
        prediction = sum(map(int.__mul__, coefficients, newest_first)) >> shift
        residual.append(samples[index] - prediction)
    return residual


def decorrelate(channel_code: int, channels: List[List[int]]) -> List[List[int]]:
    """The channels as this channel code stores them: as they are, or as left/side, side/right or
    mid/side."""
    if channel_code < 8:
        return channels
    left, right = channels
    side = [a - b for a, b in zip(left, right)]
    mid = [a + b >> 1 for a, b in zip(left, right)]
    return {8: [left, side], 9: [side, right], 10: [mid, side]}[channel_code]


def bit_depth_of(channel_code: int, channel: int, bit_depth: int) -> int:
    """The bit depth of a subframe: a side channel has one bit more."""
    return bit_depth + ((channel_code, channel) in ((8, 1), (9, 0), (10, 1)))
