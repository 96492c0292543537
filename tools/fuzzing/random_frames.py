"""Writes new frames: with random fields, many at the ends of their ranges, or by encoding random
samples."""
from random import Random
from typing import List, Sequence, Tuple

from fuzzing import slow_decoder
from fuzzing.slow_decoder import FrameHeader, StreamInfo
from streams.frames import (
    FIXED_COEFFICIENTS,
    bits_of,
    bytes_of,
    coded_number,
    constant,
    decorrelate,
    escaped_partition,
    header_fields,
    linear_predictor,
    residual_of,
    rice_partition,
    samples_as_they_are,
    subframe_header,
    verbatim,
    zigzag,
)


def write_block_size(rng: Random, block_size: int) -> Tuple[int, bytes]:
    """A block size code, and the field after the coded number, empty for a common block size."""
    codes = [
        code
        for code in (1, 2, 3, 4, 5, *range(8, 16))
        if slow_decoder.read_block_size(code, b"", 0)[0] == block_size
    ]
    if codes and rng.random() < 0.7:
        return codes[0], b""
    if block_size <= 256 and rng.random() < 0.7:
        return 6, bytes([block_size - 1])
    return 7, (block_size - 1).to_bytes(2, "big")


def write_header(
    rng: Random, header: FrameHeader, sample_rate_code: int, bit_depth_code: int
) -> bytes:
    """The bytes of a frame header, with a zero in place of the CRC."""
    sizes = write_block_size(rng, header.block_size)
    rate_field = rng.randbytes({12: 1, 13: 2, 14: 2}.get(sample_rate_code, 0))
    number = coded_number(header.coded_number, rng.choice((1, 1, 1, 1, 1, 1, 1, 2, 4, 7)))
    rates, channel_code = (sample_rate_code, rate_field), header.channel_code
    is_variable = header.is_variable
    return header_fields(sizes, rates, channel_code, bit_depth_code, number, is_variable) + b"\0"


def random_number(rng: Random, size: int) -> int:
    """A signed number of `size` bits, often at an end of its range."""
    minimum, maximum = -(1 << size - 1), (1 << size - 1) - 1
    number = rng.choice(
        (0, -1, 1, minimum, maximum, rng.randint(-9, 9), rng.randint(minimum, maximum))
    )
    return max(minimum, min(maximum, number))


def write_rice_codes(rng: Random, count: int, rice_parameter: int, is_arbitrary: bool) -> str:
    """Rice codes."""
    codes = []
    for _ in range(count):
        is_short = rng.random() < 0.99
        quotient = rng.choice((0, 0, 0, 1, 1, 2, 3, 5)) if is_short else rng.randint(0, 400)
        is_full = is_arbitrary or rice_parameter < 9
        remainder = rng.getrandbits(rice_parameter if is_full else rice_parameter - 3)
        codes.append("0" * quotient + "1" + bits_of(remainder, rice_parameter))
    return "".join(codes)


def partition_orders(block_size: int, least: int) -> List[int]:
    """The partition orders with so many samples or more in a partition."""
    fitting = (order for order in range(8) if block_size % (1 << order) == 0)
    return [order for order in fitting if block_size >> order >= least]


def write_residual(rng: Random, block_size: int, predictor_order: int, bit_depth: int) -> str:
    method = rng.random() < 0.3
    max_rice_parameter = 30 if method else 14
    partition_order = rng.choice(partition_orders(block_size, predictor_order))
    is_arbitrary = rng.random() < 0.2
    bits = ["01" if method else "00", bits_of(partition_order, 4)]
    for partition in range(1 << partition_order):
        count = (block_size >> partition_order) - (predictor_order if partition == 0 else 0)
        if rng.random() < 0.1:
            sample_size = rng.randint(0, min(31, bit_depth))
            samples = bits_of(rng.getrandbits(sample_size * count + 1), sample_size * count)
            escape = bits_of(max_rice_parameter + 1, 4 + method)
            bits.append(escape + bits_of(sample_size, 5) + samples)
        else:
            fitting = min(max_rice_parameter, max(0, bit_depth - 5))
            rice_parameter = rng.randint(0, max_rice_parameter if is_arbitrary else fitting)
            codes = write_rice_codes(rng, count, rice_parameter, is_arbitrary)
            bits.append(bits_of(rice_parameter, 4 + method) + codes)
    return "".join(bits)


def write_predicted(rng: Random, subframe_type: int, block_size: int, bit_depth: int) -> str:
    predictor_order = subframe_type - 31 if subframe_type > 31 else subframe_type - 8
    bits = samples_as_they_are(
        [random_number(rng, bit_depth) for _ in range(predictor_order)], bit_depth
    )
    if subframe_type > 31:
        precision = rng.randint(1, 15)
        shift = rng.choice((0, precision, rng.randint(0, 15))) & 15
        coefficients = [random_number(rng, precision) for _ in range(predictor_order)]
        bits += linear_predictor(coefficients, precision, shift)
    return bits + write_residual(rng, block_size, predictor_order, bit_depth)


def write_subframe(rng: Random, block_size: int, bit_depth: int) -> str:
    fixed, linear = range(8, 9 + min(4, block_size)), range(32, 32 + min(32, block_size))
    subframe_types = [0, 1, *fixed, *linear]
    subframe_type = rng.choice(subframe_types if rng.random() < 0.5 else subframe_types[:7])
    has_wasted_bits = bit_depth > 1 and rng.random() < 0.15
    wasted_bits = rng.randint(1, min(31, bit_depth - 1)) if has_wasted_bits else 0
    bits = subframe_header(subframe_type, wasted_bits)
    bit_depth -= wasted_bits
    if subframe_type < 2:
        count = block_size if subframe_type else 1
        samples = [random_number(rng, bit_depth) for _ in range(count)]
        return bits + samples_as_they_are(samples, bit_depth)
    return bits + write_predicted(rng, subframe_type, block_size, bit_depth)


def random_samples(rng: Random, block_size: int, bit_depth: int) -> List[int]:
    """Samples within the bit depth: noise, one number, extremes or a slow wave."""
    minimum, maximum = -(1 << bit_depth - 1), (1 << bit_depth - 1) - 1
    method, sample = rng.randrange(4), random_number(rng, bit_depth)
    if method == 0:
        return [rng.randint(minimum, maximum) for _ in range(block_size)]
    if method == 1:
        return [sample] * block_size
    if method == 2:
        return [rng.choice((minimum, maximum, 0)) for _ in range(block_size)]
    samples, step = [], 1 << rng.randint(0, max(0, bit_depth - 3))
    for _ in range(block_size):
        sample = max(minimum, min(maximum, sample + rng.randint(-step, step)))
        samples.append(sample)
    return samples


def encode_partition(rng: Random, residual: Sequence[int]) -> str:
    """A partition with a Rice parameter of five bits that suits the residual samples, or an escaped
    one."""
    zigzags = [zigzag(sample) for sample in residual]
    sample_size = max((number.bit_length() for number in zigzags), default=0)
    if sample_size < 32 and rng.random() < 0.1:
        return escaped_partition(residual, sample_size, 5)
    mean = (sum(zigzags) // max(1, len(zigzags))).bit_length()
    suiting = min(30, mean + rng.choice((-1, 0, 0, 0, 1, 5)))
    return rice_partition(residual, max(0, sample_size - 10, suiting), 5)


def encode_residual(
    rng: Random, residual: Sequence[int], block_size: int, predictor_order: int
) -> str:
    orders = partition_orders(block_size, predictor_order + 1)
    partition_order = rng.choice(orders) if orders else 0
    bits, at = "01" + bits_of(partition_order, 4), 0
    for partition in range(1 << partition_order):
        count = (block_size >> partition_order) - (predictor_order if partition == 0 else 0)
        bits += encode_partition(rng, residual[at : at + count])
        at += count
    return bits


def random_predictor(
    rng: Random, block_size: int, bit_depth: int
) -> Tuple[int, str, Sequence[int], int]:
    """A subframe type, the bits from the precision to the coefficients, the coefficients, and the
    shift."""
    predictor_order = rng.choice((1, 2, 3, 4, 8, 11, 12, 13, 14, 32, rng.randint(1, 32)))
    if predictor_order >= block_size or rng.random() < 0.3:
        predictor_order = min(rng.randint(0, 4), block_size - 1)
        return 8 + predictor_order, "", FIXED_COEFFICIENTS[predictor_order], 0
    precision = rng.randint(1, 15)
    coefficients = [random_number(rng, precision) for _ in range(predictor_order)]
    # With a smaller shift the prediction could have more than 32 bits, and the residual too.
    min_shift = max(0, bit_depth + precision + predictor_order.bit_length() - 33)
    shift = rng.randint(min(15, min_shift), 15)
    fields = linear_predictor(coefficients, precision, shift)
    return 31 + predictor_order, fields, coefficients, shift


def encode_subframe(rng: Random, samples: Sequence[int], bit_depth: int) -> str:
    """A subframe that decodes to these samples."""
    wasted_bits = 0
    while (
        wasted_bits < bit_depth - 1
        and not any(sample >> wasted_bits & 1 for sample in samples)
        and rng.random() < 0.9
    ):
        wasted_bits += 1
    samples, bit_depth = [sample >> wasted_bits for sample in samples], bit_depth - wasted_bits
    subframe_type, fields, coefficients, shift = random_predictor(rng, len(samples), bit_depth)
    residual = residual_of(samples, coefficients, shift)
    if len(set(samples)) == 1 and rng.random() < 0.7:
        return constant(samples[0], bit_depth, wasted_bits)
    if not all(abs(sample) < 1 << 31 for sample in residual) or rng.random() < 0.1:
        return verbatim(samples, bit_depth, wasted_bits)
    order = len(coefficients)
    warm_up = samples_as_they_are(samples[:order], bit_depth)
    header = subframe_header(subframe_type, wasted_bits)
    return header + warm_up + fields + encode_residual(rng, residual, len(samples), order)


def encode_frame(rng: Random, header: FrameHeader) -> str:
    """The subframes of random samples."""
    depth = header.bit_depth
    channels = [random_samples(rng, header.block_size, depth) for _ in range(header.channels)]
    if len(channels) == 2 and rng.random() < 0.3:
        channels[1] = channels[0]
    if rng.random() < 0.15:
        wasted_bits = rng.randint(1, depth - 1)
        channels = [
            [sample >> wasted_bits << wasted_bits for sample in samples] for samples in channels
        ]
    stored = decorrelate(header.channel_code, channels)
    return "".join(
        encode_subframe(rng, samples, header.bit_depth_of(channel))
        for channel, samples in enumerate(stored)
    )


def random_block_size(rng: Random) -> int:
    sizes = (1, 2, 3, 16, 17, 32, 33, 192, 256, 576, rng.randint(1, 64), rng.randint(1, 700))
    return rng.choice(sizes)


def new_frame(rng: Random, streaminfo: StreamInfo) -> bytes:
    """A new frame, without its CRCs."""
    channels, depth = streaminfo.channels, streaminfo.bits_per_sample
    channel_code = rng.choice((0, 1, 8, 9, 10, channels - 1)) if channels == 2 else channels - 1
    codes = {8: 1, 12: 2, 16: 4, 20: 5, 24: 6}
    bit_depth_code = codes.get(depth, 0) if rng.random() < 0.7 else 0
    block_size = random_block_size(rng)
    number = rng.getrandbits(7)
    header = FrameHeader(False, block_size, None, channel_code, depth, number, 0)
    header_bytes = write_header(rng, header, 0, bit_depth_code)
    if rng.random() < 0.7 and header.bit_depth > 1:
        return header_bytes + bytes_of(encode_frame(rng, header)) + b"\0\0"
    bit_depths = [header.bit_depth_of(channel) for channel in range(header.channels)]
    subframes = [write_subframe(rng, header.block_size, depth) for depth in bit_depths]
    return header_bytes + bytes_of("".join(subframes)) + b"\0\0"
