#!/usr/bin/env python3
"""Writes streams with subframes of all kinds, drawn at random, the same each time.

usage: kinds.py FOLDER

They are kinds_CHANNELS_BITS.flac in the folder, of frames of tools/fuzzing/random_frames.py.
"""
import sys
from pathlib import Path
from random import Random

sys.path.insert(0, str(Path(__file__).resolve().parents[3] / "tools"))
from fuzzing.random_frames import encode_frame, random_block_size  # noqa: E402
from fuzzing.slow_decoder import FrameHeader  # noqa: E402
from streams.frames import (  # noqa: E402
    coded_number,
    frame,
    head_with,
    header_fields,
    streaminfo,
    with_crc8,
)

FORMATS = [(1, 16), (2, 8), (2, 16), (2, 20), (2, 24), (3, 12), (5, 16), (8, 24)]
FRAMES = 40


def stream(rng: Random, channels: int, depth: int) -> bytes:
    data, sample = head_with(streaminfo((16, 65535), channels=channels, bits=depth)), 0
    for _ in range(FRAMES):
        size = rng.choice((1152, 16 + random_block_size(rng)))
        code = rng.choice((1, 8, 9, 10)) if channels == 2 else channels - 1
        sizes, number = (7, (size - 1).to_bytes(2, "big")), coded_number(sample)
        fields = header_fields(sizes, channel_code=code, number=number, is_variable=True)
        header = FrameHeader(True, size, None, code, depth, sample, 0)
        data += frame(with_crc8(fields), [encode_frame(rng, header)])
        sample += size
    return data


def main() -> None:
    rng = Random(1)
    for channels, depth in FORMATS:
        name = f"kinds_{channels}_{depth}.flac"
        Path(sys.argv[1], name).write_bytes(stream(rng, channels, depth))


main()
