"""Reads a file by soundfile in several ways, and prints sums of the samples.

usage: reads.py FILE
"""
import hashlib
import sys

import soundfile


def sum_of(samples: object) -> str:
    return hashlib.md5(samples.tobytes()).hexdigest()  # type: ignore[attr-defined]


def main() -> None:
    name = sys.argv[1]
    for kind in ("int16", "int32", "float32", "float64"):
        samples, rate = soundfile.read(name, dtype=kind, always_2d=True)
        print(kind, rate, samples.shape, sum_of(samples))
    with soundfile.SoundFile(name) as file:
        print(file.frames, file.channels, file.subtype, file.copy_metadata())
        for position in (0, 1, file.frames // 2, 4096, file.frames - 1, file.frames, 100):
            if position <= file.frames:
                print(file.seek(position), sum_of(file.read(500, dtype="int32")), file.tell())
        file.seek(0)
        for block in file.blocks(blocksize=5000, overlap=100, dtype="int32"):
            print(len(block), sum_of(block))


main()
