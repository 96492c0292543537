#!/usr/bin/env python3
"""verify.py FILE..: decodes FLAC files, and compares them with what their streaminfo says.

A line for each file: its number of frames, and of samples of each channel. Where it isn't right,
also the first fault and the number of faults, and the number of samples that the streaminfo says;
where there is no fault, whether the MD5 sum is that of other samples. After a fault it goes on at
the next frame.

The status is 0 where all files are right, 1 where one isn't, and 2 for wrong arguments.
"""
import pathlib
import sys
from typing import List

sys.path.insert(0, str(pathlib.Path(__file__).resolve().parent.parent))
import claxon  # noqa: E402

KINDS = {
    claxon.FormatError: "ill-formed",
    claxon.Unsupported: "not supported",
    claxon.InputEnds: "cut",
    claxon.OutOfMemory: "out of memory",
}


def describe(error: claxon.Error, samples: int = 0) -> str:
    after = f", after {count(samples, 'sample')}" if samples else ""
    return f"{KINDS[type(error)]} at byte {error.position}{after}: {error}"


def count(number: int, name: str) -> str:
    return f"{number} {name}{'' if number == 1 else 's'}"


class Verification:
    """What was found in a stream, up to its end."""

    def __init__(self, flac: claxon.Flac) -> None:
        self.info = flac.info
        self.frames = self.samples = 0
        self.faults: List[str] = []
        self.channels = {flac.info.channels}
        self.md5 = claxon.Md5(flac.info.bits_per_sample)
        is_over = False
        while not is_over:
            try:
                self.add_blocks(flac)
                is_over = True
            except (claxon.FormatError, claxon.Unsupported, claxon.InputEnds) as error:
                self.faults.append(describe(error, self.samples))
                is_over = flac.resync() is None

    def add_blocks(self, flac: claxon.Flac) -> None:
        for block in flac.blocks():
            self.frames += 1
            self.samples += block.duration
            self.channels.add(block.channels)
            if self.info.md5 is not None:
                self.md5.update(block)

    def wrong(self) -> List[str]:
        """What isn't right."""
        found = self.faults[:1]
        if len(self.faults) > 1:
            found.append(count(len(self.faults), "fault"))
        if len(self.channels) > 1:
            found.append("the number of channels changes")
        if self.info.samples not in (None, self.samples):
            found.append(f"the streaminfo says {count(self.info.samples or 0, 'sample')}")
        if not self.faults and self.info.md5 not in (None, self.md5.digest()):
            found.append("the MD5 sum is that of other samples")
        return found


def verify(name: str) -> bool:
    """Prints the line of a file. Whether it is right."""
    try:
        with claxon.Flac(name) as flac:
            found = Verification(flac)
    except claxon.Error as error:
        print(f"{name}: {describe(error)}")
        return False
    except OSError as error:
        print(f"{name}: {error.strerror or error}")
        return False
    wrong = found.wrong()
    counts = [count(found.frames, "frame"), count(found.samples, "sample")]
    if found.info.md5 is None:
        counts.append("no MD5 sum")
    print(f"{name}: " + "; ".join([*wrong, ", ".join(counts if wrong else ["ok", *counts])]))
    return not wrong


def main() -> int:
    names = sys.argv[1:]
    if not names:
        print("usage: verify.py FILE..", file=sys.stderr)
        return 2
    # Names that aren't UTF-8 are printed as they are.
    sys.stdout.reconfigure(errors="surrogateescape")  # type: ignore[attr-defined]
    return 0 if all([verify(name) for name in names]) else 1


if __name__ == "__main__":
    sys.exit(main())
