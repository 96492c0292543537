"""Decodes the damaged streams of tools/streams/damaged.py by `flac`, with and without
libclaxon_flac in front of it, in this folder.

usage: damaged.py PRELOAD

PRELOAD is the script that puts the library in front. The statuses of `flac -t` and `flac -d -F`
have to be the same, and the files, but that libFLAC 1.4.2 has silence in the first frame after
missing ones. 32-bit samples aren't decoded. After two wrong heads frames are decoded that
libFLAC leaves out.
"""
import os
import subprocess
import sys
from pathlib import Path
from typing import List, Optional, Tuple

sys.path.insert(0, str(Path(__file__).resolve().parents[3] / "tools"))
from streams import damaged  # noqa: E402

KNOWN = {
    "32 bits a sample",
    "a wrong head, a short streaminfo",
    "a wrong head, a long vendor string",
}
FAILED: List[str] = []
# Of WAV files of 8 bits and of more.
SILENCE = {0x80, 0}


def status_of(words: List[str]) -> int:
    return subprocess.run(words, stdin=subprocess.DEVNULL, capture_output=True).returncode


def decode(before: List[str], name: str) -> Tuple[int, int, bytes]:
    """The statuses of `flac -t` and `flac -d -F`, and the file of the latter."""
    if os.path.exists("decoded.wav"):
        os.remove("decoded.wav")
    tested = status_of([*before, "flac", "-s", "-t", name])
    decoded = status_of([*before, "flac", "-s", "-f", "-d", "-F", "-o", "decoded.wav", name])
    content = Path("decoded.wav").read_bytes() if os.path.exists("decoded.wav") else b""
    return tested, decoded, content


def fault(name: str, preload: str) -> Optional[str]:
    """What the library does otherwise than libFLAC, but for what is known."""
    test, status, plain = decode([], name)
    test_claxon, status_claxon, claxon = decode([preload], name)
    if (test, status) != (test_claxon, status_claxon):
        return f"statuses {test} and {status}, with claxon {test_claxon} and {status_claxon}"
    if len(plain) != len(claxon):
        return f"{len(plain)} bytes, with claxon {len(claxon)}"
    if any(one != other and one not in SILENCE for one, other in zip(plain, claxon)):
        return "other samples where libFLAC has no silence"
    return None


def main() -> None:
    preload = sys.argv[1]
    rows = list(damaged.rows())
    for row in rows:
        Path("damaged.flac").write_bytes(row.data)
        found = fault("damaged.flac", preload)
        if (found is not None) != (row.name in KNOWN):
            FAILED.append(row.name)
            print(f"damaged: {row.name}: {found or 'no difference, but one is known'}")
    print(f"damaged: {len(rows)} streams by flac with and without claxon, {len(FAILED)} failures")
    sys.exit(1 if FAILED else 0)


main()
