#!/usr/bin/env python3
"""Prints rows for calls.c: calls in orders that are drawn at random, the same each time, on streams
without damage. By libFLAC they print the same.

usage: orders.py ROWS
"""
import sys
from random import Random
from typing import List

# How the stream is read.
WAYS: List[List[str]] = [[], [], ["noseek"], ["nometadata"], ["noseek", "notell"]]
# Files and their numbers of samples.
FILES = {
    "examples/tagged.flac": 9876,
    "crates/claxon_cases/data/quiet_noise.flac": 44100,
    "crates/claxon_cases/data/other_encoder_speech.flac": 40000,
    "crates/claxon_cases/data/left_channel_alone.flac": 44100,
}


def reads(rng: Random) -> List[str]:
    words = rng.choice(WAYS)
    return [*words, f"piece={rng.choice((1, 7, 100, 1000, 5000))}"] if rng.random() < 0.3 else words


def call(rng: Random, samples: int, can_seek: bool) -> str:
    sample = rng.choice((0, 1, samples - 1, *(rng.randrange(samples) for _ in range(5))))
    words = ["single"] * 6 + ["metadata"] * 2 + ["stream", "values", "values"]
    # Without a seek callback `reset` reads on where the source is.
    return rng.choice(words + [f"seek={sample}"] * 6 + (["reset"] if can_seek else []))


def row(rng: Random) -> str:
    name = rng.choice(list(FILES))
    changes = reads(rng)
    can_seek = "noseek" not in changes
    calls = [rng.choice(("init", "init", "file", "FILE"))] if can_seek else ["init"]
    if rng.random() < 0.5:
        calls.insert(0, rng.choice(("md5", "respond=all", "ignore=all", "respond=4")))
    calls += [call(rng, FILES[name], can_seek) for _ in range(rng.randrange(2, 12))]
    return " ".join([name, *changes, ":", *calls, "metadata", "finish", "values"])


def main() -> None:
    rng = Random(1)
    for _ in range(int(sys.argv[1])):
        print(row(rng))


main()
