"""MD5 sums of samples."""
import hashlib
import random
import unittest
from array import array
from typing import List

import claxon


def block_of(channels: List[List[int]]) -> claxon.Block:
    duration = len(channels[0])
    planar = memoryview(array("i", [sample for channel in channels for sample in channel]))
    samples = tuple(planar[at : at + duration] for at in range(0, len(planar), duration))
    return claxon.Block(0, len(channels), duration, samples, planar)


class Sums(unittest.TestCase):
    def test_bit_depths(self) -> None:
        """Of blocks of other sizes and channels, one after another."""
        source = random.Random(5)
        for bits in range(1, 33):
            width, least, most = (bits + 7) // 8, -1 << bits - 1, (1 << bits - 1) - 1
            md5, expected = claxon.Md5(bits), hashlib.md5()
            for duration in (3, 2000, 1, 700):
                count = source.randrange(1, 9)
                numbers = [least, most, *(source.randint(least, most) for _ in range(6))]
                channels = [[source.choice(numbers) for _ in range(duration)] for _ in range(count)]
                for together in zip(*channels):
                    for sample in together:
                        expected.update(sample.to_bytes(width, "little", signed=True))
                md5.update(block_of(channels))
                with self.subTest(bits=bits, duration=duration):
                    self.assertEqual(md5.digest(), expected.digest())

    def test_no_samples(self) -> None:
        self.assertEqual(claxon.Md5(16).digest(), hashlib.md5().digest())

    def test_other_bit_depths(self) -> None:
        for bits in (-1, 0, 33, 1 << 32):
            self.assertRaises(ValueError, claxon.Md5, bits)
