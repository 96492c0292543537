"""Threads that share a stream: each call waits for those of other threads."""
import hashlib
import io
import sys
import threading
import unittest
from collections import Counter
from typing import Any, Callable, List

import claxon
from tests import FRAME_OF_5, Trickle, head
from tests.test_live import numbered_frame
from tests.test_md5 import block_of
from tests.test_seeking import made, made_head


class Shared(unittest.TestCase):
    def setUp(self) -> None:
        self.addCleanup(sys.setswitchinterval, sys.getswitchinterval())
        sys.setswitchinterval(1e-6)

    def run_all(self, *calls: Callable[[], object]) -> None:
        """Each call in a thread. What one raises is raised here."""
        raised: List[BaseException] = []

        def run(call: Callable[[], object]) -> None:
            try:
                call()
            except BaseException as error:
                raised.append(error)

        threads = [threading.Thread(target=run, args=(call,)) for call in calls]
        for thread in threads:
            thread.start()
        for thread in threads:
            thread.join()
        for error in raised:
            raise error

    def test_blocks(self) -> None:
        """Each block is given once, with its own samples, also by one iterator for all threads."""
        stream = made(600, 400)
        for is_shared in (False, True):
            flac = claxon.Flac(io.BytesIO(stream.content()))
            one, found = flac.blocks(), []  # type: Any, List[claxon.Block]

            def take() -> None:
                found.extend(one if is_shared else flac.blocks())

            self.run_all(take, take, take, take)
            self.assertEqual(sorted(block.time for block in found), list(range(0, 240000, 400)))
            for block in found:
                expected = stream.samples[block.time : block.time + 400]
                self.assertEqual(block.planar.tolist(), expected)

    def test_seeks_and_reads(self) -> None:
        """Others move the stream in between; what a block has is right for its time."""
        stream = made(100, 400)
        flac = claxon.Flac(io.BytesIO(stream.content()))

        def seek() -> None:
            for sample in range(0, 40000, 401):
                flac.seek(sample)

        def take() -> None:
            for _ in range(30):
                for block in flac.blocks():
                    expected = stream.samples[block.time : block.time + 400]
                    self.assertEqual(block.planar.tolist(), expected)
                flac.seek(0)

        def look() -> None:
            for _ in range(300):
                self.assertEqual((flac.tags, flac.seek_table, flac.cue_sheet), ({}, [], None))

        self.run_all(seek, take, look, take)

    def test_resync(self) -> None:
        """Threads that go on after faults get each good frame, and nothing else."""
        content, expected = made_head(16, 0), Counter()  # type: Any, Any
        for number in range(400):
            frame = numbered_frame(number, [[number % 100, 1, 2]])
            is_good = number % 3 != 1
            content += frame if is_good else frame[:-1] + bytes([frame[-1] ^ 1])
            expected[number % 100] += is_good
        flac, found = claxon.Flac(io.BytesIO(content)), []  # type: Any, List[int]

        def take() -> None:
            while True:
                try:
                    found.extend(block.planar[0] for block in flac.blocks())
                    return
                except claxon.FormatError:
                    flac.resync()

        self.run_all(take)
        self.assertEqual(Counter(found), expected)

    def test_feed(self) -> None:
        """One thread feeds, and another one takes: no false fault, and no block is lost."""
        stream = made(300, 400)
        content = stream.content()
        for piece in (61, 1460):
            feed, samples, has_ended = claxon.Feed(), [], threading.Event()  # type: Any, Any, Any

            def give() -> None:
                for at in range(0, len(content), piece):
                    feed.feed(content[at : at + piece])
                feed.close()
                has_ended.set()

            def take() -> None:
                is_last = False
                while not is_last:
                    is_last = has_ended.is_set()
                    for block in feed.blocks():
                        samples.extend(block.planar)

            self.run_all(give, take)
            self.assertEqual(samples, stream.samples)

    def test_close(self) -> None:
        """It waits for the block at hand; then others are refused."""
        stream = made(2000, 400)
        flac = claxon.Flac(io.BytesIO(stream.content()))
        has_begun = threading.Event()

        def take() -> None:
            while True:  # however late it is closed
                for _ in flac.blocks():
                    has_begun.set()

        def close() -> None:
            has_begun.wait()
            flac.close()

        with self.assertRaises(ValueError):
            self.run_all(take, close)

    def test_md5(self) -> None:
        """Sums of blocks that all are the same, of which some are larger."""
        md5, expected = claxon.Md5(16), hashlib.md5()
        block = block_of([list(range(3000))])
        for _ in range(400):
            expected.update(b"".join(at.to_bytes(2, "little") for at in range(3000)))

        def add() -> None:
            for _ in range(100):
                md5.update(block)

        self.run_all(add, add, add, add)
        self.assertEqual(md5.digest(), expected.digest())


class Nested(unittest.TestCase):
    def test_refused(self) -> None:
        """A call within another one of the same thread would wait for itself."""
        raised: List[RuntimeError] = []

        class Calls(Trickle):
            flac: Any = None

            def read(self, most: int) -> bytes:
                for name in ("resync", "close") if self.flac else ():
                    try:
                        getattr(self.flac, name)()
                    except RuntimeError as error:
                        raised.append(error)
                return super().read(most)

        file = Calls(head() + 3 * FRAME_OF_5, 5)
        flac = claxon.Flac(file)
        file.flac = flac
        self.assertEqual([block.planar.tolist() for block in flac.blocks()], [[5], [5], [5]])
        self.assertGreater(len(raised), 2)
        self.assertIn("within a call of itself", str(raised[0]))
