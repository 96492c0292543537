"""The files and lines of crates/claxon_cases."""
import io
import re
import unittest
from typing import Dict, Iterable, List, Sequence

import claxon
from streams.frames import MARKER, metadata_block
from tests import DATA, Case, Trickle, cases, decode, head, interleaved, result_of


def fnv1a(content: bytes) -> int:
    result = 0xCBF29CE484222325
    for byte in content:
        result = (result ^ byte) * 0x100000001B3 & 0xFFFFFFFFFFFFFFFF
    return result


class Files(unittest.TestCase):
    def test_samples_and_results(self) -> None:
        tried = 0
        for case in cases():
            with self.subTest(case.name):
                samples, error = decode(DATA / case.name)
                self.assertEqual(len(samples) // 4, case.samples)
                self.assertEqual(fnv1a(samples), case.digest)
                self.assertEqual(result_of(error), case.result)
                tried += 1
        self.assertEqual(tried, len(list(DATA.glob("*.flac"))))

    def test_few_bytes_a_read(self) -> None:
        for case in cases():
            content = (DATA / case.name).read_bytes()
            whole, _ = decode(io.BytesIO(content))
            for step in (1, 61, 997):
                with self.subTest(case.name, step=step):
                    samples, error = decode(Trickle(content, step))
                    self.assertEqual(samples, whole)
                    self.assertEqual(result_of(error), case.result)

    def test_read(self) -> None:
        """`read` has the samples of `blocks`, or says why not."""
        tried = 0
        for case in cases():
            with self.subTest(case.name):
                try:
                    samples, rate = claxon.read_arrays(DATA / case.name)
                except claxon.Error as error:
                    self.expect_refused(case, error)
                    continue
                tried += 1
                self.assertEqual(case.result, "ok")
                given, _ = decode(DATA / case.name)
                for channel, found in enumerate(samples):
                    expected = memoryview(given).cast("i")[channel :: len(samples)]
                    self.assertEqual(found.tolist(), expected.tolist())
                self.assertEqual(sum(map(len, samples)), case.samples)
                with claxon.Flac(DATA / case.name) as flac:
                    self.assertEqual(rate, flac.info.sample_rate)
        self.assertGreater(tried, 5)

    def expect_refused(self, case: Case, error: claxon.Error) -> None:
        """The small files have random streaminfos and times, and blocks of other numbers of
        channels.
        """
        if result_of(error) == case.result:
            return
        with claxon.Flac(DATA / case.name) as flac:
            counts, ends = [], [0]
            is_gap = False
            try:
                for block in flac.blocks():
                    is_gap |= block.time != ends[-1]
                    ends.append(block.time + block.duration)
                    counts.append((block.channels, block.duration))
            except claxon.Error:
                pass
        is_changed = {channels for channels, _ in counts} != {flac.info.channels}
        if is_changed and str(error) == "the number of channels changes within the stream":
            self.assertIsInstance(error, claxon.FormatError)
            return
        if is_gap and isinstance(error, claxon.FormatError):
            self.assertRegex(str(error), r"^the samples from \d+ to \d+ are (missing|repeated)$")
            return
        self.assertFalse(is_changed)
        found = sum(duration for _, duration in counts)
        self.assertLess(found, flac.info.samples or 0)
        self.assertIsInstance(error, claxon.InputEnds)
        text = f"the streaminfo says {flac.info.samples} samples, {found} were found"
        self.assertEqual(str(error), text)


def streaminfo_text(info: claxon.StreamInfo) -> str:
    """A streaminfo as the lines have it."""
    frames = [str(size or "none") for size in (info.min_frame_size, info.max_frame_size)]
    return (
        f"streaminfo blocks {info.min_block_size}-{info.max_block_size} frames {'-'.join(frames)}"
        f" rate {info.sample_rate} channels {info.channels} width {info.bits_per_sample}"
        f" samples {info.samples or 'none'} md5 {(info.md5 or bytes(16)).hex()}"
    )


def numbers(samples: Sequence[int]) -> str:
    return "".join(f" {sample}" for sample in samples)


def frames_text(flac: claxon.Flac, most: int) -> str:
    """The samples, blocks and end of a stream as the lines have them."""
    samples: List[int] = []
    blocks: List[str] = []
    end = "end"
    try:
        for block in flac.blocks():
            samples += interleaved(block)
            shown = numbers(block.planar[:most])
            blocks.append(f"block {block.time} {block.channels}x{block.duration}{shown}")
    except claxon.Error as error:
        end = result_of(error)
    return "; ".join([f"{len(samples)} samples{numbers(samples[:most])}", *blocks[:most], end])


ESCAPE = re.compile(r"\\(u\{(\w+)\}|.)")
ESCAPES = {"n": "\n", "r": "\r", "t": "\t", "0": "\0"}


def unescaped(text: str) -> str:
    def character(found: "re.Match[str]") -> str:
        return chr(int(found[2], 16)) if found[2] else ESCAPES.get(found[1], found[1])

    return ESCAPE.sub(character, text)


def grouped(tags: Iterable[str]) -> claxon.Tags:
    """The tags by their names."""
    result: Dict[str, List[str]] = {}
    for tag in tags:
        name, value = tag.split("=", 1)
        result.setdefault(name.upper(), []).append(value)
    return claxon.Tags(result)


class Lines(unittest.TestCase):
    def test_streams(self) -> None:
        """Those that are read with their tags, as `Flac` does."""
        tried = 0
        for line in (DATA / "streams.txt").read_text().splitlines():
            call, answer = line.split(": ", 1)
            options, most, content = call.split(" ")
            if options == "2":
                with self.subTest(line):
                    self.expect_stream(bytes.fromhex(content), int(most), answer)
                tried += 1
        self.assertGreater(tried, 100)

    def expect_stream(self, stream: bytes, most: int, answer: str) -> None:
        before, is_head, after = answer.partition("streaminfo blocks ")
        try:
            flac = claxon.Flac(io.BytesIO(stream))
        except claxon.Error as error:
            self.assertEqual(result_of(error), answer)
            return
        vendor, *tags = before.split()
        self.assertEqual("-" if flac.vendor is None else f"<{flac.vendor}>", vendor)
        self.assertEqual(flac.tags, grouped(tags))
        found = f"{streaminfo_text(flac.info)}; {frames_text(flac, most)}"
        self.assertEqual(found, is_head + after)

    def test_blocks(self) -> None:
        """Each metadata block in a head: a streaminfo as its first one, others after one."""
        tried = 0
        for line in (DATA / "blocks.txt").read_text().splitlines():
            call, answer = line.split(": ", 1)
            kind, length, content = (call + " ").split(" ")[:3]
            if int(kind) < 128 and int(length) < 1 << 24:
                block = metadata_block(int(kind), bytes.fromhex(content), True, int(length))
                with self.subTest(line):
                    self.expect_block(MARKER + block if kind == "0" else head(block), answer)
                tried += 1
        self.assertGreater(tried, 500)

    def expect_block(self, stream: bytes, answer: str) -> None:
        try:
            flac = claxon.Flac(io.BytesIO(stream))
        except claxon.Error as error:
            self.assertEqual(result_of(error), re.sub(r"^\d+ ", "", answer))
            return
        found = re.match(r"ok \d+ (\w+)", answer)
        assert found, answer
        if found[1] == "streaminfo":
            self.assertIn(streaminfo_text(flac.info), answer)
        texts = [unescaped(text) for text in re.findall(r'"((?:[^"\\]|\\.)*)"', answer)]
        self.assertEqual(flac.vendor, texts[0] if found[1] == "comment" else None)
        self.assertEqual(flac.tags, grouped(texts[1:]))
