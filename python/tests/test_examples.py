"""The examples of README.md, verify.py and listen.py."""
import asyncio
import contextlib
import doctest
import hashlib
import importlib.util
import io
import os
import random
import re
import shutil
import subprocess
import sys
from subprocess import DEVNULL, PIPE, STDOUT
from types import ModuleType
from typing import Any, Dict, List, Tuple

import claxon
from claxon import _calls
from streams.frames import MARKER, metadata_block
from tests import DATA, FRAME_OF_5, STREAMINFO, TOP, FolderCase, copy_module, verbatim_frame
from tests.test_live import Stream, made_stream

PYTHON = TOP / "python"
EXAMPLES = PYTHON / "examples"

# What these examples show takes numpy.
WITH_NUMPY = ("Read", "Play from a place")

# The indented examples of the text, each with the heading that it stands under.
EXAMPLE = re.compile(r"^## (.*)$|((?:^    .*\n|^\n(?=    ))+)", re.M)


def examples() -> List[Tuple[str, str]]:
    found = []
    heading = ""
    for match in EXAMPLE.finditer((PYTHON / "README.md").read_text()):
        if match[1]:
            heading = match[1]
        elif match[2].strip():
            lines = [line[4:] for line in match[2].strip("\n").split("\n")]
            found.append((heading, "\n".join(lines) + "\n"))
    return found


class Folder(FolderCase):
    """A folder as the examples have it: the module, the library, and two files."""

    def setUp(self) -> None:
        super().setUp()
        (self.folder / "player").mkdir()
        (self.folder / "c" / "out").mkdir(parents=True)
        shutil.copy(_calls.library._name, self.folder / "c" / "out" / "libclaxon.so.0.3")
        shutil.copytree(EXAMPLES, self.folder / "python" / "examples")
        copy_module(self.folder / "python")
        song = bytearray((TOP / "examples" / "tagged.flac").read_bytes())
        (self.folder / "song.flac").write_bytes(song)
        song[3000] ^= 1  # in the second of three frames
        (self.folder / "damaged.flac").write_bytes(song)

    def run_command(self, command: List[str]) -> Tuple[int, str]:
        """The status of a command in this folder, and all that it prints."""
        path = os.pathsep.join([os.path.dirname(sys.executable), os.environ["PATH"]])
        environment = {"HOME": str(self.folder), "PATH": path, "LC_ALL": "C.UTF-8"}
        run = subprocess.run(command, cwd=self.folder, env=environment, stdout=PIPE, stderr=STDOUT)
        return run.returncode, run.stdout.decode()


class Readme(Folder):
    def test_python(self) -> None:
        """In the order of the text, in one session."""
        has_numpy = subprocess.call([sys.executable, "-c", "import numpy"], stderr=DEVNULL) == 0
        session: Dict[str, Any] = {"claxon": claxon}  # which the first example imports
        before = os.getcwd()
        self.addCleanup(os.chdir, before)
        os.chdir(self.folder)
        tried = 0
        for heading, text in examples():
            if text.startswith(">>> ") and (has_numpy or heading not in WITH_NUMPY):
                test = doctest.DocTestParser().get_doctest(text, session, heading, None, 0)
                session = test.globs
                report: List[str] = []
                runner = doctest.DocTestRunner()
                runner.run(test, out=report.append, clear_globs=False)
                self.assertEqual("".join(report), "")
                tried += 1
        self.assertEqual(tried, 7 if has_numpy else 5)
        if not has_numpy:
            self.skipTest("numpy isn't installed: its examples weren't run, the others passed")

    def test_shell(self) -> None:
        tried = 0
        for _, text in examples():
            if text.startswith("$ "):
                commands = re.findall(r"^\$ (.*)\n", text, re.M)
                _, found = self.run_command(["sh", "-c", "\n".join(commands)])
                self.assertEqual(found, re.sub(r"^\$ .*\n", "", text, flags=re.M))
                tried += 1
        self.assertEqual(tried, 2)

    def test_all_are_run(self) -> None:
        for _, text in examples():
            self.assertTrue(text.startswith((">>> ", "$ ")), text)
        self.assertEqual(len(examples()), 9)


def loaded(name: str) -> ModuleType:
    spec = importlib.util.spec_from_file_location(name, EXAMPLES / f"{name}.py")
    assert spec and spec.loader
    module = importlib.util.module_from_spec(spec)
    spec.loader.exec_module(module)
    return module


def stream_with(bits: int, channels: int, samples: int, md5: bytes, frames: bytes) -> bytes:
    """A stream with these fields in its streaminfo."""
    fields = 44100 << 44 | channels - 1 << 41 | bits - 1 << 36 | samples
    streaminfo = STREAMINFO[:10] + fields.to_bytes(8, "big") + md5
    return MARKER + metadata_block(0, streaminfo, True) + frames


class Verify(Folder):
    def verify(self, stream: bytes) -> Tuple[bool, str]:
        """Whether the stream is right, and what the line says of it."""
        path = self.folder / "stream.flac"
        path.write_bytes(stream)
        with contextlib.redirect_stdout(io.StringIO()) as output:
            is_right = loaded("verify").verify(str(path))
        name, line = output.getvalue().split(": ", 1)
        self.assertEqual(name, str(path))
        return is_right, line

    def test_sums(self) -> None:
        """The sum is that of the interleaved samples, each in as few whole bytes as hold it."""
        source = random.Random(3)
        for bits in range(1, 33):
            width = (bits + 7) // 8
            channels, duration = source.randrange(1, 9), source.randrange(2, 40)
            least, most = -1 << bits - 1, (1 << bits - 1) - 1
            numbers = [least, most, *(source.randint(least, most) for _ in range(30))]
            samples = [[source.choice(numbers) for _ in range(duration)] for _ in range(channels)]
            taken = b"".join(
                sample.to_bytes(width, "little", signed=True)
                for together in zip(*samples)
                for sample in together
            )
            md5 = hashlib.md5(taken).digest()
            frame = verbatim_frame(samples, bits)
            counts = f"1 frame, {duration} samples\n"
            with self.subTest(bits=bits):
                stream = stream_with(bits, channels, duration, md5, frame)
                self.assertEqual(self.verify(stream), (True, f"ok, {counts}"))
                stream = stream_with(bits, channels, 0, md5, frame)
                self.assertEqual(self.verify(stream), (True, f"ok, {counts}"))
                stream = stream_with(bits, channels, duration, md5[::-1], frame)
                line = f"the MD5 sum is that of other samples; {counts}"
                self.assertEqual(self.verify(stream), (False, line))
                stream = stream_with(bits, channels, duration + 1, bytes(16), frame)
                line = f"the streaminfo says {duration + 1} samples; {counts[:-1]}, no MD5 sum\n"
                self.assertEqual(self.verify(stream), (False, line))

    def test_channels(self) -> None:
        """A block of other channels than the streaminfo has is wrong."""
        frames = verbatim_frame([[1, 2], [3, 4]])
        line = "the number of channels changes; 1 frame, 2 samples, no MD5 sum\n"
        self.assertEqual(self.verify(stream_with(8, 1, 2, bytes(16), frames)), (False, line))

    def test_faults(self) -> None:
        """It goes on after each, names the first, and counts them."""
        other = b"\xff\xf8damage"
        stream = stream_with(8, 1, 0, bytes(16), FRAME_OF_5 + other + FRAME_OF_5 + other)
        line = "ill-formed at byte 53, after 1 sample: invalid frame header, encountered reserved"
        line += " value; 2 faults; 2 frames, 2 samples, no MD5 sum\n"
        self.assertEqual(self.verify(stream), (False, line))

    def test_real_files(self) -> None:
        """The files of real encoders have the sums of these encoders."""
        names = ["escapes_of_a_real_encoder", "quiet_noise", "other_encoder_speech"]
        names += ["left_channel_alone", "eight_bits", "wasted_bits_of_24"]
        for name in names:
            is_right, line = self.verify((DATA / f"{name}.flac").read_bytes())
            self.assertTrue(is_right, line)
            self.assertTrue(line.startswith("ok, ") and "no MD5" not in line, line)

    def test_statuses(self) -> None:
        song, damaged = "song.flac", "damaged.flac"
        command = [sys.executable, "python/examples/verify.py"]
        self.assertEqual(self.run_command([*command, song])[0], 0)
        names = [damaged, "missing.flac", "c", "python/claxon/__init__.py", song]
        status, found = self.run_command([*command, *names])
        self.assertEqual(status, 1)
        lines = found.splitlines()
        self.assertEqual(lines[1], "missing.flac: No such file or directory")
        self.assertEqual(lines[2], "c: Is a directory")
        self.assertEqual(
            lines[3], "python/claxon/__init__.py: ill-formed at byte 0: invalid stream header"
        )
        self.assertEqual(lines[4], "song.flac: ok, 3 frames, 9876 samples")
        self.assertEqual(self.run_command(command), (2, "usage: verify.py FILE..\n"))
        os.rename(self.folder / song, os.fsencode(self.folder) + b"/\xff.flac")
        run = subprocess.run([*command, b"\xff.flac"], cwd=self.folder, stdout=PIPE)
        self.assertEqual(run.stdout, b"\xff.flac: ok, 3 frames, 9876 samples\n")


class Listen(FolderCase):
    def test_blocks(self) -> None:
        """Each block comes with the last byte of its frame."""
        stream = made_stream((1,))
        for piece in (1460, 65536):
            asyncio.run(self.expect_blocks(stream, piece))

    async def expect_blocks(self, stream: Stream, piece: int) -> None:
        reader, given = asyncio.StreamReader(), 0
        blocks = loaded("listen").blocks(reader)
        for at in range(0, len(stream.content), piece):
            reader.feed_data(stream.content[at : at + piece])
            while given < stream.frames_within(at + piece):
                block = await asyncio.wait_for(blocks.__anext__(), 60)
                self.assertEqual(block.planar.tolist(), stream.samples[given])
                given += 1
        reader.feed_eof()
        self.assertEqual([block async for block in blocks], [])

    def test_program(self) -> None:
        """It prints a line for each block that a server sends."""
        asyncio.run(self.expect_lines())

    async def expect_lines(self) -> None:
        async def send(_: asyncio.StreamReader, writer: asyncio.StreamWriter) -> None:
            writer.write(stream_with(8, 1, 0, bytes(16), 3 * verbatim_frame([[1, -7, 5]])))
            writer.close()

        server = await asyncio.start_server(send, "127.0.0.1")
        port = server.sockets[0].getsockname()[1]
        library = {"PYTHONPATH": str(PYTHON), "CLAXON_LIBRARY": _calls.library._name}
        command = [sys.executable, str(EXAMPLES / "listen.py"), "127.0.0.1", str(port)]
        program = await asyncio.create_subprocess_exec(
            *command, stdout=PIPE, env={**os.environ, **library}
        )
        found, _ = await program.communicate()
        server.close()
        self.assertEqual(found.decode().splitlines(), 3 * ["0 7"])
