"""File objects of the standard library: what they give, and their types."""
import bz2
import gzip
import io
import lzma
import mmap
import os
import shutil
import socket
import subprocess
import tarfile
import tempfile
import textwrap
import threading
import warnings
import zipfile
from subprocess import PIPE
from typing import Any, Callable, Dict

import claxon
from streams.frames import metadata_block
from tests import FolderCase, copy_module, head
from tests.test_seeking import made

NAME = "song.flac"

# What opens the file of each kind in a folder.
OPENERS: Dict[str, Callable[[], Any]] = {
    "plain": lambda: open(NAME, "rb"),
    "unbuffered": lambda: open(NAME, "rb", buffering=0),
    "memory": lambda: io.BytesIO(open(NAME, "rb").read()),
    "zip": lambda: zipfile.ZipFile("song.zip").open(NAME),
    "gzip": lambda: gzip.open("song.gz"),
    "bz2": lambda: bz2.open("song.bz2"),
    "lzma": lambda: lzma.open("song.xz"),
    "tar": lambda: tarfile.open("song.tar").extractfile(NAME),
    "compressed tar": lambda: tarfile.open("song.tar.gz").extractfile(NAME),
    "spooled": lambda: spooled(1 << 30),
    "spooled on disk": lambda: spooled(1),
    "mmap": lambda: mapped(),
}

# Those of which mypy knows the types, as a user writes them.
TYPED = """
    import bz2, gzip, io, lzma, mmap, socket, subprocess, tarfile, tempfile, zipfile
    from pathlib import Path
    import claxon

    claxon.read("song.flac")
    claxon.read(b"song.flac")
    claxon.read(Path("song.flac"))
    claxon.read(io.BytesIO(b""))
    with zipfile.ZipFile("song.zip") as archive, archive.open("song.flac") as zipped:
        claxon.Flac(zipped)
    with subprocess.Popen(["cat"], stdout=subprocess.PIPE) as process:
        assert process.stdout
        claxon.Flac(process.stdout)
    claxon.Flac(gzip.open("song.gz"))
    claxon.Flac(gzip.GzipFile("song.gz"))
    claxon.Flac(bz2.open("song.bz2"))
    claxon.Flac(bz2.BZ2File("song.bz2"))
    claxon.Flac(lzma.open("song.xz"))
    claxon.Flac(lzma.LZMAFile("song.xz"))
    member = tarfile.open("song.tar").extractfile("song.flac")
    assert member
    claxon.Flac(member)
    claxon.Flac(tempfile.SpooledTemporaryFile())
    claxon.Flac(tempfile.TemporaryFile())
    claxon.Flac(tempfile.NamedTemporaryFile())
    with open("song.flac", "rb") as file:
        claxon.Flac(file)
        claxon.Flac(mmap.mmap(file.fileno(), 0))
    claxon.Flac(open("song.flac", "rb", buffering=0))
    claxon.Flac(socket.socket().makefile("rb"))
    with claxon.Flac("song.flac") as flac:
        rate: int = flac.info.sample_rate
        for block in flac.blocks("int16", start=5):
            duration: int = block.duration
        title = flac.tags.get("title")
        points = [point.sample for point in flac.seek_table]
        sheet = flac.cue_sheet
        tracks = sheet.tracks if sheet else ()
    report = claxon.verify("song.flac")
    places = [place.start_byte for place in report.places]
"""


def spooled(size: int) -> Any:
    file = tempfile.SpooledTemporaryFile(size)
    with open(NAME, "rb") as content:
        shutil.copyfileobj(content, file)
    file.seek(0)
    return file


def mapped() -> mmap.mmap:
    with open(NAME, "rb") as file:
        return mmap.mmap(file.fileno(), 0, access=mmap.ACCESS_READ)


class Objects(FolderCase):
    def setUp(self) -> None:
        super().setUp()
        self.addCleanup(os.chdir, os.getcwd())
        os.chdir(self.folder)
        self.stream = made(200, 1000)
        content = self.stream.content()
        (self.folder / NAME).write_bytes(content)
        with zipfile.ZipFile("song.zip", "w", zipfile.ZIP_DEFLATED) as archive:
            archive.write(NAME)
        for name, mode in (("song.tar", "w"), ("song.tar.gz", "w:gz")):
            with tarfile.open(name, mode) as tar:
                tar.add(NAME)
        (self.folder / "song.gz").write_bytes(gzip.compress(content))
        (self.folder / "song.bz2").write_bytes(bz2.compress(content))
        (self.folder / "song.xz").write_bytes(lzma.compress(content))

    def test_read_and_seek(self) -> None:
        """All of these can seek, too."""
        for name, opener in OPENERS.items():
            with self.subTest(name), warnings.catch_warnings():
                warnings.simplefilter("ignore", ResourceWarning)
                found, _ = claxon.read_arrays(opener())
                self.assertEqual(found[0].tolist(), self.stream.samples)
                found, _ = claxon.read_arrays(opener(), 150500, 160001)
                self.assertEqual(found[0].tolist(), self.stream.samples[150500:160001])
                flac = claxon.Flac(opener())
                self.assertTrue(flac.can_seek())
                for sample in (199999, 0, 123456):
                    block = next(flac.blocks(start=sample))
                    end = sample // 1000 * 1000 + 1000
                    self.assertEqual(block.planar.tolist(), self.stream.samples[sample:end])

    def test_pipes(self) -> None:
        with subprocess.Popen(["cat", NAME], stdout=PIPE) as process:
            assert process.stdout
            found, _ = claxon.read_arrays(process.stdout)
        self.assertEqual(found[0].tolist(), self.stream.samples)
        sender, receiver = socket.socketpair()
        thread = threading.Thread(target=self.send, args=(sender,))
        thread.start()
        with receiver, receiver.makefile("rb") as file:
            found, _ = claxon.read_arrays(file)
        thread.join()
        self.assertEqual(found[0].tolist(), self.stream.samples)

    def send(self, sender: socket.socket) -> None:
        with sender:
            sender.sendall(self.stream.content())

    def test_mmap_that_is_cut(self) -> None:
        """It refuses to go past its end, where other files don't."""
        stream = head(metadata_block(1, bytes(5), length=1 << 20))
        (self.folder / NAME).write_bytes(stream)
        for opener in (OPENERS["plain"], OPENERS["mmap"]):
            with opener() as file:
                self.assertRaises(claxon.InputEnds, claxon.Flac, file)


class Types(FolderCase):
    def test_mypy(self) -> None:
        """`mypy --strict` accepts each kind of file, and refuses what isn't one."""
        mypy = shutil.which("mypy")
        if mypy is None:
            self.skipTest("mypy isn't installed")
        copy_module(self.folder)
        (self.folder / "right.py").write_text(textwrap.dedent(TYPED))
        wrong = ["claxon.Flac(5)", "claxon.Flac(open('song.txt'))", "claxon.Flac(None)"]
        wrong += ["claxon.read('song.flac', missing='zeros')", "claxon.Flac('a').seek(1.0)"]
        (self.folder / "wrong.py").write_text("\n".join(["import claxon", *wrong, ""]))
        options = ["--strict", "--ignore-missing-imports", "--follow-imports=silent"]
        command = [mypy, *options, "--cache-dir=/dev/null", "right.py", "wrong.py"]
        run = subprocess.run(command, stdout=PIPE, cwd=self.folder)
        said = run.stdout.decode()
        self.assertNotIn("right.py", said)
        for number in range(2, len(wrong) + 2):
            self.assertIn(f"wrong.py:{number}: error", said)
