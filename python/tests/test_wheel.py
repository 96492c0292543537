"""The wheel that wheel_backend.py makes."""
import base64
import csv
import hashlib
import importlib.util
import os
import pathlib
import subprocess
import sys
import unittest
import zipfile
from types import ModuleType
from typing import Any, Dict, List
from unittest import mock

import claxon
from tests import TOP, FolderCase

PYTHON = TOP / "python"
BACKEND = PYTHON / "wheel_backend.py"
MODULES = ["claxon/__init__.py", "claxon/_calls.py", "claxon/archive/batch.py", "claxon/py.typed"]


def elf(machine: int, text: bytes = b"") -> bytes:
    """The first bytes of an ELF file for this processor."""
    return b"\x7fELF" + bytes(14) + machine.to_bytes(2, "little") + text


def loaded() -> ModuleType:
    spec = importlib.util.spec_from_file_location("wheel_backend", BACKEND)
    assert spec and spec.loader
    module = importlib.util.module_from_spec(spec)
    spec.loader.exec_module(module)
    return module


@unittest.skipUnless(BACKEND.exists(), "the wheel isn't made here")
class Wheels(FolderCase):
    def make(self, machine: int, program: bytes = b"", **variables: str) -> pathlib.Path:
        """A wheel with a library for this processor, and this program."""
        library, command = self.folder / "library", self.folder / "program"
        library.write_bytes(elf(machine, b"library"))
        command.write_bytes(program)
        named = {"CLAXON_LIBRARY": str(library), "CLAXON_PROGRAM": str(command), **variables}
        with mock.patch.dict(os.environ, named):
            return self.folder / str(loaded().build_wheel(str(self.folder)))

    def test_files(self) -> None:
        wheel = self.make(62, elf(62, b"program"))
        version = claxon.__version__
        name = f"claxon-{version}-py3-none-manylinux_2_34_x86_64.whl"
        self.assertEqual(wheel.name, name)
        with zipfile.ZipFile(wheel) as file:
            names = file.namelist()
            self.assertEqual(file.read("claxon/libclaxon.so.0.3"), elf(62, b"library"))
            program = f"claxon-{version}.data/scripts/claxon"
            self.assertEqual(file.read(program), elf(62, b"program"))
            modes = {name: file.getinfo(name).external_attr >> 16 & 0o777 for name in names}
            for module in MODULES:
                self.assertEqual(file.read(module), (PYTHON / module).read_bytes())
        self.assertEqual([name for name in names if modes[name] != 0o644], [program])
        self.assertEqual(modes[program], 0o755)
        self.assertEqual([name for name in names if "__pycache__" in name or "test" in name], [])

    def test_sums(self) -> None:
        """RECORD has the sum and the size of each file but its own."""
        with zipfile.ZipFile(self.make(62)) as file:
            record = f"claxon-{claxon.__version__}.dist-info/RECORD"
            rows = list(csv.reader(file.read(record).decode().splitlines()))
            self.assertEqual(sorted(row[0] for row in rows), sorted(file.namelist()))
            for name, digest, size in rows:
                if name == record:
                    self.assertEqual((digest, size), ("", ""))
                    continue
                content = file.read(name)
                expected = base64.urlsafe_b64encode(hashlib.sha256(content).digest())
                self.assertEqual(digest, "sha256=" + expected.decode().rstrip("="))
                self.assertEqual(size, str(len(content)))

    def test_arm(self) -> None:
        """It has no program, as there is none."""
        wheel = self.make(183, elf(62, b"program"))
        self.assertTrue(wheel.name.endswith("-py3-none-manylinux_2_17_aarch64.whl"))
        with zipfile.ZipFile(wheel) as file:
            self.assertEqual([name for name in file.namelist() if "scripts" in name], [])

    def test_same_files(self) -> None:
        before = self.make(62).read_bytes()
        self.assertEqual(self.make(62).read_bytes(), before)
        self.assertNotEqual(self.make(62, SOURCE_DATE_EPOCH="1700000000").read_bytes(), before)

    def test_library_that_is_missing(self) -> None:
        backend: Any = loaded()
        with mock.patch.dict(os.environ, {"CLAXON_LIBRARY": ""}):
            with mock.patch.object(backend, "TOP", self.folder):
                with self.assertRaises(SystemExit) as raised:
                    backend.build_wheel(str(self.folder))
        self.assertIn("make -C c", str(raised.exception))

    def test_pip(self) -> None:
        """As README.md has it, with an index that nothing answers."""
        if subprocess.call([sys.executable, "-m", "pip", "--version"], stdout=subprocess.DEVNULL):
            self.skipTest("this Python has no pip")
        library = self.folder / "library"
        library.write_bytes(elf(62))
        environment: Dict[str, str] = {**os.environ, "PIP_INDEX_URL": "http://127.0.0.1:9/"}
        environment.update(CLAXON_LIBRARY=str(library), CLAXON_PROGRAM="", TMPDIR=str(self.folder))
        command: List[str] = [sys.executable, "-m", "pip", "wheel", "--quiet", "-w"]
        subprocess.run(
            [*command, str(self.folder), "--disable-pip-version-check", str(PYTHON)],
            env=environment,
            check=True,
        )
        name = f"claxon-{claxon.__version__}-py3-none-manylinux_2_34_x86_64.whl"
        self.assertTrue((self.folder / name).exists())
