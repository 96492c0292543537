"""Where the library for C is looked for, and which is refused."""
import ctypes.util
import pathlib
import shutil
import subprocess
import sys
from subprocess import PIPE
from typing import List

from claxon import _calls
from tests import FolderCase, copy_module

# The calls of the library that the module needs, but for that of its version.
CALLS = ["open", "head_start", "head_next", "vendor", "next_tag"]
CALLS += ["frames_start", "frames_go_on", "frames_next", "frames_next_planar"]
CALLS += ["search_start", "search_go_on", "search_next"]
CALLS += ["clock_start", "clock_show", "clock_needs_frames"]
CALLS += ["seeker_start", "seeker_next_planar"]
CALLS += ["md5_start", "md5_samples", "md5_finish"]


class Library(FolderCase):
    """Where the library is looked for. Each is tried by a Python of its own."""

    def setUp(self) -> None:
        super().setUp()
        copy_module(self.folder / "python")
        self.built = pathlib.Path(_calls.library._name)

    def imported(self, **variables: str) -> str:
        environment = {"PYTHONPATH": str(self.folder / "python"), **variables}
        command = [sys.executable, "-c", "import claxon; print(claxon._calls.library._name)"]
        run = subprocess.run(command, env=environment, stdout=PIPE, stderr=PIPE, cwd=self.folder)
        return (run.stdout or run.stderr).decode().strip().splitlines()[-1]

    def test_places(self) -> None:
        self.assertEqual(self.imported(CLAXON_LIBRARY=str(self.built)), str(self.built))
        beside = "python/claxon/libclaxon.so"
        for place in ("lib/libclaxon.so.0.3", "c/out/libclaxon.so", f"{beside}.0.3", beside):
            path = self.folder.resolve() / place
            path.parent.mkdir(parents=True, exist_ok=True)
            shutil.copy(self.built, path)
            self.assertEqual(self.imported(), str(path))

    def test_missing(self) -> None:
        found = self.imported(CLAXON_LIBRARY="/missing/libclaxon.so")
        self.assertIn("ImportError: /missing/libclaxon.so isn't the library", found)
        self.assertIn("make -C c", found)
        found = self.imported()
        if "Error" not in found:
            self.skipTest("this system has an installed libclaxon")
        self.assertIn("ImportError: the shared library of claxon wasn't found", found)
        self.assertIn("make -C c", found)

    def test_other_library(self) -> None:
        libc = ctypes.util.find_library("c")
        self.assertIn("isn't the library", self.imported(CLAXON_LIBRARY=str(libc)))

    def made(self, version: int, calls: List[str]) -> pathlib.Path:
        """A library of this version that has just these calls, which do nothing."""
        compiler = shutil.which("cc")
        if not compiler:
            self.skipTest("there is no C compiler to make a library of another version with")
        code = "".join(f"unsigned claxon_{name}(void) {{ return 0; }}\n" for name in calls)
        path = self.folder / f"{version}.so"
        source = path.with_suffix(".c")
        source.write_text(f"{code}unsigned claxon_version(void) {{ return {version}; }}\n")
        subprocess.check_call([compiler, "-shared", "-fPIC", str(source), "-o", str(path)])
        return path

    def test_missing_call(self) -> None:
        path = self.made(300, CALLS[:-1])
        found = self.imported(CLAXON_LIBRARY=str(path))
        self.assertIn(f"ImportError: {path} hasn't all calls that this module needs (", found)
        self.assertIn("claxon_md5_finish", found)

    def test_other_versions(self) -> None:
        """Another patch of the interface is taken; another interface is refused by its version."""
        for version, text in ((399, None), (299, "0.2.99"), (400, "0.4.0"), (10300, "1.3.0")):
            path = self.made(version, CALLS)
            found = self.imported(CLAXON_LIBRARY=str(path))
            if text is None:
                self.assertEqual(found, str(path))
            else:
                self.assertIn(f"{path} has version {text}, and this module needs 0.3:", found)
