"""Makes the wheel: the module, the shared library for C and, for x86-64, the program `claxon`. The
wheel is named by the library's platform. It needs Python alone, so pip needs no index (PEP 517).

The library is that in the environment variable CLAXON_LIBRARY, else that of `make -C c` in the
repository, else that of the archive which has this folder. So is the program, by CLAXON_PROGRAM;
where there is none, the wheel is made without it. The version is in the file VERSION above. The
same files give the same wheel, at the time in SOURCE_DATE_EPOCH.
"""
import base64
import hashlib
import os
import pathlib
import sys
import time
import zipfile
from typing import Any, Dict, List, Optional

HERE = pathlib.Path(__file__).resolve().parent
TOP = HERE.parent
VERSION = (TOP / "VERSION").read_text().strip()
LIBRARY = "libclaxon.so." + ".".join(VERSION.split(".")[:2])
X86_64 = 62
# By the number of the processor in an ELF file: the oldest glibc of the library and of the program.
PLATFORMS = {X86_64: "manylinux_2_34_x86_64", 183: "manylinux_2_17_aarch64"}
INFO = f"claxon-{VERSION}.dist-info"
SCRIPTS = f"claxon-{VERSION}.data/scripts"
METADATA = f"""Metadata-Version: 2.1
Name: claxon
Version: {VERSION}
Summary: An exact FLAC decoder, over claxon's library for C
License: Apache-2.0
Classifier: License :: OSI Approved :: Apache Software License
Classifier: Operating System :: POSIX :: Linux
Classifier: Programming Language :: Python :: 3
Classifier: Topic :: Multimedia :: Sound/Audio
Classifier: Typing :: Typed
Requires-Python: >=3.8
License-File: LICENSE
License-File: NOTICE
Description-Content-Type: text/markdown

"""
ENTRY_POINTS = "[console_scripts]\nclaxon-archive = claxon.archive:main\n"


class Wheel:
    """The files of a wheel, by their names."""

    def __init__(self, tag: str) -> None:
        self.name = f"claxon-{VERSION}-{tag}.whl"
        self._files: Dict[str, bytes] = {}
        metadata = METADATA + (HERE / "README.md").read_text()
        wheel = f"Wheel-Version: 1.0\nGenerator: claxon\nRoot-Is-Purelib: false\nTag: {tag}\n"
        self.add(f"{INFO}/METADATA", metadata.encode())
        self.add(f"{INFO}/WHEEL", wheel.encode())
        self.add(f"{INFO}/entry_points.txt", ENTRY_POINTS.encode())
        for name in ("LICENSE", "NOTICE"):
            self.add(f"{INFO}/{name}", (HERE / name).read_bytes())

    def add(self, name: str, content: bytes) -> None:
        self._files[name] = content

    def write(self, folder: str) -> str:
        """Writes it into a folder. Returns its name."""
        rows = [f"{name},{sum_of(content)}" for name, content in sorted(self._files.items())]
        record = "\n".join([*rows, f"{INFO}/RECORD,,", ""]).encode()
        with zipfile.ZipFile(os.path.join(folder, self.name), "w", zipfile.ZIP_DEFLATED) as file:
            for name, content in [*sorted(self._files.items()), (f"{INFO}/RECORD", record)]:
                seconds = max(315532800, int(os.environ.get("SOURCE_DATE_EPOCH", 315532800)))
                entry = zipfile.ZipInfo(name, time.gmtime(seconds)[:6])
                mode = 0o755 if name.startswith(SCRIPTS) else 0o644
                entry.external_attr = (0o100000 | mode) << 16
                entry.compress_type = zipfile.ZIP_DEFLATED
                file.writestr(entry, content)
        return self.name


def sum_of(content: bytes) -> str:
    """The sum and the size of a file, as RECORD has them."""
    digest = base64.urlsafe_b64encode(hashlib.sha256(content).digest()).decode().rstrip("=")
    return f"sha256={digest},{len(content)}"


def library() -> pathlib.Path:
    named = os.environ.get("CLAXON_LIBRARY")
    if named:
        return pathlib.Path(named)
    for folder in (TOP / "c" / "out", TOP / "lib"):
        if (folder / LIBRARY).exists():
            return folder / LIBRARY
    raise SystemExit(
        f"claxon: {LIBRARY} is missing, which belongs into the wheel: build it by `make -C c`, take"
        " an archive of claxon, or name it in the environment variable CLAXON_LIBRARY"
    )


def machine_of(content: bytes) -> int:
    """The number of the processor in an ELF file."""
    return int.from_bytes(content[18:20], "little") if content[:4] == b"\x7fELF" else 0


def program(machine: int) -> Optional[bytes]:
    """The program for this processor, where it is."""
    named = os.environ.get("CLAXON_PROGRAM")
    built = TOP / "crates" / "claxon_cli" / "out" / "claxon_cli"
    for path in [pathlib.Path(named)] if named else [built, TOP / "bin" / "claxon"]:
        if path.is_file() and machine_of(path.read_bytes()) == machine:
            return path.read_bytes()
    return None


def sources() -> List[pathlib.Path]:
    package = HERE / "claxon"
    return [*package.glob("*.py"), package / "py.typed", *package.glob("archive/*.py")]


# ---- what pip calls


def build_wheel(
    folder: str, settings: Optional[Dict[str, Any]] = None, metadata: Optional[str] = None
) -> str:
    content = library().read_bytes()
    machine = machine_of(content)
    wheel = Wheel(f"py3-none-{PLATFORMS[machine]}")
    for path in sources():
        wheel.add(path.relative_to(HERE).as_posix(), path.read_bytes())
    wheel.add(f"claxon/{LIBRARY}", content)
    command = program(machine)
    if command is not None:
        wheel.add(f"{SCRIPTS}/claxon", command)
    elif machine == X86_64:
        print("claxon: the wheel is made without the program `claxon`", file=sys.stderr)
    return wheel.write(folder)


def build_editable(
    folder: str, settings: Optional[Dict[str, Any]] = None, metadata: Optional[str] = None
) -> str:
    wheel = Wheel("py3-none-any")
    wheel.add("claxon.pth", f"{HERE}\n".encode())
    return wheel.write(folder)


def build_sdist(folder: str, settings: Optional[Dict[str, Any]] = None) -> str:
    raise SystemExit("claxon: there is no source distribution: the library is built by `make -C c`")
