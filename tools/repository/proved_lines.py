"""By which lines the toolchain says that crates are proved.

The line of a crate is kept in its out/, with a sum of the toolchain's name and of the sources that
it is about. That of the library for C has one more for its build for 64-bit ARM.
"""
import hashlib
import re
from pathlib import Path
from typing import Dict, Optional

from repository.crates import Crate, all_sums

ARM = "aarch64"
LINE = re.compile(r"^logic=proved .*$", re.MULTILINE)


def _sum(toolchain: str, sums: Dict[str, str]) -> str:
    lines = [toolchain, *(f"{digest}  {name}" for name, digest in sums.items())]
    return hashlib.sha256("\n".join(lines).encode()).hexdigest()


def is_for_arm(crate: Crate, target: str) -> bool:
    return target == ARM and crate.is_static


def _file(crate: Crate, target: str) -> Path:
    return crate.out / (f"verdict.{ARM}" if is_for_arm(crate, target) else "verdict")


def keep_line(
    crate: Crate, target: str, toolchain: str, text: str, sums: Optional[Dict[str, str]] = None
) -> bool:
    """Keeps the last such line of what was printed about a crate with sources of these sums, or
    with the present ones. Whether there is one."""
    lines = LINE.findall(text)
    if lines:
        crate.out.mkdir(exist_ok=True)
        about = _sum(toolchain, all_sums(crate) if sums is None else sums)
        _file(crate, target).write_text(f"{about}\n{lines[-1]}\n")
    return bool(lines)


def kept_line(crate: Crate, target: str, toolchain: str) -> Optional[str]:
    """The line that is kept of the present sources."""
    file = _file(crate, target)
    kept = file.read_text().splitlines() if file.exists() else []
    is_present = len(kept) == 2 and kept[0] == _sum(toolchain, all_sums(crate))
    return kept[1] if is_present else None
