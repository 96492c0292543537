"""What the program `claxon verify` says of a file."""
import json
import os
import subprocess
from dataclasses import dataclass
from importlib import import_module
from typing import Any, Dict, Mapping, Optional, Tuple, Union

_HOW_TO_GET_IT = (
    "the wheel for x86-64 has it, and so have Debian's package claxon of this repository and the"
    " archive of programs; CLAXON_PROGRAM may name it"
)


@dataclass(frozen=True)
class Place:
    """A place of a file that isn't right."""

    start_byte: int  # its first byte
    end_byte: int  # the byte after it
    start_sample: int
    end_sample: int
    what: str  # what is wrong


@dataclass(frozen=True)
class Report:
    """What `claxon verify` says of a file. None stands for what it doesn't say, as of a file whose
    head can't be read.
    """

    name: str
    verdict: str  # "ok", "wrong", "not supported" or "not read"
    frames: Optional[int]  # how many were decoded
    samples: Optional[int]  # of each channel
    sample_rate: Optional[int]  # what the streaminfo says, and the next three
    channels: Optional[int]
    bits_per_sample: Optional[int]
    streaminfo_samples: Optional[int]
    md5: Optional[str]  # "ok", "wrong", "none" (the streaminfo has none) or "not computed"
    computed_md5: Optional[str]  # of the samples that were decoded, in hexadecimal digits
    places: Tuple[Place, ...]  # what isn't right, and where
    left_out: int  # the number of places after those in `places`
    notes: Tuple[str, ...]  # what is unusual, and not wrong
    reason: Optional[str]  # why it isn't supported or read, or what is wrong with its head
    members: Mapping[str, Any]  # all of the program's object of JSON

    @property
    def is_right(self) -> bool:
        """Whether the verdict is "ok"."""
        return self.verdict == "ok"


def verify(path: Union[str, bytes, "os.PathLike[Any]"], *, md5: bool = True) -> Report:
    """Decodes a file to its end by the program `claxon verify`, and says what is right and wrong.

    The program is looked for as claxon-archive does it: in the environment variable
    CLAXON_PROGRAM, on the PATH, beside this module, and where its wheel put it. Without `md5` the
    sum isn't computed, which takes less time.

    Raises FileNotFoundError where there is no program, or OSError where it fails or the file can't
    be opened. A file that is read in part has a report.
    """
    options = ["--json"] if md5 else ["--json", "--no-md5"]
    command = [find_program(), "verify", *options, "-"]
    with open(path, "rb") as file:
        try:
            ended = subprocess.run(command, stdin=file, capture_output=True, check=False)
        except OSError as error:
            raise OSError(f"{command[0]}: {error.strerror}") from error
    try:
        members = json.loads(ended.stdout)
        members["name"] = os.fsdecode(path)
        return _report_of(members)
    except (ValueError, KeyError, TypeError) as error:
        said = ended.stderr.decode("utf-8", "replace").strip() or f"status {ended.returncode}"
        raise OSError(f"{command[0]} gives no report: {said}") from error


def _report_of(members: Dict[str, Any]) -> Report:
    """The object of a file, whose name and verdict are always there."""
    names = ("frames", "samples", "sample_rate", "channels", "bits_per_sample")
    others = ("streaminfo_samples", "md5", "computed_md5", "reason")
    fields = {name: members.get(name) for name in (*names, *others)}
    parts = Place.__dataclass_fields__
    places = [
        Place(**{name: place[name] for name in parts}) for place in members.get("places", ())
    ]
    return Report(
        name=members["name"],
        verdict=members["verdict"],
        places=tuple(places),
        left_out=members.get("left_out", 0),
        notes=tuple(members.get("notes", ())),
        members=members,
        **fields,
    )


def find_program() -> str:
    """The path of the program `claxon`. FileNotFoundError says how to get it."""
    beside = import_module("claxon.archive.run").program_beside()
    try:
        found: str = import_module("claxon.archive.batch").find_program(beside)
        return found
    except FileNotFoundError as error:
        raise FileNotFoundError(f"{error}: {_HOW_TO_GET_IT}") from None


def installed_program() -> Optional[str]:
    """The program that the wheel of this module put beside its commands."""
    metadata = import_module("importlib.metadata")  # which takes some time
    try:
        files = metadata.files("claxon") or ()
    except metadata.PackageNotFoundError:
        return None
    for file in files:
        if file.name == "claxon" and file.parent.name == "bin":
            path = os.path.realpath(str(file.locate()))
            if os.access(path, os.X_OK):
                return path
    return None
