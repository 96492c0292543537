"""Kinds of what isn't right, by the first damage of a file."""
import re
from typing import Any, Dict, List, NamedTuple, Optional, Tuple

from .names import shown_text

Row = Dict[str, Any]

# The thousandths of a file that `parts` has from this on are missing at its end.
END = 1000

_NUMBER = "another number of samples"
_LOST = "other bytes in place of the last frames"
_SUM = "another MD5 sum"
_CUT = "cut off before the end"
_SECOND = "a second stream after the first"
_HEAD = "no head of a FLAC file"
_TAG = "only a tag after the last frame"
_BYTES = "only other bytes after the last frame"
_AFTER = re.compile(r"[0-9]+ bytes? after the last frame(: .* tag$)?")
_SAID = re.compile(r"the streaminfo says ([0-9]+) sample")

_MISSING = r"(is|are) missing$"

# What the damage of a frame or a gap says, and its kind.
_FRAMES = (
    (_MISSING, "frames are missing"),
    (r"(is|are) repeated$", "frames are repeated"),
    (r"out of order$", "frames are out of order"),
    (r"^frames after the streaminfo's last sample$", _NUMBER),
    (
        r"but the streaminfo says|^the blocking strategy|^a sample has more bits",
        "frames differ from the streaminfo",
    ),
    (r"^Ill-formed|^A currently unsupported|not supported$", "frames can't be decoded"),
)


class Kind(NamedTuple):
    """A kind, and whether files of it have nothing but data beside their streams: tags, and bytes
    after streams that have their MD5 sums."""

    name: str
    is_beside: bool = False


def verdict_of(row: Row) -> str:
    """The verdict that is shown: that a file is missing comes before what it was."""
    return "missing" if row.get("missing") else str(row["verdict"])


def kind_of(row: Row) -> Kind:
    verdict = verdict_of(row)
    damage = str(row["damage"])
    if verdict == "missing":
        return Kind("there is no such file any more")
    if verdict != "wrong":
        return Kind(shown_text(damage.split(": ")[0]), damage.startswith("an ID3v2 tag"))
    if is_cut(row):
        return Kind(_CUT)
    if row["samples"] is None or has_wrong_head(row):
        return Kind(_HEAD)
    return _kind_after(row) or _kind_of_frames(damage)


def has_wrong_head(row: Row) -> bool:
    """Whether the head is wrong, and the frames are told without it. They have no MD5 sum then."""
    return str(row["md5"]) == "not computed"


def is_cut(row: Row) -> bool:
    """Whether the file ends before its last frame does."""
    damage = str(row["damage"])
    if has_wrong_head(row):
        return False
    if damage.startswith("truncated") or missing_part(row) > 0:
        return True
    if re.search(_MISSING, damage) and row["sample"] == row["samples"]:
        return True
    has_end = row["places"] or row["samples"] is None or row["md5"] == "ok"
    return not has_end and row["samples"] < expected_samples(row)


def missing_part(row: Row) -> int:
    """What is missing at the end of the file, in thousandths of what is there."""
    last = int(row["parts"].rpartition("-")[2]) if row["parts"] else 0
    return max(0, last + 1 - END)


def ranges_of(row: Row) -> List[Tuple[int, int]]:
    """The thousandths of the file that aren't right: the first and the last of each range."""
    pairs = (part.split("-") for part in (row["parts"] or "").split())
    return [(int(first), int(last)) for first, last in pairs if int(first) < END]


def expected_samples(row: Row) -> int:
    """The samples that the streaminfo says, where that is known, or else 0."""
    if row.get("total") is not None:
        return int(row["total"])
    said = _SAID.match(str(row["damage"]))
    return int(said[1]) if said else 0


def _kind_after(row: Row) -> Optional[Kind]:
    """Where the only place is that of bytes after the last frame."""
    after = _AFTER.match(str(row["damage"]))
    if after is None:
        return None
    if str(row["damage"]).endswith(": a second stream begins"):
        return Kind(_SECOND)
    if row["md5"] != "ok" and row["samples"] < expected_samples(row):
        return Kind(_LOST)
    if row["md5"] == "wrong":
        return Kind(_SUM)
    return Kind(_TAG, True) if after[1] else Kind(_BYTES, row["md5"] == "ok")


def _kind_of_frames(damage: str) -> Kind:
    if damage.startswith("the streaminfo says"):
        return Kind(_NUMBER)
    if damage.startswith("the MD5 sum"):
        return Kind(_SUM)
    for pattern, name in _FRAMES:
        if re.search(pattern, damage):
            return Kind(name)
    return Kind("other damage")
