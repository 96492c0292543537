"""Bars of files, in which what isn't right is marked."""
from typing import Any, Dict

from .kinds import END, Kind, is_cut, missing_part, ranges_of, verdict_of

# The least width of what is marked, in thousandths of the bar.
_LEAST_WIDTH = 3

_KEY = '<svg class="key%s" viewBox="0 0 1 1">%s</svg>'
_MARK = '<rect class="%s" width="1" height="1"/>'

LEGEND = f"""<p>A bar is a file from its first byte to its last, as it was verified:
<span>{_KEY % ("", "")}right,</span>
<span>{_KEY % ("", _MARK % "bad")}damaged,</span>
<span>{_KEY % ("", _MARK % "more")}beside the stream,</span>
<span>{_KEY % (" cut", "")}missing at the end, by the number of samples.</span></p>
"""


def bar(row: Dict[str, Any], kind: Kind) -> str:
    """The file as a bar, if it has damage at some places or is cut."""
    if verdict_of(row) != "wrong":
        return ""
    is_head = is_cut(row) and row["samples"] is None
    if not row["parts"] and not is_head:
        return ""
    missing = missing_part(row)
    width = END + missing
    least = max(1, _LEAST_WIDTH * width // END)
    marks = [f"<title>{_bar_text(row, kind)}</title>"]
    if missing:
        marks.append(f'<rect class="there" width="{END}" height="1"/>')
    css = "more" if kind.is_beside else "bad"
    for first, last in ranges_of(row):
        size = max(least, last + 1 - first)
        x = max(0, min(first, END - size))
        marks.append(f'<rect class="{css}" x="{x}" width="{size}" height="1"/>')
    cut = ' class="cut"' if missing or is_head else ""
    return (
        f'<svg{cut} viewBox="0 0 {width} 1" preserveAspectRatio="none" role="img">'
        f'{"".join(marks)}</svg>'
    )


def _bar_text(row: Dict[str, Any], kind: Kind) -> str:
    """What the bar shows, in words."""
    ranges, missing = ranges_of(row), missing_part(row)
    said = []
    if ranges:
        first, last = ranges[0]
        what = "beside the stream" if kind.is_beside else "damaged"
        said.append(f"{what} from {first / 10:.1f} % to {(last + 1) / 10:.1f} % of the file")
    if len(ranges) > 1:
        said.append(f"{len(ranges) - 1} more such parts")
    if missing:
        said.append(f"the last {100 * missing / (END + missing):.0f} % are missing")
    return ", ".join(said) or "the file ends inside its metadata"
