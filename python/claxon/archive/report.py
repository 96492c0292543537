"""What isn't right, as text, CSV or JSON."""
import csv
import io
import json
import time
from typing import Any, BinaryIO, Callable, Dict, Iterator, Optional

from .batch import is_text
from .changes import Before, last_changes, with_before
from .kinds import expected_samples, kind_of, verdict_of
from .names import shown, shown_json, shown_text
from .results import COLUMNS, Ranges, Results

Rows = Iterator[Dict[str, Any]]

# What a report has of each file beside its columns in the results.
_MORE = ("kind", "before", "before_time", "is_same_file", "path_hex")


def date_text(seconds: float, form: str = "%Y-%m-%dT%H:%M:%SZ") -> str:
    """A time of the clock, in UTC. Files may have times of which the clock has no text."""
    try:
        return time.strftime(form, time.gmtime(seconds))
    except (OverflowError, OSError, ValueError):
        return f"@{seconds:.0f}"


def play_time(samples: int, rate: int) -> str:
    """How long so many samples of a channel play: m:ss, or h:mm:ss from an hour on."""
    minutes, second = divmod(samples // rate, 60)
    hours, minute = divmod(minutes, 60)
    return f"{hours}:{minute:02d}:{second:02d}" if hours else f"{minutes}:{second:02d}"


def samples_text(number: int, rate: Optional[int]) -> str:
    """A number of samples, with the time that they play where the sample rate is known."""
    text = f"{number} sample" + ("" if number == 1 else "s")
    return f"{text} ({play_time(number, rate)})" if rate else text


def _decoded_text(row: Dict[str, Any]) -> str:
    """How many samples were decoded, and of how many where some are lacking."""
    samples, rate, total = row["samples"], row.get("rate"), expected_samples(row)
    if total <= samples:
        return samples_text(samples, rate)
    before = f"{samples} ({play_time(samples, rate)})" if rate else str(samples)
    return f"{before} of {samples_text(total, rate)}"


def damage_text(row: Dict[str, Any]) -> str:
    """What is said of a file that isn't right."""
    verdict, last = verdict_of(row), str(row["verdict"])
    if verdict == "missing":
        return "there is no such file any more" + (f"; it was {last}" if last != verdict else "")
    parts = []
    if verdict == "wrong" and row["samples"] is not None:
        parts.append(_decoded_text(row))
    if verdict == "wrong" and row["places"]:
        number = f"{row['places']} place" + ("s, the first" if row["places"] > 1 else "")
        after = samples_text(row["sample"], row.get("rate"))
        parts.append(f"{number} at byte {row['byte']} after {after}")
    return ", ".join(parts) + (": " if parts else "") + shown_text(str(row["damage"]))


def before_text(before: Optional[Before]) -> str:
    """What the file was before, where that is known."""
    if before is None:
        return ""
    same = "; its size and time of change are still the same" if before.is_same_file else ""
    return f"it was {before.verdict} on {date_text(before.time, '%Y-%m-%d')}{same}"


def write_text(rows: Rows, output: BinaryIO) -> None:
    for row in rows:
        before = before_text(row.get("before"))
        line = f"{shown(row['path'])}: {verdict_of(row)}, {damage_text(row)}"
        output.write(f"{line}{before and f' ({before})'}\n".encode())


def write_csv(rows: Rows, output: BinaryIO) -> None:
    """Each row is a line: paths are written with escapes, and then in hexadecimal too."""
    text = io.TextIOWrapper(output, "utf-8", newline="", write_through=True)
    try:
        writer = csv.writer(text, lineterminator="\n")
        writer.writerow([*COLUMNS, *_MORE])
        for row in rows:
            path = shown(row["path"])
            members = _members(row, path, path.encode() != row["path"])
            writer.writerow(
                shown_text(value) if isinstance(value, str) else value
                for value in members.values()
            )
    finally:
        text.detach()


def write_json(rows: Rows, output: BinaryIO) -> None:
    """An array with an object on each line."""
    start = "["
    for row in rows:
        is_plain = is_text(row["path"])
        path = row["path"].decode() if is_plain else shown(row["path"])
        members = _members(row, path, not is_plain)
        found = {name: members[name] for name in members if _is_said(name, members[name])}
        line = shown_json(json.dumps(found, ensure_ascii=False))
        output.write(f"{start}\n{line}".encode())
        start = ","
    output.write((start if start == "[" else "").encode() + b"\n]\n")


def _is_said(name: str, value: Any) -> bool:
    return value is not None or name not in _MORE


def _members(row: Dict[str, Any], path: str, has_hex: bool) -> Dict[str, Any]:
    """The values of a row as they are shown: the path and times as text."""
    before: Optional[Before] = row.get("before")
    changed = None if row["changed"] is None else row["changed"] / 1e9
    members = {name: row[name] for name in COLUMNS}
    members.update(
        path=path,
        changed=changed and date_text(changed),
        verified=date_text(row["verified"]),
        missing=row["missing"] and date_text(row["missing"]),
        kind=kind_of(row).name,
        before=before and before.verdict,
        before_time=before and date_text(before.time),
        is_same_file=before and before.is_same_file,
        path_hex=row["path"].hex() if has_hex else None,
    )
    return members


_WRITERS: Dict[str, Callable[[Rows, BinaryIO], None]] = {
    "text": write_text,
    "csv": write_csv,
    "json": write_json,
}


def write_report(form: str, output: BinaryIO, results: Results, ranges: Ranges) -> None:
    """Writes what isn't right of the files in these ranges: as text, csv, json or html."""
    rows = with_before(results, results.not_right(ranges))
    if form != "html":
        _WRITERS[form](rows, output)
        return
    from .page import Summary, write_page

    page = io.TextIOWrapper(output, "utf-8", errors="backslashreplace", newline="")
    try:
        counts, changes = results.counts(ranges), last_changes(results, ranges)
        write_page(page, Summary(counts, results.last_run(), changes), rows)
        page.flush()
    finally:
        page.detach()
