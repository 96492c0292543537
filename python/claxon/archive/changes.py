"""What files were before: the history of their verdicts."""
import itertools
from typing import Any, Dict, Iterator, List, NamedTuple, Optional

from .kinds import verdict_of
from .results import Ranges, Results
from .tables import SHOWN

# How many files are looked up in the history by one statement.
_CHUNK = 300

# What the run found of files, and what was known of them before, where the verdict was another.
_CHANGES = """
SELECT before.verdict, now.verdict, count(*),
    total(before.size IS now.size AND before.changed IS now.changed)
FROM history AS now
LEFT JOIN history AS before ON before.path = now.path AND before.number = now.number - 1
WHERE now.run = :run AND now.path >= :low AND now.path < :high
    AND before.verdict IS NOT now.verdict
GROUP BY before.verdict, now.verdict
"""

_MISSING = f"""
SELECT {SHOWN["verdict"]}, 'missing', count(*), 0 FROM files
WHERE missing >= :since AND path >= :low AND path < :high GROUP BY 1
"""


class Verdict(NamedTuple):
    """A row of the history: when a verdict was found first, on a file of which size and time of
    change, and when the verdict before it was found last."""

    run: Optional[int]
    time: int
    verdict: str
    size: Optional[int]
    changed: Optional[int]
    before: Optional[int]


class Last(NamedTuple):
    """The last run that verified something: when the run before it ended, and whether it found the
    first verdicts of all."""

    id: int
    since: int
    is_first: bool


class Before(NamedTuple):
    """The verdict that a file had before: which, when it was found last, in seconds since 1970,
    and whether the file has still the size and the time of change that it had then."""

    verdict: str
    time: int
    is_same_file: bool


class Change(NamedTuple):
    """How many files had one verdict before and have another one now, and how many of these have
    still the same size and time of change. New files had none before."""

    before: Optional[str]
    now: str
    files: int
    same: int


def with_before(results: Results, rows: Iterator[Dict[str, Any]]) -> Iterator[Dict[str, Any]]:
    """The rows, each with what the file was `before`, or None where the history doesn't say, and
    whether its verdict `is_new`: found by the last run."""
    has_history = _has_history(results)
    last = _last(results)
    while True:
        chunk = list(itertools.islice(rows, _CHUNK))
        if not chunk:
            return
        history = _history(results, [row["path"] for row in chunk]) if has_history else {}
        for row in chunk:
            found = history.get(row["path"], [])
            yield {**row, "before": _before(row, found), "is_new": _is_new(row, found, last)}


def _has_history(results: Results) -> bool:
    """Results of older versions have none."""
    return bool(results.select("SELECT 1 FROM sqlite_master WHERE name = 'history'", []))


def _last(results: Results) -> Optional[Last]:
    run = results.last_run()
    if run is None or not _has_history(results):
        return None
    ((ended,),) = results.select("SELECT max(ended) FROM runs WHERE id < ?", [run.id])
    others = results.select("SELECT 1 FROM history WHERE run IS NOT ? LIMIT 1", [run.id])
    return Last(run.id, int(ended or 0), not others)


def _history(results: Results, paths: List[bytes]) -> Dict[bytes, List[Verdict]]:
    """The verdicts on these files, from the first to the last."""
    found: Dict[bytes, List[Verdict]] = {}
    for path, *columns in results.select(
        "SELECT path, run, time, verdict, size, changed, before FROM history WHERE path IN"
        f" ({', '.join('?' * len(paths))}) ORDER BY path, number",
        paths,
    ):
        found.setdefault(path, []).append(Verdict(*columns))
    return found


def _before(row: Dict[str, Any], history: List[Verdict]) -> Optional[Before]:
    """The last other verdict on bytes that were read. Where they couldn't be read, or aren't there,
    nothing is known of the file as it is now."""
    verdict = verdict_of(row)
    last_found: Optional[int] = row["verified"]
    for found in reversed(history) if verdict != "missing" else ():
        if found.verdict != row["verdict"]:
            is_same = (found.size, found.changed) == (row["size"], row["changed"])
            time = found.time if last_found is None else last_found
            return Before(found.verdict, time, is_same and verdict != "not read")
        last_found = found.before
    return None


def _is_new(row: Dict[str, Any], history: List[Verdict], last: Optional[Last]) -> bool:
    """Of files that couldn't be read the results don't say since when."""
    verdict = verdict_of(row)
    if last is None or verdict == "not read":
        return False
    if verdict == "missing":
        return (row.get("missing") or 0) >= last.since
    if last.is_first or not history or history[-1].run != last.id:
        return False
    return len(history) == 1 or history[-2].verdict != history[-1].verdict


def is_rot(row: Dict[str, Any]) -> bool:
    """Whether the file was right before, and nobody has written to it since, as far as its size and
    time of change tell."""
    before = row.get("before")
    is_wrong = verdict_of(row) == "wrong"
    return is_wrong and before is not None and before.verdict == "ok" and before.is_same_file


def last_changes(results: Results, ranges: Ranges) -> Optional[List[Change]]:
    """What the last run changed: what was right and is wrong first, then those of most files. None
    where nothing was known before it, or the results have no history."""
    last = _last(results)
    if last is None:
        return None
    found: Dict[Any, List[int]] = {}
    for low, high in ranges:
        values = {"run": last.id, "since": last.since, "low": low, "high": high}
        for statement in (_MISSING,) if last.is_first else (_CHANGES, _MISSING):
            for before, now, files, same in results.select(statement, values):
                count = found.setdefault((before, now), [0, 0])
                count[0] += files
                count[1] += int(same)
    if last.is_first and not found:
        return None
    changes = [Change(*verdicts, *count) for verdicts, count in found.items()]
    return sorted(changes, key=lambda change: (change[:2] != ("ok", "wrong"), -change.files))
