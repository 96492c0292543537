"""A page of HTML of what isn't right, which needs nothing beside itself."""
import html
import itertools
import time
from typing import Any, Dict, Iterator, List, NamedTuple, Optional, TextIO, Tuple

from .bars import LEGEND, bar
from .changes import Change, is_rot
from .kinds import Kind, kind_of, verdict_of
from .names import shown
from .page_parts import HEAD, SCRIPT
from .progress import size_text, time_text
from .report import before_text, damage_text
from .results import VERDICTS, Due, Run

# A browser shows no more files than that well.
_MOST = 10000

_CLASSES = dict(zip(VERDICTS, ("ok", "wrong", "unsupported", "unread", "missing")))

_CHANGED = (
    '<label><input id="changed" type="checkbox"> new or changed in the last run</label>\n'
)

Row = Dict[str, Any]


class Summary(NamedTuple):
    """What the page says of all files. The last run is None where none verified anything, and the
    changes are None where the results don't know what was before it."""

    counts: Dict[str, Due]
    last: Optional[Run]
    changes: Optional[List[Change]]


class Group(NamedTuple):
    """The files of a verdict and a kind."""

    verdict: str
    kind: Kind

    def css(self) -> str:
        return "beside" if self.kind.is_beside else _CLASSES[self.verdict]


class _Files:
    """What isn't right: how many files each group has, and the first of them."""

    def __init__(self, rows: Iterator[Row]) -> None:
        counts: Dict[Group, List[int]] = {}
        first: Dict[str, List[Tuple[Group, Row]]] = {}
        for row in rows:
            group = Group(verdict_of(row), kind_of(row))
            count = counts.setdefault(group, [0, 0, 0])
            count[0] += 1
            count[1] += row["size"] or 0
            count[2] += is_rot(row)
            listed = first.setdefault(group.css(), [])
            if len(listed) < _MOST:
                listed.append((group, row))
        self.number = sum(files for files, _, _ in counts.values())
        self.groups = sorted(counts, key=lambda group: (_order(group.css()), -counts[group][0]))
        self.counts = counts
        in_order = (first[css] for css in sorted(first, key=_order))
        self.listed = list(itertools.islice(itertools.chain.from_iterable(in_order), _MOST))
        self.has_new = any(row.get("is_new") for _, row in self.listed)

    def of(self, css: str) -> int:
        return sum(count[0] for group, count in self.counts.items() if group.css() == css)


def _order(css: str) -> int:
    return ["wrong", "beside", "unsupported", "unread", "missing"].index(css)


def write_page(page: TextIO, summary: Summary, rows: Iterator[Row]) -> None:
    files = _Files(rows)
    page.write(HEAD)
    page.write(f"<p>{_sentence(summary)}</p>\n")
    _write_verdicts(page, summary.counts)
    if summary.changes is not None:
        _write_changes(page, summary.changes)
    page.write("<h2>What isn't right</h2>\n")
    if files.number == 0:
        page.write("<p>All files are right.</p>\n")
    else:
        page.write(f"<p>{_sentence_of_files(files)}</p>\n")
        _write_groups(page, files)
        _write_filter(page, files)
        page.write(LEGEND)
        _write_files(page, files)
        page.write(SCRIPT)
    page.write("</body>\n</html>\n")


def files_text(number: int) -> str:
    return f"{number:,} file" + ("" if number == 1 else "s")


def _sentence(summary: Summary) -> str:
    files = sum(count.files for count in summary.counts.values())
    now = time.strftime("%Y-%m-%d %H:%M UTC", time.gmtime())
    text = f"{files_text(files)} on {now}."
    last = summary.last
    if last is not None:
        rate = last.size / last.seconds if last.seconds else 0
        duration = f"{last.seconds:.1f} s" if last.seconds < 60 else time_text(last.seconds)
        text += (
            f" The last run verified {files_text(last.files)}, {size_text(last.size)}"
            f" in {duration}: {size_text(rate)} a second."
        )
    return text


def _sentence_of_files(files: _Files) -> str:
    """How many files are damaged, and how many have something beside their streams."""
    said = [f"{files_text(files.of('wrong'))} damaged"]
    if files.of("beside"):
        said.append(f"{files.of('beside'):,} with tags or other bytes beside the stream")
    for css, words in (("unsupported", "not supported"), ("unread", "not read")):
        if files.of(css):
            said.append(f"{files.of(css):,} {words}")
    if files.of("missing"):
        said.append(f"{files.of('missing'):,} missing")
    text = ", ".join(said) + "."
    rot = sum(count[2] for count in files.counts.values())
    if rot:
        verb = "was" if rot == 1 else "were"
        text += f" {rot:,} {verb} right before, with the same size and time of change."
    return text


def _mark(css: str, word: str) -> str:
    return f'<span class="mark {css}">{html.escape(word)}</span>'


def _write_verdicts(page: TextIO, counts: Dict[str, Due]) -> None:
    page.write('<table>\n<tr><th>verdict<th class="number">files<th class="number">size\n')
    for verdict in VERDICTS:
        files, size = counts.get(verdict, (0, 0))
        css = _CLASSES[verdict] if files else "none"
        page.write(
            f'<tr><td>{_mark(css, verdict)}<td class="number">{files:,}'
            f'<td class="number">{size_text(size)}\n'
        )
    page.write("</table>\n")


def _write_changes(page: TextIO, changes: List[Change]) -> None:
    page.write("<h2>What the last run changed</h2>\n")
    if not changes:
        page.write("<p>It found no other verdict than before.</p>\n")
        return
    page.write(
        '<table>\n<tr><th>before<th>now<th class="number">files'
        '<th class="number">of the same size and time\n'
    )
    for change in changes:
        before = "new" if change.before is None else change.before
        has_same = change.before is not None and change.now != "missing"
        same = f"{change.same:,}" if has_same else ""
        page.write(
            f'<tr><td>{_mark(_CLASSES.get(before, "none"), before)}'
            f'<td>{_mark(_CLASSES.get(change.now, "none"), change.now)}'
            f'<td class="number">{change.files:,}<td class="number">{same}\n'
        )
    page.write("</table>\n")


def _write_groups(page: TextIO, files: _Files) -> None:
    page.write(
        '<table>\n<tr><th>verdict<th>what is wrong first<th class="number">files'
        '<th class="number">size\n'
    )
    for index, group in enumerate(files.groups):
        number, size, _ = files.counts[group]
        name = html.escape(group.kind.name)
        page.write(
            f"<tr><td>{_mark(group.css(), group.verdict)}"
            f'<td><a href="#files" data-of="{index}">{name}</a>'
            f'<td class="number">{number:,}<td class="number">{size_text(size)}\n'
        )
    page.write("</table>\n")


def _options(first: str, names: Iterator[Tuple[str, str]]) -> str:
    options = "".join(
        f'<option value="{value}">{html.escape(name)}</option>' for value, name in names
    )
    return f'<option value="">{first}</option>{options}'


def _write_filter(page: TextIO, files: _Files) -> None:
    verdicts = dict.fromkeys(group.verdict for group in files.groups)
    names = ((str(index), group.kind.name) for index, group in enumerate(files.groups))
    page.write(
        '<form id="filter" hidden>\n'
        '<label>Words <input id="words" type="search" placeholder="of path or damage"></label>\n'
        f'<label>Verdict <select id="verdict">'
        f'{_options("all", ((verdict, verdict) for verdict in verdicts))}</select></label>\n'
        f'<label>Kind <select id="kind">{_options("all", names)}</select></label>\n'
        f'{_CHANGED if files.has_new else ""}'
        '<output id="shown"></output>\n</form>\n'
    )


def _write_files(page: TextIO, files: _Files) -> None:
    indices = {group: index for index, group in enumerate(files.groups)}
    page.write('<ul class="files" id="files">\n')
    for group, row in files.listed:
        new = " data-new" if row.get("is_new") else ""
        page.write(
            f'<li data-verdict="{group.verdict}" data-kind="{indices[group]}"{new}>'
            f"<div>{_mark(group.css(), group.verdict)}{_what_is_beside(group.kind)}</div>\n"
            f'<div>{_path(row["path"])}<p>{html.escape(damage_text(row))}</p>'
            f"{_before(group, row)}{bar(row, group.kind)}</div></li>\n"
        )
    page.write("</ul>\n")
    if files.number > len(files.listed):
        page.write(
            f"<p>These are {len(files.listed):,} of {files_text(files.number)};"
            " <code>--report</code> has all.</p>\n"
        )


def _what_is_beside(kind: Kind) -> str:
    if not kind.is_beside:
        return ""
    return "<p>a tag</p>" if " tag " in kind.name else "<p>other bytes</p>"


def _path(path: bytes) -> str:
    folder, slash, name = shown(path).rpartition("/")
    folder, name = html.escape(folder + slash), html.escape(name)
    return f'<bdi class="path">{folder}<bdi>{name}</bdi></bdi>'


def _before(group: Group, row: Row) -> str:
    text = before_text(row.get("before"))
    if row.get("is_new") and group.verdict == "missing":
        text = "missing since the last run"
    elif row.get("is_new"):
        text = f"changed by the last run: {text}" if text else "new in the last run"
    return f'<p class="now">{html.escape(text)}</p>' if text else ""
