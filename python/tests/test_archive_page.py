"""The page of what isn't right."""
import html.parser
import io
import json
import os
import pathlib
import re
import shutil
import subprocess
import unittest
from subprocess import DEVNULL, PIPE
from typing import Any, Dict, List, NamedTuple, Optional, Tuple

from claxon.archive.changes import Before, Change
from claxon.archive.kinds import kind_of
from claxon.archive.page import Summary, write_page
from claxon.archive.results import Due, Run
from tests import FolderCase
from tests.archive_rows import DECEIVING, WRONG
from tests.archives import ROWS, TAG, Archive, expected

CHROMIUM = shutil.which("chromium") or shutil.which("chromium-browser")

ID3V1 = "128 bytes after the last frame: an ID3v1 tag"


class File(NamedTuple):
    """A file of the list: its attributes, its text, and whether its bar is that of a cut file."""

    attributes: Dict[str, Optional[str]]
    text: List[str]
    bars: List[bool]


class Page(html.parser.HTMLParser):
    """What stands in a page: its text, its files, the rectangles in their bars, the rows of its
    tables, and the elements that aren't ended."""

    OPTIONAL = {"meta", "br", "tr", "td", "th", "rect", "input"}

    def __init__(self, text: str) -> None:
        super().__init__()
        self.open: List[str] = []
        self.text: List[str] = []
        self.files: List[File] = []
        self.marks: List[Dict[str, Optional[str]]] = []
        self.rows: List[List[str]] = []
        self.feed(text)

    def handle_starttag(self, tag: str, attributes: List[Tuple[str, Optional[str]]]) -> None:
        if tag not in self.OPTIONAL:
            self.open.append(tag)
        if tag == "li":
            self.files.append(File(dict(attributes), [], []))
        elif tag == "svg" and self.files:
            self.files[-1].bars.append(dict(attributes).get("class") == "cut")
        elif tag == "tr":
            self.rows.append([])
        elif tag in ("td", "th"):
            self.rows[-1].append("")

    def handle_startendtag(self, tag: str, attributes: List[Tuple[str, Optional[str]]]) -> None:
        if tag == "rect" and self.files:
            self.marks.append(dict(attributes))

    def handle_endtag(self, tag: str) -> None:
        if self.open.pop() != tag:
            raise AssertionError(f"{tag} isn't open")

    def handle_data(self, data: str) -> None:
        self.text.append(data)
        if self.files and "li" in self.open:
            self.files[-1].text.append(data)
        elif self.rows and "table" in self.open:
            self.rows[-1][-1] += data.strip("\n")


def row_of(row: Any, **more: Any) -> Dict[str, Any]:
    """The row of a stream, as the results have it."""
    return {"path": b"/a.flac", "parts": None, **expected(row), **more}


def page_of(rows: List[Dict[str, Any]], changes: Optional[List[Change]] = None) -> Page:
    """The page of these rows, each beside the values of a wrong one."""
    made = [{"path": b"/a/%d.flac" % index, **WRONG, **row} for index, row in enumerate(rows)]
    output = io.StringIO()
    counts = {"ok": Due(1, 64), "wrong": Due(len(rows), 1000 * len(rows))}
    write_page(output, Summary(counts, Run(1, 1000.5, 3, 5000, 2.0), changes), iter(made))
    page = Page(output.getvalue())
    if page.open:
        raise AssertionError(f"{page.open} aren't ended")
    return page


class Kinds(unittest.TestCase):
    def test_streams(self) -> None:
        """The kind of each small stream that isn't right, by its name."""
        wanted = (
            (r"^a wrong head|^another marker$", "no head of a FLAC file"),
            (r"swapped|too early", "frames are out of order"),
            (r"^the last frame missing|^(33|48|[0-9]{11}) samples in", "cut off before the end"),
            (r"overwritten|missing|from 1 on|a gap", "frames are missing"),
            (r"^a second stream", "a second stream after the first"),
            (r"^two frames twice$", "another number of samples"),
            (r"twice", "frames are repeated"),
            (r"strategy|fixed|^a streaminfo|a frame of", "frames differ from the streaminfo"),
            (r"^a sample of|^wide samples|^right of", "frames differ from the streaminfo"),
            (r"^another MD5 sum$|, another sum$", "another MD5 sum"),
            (r"samples in the streaminfo$", "another number of samples"),
            (r"^no frame, but samples$|^cut ", "cut off before the end"),
            (r"^(an empty file|41 bytes)$", "cut off before the end"),
            (r"^an (ID3v1|APE) tag after$|^a tag, unknown", "only a tag after the last frame"),
            (r"flipped|^bytes between|^a byte is|damage", "frames can't be decoded"),
            (r"^a negative shift", "frames can't be decoded"),
            (r"after", "only other bytes after the last frame"),
        )
        for row in ROWS.values():
            with self.subTest(row.name):
                if row.verdict == "wrong":
                    name = next(name for pattern, name in wanted if re.search(pattern, row.name))
                    self.assertEqual(kind_of(row_of(row)).name, name)
                elif row.verdict == "not supported":
                    self.assertEqual(kind_of(row_of(row)).name, row.reason)

    def test_beside(self) -> None:
        """Tags, and what stands after streams that have their sums, are told from damage."""
        names = {row.name for row in ROWS.values() if row.verdict != "ok"}
        names = {name for name in names if kind_of(row_of(ROWS[name])).is_beside}
        tags = {"an ID3v1 tag after", "an APE tag after", "a tag, unknown length", TAG.name}
        self.assertTrue(tags <= names)
        others = {"2 zeros after", "3 zeros after", "4096 zeros after", "other bytes after"}
        self.assertTrue(others <= names)
        self.assertEqual(len(names), 13)

    def test_sums(self) -> None:
        """A tag after a stream that lacks samples, or has another sum, isn't all."""
        for md5, total, name in (
            ("ok", 32, "only a tag after the last frame"),
            ("none", None, "only a tag after the last frame"),
            ("wrong", None, "another MD5 sum"),
            ("wrong", 33, "other bytes in place of the last frames"),
            ("none", 33, "other bytes in place of the last frames"),
        ):
            row = {**WRONG, "samples": 32, "damage": ID3V1, "md5": md5, "total": total}
            self.assertEqual(kind_of(row).name, name)
            self.assertEqual(kind_of(row).is_beside, name.startswith("only"))

    def test_not_read(self) -> None:
        """By the reason, without what differs from file to file."""
        for damage, name in (
            ("Input/output error", "Input/output error"),
            ("claxon ended with status 1: no memory", "claxon ended with status 1"),
        ):
            self.assertEqual(kind_of({**WRONG, "verdict": "not read", "damage": damage}).name, name)


class Pages(unittest.TestCase):
    def test_one(self) -> None:
        page = page_of([{}])
        self.assertEqual(len(page.files), 1)
        (file,) = page.files
        text = "".join(file.text)
        self.assertIn("/a/0.flac", text)
        self.assertIn("1 place at byte 500 after 44100 samples: Ill-formed", text)
        self.assertIn("damaged from 50.0 % to 51.1 % of the file", text)
        self.assertEqual(file.attributes["data-verdict"], "wrong")
        self.assertIn("2 files on ", "".join(page.text))
        self.assertIn("3 files, 5.0 kB in 2.0 s: 2.5 kB a second", "".join(page.text))
        mark = {"class": "bad", "x": "500", "width": "11", "height": "1"}
        self.assertEqual((file.bars, page.marks), ([False], [mark]))

    def test_kinds(self) -> None:
        """How many files of each, damage before what is beside the stream."""
        tag = {"damage": ID3V1, "md5": "ok", "parts": "990-999"}
        page = page_of(
            [
                tag,
                {},
                {"verdict": "not read", "damage": "Permission denied", "size": None, "parts": None},
                tag,
                {"damage": "1 frame is missing"},
                {},
                tag,
            ]
        )
        self.assertEqual(
            [row for row in page.rows if row[0] != "verdict"][5:],
            [
                ["wrong", "frames can't be decoded", "2", "2.0 kB"],
                ["wrong", "frames are missing", "1", "1.0 kB"],
                ["wrong", "only a tag after the last frame", "3", "3.0 kB"],
                ["not read", "Permission denied", "1", "0 B"],
            ],
        )
        text = "".join(page.text)
        self.assertIn(
            "3 files damaged, 3 with tags or other bytes beside the stream, 1 not read.", text
        )
        kinds = [file.attributes["data-kind"] for file in page.files]
        self.assertEqual(kinds, ["0", "1", "0", "2", "2", "2", "3"])
        self.assertEqual([mark["class"] for mark in page.marks], ["bad"] * 3 + ["more"] * 3)
        self.assertIn("a tag", page.files[3].text)

    def test_times(self) -> None:
        (file,) = page_of([{"rate": 44100, "total": 44100 * 100}]).files
        self.assertIn(
            "88200 (0:02) of 4410000 samples (1:40), 1 place at byte 500 after 44100 samples"
            " (0:01): Ill-formed FLAC stream: frame CRC mismatch",
            file.text,
        )

    def test_cut(self) -> None:
        """The bar is as long as the file has to be."""
        cut = "truncated: the file ends inside a frame"
        refused = {"parts": None, "samples": None, "places": None}
        page = page_of(
            [
                {"damage": cut, "parts": "998-999 1000-1499"},
                {"damage": "the streaminfo says 200000 samples", "places": 0, "parts": "1000-3999"},
                {**refused, "damage": "truncated: the file ends inside the metadata"},
            ]
        )
        self.assertEqual([file.bars for file in page.files], [[True]] * 3)
        self.assertEqual(
            [(mark["class"], mark.get("x"), mark["width"]) for mark in page.marks],
            [("there", None, "1000"), ("bad", "996", "4"), ("there", None, "1000")],
        )
        for file, part in zip(page.files, (33, 75)):
            self.assertIn(f"the last {part} % are missing", "".join(file.text))
        self.assertIn("the file ends inside its metadata", page.files[2].text)

    def test_missing(self) -> None:
        """Whatever it was, there are no bytes of it."""
        (file,) = page_of([{"missing": 1}]).files
        self.assertEqual((file.attributes["data-verdict"], file.bars), ("missing", []))
        self.assertIn("there is no such file any more; it was wrong", file.text)

    def test_before(self) -> None:
        """What the last run changed, and files that changed by themselves."""
        rot = Before("ok", 86400 * 150, True)
        page = page_of(
            [
                {"before": rot, "is_new": True},
                {"before": Before("ok", 86400 * 150, False), "is_new": False},
                {"before": None, "is_new": True},
                {},
            ],
            [Change("ok", "wrong", 2, 1), Change(None, "wrong", 1, 0)],
        )
        text = "".join(page.text)
        self.assertIn("1 was right before, with the same size and time", text)
        same = "it was ok on 1970-05-31; its size and time of change are still the same"
        self.assertIn(f"changed by the last run: {same}", page.files[0].text)
        self.assertIn("it was ok on 1970-05-31", page.files[1].text)
        self.assertIn("new in the last run", page.files[2].text)
        self.assertEqual(
            ["data-new" in file.attributes for file in page.files], [True, False, True, False]
        )
        self.assertIn(["ok", "wrong", "2", "1"], page.rows)
        self.assertIn(["new", "wrong", "1", ""], page.rows)
        self.assertIn("It found no other verdict than before.", "".join(page_of([{}], []).text))
        self.assertNotIn("What the last run changed", "".join(page_of([{}]).text))

    def test_most(self) -> None:
        """Those that are damaged come first, and all are counted."""
        tag = {"damage": ID3V1, "md5": "ok", "parts": None}
        page = page_of([tag] * 9990 + [{}] * 15)
        self.assertEqual(len(page.files), 10000)
        self.assertEqual([len(file.bars) for file in page.files], [1] * 15 + [0] * 9985)
        self.assertIn("15 files damaged, 9,990 with tags", "".join(page.text))
        self.assertIn("These are 10,000 of 10,005 files; ", "".join(page.text))

    def test_names(self) -> None:
        name = f'/a/<b>&"{DECEIVING}\n.flac'
        page = page_of([{"path": name.encode(), "damage": "<i>"}])
        self.assertNotIn("b", page.open)
        self.assertIn('<b>&"\\u{0}', "".join(page.files[0].text))
        self.assertIn("<i>", "".join(page.files[0].text))
        self.assertEqual(set("".join(page.text)) & set(DECEIVING), set())


class Real(Archive):
    """A page of files that were verified."""

    def test_page(self) -> None:
        right = self.write("1.flac", ROWS["right"])
        self.write(b'2 \xff\n<b>,".flac', ROWS["ten flipped bits"])
        self.write("3.flac", TAG)
        self.write("4.flac", ROWS["cut at byte 58"])
        self.write("5.flac", ROWS["cut between frames"])
        self.assertEqual(self.run_files().status, 1)
        page = self.folder / "page.html"
        self.assertEqual(self.run_archive("--html", str(page)).status, 1)
        text = page.read_text()
        for reference in ("http:", "https:", "src=", "url(", "import "):
            self.assertNotIn(reference, text)
        found = Page(text)
        self.assertEqual(found.open, [])
        self.assertEqual([file.bars for file in found.files], [[False], [True], [True], []])
        self.assertIn("the last 50 % are missing", "".join(found.files[2].text))
        self.assertIn(
            "16 (0:00) of 32 samples (0:00), 1 place at byte 53 after 16 samples (0:00): ",
            "".join(found.files[2].text),
        )
        marks = [mark for mark in found.marks if mark["class"] == "bad"]
        self.assertEqual(len(marks), 11)
        first = 53 * 1000 // len(ROWS["ten flipped bits"].data)
        self.assertEqual(marks[0]["x"], str(first))
        self.assertIn('/2 \\xff\\n<b>,".flac', "".join(found.text))
        self.assertIn("5 files on ", "".join(found.text))
        self.assertNotIn(os.fsdecode(right), text)

    def test_rot(self) -> None:
        """A bit flips below the same size and time of change, a file vanishes, and one is new."""
        rotten = self.write("1.flac", ROWS["right"])
        gone = self.write("2.flac", ROWS["right"])
        self.assertEqual(self.run_files().status, 0)
        changed = os.stat(rotten).st_mtime_ns
        with open(rotten, "r+b") as file:
            file.seek(60)
            file.write(bytes([ROWS["right"].data[60] ^ 1]))
        os.utime(rotten, ns=(changed, changed))
        os.unlink(gone)
        self.write("3.flac", ROWS["cut at byte 58"])
        page = self.folder / "page.html"
        self.assertEqual(self.run_files("--html", str(page)).status, 1)
        files = {file.attributes["data-verdict"]: file for file in Page(page.read_text()).files}
        self.assertIn("missing since the last run", files["missing"].text)
        text = page.read_text()
        self.assertIn("its size and time of change are still the same", text)
        self.assertEqual(text.count("changed by the last run: it was ok on "), 1)
        self.assertEqual(text.count("new in the last run"), 1)
        rows = Page(text).rows
        self.assertIn(["ok", "wrong", "1", "1"], rows)
        self.assertIn(["new", "wrong", "1", ""], rows)
        self.assertIn(["ok", "missing", "1", ""], rows)


FILTERED: List[Dict[str, Any]] = [
    {"path": b"/live/a.flac"},
    {"path": b"/live/b.flac", "damage": ID3V1, "md5": "ok"},
    {"path": b"/studio/c.flac", "is_new": True},
    {"path": b"/studio/d.flac", "verdict": "not read", "damage": "Permission denied"},
]


@unittest.skipIf(CHROMIUM is None, "chromium isn't installed (Debian's chromium)")
class InBrowser(FolderCase):
    """The filter, in Chromium, of a page that is opened from disk."""

    def shown(self, script: str, rows: List[Dict[str, Any]] = FILTERED) -> Dict[str, Any]:
        """What the page shows after this script: which files, and what is said of their number."""
        output = io.StringIO()
        summary = Summary({"wrong": Due(len(rows), 1)}, Run(1, 1000.5, 3, 5000, 2.0), None)
        write_page(output, summary, iter([{**WRONG, **row} for row in rows]))
        told = (
            "const told = document.createElement('pre'); told.id = 'told'; told.textContent ="
            " JSON.stringify({shown: document.getElementById('shown').textContent, files:"
            " [...document.querySelectorAll('.files > li')].filter((file) => file.offsetHeight)"
            ".map((file) => file.querySelector('bdi bdi').textContent)});"
            " document.body.append(told);"
        )
        page = self.folder / "page.html"
        page.write_text(output.getvalue() + f"<script>{script}\n{told}</script>")
        dom = self.run_chromium(page)
        return dict(json.loads(html.unescape(dom.split('<pre id="told">')[1].split("</pre>")[0])))

    def run_chromium(self, page: pathlib.Path) -> str:
        profile = f"--user-data-dir={self.folder}/profile"
        command = [str(CHROMIUM), "--headless", "--no-sandbox", "--disable-gpu", "--dump-dom"]
        command += [profile, f"file://{page}"]
        ended = subprocess.run(command, stdin=DEVNULL, stdout=PIPE, stderr=PIPE, timeout=300)
        return ended.stdout.decode()

    def test_filter(self) -> None:
        change = "document.getElementById('filter').dispatchEvent(new Event('input'));"
        for script, files in (
            ("", ["a.flac", "c.flac", "b.flac", "d.flac"]),
            (f"document.getElementById('words').value = 'LIVE mismatch'; {change}", ["a.flac"]),
            (f"document.getElementById('verdict').value = 'not read'; {change}", ["d.flac"]),
            (f"document.getElementById('kind').value = '1'; {change}", ["b.flac"]),
            (f"document.getElementById('changed').checked = true; {change}", ["c.flac"]),
            ("document.querySelector('[data-of=\"0\"]').click();", ["a.flac", "c.flac"]),
        ):
            with self.subTest(script):
                shown = self.shown(script)
                self.assertEqual(shown, {"shown": f"{len(files)} of 4 files", "files": files})

    def test_numbers(self) -> None:
        change = "document.getElementById('filter').dispatchEvent(new Event('input'));"
        script = f"document.getElementById('words').value = '7.flac'; {change}"
        for number in (1, 10000):
            names = [f"{index:05}.flac" for index in range(number)]
            rows: List[Dict[str, Any]] = [{"path": f"/{name}".encode()} for name in names]
            shown = f"{number:,} of {number:,} files"
            self.assertEqual(self.shown("", rows), {"shown": shown, "files": names})
            left = [name for name in names if "7.flac" in name]
            shown = f"{len(left):,} of {number:,} files"
            self.assertEqual(self.shown(script, rows), {"shown": shown, "files": left})


if __name__ == "__main__":
    unittest.main()
