"""What reports say of files, what these were before, and how names are shown."""
import contextlib
import csv
import io
import json
import os
import sqlite3
import time
import unittest
from typing import Any, Dict, List, Optional

from claxon.archive.changes import Change, last_changes
from claxon.archive.names import shown, shown_json, shown_text
from claxon.archive.report import damage_text, date_text, play_time, samples_text
from claxon.archive.results import ALL, Ranges, Results, ranges_of
from tests.archive_rows import DECEIVING, WRONG, Made
from tests.archives import RIGHT, ROWS, TAG, Archive, Ended


class Reports(Archive):
    def setUp(self) -> None:
        super().setUp()
        self.right = self.write("1.flac", RIGHT)
        self.wrong = self.write(b'2 \xff\n<b>,".flac', ROWS["ten flipped bits"])
        self.tag = self.write("3.flac", TAG)
        self.sum = self.write("4.flac", ROWS["another MD5 sum"])
        self.gone = self.write("5.flac", RIGHT)
        self.run_files()
        os.unlink(self.gone)
        self.assertEqual(self.run_files().status, 1)

    def test_table(self) -> None:
        table = (
            "verdict               files      size\n"
            "ok                        1      64 B\n"
            "wrong                     2     337 B\n"
            "not supported             1      74 B\n"
            "not read                  0       0 B\n"
            "missing                   1      64 B\n"
        )
        self.assertEqual(self.run_files(), Ended(1, table.encode(), ""))
        self.assertEqual(self.run_files("--report", "text").errors, table)

    def test_text(self) -> None:
        folder = str(self.files)
        sums = "the MD5 sum of the samples isn't that of the streaminfo"
        self.assertEqual(
            self.run_archive("--report", "text").output.decode().splitlines(),
            [
                f'{folder}/2 \\xff\\n<b>,".flac: wrong, 176 (0:00) of 336 samples (0:00), 10'
                " places, the first at byte 53 after 16 samples (0:00): Ill-formed FLAC stream:"
                " frame CRC mismatch",
                f"{folder}/3.flac: not supported, an ID3v2 tag in front of the stream",
                f"{folder}/4.flac: wrong, 32 samples (0:00): {sums}",
                f"{folder}/5.flac: missing, there is no such file any more; it was ok",
            ],
        )

    def test_csv(self) -> None:
        output = self.run_archive("--report", "csv").output.decode()
        rows = list(csv.DictReader(io.StringIO(output, newline="")))
        self.assertEqual(bytes.fromhex(rows[0]["path_hex"]), self.wrong)
        self.assertTrue(rows[0]["path"].endswith('/2 \\xff\\n<b>,".flac'), rows[0]["path"])
        self.assertEqual(
            [os.fsencode(row["path"]) for row in rows[1:]], [self.tag, self.sum, self.gone]
        )
        self.assertEqual({row["path_hex"] for row in rows[1:]}, {""})
        self.assertEqual(
            [row["verdict"] for row in rows], ["wrong", "not supported", "wrong", "ok"]
        )
        self.assertEqual([bool(row["missing"]) for row in rows], [False, False, False, True])
        self.assertEqual([row["byte"] for row in rows], ["53", "", "", ""])
        self.assertEqual(rows[0]["samples"], "176")

    def test_json(self) -> None:
        rows = json.loads(self.run_archive("--report", "json").output)
        self.assertEqual(
            [row["verdict"] for row in rows], ["wrong", "not supported", "wrong", "ok"]
        )
        self.assertEqual([bool(row["missing"]) for row in rows], [False, False, False, True])
        self.assertEqual(bytes.fromhex(rows[0]["path_hex"]), self.wrong)
        self.assertEqual(
            [row["path"] for row in rows[1:]],
            [os.fsdecode(path) for path in (self.tag, self.sum, self.gone)],
        )
        self.assertEqual((rows[0]["byte"], rows[0]["sample"], rows[0]["places"]), (53, 16, 10))
        self.assertEqual(rows[2]["md5"], "wrong")
        changed = time.gmtime(os.stat(self.tag).st_mtime)
        self.assertEqual(rows[1]["changed"], time.strftime("%Y-%m-%dT%H:%M:%SZ", changed))

    def test_nothing_wrong(self) -> None:
        self.results.unlink()
        one = os.fsdecode(self.right)
        self.assertEqual(self.run_archive(one, "--report", "json").output, b"[\n]\n")
        self.assertEqual(self.run_archive("--report", "text").output, b"")
        self.assertEqual(self.run_archive("--report", "csv").output.count(b"\n"), 1)
        page = self.folder / "page.html"
        self.assertEqual(self.run_archive("--html", str(page)).status, 0)
        self.assertIn("All files are right.", page.read_text())


class History(Made):
    """What files were before, after four runs. The first found /a/right.flac alone."""

    MAY, CHANGED = 1746100000, WRONG["changed"]

    def setUp(self) -> None:
        super().setUp()
        self.put(
            self.found("rotten", "ok"),
            self.found("touched", "ok", changed=self.CHANGED - 1),
            self.found("old", "ok"),
            self.found("mended", "wrong"),
            self.found("gone", "ok"),
        )
        self.put(self.found("rotten", "ok", days=30), self.found("old", "wrong", days=30))
        self.put(
            self.found("rotten", "wrong", days=200),
            self.found("touched", "wrong", days=200),
            self.found("old", "wrong", days=200),
            self.found("mended", "ok", days=200),
            self.found("new", "wrong", days=200),
            {**self.found("new", "ok", days=200), "path": b"/b/new.flac"},
        )
        self.change("UPDATE files SET missing = 4000000000 WHERE path_text = '/a/gone.flac'")
        self.change("UPDATE files SET unread = 'Input/output error' WHERE path_text LIKE '/b/%'")

    def found(self, name: str, verdict: str, days: int = 0, **more: Any) -> Dict[str, Any]:
        path = f"/a/{name}.flac".encode()
        return {"path": path, "verdict": verdict, "verified": self.MAY + 86400 * days, **more}

    def change(self, statement: str) -> None:
        database = sqlite3.connect(self.results)
        with contextlib.closing(database), database:
            database.execute(statement)

    def test_text(self) -> None:
        lines = {line.split(":")[0]: line for line in self.text().splitlines()}
        same = "; its size and time of change are still the same)"
        self.assertTrue(lines["/a/rotten.flac"].endswith(f" (it was ok on 2025-05-31{same}"))
        self.assertTrue(lines["/a/touched.flac"].endswith(" (it was ok on 2025-05-01)"))
        self.assertTrue(lines["/a/new.flac"].endswith("mismatch"))
        self.assertTrue(lines["/a/old.flac"].endswith(f" (it was ok on 2025-05-01{same}"))
        unread = "/b/new.flac: not read, Input/output error (it was ok on 2025-11-17)"
        self.assertEqual(lines["/b/new.flac"], unread)
        gone = "/a/gone.flac: missing, there is no such file any more; it was ok"
        self.assertEqual(lines["/a/gone.flac"], gone)

    def test_members(self) -> None:
        rows = json.loads(self.run_archive("--report", "json").output)
        found = {row["path"]: row for row in rows}
        rotten = found["/a/rotten.flac"]
        self.assertEqual((rotten["before"], rotten["is_same_file"]), ("ok", True))
        self.assertEqual(rotten["before_time"], "2025-05-31T11:46:40Z")
        self.assertFalse(found["/a/touched.flac"]["is_same_file"])
        self.assertNotIn("before", found["/a/new.flac"])
        rows = list(csv.DictReader(self.run_archive("--report", "csv").output.decode().split("\n")))
        self.assertEqual(
            [(row["path"], row["before"]) for row in rows],
            [
                ("/a/gone.flac", ""),
                ("/a/new.flac", ""),
                ("/a/old.flac", "ok"),
                ("/a/rotten.flac", "ok"),
                ("/a/touched.flac", "ok"),
                ("/b/new.flac", "ok"),
            ],
        )

    def changes(self, ranges: Ranges = ALL) -> Optional[List[Change]]:
        with contextlib.closing(Results(str(self.results), is_new=False, is_read=True)) as results:
            return last_changes(results, ranges)

    def test_changes(self) -> None:
        changes = self.changes()
        self.assertEqual(changes and changes[0], Change("ok", "wrong", 2, 1))
        self.assertEqual(
            set(changes or ()),
            {
                Change("ok", "wrong", 2, 1),
                Change("wrong", "ok", 1, 1),
                Change(None, "wrong", 1, 0),
                Change(None, "ok", 1, 0),
                Change("ok", "missing", 1, 0),
            },
        )
        self.assertEqual(self.changes(ranges_of([b"/b"])), [Change(None, "ok", 1, 0)])
        self.put()
        self.assertEqual(self.changes(), [Change("ok", "missing", 1, 0)])
        self.change("UPDATE files SET missing = 1")
        self.assertEqual(self.changes(), [])

    def test_page(self) -> None:
        page = self.run_archive("--html", "-").output.decode()
        self.assertIn("What the last run changed", page)
        self.assertEqual(page.count("changed by the last run: it was ok"), 2)
        self.assertEqual(page.count("new in the last run"), 1)
        self.assertEqual(page.count("missing since the last run"), 1)
        self.assertEqual(page.count(" data-new"), 4)
        self.assertIn("2 were right before, with the same size and time", page)

    def test_first_run(self) -> None:
        """All files are new then."""
        self.results.unlink()
        self.put(self.found("new", "wrong"))
        self.assertIsNone(self.changes())
        page = self.run_archive("--html", "-").output.decode()
        self.assertNotIn("the last run</", page)
        self.assertNotIn("What the last run changed", page)

    def test_version_1(self) -> None:
        """Results without a history."""
        self.change("DROP TABLE history")
        self.assertNotIn("(it was", self.text())
        self.assertNotIn("What the last run", self.run_archive("--html", "-").output.decode())


class Names(Made):
    def test_escapes(self) -> None:
        name = "a\\b\nc\u202ed\x1be\x9b".encode()
        self.assertEqual(shown(name), r"a\\b\nc\u{202e}d\u{1b}e\u{9b}")
        self.assertEqual(shown(b"\xff\xe2\x80"), r"\xff\xe2\x80")
        self.assertEqual(shown("\u0627\u05d0é".encode()), "\u0627\u05d0é")
        self.assertEqual(shown_text("a\\b\n\u2066"), r"a\b\n\u{2066}")
        self.assertEqual(json.loads(shown_json(json.dumps(DECEIVING))), DECEIVING)

    def test_everywhere(self) -> None:
        """A name that hides a part of itself, in each report; it can be found again by two."""
        path = f"/a/{DECEIVING[1:]}\n\r\t<b>&\".flac".encode()
        damage = f"claxon ended with status 1: {DECEIVING}"
        self.put({"path": path}, {"path": path + b"\xff", "damage": damage})
        page = self.folder / "page.html"
        outputs = [self.run_archive("--report", form).output for form in ("text", "csv", "json")]
        self.run_archive("--html", str(page))
        for output in (*outputs, page.read_bytes()):
            found = set(output.decode()) & set(DECEIVING + "\r\t")
            self.assertEqual(found, set())
        self.assertNotIn("<b>&", page.read_text())
        rows = list(csv.DictReader(io.StringIO(outputs[1].decode())))
        self.assertEqual([bytes.fromhex(row["path_hex"]) for row in rows], [path, path + b"\xff"])
        self.assertEqual(outputs[1].count(b"\n"), 3)
        objects = json.loads(outputs[2])
        self.assertEqual(objects[0]["path"], path.decode())
        self.assertNotIn("path_hex", objects[0])
        self.assertEqual(bytes.fromhex(objects[1]["path_hex"]), path + b"\xff")
        self.assertEqual(outputs[0].count(b"\n"), 2)

    def test_name_of_a_report(self) -> None:
        name = f"{self.folder}/\u202ea\x1b/page.html"
        ended = self.run_archive("--html", name)
        self.assertIn(r"/\u{202e}a\u{1b}/page.html: ", ended.errors)


class Times(unittest.TestCase):
    def test_date(self) -> None:
        self.assertEqual(date_text(0), "1970-01-01T00:00:00Z")
        self.assertEqual(date_text(-1), "1969-12-31T23:59:59Z")
        self.assertEqual(date_text(2.0**62), "@4611686018427387904")

    def test_play_time(self) -> None:
        for samples, rate, text in (
            (0, 44100, "0:00"),
            (44099, 44100, "0:00"),
            (44100, 44100, "0:01"),
            (44100 * 61, 44100, "1:01"),
            (48000 * 3599, 48000, "59:59"),
            (48000 * 3600, 48000, "1:00:00"),
            (96000 * 36061, 96000, "10:01:01"),
        ):
            self.assertEqual(play_time(samples, rate), text)

    def test_samples(self) -> None:
        self.assertEqual(samples_text(1, 8000), "1 sample (0:00)")
        self.assertEqual(samples_text(88200, 44100), "88200 samples (0:02)")
        self.assertEqual(samples_text(88200, None), "88200 samples")

    def test_damage(self) -> None:
        """Of what the results have of the file."""
        where = "1 place at byte 500 after 44100 samples"
        self.assertEqual(damage_text(WRONG), f"88200 samples, {where}: {WRONG['damage']}")
        row: Dict[str, Any] = {**WRONG, "rate": 44100, "total": 441000, "places": 3}
        self.assertEqual(
            damage_text(row),
            "88200 (0:02) of 441000 samples (0:10), 3 places, the first at byte 500 after 44100"
            f" samples (0:01): {WRONG['damage']}",
        )
        row = {**row, "total": 88200, "places": None}
        self.assertEqual(damage_text(row), f"88200 samples (0:02): {WRONG['damage']}")
        row = {**row, "verdict": "not read", "damage": "Permission denied"}
        self.assertEqual(damage_text(row), "Permission denied")


if __name__ == "__main__":
    unittest.main()
