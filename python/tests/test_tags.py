"""Tags: a mapping that doesn't tell upper from lower case."""
import io
import unittest

import claxon
from streams.frames import metadata_block
from tests import comments, head


def tags_of(*tags: str) -> claxon.Tags:
    block = metadata_block(4, comments("v", *tags), True)
    return claxon.Flac(io.BytesIO(head(block))).tags


class Mapping(unittest.TestCase):
    def setUp(self) -> None:
        self.tags = tags_of("Title=one", "ARTIST=a", "title=two", "artist=b", "TITLE=", "x y=z=")

    def test_first_values(self) -> None:
        for name in ("title", "TITLE", "tItLe"):
            self.assertEqual(self.tags[name], "one")
            self.assertEqual(self.tags.get(name), "one")
            self.assertIn(name, self.tags)
        self.assertEqual(self.tags["X Y"], "z=")

    def test_all_values(self) -> None:
        self.assertEqual(self.tags.get_all("title"), ["one", "two", ""])
        self.assertEqual(self.tags.get_all("Artist"), ["a", "b"])
        self.assertEqual(self.tags.get_all("ALBUM"), [])
        self.tags.get_all("title").clear()
        self.assertEqual(self.tags.get_all("title"), ["one", "two", ""])

    def test_missing(self) -> None:
        # Letters that aren't ASCII are no others' upper case: İ and ſ would be I and S.
        for name in ("ALBUM", "", "tıtle", "artiſt"):
            self.assertNotIn(name, self.tags)
            self.assertIsNone(self.tags.get(name))
            self.assertEqual(self.tags.get(name, "none"), "none")
            self.assertRaises(KeyError, self.tags.__getitem__, name)
        self.assertNotIn(None, self.tags)
        self.assertNotIn(5, self.tags)

    def test_as_a_mapping(self) -> None:
        """Names in upper case, in the order of the stream, and first values."""
        expected = {"TITLE": "one", "ARTIST": "a", "X Y": "z="}
        self.assertEqual(list(self.tags), list(expected))
        self.assertEqual(list(self.tags.items()), list(expected.items()))
        self.assertEqual(list(self.tags.values()), list(expected.values()))
        self.assertEqual(len(self.tags), 3)
        self.assertEqual(dict(self.tags), expected)
        self.assertEqual(self.tags, expected)
        self.assertNotEqual(self.tags, {"TITLE": "one"})
        self.assertEqual((bool(self.tags), bool(tags_of())), (True, False))
        text = "Tags({'TITLE': ['one', 'two', ''], 'ARTIST': ['a', 'b'], 'X Y': ['z=']})"
        self.assertEqual(repr(self.tags), text)

    def test_equality(self) -> None:
        """Of tags all values count."""
        self.assertEqual(tags_of("a=1", "A=2"), tags_of("A=1", "a=2"))
        self.assertNotEqual(tags_of("a=1", "a=2"), tags_of("a=1", "a=3"))
        self.assertNotEqual(tags_of("a=1"), [("A", "1")])
