"""Names of files, which are bytes, and other texts as text on one line."""
import re

_ESCAPES = {"\\": "\\\\", "\n": "\\n", "\r": "\\r", "\t": "\\t"}

# Control characters, what else ends a line, what changes the direction of the text after it, and
# bytes that aren't UTF-8.
_CONTROLS = "\x00-\x1f\x7f-\x9f\u061c\u200e\u200f\u2028-\u202e\u2066-\u2069\udc80-\udcff"
_CONTROL = re.compile(f"[{_CONTROLS}]")
_SPECIAL = re.compile(f"[\\\\{_CONTROLS}]")


def _escaped(found: "re.Match[str]") -> str:
    code = ord(found[0])
    if 0xDC80 <= code <= 0xDCFF:
        return f"\\x{code - 0xDC00:02x}"
    return _ESCAPES.get(found[0]) or f"\\u{{{code:x}}}"


def shown(name: bytes) -> str:
    """The name with the escapes of `claxon verify`, also for what changes the direction of text."""
    return _SPECIAL.sub(_escaped, name.decode("utf-8", "surrogateescape"))


def shown_text(text: str) -> str:
    """A text that may hold such characters. Its backslashes stay as they are."""
    return _CONTROL.sub(_escaped, text)


def shown_json(text: str) -> str:
    """Text of JSON, in whose strings such characters are escaped as JSON has it."""
    return _CONTROL.sub(lambda found: f"\\u{ord(found[0]):04x}", text)
