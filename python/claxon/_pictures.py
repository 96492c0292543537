"""The content of PICTURE blocks (RFC 9639, section 8.8)."""
import struct
from typing import NamedTuple, Tuple

_SIZES = struct.Struct(">4I")


class Picture(NamedTuple):
    """A picture that a stream has in its head."""

    type: int  # such as 3 for the front cover, 4 for the back cover
    mime: str  # such as "image/jpeg"; "-->" says that `data` is a URI
    description: str
    width: int  # in pixels; 0 where it isn't said, as for the next three
    height: int
    depth: int  # in bits per pixel
    colors: int  # that an indexed picture uses
    data: bytes


def _field(content: bytes, at: int) -> Tuple[bytes, int]:
    """The bytes after their length, and where they end."""
    start = at + 4
    end = start + int.from_bytes(content[at:start], "big")
    if end > len(content) or start > len(content):
        raise ValueError("picture block is too short")
    return content[start:end], end


def picture_of(content: bytes) -> Picture:
    """The picture of a whole block. Raises ValueError where it is ill-formed."""
    mime, at = _field(content, 4)
    if not all(0x20 <= byte <= 0x7E for byte in mime):
        raise ValueError("picture's media type isn't printable ASCII")
    text, at = _field(content, at)
    try:
        description = text.decode("utf-8")
    except UnicodeDecodeError:
        raise ValueError("picture's description isn't UTF-8") from None
    data, end = _field(content, at + _SIZES.size)
    if end < len(content):
        raise ValueError("picture block is too long")
    number = int.from_bytes(content[:4], "big")
    width, height, depth, colors = _SIZES.unpack_from(content, at)
    return Picture(number, mime.decode("ascii"), description, width, height, depth, colors, data)
