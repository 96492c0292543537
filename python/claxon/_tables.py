"""The content of SEEKTABLE and CUESHEET blocks (RFC 9639, sections 8.5 and 8.7)."""
import struct
from typing import List, NamedTuple, Tuple

_POINT = struct.Struct(">QQH")
_PLACEHOLDER = (1 << 64) - 1
_SHEET = struct.Struct(">128sQB258xB")
_TRACK = struct.Struct(">QB12sB13xB")
_INDEX = struct.Struct(">QB3x")


class SeekPoint(NamedTuple):
    """A frame that a seek table names. It may be wrong: `Flac.seek` looks at no table."""

    sample: int  # the first of the frame
    offset: int  # in bytes, from the first frame of the stream
    samples: int  # of each channel, in the frame


class CueIndex(NamedTuple):
    """A place within a track."""

    number: int  # 0 for the pause before a track, 1 for its beginning
    offset: int  # in samples, from the offset of the track


class CueTrack(NamedTuple):
    """A track of a cue sheet."""

    number: int  # 170 or 255 for the one after the last, where it ends
    offset: int  # in samples, from the beginning of the stream
    isrc: str  # "" where it isn't said
    is_audio: bool
    has_pre_emphasis: bool
    indexes: Tuple[CueIndex, ...]


class CueSheet(NamedTuple):
    """The tracks of a stream."""

    catalog: str  # the number of the medium; "" where it isn't said
    lead_in: int  # samples before the first track, of a CD
    is_cd: bool
    tracks: Tuple[CueTrack, ...]


def points_of(content: bytes) -> List[SeekPoint]:
    """The points of a seek table, without placeholders. ValueError where it is ill-formed."""
    if len(content) % _POINT.size:
        raise ValueError("seek table isn't of whole points")
    points = (SeekPoint(*fields) for fields in _POINT.iter_unpack(content))
    return [point for point in points if point.sample != _PLACEHOLDER]


def sheet_of(content: bytes) -> CueSheet:
    """The cue sheet of a whole block. ValueError where it is ill-formed."""
    try:
        catalog, lead_in, flags, count = _SHEET.unpack_from(content)
        at, tracks = _SHEET.size, []
        for _ in range(count):
            track, at = _track_at(content, at)
            tracks.append(track)
    except struct.error:
        raise ValueError("cue sheet is too short") from None
    if at < len(content):
        raise ValueError("cue sheet is too long")
    return CueSheet(_text(catalog), lead_in, bool(flags & 0x80), tuple(tracks))


def _track_at(content: bytes, at: int) -> Tuple[CueTrack, int]:
    """The track at a place, and where it ends."""
    offset, number, isrc, flags, count = _TRACK.unpack_from(content, at)
    at += _TRACK.size
    indexes = []
    for place in range(at, at + count * _INDEX.size, _INDEX.size):
        index_offset, index_number = _INDEX.unpack_from(content, place)
        indexes.append(CueIndex(index_number, index_offset))
    track = CueTrack(
        number, offset, _text(isrc), not flags & 0x80, bool(flags & 0x40), tuple(indexes)
    )
    return track, at + count * _INDEX.size


def _text(field: bytes) -> str:
    """Printable ASCII, with zeros after it."""
    text = field.rstrip(b"\0")
    if not all(0x20 <= byte <= 0x7E for byte in text):
        raise ValueError("cue sheet's number isn't printable ASCII")
    return text.decode("ascii")
