"""The head of a stream, of which metadata blocks are read one after another."""
import ctypes
from typing import Callable, Dict, List, Optional, Tuple, TypeVar

from claxon import _calls
from claxon._calls import CUE_SHEET, ERROR_SIZE, METADATA_CONTENT, METADATA_HEADER, NEED_MORE
from claxon._calls import NO_MORE, OK, PICTURE, SEEK_TABLE, STREAMINFO, VORBIS_COMMENT, Info
from claxon._calls import Metadata, Tag, library
from claxon._errors import Error, FormatError, fault_of
from claxon._pictures import Picture, picture_of
from claxon._tables import CueSheet, SeekPoint, points_of, sheet_of
from claxon._tags import Tags
from claxon._types import StreamInfo
from claxon._window import Window

_STEP = 1 << 16  # bytes that are read at once

_Parsed = TypeVar("_Parsed")
_Blocks = List[Tuple[int, bytes]]  # where blocks begin, and their content


class Head:
    """What is known of a head, as far as it was read."""

    def __init__(self, window: Window, has_pictures: bool) -> None:
        self.info = Info()
        self.streaminfo: Optional[StreamInfo] = None
        self.vendor: Optional[str] = None
        self._window = window
        self._error = ctypes.create_string_buffer(ERROR_SIZE)
        self._comments = b""
        self._tags: Optional[Tags] = None
        kept = (SEEK_TABLE, CUE_SHEET, PICTURE) if has_pictures else (SEEK_TABLE, CUE_SHEET)
        self._kept: Dict[int, _Blocks] = {kind: [] for kind in kept}
        self._pictures: List[Picture] = []
        self._kept_now: Optional[bytearray] = None  # of the block at hand, if it is kept
        self._state, self._metadata = _calls.Head(), Metadata()
        library.claxon_head_start(self._state, window.position())
        self._is_over = False

    def is_over(self) -> bool:
        """Whether nothing of it is left to be read."""
        return self._is_over

    def give_up(self) -> None:
        """Reads no more of it."""
        self._is_over = True

    def go_on(self) -> bool:
        """Reads the head as far as its bytes are there. Returns whether it is complete."""
        window, state = self._window, self._state
        while not self._is_over:
            self._collect()
            window.skip_to(state.position, _STEP)
            status = self._next_part()
            if status == OK:
                self._take_part()
            elif status == NO_MORE:
                self._is_over = True
            elif status != NEED_MORE:
                raise self._fault(status, state.begin)
            elif not window.fill(self._missing()) and not window.has_ended:
                return False
        return True

    def tags(self) -> Tags:
        if self._tags is None:
            tags = self._read_tags()
            if not self._is_over:
                return tags
            self._tags, self._comments = tags, b""
        return self._tags

    def pictures(self) -> List[Picture]:
        """The pictures, if they are kept. FormatError where one is ill-formed."""
        if PICTURE not in self._kept:
            raise ValueError("pictures are kept only of a stream that is opened with pictures=True")
        blocks = self._kept[PICTURE]
        while blocks:
            self._pictures.append(_parsed(picture_of, *blocks[0]))
            del blocks[0]
        return list(self._pictures)

    def seek_table(self) -> List[SeekPoint]:
        blocks = self._kept[SEEK_TABLE]
        return _parsed(points_of, *blocks[0]) if blocks else []

    def cue_sheet(self) -> Optional[CueSheet]:
        blocks = self._kept[CUE_SHEET]
        return _parsed(sheet_of, *blocks[0]) if blocks else None

    # ---- reading

    def _next_part(self) -> int:
        window = self._window
        status: int = library.claxon_head_next(
            self._state,
            window.address + window.at.value,
            window.end - window.at.value,
            window.position(),
            window.has_ended,
            self.info,
            self._metadata,
            self._error,
            ERROR_SIZE,
        )
        return status

    def _missing(self) -> int:
        """How many bytes are to be read at once."""
        window = self._window
        end = int(self._state.position + self._state.needed)
        return min(_STEP, end - window.start - window.end)

    def _collect(self) -> None:
        """Takes what is held of the content of a block that is kept, but for its last byte, which
        shows that the content is whole.
        """
        window, kept = self._window, self._kept_now
        while kept is not None and window.position() < self._state.position:
            part = window.bytes_from(window.position(), self._state.position - window.position())
            kept += part
            window.pass_to(window.position() + len(part))
            if not part and not window.fill(_STEP):
                break

    def _take_part(self) -> None:
        """Keeps what is wanted of the part that was read."""
        metadata, window = self._metadata, self._window
        kind, is_content = metadata.type, self._state.part == METADATA_CONTENT
        blocks = self._kept.get(kind)
        if self._state.part == METADATA_HEADER:
            is_kept = blocks is not None and (kind == PICTURE or not blocks)
            self._kept_now = bytearray() if is_kept else None
            window.pass_to(metadata.content)
        elif is_content and blocks is not None and self._kept_now is not None:
            self._kept_now += window.bytes_from(window.position(), min(1, metadata.length))
            blocks.append((metadata.content - 4, bytes(self._kept_now)))
            self._kept_now = None
        elif is_content and kind == STREAMINFO:
            self.streaminfo = _streaminfo_of(self.info)
        elif is_content and kind == VORBIS_COMMENT:
            self._comments = window.bytes_from(metadata.content, metadata.length)
            self.vendor = self._read_vendor()

    def _read_vendor(self) -> str:
        content = self._comments
        at, length, tags = (ctypes.c_size_t() for _ in range(3))
        status = library.claxon_vendor(
            content, len(content), at, length, tags, self._error, ERROR_SIZE
        )
        if status != OK:
            raise self._fault(status, None)
        return content[at.value : at.value + length.value].decode("utf-8")

    def _read_tags(self) -> Tags:
        content, tags = self._comments, {}  # type: Tuple[bytes, Dict[str, List[str]]]
        at, tag = ctypes.c_size_t(), Tag()
        while content:
            status = library.claxon_next_tag(
                content, len(content), at, tag, self._error, ERROR_SIZE
            )
            if status == NO_MORE:
                break
            if status != OK:
                raise self._fault(status, None)
            name = content[tag.name_at : tag.name_at + tag.name_length].decode("ascii").upper()
            value = content[tag.value_at : tag.value_at + tag.value_length].decode("utf-8")
            tags.setdefault(name, []).append(value)
        return Tags(tags)

    def _fault(self, status: int, position: Optional[int]) -> Error:
        return fault_of(status, self._error.value.decode("utf-8"), position)


def _streaminfo_of(info: Info) -> StreamInfo:
    return StreamInfo(
        min_block_size=info.min_block_size,
        max_block_size=info.max_block_size,
        min_frame_size=info.min_frame_size or None,
        max_frame_size=info.max_frame_size or None,
        sample_rate=info.sample_rate,
        channels=info.channels,
        bits_per_sample=info.bits_per_sample,
        samples=info.samples or None,
        md5=bytes(info.md5) if any(info.md5) else None,
    )


def _parsed(parse: Callable[[bytes], _Parsed], position: int, content: bytes) -> _Parsed:
    """What the content of a block is. FormatError where it is ill-formed."""
    try:
        return parse(content)
    except ValueError as error:
        raise FormatError(str(error), position) from None
