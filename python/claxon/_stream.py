"""What streams of files and of bytes that are handed in share."""
from typing import Any, Iterator, List, Optional

from claxon._files import Source
from claxon._frames import Frames
from claxon._head import Head
from claxon._lock import Locked, alone
from claxon._pictures import Picture
from claxon._samples import name_of
from claxon._tables import CueSheet, SeekPoint
from claxon._tags import Tags
from claxon._types import Block
from claxon._window import Window


class Blocks(Iterator[Block]):
    """The blocks of a stream, from where it stands. It ends as a generator does: at the end, or
    with an exception.
    """

    def __init__(self, stream: "Stream", dtype: Optional[str], start: int = 0) -> None:
        self._stream = stream
        self.dtype = dtype
        self.start = start  # samples before this one aren't given
        self.is_over = False

    def __iter__(self) -> "Blocks":
        return self

    def __next__(self) -> Block:
        block = self._stream._take(self)
        if block is None:
            raise StopIteration
        return block


class Stream(Locked):
    """What `Flac` and `Feed` share: a head, and frames in a window."""

    def __init__(self, source: Optional[Source], pictures: bool) -> None:
        super().__init__()
        self._window = Window(source)
        self._head = Head(self._window, pictures)
        self._frames = Frames(self._window, self._head.info)
        self._time: Optional[int] = 0  # of the sample where the stream stands, if that is known
        self._is_within = False  # whether that is one of the next block, maybe not its first one

    @property
    def vendor(self) -> Optional[str]:
        """The encoder's name. None where there are no comments."""
        return self._head.vendor

    @property
    @alone
    def tags(self) -> Tags:
        """The tags: `tags["title"]` is the first value of a name, in upper or lower case."""
        return self._head.tags()

    @property
    @alone
    def pictures(self) -> List[Picture]:
        """The pictures in the head, if the stream was opened with `pictures=True`.

        Raises FormatError where one is ill-formed, which isn't a fault of the stream's samples.
        """
        return self._head.pictures()

    @property
    @alone
    def seek_table(self) -> List[SeekPoint]:
        """The points of the seek table, without placeholders; none where there is no table.

        Raises FormatError where it is ill-formed.
        """
        return self._head.seek_table()

    @property
    @alone
    def cue_sheet(self) -> Optional[CueSheet]:
        """The first cue sheet, or None. Raises FormatError where it is ill-formed."""
        return self._head.cue_sheet()

    def blocks(self, dtype: Any = None) -> Iterator[Block]:
        """The blocks after those that were read before.

        With a `dtype` the samples are of full scale, as soundfile has them: "int16" or "int32", of
        which the upper bits are the stream's, or as many of these as there is space for; "float32"
        or "float64", the stream's numbers divided by 2 to the power of their bit depth less 1, from
        -1 to 1. A type may be named as numpy does, such as "i2" or numpy.int16.

        Raises Error where no block can be decoded. Then `resync` goes on after the fault.
        """
        return Blocks(self, name_of(dtype))

    @alone
    def _take(self, blocks: Blocks) -> Optional[Block]:
        """The next block that these give, or None."""
        if blocks.is_over:
            return None
        blocks.is_over = True
        self._expect_open()
        if not self._has_frames() or not self._frames.next():
            return None
        block = self._frames.take(blocks.dtype)
        self._time, self._is_within = block.time + block.duration, False
        start, blocks.start, blocks.is_over = blocks.start, 0, False
        has_start = block.time < start < block.time + block.duration
        return block.since(start) if has_start else block

    @alone
    def resync(self) -> Optional[int]:
        """Goes to the next frame of the stream, for `blocks`, after a fault.

        It has the streaminfo's number of channels and bit depth, where that is known. Returns the
        number of bytes that were skipped, or None where no frame is left. The time is linear in it:
        where very many headers have led to no frame, as only in a stream that is made for it, some
        are passed without a try.
        """
        self._expect_open()
        was_tried = self._head.is_over()  # else no frame was tried yet
        self._head.give_up()
        self._time, self._is_within = None, False
        return self._frames.resync(was_tried)

    def _expect_open(self) -> None:
        """Raises ValueError where no block can be read any more."""

    def _has_frames(self) -> bool:
        """Whether the head was read. Raises what is wrong with it."""
        return True
