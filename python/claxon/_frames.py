"""The frames of a stream, decoded one after another."""
import ctypes
from array import array
from typing import Callable, Optional

from claxon import _calls
from claxon._calls import BUFFER_TOO_SMALL, ERROR_SIZE, NEED_MORE, NO_MORE, OK, OUT_OF_MEMORY
from claxon._calls import Info, library
from claxon._errors import Error, fault_of, frame_fault_of
from claxon._samples import converted
from claxon._types import Block
from claxon._window import FIRST_WINDOW, Window


class Frames:
    """Decodes the frames of a window."""

    def __init__(self, window: Window, info: Info) -> None:
        self.window = window
        self.info = info
        self.found = _calls.Block()  # of the frame that was decoded last
        self.samples: Optional["array[int]"] = None  # its samples, unless they were taken
        self.is_planar = True  # whether they stand channel after channel
        self.place = 0  # the position in the file of the frame that was tried last
        self._capacity = 1  # a pointer to no samples would be null
        self._address = 0  # of the samples
        self._lost_at: Optional[int] = None  # where `resync` began, as long as it finds no frame
        self._ahead: Optional[int] = None  # the length of the next frame, if it was decoded already
        self._error = ctypes.create_string_buffer(ERROR_SIZE)
        # What the library knows of the next frame, and of a search for one.
        self._next, self._search = _calls.Frames(), _calls.Search()
        library.claxon_frames_start(self._next, window.position())
        library.claxon_search_start(self._search, window.position())
        self._clock: Optional[_calls.Clock] = None  # once the streaminfo is known
        # What each call takes, as the pointers that it would be made into.
        self._pointers = [ctypes.byref(part) for part in (self._next, info, self.found)]

    def next(self, is_planar: bool = True) -> bool:
        """Decodes the next frame. False where none is there, or more bytes are needed. Raises what
        is wrong with it.
        """
        status = self.decode(is_planar=is_planar)
        if status in (NO_MORE, NEED_MORE):
            return False
        self._lost_at = None
        if status != OK:
            raise self.fault(status)
        return True

    def count(self) -> int:
        """The number of samples of the frame that was decoded, of all channels."""
        return int(self.found.channels * self.found.duration)

    def bits(self) -> int:
        """The bit depth of the frame that was decoded."""
        return int(self.found.bits_per_sample or self.info.bits_per_sample)

    def put_back(self) -> None:
        """Makes the frame that was decoded the next one again."""
        self._ahead = self.window.position() - self.place
        self.window.at.value -= self._ahead

    def forget(self) -> None:
        """Forgets what was decoded of the next frame, as the window was moved."""
        self._ahead = None

    def take(self, dtype: Optional[str]) -> Block:
        """The block that was decoded. The next one gets other memory, at first of the same size."""
        assert self.samples is not None
        found = self.found
        time, channels, duration = found.time, found.channels, found.duration
        rate, bits = found.sample_rate or None, found.bits_per_sample or None
        planar = memoryview(self.samples)[: channels * duration]
        self._capacity = len(planar)
        if dtype is not None:
            planar = converted(planar, self.bits(), dtype)
        self.samples = None
        samples = tuple(planar[at : at + duration] for at in range(0, len(planar), duration))
        return Block(time, channels, duration, samples, planar, rate, bits)

    def fault(self, status: int) -> Error:
        """What was reported of the next frame, as an exception."""
        window, position = self.window, self.window.position()
        text = self._error.value.decode("utf-8")
        if self.info.bits_per_sample != 32:
            return fault_of(status, text, position)
        return frame_fault_of(status, text, position, window.bytes_from(position, 4))

    # ---- decoding

    def decode(self, step: int = FIRST_WINDOW, is_planar: bool = True) -> int:
        """Decodes the next frame, for which it reads what it takes, at most so many bytes at once.
        Returns a status.
        """
        window, ahead, time = self.window, self._ahead, self.found.time
        self.place, self._ahead = window.position(), None
        if ahead is not None and self.is_planar == is_planar and self.samples is not None:
            window.at.value += ahead
            return OK
        self.is_planar = is_planar
        if self._next.position != self.place:
            library.claxon_frames_go_on(self._next, self.place)
        status = self._fitting(self._call)
        while status == NEED_MORE:
            if not window.fill(step) and not window.has_ended:
                return NEED_MORE
            status = self._fitting(self._call)
        if status == OK:
            window.pass_to(self._next.position)
            if ahead is None:
                self._note(self._next.last)
            else:
                self.found.time = time
        return status

    def _fitting(self, call: Callable[[], int]) -> int:
        """The status of a call that decodes a frame of the bytes that are held, with memory for its
        samples.
        """
        while True:
            if self.samples is None:
                self.samples = array("i", bytes(4 * self._capacity))
                self._address = self.samples.buffer_info()[0]
            status = call()
            if status != BUFFER_TOO_SMALL:
                return status
            self.samples = None
            self._capacity = self.count()

    def clock(self) -> _calls.Clock:
        """Where the blocks begin in time, by the frames that were decoded."""
        if self._clock is None:
            self._clock = _calls.Clock()
            library.claxon_clock_start(self._clock, self.info)
        return self._clock

    def _note(self, frame: _calls.Frame) -> None:
        """Notes the frame that was decoded, and corrects the time of its block, if the clock knows
        better.
        """
        time = ctypes.c_uint64(self.found.time)
        library.claxon_clock_show(self.clock(), self.info, frame, time)
        self.found.time = time.value

    def knows_time(self) -> bool:
        """Whether the clock tells where any block begins."""
        return not library.claxon_clock_needs_frames(self.clock())

    def seek(self, seeker: _calls.Seeker) -> int:
        """Seeks by the bytes that are held. The frame that is found is the next one. Returns a
        status.
        """
        window = self.window

        def call() -> int:
            status: int = library.claxon_seeker_next_planar(
                seeker,
                window.address + window.at.value,
                window.end - window.at.value,
                window.position(),
                window.has_ended,
                self.info,
                self._address,
                self._capacity,
                self.found,
            )
            return status

        status = self._fitting(call)
        if status == OK:
            found = seeker.found
            window.pass_to(found.position)
            self.is_planar, self._ahead = True, found.end - found.position
            self._next.last = found
            self._note(found)
        return status

    def _call(self) -> int:
        window, at = self.window, self.window.at.value
        frames, info, found = self._pointers
        decode = library.claxon_frames_next_planar if self.is_planar else library.claxon_frames_next
        status: int = decode(
            frames,
            window.address + at,
            window.end - at,
            self.place,
            window.has_ended,
            info,
            self._address,
            self._capacity,
            found,
            self._error,
            ERROR_SIZE,
        )
        return status

    # ---- after a fault

    def resync(self, was_tried: bool) -> Optional[int]:
        """Goes to the next frame, of which nothing is known but that it isn't the one here if that
        was tried. Returns the number of bytes that were skipped, or None where none is left, or
        more bytes are needed.
        """
        window = self.window
        if self._lost_at is None:
            self._lost_at = window.position()
            library.claxon_search_go_on(self._search, self._next, self._lost_at + was_tried)
        self._ahead = None
        position = ctypes.c_uint64()
        status = self._find(position)
        while status == NEED_MORE and (window.fill(FIRST_WINDOW) or window.has_ended):
            status = self._find(position)
        if status == OUT_OF_MEMORY:
            raise self.fault(status)
        if status != OK:
            return None
        window.pass_to(position.value)
        skipped, self._lost_at = position.value - self._lost_at, None
        return skipped

    def is_found(self) -> None:
        """Notes that the next frame was found by other means."""
        self._lost_at = None

    def _find(self, position: ctypes.c_uint64) -> int:
        """Searches the bytes that are held, and passes those that have no frame. Returns a
        status.
        """
        window = self.window
        status: int = library.claxon_search_next(
            self._search,
            window.address + window.at.value,
            window.end - window.at.value,
            window.position(),
            window.has_ended,
            self.info,
            position,
            self.found,
        )
        if status != OK:
            window.pass_to(self._search.position)
        return status
