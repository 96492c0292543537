"""Seeking to a sample."""
from claxon import _calls
from claxon._calls import NEED_MORE, OK, OUT_OF_MEMORY, library
from claxon._frames import Frames

_STEP = 1 << 14  # bytes that are read at once: most frames have fewer


class Seeker:
    """Goes to frames of a stream whose head was read."""

    def __init__(self, frames: Frames) -> None:
        self._frames = frames
        self._window = frames.window
        self._next = _calls.Seeker()  # what the library knows of a seek

    def seek(self, sample: int) -> bool:
        """Goes to a frame whose block has this sample. False where none has it: then, and after an
        exception, the stream goes on where it stood.
        """
        frames, window, position = self._frames, self._window, self._window.position()
        length = window.length()
        frames.forget()
        is_found = False
        try:
            self._note_first_frames()
            library.claxon_seeker_start(self._next, frames.info, length, sample, frames.clock())
            is_found = self._finds()
        finally:
            if not is_found:
                window.go_to(position)
                frames.forget()
        if is_found:
            frames.is_found()
        return is_found

    def _note_first_frames(self) -> None:
        """Decodes the first two frames, where the clock needs them."""
        for number in range(2):
            if self._frames.knows_time():
                break
            if number == 0:
                self._window.go_to(self._frames.info.first_frame)
            if self._frames.decode() != OK:
                break

    def _finds(self) -> bool:
        """Goes to the frame, and reads what that takes."""
        seeker, window = self._next, self._window
        while True:
            status = self._frames.seek(seeker)
            if status == OUT_OF_MEMORY:
                raise self._frames.fault(status)
            if status != NEED_MORE:
                return status == OK
            window.go_to(seeker.position)
            if window.held() < seeker.needed:
                window.fill(max(_STEP, seeker.needed - window.held()))
