"""What is raised, and warned of."""
from typing import Dict, Optional, Type

from claxon._calls import FORMAT_ERROR, INPUT_ENDS, OUT_OF_MEMORY, UNSUPPORTED


class Error(Exception):
    """A stream can't be decoded. The text is the library's.

    `position` is the number of bytes before the frame or metadata block that has the fault, from
    where reading began; None where it isn't known.
    """

    def __init__(self, text: str, position: Optional[int] = None) -> None:
        super().__init__(text)
        self.position = position


class FormatError(Error):
    """The stream is ill-formed."""


class Unsupported(Error):
    """The stream has something that isn't supported."""


class InputEnds(Error):
    """The stream is cut: its bytes end within the head or a frame."""


class OutOfMemory(Error):
    """The library got no memory."""


class NoSuchSample(Error):
    """No block has the sample that was sought."""


class ReadFailed(OSError):
    """The file could not be read, or not be moved to a place.

    It has the number and the text of the exception that the file raised, which is its `__cause__`.
    The stream goes on where it stood.
    """


class TrailingDataWarning(UserWarning):
    """After its last sample a stream goes on with what is no frame, such as a tag."""


class MissingSamplesWarning(UserWarning):
    """Samples are missing, and silence stands in their place, or others are repeated."""


CLASSES: Dict[int, Type[Error]] = {
    FORMAT_ERROR: FormatError,
    UNSUPPORTED: Unsupported,
    INPUT_ENDS: InputEnds,
    OUT_OF_MEMORY: OutOfMemory,
}

# Faults by which the library refuses what the format allows, as the programs say it.
_ALLOWED = frozenset(
    ("stream starts with ID3 header rather than FLAC header", "invalid sample rate")
)
_RESERVED = "invalid frame header, encountered reserved value"
_32_BITS = "32-bit samples are not supported"


def fault_of(status: int, text: str, position: Optional[int]) -> Error:
    """A status of the library as an exception."""
    if status == FORMAT_ERROR and text in _ALLOWED:
        return Unsupported(text, position)
    return CLASSES.get(status, Error)(text, position)


def frame_fault_of(status: int, text: str, position: int, header: bytes) -> Error:
    """That of a frame whose header begins with these bytes, in a stream of 32 bits. The code of 32
    bits was reserved in earlier editions of the format.
    """
    if status == FORMAT_ERROR and text == _RESERVED and header[3:] and header[3] & 0x0E == 0x0E:
        return Unsupported(_32_BITS, position)
    return fault_of(status, text, position)
