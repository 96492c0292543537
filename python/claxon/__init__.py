"""FLAC files: samples, streaminfo, tags and pictures, decoded exactly.

    samples, rate = claxon.read("song.flac")

    with claxon.Flac("song.flac") as flac:
        print(flac.info, flac.duration, flac.tags)
        for block in flac.blocks():
            left = block.samples[0]
        before = flac.seek(441000)
        left = next(flac.blocks()).samples[0][before:]

    feed = claxon.Feed()
    for data in pieces:
        feed.feed(data)
        for block in feed.blocks():
            left = block.samples[0]
    feed.close()

It needs no other package, but the shared library for C, which a wheel has inside and `make -C c`
builds. It is looked for in this order: the path in the environment variable CLAXON_LIBRARY,
`libclaxon.so` in the folder of this file, in `../../c/out`, in `../../lib`, and where the system's
libraries are. Importing raises ImportError where there is none.
"""
import operator
from array import array
from typing import TYPE_CHECKING, Any, List, Optional, Tuple

from claxon import _reading
from claxon._calls import library_version
from claxon._errors import Error, FormatError, InputEnds, MissingSamplesWarning, NoSuchSample
from claxon._errors import OutOfMemory, ReadFailed, TrailingDataWarning, Unsupported
from claxon._feed import Feed
from claxon._files import File as _File
from claxon._files import Readable
from claxon._flac import Flac
from claxon._md5 import Md5
from claxon._pictures import Picture
from claxon._program import Place, Report, verify
from claxon._tables import CueIndex, CueSheet, CueTrack, SeekPoint
from claxon._tags import Tags
from claxon._types import Block, StreamInfo

if TYPE_CHECKING:
    import numpy

__version__ = "0.3.0"

__all__ = [
    "Block",
    "CueIndex",
    "CueSheet",
    "CueTrack",
    "Error",
    "Feed",
    "Flac",
    "FormatError",
    "InputEnds",
    "Md5",
    "MissingSamplesWarning",
    "NoSuchSample",
    "OutOfMemory",
    "Picture",
    "Place",
    "ReadFailed",
    "Readable",
    "Report",
    "SeekPoint",
    "StreamInfo",
    "Tags",
    "TrailingDataWarning",
    "Unsupported",
    "library_version",
    "read",
    "read_arrays",
    "verify",
]


def read(
    file: _File,
    start: int = 0,
    stop: Optional[int] = None,
    *,
    frames: int = -1,
    dtype: Any = None,
    always_2d: bool = False,
    missing: _reading.Missing = "raise",
) -> "Tuple[numpy.ndarray[Any, Any], int]":
    """The samples of a file, or those from `start` to before `stop`, and the sample rate in Hz.

    The samples are an array of numpy, as soundfile has it: a row for each sample of all channels;
    of a single channel without rows, but with `always_2d`. Where numpy is missing they are those of
    `read_arrays`. They are signed numbers of the stream's bit depth in 32 bits: for 16 bits -32768
    to 32767. With a `dtype` they are of full scale, as those of `Flac.blocks`.

    `start` and `stop` count the samples of each channel, and are as those of a slice; negative ones
    count back from the length that the streaminfo says. In place of `stop`, `frames` says how many
    are read. In a file that can't seek, those before `start` are decoded too.

    Raises Error where a frame can't be decoded, where samples are missing or repeated by the times
    of frames, where there are fewer than the streaminfo says, and where the number of channels
    changes. NoSuchSample is one: no block has `start`. With `missing="silence"` faults are passed
    over: what is missing is silence, with a MissingSamplesWarning. Warns by TrailingDataWarning
    where all samples that the streaminfo says are followed by other data.
    """
    asked = _asked(start, stop, frames)
    wanted = _reading.wanted(dtype, always_2d, missing)
    with Flac(file) as flac:
        return _reading.read_file(flac, asked, wanted), flac.info.sample_rate


def read_arrays(
    file: _File,
    start: int = 0,
    stop: Optional[int] = None,
    *,
    frames: int = -1,
    dtype: Any = None,
    missing: _reading.Missing = "raise",
) -> Tuple[List["array[Any]"], int]:
    """As `read`, without numpy: the samples are a list of one array for each channel.

    It is an array('i'), or, with a `dtype`, an array('h'), array('i'), array('f') or array('d').
    """
    asked = _asked(start, stop, frames)
    wanted = _reading.wanted(dtype, True, missing, with_numpy=False)
    with Flac(file) as flac:
        return _reading.read_file(flac, asked, wanted), flac.info.sample_rate


def _asked(start: int, stop: Optional[int], frames: int) -> Tuple[int, Optional[int], int]:
    end = None if stop is None else operator.index(stop)
    return operator.index(start), end, operator.index(frames)


# They are known by the names that the module has them by, also to pickle.
for _name in __all__:
    globals()[_name].__module__ = __name__
