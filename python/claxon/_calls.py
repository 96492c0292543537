"""The library for C: where it is, its structs, its calls and their statuses."""
import ctypes
import os
from typing import Any, Dict, List

# What the header claxon.h has.
OK, FORMAT_ERROR, UNSUPPORTED, INPUT_ENDS = 0, 1, 2, 3
OUT_OF_MEMORY, NO_MORE, BUFFER_TOO_SMALL, OVER_BUDGET = 4, 5, 6, 7
NEED_MORE = 100
STREAMINFO, SEEK_TABLE, VORBIS_COMMENT, CUE_SHEET, PICTURE = 0, 3, 4, 5, 6
METADATA_HEADER, METADATA_CONTENT = 1, 2
MAX_FRAME_BYTES = 16777215
INTERFACE = 3  # the minor version of the library, below 1.0.0
_LIBRARY = f"libclaxon.so.0.{INTERFACE}"

ERROR_SIZE = 128  # more than any text of the library takes


class Info(ctypes.Structure):
    _fields_ = [
        ("first_frame", ctypes.c_size_t),
        ("tags", ctypes.c_size_t),
        ("samples", ctypes.c_uint64),
        ("sample_rate", ctypes.c_uint32),
        ("channels", ctypes.c_uint32),
        ("bits_per_sample", ctypes.c_uint32),
        ("min_frame_size", ctypes.c_uint32),
        ("max_frame_size", ctypes.c_uint32),
        ("min_block_size", ctypes.c_uint16),
        ("max_block_size", ctypes.c_uint16),
        ("md5", ctypes.c_uint8 * 16),
    ]


class Metadata(ctypes.Structure):
    _fields_ = [
        ("content", ctypes.c_size_t),
        ("length", ctypes.c_uint32),
        ("type", ctypes.c_uint8),
        ("is_last", ctypes.c_uint8),
    ]


class Tag(ctypes.Structure):
    _fields_ = [
        ("name_at", ctypes.c_size_t),
        ("name_length", ctypes.c_size_t),
        ("value_at", ctypes.c_size_t),
        ("value_length", ctypes.c_size_t),
    ]


class Block(ctypes.Structure):
    _fields_ = [
        ("time", ctypes.c_uint64),
        ("channels", ctypes.c_uint32),
        ("duration", ctypes.c_uint32),
        ("sample_rate", ctypes.c_uint32),
        ("bits_per_sample", ctypes.c_uint32),
    ]


class Head(ctypes.Structure):
    _fields_ = [
        ("position", ctypes.c_uint64),
        ("begin", ctypes.c_uint64),
        ("next", ctypes.c_uint32),
        ("is_last", ctypes.c_uint8),
        ("type", ctypes.c_uint8),
        ("length", ctypes.c_uint32),
        ("is_metadata_only", ctypes.c_uint8),
        ("has_comment_option", ctypes.c_uint8),
        ("has_info", ctypes.c_uint8),
        ("has_comment", ctypes.c_uint8),
        ("most", ctypes.c_uint32),
        ("needed", ctypes.c_size_t),
        ("part", ctypes.c_uint32),
    ]


class Frame(ctypes.Structure):
    _fields_ = [
        ("position", ctypes.c_uint64),
        ("end", ctypes.c_uint64),
        ("number", ctypes.c_uint64),
        ("duration", ctypes.c_uint32),
        ("is_variable", ctypes.c_uint32),
    ]


class Frames(ctypes.Structure):
    _fields_ = [
        ("position", ctypes.c_uint64),
        ("tried", ctypes.c_size_t),
        ("summed", ctypes.c_size_t),
        ("crc", ctypes.c_uint16),
        ("is_near", ctypes.c_uint8),
        ("wasted", ctypes.c_uint64),
        ("counted", ctypes.c_uint64),
        ("faults", ctypes.c_uint64),
        ("needed", ctypes.c_size_t),
        ("last", Frame),
    ]


class Search(ctypes.Structure):
    _fields_ = [
        ("position", ctypes.c_uint64),
        ("tried", ctypes.c_size_t),
        ("summed", ctypes.c_size_t),
        ("crc", ctypes.c_uint16),
        ("is_near", ctypes.c_uint8),
        ("wasted_by_tries", ctypes.c_uint64),
        ("counted_by_tries", ctypes.c_uint64),
        ("faults", ctypes.c_uint64),
        ("wasted", ctypes.c_uint64),
        ("counted", ctypes.c_uint64),
        ("has_passed_over", ctypes.c_uint8),
        ("needed", ctypes.c_size_t),
    ]


class Clock(ctypes.Structure):
    _fields_ = [("state", ctypes.c_uint64 * 5)]


class Seeker(ctypes.Structure):
    _fields_ = [
        ("state", ctypes.c_uint64 * 33),
        ("position", ctypes.c_uint64),
        ("needed", ctypes.c_size_t),
        ("found", Frame),
    ]


class Md5(ctypes.Structure):
    _fields_ = [
        ("state", ctypes.c_uint32 * 4),
        ("length", ctypes.c_uint64),
        ("buffer", ctypes.c_uint8 * 64),
    ]


def _find_library() -> str:
    """The name to load the library by."""
    named = os.environ.get("CLAXON_LIBRARY")
    if named:
        return named
    here = os.path.dirname(os.path.realpath(__file__))
    top = os.path.dirname(os.path.dirname(here))
    for folder in (here, os.path.join(top, "c", "out"), os.path.join(top, "lib")):
        for name in ("libclaxon.so", _LIBRARY):
            path = os.path.join(folder, name)
            if os.path.exists(path):
                return path
    try:
        ctypes.CDLL(_LIBRARY)
    except OSError as error:
        raise ImportError(
            "the shared library of claxon wasn't found: install a wheel of claxon, or build the"
            f" library by `make -C c` in claxon's repository, and put c/out/{_LIBRARY} into {here},"
            " or its path into the environment variable CLAXON_LIBRARY"
        ) from error
    return _LIBRARY


def _why_not(name: str, error: str) -> str:
    """Why the library can't be loaded: the loader refuses processors that are too old for it."""
    if "ISA level" in error:
        return f"{name} needs a processor of the level x86-64-v2 or a later one ({error})"
    return f"{name} isn't the library that this module needs ({error}): build it by `make -C c`"


def _load_library() -> ctypes.CDLL:
    name = _find_library()
    try:
        found = ctypes.CDLL(name)
        found.claxon_version.restype = ctypes.c_uint32
        version = found.claxon_version()
    except (OSError, AttributeError) as error:
        raise ImportError(_why_not(name, str(error))) from error
    if version // 100 != INTERFACE:
        raise ImportError(
            f"{name} has version {_version_text(version)}, and this module needs 0.{INTERFACE}:"
            " build it by `make -C c`"
        )
    try:
        _declare(found)
    except AttributeError as error:
        raise ImportError(
            f"{name} hasn't all calls that this module needs ({error}): build it by `make -C c`"
        ) from error
    return found


def _declare(found: ctypes.CDLL) -> None:
    """Sets the types of the calls. AttributeError where one is missing."""
    size, to_size = ctypes.c_size_t, ctypes.POINTER(ctypes.c_size_t)
    position, number = ctypes.c_uint64, ctypes.c_uint32
    text, memory = ctypes.c_char_p, ctypes.c_void_p
    info, block = ctypes.POINTER(Info), ctypes.POINTER(Block)
    head, frames, search = (ctypes.POINTER(struct) for struct in (Head, Frames, Search))
    frame, clock, seeker = (ctypes.POINTER(struct) for struct in (Frame, Clock, Seeker))
    md5, digest = ctypes.POINTER(Md5), ctypes.POINTER(ctypes.c_uint8 * 16)
    held: List[Any] = [memory, size, position, number]
    samples: List[Any] = [info, memory, size, block]
    arguments: Dict[str, List[Any]] = {
        "claxon_open": [text, size, info, text, size],
        "claxon_head_start": [head, position],
        "claxon_head_next": [head, *held, info, ctypes.POINTER(Metadata), text, size],
        "claxon_vendor": [text, size] + 3 * [to_size] + [text, size],
        "claxon_next_tag": [text, size, to_size, ctypes.POINTER(Tag), text, size],
        "claxon_frames_start": [frames, position],
        "claxon_frames_go_on": [frames, position],
        "claxon_frames_next": [frames, *held, *samples, text, size],
        "claxon_frames_next_planar": [frames, *held, *samples, text, size],
        "claxon_search_start": [search, position],
        "claxon_search_go_on": [search, frames, position],
        "claxon_search_next": [search, *held, info, ctypes.POINTER(position), block],
        "claxon_clock_start": [clock, info],
        "claxon_clock_show": [clock, info, frame, ctypes.POINTER(position)],
        "claxon_clock_needs_frames": [clock],
        "claxon_seeker_start": [seeker, info, position, position, clock],
        "claxon_seeker_next_planar": [seeker, *held, *samples],
        "claxon_md5_start": [md5],
        "claxon_md5_samples": [md5, memory, size, number],
        "claxon_md5_finish": [md5, digest],
    }
    for call, types in arguments.items():
        getattr(found, call).argtypes = types
        is_silent = call.endswith(("_start", "_go_on", "_note", "_finish"))
        getattr(found, call).restype = None if is_silent else number


def _version_text(version: int) -> str:
    return f"{version // 10000}.{version // 100 % 100}.{version % 100}"


library = _load_library()


def library_version() -> str:
    """The version of the library for C that was loaded, such as "0.3.0"."""
    return _version_text(library.claxon_version())
