"""Samples of other types, of full scale, as libsndfile and so soundfile have them."""
import functools
import importlib
import struct
from array import array
from typing import Any, Dict, Optional, Sequence

# The letter of an array by the name of a type, as numpy has it.
LETTERS: Dict[str, str] = {"i2": "h", "i4": "i", "f4": "f", "f8": "d"}

_NAMES = {"int16": "i2", "int32": "i4", "float32": "f4", "float64": "f8", "float": "f8"}


@functools.lru_cache(maxsize=None)
def numpy() -> Any:
    """numpy, or None where it is missing."""
    try:
        return importlib.import_module("numpy")
    except ImportError:
        return None


def needed_numpy() -> Any:
    """numpy. ImportError where it is missing."""
    found = numpy()
    if found is None:
        raise ImportError("arrays of numpy need numpy, which isn't installed")
    return found


def name_of(dtype: object) -> Optional[str]:
    """The short name of a type: of a name, or of a type or dtype of numpy. None stays None."""
    if dtype is None:
        return None
    name = dtype
    if not isinstance(dtype, str):
        is_native = getattr(dtype, "isnative", True)
        name = getattr(dtype, "name", getattr(dtype, "__name__", None)) if is_native else None
    short = _NAMES.get(name, name) if isinstance(name, str) else None
    if short not in LETTERS:
        raise ValueError("dtype is int16, int32, float32 or float64, or i2, i4, f4 or f8, or None")
    return short


def joined(channels: Sequence[memoryview]) -> memoryview:
    """The samples of channels, one after another, in memory of their own."""
    return memoryview(array(channels[0].format, b"".join(channels)))


def put(samples: Any, bits: int, dtype: Optional[str], out: Any) -> None:
    """Writes an array of samples of so many bits into another one as a type, which is that of it.

    Samples that have more bits, as only ill-formed streams have, are taken modulo 2^16 or 2^32.
    """
    if dtype == "f8":
        numpy().multiply(samples, 1 / (1 << bits - 1), out=out)
    elif dtype == "f4":
        out[...] = samples
        numpy().multiply(out, out.dtype.type(1 / (1 << bits - 1)), out=out)
    elif dtype == "i4":
        numpy().left_shift(samples, 32 - bits, out=out)
    elif dtype == "i2" and bits != 16:
        out[...] = samples >> bits - 16 if bits > 16 else samples << 16 - bits
    else:
        out[...] = samples


def converted(planar: memoryview, bits: int, dtype: str) -> memoryview:
    """Samples of so many bits as another type, in memory of their own."""
    found = numpy()
    if found is not None:
        out = found.empty(len(planar), dtype)
        put(found.frombuffer(planar, "i4"), bits, dtype, out)
        return memoryview(out)
    if dtype in ("f4", "f8"):
        # A list is read faster than a view, and `pack` is faster than an array.
        numbers = map((1 / (1 << bits - 1)).__mul__, planar.tolist())
        raw = struct.pack(f"{len(planar)}{LETTERS[dtype]}", *numbers)
    else:
        raw = (
            _upper_half(planar, bits) if dtype == "i2" else _moved(planar.cast("B"), 32, 32 - bits)
        )
    return memoryview(array(LETTERS[dtype], raw))


def _upper_half(planar: memoryview, bits: int) -> bytes:
    """The upper 16 bits of samples of so many bits, with zeros below those of smaller ones."""
    raw = planar.cast("B")
    skipped, rest = divmod(max(0, bits - 16), 8)
    if rest:
        moved = int.from_bytes(raw, "little") >> rest
        raw = memoryview(moved.to_bytes(len(raw), "little"))
    halves = raw[skipped : len(raw) - 2 + skipped].cast("h")[::2].tobytes()
    return _moved(memoryview(halves), 16, 16 - bits) if bits < 16 else halves


def _moved(raw: memoryview, width: int, count: int) -> bytes:
    """Numbers of this width in bits, each moved to the left: all at once, as one large number."""
    kept = ((1 << width) - (1 << count)).to_bytes(width // 8, "little")
    mask = int.from_bytes(kept * (8 * len(raw) // width), "little")
    moved = int.from_bytes(raw, "little") << count & mask
    return moved.to_bytes(len(raw), "little")
