"""How results of claxon differ from those of other decoders, and which differences are intended."""
from typing import Dict, Iterable, List, Optional, Sequence, Tuple

from fuzzing import slow_decoder
from fuzzing.decoders import Samples, Trace
from fuzzing.slow_decoder import Frame, Reading, StreamInfo


def hash_of(channels: Sequence[Sequence[int]]) -> int:
    """The FNV-1a hash of 64 bits of the samples, channel after channel, four little-endian bytes
    each."""
    hash_value = 0xCBF29CE484222325
    for samples in channels:
        for byte in b"".join((sample & 0xFFFFFFFF).to_bytes(4, "little") for sample in samples):
            hash_value = (hash_value ^ byte) * 0x100000001B3 & 0xFFFFFFFFFFFFFFFF
    return hash_value


def blocks_of(streaminfo: StreamInfo, expected: Reading) -> List[Tuple[int, int, int, str]]:
    """The blocks that a trace has to show."""
    return [
        (
            slow_decoder.time_of(streaminfo, frame.header),
            len(frame.channels),
            frame.header.block_size,
            f"{hash_of(frame.channels):016x}",
        )
        for frame in expected.frames
    ]


def head_of(streaminfo: StreamInfo) -> Tuple[str, ...]:
    """The head that a trace has to show."""
    values = (
        streaminfo.min_block_size,
        streaminfo.max_block_size,
        streaminfo.sample_rate,
        streaminfo.channels,
        streaminfo.bits_per_sample,
        streaminfo.samples or "none",
    )
    return tuple(map(str, values)) + (streaminfo.md5.hex(),)


UNSUPPORTED = "A currently unsupported feature of the FLAC format was encountered: "

# The fault that claxon has to report where the slow decoder finds this one.
TEXTS: Dict[str, str] = {
    "incomplete head": "IO",
    "ID3": "stream starts with ID3 header rather than FLAC header",
    "magic": "invalid stream header",
    "number of metadata blocks": UNSUPPORTED + "more than 65536 metadata blocks are not supported",
    "type of a metadata block": "invalid metadata block type",
    "no streaminfo block first": "streaminfo block missing",
    "second streaminfo": "encountered second streaminfo block",
    "second comments": "encountered second Vorbis comment block",
    "length of the streaminfo": "invalid streaminfo metadata block length",
    "bounds of block sizes": "inconsistent bounds, min block size > max block size",
    "block size below 16": "invalid block size, must be at least 16",
    "bounds of frame sizes": "inconsistent bounds, min frame size > max frame size",
    "sample rate outside FLAC 1.3.1": "invalid sample rate",
    "application block below 4 bytes": "application block length must be at least 4 bytes",
    "application block above 10 MiB": (
        UNSUPPORTED + "application blocks larger than 10 MiB are not supported"
    ),
    "comment block below 8 bytes": "Vorbis comment block is too short",
    "comment block above 10 MiB": (
        UNSUPPORTED + "Vorbis comment blocks larger than 10 MiB are not supported"
    ),
    "length of the vendor string": "vendor string too long",
    "number of comments": "too many entries for Vorbis comment block",
    "length of a comment": "Vorbis comment too long for Vorbis comment block",
    "missing comments": "Vorbis comment block contains wrong number of entries",
    "bytes after comments": "Vorbis comment block has excess data",
    "no = in a comment": "Vorbis comment does not contain '='",
    "byte of a field name": "Vorbis comment field name contains invalid byte",
    "UTF-8 in comments": "Vorbis comment or vendor string is not valid UTF-8",
    "incomplete frame header": "IO",
    "incomplete coded number": "IO",
    "sync code": "frame sync code missing",
    "reserved value in the frame header": "invalid frame header, encountered reserved value",
    "sample rate code 15": "invalid frame header",
    "bit depth code of 32 bits": "invalid frame header, encountered reserved value",
    "coded number": "invalid variable-length integer",
    "frame number above 31 bits": "invalid frame header, frame number too large",
    "block size 65536": "invalid block size, exceeds 65535",
    "frame header CRC": "frame header CRC mismatch",
    "unknown bit depth": UNSUPPORTED + "header without bits per sample info",
    "side channel of 33 bits": UNSUPPORTED + "side channels of 33 bits are not supported",
    "padding bit of a subframe": "invalid subframe header",
    "reserved subframe type": "invalid subframe header, encountered reserved value",
    "wasted bits above 31": "wasted bits per sample must not exceed 31",
    "wasted bits alone": "subframe has no non-wasted bits",
    "order of a fixed predictor": "invalid fixed subframe, order is larger than block size",
    "order of a linear predictor": "invalid LPC subframe, lpc order is larger than block size",
    "coefficient precision": "invalid subframe, qlp precision value invalid",
    "negative shift": (
        UNSUPPORTED + "a negative quantized linear predictor coefficient shift is not supported,"
        " please file a bug."
    ),
    "residual coding method": "invalid residual, encountered reserved value",
    "partition order": "invalid partition order",
    "partition below the predictor order": "invalid residual",
    "frame CRC": "frame CRC mismatch",
    "incomplete subframe": "IO",
    "incomplete frame footer": "IO",
}


def against_slow_decoder(trace: Trace, expected: Reading) -> Optional[str]:
    """How claxon's result differs from that of the slow decoder, or None."""
    if expected.streaminfo and trace.head:
        if trace.head != head_of(expected.streaminfo):
            return "another head"
        if trace.blocks != blocks_of(expected.streaminfo, expected):
            return "other blocks"
    elif expected.streaminfo or trace.head:
        return f"head, claxon: {trace.fault}, slow decoder: {expected.fault}"
    if (trace.fault is None) != (expected.fault is None):
        return f"claxon: {trace.fault}, slow decoder: {expected.fault}"
    if expected.fault is not None and trace.fault != TEXTS[expected.fault]:
        return f"claxon names {trace.fault}, slow decoder: {expected.fault}"
    return None


def wav_bytes(frames: Iterable[Frame], bits_per_sample: int) -> bytes:
    """The samples as `flac` writes them into a WAV file: interleaved, in whole bytes, unsigned
    up to 8 bits."""
    sample_size = (bits_per_sample + 7) // 8
    shift, mask, offset = 8 * sample_size - bits_per_sample, (
        1 << 8 * sample_size
    ) - 1, 128 if sample_size == 1 else 0
    return b"".join(
        ((sample << shift) + offset & mask).to_bytes(sample_size, "little")
        for frame in frames
        for interchannel_sample in zip(*frame.channels)
        for sample in interchannel_sample
    )


# What claxon refuses and flac decodes: the beginning of claxon's fault, and why that is intended.
NARROWER = (
    ("invalid sample rate", "later than FLAC 1.3.1"),
    ("stream starts with ID3", "ID3 is left out"),
    ("Vorbis comment", "flac does not check comments"),
    ("vendor string", "flac does not check comments"),
    ("too many entries", "flac does not check comments"),
    (UNSUPPORTED + "side channels", "33 bits are left out"),
    ("encountered second", "the RFC forbids it"),
    ("streaminfo block missing", "the RFC forbids it"),
    ("inconsistent bounds", "its bounds contradict each other"),
    ("invalid metadata block type", "the RFC forbids it"),
    ("application block length", "the RFC forbids it"),
    ("invalid block size", "the RFC forbids it"),
    ("invalid frame header, frame number too large", "the RFC forbids it"),
)

# What flac refuses and claxon decodes by the choices of docs/FORMAT.md: a remark, and a part of
# flac's message.
STRICTER = (
    ("sample beyond its bit depth", "FRAME_CRC_MISMATCH"),
    ("residual sample beyond 32 bits", "LOST_SYNC"),
    ("empty partition", "LOST_SYNC"),
    ("padding bits that are ones", "LOST_SYNC"),
    ("one byte after the last frame", "LOST_SYNC"),
    ("overlong coded number", "BAD_HEADER"),
    ("bit depth below 4", "bits per sample is"),
    ("frame differs from the streaminfo", "in frame but"),
    ("MD5 sum differs", "MDN signature mismatch"),
    ("number of samples", "number of samples"),
    ("number of samples", "too big to fit in a single WAVE file"),
    ("invalid seek table", "while decoding metadata"),
)

# The remarks with which flac writes other samples, or silence between frames.
OTHER_SAMPLES = (
    "sample beyond its bit depth",
    "coded numbers out of order",
    "blocking strategy changes",
    "number of samples",
)


def why_narrower(fault: str, expected: Reading) -> Optional[str]:
    """Why it is intended that claxon refuses what flac decodes, or None."""
    if expected.fault == "bit depth code of 32 bits":
        return "later than FLAC 1.3.1"
    return next((reason for text, reason in NARROWER if fault.startswith(text)), None)


def kind_of(reason: Optional[str], kind: str) -> str:
    return f"known, {reason}: {kind}" if reason else kind


def against_flac(trace: Trace, expected: Reading, samples: Samples) -> Optional[str]:
    """How flac's result differs from claxon's, or None. An intended difference has `known` and
    its reason before it."""
    if trace.fault is None and samples.refusal:
        refusals = (remark for remark, text in STRICTER if text in samples.refusal)
        reasons = (remark for remark in refusals if remark in expected.remarks)
        return kind_of(next(reasons, None), f"flac alone refuses: {samples.refusal}")
    if trace.fault and not samples.refusal:
        return kind_of(why_narrower(trace.fault, expected), f"claxon alone refuses: {trace.fault}")
    streaminfo = expected.streaminfo
    if (
        trace.fault is None
        and streaminfo
        and samples.data != wav_bytes(expected.frames, streaminfo.bits_per_sample)
    ):
        reasons = (remark for remark in OTHER_SAMPLES if remark in expected.remarks)
        return kind_of(next(reasons, None), "other samples than flac")
    return None
