//! Readers that give little, fail, pause, end early or never end; and the bytes that are consumed.
mod common;

use claxon::frame::FrameReader;
use claxon::input::{BufferedReader, ReadBytes};
use claxon::{Error, FlacReader};
use common::*;
use std::cell::Cell;
use std::io::{self, Cursor, Read};
use std::time::Instant;

/// A head and three frames, of 1, 2 and 4 samples of a channel.
fn stream() -> (Vec<u8>, [usize; 4]) {
    let frames = ["fff8690200009a00053458", "fff869a20000d2000000028024d1", "fff86902000393120a000c408a5c"].map(bytes);
    let mut stream = bytes(HEAD);
    let mut ends = [stream.len(); 4];
    for (index, frame) in frames.iter().enumerate() {
        stream.extend_from_slice(frame);
        ends[index + 1] = stream.len();
    }
    (stream, ends)
}

// 3 and -2 are left and right; the others are mono.
const SAMPLES: [&[i32]; 3] = [&[5], &[3, -2], &[10, 11, 11, 9]];

#[test]
fn a_stream_that_ends_early() {
    let (stream, ends) = stream();
    for end in 0..=stream.len() {
        for piece in [usize::MAX, 1] {
            let (samples, result) = decode(Pieces(&stream[..end], piece));
            let whole = (1..4).filter(|index| ends[*index] <= end).count();
            assert_eq!(samples, SAMPLES[..whole].concat(), "{end} bytes");
            // Fewer than two bytes after a frame are the end of the stream.
            let is_end = ends.iter().any(|place| *place == end || *place + 1 == end) && end >= ends[0];
            match result {
                Ok(()) => assert!(is_end, "{end} bytes"),
                Err(Error::IoError(error)) => {
                    assert!(!is_end, "{end} bytes");
                    assert_eq!(error.kind(), io::ErrorKind::UnexpectedEof);
                }
                Err(error) => panic!("{error}"),
            }
        }
    }
}

/// Gives the bytes in pieces, and fails once after `place` of them.
fn failing(stream: &[u8], place: usize, piece: usize, kind: io::ErrorKind) -> Steps {
    let gives = |bytes: &[u8]| bytes.chunks(piece).map(|chunk| Step::Gives(chunk.to_vec())).collect::<Vec<_>>();
    Steps::new([gives(&stream[..place]), vec![Step::Fails(kind)], gives(&stream[place..])].concat())
}

/// After the failure the next call goes on with the same frame: no byte is lost.
#[test]
fn a_reader_that_fails_once() {
    let (stream, ends) = stream();
    for kind in [io::ErrorKind::Interrupted, io::ErrorKind::WouldBlock, io::ErrorKind::ConnectionReset] {
        for (place, piece) in (0..=stream.len()).flat_map(|place| [(place, 1), (place, 5), (place, 1000)]) {
            let mut flac = match FlacReader::new(failing(&stream, place, piece, kind)) {
                Ok(flac) => flac,
                Err(Error::IoError(error)) => {
                    assert!(place < ends[0]);
                    assert_eq!(error.kind(), kind);
                    continue;
                }
                Err(error) => panic!("{error}"),
            };
            let (mut blocks, mut failures) = (Vec::new(), Vec::new());
            loop {
                match flac.blocks().read_next_or_eof(Vec::new()) {
                    Ok(Some(block)) => blocks.push(block.into_buffer()),
                    Ok(None) => break,
                    Err(Error::IoError(error)) => {
                        assert_eq!(error.kind(), kind);
                        failures.push(blocks.len());
                    }
                    Err(error) => panic!("{error}"),
                }
            }
            assert_eq!(blocks, SAMPLES, "{place} by {piece}");
            // All whole blocks came before it.
            let before = (1..4).filter(|index| ends[*index] <= place).count();
            assert_eq!(failures, [before], "{place} by {piece}");
        }
    }
}

/// The reader's own error, whatever its kind, and not that of a stream that ends there.
#[test]
fn a_failure_is_told_apart_from_an_early_end() {
    struct Failing<'a>(&'a [u8]);

    impl Read for Failing<'_> {
        fn read(&mut self, buffer: &mut [u8]) -> io::Result<usize> {
            match self.0.read(buffer)? {
                0 => Err(io::Error::new(io::ErrorKind::UnexpectedEof, "no disk")),
                count => Ok(count),
            }
        }
    }

    let (stream, ends) = stream();
    for place in 0..=stream.len() {
        let (before, failed) = decode(Failing(&stream[..place]));
        assert!(matches!(failed, Err(Error::IoError(error)) if error.to_string() == "no disk"), "{place}");
        let (cut, ended) = decode(&stream[..place]);
        assert_eq!(before, cut);
        match ended {
            Ok(()) => assert!(ends.contains(&place) || ends.contains(&(place - 1)), "{place}"),
            Err(Error::IoError(error)) => {
                assert_eq!(
                    (error.kind(), &*error.to_string()),
                    (io::ErrorKind::UnexpectedEof, "the bytes end too early")
                );
            }
            Err(error) => panic!("{error}"),
        }
    }
}

#[test]
fn samples_end_at_a_failure() {
    let (stream, ends) = stream();
    let mut flac = FlacReader::new(failing(&stream, ends[1] + 3, 1, io::ErrorKind::Other)).unwrap();
    let mut samples = flac.samples();
    assert_eq!(samples.next().unwrap().unwrap(), 5);
    assert!(samples.next().unwrap().is_err());
    assert!(samples.next().is_none());
    assert!(samples.next().is_none());
}

/// A failure that came after a long frame, of which the last bytes came one by one, isn't lost.
#[test]
fn a_failure_after_a_whole_frame() {
    let file = bytes_of("quiet_noise.flac");
    let (all, result) = decode(&file[..]);
    assert!(result.is_ok());
    for kind in [io::ErrorKind::Other, io::ErrorKind::UnexpectedEof] {
        let steps = file.iter().map(|byte| Step::Gives(vec![*byte])).chain([Step::Fails(kind)]).collect();
        let (samples, result) = decode(Steps::new(steps));
        assert_eq!(samples, all);
        assert!(matches!(result, Err(Error::IoError(error)) if error.kind() == kind));
    }
}

/// Nor is a read that gave nothing after such a frame: it is the end, until the next call.
#[test]
fn a_pause_after_a_whole_frame() {
    let file = bytes_of("quiet_noise.flac");
    let (all, _) = decode(&file[..]);
    let single = file.iter().map(|byte| Step::Gives(vec![*byte]));
    let steps = single.chain([Step::Gives(vec![]), Step::Gives(bytes(FRAME))]).collect();
    let mut flac = FlacReader::new(Steps::new(steps)).unwrap();
    let mut samples = flac.samples();
    assert!(samples.by_ref().map(Result::unwrap).eq(all));
    assert_eq!(samples.map(Result::unwrap).collect::<Vec<_>>(), [5]);
}

/// Reads that give nothing are the end; what comes later is read by a later call.
#[test]
fn a_reader_that_pauses() {
    let (stream, ends) = stream();
    let steps =
        vec![Step::Gives(stream[..ends[1]].to_vec()), Step::Gives(vec![]), Step::Gives(stream[ends[1]..].to_vec())];
    let mut flac = FlacReader::new(Steps::new(steps)).unwrap();
    let mut samples = flac.samples();
    assert_eq!(samples.next().unwrap().unwrap(), 5);
    assert!(samples.next().is_none());
    assert_eq!(samples.map(Result::unwrap).collect::<Vec<_>>(), [3, -2, 10, 11, 11, 9]);
}

/// A block is returned as soon as the frame's last byte was read: no byte after it is waited for. Frames that are some KB
/// long are given in a few pieces, the last of which is short.
#[test]
fn no_frame_is_delayed() {
    for name in ["quiet_noise.flac", "eight_bits.flac", "escapes_of_a_real_encoder.flac"] {
        let stream = bytes_of(name);
        let ends = frame_ends(&stream);
        assert!(ends.len() > 2, "{name}");
        let mut steps = vec![Step::Gives(stream[..ends[0]].to_vec())];
        for (start, end) in ends.iter().zip(&ends[1..]) {
            let pieces = [&stream[*start..end - 3], &stream[end - 3..end - 1], &stream[end - 1..*end]];
            steps.extend(pieces.map(|piece| Step::Gives(piece.to_vec())));
        }
        let input = Steps::new(steps);
        let reads = input.reads.clone();
        let mut flac = FlacReader::new(input).unwrap();
        for frame in 1..ends.len() {
            assert!(flac.blocks().read_next_or_eof(Vec::new()).unwrap().is_some());
            assert_eq!(reads.get(), 1 + 3 * frame, "frame {frame} of {name}");
        }
    }
}

/// That holds for any number of reads, of which the last can give little.
#[test]
fn a_frame_in_many_reads() {
    let stream = bytes_of("quiet_noise.flac");
    let ends = frame_ends(&stream);
    let (head, frame, rest) = (&stream[..ends[0]], &stream[ends[0]..ends[1]], &stream[ends[1]..]);
    let first = frame.len() - 15;
    for piece in [first, 1000, 7, 1] {
        let (front, back) = frame.split_at(first);
        let pieces = [head]
            .into_iter()
            .chain(front.chunks(piece))
            .chain([back, rest].into_iter().flat_map(|part| part.chunks(1)));
        let input = Steps::new(pieces.map(|piece| Step::Gives(piece.to_vec())).collect());
        let reads = input.reads.clone();
        assert!(FlacReader::new(input).unwrap().blocks().read_next_or_eof(Vec::new()).unwrap().is_some());
        assert_eq!(reads.get(), 1 + (first + piece - 1) / piece + back.len(), "by {piece}");
    }
}

/// Gives some bytes, and then zeros for ever. It notes how many were given in all, and in how many reads.
struct Endless<'a> {
    first: &'a [u8],
    given: &'a Cell<usize>,
    reads: &'a Cell<usize>,
}

impl Read for Endless<'_> {
    fn read(&mut self, buffer: &mut [u8]) -> io::Result<usize> {
        let count = match self.first.read(buffer)? {
            0 => {
                buffer.fill(0);
                buffer.len()
            }
            count => count,
        };
        self.given.set(self.given.get() + count);
        self.reads.set(self.reads.get() + 1);
        Ok(count)
    }
}

#[test]
fn what_is_not_flac_is_refused_at_once() {
    let (given, reads) = (Cell::new(0), Cell::new(0));
    let error = FlacReader::new(Endless { first: b"", given: &given, reads: &reads }).err().unwrap();
    assert_eq!(error, Error::FormatError("invalid stream header"));
    assert!(given.get() <= 4096);
}

/// After the header of a frame with one Rice code, zeros are a quotient that never ends.
#[test]
fn zeros_that_never_end() {
    let (mut stream, ends) = stream();
    stream.truncate(ends[2]);
    // Mono, 8 bits, four samples, fixed order 0; Rice parameter 0.
    stream.extend_from_slice(&bytes("fff8690200039310"));
    let (given, reads) = (Cell::new(0), Cell::new(0));
    let mut flac = FlacReader::new(Endless { first: &stream, given: &given, reads: &reads }).unwrap();
    let mut samples = flac.samples();
    assert_eq!(samples.by_ref().take(3).map(Result::unwrap).collect::<Vec<_>>(), [5, 3, -2]);
    let error = samples.next().unwrap().unwrap_err();
    assert_eq!(error, Error::FormatError("frame longer than 16777215 bytes"));
    assert!(samples.next().is_none());
    assert!(given.get() <= (1 << 24) + (1 << 18), "{} bytes were read", given.get());
    assert!(reads.get() < 20, "{} reads", reads.get());
}

/// So many zeros in a `Cursor` have the same result, whatever follows them. With one less the bytes end too early.
#[test]
fn long_zeros_in_memory() {
    let mut frames = bytes("fff8690200039310");
    frames.resize(16_777_214, 0);
    let error = FrameReader::new(Cursor::new(&frames)).read_next_or_eof(Vec::new()).err().unwrap();
    assert_eq!(fault(&error), "IO");
    frames.push(0);
    let error = FrameReader::new(Cursor::new(&frames)).read_next_or_eof(Vec::new()).err().unwrap();
    assert_eq!(error, Error::FormatError("frame longer than 16777215 bytes"));
    frames.extend_from_slice(&bytes(FRAME));
    let mut input = Cursor::new(frames);
    let error = FrameReader::new(&mut input).read_next_or_eof(Vec::new()).err().unwrap();
    assert_eq!(error, Error::FormatError("frame longer than 16777215 bytes"));
    assert_eq!(input.position(), 16_777_215);
    let block = FrameReader::new(&mut input).read_next_or_eof(Vec::new()).unwrap().unwrap();
    assert_eq!(block.channel(0), [5]);
}

/// A frame of 400,000 bytes, which doesn't fit into the first buffer: two channels of 24 bits, 65,535 samples, verbatim, as
/// they are. Byte by byte it is tried some 20 times, and not after each byte, which would take minutes.
#[test]
fn a_frame_larger_than_the_first_buffer() {
    let start = Instant::now();
    let mut frame = bytes("fff8791c00fffe");
    frame.push(crc8(&frame));
    let values: Vec<i32> = (0..65535).map(|number| number * 127 - 4_000_000).collect();
    for _ in 0..2 {
        frame.push(2);
        frame.extend(values.iter().flat_map(|value| value.to_be_bytes()[1..].to_vec()));
    }
    frame.extend_from_slice(&crc16(&frame).to_be_bytes());
    let expected: Vec<i32> = values.iter().chain(&values).flat_map(|value| [*value; 2]).collect();
    let stream = [bytes(HEAD), frame.clone(), frame].concat();
    for piece in [usize::MAX, 100_000, 4096, 100, 1] {
        let (samples, result) = decode(Pieces(&stream[..], piece));
        assert!(result.is_ok());
        assert!(samples == expected, "by {piece}");
    }
    assert!(start.elapsed().as_secs() < 30);
}

/// After a fault the next call continues where it showed.
#[test]
fn calls_after_faults() {
    let frame = bytes(FRAME);
    let damaged = bytes("fff8690200009b00053458");
    let stream = [bytes(HEAD), damaged, frame.clone(), frame].concat();
    for piece in [usize::MAX, 1] {
        let mut flac = FlacReader::new(Pieces(&stream[..], piece)).unwrap();
        let mut results = Vec::new();
        loop {
            match flac.blocks().read_next_or_eof(Vec::new()) {
                Ok(Some(block)) => results.push(format!("{:?}", block.into_buffer())),
                Ok(None) => break,
                Err(error) => results.push(error.to_string()),
            }
        }
        let (crc, sync) =
            ("Ill-formed FLAC stream: frame header CRC mismatch", "Ill-formed FLAC stream: frame sync code missing");
        assert_eq!(results, [crc, sync, sync, "[5]", "[5]"]);
    }
}

#[test]
fn the_wrapped_reader() {
    let (stream, _) = stream();
    let flac = FlacReader::new(Pieces(Cursor::new(stream.clone()), 50)).unwrap();
    assert_eq!(flac.into_inner().0.position(), 50);
    let mut input = BufferedReader::new(Pieces(Cursor::new(stream), 50));
    assert_eq!(input.read_be_u32().unwrap(), 0x664c_6143);
    assert_eq!(input.into_inner().0.position(), 50);
}

/// Reads bytes and numbers; then too many, and what is left after that.
fn read_numbers<R: ReadBytes>(mut input: R) -> R {
    assert_eq!(input.read_u8().unwrap(), 2);
    assert_eq!(input.read_be_u16().unwrap(), 0x0305);
    assert_eq!(input.read_be_u24().unwrap(), 0x07_0b0d);
    assert_eq!(input.read_be_u32().unwrap(), 0x1113_171d);
    assert_eq!(input.read_le_u32().unwrap(), 0x2f2b_291f);
    assert_eq!(input.read_u8_or_eof().unwrap(), Some(0x35));
    assert_eq!(input.read_be_u16_or_eof().unwrap(), Some(0x3b3d));
    let mut three = [0; 3];
    input.read_into(&mut three).unwrap();
    assert_eq!(three, [0x43, 0x47, 0x49]);
    input.skip(1).unwrap();
    input
}

const NUMBERS: [u8; 23] = [
    2, 3, 5, 7, 0xb, 0xd, 0x11, 0x13, 0x17, 0x1d, 0x1f, 0x29, 0x2b, 0x2f, 0x35, 0x3b, 0x3d, 0x43, 0x47, 0x49, 0x4f,
    0x53, 0x59,
];

#[test]
fn numbers_of_several_bytes() {
    let is_eof = |error: io::Error| assert_eq!(error.kind(), io::ErrorKind::UnexpectedEof);
    for piece in [1, 2, 1000] {
        let mut input = BufferedReader::new(Pieces(&NUMBERS[..], piece));
        read_numbers(&mut input);
        is_eof(input.read_into(&mut [0; 3]).unwrap_err());
        assert_eq!(input.read_u8_or_eof().unwrap(), None);
        let mut input = read_numbers(BufferedReader::new(Pieces(&NUMBERS[..], piece)));
        is_eof(input.skip(3).unwrap_err());
        is_eof(input.read_u8().unwrap_err());
    }
    let mut input = read_numbers(Cursor::new(NUMBERS));
    is_eof(input.read_into(&mut [0; 3]).unwrap_err());
    is_eof(input.skip(3).unwrap_err());
    assert_eq!(input.position(), 21);
    input.skip(1).unwrap();
    assert_eq!(input.read_be_u16_or_eof().unwrap(), None);
    assert_eq!(input.position(), 23);
    input.set_position(u64::MAX);
    input.skip(0).unwrap();
    is_eof(input.skip(1).unwrap_err());
    assert_eq!(input.read_u8_or_eof().unwrap(), None);
    assert_eq!(input.position(), u64::MAX);
}
