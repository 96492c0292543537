//! Blocks, errors and files; and where a misuse panics.
mod common;

use claxon::frame::FrameReader;
use claxon::{Block, Error, FlacReader};
use common::*;
use std::io::{self, Cursor};
use std::panic::{catch_unwind, AssertUnwindSafe};

fn block_of(frame: &str) -> Block {
    let buffer = vec![13; 100];
    FrameReader::new(Cursor::new(bytes(frame))).read_next_or_eof(buffer).unwrap().unwrap()
}

/// Two channels of two samples: [3, 3] and [-2, -2].
const TWO_CHANNELS: &str = "fff8691200013f000300fe7151";
/// One channel of four samples: 10, 11, 11, 9.
const ONE_CHANNEL: &str = "fff86902000393120a000c408a5c";

#[test]
fn blocks() {
    let block = block_of(TWO_CHANNELS);
    assert_eq!((block.time(), block.channels(), block.duration(), block.len()), (0, 2, 2, 4));
    assert_eq!((block.channel(0), block.channel(1)), (&[3, 3][..], &[-2, -2][..]));
    assert_eq!((block.sample(0, 1), block.sample(1, 1)), (3, -2));
    assert_eq!(block.stereo_samples().size_hint(), (2, Some(2)));
    assert_eq!(block.stereo_samples().collect::<Vec<_>>(), [(3, -2), (3, -2)]);
    assert!(!block.is_empty());
    assert_eq!((block.sample_rate(), block.bits_per_sample()), (Some(44_100), Some(8)));
    assert_eq!(block.into_buffer(), [3, 3, -2, -2]);
    let block = block_of(ONE_CHANNEL);
    assert_eq!(block.channel(0), [10, 11, 11, 9]);
    assert_eq!(block.into_buffer().len(), 4);
    let block = Block::empty();
    assert_eq!((block.time(), block.channels(), block.duration(), block.len()), (0, 0, 0, 0));
    assert_eq!((block.sample_rate(), block.bits_per_sample()), (None, None));
    assert!(block.is_empty());
    assert!(block.into_buffer().is_empty());
}

/// A frame of a constant channel of zeros, with these codes of its block size and sample rate and of its bit depth, and with
/// these bytes after them: the coded number, and the fields of the block size and the sample rate.
fn frame_of(codes: u8, depth_code: u8, fields: &[u8]) -> Vec<u8> {
    let mut frame = [&[0xff, 0xf8, codes, depth_code << 1], fields].concat();
    frame.push(crc8(&frame));
    frame.extend(vec![0; [3, 2, 3, 0, 3, 4, 4][usize::from(depth_code)]]);
    frame.extend(crc16(&frame).to_be_bytes());
    frame
}

/// Each code of a sample rate and of a bit depth (RFC 9639, sections 9.1.2, 9.1.4 and 9.1.7), in a stream of 16 bits at
/// 48,000 Hz.
#[test]
fn the_rate_and_the_depth_of_a_header() {
    let rates = [
        (0x10, &[0][..], None),
        (0x11, &[0], Some(88_200)),
        (0x12, &[0], Some(176_400)),
        (0x13, &[0], Some(192_000)),
        (0x14, &[0], Some(8000)),
        (0x15, &[0], Some(16_000)),
        (0x16, &[0], Some(22_050)),
        (0x17, &[0], Some(24_000)),
        (0x18, &[0], Some(32_000)),
        (0x19, &[0], Some(44_100)),
        (0x1a, &[0], Some(48_000)),
        (0x1b, &[0], Some(96_000)),
        (0x1c, &[0, 0xff], Some(255_000)),
        (0x1d, &[0, 0xac, 0x45], Some(44_101)),
        (0x6e, &[0xc2, 0x80, 0x0f, 0xff, 0xff], Some(655_350)),
        (0x7c, &[0, 1, 1, 3], Some(3000)),
    ];
    let depths = [(0, None), (1, Some(8)), (2, Some(12)), (4, Some(16)), (5, Some(20)), (6, Some(24))];
    let mut head = bytes(HEAD);
    head[18..22].copy_from_slice(&[0x0b, 0xb8, 0x00, 0xf0]);
    for (codes, fields, rate) in rates {
        for (depth_code, depth) in depths {
            let stream = [&head[..], &frame_of(codes, depth_code, fields)].concat();
            let mut flac = FlacReader::new(&stream[..]).unwrap();
            let block = flac.blocks().read_next_or_eof(Vec::new()).unwrap().unwrap();
            assert_eq!((block.sample_rate(), block.bits_per_sample()), (rate, depth), "{codes:02x} {depth_code}");
        }
    }
}

#[test]
fn a_frame_of_several_channels() {
    let file = bytes_of("eight_channels_of_24_bits.flac");
    let mut flac = FlacReader::new(&file[..]).unwrap();
    let block = flac.blocks().read_next_or_eof(Vec::new()).unwrap().unwrap();
    assert_eq!((block.channels(), block.len()), (8, 8 * block.duration()));
    for (ch, index) in (0..8).flat_map(|ch| (0..block.duration()).map(move |index| (ch, index))) {
        assert_eq!(block.sample(ch, index), block.channel(ch)[index as usize]);
    }
    assert!(panics(|| _ = block.stereo_samples()));
    let (samples, _) = decode(&file[..]);
    assert_eq!(samples[..8], std::array::from_fn::<i32, 8, _>(|ch| block.sample(ch as u32, 0)));
}

#[test]
fn a_buffer_that_is_long_enough_is_kept() {
    let frames = bytes(&TWO_CHANNELS.repeat(2));
    let mut reader = FrameReader::new(Cursor::new(frames));
    let buffer = vec![7; 4];
    let place = buffer.as_ptr();
    let block = reader.read_next_or_eof(buffer).unwrap().unwrap();
    let buffer = block.into_buffer();
    assert_eq!(buffer.as_ptr(), place);
    let block = reader.read_next_or_eof(buffer).unwrap().unwrap();
    let buffer = block.into_buffer();
    assert_eq!(buffer.as_ptr(), place);
    assert!(reader.read_next_or_eof(Vec::new()).unwrap().is_none());
    assert_eq!(reader.into_inner().position(), 26);
}

fn panics(misuse: impl FnOnce()) -> bool {
    catch_unwind(AssertUnwindSafe(misuse)).is_err()
}

#[test]
fn misuse_panics() {
    let (one, two) = (block_of(ONE_CHANNEL), block_of(TWO_CHANNELS));
    assert!(panics(|| _ = one.stereo_samples()));
    assert!(panics(|| _ = Block::empty().stereo_samples()));
    assert!(panics(|| _ = two.channel(2)));
    assert!(panics(|| _ = two.sample(1, 2)));
    assert!(panics(|| _ = two.sample(2, 0)));
    assert!(panics(|| _ = Block::empty().sample(0, 0)));
    let stream = stream_with(&[&bytes(COMMENTS)]);
    let mut flac = FlacReader::new_ext(&stream[..], TAGS_ONLY).unwrap();
    assert!(panics(|| _ = flac.blocks()));
    assert!(panics(|| _ = flac.samples()));
    assert!(panics(|| _ = flac.into_samples()));
}

#[test]
fn errors() {
    let format = Error::FormatError("invalid sample rate");
    let unsupported = Error::Unsupported("invalid sample rate");
    let io = || Error::from(io::Error::new(io::ErrorKind::Other, "no disk"));
    assert_eq!(format, Error::FormatError("invalid sample rate"));
    assert_ne!(format, Error::FormatError("invalid sample"));
    assert_ne!(format, unsupported);
    assert_ne!(io(), io());
    assert_eq!(format.to_string(), "Ill-formed FLAC stream: invalid sample rate");
    let text = "A currently unsupported feature of the FLAC format was encountered: invalid sample rate";
    assert_eq!(unsupported.to_string(), text);
    assert_eq!(io().to_string(), "no disk");
    assert_eq!(format!("{format:?}"), r#"FormatError("invalid sample rate")"#);
    let not_utf8 = String::from_utf8(vec![0xff]).unwrap_err();
    assert_eq!(Error::from(not_utf8), Error::FormatError("Vorbis comment or vendor string is not valid UTF-8"));
    fn is_error<T: std::error::Error + Send + Sync + 'static>(_: T) {}
    is_error(format);
}

/// The same text is the same `str`, however often it is met.
#[test]
fn texts_are_kept_once() {
    let text = || match FlacReader::new(&b"fLaX"[..]) {
        Err(Error::FormatError(text)) => text,
        _ => panic!("not the fault of the marker"),
    };
    let first = text();
    assert_eq!(first, "invalid stream header");
    let threads: Vec<_> = (0..4).map(|_| std::thread::spawn(move || text().as_ptr() as usize)).collect();
    for thread in threads {
        assert_eq!(thread.join().unwrap(), first.as_ptr() as usize);
    }
}

#[test]
fn files() {
    let path = cases().join("../claxon_raw/data/smallest.flac");
    let mut flac = FlacReader::open(&path).unwrap();
    assert_eq!(flac.samples().map(Result::unwrap).collect::<Vec<_>>(), [5]);
    let flac = FlacReader::open_ext(&path, TAGS_ONLY).unwrap();
    assert!(flac.is_metadata_only());
    assert_eq!(flac.vendor(), None);
    let missing = FlacReader::open(path.with_extension("missing"));
    assert!(matches!(missing, Err(Error::IoError(error)) if error.kind() == io::ErrorKind::NotFound));
}

#[test]
fn readers_may_go_to_other_threads() {
    fn is_send<T: Send>(_: &T) {}
    is_send(&FlacReader::new(Cursor::new(bytes(HEAD))).unwrap());
    is_send(&Block::empty());
}

/// From the start, after a block, and after a seek; in another thread.
#[test]
fn samples_that_own_the_reader() {
    let file = bytes_of("quiet_noise.flac");
    let (all, _) = decode(&file[..]);
    let open = || FlacReader::new(Cursor::new(file.clone())).unwrap();
    let rest_of = |flac: FlacReader<Cursor<Vec<u8>>>| {
        let samples = flac.into_samples();
        std::thread::spawn(move || samples.map(Result::unwrap).collect::<Vec<_>>()).join().unwrap()
    };
    assert!(rest_of(open()) == all);
    let mut flac = open();
    let block = flac.blocks().read_next_or_eof(Vec::new()).unwrap().unwrap();
    assert!(rest_of(flac) == all[block.len() as usize..]);
    let mut flac = open();
    let before = flac.seek(10_000).unwrap().unwrap();
    assert!(rest_of(flac) == all[2 * (10_000 - before as usize)..]);
}
