//! What `FrameReader` says of bytes that are no frames, beside what the library says.
use super::*;
use crate::error::Error;
use crate::ffi::{Failure, NextBlock};
use std::io::Cursor;

// What a call returns, and how many bytes were consumed by then.
type Step = (String, usize);

// Whether the bytes ended before the frame did.
fn is_cut(failure: &Failure) -> bool {
    failure.status == ffi::INPUT_ENDS || failure.status == ffi::NO_MORE
}

// Whether the library says that the frame isn't whole, what it says, and how many bytes it consumes: all of them, a
// frame, or as few as show the fault.
fn step_of_library(bytes: &[u8], samples: &mut [i32]) -> (bool, Step) {
    match ffi::next_block(bytes, &Info::default(), samples) {
        NextBlock::Found { block, length } => (false, (format!("{:?}", &samples[..block.samples()]), length)),
        NextBlock::Failed(failure) if is_cut(&failure) => (true, (String::new(), bytes.len())),
        NextBlock::Failed(failure) => {
            let fewest = (0..bytes.len()).find(|length| !step_of_library(&bytes[..*length], samples).0);
            (false, (Error::from(failure).to_string(), fewest.unwrap_or(bytes.len())))
        }
        NextBlock::BufferTooSmall => panic!("a block of more samples than any block has"),
    }
}

fn steps_of_library(bytes: &[u8], samples: &mut [i32]) -> Vec<Step> {
    let (mut steps, mut at) = (Vec::new(), 0);
    while at < bytes.len() {
        let (is_cut, (result, length)) = step_of_library(&bytes[at..], samples);
        at += length;
        steps.extend((!is_cut).then_some((result, at)));
    }
    steps
}

fn steps_of_reader(bytes: &[u8]) -> Vec<Step> {
    let (mut input, mut steps) = (Cursor::new(bytes), Vec::new());
    while (input.position() as usize) < bytes.len() {
        let result = match FrameReader::new(&mut input).read_next_or_eof(Vec::new()) {
            Ok(Some(block)) => format!("{:?}", block.into_buffer()),
            Ok(None) | Err(Error::IoError(_)) => break,
            Err(error) => error.to_string(),
        };
        steps.push((result, input.position() as usize));
    }
    steps
}

// Bytes that look random, among them bytes of sync codes and whole frames.
fn garbage(length: usize) -> Vec<u8> {
    const FRAME: [u8; 11] = [0xff, 0xf8, 0x69, 2, 0, 0, 0x9a, 0, 5, 0x34, 0x58];
    const BYTES: [u8; 8] = [0xff, 0xff, 0xf8, 0xf9, 0xfa, 0xfe, 0x69, 0];
    let (mut bytes, mut state) = (Vec::new(), 1u32);
    while bytes.len() < length {
        state = state.wrapping_mul(1_664_525).wrapping_add(1_013_904_223);
        match state >> 28 {
            0 => bytes.extend_from_slice(&FRAME),
            1..=9 => bytes.push(BYTES[(state >> 20 & 7) as usize]),
            _ => bytes.push((state >> 16) as u8),
        }
    }
    bytes
}

#[test]
fn faults_follow_one_another_as_the_library_names_them() {
    let mut samples = vec![0; 8 * 65535];
    for bytes in [garbage(10_000), vec![0; 1001], vec![0xff; 1000], [0xff, 0xf8].repeat(500)] {
        let steps = steps_of_reader(&bytes);
        assert!(steps.len() > 100);
        assert_eq!(steps, steps_of_library(&bytes, &mut samples));
    }
    let texts: Vec<_> = steps_of_reader(&garbage(10_000)).into_iter().map(|(text, _)| text).collect();
    for text in ["[5]", "Ill-formed FLAC stream: frame sync code missing"] {
        assert!(texts.iter().any(|found| found == text), "{text}");
    }
}
