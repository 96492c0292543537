//! The example that writes WAV files, and the file of the documentation's examples.
mod common;

#[path = "../examples/wav.rs"]
mod wav;

use claxon::FlacReader;
use common::*;
use std::fs;
use std::io::Cursor;
use std::path::Path;

fn wav_of(stream: &[u8]) -> Vec<u8> {
    let mut output = Cursor::new(Vec::new());
    wav::write_wav(&mut FlacReader::new(stream).unwrap(), &mut output).unwrap();
    output.into_inner()
}

/// One channel of 8 bits at 44,100 Hz, the sample 5: unsigned, and a byte after it to an even length.
#[test]
fn samples_of_a_byte() {
    let wav = wav_of(&[bytes(HEAD), bytes(FRAME)].concat());
    let header = b"RIFF\x26\0\0\0WAVEfmt \x10\0\0\0\x01\0\x01\0\x44\xac\0\0\x44\xac\0\0\x01\0\x08\0data\x01\0\0\0";
    assert_eq!(wav, [&header[..], &[0x85, 0]].concat());
}

/// The samples of a file whose samples are stored, as 16 bits each.
#[test]
fn samples_of_two_bytes() {
    let file = bytes_of("quiet_noise.flac");
    let (samples, _) = decode(&file[..]);
    let wav = wav_of(&file);
    let data: Vec<u8> = samples.iter().flat_map(|sample| (*sample as i16).to_le_bytes()).collect();
    assert_eq!(wav[40..44], (data.len() as u32).to_le_bytes());
    assert!(wav[44..] == data);
}

#[test]
fn a_frame_of_other_channels() {
    let file = bytes_of("three_and_other_channels.flac");
    let mut flac = FlacReader::new(&file[..]).unwrap();
    let error = wav::write_wav(&mut flac, &mut Cursor::new(Vec::new())).unwrap_err();
    assert_eq!(error.to_string(), "the number of channels changes");
}

/// A package has no other file of the repository, so the crate has a copy of one.
#[test]
fn the_file_of_the_documentation() {
    let folder = Path::new(env!("CARGO_MANIFEST_DIR"));
    let read = |name: &str| fs::read(folder.join(name)).unwrap();
    assert!(read("examples/tagged.flac") == read("../examples/tagged.flac"));
}
