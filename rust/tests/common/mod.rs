//! What the tests share: stored cases, readers that give little or fail, and results as text.
#![allow(dead_code)]
pub mod made;

use claxon::frame::FrameReader;
use claxon::input::ReadBytes;
use claxon::metadata::{MetadataBlockReader, StreamInfo};
use claxon::{Error, FlacReader, FlacReaderOptions, Result};
use std::cell::Cell;
use std::fmt::Write as _;
use std::fs;
use std::io::{self, Cursor, Read};
use std::path::{Path, PathBuf};
use std::rc::Rc;

/// The cases, whose results were made without this decoder.
pub fn cases() -> PathBuf {
    Path::new(env!("CARGO_MANIFEST_DIR")).join("../crates/claxon_cases")
}

pub fn text_of(path: &Path) -> String {
    fs::read_to_string(path).unwrap_or_else(|error| panic!("{}: {error}", path.display()))
}

pub fn bytes_of(name: &str) -> Vec<u8> {
    let path = cases().join("data").join(name);
    fs::read(&path).unwrap_or_else(|error| panic!("{}: {error}", path.display()))
}

/// The bytes of hexadecimal digits.
pub fn bytes(digits: &str) -> Vec<u8> {
    let value = |pair: &[u8]| u8::from_str_radix(std::str::from_utf8(pair).unwrap(), 16).unwrap();
    digits.as_bytes().chunks(2).map(value).collect()
}

/// A line `NUMBER LENGTH BYTES: ANSWER`.
pub struct Line {
    pub number: u32,
    pub length: u32,
    pub bytes: Vec<u8>,
    pub answer: String,
    pub text: String,
}

pub fn lines_of(name: &str) -> Vec<Line> {
    let text = text_of(&cases().join("data").join(name));
    let lines: Vec<Line> = text.lines().map(line_of).collect();
    assert!(lines.len() > 100, "{name} has few lines");
    lines
}

fn line_of(line: &str) -> Line {
    let (case, answer) = line.split_once(": ").unwrap();
    let words: Vec<&str> = case.split(' ').collect();
    Line {
        number: words[0].parse().unwrap(),
        length: words[1].parse().unwrap(),
        bytes: bytes(words[2]),
        answer: answer.to_string(),
        text: line.to_string(),
    }
}

/// One channel of 8 bits, one sample 5: the marker and a streaminfo, and a frame.
pub const HEAD: &str = "664c614380000022001000100000000000000ac440700000000100000000000000000000000000000000";
pub const FRAME: &str = "fff8690200009a00053458";
/// The second block of a head: a vendor string that is empty, and the tag `X=Y`.
pub const COMMENTS: &str = "8400001300000000020000000000000003000000583d59";

/// The head without the mark that its streaminfo is the last block.
pub fn open_head() -> Vec<u8> {
    let mut head = bytes(HEAD);
    head[4] = 0;
    head
}

/// The marker, the streaminfo, these blocks and a frame.
pub fn stream_with(blocks: &[&[u8]]) -> Vec<u8> {
    [open_head(), blocks.concat(), bytes(FRAME)].concat()
}

/// A metadata block.
pub fn block(block_type: u8, content: &[u8]) -> Vec<u8> {
    let mut block = (content.len() as u32).to_be_bytes().to_vec();
    block[0] = block_type;
    block.extend_from_slice(content);
    block
}

pub const OPTIONS: [FlacReaderOptions; 4] = [
    FlacReaderOptions { metadata_only: false, read_vorbis_comment: false },
    FlacReaderOptions { metadata_only: true, read_vorbis_comment: false },
    FlacReaderOptions { metadata_only: false, read_vorbis_comment: true },
    FlacReaderOptions { metadata_only: true, read_vorbis_comment: true },
];

pub const STREAMINFO_ONLY: FlacReaderOptions = OPTIONS[1];
pub const TAGS_ONLY: FlacReaderOptions = OPTIONS[3];

/// A fault as it is printed, and `IO` for any error of the reader.
pub fn fault(error: &Error) -> String {
    match error {
        Error::IoError(_) => "IO".to_string(),
        _ => error.to_string(),
    }
}

pub fn ill_formed(reason: &str) -> String {
    format!("Ill-formed FLAC stream: {reason}")
}

pub fn unsupported(feature: &str) -> String {
    format!("A currently unsupported feature of the FLAC format was encountered: {feature}")
}

pub fn streaminfo(info: &StreamInfo) -> String {
    let size = |size: Option<u32>| size.map_or("none".to_string(), |size| size.to_string());
    let samples = info.samples.map_or("none".to_string(), |samples| samples.to_string());
    let mut text = format!(
        "streaminfo blocks {}-{} frames {}-{} rate {} channels {} width {} samples {samples} md5 ",
        info.min_block_size,
        info.max_block_size,
        size(info.min_frame_size),
        size(info.max_frame_size),
        info.sample_rate,
        info.channels,
        info.bits_per_sample,
    );
    for byte in info.md5sum {
        write!(text, "{byte:02x}").unwrap();
    }
    text
}

/// ` SAMPLE SAMPLE ..`
pub fn samples(samples: &[i32]) -> String {
    samples.iter().map(|sample| format!(" {sample}")).collect()
}

/// The samples up to the end or the first error.
pub fn decode<R: Read>(reader: R) -> (Vec<i32>, Result<()>) {
    let mut found = Vec::new();
    let mut flac = match FlacReader::new(reader) {
        Ok(flac) => flac,
        Err(error) => return (found, Err(error)),
    };
    for sample in flac.samples() {
        match sample {
            Ok(sample) => found.push(sample),
            Err(error) => return (found, Err(error)),
        }
    }
    (found, Ok(()))
}

/// The same, interleaved here.
pub fn decode_blocks<R: Read>(reader: R) -> (Vec<i32>, Result<()>) {
    let mut found = Vec::new();
    let result = add_blocks(reader, &mut found);
    (found, result)
}

fn add_blocks<R: Read>(reader: R, found: &mut Vec<i32>) -> Result<()> {
    let mut flac = FlacReader::new(reader)?;
    let mut blocks = flac.blocks();
    let mut buffer = Vec::new();
    while let Some(block) = blocks.read_next_or_eof(buffer)? {
        for index in 0..block.duration() {
            found.extend((0..block.channels()).map(|ch| block.channel(ch)[index as usize]));
        }
        buffer = block.into_buffer();
    }
    Ok(())
}

/// Of RFC 9639, sections 9.1.8 and 9.3.
pub fn crc8(bytes: &[u8]) -> u8 {
    let step = |crc: u8| if crc & 0x80 != 0 { crc << 1 ^ 0x07 } else { crc << 1 };
    bytes.iter().fold(0, |crc, byte| (0..8).fold(crc ^ byte, |crc, _| step(crc)))
}

pub fn crc16(bytes: &[u8]) -> u16 {
    let step = |crc: u16| if crc & 0x8000 != 0 { crc << 1 ^ 0x8005 } else { crc << 1 };
    let of_byte: [u16; 256] = std::array::from_fn(|byte| (0..8).fold((byte as u16) << 8, |crc, _| step(crc)));
    bytes.iter().fold(0, |crc, byte| crc << 8 ^ of_byte[usize::from((crc >> 8) as u8 ^ byte)])
}

/// The place of the first frame, and where each frame ends.
pub fn frame_ends(stream: &[u8]) -> Vec<usize> {
    let mut input = Cursor::new(stream);
    input.skip(4).unwrap();
    assert!(MetadataBlockReader::new(&mut input).all(|block| block.is_ok()));
    let mut ends = vec![input.position() as usize];
    while let Ok(Some(_)) = FrameReader::new(&mut input).read_next_or_eof(Vec::new()) {
        ends.push(input.position() as usize);
    }
    ends
}

/// Gives at most as many bytes a read.
pub struct Pieces<R>(pub R, pub usize);

impl<R: Read> Read for Pieces<R> {
    fn read(&mut self, buffer: &mut [u8]) -> io::Result<usize> {
        let count = buffer.len().min(self.1);
        self.0.read(&mut buffer[..count])
    }
}

/// What a reader does in a read: it gives bytes, or it fails.
#[derive(Clone)]
pub enum Step {
    Gives(Vec<u8>),
    Fails(io::ErrorKind),
}

/// Takes one step a read, and then is at its end.
pub struct Steps {
    steps: std::vec::IntoIter<Step>,
    pub reads: Rc<Cell<usize>>,
}

impl Steps {
    pub fn new(steps: Vec<Step>) -> Steps {
        Steps { steps: steps.into_iter(), reads: Rc::default() }
    }
}

impl Read for Steps {
    fn read(&mut self, buffer: &mut [u8]) -> io::Result<usize> {
        self.reads.set(self.reads.get() + 1);
        match self.steps.next() {
            Some(Step::Gives(bytes)) => {
                buffer[..bytes.len()].copy_from_slice(&bytes);
                Ok(bytes.len())
            }
            Some(Step::Fails(kind)) => Err(kind.into()),
            None => Ok(0),
        }
    }
}
