//! The stored cases of this repository: files, heads, frames and metadata blocks, with the answers of an independent decoder.
mod common;

use claxon::frame::{FrameReader, FrameResult};
use claxon::metadata::{read_metadata_block, MetadataBlock, StreamInfo};
use claxon::{Error, FlacReader, FlacReaderOptions, Result};
use common::*;
use std::collections::HashSet;
use std::io::{Cursor, Read};

// ---- files

fn hash(samples: &[i32]) -> u64 {
    let bytes = samples.iter().flat_map(|sample| sample.to_le_bytes());
    bytes.fold(0xcbf2_9ce4_8422_2325, |hash, byte| (hash ^ u64::from(byte)).wrapping_mul(0x100_0000_01b3))
}

fn tally((samples, result): (Vec<i32>, Result<()>)) -> String {
    let end = result.map_or_else(|error| fault(&error), |()| "ok".to_string());
    format!("{} {:016x} {end}", samples.len(), hash(&samples))
}

#[test]
fn files() {
    let mut files = 0;
    for line in text_of(&cases().join("stdout")).lines() {
        let (name, answer) = line.split_once(' ').unwrap();
        if !name.ends_with(".flac") {
            continue;
        }
        let bytes = bytes_of(name);
        for piece in [usize::MAX, 997, 61, 1] {
            assert_eq!(tally(decode(Pieces(&bytes[..], piece))), answer, "{name} by {piece}");
            assert_eq!(tally(decode_blocks(Pieces(&bytes[..], piece))), answer, "blocks of {name} by {piece}");
        }
        files += 1;
    }
    assert_eq!(files, 36);
}

// ---- streams

fn open<R: Read>(input: R, number: u32) -> Result<FlacReader<R>> {
    let options = FlacReaderOptions { metadata_only: number & 1 != 0, read_vorbis_comment: number & 2 != 0 };
    FlacReader::new_ext(input, options)
}

fn head<R: Read>(flac: &FlacReader<R>) -> String {
    let vendor = flac.vendor().map_or("-".to_string(), |vendor| format!("<{vendor}>"));
    let tags: String = flac.tags().map(|(name, value)| format!("{name}={value} ")).collect();
    format!("{vendor} {tags}{}", streaminfo(&flac.streaminfo()))
}

fn first(samples: &[i32], most: usize) -> String {
    common::samples(&samples[..most.min(samples.len())])
}

// The first samples and blocks, and how both end.
fn contents(input: &[u8], piece: usize, number: u32, most: usize) -> Result<String> {
    let mut found = Vec::new();
    let mut end = "end".to_string();
    for sample in open(Pieces(input, piece), number)?.samples() {
        match sample {
            Ok(sample) => found.push(sample),
            Err(error) => end = fault(&error),
        }
    }
    let mut text = format!("; {} samples{}", found.len(), first(&found, most));
    let mut flac = open(Pieces(input, piece), number)?;
    for count in 0.. {
        match flac.blocks().read_next_or_eof(Vec::new()) {
            Ok(Some(block)) if count < most => {
                text += &format!("; block {} {}x{}", block.time(), block.channels(), block.duration());
                text += &first(&block.into_buffer(), most);
            }
            Ok(Some(_)) => {}
            last => {
                assert_eq!(last.map_or_else(|error| fault(&error), |_| "end".to_string()), end);
                break;
            }
        }
    }
    Ok(text + "; " + &end)
}

fn answer_of_stream(line: &Line, piece: usize) -> Result<String> {
    let flac = open(Pieces(&line.bytes[..], piece), line.number)?;
    if flac.is_metadata_only() {
        return Ok(head(&flac));
    }
    Ok(head(&flac) + &contents(&line.bytes, piece, line.number, line.length as usize)?)
}

#[test]
fn streams() {
    for line in lines_of("streams.txt") {
        for piece in [usize::MAX, 3, 1] {
            let answer = answer_of_stream(&line, piece).unwrap_or_else(|error| fault(&error));
            assert_eq!(answer, line.answer, "by {piece}: {}", line.text);
        }
    }
}

// ---- frames

fn stream(bits_per_sample: u32, max_block_size: u32) -> StreamInfo {
    StreamInfo {
        min_block_size: 16,
        max_block_size: max_block_size as u16,
        min_frame_size: None,
        max_frame_size: None,
        sample_rate: 44100,
        channels: 1,
        bits_per_sample,
        samples: None,
        md5sum: [0; 16],
    }
}

// More than a hundred equal samples are ` VALUExCOUNT`.
fn samples_of_block(found: &[i32]) -> String {
    match found {
        [first, rest @ ..] if rest.len() >= 100 && rest.iter().all(|sample| sample == first) => {
            format!(" {first}x{}", found.len())
        }
        _ => samples(found),
    }
}

fn answer_of_frame(result: FrameResult, position: usize, all: usize) -> String {
    match result {
        Ok(Some(block)) => {
            let (time, channels, duration) = (block.time(), block.channels(), block.duration());
            format!("{position} block {time} {channels} {duration}{}", samples_of_block(&block.into_buffer()))
        }
        Ok(None) => format!("{position} end"),
        Err(Error::IoError(_)) if position == all => "IO".to_string(),
        Err(error) => format!("{position} {error}"),
    }
}

fn answer_of_frames(line: &Line, old: &[i32]) -> String {
    let mut input = Cursor::new(&line.bytes[..]);
    let mut answers = Vec::new();
    for _ in line.answer.split('|') {
        let mut frames = match line.number {
            0 => FrameReader::new(&mut input),
            _ => FrameReader::with_streaminfo(&mut input, stream(line.number, line.length)),
        };
        let result = frames.read_next_or_eof(old.to_vec());
        answers.push(answer_of_frame(result, input.position() as usize, line.bytes.len()));
    }
    answers.join(" | ")
}

fn replay_frames(name: &str) {
    for line in lines_of(name) {
        for old in [&[][..], &[13], &[13; 16384], &[17], &[17; 16384]] {
            assert_eq!(answer_of_frames(&line, old), line.answer, "into {} old samples: {}", old.len(), line.text);
        }
    }
}

#[test]
fn frames() {
    replay_frames("frames.txt");
}

#[test]
fn written_frames() {
    replay_frames("written_frames.txt");
}

// ---- metadata blocks

fn content(block: MetadataBlock) -> String {
    match block {
        MetadataBlock::StreamInfo(info) => streaminfo(&info),
        MetadataBlock::Padding { length } => format!("padding {length}"),
        MetadataBlock::Application { id, data } if data.is_empty() => format!("application {id}"),
        MetadataBlock::Application { id, data } => {
            let digits: String = data.iter().map(|byte| format!("{byte:02x}")).collect();
            format!("application {id} {digits}")
        }
        MetadataBlock::VorbisComment(comment) => format!("comment {:?} {:?}", comment.vendor, comment.comments),
        MetadataBlock::Reserved => "reserved".to_string(),
        _ => unreachable!("a block that is never returned"),
    }
}

// Without the number of bytes that were consumed before a fault: this crate reads a block as a whole.
fn expected_of_block(answer: &str) -> &str {
    match answer.split_once(' ') {
        Some((number, text)) if number.parse::<u32>().is_ok() => text,
        _ => answer,
    }
}

#[test]
fn metadata_blocks() {
    for line in lines_of("blocks.txt") {
        let mut input = Cursor::new(&line.bytes[..]);
        let answer = match read_metadata_block(&mut input, line.number as u8, line.length) {
            Ok(block) => format!("ok {} {}", input.position(), content(block)),
            Err(error) => fault(&error),
        };
        assert_eq!(answer, expected_of_block(&line.answer), "{}", line.text);
    }
}

// ---- all faults

// The texts of the faults, by the definition of the format.
fn texts_of_faults() -> HashSet<String> {
    let path = cases().join("../claxon_format/specs/Fault.antt");
    let definition = text_of(&path);
    definition.split("codes \"").skip(1).map(|rest| rest.split('"').next().unwrap().to_string()).collect()
}

// Each fault of the format is met by a line above, or by `heads::too_many_blocks`.
#[test]
fn each_fault_has_a_case() {
    let answers: String = ["streams.txt", "frames.txt", "blocks.txt"]
        .iter()
        .flat_map(|name| lines_of(name))
        .map(|line| line.answer + "\n")
        .collect();
    let texts = texts_of_faults();
    assert_eq!(texts.len(), 45);
    for text in texts {
        let has_case = answers
            .split(['\n', '|'])
            .any(|answer| answer.trim_end().trim_end_matches("; end").ends_with(&format!(": {text}")));
        assert!(has_case || text == "more than 65536 metadata blocks are not supported", "{text}");
    }
}
