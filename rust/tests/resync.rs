//! Going on after faults. The frames that are found, and the bytes that are skipped, are those of streams that are made, or
//! of a search that tries each position.
mod common;

use claxon::frame::FrameReader;
use claxon::input::{BufferedReader, ReadBytes};
use claxon::{Block, Error, FlacReader};
use common::made::*;
use common::*;
use std::io::{self, Cursor, Read};
use std::time::Instant;

/// What reading on and on comes to.
#[derive(Debug, PartialEq)]
enum Event {
    /// A block: its time, and its samples.
    Block(u64, Vec<i32>),
    /// A fault, and the bytes that are skipped to the next frame.
    Fault(Option<u64>),
}

fn event_of(block: Block) -> Event {
    Event::Block(block.time(), block.into_buffer())
}

/// Goes on after each fault up to the end. An error that isn't one of the stream is passed, as is one of `resync`.
fn events<R: ReadBytes>(frames: &mut FrameReader<R>) -> Vec<Event> {
    let (mut found, mut skips) = (Vec::new(), false);
    let is_passing =
        |error: &Error| matches!(error, Error::IoError(error) if error.kind() != io::ErrorKind::UnexpectedEof);
    loop {
        if skips {
            match frames.resync() {
                Ok(skipped) => found.push(Event::Fault(skipped)),
                Err(error) => assert!(is_passing(&error), "{error}"),
            }
            skips = !matches!(found.last(), Some(Event::Fault(_)));
            continue;
        }
        match frames.read_next_or_eof(Vec::new()) {
            Ok(Some(block)) => found.push(event_of(block)),
            Ok(None) => return found,
            Err(error) => skips = !is_passing(&error),
        }
    }
}

fn samples_of(event: &Event) -> Option<&[i32]> {
    match event {
        Event::Block(_, samples) => Some(samples),
        Event::Fault(_) => None,
    }
}

fn events_of(stream: &[u8]) -> Vec<Event> {
    events(&mut FlacReader::new(stream).unwrap().blocks())
}

/// The block of this number of a stream that is made.
fn block_of(made: &Made, number: usize) -> Event {
    let samples = made.blocks[number].iter().map(|byte| i32::from(*byte as i8)).collect();
    Event::Block((number * made.size) as u64, samples)
}

/// The blocks of all numbers but this one, and as many bytes that are skipped in its place.
fn all_but(made: &Made, lost: usize, skipped: usize) -> Vec<Event> {
    let is_last = lost + 1 == made.blocks.len();
    let event = |number| match number == lost {
        true => Event::Fault((!is_last).then_some(skipped as u64)),
        false => block_of(made, number),
    };
    (0..made.blocks.len()).map(event).collect()
}

/// A bit is wrong in the sync code, in the header, in its CRC, in a sample or in the CRC of a frame, which alone is lost.
#[test]
fn a_damaged_frame() {
    let made = Made::new(12, 300, 1);
    for lost in 0..12 {
        let length = made.frames[lost].len();
        for place in [0, 1, 2, 3, 6, 7, 9, length - 2, length - 1] {
            let mut frames = made.frames.clone();
            frames[lost][place] ^= 8;
            let stream = [head(300, 0), frames.concat()].concat();
            assert!(events_of(&stream) == all_but(&made, lost, length), "{lost} {place}");
        }
    }
}

/// Bytes are missing from a frame: its fault shows within the next frame, which isn't lost.
#[test]
fn a_frame_within_the_bytes_of_a_fault() {
    let made = Made::new(12, 300, 1);
    let lost = (4..11).find(|number| made.frames[*number].len() > 300).unwrap();
    for missing in [1, 2, 10, 100, 290] {
        let mut frames = made.frames.clone();
        frames[lost].drain(8..8 + missing);
        let length = frames[lost].len();
        let stream = [head(300, 0), frames.concat()].concat();
        let expected = all_but(&made, lost, length);
        assert!(events_of(&stream) == expected, "{missing}");
        // With a new reader of frames for each call, in memory, and after samples.
        let (mut flac, mut found) = (FlacReader::new(&stream[..]).unwrap(), Vec::new());
        while let Ok(Some(block)) = flac.blocks().read_next_or_eof(Vec::new()) {
            found.push(event_of(block));
        }
        assert_eq!(flac.blocks().resync().unwrap(), Some(length as u64));
        found.push(Event::Fault(Some(length as u64)));
        found.extend(events(&mut flac.blocks()));
        assert!(found == expected);
        let mut frames = Cursor::new(&stream[..]);
        frames.set_position(bytes(HEAD).len() as u64);
        let streaminfo = FlacReader::new(&stream[..]).unwrap().streaminfo();
        assert!(events(&mut FrameReader::with_streaminfo(frames, streaminfo)) == expected);
        let mut flac = FlacReader::new(&stream[..]).unwrap();
        assert!(flac.samples().any(|sample| sample.is_err()));
        assert_eq!(flac.blocks().resync().unwrap(), Some(length as u64));
    }
}

/// A frame that claims to have very many samples holds all that come after it, or the stream is cut within it.
#[test]
fn frames_within_a_cut_frame() {
    let made = Made::new(30, 300, 2);
    let long_header = [header(0, 65535), vec![2]].concat();
    let stream = [head(300, 0), long_header.clone(), made.frames.concat()].concat();
    let mut expected: Vec<Event> = (0..30).map(|number| block_of(&made, number)).collect();
    expected.insert(0, Event::Fault(Some(long_header.len() as u64)));
    assert!(events_of(&stream) == expected);
    let mut flac = FlacReader::new(&stream[..stream.len() - 1]).unwrap();
    expected.pop();
    expected.push(Event::Fault(None));
    assert!(events(&mut flac.blocks()) == expected);
    assert_eq!(flac.blocks().resync().unwrap(), None);
}

/// Where no frame was refused nothing is skipped. A frame that is found is there for the next reader too.
#[test]
fn at_a_frame() {
    let made = Made::new(3, 300, 1);
    let stream = made.stream();
    let mut flac = FlacReader::new(&stream[..]).unwrap();
    for number in 0..3 {
        assert_eq!(flac.blocks().resync().unwrap(), Some(0));
        assert_eq!(flac.blocks().resync().unwrap(), Some(0));
        made.expect_next(&mut flac, number);
    }
    assert_eq!(flac.blocks().resync().unwrap(), None);
    assert!(flac.blocks().read_next_or_eof(Vec::new()).unwrap().is_none());
}

/// Frames of another number of channels are none of the stream.
#[test]
fn frames_of_another_stream() {
    let made = Made::new(4, 300, 1);
    let mut other = [0xff, 0xf8, 0x69, 0x10, 0, 0].to_vec();
    other.push(crc8(&other));
    other.extend([0, 1, 0, 1]);
    other.extend(crc16(&other).to_be_bytes());
    let stream = [head(300, 0), vec![7], other.clone(), made.frames.concat()].concat();
    assert_eq!(events_of(&stream)[0], Event::Fault(Some(1 + other.len() as u64)));
    // Without a streaminfo it is found.
    let mut frames =
        FrameReader::new(Cursor::new([&[7][..], &[0xff, 0xf8, 0x69, 2, 0, 0, 0x9a, 0, 5, 0x34, 0x58]].concat()));
    assert!(frames.read_next_or_eof(Vec::new()).is_err());
    assert_eq!(frames.resync().unwrap(), Some(1));
    assert_eq!(frames.read_next_or_eof(Vec::new()).unwrap().unwrap().into_buffer(), [5]);
}

/// Who joins a stream of an encoder in the middle needs no head. (Without one the time of the last block, which is shorter,
/// isn't known.)
#[test]
fn in_the_middle_of_a_stream() {
    let stream = bytes_of("quiet_noise.flac");
    let ends = frame_ends(&stream);
    let mut all = FlacReader::new(&stream[..]).unwrap();
    let bits = all.streaminfo().bits_per_sample;
    let expected = events(&mut all.blocks());
    for from in (0..ends[ends.len() - 2]).step_by(997).chain(ends[..ends.len() - 1].iter().copied()) {
        let mut frames = FrameReader::new(BufferedReader::new(Pieces(&stream[from..], 1460)));
        let next = ends.iter().position(|end| *end >= from).unwrap();
        assert_eq!(frames.resync().unwrap(), Some((ends[next] - from) as u64));
        let block = frames.read_next_or_eof(Vec::new()).unwrap().unwrap();
        assert_eq!(block.bits_per_sample(), Some(bits));
        assert!(samples_of(&event_of(block)) == samples_of(&expected[next]));
        assert!(events(&mut frames).iter().map(samples_of).eq(expected[next + 1..].iter().map(samples_of)));
    }
}

/// Gives one byte, and then says that there is none yet.
struct ByteByByte<'a>(&'a [u8], bool);

impl Read for ByteByByte<'_> {
    fn read(&mut self, buffer: &mut [u8]) -> io::Result<usize> {
        self.1 = !self.1;
        if self.1 {
            return Err(io::ErrorKind::WouldBlock.into());
        }
        let count = buffer.len().min(1);
        self.0.read(&mut buffer[..count])
    }
}

/// A frame is found when its last byte was read, whether a reader waits for bytes or not.
#[test]
fn readers() {
    let made = Made::new(20, 300, 3);
    let mut frames = made.frames.clone();
    [3, 4, 11, 19].into_iter().for_each(|number| frames[number][7] ^= 1);
    let body = frames.concat();
    let stream = [head(300, 0), body.clone()].concat();
    let streaminfo = FlacReader::new(&stream[..]).unwrap().streaminfo();
    let expected = events_of(&stream);
    assert_eq!(expected.iter().filter(|event| matches!(event, Event::Fault(_))).count(), 3);
    for piece in [1, 2, 7, 100, 1460] {
        assert!(events(&mut FlacReader::new(Pieces(&stream[..], piece)).unwrap().blocks()) == expected);
    }
    let slow = BufferedReader::new(ByteByByte(&body, false));
    assert!(events(&mut FrameReader::with_streaminfo(slow, streaminfo)) == expected);
    // Two frames are lost, and the next is found when its last byte is there.
    let end = frames[..6].concat().len();
    let mut frames = FrameReader::with_streaminfo(BufferedReader::new(ByteByByte(&body[..end], false)), streaminfo);
    let mut last = Vec::new();
    for _ in 0..2 * end {
        last.push(match frames.read_next_or_eof(Vec::new()) {
            Err(Error::FormatError(_)) => break,
            result => matches!(result, Ok(Some(_))),
        });
    }
    assert_eq!(last.iter().filter(|is_block| **is_block).count(), 3);
    let found = (0..2 * end).find_map(|_| frames.resync().ok());
    assert_eq!(found, Some(Some((made.frames[3].len() + made.frames[4].len()) as u64)));
}

/// Each read fails in turn, and nothing is lost.
#[test]
fn failures() {
    let made = Made::new(10, 300, 4);
    let mut frames = made.frames.clone();
    [2, 5, 9].into_iter().for_each(|number| frames[number][7] ^= 1);
    let stream = [head(300, 0), frames.concat()].concat();
    let expected = events_of(&stream);
    let steps: Vec<Step> = stream.chunks(100).map(|piece| Step::Gives(piece.to_vec())).collect();
    for failing in 1..=steps.len() {
        let mut steps = steps.clone();
        steps.insert(failing, Step::Fails(io::ErrorKind::TimedOut));
        let mut flac = FlacReader::new(Steps::new(steps)).unwrap();
        assert!(events(&mut flac.blocks()) == expected, "{failing}");
    }
}

/// As the search that tries each position: a frame of one channel there, or none.
fn events_by_tries(stream: &[u8]) -> Vec<Event> {
    let streaminfo = FlacReader::new(stream).unwrap().streaminfo();
    let (mut found, mut at) = (Vec::new(), bytes(HEAD).len());
    let frame_at = |at: usize| {
        let mut input = Cursor::new(&stream[at..]);
        let found = FrameReader::with_streaminfo(&mut input, streaminfo).read_next_or_eof(Vec::new());
        (found, input.position() as usize)
    };
    loop {
        let (result, length) = frame_at(at);
        match result {
            Ok(Some(block)) => {
                found.push(event_of(block));
                at += length;
            }
            Ok(None) => return found,
            Err(_) => {
                let is_frame = |at: &usize| matches!(frame_at(*at).0, Ok(Some(block)) if block.channels() == 1);
                let next = (at + 1..stream.len()).filter(|at| stream[*at] == 0xff).find(is_frame);
                found.push(Event::Fault(next.map(|next| (next - at) as u64)));
                at = next.unwrap_or(stream.len());
            }
        }
    }
}

#[test]
fn damage() {
    let mut noise = Noise(6);
    for round in 0..100 {
        let made = Made::new(40, 300, round);
        let mut stream = made.stream();
        let first = bytes(HEAD).len();
        for _ in 0..noise.below(30) {
            let place = first + noise.below(stream.len() - first);
            match round % 3 {
                0 => stream[place] ^= 1 << noise.below(8),
                1 => stream.truncate(stream.len() - noise.below(20).min(stream.len() - first)),
                _ => drop(stream.drain(place..stream.len().min(place + noise.below(200)))),
            }
        }
        assert!(events_of(&stream) == events_by_tries(&stream), "{round}");
    }
}

/// Headers everywhere, of large blocks; sync codes everywhere; frames with wrong CRCs.
#[test]
fn hostile_streams() {
    let start = Instant::now();
    let frame_header = [header(0, 65535), vec![2]].concat();
    let mut wrong = frame(0, &[1; 300]);
    wrong[9] ^= 1;
    for repeated in [frame_header, wrong, vec![0xff, 0xf8], vec![0xff], vec![0xff, 0xf8, 0x69, 2]] {
        let stream = [head(65535, 1 << 30), repeated.repeat(4_000_000 / repeated.len())].concat();
        for piece in [usize::MAX, 100] {
            let mut flac = FlacReader::new(Pieces(&stream[..], piece)).unwrap();
            let mut faults = 0;
            while let Err(error) = flac.blocks().read_next_or_eof(Vec::new()) {
                assert!(faults == 0, "{error}");
                faults += 1;
                assert_eq!(flac.blocks().resync().unwrap(), None);
            }
        }
    }
    assert!(start.elapsed().as_secs() < 60);
}
