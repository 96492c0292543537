//! The decoder without input of its own: what it says of bytes that are handed in, and when.
mod common;

use claxon::frame::FrameReader;
use claxon::{Decoder, Error, Event, FlacReader, Held};
use common::made::*;
use common::*;
use std::future::Future;
use std::io::Cursor;
use std::pin::Pin;
use std::sync::atomic::{AtomicUsize, Ordering};
use std::sync::Arc;
use std::task::{Context, Poll, Wake, Waker};

/// What a caller is told, but for `NeedMore`: and how many bytes of the stream were there.
#[derive(Clone, Debug, PartialEq)]
enum Told {
    StreamInfo(String),
    VorbisComment(String, Vec<(String, usize)>),
    Block(u64, Vec<i32>),
    Fault(u64, String),
    Resynced(u64),
    End,
}

/// Holds bytes as an event loop does: those before the decoder's position are dropped, and others are added as it asks.
struct Caller<'a> {
    stream: &'a [u8],
    held: Vec<u8>,
    start: usize,
    piece: usize,
}

impl Caller<'_> {
    fn end(&self) -> usize {
        self.start + self.held.len()
    }

    fn held(&mut self, decoder: &Decoder) -> Held<'_> {
        let passed = (decoder.position() as usize - self.start).min(self.held.len());
        self.held.drain(..passed);
        self.start += passed;
        Held { bytes: &self.held, position: self.start as u64, is_end: self.end() == self.stream.len() }
    }

    fn add(&mut self) {
        let end = self.end();
        self.held.extend_from_slice(&self.stream[end..self.stream.len().min(end + self.piece)]);
    }

    /// All that is told, each with the number of bytes that were there.
    fn told(mut self, mut decoder: Decoder) -> Vec<(Told, usize)> {
        let (mut told, mut buffer, mut is_lost) = (Vec::new(), Vec::new(), false);
        loop {
            let held = self.held(&decoder);
            let event = if is_lost { decoder.resync(held) } else { decoder.decode(held, &mut buffer) };
            let next = match event {
                Ok(Event::NeedMore(count)) => {
                    assert!(decoder.position() as usize + count > self.end() && self.end() < self.stream.len());
                    self.add();
                    continue;
                }
                Ok(Event::Block(block)) => Told::Block(block.time(), block.into_buffer()),
                Ok(Event::Resynced(count)) => Told::Resynced(count),
                Ok(Event::StreamInfo(info)) => Told::StreamInfo(streaminfo(&info)),
                Ok(Event::VorbisComment(comment)) => Told::VorbisComment(comment.vendor, comment.comments),
                Ok(_) => Told::End,
                Err(error) => Told::Fault(decoder.position(), fault(&error)),
            };
            is_lost = matches!(next, Told::Fault(..));
            told.push((next.clone(), self.end()));
            if next == Told::End {
                return told;
            }
        }
    }
}

fn decoder_of(stream: &[u8]) -> Decoder {
    let streaminfo = FlacReader::new(stream).unwrap().streaminfo();
    Decoder::with_streaminfo(streaminfo, bytes(HEAD).len() as u64)
}

fn told_of(stream: &[u8], piece: usize) -> Vec<(Told, usize)> {
    let start = bytes(HEAD).len();
    Caller { stream, held: Vec::new(), start, piece }.told(decoder_of(stream))
}

fn without_ends(told: Vec<(Told, usize)>) -> Vec<Told> {
    told.into_iter().map(|(told, _)| told).collect()
}

fn block_of(made: &Made, number: usize) -> Told {
    let samples = made.blocks[number].iter().map(|byte| i32::from(*byte as i8)).collect();
    Told::Block((number * made.size) as u64, samples)
}

/// Each block is told with the last byte of its frame, and the end with that of the stream.
#[test]
fn blocks_in_time() {
    let made = Made::new(12, 300, 1);
    let stream = made.stream();
    let mut ends = Vec::new();
    let mut end = bytes(HEAD).len();
    for frame in &made.frames {
        end += frame.len();
        ends.push(end);
    }
    for piece in [1, 100, 1460, usize::MAX >> 1] {
        let told = told_of(&stream, piece);
        assert_eq!(told.len(), 13);
        for (number, (found, there)) in told[..12].iter().enumerate() {
            assert!(*found == block_of(&made, number), "{number} by {piece}");
            assert!(*there < ends[number] + piece.min(stream.len()), "{number} by {piece}");
        }
        assert_eq!(told[12].0, Told::End);
    }
}

/// After a fault the search goes on, and what is told is the same in pieces of any size.
#[test]
fn faults() {
    let made = Made::new(12, 300, 1);
    let mut frames = made.frames.clone();
    frames[3][7] ^= 1;
    frames[6].truncate(9);
    frames[11].pop();
    let stream = [head(300, 0), frames.concat()].concat();
    let begin = |number: usize| (bytes(HEAD).len() + frames[..number].concat().len()) as u64;
    let told = without_ends(told_of(&stream, 1));
    let faults: Vec<_> = told.iter().filter(|told| matches!(told, Told::Fault(..) | Told::Resynced(_))).collect();
    assert_eq!(faults[0], &Told::Fault(begin(3), ill_formed("frame header CRC mismatch")));
    assert_eq!(faults[1], &Told::Resynced(frames[3].len() as u64));
    assert!(matches!(faults[2], Told::Fault(position, _) if *position == begin(6)));
    assert_eq!(faults[3], &Told::Resynced(9));
    assert_eq!(faults[4], &Told::Fault(begin(11), "IO".to_string()));
    assert_eq!(faults.len(), 5);
    let blocks: Vec<_> = told.iter().filter(|told| matches!(told, Told::Block(..))).cloned().collect();
    let expected: Vec<_> = [0, 1, 2, 4, 5, 7, 8, 9, 10].iter().map(|number| block_of(&made, *number)).collect();
    assert!(blocks == expected);
    for piece in [2, 7, 100, 1460, usize::MAX >> 1] {
        assert!(without_ends(told_of(&stream, piece)) == told, "{piece}");
    }
}

/// Without `resync` the next call goes on after the bytes that show the fault, as that of a reader does.
#[test]
fn after_a_fault() {
    let damaged = bytes("fff8690200009b00053458");
    let stream = [damaged, bytes(FRAME), bytes(FRAME)].concat();
    let (mut decoder, mut frames) = (Decoder::without_head(0), FrameReader::new(Cursor::new(&stream)));
    let mut count = 0;
    loop {
        let held = Held { bytes: &stream, position: 0, is_end: true };
        let event = decoder.decode(held, &mut Vec::new());
        match (event, frames.read_next_or_eof(Vec::new())) {
            (Ok(Event::Block(block)), Ok(Some(expected))) => assert_eq!(block.channel(0), expected.channel(0)),
            (Ok(Event::End), Ok(None)) => break,
            (Err(error), Err(expected)) => assert_eq!(error, expected),
            _ => panic!("another event than that of a reader"),
        }
        count += 1;
    }
    assert_eq!(count, 5);
}

/// A copy goes on by itself, and positions may be counted from anywhere.
#[test]
fn copies_and_positions() {
    let stream = [bytes(FRAME), bytes(FRAME)].concat();
    let begin = 1 << 40;
    let held = |count: usize| Held { bytes: &stream[..count], position: begin, is_end: count == stream.len() };
    let mut decoder = Decoder::without_head(begin);
    assert!(matches!(decoder.decode(held(4), &mut Vec::new()), Ok(Event::NeedMore(5))));
    let mut copy = decoder;
    for decoder in [&mut decoder, &mut copy] {
        for number in 1..3 {
            let block = decoder.decode(held(22), &mut Vec::new());
            assert!(matches!(block, Ok(Event::Block(block)) if block.channel(0) == [5]));
            assert_eq!(decoder.position(), begin + 11 * number);
        }
        assert!(matches!(decoder.decode(held(22), &mut Vec::new()), Ok(Event::End)));
    }
    let mut far = Decoder::without_head(u64::MAX >> 1);
    let held = Held { bytes: &stream, position: u64::MAX >> 1, is_end: true };
    assert!(matches!(far.decode(held, &mut Vec::new()), Err(Error::Unsupported(_))));
}

/// The head is told too, of which a picture isn't held. A fault in it is told each time, until `resync` goes to a frame.
#[test]
fn heads() {
    let comments = bytes(COMMENTS);
    let comment = block(4, &comments[4..]);
    let picture = block(0x86, &[0xff; 100_000]);
    let stream = stream_with(&[&comment, &picture]);
    let info = streaminfo(&FlacReader::new(&stream[..]).unwrap().streaminfo());
    let expected = [
        Told::StreamInfo(info),
        Told::VorbisComment(String::new(), vec![("X=Y".to_string(), 1)]),
        Told::Block(0, vec![5]),
        Told::End,
    ];
    for piece in [1, 7, 1460, usize::MAX >> 1] {
        let told = Caller { stream: &stream, held: Vec::new(), start: 0, piece }.told(Decoder::new());
        assert_eq!(without_ends(told), expected);
    }
    let mut decoder = Decoder::default();
    let faulty = [open_head(), block(127, &[0; 34]), bytes(FRAME)].concat();
    let held = Held { bytes: &faulty, position: 0, is_end: true };
    assert!(matches!(decoder.decode(held, &mut Vec::new()), Ok(Event::StreamInfo(_))));
    for _ in 0..2 {
        let error = decoder.decode(held, &mut Vec::new()).err().unwrap();
        assert_eq!(error, Error::FormatError("invalid metadata block type"));
    }
    let skipped = (faulty.len() - bytes(FRAME).len()) as u64 - decoder.position();
    assert!(matches!(decoder.resync(held), Ok(Event::Resynced(count)) if count == skipped));
    assert!(matches!(decoder.decode(held, &mut Vec::new()), Ok(Event::Block(_))));
    assert!(matches!(decoder.decode(held, &mut Vec::new()), Ok(Event::End)));
}

/// A socket: a read waits before each piece, and gives nothing at the end.
struct Socket<'a> {
    bytes: &'a [u8],
    is_ready: bool,
}

impl Future for Socket<'_> {
    type Output = Vec<u8>;

    fn poll(mut self: Pin<&mut Self>, context: &mut Context<'_>) -> Poll<Vec<u8>> {
        self.is_ready = !self.is_ready;
        if !self.is_ready {
            let (piece, rest) = self.bytes.split_at(self.bytes.len().min(100));
            self.bytes = rest;
            return Poll::Ready(piece.to_vec());
        }
        context.waker().wake_by_ref();
        Poll::Pending
    }
}

async fn samples_of(mut socket: Socket<'_>) -> claxon::Result<Vec<i32>> {
    let (mut decoder, mut buffer, mut samples) = (Decoder::new(), Vec::new(), Vec::new());
    let (mut bytes, mut position, mut is_end) = (Vec::new(), 0, false);
    loop {
        match decoder.decode(Held { bytes: &bytes, position, is_end }, &mut buffer)? {
            Event::Block(block) => samples.extend(block.into_buffer()),
            Event::NeedMore(_) => {
                bytes.drain(..(decoder.position() - position) as usize);
                position = decoder.position();
                let piece = (&mut socket).await;
                is_end = piece.is_empty();
                bytes.extend(piece);
            }
            Event::End => return Ok(samples),
            _ => {}
        }
    }
}

struct Thread(AtomicUsize);

impl Wake for Thread {
    fn wake(self: Arc<Self>) {
        self.0.fetch_add(1, Ordering::Relaxed);
    }
}

/// An async caller needs nothing but the decoder.
#[test]
fn an_async_caller() {
    let made = Made::new(12, 300, 1);
    let (stream, thread) = (made.stream(), Arc::new(Thread(AtomicUsize::new(0))));
    let waker = Waker::from(thread.clone());
    let mut samples = Box::pin(samples_of(Socket { bytes: &stream, is_ready: false }));
    let found = loop {
        if let Poll::Ready(found) = samples.as_mut().poll(&mut Context::from_waker(&waker)) {
            break found.unwrap();
        }
    };
    let expected: Vec<i32> = made.blocks.concat().into_iter().map(|byte| i32::from(byte as i8)).collect();
    assert!(found == expected);
    assert!(thread.0.load(Ordering::Relaxed) > stream.len() / 100);
}

/// A seek asks for bytes anywhere, in pieces of any size, and gives the block that has the sample; after it the next one
/// follows. The numbers of an old encoder are those of samples, which the first two frames show.
#[test]
fn seeks() {
    let made = Made::new(40, 300, 1);
    let mut old = made.stream();
    let first = bytes(HEAD).len();
    old[8..10].copy_from_slice(&299u16.to_be_bytes());
    old.truncate(first);
    (0..7).for_each(|number| old.extend(frame(number * 300, &made.blocks[number])));
    for (stream, count) in [(made.stream(), 40), (old, 7)] {
        for piece in [1, 100, stream.len()] {
            let (mut decoder, mut buffer) = (Decoder::new(), Vec::new());
            for sample in (0..count * 300).step_by(271) {
                decoder.begin_seek(sample as u64, Some(stream.len() as u64));
                let block = sought(&mut decoder, &stream, piece, &mut buffer).unwrap();
                assert_eq!(Told::Block(block.time(), block.into_buffer()), block_of(&made, sample / 300));
            }
            for length in [None, Some(0), Some(stream.len() as u64)] {
                decoder.begin_seek(count as u64 * 300, length);
                assert!(sought(&mut decoder, &stream, piece, &mut buffer).is_none());
            }
        }
    }
}

/// What a seek gives, by pieces that are handed in as it asks for them.
fn sought(decoder: &mut Decoder, stream: &[u8], piece: usize, buffer: &mut Vec<i32>) -> Option<claxon::Block> {
    let (mut start, mut end) = (0, 0);
    loop {
        let bytes = stream.get(start..end).unwrap_or(&[]);
        let held = Held { bytes, position: start as u64, is_end: end >= stream.len() };
        match decoder.seek(held, buffer).unwrap() {
            Event::NeedMore(count) => {
                let position = decoder.position() as usize;
                assert!(count > 0 && (position < start || position + count > end));
                let from = if (start..=end).contains(&position) { end } else { position };
                (start, end) = (position, from.max(stream.len().min(from + piece)));
            }
            Event::Block(block) => return Some(block),
            Event::End => return None,
            _ => {}
        }
    }
}
