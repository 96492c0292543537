//! Sources that send bytes as they come: each block is returned when its last byte was read.
mod common;

use claxon::{Error, FlacReader};
use common::*;
use std::cell::Cell;
use std::io::{self, Read, Write};
use std::os::unix::net::UnixStream;
use std::sync::mpsc::{channel, Receiver};
use std::thread;
use std::time::{Duration, Instant};

const FRAMES: usize = 149;
const TIMEOUT: Duration = Duration::from_secs(60);

/// A stream, where its frames end, and the samples of each, one channel after another.
struct Stream {
    bytes: Vec<u8>,
    ends: Vec<usize>,
    samples: Vec<Vec<i32>>,
}

impl Stream {
    fn frames_within(&self, end: usize) -> usize {
        self.ends.iter().filter(|place| **place <= end).count()
    }

    /// Its first frames alone.
    fn first(&self, count: usize) -> Stream {
        Stream {
            bytes: self.bytes[..self.ends[count - 1]].to_vec(),
            ends: self.ends[..count].to_vec(),
            samples: self.samples[..count].to_vec(),
        }
    }
}

/// The frame with this number, of samples of 8 bits: each channel is verbatim, or constant.
fn frame(number: usize, channels: &[Vec<u8>]) -> Vec<u8> {
    frame_of_depth(number, 1, channels)
}

/// The same of samples of one to three bytes, big-endian. Constant are those of one byte alone.
fn frame_of_depth(number: usize, depth: usize, channels: &[Vec<u8>]) -> Vec<u8> {
    let depth_code = [1, 4, 6][depth - 1];
    let mut frame = vec![0xff, 0xf8, 0x79, (channels.len() as u8 - 1) << 4 | depth_code << 1];
    match number {
        0..=0x7f => frame.push(number as u8),
        _ => frame.extend([0xc0 | (number >> 6) as u8, 0x80 | (number & 0x3f) as u8]),
    }
    frame.extend_from_slice(&((channels[0].len() / depth) as u16 - 1).to_be_bytes());
    frame.push(crc8(&frame));
    for channel in channels {
        if depth == 1 && channel.iter().all(|sample| *sample == channel[0]) {
            frame.extend([0, channel[0]]);
        } else {
            frame.push(2);
            frame.extend_from_slice(channel);
        }
    }
    frame.extend_from_slice(&crc16(&frame).to_be_bytes());
    frame
}

/// Bytes that look random.
fn noise_of(seed: u64) -> impl FnMut() -> u8 {
    let mut state = seed;
    move || {
        state = state.wrapping_mul(6_364_136_223_846_793_005).wrapping_add(1_442_695_040_888_963_407);
        (state >> 56) as u8
    }
}

/// 149 frames of 4096 samples that look random, of one to three channels. Each tenth is constant.
fn stream() -> Stream {
    let mut stream = Stream { bytes: bytes(HEAD), ends: Vec::new(), samples: Vec::new() };
    let mut noise = noise_of(1);
    for number in 0..FRAMES {
        let channels: Vec<Vec<u8>> = (0..1 + number % 3)
            .map(|_| if number % 10 == 9 { vec![noise(); 4096] } else { (0..4096).map(|_| noise()).collect() })
            .collect();
        stream.bytes.extend(frame(number, &channels));
        stream.ends.push(stream.bytes.len());
        stream.samples.push(channels.concat().into_iter().map(|sample| i32::from(sample as i8)).collect());
    }
    stream
}

/// Gives pieces of this length, and would wait for ever where a block is to be returned before.
struct Limited<'a> {
    bytes: &'a [u8],
    at: usize,
    piece: usize,
    limit: &'a Cell<usize>,
}

impl Read for Limited<'_> {
    fn read(&mut self, buffer: &mut [u8]) -> io::Result<usize> {
        assert!(self.at < self.limit.get(), "a read before a block is returned");
        let most = buffer.len().min(self.piece);
        let count = (&self.bytes[self.at..]).read(&mut buffer[..most])?;
        self.at += count;
        Ok(count)
    }
}

/// No byte is read while a block can be returned of those that were read.
#[test]
fn pieces_of_any_size() {
    let made = stream();
    let few = made.first(12);
    let mut streams =
        vec![(made.bytes, made.ends, vec![1460, 4096, usize::MAX]), (few.bytes, few.ends, vec![1, 2, 7, 100])];
    for name in ["quiet_noise.flac", "eight_bits.flac", "wasted_bits_of_24.flac", "escapes_of_a_real_encoder.flac"] {
        let bytes = bytes_of(name);
        let ends = frame_ends(&bytes)[1..].to_vec();
        assert!(ends.len() > 1, "{name}");
        streams.push((bytes, ends, vec![1, 7, 1460]));
    }
    for (bytes, ends, pieces) in streams {
        for piece in pieces {
            let limit = Cell::new(ends[0]);
            let mut flac = FlacReader::new(Limited { bytes: &bytes, at: 0, piece, limit: &limit }).unwrap();
            for end in &ends {
                limit.set(*end);
                assert!(flac.blocks().read_next_or_eof(Vec::new()).unwrap().is_some());
            }
        }
    }
}

/// Two frames of eight channels of 65,535 samples of so many bytes, as they are.
fn huge(depth: usize, seed: u64) -> Stream {
    let mut stream = Stream { bytes: bytes(HEAD), ends: Vec::new(), samples: Vec::new() };
    let mut noise = noise_of(seed);
    for number in 0..2 {
        let channels: Vec<Vec<u8>> = (0..8).map(|_| (0..depth * 65535).map(|_| noise()).collect()).collect();
        let sample_of = |bytes: &[u8]| match *bytes {
            [high, low] => i32::from(i16::from_be_bytes([high, low])),
            [high, middle, low] => i32::from_be_bytes([high, middle, low, 0]) >> 8,
            _ => panic!("samples of two or three bytes"),
        };
        stream.bytes.extend(frame_of_depth(number, depth, &channels));
        stream.ends.push(stream.bytes.len());
        stream.samples.push(channels.concat().chunks(depth).map(sample_of).collect());
    }
    stream
}

/// Frames of a megabyte and a half are no exception, though their CRC is 0 by chance at more than twenty places.
#[test]
fn frames_of_any_size() {
    for (depth, seed, piece) in [(3, 1, 1), (2, 2, 1), (3, 3, 1460)] {
        let made = huge(depth, seed);
        assert!(made.ends[0] > 8 * 65535 * depth);
        let limit = Cell::new(made.ends[0]);
        let mut flac = FlacReader::new(Limited { bytes: &made.bytes, at: 0, piece, limit: &limit }).unwrap();
        for (end, samples) in made.ends.iter().zip(&made.samples) {
            limit.set(*end);
            let block = flac.blocks().read_next_or_eof(Vec::new()).unwrap().unwrap();
            assert!(block.into_buffer() == *samples);
        }
    }
}

/// A frame of 65,535 samples, each in as many bits as it is far from 0, twice: of more than 2 MiB.
fn long_frame() -> (Vec<u8>, Vec<i32>) {
    let mut noise = noise_of(4);
    let samples: Vec<i32> = (0..65535).map(|_| i32::from(noise()) * 2 - 255).collect();
    let mut frame = vec![0xff, 0xf8, 0x79, 4 << 1, 0, 0xff, 0xfe];
    frame.push(crc8(&frame));
    // A fixed predictor of order 0. One Rice code, whose parameter is 0, in ten bits of 0.
    frame.push(0x10);
    let mut length = 8 * frame.len() + 10;
    for sample in &samples {
        length += (sample << 1 ^ sample >> 31) as usize;
        frame.resize(length / 8 + 1, 0);
        frame[length / 8] |= 0x80 >> (length % 8);
        length += 1;
    }
    frame.extend_from_slice(&crc16(&frame).to_be_bytes());
    (frame, samples)
}

#[test]
fn a_frame_of_more_than_2_mib() {
    let (frame, samples) = long_frame();
    assert!(frame.len() > 2 << 20, "{} bytes", frame.len());
    let stream = [bytes(HEAD), frame.clone(), frame].concat();
    let end = bytes(HEAD).len() + (stream.len() - bytes(HEAD).len()) / 2;
    for piece in [1, 100, 1460] {
        let limit = Cell::new(end);
        let mut flac = FlacReader::new(Limited { bytes: &stream, at: 0, piece, limit: &limit }).unwrap();
        for _ in 0..2 {
            let block = flac.blocks().read_next_or_eof(Vec::new()).unwrap().unwrap();
            assert!(block.channel(0) == samples);
            limit.set(stream.len());
        }
    }
}

/// Sends the stream in pieces, and waits for each block before it goes on.
fn send(stream: &Stream, piece: usize, mut socket: UnixStream, given: Receiver<()>) {
    let (mut at, mut count) = (0, 0);
    for bytes in stream.bytes.chunks(piece) {
        socket.write_all(bytes).unwrap();
        at += bytes.len();
        while count < stream.frames_within(at) {
            given.recv_timeout(TIMEOUT).expect("a block is held back");
            count += 1;
        }
    }
}

#[test]
fn a_writer_that_waits_for_each_block() {
    let made = stream();
    let few = made.first(20);
    for (stream, piece) in [(&made, 1460), (&few, 1)] {
        let (near, far) = UnixStream::pair().unwrap();
        far.set_read_timeout(Some(TIMEOUT)).unwrap();
        let (give, given) = channel();
        thread::scope(|scope| {
            scope.spawn(|| send(stream, piece, near, given));
            let mut flac = FlacReader::new(far).unwrap();
            let (mut blocks, mut count) = (flac.blocks(), 0);
            while let Some(block) = blocks.read_next_or_eof(Vec::new()).unwrap() {
                assert!(block.into_buffer() == stream.samples[count]);
                count += 1;
                give.send(()).unwrap();
            }
            assert_eq!(count, stream.ends.len());
        });
    }
}

/// Gives a byte, and says that none is there: an event loop calls again when one is.
struct NotReady<'a> {
    bytes: &'a [u8],
    is_ready: bool,
}

impl Read for NotReady<'_> {
    fn read(&mut self, buffer: &mut [u8]) -> io::Result<usize> {
        self.is_ready = !self.is_ready;
        if !self.is_ready && !self.bytes.is_empty() {
            return Err(io::ErrorKind::WouldBlock.into());
        }
        let count = buffer.len().min(1);
        self.bytes.read(&mut buffer[..count])
    }
}

/// In an event loop no byte is lost, no block comes late, and the time is linear in the length of a frame: this one has
/// 200,000 bytes, which would take minutes if each call began anew.
#[test]
fn an_event_loop() {
    let start = Instant::now();
    let channels: Vec<Vec<u8>> =
        (0..3_u32).map(|ch| (0..65535_u32).map(|at| ((at * at) >> ch) as u8).collect()).collect();
    let frame = frame(0, &channels);
    let (head, mut pauses) = (bytes(HEAD), 0);
    let mut flac = FlacReader::new(head.chain(NotReady { bytes: &frame, is_ready: false })).unwrap();
    let block = loop {
        match flac.blocks().read_next_or_eof(Vec::new()) {
            Ok(block) => break block.unwrap(),
            Err(Error::IoError(error)) if error.kind() == io::ErrorKind::WouldBlock => pauses += 1,
            Err(error) => panic!("{error}"),
        }
    };
    assert_eq!(pauses, frame.len() - 1);
    assert!(block.channel(2).iter().zip(&channels[2]).all(|(sample, byte)| *sample == i32::from(*byte as i8)));
    assert!(start.elapsed().as_secs() < 30);
}

/// Where the CRC is 0 at each byte, few of them are tried.
#[test]
fn footers_everywhere() {
    let start = Instant::now();
    let mut frame = frame(0, &[(0..65535_u32).map(|at| u8::from(at == 0)).collect()]);
    let crc = crc16(&frame[..9]).to_be_bytes();
    let end = frame.len() - 2;
    frame[9..11].copy_from_slice(&crc);
    frame[end..].fill(0);
    assert_eq!(crc16(&frame), 0);
    let (head, frames) = (bytes(HEAD), frame.repeat(20));
    let (samples, result) = decode(Pieces(head.chain(&frames[..]), 1));
    assert!(result.is_ok());
    assert_eq!(samples.len(), 20 * 65535);
    assert!(start.elapsed().as_secs() < 30);
}
