//! Seeking. Samples are compared with those of a walk from the start, or with those of a stream that is made.
mod common;

use claxon::frame::{FrameReader, FrameResult};
use claxon::{Block, Error, FlacReader};
use common::made::*;
use common::*;
use std::ffi::OsStr;
use std::fs::{self, File};
use std::io::{self, Cursor, Read, Seek, SeekFrom, Write};
use std::os::unix::io::OwnedFd;
use std::os::unix::net::UnixStream;
use std::path::Path;
use std::time::Instant;

fn in_memory(stream: &[u8]) -> FlacReader<Cursor<&[u8]>> {
    FlacReader::new(Cursor::new(stream)).unwrap()
}

/// The blocks up to the end or the first fault.
fn walk(stream: &[u8]) -> (Vec<Block>, bool) {
    let (mut flac, mut found) = (in_memory(stream), Vec::new());
    loop {
        match flac.blocks().read_next_or_eof(Vec::new()) {
            Ok(Some(block)) => found.push(block),
            Ok(None) => return (found, true),
            Err(_) => return (found, false),
        }
    }
}

/// The streams of encoders that are whole, with one number of channels, and their blocks.
fn files() -> Vec<(Vec<u8>, Vec<Block>)> {
    let folders = [cases().join("data"), Path::new(env!("CARGO_MANIFEST_DIR")).join("../examples")];
    let paths = folders.iter().flat_map(|folder| fs::read_dir(folder).unwrap()).map(|entry| entry.unwrap().path());
    let mut found = Vec::new();
    for path in paths.filter(|path| path.extension() == Some(OsStr::new("flac"))) {
        let stream = fs::read(&path).unwrap();
        let channels = match FlacReader::new(&stream[..]) {
            Ok(flac) => flac.streaminfo().channels,
            Err(_) => continue,
        };
        let (blocks, is_whole) = walk(&stream);
        let mut end = 0;
        let mut follows = |block: &Block| {
            let follows = block.time() == end && block.channels() == channels;
            end += u64::from(block.duration());
            follows
        };
        if is_whole && !blocks.is_empty() && blocks.iter().all(&mut follows) {
            found.push((stream, blocks));
        }
    }
    assert!(found.len() > 5, "{}", found.len());
    found
}

fn expect_block<R: Read + Seek>(flac: &mut FlacReader<R>, sample: u64, expected: &Block) {
    assert_eq!(flac.seek(sample).unwrap(), Some((sample - expected.time()) as u32), "{sample}");
    let found = flac.blocks().read_next_or_eof(Vec::new()).unwrap().unwrap();
    assert_eq!((found.time(), found.channels()), (expected.time(), expected.channels()));
    assert!((0..found.channels()).all(|ch| found.channel(ch) == expected.channel(ch)));
}

/// The first and the last sample of each block, and the one after all, in reads of any size.
#[test]
fn borders() {
    for (stream, blocks) in files() {
        for piece in [usize::MAX, 7] {
            let mut flac = FlacReader::new(Short(Cursor::new(&stream[..]), piece)).unwrap();
            for block in blocks.iter().rev().chain(&blocks).step_by(if piece == 7 { 5 } else { 1 }) {
                expect_block(&mut flac, block.time(), block);
                expect_block(&mut flac, block.time() + u64::from(block.duration()) - 1, block);
            }
            let last = blocks.last().unwrap();
            let end = last.time() + u64::from(last.duration());
            assert_eq!(flac.seek(end).unwrap(), None);
            assert_eq!(flac.seek(u64::MAX).unwrap(), None);
            expect_block(&mut flac, end - 1, last);
            assert_eq!(streaminfo(&flac.streaminfo()), streaminfo(&in_memory(&stream).streaminfo()));
            assert!(flac.tags().eq(in_memory(&stream).tags()));
        }
    }
}

/// Gives at most as many bytes a read.
struct Short<R>(R, usize);

impl<R: Read> Read for Short<R> {
    fn read(&mut self, buffer: &mut [u8]) -> io::Result<usize> {
        let count = buffer.len().min(self.1);
        self.0.read(&mut buffer[..count])
    }
}

impl<R: Seek> Seek for Short<R> {
    fn seek(&mut self, place: SeekFrom) -> io::Result<u64> {
        self.0.seek(place)
    }
}

#[test]
fn samples_from() {
    for (stream, _) in files() {
        let (all, channels) = (decode(&stream[..]).0, in_memory(&stream).streaminfo().channels as usize);
        let (mut flac, count) = (in_memory(&stream), all.len() / channels);
        for at in [0, (count - 1).min(1), count / 2, count - 1] {
            let samples = flac.samples_from(at as u64).unwrap().unwrap();
            assert!(samples.map(Result::unwrap).eq(all[at * channels..].iter().copied()));
        }
        assert!(flac.samples_from(count as u64).unwrap().is_none());
    }
}

/// The stream begins where the reader stands, and the bytes before it can look like one.
#[test]
fn from_where_the_reader_stands() {
    let (before, made) = (Made::new(9, 500, 2).stream(), Made::new(30, 500, 1));
    let stream = [before.clone(), made.stream()].concat();
    let mut reader = Cursor::new(&stream[..]);
    reader.set_position(before.len() as u64);
    let mut flac = FlacReader::new(io::BufReader::new(reader)).unwrap();
    for sample in (0..made.samples()).step_by(499) {
        made.expect(&mut flac, sample);
    }
}

/// The number of samples may be unknown, too small or too large, and there may be bytes after the frames.
#[test]
fn lengths_that_are_unknown_or_wrong() {
    let made = Made::new(60, 700, 1);
    let total = made.samples();
    let mut noise = Noise(3);
    let garbage: Vec<u8> = (0..100_000).map(|_| noise.below(256) as u8).collect();
    for samples in [0, 1, total - 1, total, total + 1, 1 << 35] {
        for after in [&b""[..], &[0; 200_000], &garbage] {
            let stream = [&made.stream_of(samples), after].concat();
            let mut flac = in_memory(&stream);
            for sample in [0, 1, 699, 700, 20_000, total - 701, total - 700, total - 1] {
                made.expect(&mut flac, sample);
            }
            assert_eq!(flac.seek(total).unwrap(), None);
            assert!(!matches!(flac.blocks().read_next_or_eof(Vec::new()), Ok(Some(_))));
        }
    }
}

/// Between seeks blocks are read, up to the end too.
#[test]
fn back_and_forth() {
    let (made, mut noise) = (Made::new(300, 400, 1), Noise(4));
    let stream = made.stream();
    let mut flac = in_memory(&stream);
    for _ in 0..500 {
        let sample = noise.below(made.samples() as usize);
        made.expect(&mut flac, sample as u64);
        let end = if noise.below(20) == 0 { 300 } else { 300.min(sample / 400 + 1 + noise.below(5)) };
        for number in sample / 400 + 1..end {
            made.expect_next(&mut flac, number);
        }
    }
}

/// Frames of 65 KB, whose size the streaminfo leaves unknown, or has wrong.
#[test]
fn large_frames() {
    let made = Made::new(12, 65535, 1);
    for (size, samples) in [0, 20, 0xff_ffff_u32].into_iter().flat_map(|size| [(size, 0), (size, made.samples())]) {
        let mut stream = made.stream_of(samples);
        stream[15..18].copy_from_slice(&size.to_be_bytes()[1..]);
        let mut flac = in_memory(&stream);
        assert_eq!(flac.streaminfo().max_frame_size.unwrap_or(0), size);
        (0..12).for_each(|number| made.expect(&mut flac, (number * 7 % 12) * 65535 + 77));
    }
}

/// Few bytes are read, whatever the length of the stream: 2 MB, or 10 MB.
#[test]
fn few_reads() {
    for (count, size, most) in [(1000, 4096, 1 << 18), (1300, 16384, 1 << 19)] {
        let (made, mut noise) = (Made::new(count, size, 1), Noise(5));
        let stream = made.stream();
        assert!(stream.len() > size * count / 3);
        let mut flac = FlacReader::new(Counted::new(&stream)).unwrap();
        let mut given = GIVEN.with(|all| all.get());
        for _ in 0..100 {
            made.expect(&mut flac, noise.below(made.samples() as usize) as u64);
            let all = GIVEN.with(|all| all.get());
            assert!(all - given < most, "{} bytes were read", all - given);
            given = all;
        }
        assert_eq!(flac.seek(made.samples()).unwrap(), None);
    }
}

/// Counts the bytes and the calls, of which one fails.
struct Counted<'a> {
    bytes: Cursor<&'a [u8]>,
}

thread_local! {
    static GIVEN: std::cell::Cell<usize> = const { std::cell::Cell::new(0) };
    static CALLS: std::cell::Cell<usize> = const { std::cell::Cell::new(0) };
    static FAILING: std::cell::Cell<usize> = const { std::cell::Cell::new(0) };
}

impl Counted<'_> {
    fn new(bytes: &[u8]) -> Counted<'_> {
        Counted { bytes: Cursor::new(bytes) }
    }

    fn count() -> io::Result<()> {
        CALLS.with(|calls| calls.set(calls.get() + 1));
        if CALLS.with(|calls| calls.get()) == FAILING.with(|failing| failing.get()) {
            return Err(io::ErrorKind::TimedOut.into());
        }
        Ok(())
    }
}

impl Read for Counted<'_> {
    fn read(&mut self, buffer: &mut [u8]) -> io::Result<usize> {
        Counted::count()?;
        let count = self.bytes.read(buffer)?;
        GIVEN.with(|given| given.set(given.get() + count));
        Ok(count)
    }
}

impl Seek for Counted<'_> {
    fn seek(&mut self, place: SeekFrom) -> io::Result<u64> {
        Counted::count()?;
        self.bytes.seek(place)
    }
}

/// Each read and each seek fails in turn. Then the reader goes on where it stood.
#[test]
fn failures() {
    let made = Made::new(200, 3000, 1);
    let stream = made.stream();
    for (taken, sample) in [0, 2].into_iter().flat_map(|taken| [0, 299_999, 600_000].map(|sample| (taken, sample))) {
        for failing in 1.. {
            let mut flac = FlacReader::new(Counted::new(&stream)).unwrap();
            (0..taken).for_each(|number| made.expect_next(&mut flac, number));
            CALLS.with(|calls| calls.set(0));
            FAILING.with(|number| number.set(failing));
            let found = flac.seek(sample);
            FAILING.with(|number| number.set(0));
            match &found {
                Ok(Some(_)) => made.expect_next(&mut flac, sample as usize / 3000),
                Ok(None) => assert_eq!(sample, 600_000),
                Err(Error::IoError(error)) => assert_eq!(error.kind(), io::ErrorKind::TimedOut),
                Err(error) => panic!("{error}"),
            }
            if !matches!(found, Ok(Some(_))) {
                made.expect_next(&mut flac, taken);
            }
            made.expect(&mut flac, 123_456);
            if found.is_ok() {
                assert!(failing > 2);
                break;
            }
        }
    }
}

/// The reader fails also where it goes back to where it stood: the next call tries again.
#[test]
fn failures_in_a_row() {
    struct Fails<'a>(Cursor<&'a [u8]>, std::rc::Rc<std::cell::Cell<bool>>);
    impl Read for Fails<'_> {
        fn read(&mut self, buffer: &mut [u8]) -> io::Result<usize> {
            if self.1.get() {
                return Err(io::ErrorKind::TimedOut.into());
            }
            self.0.read(buffer)
        }
    }
    impl Seek for Fails<'_> {
        fn seek(&mut self, place: SeekFrom) -> io::Result<u64> {
            let place = self.0.seek(place)?;
            if self.1.get() {
                return Err(io::ErrorKind::TimedOut.into());
            }
            Ok(place)
        }
    }
    let made = Made::new(900, 3000, 1);
    let (stream, fails) = (made.stream(), std::rc::Rc::default());
    let mut flac = FlacReader::new(Fails(Cursor::new(&stream), std::rc::Rc::clone(&fails))).unwrap();
    made.expect(&mut flac, 300_000);
    let mut next = 101;
    for _ in 0..3 {
        fails.set(true);
        assert!(flac.seek(2_699_999).is_err());
        // Some blocks are buffered.
        while flac.blocks().read_next_or_eof(Vec::new()).is_ok() {
            next += 1;
        }
        fails.set(false);
        made.expect_next(&mut flac, next);
        next += 1;
    }
}

/// A socket can't seek: nothing is lost.
#[test]
fn a_reader_that_cannot_seek() {
    let made = Made::new(5, 300, 1);
    let (mut near, far) = UnixStream::pair().unwrap();
    near.write_all(&made.stream()).unwrap();
    drop(near);
    let mut flac = FlacReader::new(File::from(OwnedFd::from(far))).unwrap();
    made.expect_next(&mut flac, 0);
    assert!(matches!(flac.seek(1000), Err(Error::IoError(_))));
    (1..5).for_each(|number| made.expect_next(&mut flac, number));
}

/// What begins at a position, where that is a frame of one channel.
fn frame_at(stream: &[u8], position: usize) -> FrameResult {
    let info = in_memory(stream).streaminfo();
    let found = FrameReader::with_streaminfo(Cursor::new(&stream[position..]), info).read_next_or_eof(Vec::new())?;
    Ok(found.filter(|block| block.channels() == 1))
}

/// The blocks of all positions at which a frame begins.
fn all_blocks(stream: &[u8], first: usize) -> Vec<Block> {
    let positions = (first..stream.len()).filter(|position| stream[*position] == 0xff);
    positions.filter_map(|position| frame_at(stream, position).ok().flatten()).collect()
}

/// In a damaged stream just the samples are found that a frame has, and the frame is one that has it.
#[test]
fn damage() {
    let mut noise = Noise(6);
    for round in 0..60 {
        let made = Made::new(40, 300, round);
        let mut stream = made.stream_of(if round % 2 == 0 { 0 } else { made.samples() });
        let first = bytes(HEAD).len();
        for _ in 0..noise.below(30) {
            let place = first + noise.below(stream.len() - first);
            stream[place] ^= 1 << noise.below(8);
        }
        if round % 3 == 0 {
            stream.truncate(first + noise.below(stream.len() - first));
        }
        let blocks = all_blocks(&stream, first);
        let mut flac = in_memory(&stream);
        for sample in (0..41).map(|number| (number * 17 % 41) * 300 + noise.below(300) as u64) {
            let has = |block: &&Block| block.time() <= sample && sample < block.time() + u64::from(block.duration());
            match blocks.iter().find(has) {
                Some(block) => expect_block(&mut flac, sample, block),
                None => assert_eq!(flac.seek(sample).unwrap(), None),
            }
        }
    }
}

#[test]
fn faults_stay_faults() {
    let made = Made::new(100, 600, 1);
    let mut frames = made.frames.clone();
    frames.iter_mut().step_by(3).for_each(|frame| *frame.last_mut().unwrap() ^= 1);
    let stream = [head(600, made.samples()), frames.concat()].concat();
    let mut flac = in_memory(&stream);
    made.expect(&mut flac, 601);
    made.expect_next(&mut flac, 2);
    assert!(matches!(flac.blocks().read_next_or_eof(Vec::new()), Err(Error::FormatError(_))));
    assert_eq!(flac.seek(1800).unwrap(), None);
    made.expect(&mut flac, 2400);
}

#[test]
fn times_out_of_order() {
    let (made, mut noise) = (Made::new(80, 300, 1), Noise(7));
    for _ in 0..5 {
        let mut frames = made.frames.clone();
        (1..80).for_each(|at| frames.swap(at, noise.below(at + 1)));
        let stream = [head(300, made.samples()), frames.concat()].concat();
        let mut flac = in_memory(&stream);
        (0..made.samples()).step_by(300).for_each(|sample| made.expect(&mut flac, sample));
    }
}

/// A header within samples misleads nobody.
#[test]
fn headers_in_samples() {
    for other in [7, 30] {
        let mut made = Made::new(40, 300, 1);
        let mut block = header(other, 300);
        block.resize(300, 1);
        made.frames[20] = frame(20, &block);
        made.blocks[20] = block;
        let stream = made.stream();
        let mut flac = in_memory(&stream);
        (0..made.samples()).step_by(150).for_each(|sample| made.expect(&mut flac, sample));
    }
}

/// Headers everywhere, of large blocks that have the sample or not; sync codes everywhere.
#[test]
fn hostile_streams() {
    let start = Instant::now();
    let frame_header = |number| [header(number, 65535), vec![2]].concat();
    for repeated in [frame_header(0), frame_header(77), vec![0xff, 0xf8], vec![0xff], vec![0xff, 0xf8, 0x69, 2]] {
        let stream = [head(65535, 1 << 30), repeated.repeat(1_000_000 / repeated.len())].concat();
        let mut flac = in_memory(&stream);
        for sample in [1, 77 * 65535, 1 << 29] {
            assert_eq!(flac.seek(sample).unwrap(), None);
        }
    }
    assert!(start.elapsed().as_secs() < 60);
}

#[test]
#[should_panic = "metadata_only"]
fn a_reader_of_metadata_panics() {
    let stream = Made::new(2, 300, 1).stream();
    let _ = FlacReader::new_ext(Cursor::new(&stream[..]), STREAMINFO_ONLY).unwrap().seek(0);
}
