//! Frames, and the blocks of samples that they have.
use crate::decoder::{Decoder, Event};
use crate::error::Result;
use crate::ffi::{self, Info};
use crate::input::ReadBytes;
use crate::metadata::StreamInfo;
use crate::source::FRAME_CAPACITY;
use std::{iter, slice};

/// A block of samples: of each channel the same number.
pub struct Block {
    time: u64,
    channels: u32,
    duration: u32,
    // What the frame's header says, or 0.
    sample_rate: u32,
    bits_per_sample: u32,
    // The channels, one after another.
    samples: Vec<i32>,
}

impl Block {
    // The buffer has at least its samples.
    pub(crate) fn new(block: ffi::Block, mut samples: Vec<i32>) -> Block {
        samples.truncate(block.samples());
        let ffi::Block { time, channels, duration, sample_rate, bits_per_sample } = block;
        Block { time, channels, duration, sample_rate, bits_per_sample, samples }
    }

    /// A block of no channels and no samples.
    pub fn empty() -> Block {
        Block::new(ffi::Block::default(), Vec::new())
    }

    /// The number of samples of each channel that come before the block.
    pub fn time(&self) -> u64 {
        self.time
    }

    /// The number of samples of all channels together.
    #[inline]
    pub fn len(&self) -> u32 {
        self.channels * self.duration
    }

    /// Whether it has no samples, as [`Block::empty`] has none.
    #[inline]
    pub fn is_empty(&self) -> bool {
        self.len() == 0
    }

    /// The number of samples of each channel.
    #[inline]
    pub fn duration(&self) -> u32 {
        self.duration
    }

    /// The number of channels.
    #[inline]
    pub fn channels(&self) -> u32 {
        self.channels
    }

    /// The sample rate in Hz that the frame's own header says. `None` where that leaves it to the streaminfo.
    ///
    /// Who joins a stream in the middle has no other source of it.
    #[inline]
    pub fn sample_rate(&self) -> Option<u32> {
        Some(self.sample_rate).filter(|rate| *rate > 0)
    }

    /// The number of bits of a sample that the frame's own header says. `None` where that leaves it to the streaminfo.
    #[inline]
    pub fn bits_per_sample(&self) -> Option<u32> {
        Some(self.bits_per_sample).filter(|bits| *bits > 0)
    }

    /// The samples of channel `ch`, of which the first is 0.
    ///
    /// # Panics
    ///
    /// Where there is no such channel.
    #[inline]
    pub fn channel(&self, ch: u32) -> &[i32] {
        let (ch, duration) = (ch as usize, self.duration as usize);
        &self.samples[ch * duration..(ch + 1) * duration]
    }

    /// The sample of channel `ch` with this index in the block. Both begin at 0.
    ///
    /// # Panics
    ///
    /// Where there is no such channel, and in the last channel where there is no such sample. In other channels the
    /// index must be below [`Block::duration`] too: one above it leads into the next channel.
    #[inline]
    pub fn sample(&self, ch: u32, sample: u32) -> i32 {
        self.samples[ch as usize * self.duration as usize + sample as usize]
    }

    /// The buffer of the samples, for the next call of [`FrameReader::read_next_or_eof`].
    pub fn into_buffer(self) -> Vec<i32> {
        self.samples
    }

    /// The pairs of a left and a right sample.
    ///
    /// # Panics
    ///
    /// Where the block hasn't two channels.
    #[inline]
    pub fn stereo_samples(&self) -> StereoSamples<'_> {
        assert!(self.channels == 2, "stereo_samples() is for blocks of two channels");
        StereoSamples { pairs: self.channel(0).iter().zip(self.channel(1)) }
    }
}

/// An iterator over pairs of samples, which [`Block::stereo_samples`] returns.
pub struct StereoSamples<'a> {
    pairs: iter::Zip<slice::Iter<'a, i32>, slice::Iter<'a, i32>>,
}

impl Iterator for StereoSamples<'_> {
    type Item = (i32, i32);

    #[inline]
    fn next(&mut self) -> Option<(i32, i32)> {
        self.pairs.next().map(|(left, right)| (*left, *right))
    }

    #[inline]
    fn size_hint(&self) -> (usize, Option<usize>) {
        self.pairs.size_hint()
    }
}

/// What [`FrameReader::read_next_or_eof`] returns: a block, `None` at the end of the stream, or an error.
pub type FrameResult = Result<Option<Block>>;

/// Reads frames, one after another.
///
/// [`FlacReader::blocks`](crate::FlacReader::blocks) makes one after the head of a stream. Over an `io::Cursor` it
/// reads the frame of a packet of Ogg or MP4.
pub struct FrameReader<R: ReadBytes> {
    input: R,
    decoder: Decoder,
}

impl<R: ReadBytes> FrameReader<R> {
    /// A reader of the frames of an unknown stream. A frame has to give its bit depth.
    pub fn new(input: R) -> FrameReader<R> {
        FrameReader::of(input, Info::default())
    }

    /// A reader of the frames of a stream with this streaminfo. A frame may leave its bit depth to the streaminfo; and
    /// where that gives one size for all blocks, the time of a block is a multiple of it.
    pub fn with_streaminfo(input: R, streaminfo: StreamInfo) -> FrameReader<R> {
        FrameReader::of(input, streaminfo.info())
    }

    fn of(input: R, info: Info) -> FrameReader<R> {
        let decoder = input.decoder().of_stream(info).at(input.position());
        FrameReader { input, decoder }
    }

    /// Reads the next block into this buffer, or into a larger one where that is too short.
    ///
    /// Nothing shows what was in the buffer, or how long it was: `Vec::new()` will do. [`Block::into_buffer`] gives it
    /// back, so that one buffer serves for a whole stream. After an error it is lost.
    ///
    /// It returns `None` where fewer than two bytes are left.
    ///
    /// # Errors
    ///
    /// `FormatError` and `Unsupported` for what is wrong with the frame. The next call continues after the bytes that
    /// had to be read to see that; [`FrameReader::resync`] goes to the next frame. `IoError` where the reader fails, or
    /// its bytes end within the frame. Where it fails the bytes before are kept, and the next call begins with the same
    /// frame.
    pub fn read_next_or_eof(&mut self, mut buffer: Vec<i32>) -> FrameResult {
        if let Some((block, length)) = self.input.take_decoded() {
            self.input.consume(length);
            self.decoder = self.decoder.at(self.input.position());
            return Ok(Some(block));
        }
        let mut is_end = false;
        loop {
            let event = self.decoder.decode(self.input.held(is_end), &mut buffer);
            self.go_to_decoder();
            match event? {
                Event::Block(block) => return Ok(Some(block)),
                Event::NeedMore(_) => is_end = self.input.fill(FRAME_CAPACITY)? == 0,
                _ => return Ok(None),
            }
        }
    }

    /// Goes to the next frame of the stream, after a fault or where the reader joins a stream.
    ///
    /// It is one with the number of channels and the bit depth of the streaminfo, where that is known, and the next call
    /// of [`FrameReader::read_next_or_eof`] returns its block. After a fault it may be any that begins after the faulty
    /// frame's first byte; so none is lost that begins within the bytes that had to be read to see the fault.
    ///
    /// It returns how many bytes are skipped, from the beginning of the faulty frame on, or `None` where no frame is
    /// left. The time is linear in the bytes: where very many headers have led to no frame, as only in a stream that is
    /// made for it, some are passed without a try.
    ///
    /// # Errors
    ///
    /// An `IoError` where the reader fails. The next call goes on there.
    pub fn resync(&mut self) -> Result<Option<u64>> {
        self.input.go_within(self.decoder.position());
        let mut is_end = false;
        loop {
            let event = self.decoder.resync(self.input.held(is_end));
            self.go_to_decoder();
            match event? {
                Event::Resynced(skipped) => return Ok(Some(skipped)),
                Event::NeedMore(_) => is_end = self.input.fill(FRAME_CAPACITY)? == 0,
                _ => return Ok(None),
            }
        }
    }

    // Consumes what the decoder is done with.
    fn go_to_decoder(&mut self) {
        self.input.go_within(self.decoder.next_position());
        self.input.note(self.decoder);
    }

    /// The wrapped reader.
    pub fn into_inner(self) -> R {
        self.input
    }
}

#[cfg(test)]
mod tests;
