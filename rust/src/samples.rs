//! Samples, one by one.
use crate::error::Result;
use crate::frame::{Block, FrameReader};
use crate::input::ReadBytes;
use std::mem;

/// An iterator over samples, which [`FlacReader::samples`](crate::FlacReader::samples) returns.
///
/// After an error it returns `None`.
pub struct FlacSamples<R: ReadBytes> {
    frame_reader: FrameReader<R>,
    block: Block,
    // The index, and the channel, of the next sample.
    sample: u32,
    channel: u32,
    has_failed: bool,
}

impl<R: ReadBytes> FlacSamples<R> {
    pub(crate) fn new(frame_reader: FrameReader<R>) -> FlacSamples<R> {
        FlacSamples { frame_reader, block: Block::empty(), sample: 0, channel: 0, has_failed: false }
    }

    /// Reads the next block, and passes over as many of its samples of each channel.
    pub(crate) fn pass(&mut self, count: u32) -> Result<()> {
        self.read_block()?;
        self.sample = count;
        Ok(())
    }

    // Whether there is a next block.
    fn read_block(&mut self) -> Result<bool> {
        (self.sample, self.channel) = (0, 0);
        let last = mem::replace(&mut self.block, Block::empty());
        let next = self.frame_reader.read_next_or_eof(last.into_buffer())?;
        let is_some = next.is_some();
        self.block = next.unwrap_or_else(Block::empty);
        Ok(is_some)
    }

    fn first_of_next_block(&mut self) -> Option<Result<i32>> {
        if self.has_failed {
            return None;
        }
        match self.read_block() {
            Ok(true) => Some(Ok(self.next_in_block())),
            Ok(false) => None,
            Err(error) => {
                self.has_failed = true;
                Some(Err(error))
            }
        }
    }

    #[inline]
    fn next_in_block(&mut self) -> i32 {
        let sample = self.block.sample(self.channel, self.sample);
        self.channel += 1;
        if self.channel == self.block.channels() {
            self.channel = 0;
            self.sample += 1;
        }
        sample
    }
}

impl<R: ReadBytes> Iterator for FlacSamples<R> {
    type Item = Result<i32>;

    #[inline]
    fn next(&mut self) -> Option<Result<i32>> {
        if self.sample < self.block.duration() {
            return Some(Ok(self.next_in_block()));
        }
        self.first_of_next_block()
    }
}
