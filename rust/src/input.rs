//! Readers of bytes.
use crate::decoder::Decoder;
use crate::error::end_of_input;
use crate::frame::Block;
use crate::source::{Source, FRAME_CAPACITY, METADATA_CAPACITY};
use std::io::{self, SeekFrom};

// How many bytes are read at once in a seek: most frames have fewer.
const SEEK_STEP: usize = 1 << 14;

/// A reader with a buffer, for any `io::Read`.
///
/// The buffer holds whole frames. It has 4 KiB for metadata and 256 KiB for frames, and is doubled where a frame is
/// larger.
pub struct BufferedReader<R: io::Read> {
    inner: R,
    buffer: Vec<u8>,
    // The bytes in `start..end` were read, and not consumed.
    start: usize,
    end: usize,
    // The position of the next byte that is read, from where the wrapped reader stood at first.
    next: u64,
    // Where it stood, once it is asked, and how it goes to another position.
    began: Option<(u64, SeekCall<R>)>,
    // Whether it stands elsewhere than at `next`.
    is_moved: bool,
    decoder: Decoder,
    // The block of the frame that the buffered bytes begin with, where it was decoded already, and the frame's length.
    decoded: Option<(Block, usize)>,
}

// As a read has no bound that the reader can seek.
type SeekCall<R> = fn(&mut R, SeekFrom) -> io::Result<u64>;

impl<R: io::Read> BufferedReader<R> {
    /// Wraps a reader.
    pub fn new(inner: R) -> BufferedReader<R> {
        BufferedReader {
            inner,
            buffer: Vec::new(),
            start: 0,
            end: 0,
            next: 0,
            began: None,
            is_moved: false,
            decoder: Decoder::without_head(0),
            decoded: None,
        }
    }

    /// The wrapped reader. Buffered bytes are lost.
    pub fn into_inner(self) -> R {
        self.inner
    }

    // Moves the buffered bytes to the front of a buffer of at least this capacity, which has more than them.
    fn make_space(&mut self, capacity: usize) {
        if self.start > 0 {
            self.decoder.forget_fault();
            self.buffer.copy_within(self.start..self.end, 0);
            self.end -= self.start;
            self.start = 0;
        }
        if self.buffer.len() < capacity {
            self.buffer.resize(capacity, 0);
        }
        if self.end == self.buffer.len() {
            self.buffer.resize(2 * self.end, 0);
        }
    }

    // Reads once, as many bytes at most.
    fn read(&mut self, most: usize) -> io::Result<usize> {
        if let (true, Some((began, seek))) = (self.is_moved, self.began) {
            seek(&mut self.inner, SeekFrom::Start(began + self.next))?;
            self.is_moved = false;
        }
        let free = self.buffer.len() - self.end;
        let free = &mut self.buffer[self.end..][..free.min(most)];
        let count = self.inner.read(free)?;
        assert!(count <= free.len(), "a reader that says it read more than it can have read");
        self.end += count;
        self.next += count as u64;
        Ok(count)
    }

    /// Goes to this position, and reads once where fewer bytes are buffered from there on. False at the end of input.
    pub(crate) fn hold(&mut self, position: u64, count: usize) -> io::Result<bool> {
        self.go_to(position);
        let more = count.saturating_sub(self.buffered().len());
        if more == 0 {
            return Ok(true);
        }
        self.make_space(FRAME_CAPACITY);
        Ok(self.read(more.max(SEEK_STEP))? > 0)
    }

    /// Goes to this position: one that was read and is buffered, or any one after `length` was called. The wrapped
    /// reader is moved when the next byte is read.
    pub(crate) fn go_to(&mut self, position: u64) {
        let buffered = self.next - self.end as u64..=self.next;
        if buffered.contains(&position) {
            self.start = (position - buffered.start()) as usize;
        } else {
            (self.start, self.end, self.next) = (0, 0, position);
            self.is_moved = true;
        }
        self.decoder.forget_fault();
        self.decoded = None;
    }

    /// Keeps the block of the frame that the buffered bytes begin with, until bytes are consumed.
    pub(crate) fn keep(&mut self, block: Block, length: usize) {
        self.decoded = Some((block, length));
    }
}

impl<R: io::Read + io::Seek> BufferedReader<R> {
    /// The number of bytes from where the wrapped reader stood at first.
    pub(crate) fn length(&mut self) -> io::Result<u64> {
        let began = match self.began {
            Some((began, _)) => began,
            None => self.inner.stream_position()?.checked_sub(self.next).ok_or(io::ErrorKind::InvalidInput)?,
        };
        self.began = Some((began, R::seek));
        self.is_moved = true;
        Ok(self.inner.seek(SeekFrom::End(0))?.saturating_sub(began))
    }
}

impl<R: io::Read> Source for BufferedReader<R> {
    fn buffered(&self) -> &[u8] {
        &self.buffer[self.start..self.end]
    }

    fn consume(&mut self, count: usize) {
        assert!(count <= self.end - self.start);
        self.start += count;
        self.decoded = None;
    }

    fn fill(&mut self, capacity: usize) -> io::Result<usize> {
        self.make_space(capacity);
        self.read(usize::MAX)
    }

    fn position(&self) -> u64 {
        self.next - (self.end - self.start) as u64
    }

    fn go_within(&mut self, position: u64) {
        self.start = self.end - (self.next - position) as usize;
    }

    fn decoder(&self) -> Decoder {
        self.decoder
    }

    fn note(&mut self, decoder: Decoder) {
        self.decoder = decoder;
    }

    fn take_decoded(&mut self) -> Option<(Block, usize)> {
        self.decoded.take()
    }
}

/// Reads bytes, and numbers of several bytes.
///
/// It is implemented for `BufferedReader`, `io::Cursor` and references to them, and can't be implemented elsewhere: a
/// frame is decoded from the bytes that are buffered.
pub trait ReadBytes: Source {
    /// Reads a byte.
    fn read_u8(&mut self) -> io::Result<u8> {
        self.read_u8_or_eof()?.ok_or_else(end_of_input)
    }

    /// Reads a byte, or returns `None` at the end of input.
    fn read_u8_or_eof(&mut self) -> io::Result<Option<u8>> {
        if self.buffered().is_empty() && self.fill(METADATA_CAPACITY)? == 0 {
            return Ok(None);
        }
        let byte = self.buffered()[0];
        self.consume(1);
        Ok(Some(byte))
    }

    /// Fills the buffer. Where fewer bytes remain, a `BufferedReader` consumes them and a `Cursor` none.
    fn read_into(&mut self, buffer: &mut [u8]) -> io::Result<()> {
        let mut filled = 0;
        while filled < buffer.len() {
            let count = self.buffered().len().min(buffer.len() - filled);
            buffer[filled..filled + count].copy_from_slice(&self.buffered()[..count]);
            self.consume(count);
            filled += count;
            if filled < buffer.len() && self.fill(METADATA_CAPACITY)? == 0 {
                return Err(end_of_input());
            }
        }
        Ok(())
    }

    /// Skips bytes. Where fewer remain, a `BufferedReader` consumes them and a `Cursor` none.
    fn skip(&mut self, amount: u32) -> io::Result<()> {
        let mut left = amount as usize;
        while left > 0 {
            let count = self.buffered().len().min(left);
            self.consume(count);
            left -= count;
            if left > 0 && self.fill(METADATA_CAPACITY)? == 0 {
                return Err(end_of_input());
            }
        }
        Ok(())
    }

    /// Reads a big-endian number of 16 bits.
    fn read_be_u16(&mut self) -> io::Result<u16> {
        let high = self.read_u8()?;
        Ok(u16::from_be_bytes([high, self.read_u8()?]))
    }

    /// Reads a big-endian number of 16 bits, or consumes what is left and returns `None` where that is fewer than two
    /// bytes.
    fn read_be_u16_or_eof(&mut self) -> io::Result<Option<u16>> {
        match self.read_u8_or_eof()? {
            Some(high) => Ok(self.read_u8_or_eof()?.map(|low| u16::from_be_bytes([high, low]))),
            None => Ok(None),
        }
    }

    /// Reads a big-endian number of 24 bits.
    fn read_be_u24(&mut self) -> io::Result<u32> {
        let high = self.read_u8()?;
        Ok(u32::from(high) << 16 | u32::from(self.read_be_u16()?))
    }

    /// Reads a big-endian number of 32 bits.
    fn read_be_u32(&mut self) -> io::Result<u32> {
        let high = self.read_be_u16()?;
        Ok(u32::from(high) << 16 | u32::from(self.read_be_u16()?))
    }

    /// Reads a little-endian number of 32 bits.
    fn read_le_u32(&mut self) -> io::Result<u32> {
        self.read_be_u32().map(u32::swap_bytes)
    }
}

impl<R: io::Read> ReadBytes for BufferedReader<R> {}

impl<R: ReadBytes> Source for &mut R {
    fn buffered(&self) -> &[u8] {
        (**self).buffered()
    }

    fn consume(&mut self, count: usize) {
        (**self).consume(count)
    }

    fn fill(&mut self, capacity: usize) -> io::Result<usize> {
        (**self).fill(capacity)
    }

    fn position(&self) -> u64 {
        (**self).position()
    }

    fn go_within(&mut self, position: u64) {
        (**self).go_within(position)
    }

    fn decoder(&self) -> Decoder {
        (**self).decoder()
    }

    fn note(&mut self, decoder: Decoder) {
        (**self).note(decoder)
    }

    fn take_decoded(&mut self) -> Option<(Block, usize)> {
        (**self).take_decoded()
    }
}

impl<R: ReadBytes> ReadBytes for &mut R {
    fn read_into(&mut self, buffer: &mut [u8]) -> io::Result<()> {
        (**self).read_into(buffer)
    }

    fn skip(&mut self, amount: u32) -> io::Result<()> {
        (**self).skip(amount)
    }
}

impl<T: AsRef<[u8]>> Source for io::Cursor<T> {
    fn buffered(&self) -> &[u8] {
        &self.get_ref().as_ref()[Source::position(self) as usize..]
    }

    fn consume(&mut self, count: usize) {
        assert!(count <= self.buffered().len());
        self.set_position(io::Cursor::position(self) + count as u64);
    }

    // All there is was buffered from the beginning.
    fn fill(&mut self, _: usize) -> io::Result<usize> {
        Ok(0)
    }

    // A cursor can stand after its bytes.
    fn position(&self) -> u64 {
        io::Cursor::position(self).min(self.get_ref().as_ref().len() as u64)
    }

    fn go_within(&mut self, position: u64) {
        if position != Source::position(self) {
            self.set_position(position);
        }
    }

    fn decoder(&self) -> Decoder {
        Decoder::without_head(Source::position(self))
    }

    fn note(&mut self, _: Decoder) {}
}

impl<T: AsRef<[u8]>> ReadBytes for io::Cursor<T> {
    fn read_into(&mut self, buffer: &mut [u8]) -> io::Result<()> {
        let bytes = self.buffered().get(..buffer.len()).ok_or_else(end_of_input)?;
        buffer.copy_from_slice(bytes);
        self.consume(buffer.len());
        Ok(())
    }

    fn skip(&mut self, amount: u32) -> io::Result<()> {
        if self.buffered().len() < amount as usize {
            return Err(end_of_input());
        }
        self.consume(amount as usize);
        Ok(())
    }
}
