//! What frames are decoded from.
use crate::decoder::{Decoder, Held};
use crate::frame::Block;
use std::io;

/// The capacity of a buffer for metadata: tags mostly fit, and where they alone are read little else is.
pub const METADATA_CAPACITY: usize = 1 << 12;

/// That for frames: some twenty of music, as a frame that is cut by the end of the buffer is decoded twice.
pub const FRAME_CAPACITY: usize = 1 << 18;

/// Bytes that can be looked at before they are consumed.
pub trait Source {
    /// The bytes that were read and not consumed.
    fn buffered(&self) -> &[u8];

    /// Consumes as many of them.
    fn consume(&mut self, count: usize);

    /// Reads once more bytes after them, into a buffer of at least this capacity, and returns how many; 0 at the end of
    /// input. After an error they are as before. Those that were consumed are lost.
    fn fill(&mut self, capacity: usize) -> io::Result<usize>;

    /// The position of the first of the buffered bytes.
    fn position(&self) -> u64;

    /// Goes to a position of the buffered bytes, or of those that were consumed since the last `fill`.
    fn go_within(&mut self, position: u64);

    /// The decoder of what is buffered, as it was noted last.
    fn decoder(&self) -> Decoder;

    /// Notes it for the next reader of frames. Of bytes in memory nothing is noted.
    fn note(&mut self, decoder: Decoder);

    /// The block of the frame that the buffered bytes begin with, where it was decoded already, and the length of the
    /// frame.
    fn take_decoded(&mut self) -> Option<(Block, usize)> {
        None
    }

    /// The buffered bytes, with which the stream ends or not.
    fn held(&self, is_end: bool) -> Held<'_> {
        Held { bytes: self.buffered(), position: self.position(), is_end }
    }
}
