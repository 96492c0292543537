//! An exact FLAC decoder, with the names of claxon 0.4.3.
//!
//! It is a thin layer over the library for C of this repository, whose decoder is proved: each supported stream is
//! decoded exactly, and anything else is an error that names what is wrong. `README.md` says where it differs from
//! claxon 0.4.3.
//!
//! # Examples
//!
//! The loudness of a file, as the root mean square of its samples:
//!
//! ```
//! # fn main() -> claxon::Result<()> {
//! let mut flac = claxon::FlacReader::open("examples/tagged.flac")?;
//! let (mut sum, mut count) = (0.0, 0.0);
//! for sample in flac.samples() {
//!     sum += f64::from(sample?).powi(2);
//!     count += 1.0;
//! }
//! println!("{}", (sum / count).sqrt());
//! # Ok(())
//! # }
//! ```
//!
//! Block by block, which is faster:
//!
//! ```
//! # fn main() -> claxon::Result<()> {
//! # let mut peak = 0;
//! let mut flac = claxon::FlacReader::open("examples/tagged.flac")?;
//! let mut blocks = flac.blocks();
//! let mut buffer = Vec::new();
//! while let Some(block) = blocks.read_next_or_eof(buffer)? {
//!     for ch in 0..block.channels() {
//!         peak = block.channel(ch).iter().map(|sample| sample.unsigned_abs()).fold(peak, u32::max);
//!     }
//!     buffer = block.into_buffer();
//! }
//! # Ok(())
//! # }
//! ```
//!
//! The tags alone:
//!
//! ```
//! # fn main() -> claxon::Result<()> {
//! let options = claxon::FlacReaderOptions { metadata_only: true, read_vorbis_comment: true };
//! let flac = claxon::FlacReader::open_ext("examples/tagged.flac", options)?;
//! for artist in flac.get_tag("artist") {
//!     println!("{artist}");
//! }
//! # Ok(())
//! # }
//! ```
#![deny(unsafe_code)]
#![warn(missing_docs)]

mod decoder;
mod error;
#[allow(unsafe_code)]
mod ffi;
pub mod frame;
mod head;
pub mod input;
mod md5;
pub mod metadata;
mod samples;
mod seek;
mod source;

pub use decoder::{Decoder, Event, Held};
pub use error::{Error, Result};
pub use frame::Block;
pub use md5::Md5;
pub use samples::FlacSamples;

#[cfg(doctest)]
#[doc = include_str!("../README.md")]
struct Readme;

use frame::FrameReader;
use input::BufferedReader;
use metadata::{GetTag, StreamInfo, Tags, VorbisComment};
use source::Source;
use std::fs::File;
use std::io::{Read, Seek};
use std::path::Path;

/// Which metadata a [`FlacReader`] reads when it is made.
///
/// - For the streaminfo alone, set `metadata_only` to true and `read_vorbis_comment` to false.
/// - For the streaminfo and the tags alone, set both to true.
#[derive(Copy, Clone, Debug, Eq, PartialEq)]
pub struct FlacReaderOptions {
    /// Whether to stop where the requested metadata was read. Such a reader can't give samples.
    ///
    /// False by default.
    pub metadata_only: bool,

    /// Whether to keep the vendor string and the tags. If not, none are shown, even where the stream has them.
    ///
    /// True by default.
    pub read_vorbis_comment: bool,
}

impl Default for FlacReaderOptions {
    fn default() -> FlacReaderOptions {
        FlacReaderOptions { metadata_only: false, read_vorbis_comment: true }
    }
}

/// A FLAC stream whose head was read.
pub struct FlacReader<R: Read> {
    streaminfo: StreamInfo,
    vorbis_comment: Option<VorbisComment>,
    metadata_only: bool,
    input: BufferedReader<R>,
    first_frame: u64,
}

impl<R: Read> FlacReader<R> {
    /// Reads the head of a stream, with the default options.
    ///
    /// The reader needs no buffer of its own. Frames are read when they are asked for.
    ///
    /// # Errors
    ///
    /// `FormatError` where the bytes aren't the head of a stream. `Unsupported` where a block of comments or of an
    /// application is larger than 10 MiB, or where there are more than 65,536 blocks. `IoError` where the reader fails,
    /// or its bytes end within the head.
    pub fn new(reader: R) -> Result<FlacReader<R>> {
        FlacReader::new_ext(reader, FlacReaderOptions::default())
    }

    /// Reads the head of a stream, as far as the options say.
    ///
    /// # Errors
    ///
    /// Those of [`FlacReader::new`].
    pub fn new_ext(reader: R, options: FlacReaderOptions) -> Result<FlacReader<R>> {
        let mut input = BufferedReader::new(reader);
        let (streaminfo, vorbis_comment) = head::read_head(&mut input, options)?;
        let first_frame = input.position();
        Ok(FlacReader { streaminfo, vorbis_comment, metadata_only: options.metadata_only, input, first_frame })
    }

    /// What the streaminfo block says.
    pub fn streaminfo(&self) -> StreamInfo {
        self.streaminfo
    }

    /// The name of the program that wrote the stream, where comments are shown.
    pub fn vendor(&self) -> Option<&str> {
        self.vorbis_comment.as_ref().map(|comment| comment.vendor.as_str())
    }

    /// The names and values of all tags, in order. A name may be there more than once, and in any case.
    pub fn tags(&self) -> Tags<'_> {
        Tags::new(self.comments())
    }

    /// The values of the tags of this name, in upper or lower case, in order.
    pub fn get_tag<'a>(&'a self, tag_name: &'a str) -> GetTag<'a> {
        GetTag::new(self.comments(), tag_name)
    }

    fn comments(&self) -> &[(String, usize)] {
        self.vorbis_comment.as_ref().map_or(&[], |comment| &comment.comments)
    }

    /// Whether the reader was made with `metadata_only`, and so can't give samples.
    pub fn is_metadata_only(&self) -> bool {
        self.metadata_only
    }

    /// A reader of the blocks from here on. One that is made later continues where this one stopped.
    ///
    /// # Panics
    ///
    /// Where the reader was made with `metadata_only`.
    pub fn blocks(&mut self) -> FrameReader<&mut BufferedReader<R>> {
        assert!(!self.metadata_only, "a reader that was made with metadata_only has no blocks()");
        FrameReader::with_streaminfo(&mut self.input, self.streaminfo)
    }

    /// An iterator over the samples from here on, the channels interleaved.
    ///
    /// The samples that are left of a block are lost with the iterator. As each sample is a `Result`,
    /// [`FlacReader::blocks`] is faster.
    ///
    /// # Panics
    ///
    /// Where the reader was made with `metadata_only`.
    pub fn samples(&mut self) -> FlacSamples<&mut BufferedReader<R>> {
        assert!(!self.metadata_only, "a reader that was made with metadata_only has no samples()");
        FlacSamples::new(FrameReader::with_streaminfo(&mut self.input, self.streaminfo))
    }

    /// As [`FlacReader::samples`], by an iterator that owns the reader: so it can be kept, or go to another thread.
    ///
    /// After [`FlacReader::seek`] it begins with the first sample of the block.
    ///
    /// # Panics
    ///
    /// Where the reader was made with `metadata_only`.
    pub fn into_samples(self) -> FlacSamples<BufferedReader<R>> {
        assert!(!self.metadata_only, "a reader that was made with metadata_only has no into_samples()");
        FlacSamples::new(FrameReader::with_streaminfo(self.input, self.streaminfo))
    }

    /// The wrapped reader. Buffered bytes are lost.
    pub fn into_inner(self) -> R {
        self.input.into_inner()
    }
}

impl<R: Read + Seek> FlacReader<R> {
    /// Goes to a frame whose block has this sample of each channel, of which the first is 0. The next block of
    /// [`FlacReader::blocks`] is that one.
    ///
    /// It returns how many samples of the block come before the one that is sought: those are the caller's to pass. It
    /// returns `None` where no block has the sample. The frame is found by the times that frames have, in few reads; a
    /// seek table isn't looked at. Where the stream is damaged or hasn't the sample, all its bytes are searched. Where
    /// very many headers with the sample have led to no frame, as only in a stream that is made for it, some are passed
    /// without a try.
    ///
    /// After `None` or an error the reader goes on where it stood before.
    ///
    /// # Errors
    ///
    /// An `IoError` where the reader fails to read or to seek.
    ///
    /// # Panics
    ///
    /// Where the reader was made with `metadata_only`.
    pub fn seek(&mut self, sample: u64) -> Result<Option<u32>> {
        assert!(!self.metadata_only, "a reader that was made with metadata_only has no seek()");
        let position = self.input.position();
        let found = seek::seek(&mut self.input, &self.streaminfo, self.first_frame, sample);
        if !matches!(found, Ok(Some(_))) {
            self.input.go_to(position);
        }
        found
    }

    /// As [`FlacReader::samples`], from this sample of each channel on. `None` where no block has it.
    ///
    /// # Errors
    ///
    /// Those of [`FlacReader::seek`].
    ///
    /// # Panics
    ///
    /// Where the reader was made with `metadata_only`.
    pub fn samples_from(&mut self, sample: u64) -> Result<Option<FlacSamples<&mut BufferedReader<R>>>> {
        match self.seek(sample)? {
            Some(before) => {
                let mut samples = self.samples();
                samples.pass(before)?;
                Ok(Some(samples))
            }
            None => Ok(None),
        }
    }
}

impl FlacReader<File> {
    /// Opens a file and reads its head, with the default options.
    ///
    /// # Errors
    ///
    /// Those of [`FlacReader::new`], and an `IoError` where the file can't be opened.
    pub fn open<P: AsRef<Path>>(filename: P) -> Result<FlacReader<File>> {
        FlacReader::open_ext(filename, FlacReaderOptions::default())
    }

    /// Opens a file and reads its head, as far as the options say.
    ///
    /// # Errors
    ///
    /// Those of [`FlacReader::open`].
    pub fn open_ext<P: AsRef<Path>>(filename: P, options: FlacReaderOptions) -> Result<FlacReader<File>> {
        FlacReader::new_ext(File::open(filename)?, options)
    }
}
