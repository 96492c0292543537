//! The head of a stream: its marker and its metadata blocks.
use crate::decoder::Held;
use crate::error::{Error, Result};
use crate::ffi::{self, Info, Metadata, NextPart};
use crate::input::ReadBytes;
use crate::metadata::{StreamInfo, VorbisComment, STREAMINFO, VORBIS_COMMENT};
use crate::source::METADATA_CAPACITY;
use crate::FlacReaderOptions;
use std::io;

/// A head whose bytes are handed in.
#[derive(Clone, Copy, Debug)]
pub(crate) struct Head {
    head: ffi::Head,
    metadata: Metadata,
    info: Info,
}

/// What was read of it.
pub(crate) enum Part {
    StreamInfo(StreamInfo),
    VorbisComment(VorbisComment),
    Other,
    /// So many bytes are needed at least.
    NeedMore(usize),
    Whole,
}

impl Head {
    pub fn start(position: u64) -> Head {
        Head { head: ffi::Head::start(position), metadata: Metadata::default(), info: Info::default() }
    }

    /// The position of the first byte that is needed.
    pub fn position(&self) -> u64 {
        self.head.position
    }

    pub fn next(&mut self, held: Held<'_>) -> Result<Part> {
        match self.head.next(held, &mut self.info, &mut self.metadata) {
            NextPart::Content => self.content(held),
            NextPart::Other => Ok(Part::Other),
            NextPart::NeedMore => Ok(Part::NeedMore(self.head.needed)),
            NextPart::Whole => Ok(Part::Whole),
            NextPart::Failed(failure) => Err(failure.into()),
        }
    }

    // An error of a reader, or the fault that is told where the bytes end there.
    fn fault_before(mut self, error: io::Error, held: Held<'_>) -> Error {
        match self.next(held) {
            Err(fault @ (Error::FormatError(_) | Error::Unsupported(_))) => fault,
            _ => Error::IoError(error),
        }
    }

    // The content of streaminfo and comments is held as a whole.
    fn content(&self, held: Held<'_>) -> Result<Part> {
        let Metadata { content, length, block_type, .. } = self.metadata;
        Ok(match block_type {
            STREAMINFO => Part::StreamInfo(StreamInfo::new(&self.info)),
            VORBIS_COMMENT => {
                let start = content - held.position as usize;
                Part::VorbisComment(VorbisComment::new(&held.bytes[start..start + length as usize])?)
            }
            _ => Part::Other,
        })
    }
}

/// The streaminfo, and the comments where they are requested and present. Blocks are read as far as the options say.
pub(crate) fn read_head<R: ReadBytes>(
    input: &mut R,
    options: FlacReaderOptions,
) -> Result<(StreamInfo, Option<VorbisComment>)> {
    let (mut head, mut streaminfo, mut comment) = (Head::start(input.position()), None, None);
    let mut is_end = false;
    loop {
        let part = head.next(input.held(is_end))?;
        let is_whole = matches!(part, Part::Whole);
        input.skip((head.position() - input.position()) as u32)?;
        match part {
            Part::StreamInfo(found) => streaminfo = Some(found),
            Part::VorbisComment(found) => comment = Some(found),
            Part::NeedMore(_) => match input.fill(METADATA_CAPACITY) {
                Ok(count) => is_end = count == 0,
                Err(error) => return Err(head.fault_before(error, input.held(true))),
            },
            Part::Other | Part::Whole => {}
        }
        let suffices = options.metadata_only && (comment.is_some() || !options.read_vorbis_comment);
        if let (Some(streaminfo), true) = (streaminfo, is_whole || suffices) {
            return Ok((streaminfo, comment.filter(|_| options.read_vorbis_comment)));
        }
    }
}
