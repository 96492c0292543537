//! The metadata at the beginning of a stream.
use crate::error::{end_of_input, Error, Result};
use crate::ffi::{self, Info};
use crate::input::ReadBytes;
use crate::source::METADATA_CAPACITY;
use std::{io, slice};

/// What the streaminfo block says of a stream. Frames aren't compared with it, and the MD5 sum isn't computed.
#[derive(Clone, Copy, Debug)]
pub struct StreamInfo {
    /// The least number of samples of each channel in a block. The last block may have fewer.
    pub min_block_size: u16,
    /// The greatest number of samples of each channel in a block. A buffer of this times `channels` holds any block of
    /// a stream that keeps to its streaminfo.
    pub max_block_size: u16,
    /// The least number of bytes of a frame, if known.
    pub min_frame_size: Option<u32>,
    /// The greatest number of bytes of a frame, if known.
    pub max_frame_size: Option<u32>,
    /// The sample rate in Hz.
    pub sample_rate: u32,
    /// The number of channels, 1 to 8.
    pub channels: u32,
    /// The number of bits per sample, 1 to 32.
    pub bits_per_sample: u32,
    /// The number of samples of each channel in the stream, if known.
    pub samples: Option<u64>,
    /// The MD5 sum of the samples, or zeros where it isn't known.
    pub md5sum: [u8; 16],
}

impl StreamInfo {
    pub(crate) fn new(info: &Info) -> StreamInfo {
        let known = |size: u32| Some(size).filter(|size| *size > 0);
        StreamInfo {
            min_block_size: info.min_block_size,
            max_block_size: info.max_block_size,
            min_frame_size: known(info.min_frame_size),
            max_frame_size: known(info.max_frame_size),
            sample_rate: info.sample_rate,
            channels: info.channels,
            bits_per_sample: info.bits_per_sample,
            samples: Some(info.samples).filter(|samples| *samples > 0),
            md5sum: info.md5,
        }
    }

    pub(crate) fn info(&self) -> Info {
        Info {
            first_frame: 0,
            tags: 0,
            samples: self.samples.unwrap_or(0),
            sample_rate: self.sample_rate,
            channels: self.channels,
            bits_per_sample: self.bits_per_sample,
            min_frame_size: self.min_frame_size.unwrap_or(0),
            max_frame_size: self.max_frame_size.unwrap_or(0),
            min_block_size: self.min_block_size,
            max_block_size: self.max_block_size,
            md5: self.md5sum,
        }
    }
}

/// A point of a seek table. None is ever returned.
#[derive(Clone, Copy)]
pub struct SeekPoint {
    /// The number of the first sample in the frame, or 2^64 - 1 for a placeholder.
    pub sample: u64,
    /// The number of bytes between the first frame of the stream and this frame.
    pub offset: u64,
    /// The number of samples of each channel in the frame.
    pub samples: u16,
}

/// A seek table. None is ever returned.
pub struct SeekTable {
    #[allow(dead_code)]
    seekpoints: Vec<SeekPoint>,
}

/// The Vorbis comments of a stream: its tags, and who wrote it.
pub struct VorbisComment {
    /// The name of the program that wrote the stream.
    pub vendor: String,
    /// The tags, each `NAME=value` with the index of its first `=`. The name is of the bytes 0x20 to 0x7D.
    pub comments: Vec<(String, usize)>,
}

impl VorbisComment {
    // Of the whole content of such a block.
    pub(crate) fn new(content: &[u8]) -> Result<VorbisComment> {
        let (vendor, count) = ffi::vendor(content)?;
        Ok(VorbisComment { vendor: text(&content[vendor])?, comments: read_comments(content, count)? })
    }
}

/// A metadata block.
pub enum MetadataBlock {
    /// A streaminfo block.
    StreamInfo(StreamInfo),
    /// A padding block, or a seek table, a cue sheet or a picture, which are skipped.
    Padding {
        /// The number of its bytes.
        length: u32,
    },
    /// A block of an application.
    Application {
        /// Which application that is.
        id: u32,
        /// The application's bytes.
        data: Vec<u8>,
    },
    /// A seek table. It is never returned.
    SeekTable(SeekTable),
    /// A block of Vorbis comments.
    VorbisComment(VorbisComment),
    /// A cue sheet. It is never returned.
    CueSheet,
    /// A picture. It is never returned.
    Picture,
    /// A block of a reserved type.
    Reserved,
}

/// An iterator over names and values of tags, which [`FlacReader::tags`](crate::FlacReader::tags) returns.
pub struct Tags<'a> {
    comments: slice::Iter<'a, (String, usize)>,
}

impl<'a> Tags<'a> {
    /// The tags of such comments as [`VorbisComment`] has.
    #[inline]
    pub fn new(comments: &'a [(String, usize)]) -> Tags<'a> {
        Tags { comments: comments.iter() }
    }
}

impl<'a> Iterator for Tags<'a> {
    type Item = (&'a str, &'a str);

    #[inline]
    fn next(&mut self) -> Option<(&'a str, &'a str)> {
        self.comments.next().map(name_and_value)
    }

    #[inline]
    fn size_hint(&self) -> (usize, Option<usize>) {
        self.comments.size_hint()
    }
}

impl ExactSizeIterator for Tags<'_> {}

/// An iterator over the values of the tags of one name, which [`FlacReader::get_tag`](crate::FlacReader::get_tag)
/// returns.
pub struct GetTag<'a> {
    tags: Tags<'a>,
    needle: &'a str,
}

impl<'a> GetTag<'a> {
    /// The values of the tags of this name, in upper or lower case, in such comments as [`VorbisComment`] has.
    #[inline]
    pub fn new(vorbis_comments: &'a [(String, usize)], needle: &'a str) -> GetTag<'a> {
        GetTag { tags: Tags::new(vorbis_comments), needle }
    }
}

impl<'a> Iterator for GetTag<'a> {
    type Item = &'a str;

    #[inline]
    fn next(&mut self) -> Option<&'a str> {
        let needle = self.needle;
        self.tags.find(|(name, _)| name.eq_ignore_ascii_case(needle)).map(|(_, value)| value)
    }
}

fn name_and_value((comment, separator): &(String, usize)) -> (&str, &str) {
    (&comment[..*separator], &comment[*separator + 1..])
}

// ---- reading

pub(crate) const STREAMINFO: u8 = 0;
const PADDING: u8 = 1;
const APPLICATION: u8 = 2;
const SEEK_TABLE: u8 = 3;
pub(crate) const VORBIS_COMMENT: u8 = 4;
const CUE_SHEET: u8 = 5;
const PICTURE: u8 = 6;

// The greatest type, and the greatest length, that a block's header can give.
const MAX_TYPE: u8 = 0x7f;
const MAX_LENGTH: u32 = 0xff_ffff;

const LAST: u8 = 0x80;

/// The header of a metadata block.
pub(crate) struct BlockHeader {
    pub is_last: bool,
    pub block_type: u8,
    pub length: u32,
}

impl BlockHeader {
    pub(crate) fn read<R: ReadBytes>(input: &mut R) -> Result<BlockHeader> {
        let flag_and_type = input.read_u8()?;
        let length = input.read_be_u24()?;
        Ok(BlockHeader { is_last: flag_and_type & LAST != 0, block_type: flag_and_type & MAX_TYPE, length })
    }
}

/// The content of a metadata block, as far as a stream is opened by it.
pub(crate) enum Content {
    StreamInfo(StreamInfo),
    VorbisComment(VorbisComment),
    Skipped,
}

impl Content {
    pub(crate) fn read<R: ReadBytes>(input: &mut R, block_type: u8, length: u32) -> Result<Content> {
        check_header(block_type, length)?;
        match block_type {
            STREAMINFO => Ok(Content::StreamInfo(read_streaminfo(input)?)),
            VORBIS_COMMENT => Ok(Content::VorbisComment(read_vorbis_comment(input, length)?)),
            _ => {
                input.skip(length)?;
                Ok(Content::Skipped)
            }
        }
    }
}

/// Reads a metadata block with its header.
///
/// In the Ogg mapping of FLAC each of the first packets has one, after the header of the mapping in the first of them.
///
/// # Errors
///
/// As [`read_metadata_block`].
pub fn read_metadata_block_with_header<R: ReadBytes>(input: &mut R) -> Result<MetadataBlock> {
    let header = BlockHeader::read(input)?;
    read_metadata_block(input, header.block_type, header.length)
}

/// Reads the content of a metadata block of this type and length, as MP4 hands it in.
///
/// # Errors
///
/// `FormatError` or `Unsupported` for what is wrong with the block, `IoError` where the reader fails or its bytes end
/// within it.
pub fn read_metadata_block<R: ReadBytes>(input: &mut R, block_type: u8, length: u32) -> Result<MetadataBlock> {
    if block_type == APPLICATION {
        check_header(block_type, length)?;
        return read_application(input, length);
    }
    Ok(match Content::read(input, block_type, length)? {
        Content::StreamInfo(info) => MetadataBlock::StreamInfo(info),
        Content::VorbisComment(comment) => MetadataBlock::VorbisComment(comment),
        Content::Skipped => match block_type {
            PADDING | SEEK_TABLE | CUE_SHEET | PICTURE => MetadataBlock::Padding { length },
            _ => MetadataBlock::Reserved,
        },
    })
}

// The head of a stream whose second block has such a header, and this beginning of its content.
fn head_with(block_type: u8, length: u32, content: &[u8]) -> Vec<u8> {
    let mut head = b"fLaC\0\0\0\x22".to_vec();
    // Blocks of 16 samples, 44,100 Hz, one channel of 8 bits.
    head.extend_from_slice(&[0, 16, 0, 16, 0, 0, 0, 0, 0, 0, 0x0a, 0xc4, 0x40, 0x70, 0, 0, 0, 0]);
    head.extend_from_slice(&[0; 16]);
    head.push(block_type | LAST);
    head.extend_from_slice(&length.min(MAX_LENGTH).to_be_bytes()[1..]);
    head.extend_from_slice(content);
    head
}

// Whether the library refuses such a block by the beginning of its content.
fn check_beginning(block_type: u8, length: u32, content: &[u8]) -> Result<()> {
    match ffi::open(&head_with(block_type, length, content)) {
        Err(failure) if failure.status != ffi::INPUT_ENDS => Err(failure.into()),
        _ => Ok(()),
    }
}

// Whether it refuses the block by its type and length, before anything of it is read. A caller can pass types that no
// header has: they are reserved. A length that no header can give is refused as the greatest one is.
fn check_header(block_type: u8, length: u32) -> Result<()> {
    if block_type <= MAX_TYPE {
        check_beginning(block_type, length, &[])?;
    }
    Ok(())
}

fn read_streaminfo<R: ReadBytes>(input: &mut R) -> Result<StreamInfo> {
    let mut content = [0; 34];
    input.read_into(&mut content)?;
    Ok(StreamInfo::new(&ffi::streaminfo(&content)?))
}

// The application's number, and its bytes.
fn read_application<R: ReadBytes>(input: &mut R, length: u32) -> Result<MetadataBlock> {
    let id = input.read_be_u32()?;
    let mut data = Vec::new();
    read_content(input, length - 4, &mut data)?;
    Ok(MetadataBlock::Application { id, data })
}

// Appends as many bytes. After an error those that were there are appended, and consumed. Memory grows with what is
// there, and not with what a header says.
fn read_content<R: ReadBytes>(input: &mut R, length: u32, content: &mut Vec<u8>) -> io::Result<()> {
    let length = length as usize;
    loop {
        let count = input.buffered().len().min(length - content.len());
        content.extend_from_slice(&input.buffered()[..count]);
        input.consume(count);
        if content.len() == length {
            return Ok(());
        }
        if input.fill(METADATA_CAPACITY)? == 0 {
            return Err(end_of_input());
        }
    }
}

fn read_vorbis_comment<R: ReadBytes>(input: &mut R, length: u32) -> Result<VorbisComment> {
    let mut content = Vec::new();
    if let Err(error) = read_content(input, length, &mut content) {
        // What is there may be wrong already.
        check_beginning(VORBIS_COMMENT, length, &content)?;
        return Err(Error::IoError(error));
    }
    VorbisComment::new(&content)
}

// The library has judged the whole block, so that each of these tags is there.
fn read_comments(content: &[u8], count: usize) -> Result<Vec<(String, usize)>> {
    let mut comments = Vec::with_capacity(count);
    let mut at = 0;
    while comments.len() < count {
        let (name, value) = ffi::next_tag(content, &mut at)?;
        comments.push((text(&content[name.start..value.end])?, name.len()));
    }
    Ok(comments)
}

fn text(bytes: &[u8]) -> Result<String> {
    Ok(String::from_utf8(bytes.to_vec())?)
}

/// Reads metadata blocks, one after another, up to the one that is marked as the last.
///
/// After an error, or after that block, it returns `None`.
pub struct MetadataBlockReader<R: ReadBytes> {
    input: R,
    is_done: bool,
}

/// What [`MetadataBlockReader`] returns.
pub type MetadataBlockResult = Result<MetadataBlock>;

impl<R: ReadBytes> MetadataBlockReader<R> {
    /// A reader of the blocks that begin here: those of a stream begin after the marker `fLaC`.
    pub fn new(input: R) -> MetadataBlockReader<R> {
        MetadataBlockReader { input, is_done: false }
    }

    fn read_next(&mut self) -> MetadataBlockResult {
        let header = BlockHeader::read(&mut self.input)?;
        let block = read_metadata_block(&mut self.input, header.block_type, header.length)?;
        self.is_done = header.is_last;
        Ok(block)
    }
}

impl<R: ReadBytes> Iterator for MetadataBlockReader<R> {
    type Item = MetadataBlockResult;

    fn next(&mut self) -> Option<MetadataBlockResult> {
        if self.is_done {
            return None;
        }
        let block = self.read_next();
        self.is_done |= block.is_err();
        Some(block)
    }

    fn size_hint(&self) -> (usize, Option<usize>) {
        match self.is_done {
            true => (0, Some(0)),
            false => (1, None),
        }
    }
}
