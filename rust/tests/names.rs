//! The public names and signatures of claxon 0.4.3, as far as this crate has them: this has to compile.
use claxon::frame::{Block, FrameReader, FrameResult, StereoSamples};
use claxon::input::{BufferedReader, ReadBytes};
use claxon::metadata::{
    read_metadata_block, read_metadata_block_with_header, GetTag, MetadataBlock, MetadataBlockReader,
    MetadataBlockResult, SeekPoint, SeekTable, StreamInfo, Tags, VorbisComment,
};
use claxon::{Error, FlacReader, FlacReaderOptions, FlacSamples, Result};
use std::fs::File;
use std::io::{self, Cursor};

type R = &'static [u8];

fn readers(options: FlacReaderOptions) -> Result<()> {
    let _: fn(R) -> Result<FlacReader<R>> = FlacReader::new;
    let _: fn(R, FlacReaderOptions) -> Result<FlacReader<R>> = FlacReader::new_ext;
    let _: fn(&'static str) -> Result<FlacReader<File>> = FlacReader::open;
    let _: fn(String, FlacReaderOptions) -> Result<FlacReader<File>> = FlacReader::open_ext;
    let FlacReaderOptions { metadata_only: _, read_vorbis_comment: _ } = options;

    let mut flac: FlacReader<R> = FlacReader::new(&b""[..])?;
    let _: StreamInfo = flac.streaminfo();
    let _: Option<&str> = flac.vendor();
    let _: Tags<'_> = flac.tags();
    let _: GetTag<'_> = flac.get_tag("artist");
    let _: FrameReader<&mut BufferedReader<R>> = flac.blocks();
    let _: FlacSamples<&mut BufferedReader<R>> = flac.samples();
    let _: R = flac.into_inner();
    Ok(())
}

fn frames(block: Block) {
    let _: fn() -> Block = claxon::Block::empty;
    let _: [fn(&Block) -> u32; 3] = [Block::len, Block::duration, Block::channels];
    let _: fn(&Block) -> u64 = Block::time;
    let _: fn(&Block, u32) -> &[i32] = Block::channel;
    let _: fn(&Block, u32, u32) -> i32 = Block::sample;
    let _: StereoSamples<'_> = block.stereo_samples();
    let _: Vec<i32> = block.into_buffer();
    let _: fn(Cursor<R>) -> FrameReader<Cursor<R>> = FrameReader::new;
    let _: fn(&mut FrameReader<Cursor<R>>, Vec<i32>) -> FrameResult = FrameReader::read_next_or_eof;
    let _: fn(FrameReader<Cursor<R>>) -> Cursor<R> = FrameReader::into_inner;
}

fn bytes<T: ReadBytes>() {
    let _: fn(R) -> BufferedReader<R> = BufferedReader::new;
    let _: fn(BufferedReader<R>) -> R = BufferedReader::into_inner;
    let _: fn(&mut T) -> io::Result<u8> = T::read_u8;
    let _: fn(&mut T) -> io::Result<Option<u8>> = T::read_u8_or_eof;
    let _: fn(&mut T, &mut [u8]) -> io::Result<()> = T::read_into;
    let _: fn(&mut T, u32) -> io::Result<()> = T::skip;
    let _: fn(&mut T) -> io::Result<u16> = T::read_be_u16;
    let _: fn(&mut T) -> io::Result<Option<u16>> = T::read_be_u16_or_eof;
    let _: [fn(&mut T) -> io::Result<u32>; 3] = [T::read_be_u24, T::read_be_u32, T::read_le_u32];
}

fn metadata<T: ReadBytes>() {
    let _: fn(&mut T, u8, u32) -> Result<MetadataBlock> = read_metadata_block;
    let _: fn(&mut T) -> Result<MetadataBlock> = read_metadata_block_with_header;
    let _: fn(T) -> MetadataBlockReader<T> = MetadataBlockReader::new;
    let _: fn(&mut MetadataBlockReader<T>) -> Option<MetadataBlockResult> = Iterator::next;
    let _: fn(&'static [(String, usize)]) -> Tags<'static> = Tags::new;
    let _: fn(&'static [(String, usize)], &'static str) -> GetTag<'static> = GetTag::new;
}

fn blocks(block: MetadataBlock) -> Option<SeekTable> {
    match block {
        MetadataBlock::SeekTable(table) => return Some(table),
        MetadataBlock::VorbisComment(VorbisComment { vendor, comments }) => {
            drop::<(String, Vec<(String, usize)>)>((vendor, comments))
        }
        MetadataBlock::Application { id: 0..=u32::MAX, data } => drop::<Vec<u8>>(data),
        MetadataBlock::StreamInfo(StreamInfo { .. }) | MetadataBlock::Padding { length: 0..=u32::MAX } => {}
        MetadataBlock::CueSheet | MetadataBlock::Picture | MetadataBlock::Reserved => {}
    }
    None
}

fn values(error: Error, point: SeekPoint) -> String {
    let SeekPoint { sample: _, offset: _, samples: _ } = point;
    match error {
        Error::IoError(error) => error.to_string(),
        Error::FormatError(text) | Error::Unsupported(text) => drop_static(text),
    }
}

fn drop_static(text: &'static str) -> String {
    text.to_string()
}

#[test]
fn names() {
    let (mut input, point) = (Cursor::new(b"\x01\0\0\0"), SeekPoint { sample: 0, offset: 0, samples: 0 });
    bytes::<BufferedReader<R>>();
    metadata::<&mut Cursor<R>>();
    assert!(blocks(read_metadata_block_with_header(&mut input).unwrap()).is_none());
    assert!(matches!(readers(FlacReaderOptions::default()), Err(Error::IoError(_))));
    assert_eq!(values(Error::FormatError("invalid stream header"), point), "invalid stream header");
    assert!(std::panic::catch_unwind(|| frames(Block::empty())).is_err());
}
