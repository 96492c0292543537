//! wav IN.flac OUT.wav: decodes a file into a WAV file.
//!
//! `cargo run --release --example wav -- song.flac song.wav`
use claxon::metadata::StreamInfo;
use claxon::{Block, FlacReader};
use std::error::Error;
use std::fs::File;
use std::io::{BufWriter, Read, Seek, Write};

type Result<T> = std::result::Result<T, Box<dyn Error>>;

/// Writes the samples of a stream. The header is written again at the end, as only then the number of samples is sure.
pub fn write_wav<R: Read, W: Write + Seek>(flac: &mut FlacReader<R>, output: &mut W) -> Result<()> {
    let info = flac.streaminfo();
    write_header(&info, 0, output)?;
    let mut blocks = flac.blocks();
    let mut buffer = Vec::new();
    let mut length = 0;
    while let Some(block) = blocks.read_next_or_eof(buffer)? {
        if block.channels() != info.channels {
            return Err("the number of channels changes".into());
        }
        length += write_block(&block, info.bits_per_sample, output)?;
        buffer = block.into_buffer();
    }
    if length % 2 == 1 {
        output.write_all(&[0])?;
    }
    output.rewind()?;
    write_header(&info, length, output)?;
    Ok(output.flush()?)
}

fn sample_size(bits_per_sample: u32) -> u32 {
    (bits_per_sample + 7) / 8
}

/// The header of `length` bytes of samples. For more than two channels it leaves open which speaker each is for.
fn write_header<W: Write>(info: &StreamInfo, length: u64, output: &mut W) -> Result<()> {
    let size = u32::try_from(length + length % 2 + 36).map_err(|_| "too long for a WAV file")?;
    let block_align = info.channels * sample_size(info.bits_per_sample);
    output.write_all(b"RIFF")?;
    output.write_all(&size.to_le_bytes())?;
    output.write_all(b"WAVEfmt \x10\0\0\0\x01\0")?;
    output.write_all(&(info.channels as u16).to_le_bytes())?;
    output.write_all(&info.sample_rate.to_le_bytes())?;
    output.write_all(&(info.sample_rate * block_align).to_le_bytes())?;
    output.write_all(&(block_align as u16).to_le_bytes())?;
    output.write_all(&(8 * sample_size(info.bits_per_sample) as u16).to_le_bytes())?;
    output.write_all(b"data")?;
    Ok(output.write_all(&(length as u32).to_le_bytes())?)
}

/// Writes a block, and returns how many bytes it has. Samples are moved up to whole bytes; those of one byte are unsigned.
fn write_block<W: Write>(block: &Block, bits_per_sample: u32, output: &mut W) -> Result<u64> {
    let size = sample_size(bits_per_sample);
    let up = 8 * size - bits_per_sample;
    let offset = if size == 1 { 128 } else { 0 };
    let mut bytes = Vec::with_capacity((block.len() * size) as usize);
    for index in 0..block.duration() {
        for ch in 0..block.channels() {
            let sample = (block.sample(ch, index) << up) + offset;
            bytes.extend_from_slice(&sample.to_le_bytes()[..size as usize]);
        }
    }
    output.write_all(&bytes)?;
    Ok(bytes.len() as u64)
}

#[allow(dead_code)] // A test has the calls above alone.
fn main() -> Result<()> {
    let words: Vec<_> = std::env::args_os().skip(1).collect();
    match &words[..] {
        [flac, wav] => write_wav(&mut FlacReader::open(flac)?, &mut BufWriter::new(File::create(wav)?)),
        _ => Err("usage: wav IN.flac OUT.wav".into()),
    }
}
