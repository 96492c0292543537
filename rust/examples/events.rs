//! Writes what `FlacReader` and `Decoder` say of streams in pieces, for tools/fuzz.
//!
//! usage: events < STREAMS
//!
//! Each stream on standard input is: the number of pieces, the lengths of these, the number of samples to seek, the samples, the
//! number of bytes, and the bytes. Numbers are of 32 bits, little-endian. What is said of it is lines of text, and after a line
//! `block` the samples of the block.
use claxon::{Block, Decoder, Error, Event, FlacReader, Held, Result};
use std::io::{self, Read, Write};

/// Gives one piece a read.
struct Pieces<'a> {
    bytes: &'a [u8],
    lengths: std::slice::Iter<'a, usize>,
}

impl Read for Pieces<'_> {
    fn read(&mut self, buffer: &mut [u8]) -> io::Result<usize> {
        let length = self.lengths.next().copied().unwrap_or(usize::MAX).min(buffer.len());
        self.bytes.read(&mut buffer[..length])
    }
}

fn name(error: &Error) -> String {
    match error {
        Error::FormatError(text) => format!("FormatError {text}"),
        Error::Unsupported(text) => format!("Unsupported {text}"),
        Error::IoError(error) if error.kind() == io::ErrorKind::UnexpectedEof => "InputEnds".to_string(),
        Error::IoError(error) => format!("IoError {error}"),
    }
}

fn write_block(output: &mut impl Write, block: Block) -> io::Result<()> {
    let (rate, bits) = (block.sample_rate().unwrap_or(0), block.bits_per_sample().unwrap_or(0));
    writeln!(output, "block {} {} {} {rate} {bits}", block.time(), block.channels(), block.duration())?;
    let samples: Vec<u8> = block.into_buffer().iter().flat_map(|sample| sample.to_le_bytes()).collect();
    output.write_all(&samples)
}

fn write_skipped(output: &mut impl Write, skipped: Option<u64>) -> io::Result<()> {
    writeln!(output, "skipped {}", skipped.map_or("all".to_string(), |count| count.to_string()))
}

/// What a reader says, without positions.
fn write_read(output: &mut impl Write, flac: &mut FlacReader<Pieces<'_>>) -> Result<()> {
    let mut blocks = flac.blocks();
    loop {
        match blocks.read_next_or_eof(Vec::new()) {
            Ok(Some(block)) => write_block(output, block)?,
            Ok(None) => return Ok(()),
            Err(error) => {
                writeln!(output, "fault {}", name(&error))?;
                let skipped = blocks.resync()?;
                write_skipped(output, skipped)?;
                if skipped.is_none() {
                    return Ok(());
                }
            }
        }
    }
}

/// What a decoder says.
fn write_decoded(output: &mut impl Write, bytes: &[u8], pieces: &[usize], has_head: bool) -> Result<()> {
    let (mut decoder, mut ends) = (Decoder::new(), pieces.iter());
    let (mut end, mut buffer, mut is_lost) = (0, Vec::new(), false);
    loop {
        let start = (decoder.position() as usize).min(end);
        let held = Held { bytes: &bytes[start..end], position: start as u64, is_end: end == bytes.len() };
        let event = if is_lost { decoder.resync(held) } else { decoder.decode(held, &mut buffer) };
        match event {
            Ok(Event::NeedMore(_)) => end = bytes.len().min(end + ends.next().copied().unwrap_or(bytes.len())),
            Ok(Event::Block(block)) => write_block(output, block)?,
            Ok(Event::Resynced(skipped)) => {
                is_lost = false;
                write_skipped(output, Some(skipped))?;
            }
            Ok(Event::End) => {
                if is_lost {
                    write_skipped(output, None)?;
                }
                return Ok(());
            }
            Ok(_) => {}
            Err(error) if !has_head => return Ok(writeln!(output, "head {}", name(&error))?),
            Err(error) => {
                is_lost = true;
                writeln!(output, "fault {} {}", decoder.position(), name(&error))?;
            }
        }
    }
}

/// What a reader finds at these samples, and the block that has each.
fn write_sought(output: &mut impl Write, bytes: &[u8], samples: &[usize]) -> Result<()> {
    let mut flac = FlacReader::new(io::Cursor::new(bytes))?;
    for sample in samples {
        match flac.seek(*sample as u64)? {
            Some(before) => {
                writeln!(output, "sought {before}")?;
                if let Some(block) = flac.blocks().read_next_or_eof(Vec::new())? {
                    write_block(output, block)?;
                }
            }
            None => writeln!(output, "sought none")?,
        }
    }
    Ok(())
}

/// What a decoder finds, by pieces.
fn write_found(output: &mut impl Write, bytes: &[u8], pieces: &[usize], samples: &[usize]) -> Result<()> {
    let (mut decoder, mut buffer, mut ends) = (Decoder::new(), Vec::new(), pieces.iter().cycle());
    for sample in samples {
        decoder.begin_seek(*sample as u64, Some(bytes.len() as u64));
        let (mut start, mut end) = (0, 0);
        loop {
            let held = Held {
                bytes: bytes.get(start..end).unwrap_or(&[]),
                position: start as u64,
                is_end: end >= bytes.len(),
            };
            match decoder.seek(held, &mut buffer)? {
                Event::NeedMore(_) => {
                    let position = decoder.position() as usize;
                    let from = if (start..=end).contains(&position) { end } else { position };
                    (start, end) = (position, from.max(bytes.len().min(from + ends.next().copied().unwrap_or(1))));
                }
                Event::Block(block) => {
                    writeln!(output, "sought {}", *sample as u64 - block.time())?;
                    write_block(output, block)?;
                    break;
                }
                Event::End => {
                    writeln!(output, "sought none")?;
                    break;
                }
                _ => {}
            }
        }
    }
    Ok(())
}

fn write_events(output: &mut impl Write, bytes: &[u8], pieces: &[usize], samples: &[usize]) -> Result<()> {
    let opened = FlacReader::new(Pieces { bytes, lengths: pieces.iter() });
    let has_head = opened.is_ok();
    match opened {
        Ok(mut flac) => write_read(output, &mut flac)?,
        Err(error) => writeln!(output, "head {}", name(&error))?,
    }
    writeln!(output, "end")?;
    write_decoded(output, bytes, pieces, has_head)?;
    writeln!(output, "end")?;
    if has_head {
        write_sought(output, bytes, samples)?;
        writeln!(output, "end")?;
        write_found(output, bytes, pieces, samples)?;
        writeln!(output, "end")?;
    }
    Ok(())
}

fn read_number(input: &mut impl Read) -> io::Result<usize> {
    let mut bytes = [0; 4];
    input.read_exact(&mut bytes)?;
    Ok(u32::from_le_bytes(bytes) as usize)
}

fn main() -> Result<()> {
    let (mut input, mut output) = (io::stdin().lock(), io::BufWriter::new(io::stdout().lock()));
    while let Ok(count) = read_number(&mut input) {
        let pieces = (0..count).map(|_| read_number(&mut input)).collect::<io::Result<Vec<usize>>>()?;
        let count = read_number(&mut input)?;
        let samples = (0..count).map(|_| read_number(&mut input)).collect::<io::Result<Vec<usize>>>()?;
        let mut bytes = vec![0; read_number(&mut input)?];
        input.read_exact(&mut bytes)?;
        write_events(&mut output, &bytes, &pieces, &samples)?;
        output.flush()?;
    }
    Ok(())
}
