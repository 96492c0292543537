//! Prints the time of each block of a stream on standard input when it is returned. `bench/latency` runs it.
use claxon::{FlacReader, Result};

fn main() -> Result<()> {
    let mut flac = FlacReader::new(std::io::stdin())?;
    let mut blocks = flac.blocks();
    let mut buffer = Vec::new();
    while let Some(block) = blocks.read_next_or_eof(buffer)? {
        println!("{}", block.time());
        buffer = block.into_buffer();
    }
    Ok(())
}
