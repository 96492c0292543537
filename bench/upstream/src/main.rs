//! Decodes a FLAC file by claxon 0.4.3, and prints the sum of all samples modulo 2^64.

fn sum_of(name: &str) -> claxon::Result<u64> {
    let mut flac = claxon::FlacReader::open(name)?;
    let mut blocks = flac.blocks();
    let mut buffer = Vec::new();
    let mut total = 0u64;
    while let Some(block) = blocks.read_next_or_eof(buffer)? {
        for channel in 0..block.channels() {
            for sample in block.channel(channel) {
                total = total.wrapping_add(i64::from(*sample) as u64);
            }
        }
        buffer = block.into_buffer();
    }
    Ok(total)
}

fn main() {
    let name = std::env::args().nth(1).expect("usage: upstream FILE");
    match sum_of(&name) {
        Ok(total) => println!("{total}"),
        Err(error) => {
            eprintln!("upstream: {error}");
            std::process::exit(1);
        }
    }
}
