//! tags FILE ..: prints what each FLAC file says of itself. Neither pictures nor samples are read.
//!
//! `cargo run --example tags -- song.flac`
use claxon::{FlacReader, FlacReaderOptions, Result};
use std::ffi::OsStr;
use std::path::Path;
use std::process::ExitCode;

fn print_tags(path: &OsStr) -> Result<()> {
    let options = FlacReaderOptions { metadata_only: true, read_vorbis_comment: true };
    let flac = FlacReader::open_ext(path, options)?;
    let info = flac.streaminfo();
    println!(
        "{}: {} Hz, {} channels, {} bits",
        Path::new(path).display(),
        info.sample_rate,
        info.channels,
        info.bits_per_sample
    );
    for (name, value) in flac.tags() {
        println!("    {name}={value}");
    }
    Ok(())
}

fn main() -> ExitCode {
    let mut status = ExitCode::SUCCESS;
    for path in std::env::args_os().skip(1) {
        if let Err(error) = print_tags(&path) {
            eprintln!("{}: {error}", Path::new(&path).display());
            status = ExitCode::FAILURE;
        }
    }
    status
}
