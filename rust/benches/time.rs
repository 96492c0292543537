//! time FILE ..: how long this crate takes to decode each file, in nanoseconds a sample, beside the program claxon_raw.
//!
//! `cargo bench --bench time -- song.flac`. The program is `crates/claxon_raw/out/claxon_raw` of this repository, or the
//! one that CLAXON_RAW names; it also writes what it decodes, four bytes a sample, to /dev/null. Each figure is the least
//! of several rounds.
use claxon::{FlacReader, Result};
use std::path::{Path, PathBuf};
use std::process::{Command, Stdio};
use std::time::Instant;

const ROUNDS: u32 = 9;

/// Adds up all samples, so that none is left out.
fn sum_of_blocks(path: &Path) -> Result<(u64, i64)> {
    let mut flac = FlacReader::open(path)?;
    let mut blocks = flac.blocks();
    let mut buffer = Vec::new();
    let (mut count, mut sum) = (0, 0);
    while let Some(block) = blocks.read_next_or_eof(buffer)? {
        buffer = block.into_buffer();
        count += buffer.len() as u64;
        sum += buffer.iter().map(|sample| i64::from(*sample)).sum::<i64>();
    }
    Ok((count, sum))
}

fn sum_of_samples(path: &Path) -> Result<(u64, i64)> {
    let mut flac = FlacReader::open(path)?;
    let (mut count, mut sum) = (0, 0);
    for sample in flac.samples() {
        count += 1;
        sum += i64::from(sample?);
    }
    Ok((count, sum))
}

fn program() -> PathBuf {
    let built = Path::new(env!("CARGO_MANIFEST_DIR")).join("../crates/claxon_raw/out/claxon_raw");
    std::env::var_os("CLAXON_RAW").map_or(built, PathBuf::from)
}

/// The least time of a round, in nanoseconds.
fn least(mut run: impl FnMut()) -> f64 {
    let time = |_| {
        let start = Instant::now();
        run();
        start.elapsed().as_nanos() as f64
    };
    (0..ROUNDS).map(time).fold(f64::INFINITY, f64::min)
}

fn program_time(path: &Path) -> Option<f64> {
    let mut command = Command::new(program());
    command.arg(path).stdout(Stdio::null());
    command.status().ok().filter(|status| status.success())?;
    Some(least(|| assert!(command.status().is_ok())))
}

fn print_times(path: &Path) -> Result<()> {
    let (count, sum) = sum_of_blocks(path)?;
    let check = |found: Result<(u64, i64)>| assert_eq!(found.ok(), Some((count, sum)));
    let per_sample = |time: f64| format!("{:.2}", time / count as f64);
    let blocks = per_sample(least(|| check(sum_of_blocks(path))));
    let samples = per_sample(least(|| check(sum_of_samples(path))));
    let program = program_time(path).map_or("not built".to_string(), per_sample);
    println!("| {} | {count} | {blocks} | {samples} | {program} |", path.display());
    Ok(())
}

fn main() {
    println!("| File | samples | `blocks()` | `samples()` | claxon_raw |\n|---|---|---|---|---|");
    for word in std::env::args_os().skip(1).filter(|word| word != "--bench") {
        if let Err(error) = print_times(Path::new(&word)) {
            println!("| {} | {error} | | | |", Path::new(&word).display());
        }
    }
}
