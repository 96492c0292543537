//! The MD5 sum of samples.
use crate::error::Error;
use crate::ffi;
use crate::frame::Block;

/// The MD5 sum of samples, for comparison with [`StreamInfo::md5sum`](crate::metadata::StreamInfo::md5sum).
///
/// # Examples
///
/// ```
/// # fn main() -> claxon::Result<()> {
/// let mut flac = claxon::FlacReader::open("examples/tagged.flac")?;
/// let streaminfo = flac.streaminfo();
/// let mut md5 = claxon::Md5::new(streaminfo.bits_per_sample);
/// let mut blocks = flac.blocks();
/// let mut buffer = Vec::new();
/// while let Some(block) = blocks.read_next_or_eof(buffer)? {
///     md5.update_block(&block);
///     buffer = block.into_buffer();
/// }
/// assert_eq!(md5.finish(), streaminfo.md5sum);
/// # Ok(())
/// # }
/// ```
#[derive(Clone, Debug)]
pub struct Md5 {
    hasher: ffi::Md5,
    bits_per_sample: u32,
    // The samples of one block.
    interleaved: Vec<i32>,
}

impl Md5 {
    /// A sum of no samples yet. Each sample is going to be hashed in as few whole bytes as hold so many bits.
    ///
    /// # Panics
    ///
    /// Where there aren't 1 to 32 bits per sample, and where the library has another interface than this crate is for.
    pub fn new(bits_per_sample: u32) -> Md5 {
        assert!((1..=32).contains(&bits_per_sample), "an MD5 sum is of samples of 1 to 32 bits");
        let hasher = ffi::Md5::start().unwrap_or_else(|failure| panic!("{}", Error::from(failure)));
        Md5 { hasher, bits_per_sample, interleaved: Vec::new() }
    }

    /// Hashes interleaved samples, after those that were hashed before.
    pub fn update(&mut self, samples: &[i32]) {
        self.hasher.add_samples(samples, self.bits_per_sample);
    }

    /// Hashes the samples of a block, after those that were hashed before.
    pub fn update_block(&mut self, block: &Block) {
        self.interleaved.clear();
        self.interleaved.resize(block.len() as usize, 0);
        for ch in 0..block.channels() {
            let places = self.interleaved[ch as usize..].iter_mut().step_by(block.channels() as usize);
            for (place, sample) in places.zip(block.channel(ch)) {
                *place = *sample;
            }
        }
        self.hasher.add_samples(&self.interleaved, self.bits_per_sample);
    }

    /// The sum of the samples that were hashed. More may be hashed after it.
    pub fn finish(&self) -> [u8; 16] {
        self.hasher.finish()
    }
}
