//! Streams that are made for a test, of which each sample is known.
use super::*;
use std::io::Seek;

/// Numbers that look random.
pub struct Noise(pub u64);

impl Noise {
    pub fn below(&mut self, limit: usize) -> usize {
        self.0 = self.0.wrapping_mul(6_364_136_223_846_793_005).wrapping_add(1_442_695_040_888_963_407);
        (self.0 >> 33) as usize % limit
    }
}

/// The head of a stream of one channel, 8 bits, blocks of this size, and this number of samples, or 0.
pub fn head(size: usize, samples: u64) -> Vec<u8> {
    let mut head = bytes(HEAD);
    for place in [8, 10] {
        head[place..place + 2].copy_from_slice(&(size as u16).to_be_bytes());
    }
    head[21] = head[21] & 0xf0 | (samples >> 32) as u8;
    head[22..26].copy_from_slice(&(samples as u32).to_be_bytes());
    head
}

/// The header of the frame with this number below 2,048.
pub fn header(number: usize, size: usize) -> Vec<u8> {
    let mut header = vec![0xff, 0xf8, 0x79, 0];
    match number {
        0..=0x7f => header.push(number as u8),
        _ => header.extend([0xc0 | (number >> 6) as u8, 0x80 | (number & 0x3f) as u8]),
    }
    header.extend_from_slice(&(size as u16 - 1).to_be_bytes());
    header.push(crc8(&header));
    header
}

/// A frame of these samples: verbatim, or constant.
pub fn frame(number: usize, samples: &[u8]) -> Vec<u8> {
    let mut frame = header(number, samples.len());
    if samples.iter().all(|sample| *sample == samples[0]) {
        frame.extend([0, samples[0]]);
    } else {
        frame.push(2);
        frame.extend_from_slice(samples);
    }
    frame.extend_from_slice(&crc16(&frame).to_be_bytes());
    frame
}

/// A stream that is made: its frames, and the samples of each.
pub struct Made {
    pub size: usize,
    pub frames: Vec<Vec<u8>>,
    pub blocks: Vec<Vec<u8>>,
}

impl Made {
    /// Blocks of noise or of one value, so that the lengths of frames differ much.
    pub fn new(count: usize, size: usize, seed: u64) -> Made {
        let mut noise = Noise(seed);
        let mut made = Made { size, frames: Vec::new(), blocks: Vec::new() };
        for number in 0..count {
            let is_constant = noise.below(2) == 0;
            let mut block: Vec<u8> = (0..size).map(|_| noise.below(256) as u8).collect();
            if is_constant {
                block = vec![block[0]; size];
            }
            made.frames.push(frame(number, &block));
            made.blocks.push(block);
        }
        made
    }

    pub fn samples(&self) -> u64 {
        (self.size * self.blocks.len()) as u64
    }

    pub fn stream_of(&self, samples: u64) -> Vec<u8> {
        [head(self.size, samples), self.frames.concat()].concat()
    }

    pub fn stream(&self) -> Vec<u8> {
        self.stream_of(self.samples())
    }

    /// Seeks, and compares the next block.
    pub fn expect<R: Read + Seek>(&self, flac: &mut FlacReader<R>, sample: u64) {
        let (number, before) = (sample as usize / self.size, sample as usize % self.size);
        assert_eq!(flac.seek(sample).unwrap(), Some(before as u32), "{sample}");
        self.expect_next(flac, number);
    }

    pub fn expect_next<R: Read>(&self, flac: &mut FlacReader<R>, number: usize) {
        let block = flac.blocks().read_next_or_eof(Vec::new()).unwrap().unwrap();
        assert_eq!(block.time(), (number * self.size) as u64);
        let samples: Vec<i32> = self.blocks[number].iter().map(|byte| i32::from(*byte as i8)).collect();
        assert!(block.channel(0) == samples);
    }
}
