//! MD5 sums of samples.
mod common;

use claxon::{Block, FlacReader, Md5};
use common::*;
use std::panic::catch_unwind;

/// The sums are those of Python's `hashlib`, over bytes that its `struct` packed.
#[test]
fn bit_depths() {
    let rows = [
        (4, [0, 1, -1, 7, -8, 5, -6], "ba8248ff10d1e5537a299f14dfe63bd5"),
        (8, [0, 1, -1, 127, -128, 100, -77], "cfd8c8c1a59277ce2b10dcece880243f"),
        (12, [0, 1, -1, 2047, -2048, 1000, -777], "f295de09ca5d74edf31be8e7d8e740ea"),
        (16, [0, 1, -1, 32767, -32768, 12345, -23456], "1f13d0e7be54e29b38814bbe35728828"),
        (20, [0, 1, -1, 524287, -524288, 123456, -234567], "a8c979af7758fa994d975bbfe21a7f88"),
        (24, [0, 1, -1, 8388607, -8388608, 1234567, -7654321], "91a30b1557a0b02e116c84dcfd6e3a1b"),
        (32, [0, 1, -1, i32::MAX, i32::MIN, 123456789, -1987654321], "b9e5acd02f153532eaae37678d56152e"),
    ];
    for (bits, samples, sum) in rows {
        let mut md5 = Md5::new(bits);
        assert_eq!(md5.finish()[..], bytes("d41d8cd98f00b204e9800998ecf8427e"));
        md5.update(&samples[..2]);
        let mut copy = md5.clone();
        copy.update(&[]);
        copy.update(&samples[2..]);
        md5.update_block(&Block::empty());
        md5.update(&samples[2..]);
        assert_eq!((&md5.finish()[..], md5.finish()), (&bytes(sum)[..], copy.finish()), "{bits} bits");
    }
}

/// The files of real encoders have the sums of these encoders.
#[test]
fn files() {
    let names = ["eight_bits", "escapes_of_a_real_encoder", "left_channel_alone", "quiet_noise", "wasted_bits_of_24"];
    for name in names {
        let file = bytes_of(&format!("{name}.flac"));
        let mut flac = FlacReader::new(&file[..]).unwrap();
        let streaminfo = flac.streaminfo();
        let (mut by_block, mut by_sample) =
            (Md5::new(streaminfo.bits_per_sample), Md5::new(streaminfo.bits_per_sample));
        let mut blocks = flac.blocks();
        while let Some(block) = blocks.read_next_or_eof(Vec::new()).unwrap() {
            by_block.update_block(&block);
        }
        for sample in FlacReader::new(&file[..]).unwrap().samples() {
            by_sample.update(&[sample.unwrap()]);
        }
        assert_eq!((by_block.finish(), by_sample.finish()), (streaminfo.md5sum, streaminfo.md5sum), "{name}");
    }
}

#[test]
fn other_bit_depths_panic() {
    for bits in [0, 33, u32::MAX] {
        assert!(catch_unwind(|| Md5::new(bits)).is_err());
    }
}
