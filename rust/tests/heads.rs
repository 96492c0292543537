//! Heads: options, limits, which fault comes first, and what is read and held of them.
mod common;

use claxon::metadata::{
    read_metadata_block, read_metadata_block_with_header, GetTag, MetadataBlock, MetadataBlockReader, Tags,
};
use claxon::{Error, FlacReader, FlacReaderOptions, Result};
use common::*;
use std::cell::Cell;
use std::io::{self, Cursor, Read};

fn open_fault(stream: &[u8], options: FlacReaderOptions) -> String {
    match FlacReader::new_ext(stream, options) {
        Ok(_) => "ok".to_string(),
        Err(error) => fault(&error),
    }
}

/// The faults of a stream under each of the options, in the order of `OPTIONS`.
fn open_faults(stream: &[u8]) -> [String; 4] {
    OPTIONS.map(|options| open_fault(stream, options))
}

#[test]
fn defaults() {
    assert_eq!(FlacReaderOptions::default(), FlacReaderOptions { metadata_only: false, read_vorbis_comment: true });
}

#[test]
fn options_say_what_is_shown() {
    let stream = stream_with(&[&bytes(COMMENTS)]);
    for options in OPTIONS {
        let mut flac = FlacReader::new_ext(&stream[..], options).unwrap();
        assert_eq!(flac.vendor(), options.read_vorbis_comment.then_some(""));
        assert_eq!(
            flac.tags().collect::<Vec<_>>(),
            if options.read_vorbis_comment { vec![("X", "Y")] } else { vec![] }
        );
        assert_eq!(flac.get_tag("x").collect::<Vec<_>>(), if options.read_vorbis_comment { vec!["Y"] } else { vec![] });
        assert_eq!(flac.get_tag("Z").next(), None);
        assert_eq!(flac.streaminfo().samples, Some(1));
        assert_eq!(flac.is_metadata_only(), options.metadata_only);
        if !options.metadata_only {
            assert_eq!(flac.samples().map(Result::unwrap).collect::<Vec<_>>(), [5]);
        }
    }
}

#[test]
fn options_say_how_far_is_read() {
    let expect = |stream: &[u8], faults: [&str; 4]| assert_eq!(open_faults(stream), faults);
    let text = ill_formed("invalid metadata block type");
    let (comments, bad) = (block(4, &[0; 8]), block(127, b""));
    expect(&stream_with(&[&bad]), [&text, "ok", &text, &text]);
    expect(&stream_with(&[&comments, &bad]), [&text, "ok", &text, "ok"]);
    // Comments are read, and their faults found, where they aren't requested too.
    let text = ill_formed("Vorbis comment block is too short");
    expect(&stream_with(&[&block(4, &[0; 7])]), [&text, "ok", &text, &text]);
    // Nothing after the streaminfo.
    expect(&open_head(), ["IO", "ok", "IO", "IO"]);
}

/// What is wrong with a block by its place in the head comes after what is wrong in it.
#[test]
fn the_first_fault_is_named() {
    let comments = block(4, &[0; 8]);
    let cases: [(&[&[u8]], &str); 5] = [
        (&[&comments, &comments], "encountered second Vorbis comment block"),
        (&[&comments, &block(4, &[0; 9])], "Vorbis comment block has excess data"),
        (&[&block(0, &bytes(HEAD)[8..])], "encountered second streaminfo block"),
        (&[&block(0, &[0; 34])], "invalid block size, must be at least 16"),
        (&[&block(0, &[0; 33])], "invalid streaminfo metadata block length"),
    ];
    for (blocks, text) in cases {
        assert_eq!(open_fault(&stream_with(blocks), FlacReaderOptions::default()), ill_formed(text));
    }
    for first in [block(1, &[7; 3]), block(2, &[7; 4]), comments, block(9, b"")] {
        let stream = [&b"fLaC"[..], &first].concat();
        assert_eq!(open_fault(&stream, TAGS_ONLY), ill_formed("streaminfo block missing"));
        assert_eq!(open_fault(&stream[..stream.len() - 1], TAGS_ONLY), "IO");
    }
}

/// The bytes end within a block of comments: what is there of it is judged by the length that its header gives.
#[test]
fn cut_comments_are_judged() {
    let content = bytes("030000006162630200000003000000583d590200000041ff");
    let stream = [&open_head()[..], &[4, 0, 0, 100], &content].concat();
    for end in 42..stream.len() {
        assert_eq!(open_fault(&stream[..end], TAGS_ONLY), "IO", "{end} bytes");
    }
    // The second comment is whole, and has no `=`.
    assert_eq!(open_fault(&stream, TAGS_ONLY), ill_formed("Vorbis comment does not contain '='"));
    let long = [&open_head()[..], &[4, 0, 0, 100], &93u32.to_le_bytes()].concat();
    assert_eq!(open_fault(&long, TAGS_ONLY), ill_formed("vendor string too long"));
}

/// The same, where the reader fails instead.
#[test]
fn a_fault_before_a_failure_is_named() {
    let long = [&open_head()[..], &[4, 0, 0, 100], &93u32.to_le_bytes()].concat();
    let steps = |end: usize| vec![Step::Gives(long[..end].to_vec()), Step::Fails(io::ErrorKind::TimedOut)];
    let error = FlacReader::new(Steps::new(steps(50))).err().unwrap();
    assert_eq!(error, Error::FormatError("vendor string too long"));
    match FlacReader::new(Steps::new(steps(49))).err().unwrap() {
        Error::IoError(error) => assert_eq!(error.kind(), io::ErrorKind::TimedOut),
        error => panic!("{error}"),
    }
}

#[test]
fn too_many_blocks() {
    let padding = [1, 0, 0, 0];
    let most = 65535;
    let mut stream = [open_head(), padding.repeat(most)].concat();
    let text = unsupported("more than 65536 metadata blocks are not supported");
    assert_eq!(open_faults(&stream), [&text, "ok", &text, &text]);
    let last = stream.len() - 4;
    stream[last] |= 0x80;
    assert_eq!(open_faults(&stream), ["ok", "ok", "ok", "ok"]);
}

#[test]
fn content_of_10_mib() {
    let comments = [0, 0, 0, 0, 1, 0, 0, 0, 0xf4, 0xff, 0x9f, 0, b'N', b'='];
    let mut content = vec![b'a'; 10 << 20];
    content[..14].copy_from_slice(&comments);
    let stream = stream_with(&[&block(4 | 0x80, &content)]);
    let flac = FlacReader::new(&stream[..]).unwrap();
    assert_eq!(flac.get_tag("n").map(str::len).collect::<Vec<_>>(), [(10 << 20) - 14]);
    content.push(0);
    let text = unsupported("Vorbis comment blocks larger than 10 MiB are not supported");
    assert_eq!(open_fault(&stream_with(&[&block(4, &content)]), TAGS_ONLY), text);
    assert_eq!(open_fault(&stream_with(&[&block(4, &content)[..4]])[..46], TAGS_ONLY), text);
}

#[test]
fn many_tags() {
    let count = 200_000u32;
    let mut content = [0u32.to_le_bytes(), count.to_le_bytes()].concat();
    for number in 0..count {
        let tag = format!("N{number}=value of {number}");
        content.extend_from_slice(&(tag.len() as u32).to_le_bytes());
        content.extend_from_slice(tag.as_bytes());
    }
    let stream = stream_with(&[&block(4 | 0x80, &content)]);
    let flac = FlacReader::new(&stream[..]).unwrap();
    assert_eq!(flac.tags().len(), count as usize);
    assert_eq!(flac.tags().last(), Some(("N199999", "value of 199999")));
    assert_eq!(flac.get_tag("n4711").collect::<Vec<_>>(), ["value of 4711"]);
}

/// Gives a head with a picture of 16 MiB less a byte, and notes into how large a buffer.
struct Picture<'a> {
    before: &'a [u8],
    picture: usize,
    after: &'a [u8],
    most: &'a Cell<usize>,
}

impl Read for Picture<'_> {
    fn read(&mut self, buffer: &mut [u8]) -> io::Result<usize> {
        self.most.set(self.most.get().max(buffer.len()));
        if !self.before.is_empty() {
            return self.before.read(buffer);
        }
        let count = buffer.len().min(self.picture);
        self.picture -= count;
        buffer[..count].fill(0xff);
        if count > 0 {
            Ok(count)
        } else {
            self.after.read(buffer)
        }
    }
}

#[test]
fn pictures_are_not_held() {
    let before = [&open_head()[..], &[0x86, 0xff, 0xff, 0xff]].concat();
    let (after, most) = (bytes(FRAME), Cell::new(0));
    let (samples, result) = decode(Picture { before: &before, picture: 0xff_ffff, after: &after, most: &most });
    assert!(result.is_ok());
    assert_eq!(samples, [5]);
    assert_eq!(most.get(), 1 << 18);
}

/// Where the metadata alone is requested, nothing after it is read.
#[test]
fn no_more_is_read_than_is_requested() {
    let (head, comments) = (open_head(), bytes(COMMENTS));
    let steps = || vec![Step::Gives(head.clone()), Step::Gives(comments.clone()), Step::Fails(io::ErrorKind::Other)];
    let flac = FlacReader::new_ext(Steps::new(steps()), STREAMINFO_ONLY).unwrap();
    assert_eq!(flac.into_inner().reads.get(), 1);
    let flac = FlacReader::new_ext(Steps::new(steps()), TAGS_ONLY).unwrap();
    assert_eq!(flac.get_tag("X").next(), Some("Y"));
    assert_eq!(flac.into_inner().reads.get(), 2);
}

#[test]
fn blocks_one_after_another() {
    let blocks = [block(0, &bytes(HEAD)[8..]), block(2, b"\0\0\0\x07\x09"), bytes(COMMENTS), bytes(FRAME)].concat();
    let mut input = Cursor::new(&blocks[..]);
    let mut reader = MetadataBlockReader::new(&mut input);
    assert_eq!(reader.size_hint(), (1, None));
    assert!(matches!(reader.next(), Some(Ok(MetadataBlock::StreamInfo(info))) if info.sample_rate == 44100));
    assert!(matches!(reader.next(), Some(Ok(MetadataBlock::Application { id: 7, data })) if data == [9]));
    assert!(
        matches!(reader.next(), Some(Ok(MetadataBlock::VorbisComment(comment))) if comment.comments == [("X=Y".to_string(), 1)])
    );
    assert_eq!(reader.size_hint(), (0, Some(0)));
    assert!(reader.next().is_none());
    assert_eq!(input.position() as usize, blocks.len() - 11);

    let mut reader = MetadataBlockReader::new(Cursor::new(b"\x7f\0\0\0\x81\0\0\0"));
    assert!(matches!(reader.next(), Some(Err(Error::FormatError("invalid metadata block type")))));
    assert_eq!(reader.size_hint(), (0, Some(0)));
    assert!(reader.next().is_none());
}

#[test]
fn a_block_with_its_header() {
    let cases: [(&[u8], String); 3] = [
        (b"\x7f\0\0\0", ill_formed("invalid metadata block type")),
        (b"\x7f", "IO".to_string()),
        (b"\x02\xa0\0\x01", unsupported("application blocks larger than 10 MiB are not supported")),
    ];
    for (bytes, text) in cases {
        let error = read_metadata_block_with_header(&mut Cursor::new(bytes)).err().unwrap();
        assert_eq!(fault(&error), text);
    }
    let padding = read_metadata_block_with_header(&mut Cursor::new(b"\x83\0\0\x02\x01\x02"));
    assert!(matches!(padding, Ok(MetadataBlock::Padding { length: 2 })));
}

/// A caller can name lengths of more than the 24 bits that a header has for them.
#[test]
fn lengths_that_no_header_has() {
    let texts = [
        (0, ill_formed("invalid streaminfo metadata block length")),
        (1, "IO".to_string()),
        (2, unsupported("application blocks larger than 10 MiB are not supported")),
        (4, unsupported("Vorbis comment blocks larger than 10 MiB are not supported")),
    ];
    for (block_type, text) in texts {
        for length in [1 << 24, (1 << 24) + 34, (1 << 25) + 34, u32::MAX] {
            let error = read_metadata_block(&mut Cursor::new([0; 100]), block_type, length).err().unwrap();
            assert_eq!(fault(&error), text, "{length} bytes");
        }
    }
}

#[test]
fn iterators_over_tags() {
    let comments =
        ["ARTIST=A", "artist=b=c", "=", "\u{212a}=kelvin"].map(|tag| (tag.to_string(), tag.find('=').unwrap()));
    let tags = Tags::new(&comments);
    assert_eq!(tags.size_hint(), (4, Some(4)));
    assert_eq!(tags.collect::<Vec<_>>(), [("ARTIST", "A"), ("artist", "b=c"), ("", ""), ("\u{212a}", "kelvin")]);
    assert_eq!(GetTag::new(&comments, "Artist").collect::<Vec<_>>(), ["A", "b=c"]);
    assert_eq!(GetTag::new(&comments, "").collect::<Vec<_>>(), [""]);
    assert_eq!(GetTag::new(&comments, "k").next(), None);
}
