//! The frame that has a sample.
use crate::decoder::Event;
use crate::error::Result;
use crate::input::BufferedReader;
use crate::metadata::StreamInfo;
use crate::source::Source;
use std::io::{Read, Seek};

/// Goes to a frame whose block has the sample, and returns how many of the block's samples come before it. Else the
/// reader stands anywhere.
pub(crate) fn seek<R: Read + Seek>(
    input: &mut BufferedReader<R>,
    streaminfo: &StreamInfo,
    first_frame: u64,
    sample: u64,
) -> Result<Option<u32>> {
    let length = input.length()?;
    let mut decoder = input.decoder().of_stream(streaminfo.info()).with_first_frame(first_frame);
    decoder.begin_seek(sample, Some(length));
    let (mut buffer, mut is_end) = (Vec::new(), false);
    loop {
        match decoder.seek(input.held(is_end), &mut buffer)? {
            Event::NeedMore(count) => is_end = !input.hold(decoder.position(), count)?,
            Event::Block(block) => {
                let (position, end) = decoder.last_frame();
                let before = (sample - block.time()) as u32;
                input.go_to(position);
                input.keep(block, (end - position) as usize);
                input.note(decoder);
                return Ok(Some(before));
            }
            _ => return Ok(None),
        }
    }
}
