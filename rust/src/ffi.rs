//! The calls of `claxon.h`. What is unsafe stands here alone.
//!
//! Each pointer below is that of a slice or of a reference, with the slice's own length. So it isn't null, even for a
//! length of 0; what it leads to is initialized and lives as long as the call; and what is written to is borrowed
//! mutably, so that nothing else of the call overlaps it. The calls keep no pointer, and are safe for any bytes.
use crate::decoder::Held;
use std::mem::size_of;
use std::ops::Range;
use std::sync::atomic::{AtomicBool, Ordering};

pub const OK: u32 = 0;
pub const FORMAT_ERROR: u32 = 1;
pub const UNSUPPORTED: u32 = 2;
pub const INPUT_ENDS: u32 = 3;
pub const OUT_OF_MEMORY: u32 = 4;
pub const NO_MORE: u32 = 5;
pub const BUFFER_TOO_SMALL: u32 = 6;
pub const OVER_BUDGET: u32 = 7;
pub const NEED_MORE: u32 = 100;

/// The version of the interface that is declared here: 0.3.0. Other last two digits are the same interface.
pub const VERSION: u32 = 300;

/// No status of the library: it has another interface.
pub const OTHER_VERSION: u32 = u32::MAX;

/// `struct claxon_info`. All zeros mean that nothing is known of the stream.
#[repr(C)]
#[derive(Clone, Copy, Debug, Default, PartialEq, Eq)]
pub struct Info {
    pub first_frame: usize,
    pub tags: usize,
    pub samples: u64,
    pub sample_rate: u32,
    pub channels: u32,
    pub bits_per_sample: u32,
    pub min_frame_size: u32,
    pub max_frame_size: u32,
    pub min_block_size: u16,
    pub max_block_size: u16,
    pub md5: [u8; 16],
}

/// `struct claxon_tag`.
#[repr(C)]
#[derive(Clone, Copy, Debug, Default)]
struct Tag {
    name_at: usize,
    name_length: usize,
    value_at: usize,
    value_length: usize,
}

/// `struct claxon_block`.
#[repr(C)]
#[derive(Clone, Copy, Debug, Default)]
pub struct Block {
    pub time: u64,
    pub channels: u32,
    pub duration: u32,
    /// Or 0, as the next one, where the frame's header leaves it to the streaminfo.
    pub sample_rate: u32,
    pub bits_per_sample: u32,
}

impl Block {
    /// The number of samples of all channels together.
    pub fn samples(&self) -> usize {
        self.channels as usize * self.duration as usize
    }
}

/// `struct claxon_metadata`.
#[repr(C)]
#[derive(Clone, Copy, Debug, Default)]
pub struct Metadata {
    pub content: usize,
    pub length: u32,
    pub block_type: u8,
    is_last: u8,
}

/// `struct claxon_head`.
#[repr(C)]
#[derive(Clone, Copy, Debug, Default)]
pub struct Head {
    pub position: u64,
    begin: u64,
    next: u32,
    is_last: u8,
    block_type: u8,
    length: u32,
    is_metadata_only: u8,
    has_comment_option: u8,
    has_info: u8,
    has_comment: u8,
    most: u32,
    pub needed: usize,
    part: u32,
}

/// `struct claxon_frame`.
#[repr(C)]
#[derive(Clone, Copy, Debug, Default)]
pub struct Frame {
    pub position: u64,
    pub end: u64,
    number: u64,
    duration: u32,
    pub is_variable: u32,
}

/// `struct claxon_frames`.
#[repr(C)]
#[derive(Clone, Copy, Debug, Default)]
pub struct Frames {
    pub position: u64,
    tried: usize,
    summed: usize,
    crc: u16,
    is_near: u8,
    wasted: u64,
    counted: u64,
    faults: u64,
    pub needed: usize,
    pub last: Frame,
}

/// `struct claxon_search`.
#[repr(C)]
#[derive(Clone, Copy, Debug, Default)]
pub struct Search {
    pub position: u64,
    tried: usize,
    summed: usize,
    crc: u16,
    is_near: u8,
    wasted_by_tries: u64,
    counted_by_tries: u64,
    faults: u64,
    wasted: u64,
    counted: u64,
    has_passed_over: u8,
    pub needed: usize,
}

/// `struct claxon_clock`.
#[repr(C)]
#[derive(Clone, Copy, Debug, Default)]
pub struct Clock {
    state: [u64; 5],
}

/// `struct claxon_seeker`.
#[repr(C)]
#[derive(Clone, Copy, Debug)]
pub struct Seeker {
    state: [u64; 33],
    pub position: u64,
    pub needed: usize,
    pub found: Frame,
}

/// `struct claxon_md5`.
#[repr(C)]
#[derive(Clone, Copy, Debug)]
pub struct Md5 {
    state: [u32; 4],
    length: u64,
    buffer: [u8; 64],
}

// The sizes that `claxon.h` asserts.
const _: () = assert!(size_of::<Info>() == 64 && size_of::<Tag>() == 32 && size_of::<Block>() == 24);
const _: () = assert!(size_of::<Metadata>() == 16 && size_of::<Head>() == 56);
const _: () = assert!(size_of::<Md5>() == 88 && size_of::<Frames>() == 96 && size_of::<Search>() == 88);
const _: () = assert!(size_of::<Frame>() == 32 && size_of::<Clock>() == 40 && size_of::<Seeker>() == 312);

/// A text that the library writes. Its longest one has 92 bytes.
pub type Text = [u8; 112];

const NO_TEXT: Text = [0; 112];

extern "C" {
    fn claxon_version() -> u32;
    fn claxon_open(bytes: *const u8, length: usize, info: *mut Info, error: *mut u8, error_size: usize) -> u32;
    fn claxon_streaminfo(content: *const u8, length: usize, info: *mut Info, error: *mut u8, error_size: usize) -> u32;
    fn claxon_vendor(
        content: *const u8,
        length: usize,
        vendor_at: *mut usize,
        vendor_length: *mut usize,
        tags: *mut usize,
        error: *mut u8,
        error_size: usize,
    ) -> u32;
    fn claxon_next_tag(
        content: *const u8,
        length: usize,
        at: *mut usize,
        tag: *mut Tag,
        error: *mut u8,
        error_size: usize,
    ) -> u32;
    #[cfg(test)]
    fn claxon_next_block_planar(
        bytes: *const u8,
        length: usize,
        at: *mut usize,
        info: *const Info,
        samples: *mut i32,
        capacity: usize,
        block: *mut Block,
        error: *mut u8,
        error_size: usize,
    ) -> u32;
    fn claxon_head_start(head: *mut Head, position: u64);
    fn claxon_head_next(
        head: *mut Head,
        bytes: *const u8,
        length: usize,
        at: u64,
        is_end: u32,
        info: *mut Info,
        metadata: *mut Metadata,
        error: *mut u8,
        error_size: usize,
    ) -> u32;
    fn claxon_frames_start(frames: *mut Frames, position: u64);
    fn claxon_frames_go_on(frames: *mut Frames, position: u64);
    fn claxon_frames_next_planar(
        frames: *mut Frames,
        bytes: *const u8,
        length: usize,
        at: u64,
        is_end: u32,
        info: *const Info,
        samples: *mut i32,
        capacity: usize,
        block: *mut Block,
        error: *mut u8,
        error_size: usize,
    ) -> u32;
    fn claxon_search_start(search: *mut Search, position: u64);
    fn claxon_search_go_on(search: *mut Search, frames: *mut Frames, position: u64);
    fn claxon_search_next(
        search: *mut Search,
        bytes: *const u8,
        length: usize,
        at: u64,
        is_end: u32,
        info: *const Info,
        found: *mut u64,
        block: *mut Block,
    ) -> u32;
    fn claxon_clock_start(clock: *mut Clock, info: *const Info);
    fn claxon_clock_show(clock: *mut Clock, info: *const Info, frame: *const Frame, time: *mut u64);
    fn claxon_clock_needs_frames(clock: *const Clock) -> u32;
    fn claxon_seeker_start(seeker: *mut Seeker, info: *const Info, length: u64, sample: u64, clock: *const Clock);
    fn claxon_seeker_next_planar(
        seeker: *mut Seeker,
        bytes: *const u8,
        length: usize,
        at: u64,
        is_end: u32,
        info: *const Info,
        samples: *mut i32,
        capacity: usize,
        block: *mut Block,
    ) -> u32;
    fn claxon_md5_start(md5: *mut Md5);
    fn claxon_md5_samples(md5: *mut Md5, samples: *const i32, count: usize, bits_per_sample: u32) -> u32;
    fn claxon_md5_finish(md5: *const Md5, sum: *mut [u8; 16]);
}

/// A status other than `OK`, and the text of an error.
pub struct Failure {
    pub status: u32,
    pub text: Text,
}

fn checked<T>(status: u32, found: T, text: Text) -> Result<T, Failure> {
    match status {
        OK => Ok(found),
        _ => Err(Failure { status, text }),
    }
}

/// Fails where the library has another interface than is declared here. Calls that are given structs come after it.
fn check_library() -> Result<(), Failure> {
    static IS_CHECKED: AtomicBool = AtomicBool::new(false);
    if !IS_CHECKED.load(Ordering::Relaxed) {
        // SAFETY: the call has no argument.
        check_version(unsafe { claxon_version() })?;
        IS_CHECKED.store(true, Ordering::Relaxed);
    }
    Ok(())
}

fn check_version(version: u32) -> Result<(), Failure> {
    if version / 100 == VERSION / 100 {
        return Ok(());
    }
    let interface = |version: u32| format!("{}.{}", version / 10_000, version / 100 % 100);
    let (found, patch, needed) = (interface(version), version % 100, interface(VERSION));
    let reason = format!("the library libclaxon has version {found}.{patch}, and this crate is for version {needed}");
    let mut text = NO_TEXT;
    text[..reason.len()].copy_from_slice(reason.as_bytes());
    Err(Failure { status: OTHER_VERSION, text })
}

/// The head that the bytes begin with.
pub fn open(bytes: &[u8]) -> Result<Info, Failure> {
    check_library()?;
    let (mut info, mut text) = (Info::default(), NO_TEXT);
    // SAFETY: as the module says.
    let status = unsafe { claxon_open(bytes.as_ptr(), bytes.len(), &mut info, text.as_mut_ptr(), text.len()) };
    checked(status, info, text)
}

/// The content of a streaminfo block.
pub fn streaminfo(content: &[u8]) -> Result<Info, Failure> {
    check_library()?;
    let (mut info, mut text) = (Info::default(), NO_TEXT);
    // SAFETY: as the module says.
    let status =
        unsafe { claxon_streaminfo(content.as_ptr(), content.len(), &mut info, text.as_mut_ptr(), text.len()) };
    checked(status, info, text)
}

/// Where the vendor string is in the whole content of a block of Vorbis comments, and the number of tags.
pub fn vendor(content: &[u8]) -> Result<(Range<usize>, usize), Failure> {
    check_library()?;
    let (mut at, mut length, mut tags, mut text) = (0, 0, 0, NO_TEXT);
    // SAFETY: as the module says.
    let status = unsafe {
        claxon_vendor(content.as_ptr(), content.len(), &mut at, &mut length, &mut tags, text.as_mut_ptr(), text.len())
    };
    checked(status, (at..at + length, tags), text)
}

/// Where the name and the value of the next tag are in that content. `at` is 0 at first.
pub fn next_tag(content: &[u8], at: &mut usize) -> Result<(Range<usize>, Range<usize>), Failure> {
    check_library()?;
    let (mut tag, mut text) = (Tag::default(), NO_TEXT);
    // SAFETY: as the module says.
    let status =
        unsafe { claxon_next_tag(content.as_ptr(), content.len(), at, &mut tag, text.as_mut_ptr(), text.len()) };
    let name = tag.name_at..tag.name_at + tag.name_length;
    let value = tag.value_at..tag.value_at + tag.value_length;
    checked(status, (name, value), text)
}

/// What stands where a frame may begin.
#[cfg(test)]
pub enum NextBlock {
    /// A frame of `length` bytes, whose samples were written, one channel after another.
    Found {
        block: Block,
        length: usize,
    },
    /// The header of a frame whose samples don't fit.
    BufferTooSmall,
    Failed(Failure),
}

/// Decodes the frame that the bytes begin with.
#[cfg(test)]
pub fn next_block(bytes: &[u8], info: &Info, samples: &mut [i32]) -> NextBlock {
    if let Err(failure) = check_library() {
        return NextBlock::Failed(failure);
    }
    let (mut length, mut block, mut text) = (0, Block::default(), NO_TEXT);
    // SAFETY: as the module says.
    let status = unsafe {
        claxon_next_block_planar(
            bytes.as_ptr(),
            bytes.len(),
            &mut length,
            info,
            samples.as_mut_ptr(),
            samples.len(),
            &mut block,
            text.as_mut_ptr(),
            text.len(),
        )
    };
    match status {
        OK => NextBlock::Found { block, length },
        BUFFER_TOO_SMALL => NextBlock::BufferTooSmall,
        _ => NextBlock::Failed(Failure { status, text }),
    }
}

/// What the next part of a head is, by the bytes that are held.
pub enum NextPart {
    /// The content of the metadata block whose header was read last.
    Content,
    /// The marker, or the header of a metadata block.
    Other,
    NeedMore,
    Whole,
    Failed(Failure),
}

// The content of a metadata block, as `enum claxon_part` has it.
const METADATA_CONTENT: u32 = 2;

impl Head {
    /// From this position on. Where the library has another interface, each later call fails.
    pub fn start(position: u64) -> Head {
        let mut head = Head::default();
        if check_library().is_ok() {
            // SAFETY: as the module says.
            unsafe { claxon_head_start(&mut head, position) }
        }
        head
    }

    /// Reads the next part.
    pub fn next(&mut self, held: Held<'_>, info: &mut Info, metadata: &mut Metadata) -> NextPart {
        if let Err(failure) = check_library() {
            return NextPart::Failed(failure);
        }
        let mut text = NO_TEXT;
        // SAFETY: as the module says.
        let status = unsafe {
            claxon_head_next(
                self,
                held.bytes.as_ptr(),
                held.bytes.len(),
                held.position,
                u32::from(held.is_end),
                info,
                metadata,
                text.as_mut_ptr(),
                text.len(),
            )
        };
        match status {
            OK if self.part == METADATA_CONTENT => NextPart::Content,
            OK => NextPart::Other,
            NEED_MORE => NextPart::NeedMore,
            NO_MORE => NextPart::Whole,
            _ => NextPart::Failed(Failure { status, text }),
        }
    }
}

/// What the next frame of a stream is, by the bytes that are held.
pub enum NextFrame {
    Found(Block),
    /// The samples of this block don't fit.
    BufferTooSmall(Block),
    NeedMore,
    End,
    Failed(Failure),
}

impl Frames {
    /// As `Head::start`.
    pub fn start(position: u64) -> Frames {
        let mut frames = Frames::default();
        if check_library().is_ok() {
            // SAFETY: as the module says.
            unsafe { claxon_frames_start(&mut frames, position) }
        }
        frames
    }

    /// From another position on.
    pub fn go_on(&mut self, position: u64) {
        // SAFETY: as the module says.
        unsafe { claxon_frames_go_on(self, position) }
    }

    /// Decodes the next frame, one channel after another.
    pub fn next(&mut self, held: Held<'_>, info: &Info, samples: &mut [i32]) -> NextFrame {
        if let Err(failure) = check_library() {
            return NextFrame::Failed(failure);
        }
        let (mut block, mut text) = (Block::default(), NO_TEXT);
        // SAFETY: as the module says.
        let status = unsafe {
            claxon_frames_next_planar(
                self,
                held.bytes.as_ptr(),
                held.bytes.len(),
                held.position,
                u32::from(held.is_end),
                info,
                samples.as_mut_ptr(),
                samples.len(),
                &mut block,
                text.as_mut_ptr(),
                text.len(),
            )
        };
        match status {
            OK => NextFrame::Found(block),
            BUFFER_TOO_SMALL => NextFrame::BufferTooSmall(block),
            NEED_MORE => NextFrame::NeedMore,
            NO_MORE => NextFrame::End,
            _ => NextFrame::Failed(Failure { status, text }),
        }
    }
}

/// Where the next frame of a stream is, by the bytes that are held.
pub enum NextFound {
    Found(u64),
    NeedMore,
    Nothing,
    Failed(Failure),
}

impl Search {
    /// As `Head::start`.
    pub fn start(position: u64) -> Search {
        let mut search = Search::default();
        if check_library().is_ok() {
            // SAFETY: as the module says.
            unsafe { claxon_search_start(&mut search, position) }
        }
        search
    }

    /// From another position on. What the faults of these frames cost is charged.
    pub fn go_on(&mut self, frames: &mut Frames, position: u64) {
        // SAFETY: as the module says.
        unsafe { claxon_search_go_on(self, frames, position) }
    }

    /// Finds the next frame.
    pub fn next(&mut self, held: Held<'_>, info: &Info) -> NextFound {
        if let Err(failure) = check_library() {
            return NextFound::Failed(failure);
        }
        let (mut found, mut block) = (0, Block::default());
        // SAFETY: as the module says.
        let status = unsafe {
            claxon_search_next(
                self,
                held.bytes.as_ptr(),
                held.bytes.len(),
                held.position,
                u32::from(held.is_end),
                info,
                &mut found,
                &mut block,
            )
        };
        match status {
            OK => NextFound::Found(found),
            NEED_MORE => NextFound::NeedMore,
            NO_MORE => NextFound::Nothing,
            _ => NextFound::Failed(Failure { status, text: NO_TEXT }),
        }
    }
}

impl Clock {
    /// As `Head::start`.
    pub fn start(info: &Info) -> Clock {
        let mut clock = Clock::default();
        if check_library().is_ok() {
            // SAFETY: as the module says.
            unsafe { claxon_clock_start(&mut clock, info) }
        }
        clock
    }

    /// Notes a frame that was decoded, and corrects the sample at which its block begins, if the clock knows better.
    pub fn show(&mut self, info: &Info, frame: &Frame, block: &mut Block) {
        // SAFETY: as the module says.
        unsafe { claxon_clock_show(self, info, frame, &mut block.time) }
    }

    /// Whether the first frames have to be noted before a seek, at most two.
    pub fn needs_frames(&self) -> bool {
        // SAFETY: as the module says.
        unsafe { claxon_clock_needs_frames(self) == 1 }
    }
}

/// What is said of a seek, by the bytes that are held.
pub enum NextSought {
    Found(Block),
    /// The samples of this block don't fit.
    BufferTooSmall(Block),
    NeedMore,
    /// There is no such frame, or none within the budget.
    Nothing,
    Failed(Failure),
}

impl Seeker {
    /// A seek to a sample, from the first frame on at `info.first_frame`. As `Head::start`.
    pub fn start(info: &Info, length: u64, sample: u64, clock: &Clock) -> Seeker {
        let mut seeker = Seeker { state: [0; 33], position: 0, needed: 0, found: Frame::default() };
        if check_library().is_ok() {
            // SAFETY: as the module says.
            unsafe { claxon_seeker_start(&mut seeker, info, length, sample, clock) }
        }
        seeker
    }

    /// Seeks. The samples are written one channel after another.
    pub fn next(&mut self, held: Held<'_>, info: &Info, samples: &mut [i32]) -> NextSought {
        if let Err(failure) = check_library() {
            return NextSought::Failed(failure);
        }
        let mut block = Block::default();
        // SAFETY: as the module says.
        let status = unsafe {
            claxon_seeker_next_planar(
                self,
                held.bytes.as_ptr(),
                held.bytes.len(),
                held.position,
                u32::from(held.is_end),
                info,
                samples.as_mut_ptr(),
                samples.len(),
                &mut block,
            )
        };
        match status {
            OK => NextSought::Found(block),
            BUFFER_TOO_SMALL => NextSought::BufferTooSmall(block),
            NEED_MORE => NextSought::NeedMore,
            NO_MORE | OVER_BUDGET => NextSought::Nothing,
            _ => NextSought::Failed(Failure { status, text: NO_TEXT }),
        }
    }
}

impl Md5 {
    /// A sum of no samples yet.
    pub fn start() -> Result<Md5, Failure> {
        check_library()?;
        let mut md5 = Md5 { state: [0; 4], length: 0, buffer: [0; 64] };
        // SAFETY: as the module says.
        unsafe { claxon_md5_start(&mut md5) };
        Ok(md5)
    }

    /// Hashes interleaved samples of 1 to 32 bits.
    pub fn add_samples(&mut self, samples: &[i32], bits_per_sample: u32) {
        // SAFETY: as the module says.
        let status = unsafe { claxon_md5_samples(self, samples.as_ptr(), samples.len(), bits_per_sample) };
        debug_assert_eq!(status, OK);
    }

    /// The sum of the samples that were hashed.
    pub fn finish(&self) -> [u8; 16] {
        let mut sum = [0; 16];
        // SAFETY: as the module says.
        unsafe { claxon_md5_finish(self, &mut sum) };
        sum
    }
}

#[cfg(test)]
mod tests {
    use super::*;

    fn said_of(version: u32) -> Option<String> {
        let failure = check_version(version).err()?;
        assert_eq!(failure.status, OTHER_VERSION);
        Some(String::from_utf8_lossy(&failure.text).trim_end_matches('\0').to_string())
    }

    #[test]
    fn the_library_has_the_interface_that_is_declared_here() {
        assert!(check_library().is_ok());
    }

    #[test]
    fn other_versions() {
        assert_eq!((said_of(300), said_of(399)), (None, None));
        for (version, text) in [(299, "0.2.99"), (400, "0.4.0"), (10_300, "1.3.0"), (u32::MAX, "429496.72.95")] {
            let expected = format!("the library libclaxon has version {text}, and this crate is for version 0.3");
            assert_eq!(said_of(version), Some(expected));
        }
    }
}
