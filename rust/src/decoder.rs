//! A decoder without input of its own.
use crate::error::{Error, Result};
use crate::ffi::{self, Clock, Failure, Frames, Info, NextFound, NextFrame, NextSought, Search, Seeker};
use crate::frame::Block;
use crate::head::{Head, Part};
use crate::metadata::{StreamInfo, VorbisComment};
use std::mem;

/// Bytes of a stream that the caller of a [`Decoder`] holds.
#[derive(Clone, Copy, Debug)]
pub struct Held<'a> {
    /// The bytes, one after another as they stand in the stream.
    pub bytes: &'a [u8],
    /// The position in the stream of the first of them.
    pub position: u64,
    /// Whether the stream ends with them.
    pub is_end: bool,
}

/// What a [`Decoder`] says of the bytes that are held.
#[non_exhaustive]
pub enum Event {
    /// The streaminfo block, the first one of the head.
    StreamInfo(StreamInfo),

    /// The Vorbis comments of the head.
    VorbisComment(VorbisComment),

    /// The next block of samples.
    Block(Block),

    /// A frame was found after as many bytes. The next block is that of it.
    Resynced(u64),

    /// At least so many bytes are needed from [`Decoder::position`] on, or all up to the end of the stream.
    NeedMore(usize),

    /// The stream ends.
    End,
}

/// Decodes a stream whose bytes the caller holds: for event loops, async readers and bytes in memory.
///
/// [`FrameReader`](crate::frame::FrameReader) is a loop over it. It is a plain value that takes no memory: a copy goes on by
/// itself. However a stream is cut into what is handed in, the events but `NeedMore` are the same.
///
/// ```
/// # fn main() -> claxon::Result<()> {
/// use claxon::{Decoder, Event, Held};
///
/// let stream = std::fs::read("examples/tagged.flac")?;
/// let (mut decoder, mut buffer, mut count) = (Decoder::new(), Vec::new(), 0);
/// let mut end = 0;
/// loop {
///     // An async caller drops the bytes before `decoder.position()`, and awaits others.
///     let start = end.min(decoder.position() as usize);
///     let held = Held { bytes: &stream[start..end], position: start as u64, is_end: end == stream.len() };
///     match decoder.decode(held, &mut buffer)? {
///         Event::NeedMore(_) => end = stream.len().min(end + 1460),
///         Event::Block(block) => {
///             count += block.duration();
///             buffer = block.into_buffer();
///         }
///         Event::StreamInfo(info) => println!("{} Hz", info.sample_rate),
///         Event::End => break,
///         _ => {}
///     }
/// }
/// assert_eq!(count, 9876);
/// # Ok(())
/// # }
/// ```
#[derive(Clone, Copy, Debug)]
pub struct Decoder {
    // As long as it isn't whole.
    head: Option<Head>,
    frames: Frames,
    search: Search,
    clock: Clock,
    seek: Option<Seek>,
    info: Info,
    first_frame: u64,
    lost: Lost,
    // The number of samples of the last block, of all channels.
    usual: usize,
}

// A seek to a sample, in a stream of so many bytes. It is begun once so many of the first frames were noted.
#[derive(Clone, Copy, Debug)]
struct Seek {
    sample: u64,
    length: u64,
    first_frames: u32,
    seeker: Option<Seeker>,
    // Where the decoder stood before, if that was after the head.
    from: Option<u64>,
}

// What was told last.
#[derive(Clone, Copy, Debug)]
enum Lost {
    Nothing,
    // The frame that begins here has a fault.
    Refused(u64),
    // There is no frame between here and where the search stands.
    Skipping(u64),
}

impl Default for Decoder {
    fn default() -> Decoder {
        Decoder::new()
    }
}

impl Decoder {
    /// A decoder of a stream from its first byte on, which has the position 0.
    pub fn new() -> Decoder {
        Decoder { head: Some(Head::start(0)), ..Decoder::without_head(0) }
    }

    /// A decoder of the frames of an unknown stream from this position on, which may be counted from anywhere. A frame
    /// has to give its bit depth.
    pub fn without_head(position: u64) -> Decoder {
        Decoder::of(Info::default(), position)
    }

    /// A decoder of the frames of a stream with this streaminfo.
    pub fn with_streaminfo(streaminfo: StreamInfo, position: u64) -> Decoder {
        Decoder::of(streaminfo.info(), position)
    }

    fn of(info: Info, position: u64) -> Decoder {
        Decoder {
            head: None,
            frames: Frames::start(position),
            search: Search::start(position),
            clock: Clock::start(&info),
            seek: None,
            info,
            first_frame: position,
            lost: Lost::Nothing,
            usual: 0,
        }
    }

    /// The position of the first byte that is needed. Those before may be dropped. It may stand after those that are held,
    /// as a picture is passed, and before or after them in a seek.
    ///
    /// After an error that is the first byte of the faulty frame, from which [`Decoder::resync`] goes on.
    pub fn position(&self) -> u64 {
        if let Some(Seek { seeker: Some(seeker), .. }) = self.seek {
            return seeker.position;
        }
        match (self.head, self.lost) {
            (Some(head), _) => head.position(),
            (None, Lost::Refused(begin)) => begin,
            (None, Lost::Nothing | Lost::Skipping(_)) => self.frames.position,
        }
    }

    /// Decodes what comes next: the streaminfo, the comments if there are some, and then one block after another. Its samples
    /// are in the buffer's memory, which is taken if it suffices.
    ///
    /// A block is given as soon as its frame is held: `NeedMore` says that no whole frame is there, or that very many
    /// tries were in vain, as in a stream that was made to cost time.
    ///
    /// # Errors
    ///
    /// Those of [`FlacReader::new`](crate::FlacReader::new), after which the head isn't over, and those of
    /// [`FrameReader::read_next_or_eof`](crate::frame::FrameReader::read_next_or_eof), after which the next call
    /// continues after the bytes that had to be read to see the fault.
    pub fn decode(&mut self, held: Held<'_>, buffer: &mut Vec<i32>) -> Result<Event> {
        self.seek = None;
        match self.next_of_head(held)? {
            Some(event) => Ok(event),
            None => self.next_block(held, buffer),
        }
    }

    // `None` after the head.
    fn next_of_head(&mut self, held: Held<'_>) -> Result<Option<Event>> {
        while let Some(mut head) = self.head {
            let part = head.next(held)?;
            self.head = Some(head);
            match part {
                Part::StreamInfo(streaminfo) => {
                    *self = self.of_stream(streaminfo.info());
                    return Ok(Some(Event::StreamInfo(streaminfo)));
                }
                Part::VorbisComment(comment) => return Ok(Some(Event::VorbisComment(comment))),
                Part::NeedMore(count) => return Ok(Some(Event::NeedMore(count))),
                Part::Whole => self.leave_head(),
                Part::Other => {}
            }
        }
        Ok(None)
    }

    // Goes on with frames.
    fn leave_head(&mut self) {
        if let Some(head) = self.head.take() {
            self.first_frame = head.position();
            self.frames.go_on(head.position());
        }
    }

    fn next_block(&mut self, held: Held<'_>, buffer: &mut Vec<i32>) -> Result<Event> {
        self.lost = Lost::Nothing;
        let begin = self.frames.position;
        if buffer.len() < self.usual {
            buffer.resize(self.usual, 0);
        }
        loop {
            match self.frames.next(held, &self.info, buffer) {
                NextFrame::Found(block) => return Ok(self.shown(block, buffer)),
                NextFrame::BufferTooSmall(block) => buffer.resize(block.samples(), 0),
                NextFrame::NeedMore => return Ok(Event::NeedMore(self.frames.needed)),
                NextFrame::End => return Ok(Event::End),
                NextFrame::Failed(failure) => return self.refuse(failure, begin),
            }
        }
    }

    // The block of the last frame.
    fn shown(&mut self, mut block: ffi::Block, buffer: &mut Vec<i32>) -> Event {
        self.clock.show(&self.info, &self.frames.last, &mut block);
        self.usual = block.samples();
        Event::Block(Block::new(block, mem::take(buffer)))
    }

    fn refuse(&mut self, failure: Failure, begin: u64) -> Result<Event> {
        if matches!(failure.status, ffi::FORMAT_ERROR | ffi::UNSUPPORTED | ffi::INPUT_ENDS) {
            self.lost = Lost::Refused(begin);
        }
        Err(failure.into())
    }

    /// Begins a seek to this sample of each channel, of which the first is 0, in a stream of so many bytes, if that is known.
    /// [`Decoder::seek`] goes there.
    pub fn begin_seek(&mut self, sample: u64, length: Option<u64>) {
        let from = self.head.is_none().then_some(self.frames.position);
        self.seek = Some(Seek { sample, length: length.unwrap_or(u64::MAX), first_frames: 2, seeker: None, from });
        self.go_on(self.first_frame);
    }

    /// Goes to a frame whose block has the sample: to be called until it gives that block, or `End` where no block has it.
    /// Then the decoder goes on after the block, or where it stood before. `NeedMore` asks for bytes from
    /// [`Decoder::position`] on. Where the head isn't over, it is read first, as [`Decoder::decode`] does.
    ///
    /// Headers lead to the frame. Neither they nor the length are believed, and a seek table isn't looked at. `End` is given
    /// too where very many headers with the sample have led to no frame, as only in a stream that is made for it.
    ///
    /// # Errors
    ///
    /// Those of the head, and an `IoError` where memory is refused. The call may be repeated.
    pub fn seek(&mut self, held: Held<'_>, buffer: &mut Vec<i32>) -> Result<Event> {
        if let Some(event) = self.next_of_head(held)? {
            return Ok(event);
        }
        while let Some(mut seek) = self.seek.filter(|seek| seek.seeker.is_none()) {
            if seek.first_frames == 0 || !self.clock.needs_frames() {
                let info = Info { first_frame: self.first_frame as usize, ..self.info };
                seek.seeker = Some(Seeker::start(&info, seek.length, seek.sample, &self.clock));
            } else {
                match self.next_block(held, buffer) {
                    Ok(Event::NeedMore(count)) => return Ok(Event::NeedMore(count)),
                    Ok(Event::Block(block)) => *buffer = block.into_buffer(),
                    _ => seek.first_frames = 1,
                }
                seek.first_frames -= 1;
            }
            self.seek = Some(seek);
        }
        self.next_sought(held, buffer)
    }

    fn next_sought(&mut self, held: Held<'_>, buffer: &mut Vec<i32>) -> Result<Event> {
        let (mut seeker, from) = match self.seek {
            Some(Seek { seeker: Some(seeker), from, .. }) => (seeker, from),
            _ => return Ok(Event::End),
        };
        if buffer.is_empty() {
            buffer.resize(self.usual.max(1), 0);
        }
        loop {
            match seeker.next(held, &self.info, buffer) {
                NextSought::Found(block) => {
                    self.seek = None;
                    self.go_on(seeker.found.end);
                    self.frames.last = seeker.found;
                    return Ok(self.shown(block, buffer));
                }
                NextSought::BufferTooSmall(block) => buffer.resize(block.samples(), 0),
                NextSought::NeedMore => {
                    self.seek = self.seek.map(|seek| Seek { seeker: Some(seeker), ..seek });
                    return Ok(Event::NeedMore(seeker.needed));
                }
                NextSought::Nothing => {
                    self.seek = None;
                    self.go_on(from.unwrap_or(self.first_frame));
                    return Ok(Event::End);
                }
                NextSought::Failed(failure) => return Err(failure.into()),
            }
        }
    }

    /// The position of the frame whose block was given last, and the one after it.
    pub(crate) fn last_frame(&self) -> (u64, u64) {
        (self.frames.last.position, self.frames.last.end)
    }

    /// Goes to the next frame of the stream, as [`FrameReader::resync`](crate::frame::FrameReader::resync) does, also
    /// after a fault of the head: to be called until it gives `Resynced`, or `End` where no frame is left.
    ///
    /// # Errors
    ///
    /// An `IoError` where memory is refused. The call may be repeated.
    pub fn resync(&mut self, held: Held<'_>) -> Result<Event> {
        self.seek = None;
        self.leave_head();
        let begin = self.begin_search();
        let found = self.search.next(held, &self.info);
        let position = match found {
            NextFound::Found(position) => position,
            NextFound::NeedMore | NextFound::Nothing | NextFound::Failed(_) => self.search.position,
        };
        self.frames.go_on(position);
        match found {
            NextFound::Found(position) => {
                self.lost = Lost::Nothing;
                Ok(Event::Resynced(position - begin))
            }
            NextFound::NeedMore => Ok(Event::NeedMore(self.search.needed)),
            NextFound::Nothing => Ok(Event::End),
            NextFound::Failed(failure) => Err(Error::from(failure)),
        }
    }

    // Returns where the bytes begin that are skipped.
    fn begin_search(&mut self) -> u64 {
        let (begin, from) = match self.lost {
            Lost::Skipping(begin) => return begin,
            Lost::Refused(begin) => (begin, begin + 1),
            Lost::Nothing => (self.frames.position, self.frames.position),
        };
        self.search.go_on(&mut self.frames, from);
        self.lost = Lost::Skipping(begin);
        begin
    }

    // From another position on.
    fn go_on(&mut self, position: u64) {
        self.frames.go_on(position);
        self.lost = Lost::Nothing;
    }

    /// The same at this position: where it is another one, nothing is known of the frame there.
    pub(crate) fn at(mut self, position: u64) -> Decoder {
        if position != self.frames.position {
            self.go_on(position);
        }
        self
    }

    /// The same for a stream of which this is known.
    pub(crate) fn of_stream(self, info: Info) -> Decoder {
        let clock = if info == self.info { self.clock } else { Clock::start(&info) };
        Decoder { info, clock, ..self }
    }

    /// The same for a stream whose first frame is at this position.
    pub(crate) fn with_first_frame(self, first_frame: u64) -> Decoder {
        Decoder { first_frame, ..self }
    }

    /// Where the next frame begins, or what comes after a fault.
    pub(crate) fn next_position(&self) -> u64 {
        self.frames.position
    }

    /// The bytes of the last fault aren't held any more.
    pub(crate) fn forget_fault(&mut self) {
        self.lost = Lost::Nothing;
    }
}
