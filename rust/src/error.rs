//! Errors.
use crate::ffi::{self, Failure};
use std::sync::{Mutex, PoisonError};
use std::{error, fmt, io, result, string};

/// Why a stream couldn't be decoded.
#[derive(Debug)]
pub enum Error {
    /// The reader failed, or its bytes ended too early.
    IoError(io::Error),

    /// The stream is ill-formed: the text says how.
    FormatError(&'static str),

    /// The stream has something that the format allows and this decoder doesn't read: the text says what.
    Unsupported(&'static str),
}

/// Equal are two errors of the format, or of what isn't supported, with the same text. An `IoError` equals nothing.
impl PartialEq for Error {
    fn eq(&self, other: &Error) -> bool {
        match (self, other) {
            (Error::FormatError(reason), Error::FormatError(other)) => reason == other,
            (Error::Unsupported(feature), Error::Unsupported(other)) => feature == other,
            _ => false,
        }
    }
}

impl fmt::Display for Error {
    fn fmt(&self, formatter: &mut fmt::Formatter<'_>) -> fmt::Result {
        match self {
            Error::IoError(error) => error.fmt(formatter),
            Error::FormatError(reason) => write!(formatter, "Ill-formed FLAC stream: {reason}"),
            Error::Unsupported(feature) => {
                write!(formatter, "A currently unsupported feature of the FLAC format was encountered: {feature}")
            }
        }
    }
}

#[allow(deprecated)]
impl error::Error for Error {
    fn description(&self) -> &str {
        match self {
            Error::IoError(error) => error.description(),
            Error::FormatError(reason) => reason,
            Error::Unsupported(_) => "unsupported feature",
        }
    }

    // Not `source`: `Display` prints the cause, and what prints a chain of sources would print it twice.
    fn cause(&self) -> Option<&dyn error::Error> {
        match self {
            Error::IoError(error) => Some(error),
            Error::FormatError(_) | Error::Unsupported(_) => None,
        }
    }
}

impl From<io::Error> for Error {
    fn from(error: io::Error) -> Error {
        Error::IoError(error)
    }
}

impl From<string::FromUtf8Error> for Error {
    fn from(_: string::FromUtf8Error) -> Error {
        Error::FormatError("Vorbis comment or vendor string is not valid UTF-8")
    }
}

impl From<Failure> for Error {
    fn from(failure: Failure) -> Error {
        match failure.status {
            ffi::FORMAT_ERROR => Error::FormatError(kept(&failure.text)),
            ffi::UNSUPPORTED => Error::Unsupported(kept(&failure.text)),
            ffi::OUT_OF_MEMORY => Error::IoError(io::ErrorKind::OutOfMemory.into()),
            ffi::OTHER_VERSION => Error::IoError(io::Error::new(io::ErrorKind::Unsupported, kept(&failure.text))),
            _ => Error::IoError(end_of_input()),
        }
    }
}

/// The result of a call of this crate.
pub type Result<T> = result::Result<T, Error>;

pub(crate) fn end_of_input() -> io::Error {
    io::Error::new(io::ErrorKind::UnexpectedEof, "the bytes end too early")
}

// The library writes a text into a buffer, and an `Error` has one that lives for ever. Each of the some fifty texts is
// leaked once, when it is met first.
fn kept(text: &ffi::Text) -> &'static str {
    static TEXTS: Mutex<Vec<&'static str>> = Mutex::new(Vec::new());
    let text = text.split(|byte| *byte == 0).next().unwrap_or_default();
    let mut texts = TEXTS.lock().unwrap_or_else(PoisonError::into_inner);
    if let Some(known) = texts.iter().find(|known| known.as_bytes() == text) {
        return known;
    }
    let new: &'static str = Box::leak(String::from_utf8_lossy(text).into());
    texts.push(new);
    new
}

#[cfg(test)]
mod tests {
    use super::*;

    fn kind_of(status: u32) -> io::ErrorKind {
        match Error::from(Failure { status, text: [0; 112] }) {
            Error::IoError(error) => error.kind(),
            error => panic!("{error:?}"),
        }
    }

    #[test]
    fn statuses_that_are_no_fault_of_the_format() {
        assert_eq!(kind_of(ffi::OUT_OF_MEMORY), io::ErrorKind::OutOfMemory);
        assert_eq!(kind_of(ffi::INPUT_ENDS), io::ErrorKind::UnexpectedEof);
        assert_eq!(kind_of(ffi::NO_MORE), io::ErrorKind::UnexpectedEof);
        assert_eq!(kind_of(ffi::OTHER_VERSION), io::ErrorKind::Unsupported);
    }
}
