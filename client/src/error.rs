use crate::formatter::Call;
use std::fmt;

/// Why a call was refused.
#[derive(Clone, Copy, Debug, PartialEq, Eq)]
pub enum Error {
    /// 1: the cursor plus the length passes the end of the buffer.
    NotEnoughSpace,
    /// 2: ASCII text holds a byte above 127.
    NotAscii,
    /// 3: a range cuts a character; in writing only.
    NotOnCharBoundary,
    /// 4: a text is not UTF-8.
    NotUtf8,
    /// 5: a code is no character.
    NotAChar,
    /// 6: the total would pass 2^64 - 1; in counting only.
    CountTooLarge,
    /// 7: 64 entries are open, or the margin of a builder would be too great.
    TooDeep,
    /// 8: the call does not suit the innermost open entry, or is none.
    WrongCall,
    /// 9: the cursor given is past the buffer.
    BadCursor,
    /// A number that this crate has no name for: that of a later library.
    Other(u8),
}

impl Error {
    /// The answer with this number: 0 is done.
    pub const fn from_number(number: u8) -> Result<(), Error> {
        Err(match number {
            0 => return Ok(()),
            1 => Error::NotEnoughSpace,
            2 => Error::NotAscii,
            3 => Error::NotOnCharBoundary,
            4 => Error::NotUtf8,
            5 => Error::NotAChar,
            6 => Error::CountTooLarge,
            7 => Error::TooDeep,
            8 => Error::WrongCall,
            9 => Error::BadCursor,
            other => Error::Other(other),
        })
    }

    /// The number of the answer.
    pub const fn number(self) -> u8 {
        match self {
            Error::NotEnoughSpace => 1,
            Error::NotAscii => 2,
            Error::NotOnCharBoundary => 3,
            Error::NotUtf8 => 4,
            Error::NotAChar => 5,
            Error::CountTooLarge => 6,
            Error::TooDeep => 7,
            Error::WrongCall => 8,
            Error::BadCursor => 9,
            Error::Other(number) => number,
        }
    }
}

/// A run whose builders are not all finished, or whose sub-formatters are not all dropped. It was not
/// played, and no byte was changed.
#[derive(Clone, Copy, Debug, PartialEq, Eq)]
pub struct Unfinished {
    /// How many builders and sub-formatters are open.
    pub open: usize,
}

/// A run that was refused somewhere. The calls after a refused one are played all the same.
#[derive(Clone, Copy, Debug, PartialEq, Eq)]
pub struct Refused {
    /// The first refusal.
    pub first: Error,
    /// The place in the run, from 0 on, of the call that answered it, and which call that is. A
    /// builder keeps the refusal of its name and its fields until it is finished. None for a cursor
    /// past the buffer, which no call is to blame for.
    pub call: Option<(usize, Call)>,
    /// The total or the cursor at the end of the run.
    pub number: usize,
}

/// Why a run has no count, or is not written.
#[derive(Clone, Copy, Debug, PartialEq, Eq)]
pub enum RunError {
    Unfinished(Unfinished),
    Refused(Refused),
}

impl From<Unfinished> for RunError {
    fn from(unfinished: Unfinished) -> Self {
        RunError::Unfinished(unfinished)
    }
}

impl fmt::Display for Error {
    fn fmt(&self, f: &mut fmt::Formatter<'_>) -> fmt::Result {
        write!(f, "{} ({self:?})", self.number())
    }
}

impl fmt::Display for Unfinished {
    fn fmt(&self, f: &mut fmt::Formatter<'_>) -> fmt::Result {
        write!(f, "builders and sub-formatters still open: {}", self.open)
    }
}

impl fmt::Display for Refused {
    fn fmt(&self, f: &mut fmt::Formatter<'_>) -> fmt::Result {
        match self.call {
            Some((place, call)) => write!(f, "call {place} ({call:?}) refused")?,
            None => write!(f, "refused")?,
        }
        write!(f, " with {}, ended at {}", self.first, self.number)
    }
}

impl fmt::Display for RunError {
    fn fmt(&self, f: &mut fmt::Formatter<'_>) -> fmt::Result {
        match self {
            RunError::Unfinished(unfinished) => unfinished.fmt(f),
            RunError::Refused(refused) => refused.fmt(f),
        }
    }
}

impl std::error::Error for Error {}
impl std::error::Error for Unfinished {}
impl std::error::Error for Refused {}
impl std::error::Error for RunError {}
