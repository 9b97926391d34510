use crate::error::{Error, Refused, RunError, Unfinished};
use crate::ffi;
use crate::flags::FormattingFlags;
use crate::formatter::{Call, Formatter, WORDS};
use std::ops::{Deref, DerefMut};

/// A list of calls, recorded by the methods of [`Formatter`], to be counted or written whole.
#[derive(Debug)]
pub struct Run {
    flags: FormattingFlags,
    formatter: Formatter,
}

/// What a run gives, call by call.
#[derive(Clone, Debug, PartialEq, Eq)]
pub struct Each {
    /// The run's first refusal.
    pub first: Result<(), Error>,
    /// The total or the cursor at the end of the run.
    pub number: usize,
    /// The answer to each call, in the order in which they were recorded.
    pub answers: Vec<Result<(), Error>>,
}

impl Run {
    /// An empty run that starts with these flags.
    pub fn new(flags: FormattingFlags) -> Self {
        Run {
            flags,
            formatter: Formatter {
                calls: Vec::new(),
                text: Vec::new(),
                open: 0,
            },
        }
    }

    /// The run without its calls, also those that left something open; the memory is kept.
    pub fn clear(&mut self) {
        self.formatter.calls.clear();
        self.formatter.text.clear();
        self.formatter.open = 0;
    }

    /// How many bytes the text of the run has.
    pub fn count(&self) -> Result<usize, RunError> {
        self.closed()?;
        let mut total = 0;
        // SAFETY: both slices are whole and lent for the call, and `total` is this function's own.
        let first = unsafe {
            ffi::table_text_count(
                self.flags.number(),
                self.formatter.calls.as_ptr(),
                self.formatter.calls.len(),
                self.formatter.text.as_ptr(),
                self.formatter.text.len(),
                &mut total,
            )
        };
        match Error::from_number(first) {
            Ok(()) => Ok(total),
            Err(first) => Err(self.refused(first, self.count_each()?)),
        }
    }

    /// Writes the text of the run from place `at` of the buffer on, and gives the place after it.
    ///
    /// Refused or not, only bytes from `at` to the place where it ended can have changed. Where it is
    /// refused, these are not to be sent: the calls after a refused one are written all the same.
    pub fn write(&self, buf: &mut [u8], at: usize) -> Result<usize, RunError> {
        self.closed()?;
        let mut cursor = at;
        // SAFETY: as above; `buf` is lent mutably, so nothing else of the call lies in it.
        let first = unsafe {
            ffi::table_text_write(
                self.flags.number(),
                buf.as_mut_ptr(),
                buf.len(),
                &mut cursor,
                self.formatter.calls.as_ptr(),
                self.formatter.calls.len(),
                self.formatter.text.as_ptr(),
                self.formatter.text.len(),
            )
        };
        match Error::from_number(first) {
            Ok(()) => Ok(cursor),
            // Written once more, for the place of the refusal. No call looks at the bytes of the
            // buffer, so it is answered as before, and the same bytes are put in the same places.
            Err(first) => Err(self.refused(first, self.write_each(buf, at)?)),
        }
    }

    /// Counts the run as [`count`](Run::count) does, and gives every call's answer.
    #[cold]
    pub fn count_each(&self) -> Result<Each, Unfinished> {
        self.closed()?;
        let mut answers = vec![0; self.formatter.calls.len() / WORDS];
        let (mut total, mut open) = (0, 0);
        // SAFETY: as in `count`; `open` and `answers` are this function's own too.
        let first = unsafe {
            ffi::table_text_count_each(
                self.flags.number(),
                self.formatter.calls.as_ptr(),
                self.formatter.calls.len(),
                self.formatter.text.as_ptr(),
                self.formatter.text.len(),
                &mut total,
                &mut open,
                answers.as_mut_ptr(),
                answers.len(),
            )
        };
        Ok(Each::new(first, total, &answers))
    }

    /// Writes the run as [`write`](Run::write) does, and gives every call's answer.
    #[cold]
    pub fn write_each(&self, buf: &mut [u8], at: usize) -> Result<Each, Unfinished> {
        self.closed()?;
        let mut answers = vec![0; self.formatter.calls.len() / WORDS];
        let (mut cursor, mut open) = (at, 0);
        // SAFETY: as in `write`; `open` and `answers` are this function's own too.
        let first = unsafe {
            ffi::table_text_write_each(
                self.flags.number(),
                buf.as_mut_ptr(),
                buf.len(),
                &mut cursor,
                self.formatter.calls.as_ptr(),
                self.formatter.calls.len(),
                self.formatter.text.as_ptr(),
                self.formatter.text.len(),
                &mut open,
                answers.as_mut_ptr(),
                answers.len(),
            )
        };
        Ok(Each::new(first, cursor, &answers))
    }

    fn closed(&self) -> Result<(), Unfinished> {
        match self.formatter.open {
            0 => Ok(()),
            open => Err(Unfinished { open }),
        }
    }

    fn call_at(&self, place: usize) -> Call {
        Call::ALL[self.formatter.calls[WORDS * place] as usize]
    }

    #[cold]
    fn refused(&self, first: Error, each: Each) -> RunError {
        let place = match first {
            Error::BadCursor => None,
            _ => each.answers.iter().position(Result::is_err),
        };
        RunError::Refused(Refused {
            first,
            call: place.map(|place| (place, self.call_at(place))),
            number: each.number,
        })
    }
}

impl Each {
    fn new(first: u8, number: usize, answers: &[u8]) -> Self {
        Each {
            first: Error::from_number(first),
            number,
            answers: answers.iter().map(|&n| Error::from_number(n)).collect(),
        }
    }
}

impl Deref for Run {
    type Target = Formatter;

    fn deref(&self) -> &Formatter {
        &self.formatter
    }
}

impl DerefMut for Run {
    fn deref_mut(&mut self) -> &mut Formatter {
        &mut self.formatter
    }
}

impl Clone for Run {
    fn clone(&self) -> Self {
        Run {
            flags: self.flags,
            formatter: Formatter {
                calls: self.formatter.calls.clone(),
                text: self.formatter.text.clone(),
                open: self.formatter.open,
            },
        }
    }
}
