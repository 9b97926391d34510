use crate::flags::FormattingFlags;
use std::ops::{Deref, DerefMut, Range};

/// A call, by the number that the library knows it by and the name that the header has for it.
#[derive(Clone, Copy, Debug, PartialEq, Eq)]
#[repr(u64)]
pub enum Call {
    OpenStruct = 0,
    OpenTuple = 1,
    OpenList = 2,
    OpenSet = 3,
    /// Of a struct.
    Field = 4,
    TupleField = 5,
    /// Of a list or a set.
    Entry = 6,
    Finish = 7,
    SubFormatter = 8,
    EndFormatter = 9,
    Str = 10,
    StrDebug = 11,
    Ascii = 12,
    AsciiDebug = 13,
    Char = 14,
    CharDebug = 15,
    Repeated = 16,
    Unsigned = 17,
    UnsignedDebug = 18,
    Signed = 19,
    SignedDebug = 20,
}

impl Call {
    /// All calls, each at the place of its number.
    pub const ALL: [Call; 21] = [
        Call::OpenStruct,
        Call::OpenTuple,
        Call::OpenList,
        Call::OpenSet,
        Call::Field,
        Call::TupleField,
        Call::Entry,
        Call::Finish,
        Call::SubFormatter,
        Call::EndFormatter,
        Call::Str,
        Call::StrDebug,
        Call::Ascii,
        Call::AsciiDebug,
        Call::Char,
        Call::CharDebug,
        Call::Repeated,
        Call::Unsigned,
        Call::UnsignedDebug,
        Call::Signed,
        Call::SignedDebug,
    ];
}

/// The words of a call as it is recorded: which call, where its text starts and how long it is, and
/// two numbers.
pub(crate) const WORDS: usize = 5;

/// Records calls, by the names of const_format's `Formatter`. A [`Run`](crate::Run), its builders and
/// its sub-formatters lend it; recording refuses nothing.
///
/// In the middle of a record nothing can be counted, written or cleared, since what is lent there is
/// no run:
///
/// ```compile_fail,E0599
/// # let mut run = table_text::Run::new(table_text::FormattingFlags::NEW);
/// let mut s = run.debug_struct("Move");
/// s.field("x").count();
/// ```
/// ```compile_fail,E0599
/// # let mut run = table_text::Run::new(table_text::FormattingFlags::NEW);
/// let mut s = run.debug_struct("Move");
/// s.field("x").write(&mut [0; 12], 0);
/// ```
/// ```compile_fail,E0599
/// # let mut run = table_text::Run::new(table_text::FormattingFlags::NEW);
/// let mut list = run.debug_list();
/// list.entry().clear();
/// ```
/// ```compile_fail,E0599
/// # let mut run = table_text::Run::new(table_text::FormattingFlags::NEW);
/// let mut sub = run.make_formatter(table_text::FormattingFlags::NEW);
/// sub.clear();
/// ```
///
/// and the run itself is lent as long as a builder is in use:
///
/// ```compile_fail,E0502
/// # let mut run = table_text::Run::new(table_text::FormattingFlags::NEW);
/// let mut s = run.debug_struct("Move");
/// s.field("x").write_i32_debug(1200);
/// run.count();
/// s.finish();
/// ```
/// ```compile_fail,E0499
/// # let mut run = table_text::Run::new(table_text::FormattingFlags::NEW);
/// let mut s = run.debug_struct("Move");
/// s.field("x").write_i32_debug(1200);
/// run.clear();
/// s.finish();
/// ```
///
/// Each of these compiles with the record finished first:
///
/// ```
/// # let mut run = table_text::Run::new(table_text::FormattingFlags::NEW);
/// let mut s = run.debug_struct("Move");
/// s.field("x").write_i32_debug(1200);
/// s.finish();
/// assert_eq!(run.count(), Ok(16));
/// assert_eq!(run.write(&mut [0; 16], 0), Ok(16));
/// run.clear();
/// ```
#[derive(Debug)]
pub struct Formatter {
    /// [`WORDS`] to a call.
    pub(crate) calls: Vec<u64>,
    pub(crate) text: Vec<u8>,
    /// The openings recorded that no recorded closing has closed.
    pub(crate) open: usize,
}

macro_rules! integers {
    ($(($display:ident, $debug:ident, $type:ty, $bits:ty, $display_call:ident, $debug_call:ident, $width:expr))*) => {
        $(
            pub fn $display(&mut self, n: $type) {
                self.record(Call::$display_call, b"", n as $bits as u64, $width);
            }

            pub fn $debug(&mut self, n: $type) {
                self.record(Call::$debug_call, b"", n as $bits as u64, $width);
            }
        )*
    };
}

impl Formatter {
    fn record(&mut self, call: Call, text: &[u8], a: u64, b: u64) {
        let start = self.text.len() as u64;
        self.text.extend_from_slice(text);
        let words: [u64; WORDS] = [call as u64, start, text.len() as u64, a, b];
        self.calls.extend_from_slice(&words);
    }

    fn record_opening(&mut self, call: Call, name: &str, a: u64) {
        self.open += 1;
        self.record(call, name.as_bytes(), a, 0);
    }

    /// A closing with nothing open, which takes formatters of two runs that were swapped, closes
    /// nothing: the library refuses it.
    fn record_closing(&mut self, call: Call) {
        self.open = self.open.saturating_sub(1);
        self.record(call, b"", 0, 0);
    }

    pub fn debug_struct(&mut self, name: &str) -> DebugStruct<'_> {
        self.record_opening(Call::OpenStruct, name, 0);
        DebugStruct { formatter: self }
    }

    pub fn debug_tuple(&mut self, name: &str) -> DebugTuple<'_> {
        self.record_opening(Call::OpenTuple, name, 0);
        DebugTuple { formatter: self }
    }

    pub fn debug_list(&mut self) -> DebugList<'_> {
        self.record_opening(Call::OpenList, "", 0);
        DebugList { formatter: self }
    }

    pub fn debug_set(&mut self) -> DebugSet<'_> {
        self.record_opening(Call::OpenSet, "", 0);
        DebugSet { formatter: self }
    }

    /// What is recorded through the sub-formatter has its flags; it closes where it is dropped.
    pub fn make_formatter(&mut self, flags: FormattingFlags) -> SubFormatter<'_> {
        self.record_opening(Call::SubFormatter, "", flags.number());
        SubFormatter { formatter: self }
    }

    pub fn write_str(&mut self, s: &str) {
        self.record(Call::Str, s.as_bytes(), 0, s.len() as u64);
    }

    /// A range that cuts a character is counted, and refused with 3 in writing.
    pub fn write_str_range(&mut self, s: &str, range: Range<usize>) {
        let (start, end) = (range.start as u64, range.end as u64);
        self.record(Call::Str, s.as_bytes(), start, end);
    }

    pub fn write_str_debug(&mut self, s: &str) {
        self.record(Call::StrDebug, s.as_bytes(), 0, s.len() as u64);
    }

    pub fn write_str_range_debug(&mut self, s: &str, range: Range<usize>) {
        let (start, end) = (range.start as u64, range.end as u64);
        self.record(Call::StrDebug, s.as_bytes(), start, end);
    }

    /// Text with a byte above 127 is refused with 2.
    pub fn write_ascii(&mut self, s: &[u8]) {
        self.record(Call::Ascii, s, 0, s.len() as u64);
    }

    pub fn write_ascii_range(&mut self, s: &[u8], range: Range<usize>) {
        self.record(Call::Ascii, s, range.start as u64, range.end as u64);
    }

    pub fn write_ascii_debug(&mut self, s: &[u8]) {
        self.record(Call::AsciiDebug, s, 0, s.len() as u64);
    }

    pub fn write_ascii_range_debug(&mut self, s: &[u8], range: Range<usize>) {
        self.record(Call::AsciiDebug, s, range.start as u64, range.end as u64);
    }

    /// The byte without its top bit.
    pub fn write_ascii_repeated(&mut self, character: u8, repeated: usize) {
        self.record(Call::Repeated, b"", character as u64, repeated as u64);
    }

    pub fn write_char(&mut self, character: char) {
        self.record(Call::Char, b"", character as u64, 0);
    }

    pub fn write_char_debug(&mut self, character: char) {
        self.record(Call::CharDebug, b"", character as u64, 0);
    }

    integers! {
        (write_u8_display, write_u8_debug, u8, u8, Unsigned, UnsignedDebug, 0)
        (write_u16_display, write_u16_debug, u16, u16, Unsigned, UnsignedDebug, 1)
        (write_u32_display, write_u32_debug, u32, u32, Unsigned, UnsignedDebug, 2)
        (write_u64_display, write_u64_debug, u64, u64, Unsigned, UnsignedDebug, 3)
        (write_usize_display, write_usize_debug, usize, u64, Unsigned, UnsignedDebug, 3)
        (write_i8_display, write_i8_debug, i8, u8, Signed, SignedDebug, 0)
        (write_i16_display, write_i16_debug, i16, u16, Signed, SignedDebug, 1)
        (write_i32_display, write_i32_debug, i32, u32, Signed, SignedDebug, 2)
        (write_i64_display, write_i64_debug, i64, u64, Signed, SignedDebug, 3)
        (write_isize_display, write_isize_debug, isize, u64, Signed, SignedDebug, 3)
    }
}

/// A struct that is open until `finish`. Dropped or leaked without it, it stays open.
#[must_use = "a builder stays open until it is finished"]
pub struct DebugStruct<'f> {
    formatter: &'f mut Formatter,
}

impl DebugStruct<'_> {
    pub fn field(&mut self, name: &str) -> &mut Formatter {
        self.formatter.record(Call::Field, name.as_bytes(), 0, 0);
        self.formatter
    }

    pub fn finish(self) {
        self.formatter.record_closing(Call::Finish);
    }
}

/// A tuple that is open until `finish`.
#[must_use = "a builder stays open until it is finished"]
pub struct DebugTuple<'f> {
    formatter: &'f mut Formatter,
}

impl DebugTuple<'_> {
    pub fn field(&mut self) -> &mut Formatter {
        self.formatter.record(Call::TupleField, b"", 0, 0);
        self.formatter
    }

    pub fn finish(self) {
        self.formatter.record_closing(Call::Finish);
    }
}

/// A list that is open until `finish`.
#[must_use = "a builder stays open until it is finished"]
pub struct DebugList<'f> {
    formatter: &'f mut Formatter,
}

impl DebugList<'_> {
    pub fn entry(&mut self) -> &mut Formatter {
        self.formatter.record(Call::Entry, b"", 0, 0);
        self.formatter
    }

    pub fn finish(self) {
        self.formatter.record_closing(Call::Finish);
    }
}

/// A set that is open until `finish`.
#[must_use = "a builder stays open until it is finished"]
pub struct DebugSet<'f> {
    formatter: &'f mut Formatter,
}

impl DebugSet<'_> {
    pub fn entry(&mut self) -> &mut Formatter {
        self.formatter.record(Call::Entry, b"", 0, 0);
        self.formatter
    }

    pub fn finish(self) {
        self.formatter.record_closing(Call::Finish);
    }
}

/// A formatter with flags of its own, open until it is dropped. Leaked, it stays open.
pub struct SubFormatter<'f> {
    formatter: &'f mut Formatter,
}

impl Deref for SubFormatter<'_> {
    type Target = Formatter;

    fn deref(&self) -> &Formatter {
        self.formatter
    }
}

impl DerefMut for SubFormatter<'_> {
    fn deref_mut(&mut self) -> &mut Formatter {
        self.formatter
    }
}

impl Drop for SubFormatter<'_> {
    fn drop(&mut self) {
        self.formatter.record_closing(Call::EndFormatter);
    }
}
