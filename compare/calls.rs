//! The calls of a run, played through const_format, and the words that they are for our library.
#![allow(dead_code)]

use const_format::pargument::{Integer, PConvWrapper};
use const_format::wrapper_types::{AsciiStr, PWrapper};
use const_format::{ComputeStrLength, Error, Formatter, FormattingFlags, StrWriterMut};

/// A value. `debug` picks the debug form; a width w stands for 8 << w bits.
#[derive(Clone, Debug)]
pub enum Value {
    Unsigned {
        debug: bool,
        width: u64,
        n: u64,
    },
    Signed {
        debug: bool,
        width: u64,
        x: i64,
    },
    Char {
        debug: bool,
        c: char,
    },
    Str {
        debug: bool,
        s: String,
        start: u64,
        end: u64,
    },
    Ascii {
        debug: bool,
        s: Vec<u8>,
        start: u64,
        end: u64,
    },
    Repeated {
        byte: u8,
        times: u64,
    },
}

/// A call. Kinds are 0 struct, 1 tuple, 2 list, 3 set; flags are the number of the library.
#[derive(Clone, Debug)]
pub enum Call {
    Open(u64, String),
    Field(String),
    Item,
    Entry,
    Finish,
    Sub(u64),
    EndSub,
    Value(Value),
}

pub fn greatest(width: u64) -> u64 {
    u64::MAX >> (64 - (8 << width))
}

/// Five words to a call, over a pool of texts.
#[derive(Default)]
pub struct Encoded {
    pub calls: Vec<u64>,
    pub text: Vec<u8>,
}

impl Encoded {
    pub fn new(run: &[Call]) -> Self {
        let mut e = Encoded::default();
        run.iter().for_each(|c| e.push(c));
        e
    }

    fn words(&mut self, which: u64, text: &[u8], a: u64, b: u64) {
        let start = self.text.len() as u64;
        self.text.extend_from_slice(text);
        self.calls
            .extend_from_slice(&[which, start, text.len() as u64, a, b]);
    }

    fn value(&mut self, v: &Value) {
        match v {
            Value::Unsigned { debug, width, n } => self.words(17 + *debug as u64, b"", *n, *width),
            Value::Signed { debug, width, x } => self.words(
                19 + *debug as u64,
                b"",
                *x as u64 & greatest(*width),
                *width,
            ),
            Value::Char { debug, c } => self.words(14 + *debug as u64, b"", *c as u64, 0),
            Value::Str {
                debug,
                s,
                start,
                end,
            } => self.words(10 + *debug as u64, s.as_bytes(), *start, *end),
            Value::Ascii {
                debug,
                s,
                start,
                end,
            } => self.words(12 + *debug as u64, s, *start, *end),
            Value::Repeated { byte, times } => self.words(16, b"", *byte as u64, *times),
        }
    }

    fn push(&mut self, c: &Call) {
        match c {
            Call::Open(kind, name) => self.words(*kind, name.as_bytes(), 0, 0),
            Call::Field(name) => self.words(4, name.as_bytes(), 0, 0),
            Call::Item => self.words(5, b"", 0, 0),
            Call::Entry => self.words(6, b"", 0, 0),
            Call::Finish => self.words(7, b"", 0, 0),
            Call::Sub(flags) => self.words(8, b"", *flags, 0),
            Call::EndSub => self.words(9, b"", 0, 0),
            Call::Value(v) => self.value(v),
        }
    }
}

/// The twelve flag sets.
pub fn flags_of(n: u64) -> FormattingFlags {
    let cased = if n / 2 % 2 == 0 {
        FormattingFlags::NEW.set_hexadecimal()
    } else {
        FormattingFlags::NEW.set_lower_hexadecimal()
    };
    let flags = match n / 4 {
        0 => cased.set_decimal(),
        1 => cased,
        _ => cased.set_binary(),
    };
    flags.set_alternate(n % 2 == 1)
}

/// Document 01's number of an answer.
pub fn number(answer: Result<(), Error>) -> u8 {
    match answer {
        Ok(()) => 0,
        Err(Error::NotEnoughSpace) => 1,
        Err(Error::NotAscii) => 2,
        Err(Error::NotOnCharBoundary) => 3,
        Err(_) => u8::MAX,
    }
}

/// A value of the formatter or of the writer: their methods have the same names, and the writer's
/// debug forms of integers take the flags.
macro_rules! play_value {
    ($f:ident, $v:expr $(, $flags:expr)?) => {
        match *$v {
            Value::Unsigned { debug: false, width: 0, n } => $f.write_u8_display(n as u8),
            Value::Unsigned { debug: false, width: 1, n } => $f.write_u16_display(n as u16),
            Value::Unsigned { debug: false, width: 2, n } => $f.write_u32_display(n as u32),
            Value::Unsigned { debug: false, n, .. } => $f.write_u64_display(n),
            Value::Unsigned { width: 0, n, .. } => $f.write_u8_debug(n as u8 $(, $flags)?),
            Value::Unsigned { width: 1, n, .. } => $f.write_u16_debug(n as u16 $(, $flags)?),
            Value::Unsigned { width: 2, n, .. } => $f.write_u32_debug(n as u32 $(, $flags)?),
            Value::Unsigned { n, .. } => $f.write_u64_debug(n $(, $flags)?),
            Value::Signed { debug: false, width: 0, x } => $f.write_i8_display(x as i8),
            Value::Signed { debug: false, width: 1, x } => $f.write_i16_display(x as i16),
            Value::Signed { debug: false, width: 2, x } => $f.write_i32_display(x as i32),
            Value::Signed { debug: false, x, .. } => $f.write_i64_display(x),
            Value::Signed { width: 0, x, .. } => $f.write_i8_debug(x as i8 $(, $flags)?),
            Value::Signed { width: 1, x, .. } => $f.write_i16_debug(x as i16 $(, $flags)?),
            Value::Signed { width: 2, x, .. } => $f.write_i32_debug(x as i32 $(, $flags)?),
            Value::Signed { x, .. } => $f.write_i64_debug(x $(, $flags)?),
            Value::Char { debug: false, c } => $f.write_char(c),
            Value::Char { c, .. } => $f.write_char_debug(c),
            Value::Str { debug, ref s, start, end } => {
                let whole = start == 0 && end == s.len() as u64;
                let range = start as usize..end as usize;
                match (debug, whole) {
                    (false, false) => $f.write_str_range(s, range),
                    (false, true) => $f.write_str(s),
                    (true, false) => $f.write_str_range_debug(s, range),
                    (true, true) => $f.write_str_debug(s),
                }
            }
            Value::Ascii { debug, ref s, start, end } => {
                let whole = start == 0 && end == s.len() as u64;
                let range = start as usize..end as usize;
                let s = AsciiStr::new(s).unwrap();
                match (debug, whole) {
                    (false, false) => $f.write_ascii_range(s, range),
                    (false, true) => $f.write_ascii(s),
                    (true, false) => $f.write_ascii_range_debug(s, range),
                    (true, true) => $f.write_ascii_debug(s),
                }
            }
            Value::Repeated { byte, times } => $f.write_ascii_repeated(byte, times as usize),
        }
    };
}

/// What a run gave: the answer to each call, the total or the cursor, the entries that it left open,
/// how many of these are builders, and the margin at its end. There is no margin where a builder is
/// innermost that has no field: it holds the formatter then, and gives it to nobody.
#[derive(Clone, Debug)]
pub struct Played {
    pub answers: Vec<u8>,
    pub number: usize,
    pub open: usize,
    pub builders: usize,
    pub margin: Option<usize>,
}

impl Played {
    pub fn first(&self) -> u8 {
        self.answers.iter().copied().find(|a| *a != 0).unwrap_or(0)
    }
}

/// What is left of a run, and what it gave so far.
struct Player<'c> {
    calls: &'c [Call],
    ended: bool,
    so_far: Played,
}

/// A builder's fields, each with what is written into it, and its finish. A run that ends inside
/// leaves the builder unfinished.
macro_rules! play_builder {
    ($self:ident, $open:expr, |$b:ident, $call:ident| $field:expr) => {{
        let mut $b = $open;
        $self.opened(true);
        loop {
            let Some($call) = $self.next() else {
                break $self.end(None);
            };
            if let Call::Finish = $call {
                let answer = number($b.finish());
                break $self.closed(true, answer);
            }
            let f = $field;
            $self.so_far.answers.push(0);
            $self.play(f);
        }
    }};
}

impl<'c> Player<'c> {
    fn next(&mut self) -> Option<&'c Call> {
        let (call, rest) = self.calls.split_first()?;
        self.calls = rest;
        Some(call)
    }

    fn opened(&mut self, builder: bool) {
        self.so_far.answers.push(0);
        self.so_far.open += 1;
        self.so_far.builders += builder as usize;
    }

    fn closed(&mut self, builder: bool, answer: u8) {
        self.so_far.answers.push(answer);
        self.so_far.open -= 1;
        self.so_far.builders -= builder as usize;
    }

    /// The end of the calls, where the innermost entry tells the margin; the entries outside say
    /// nothing more.
    fn end(&mut self, margin: Option<usize>) {
        if !self.ended {
            self.ended = true;
            self.so_far.margin = margin;
        }
    }

    /// Plays values and openings, up to a call of the entry outside.
    fn play(&mut self, f: &mut Formatter<'_>) {
        loop {
            if let Some(Call::Field(_) | Call::Item | Call::Entry | Call::Finish | Call::EndSub) =
                self.calls.first()
            {
                return;
            }
            let Some(call) = self.next() else {
                return self.end(Some(f.margin()));
            };
            match call {
                Call::Value(v) => {
                    let answer = play_value!(f, v);
                    self.so_far.answers.push(number(answer));
                }
                Call::Sub(flags) => {
                    self.opened(false);
                    let mut inner = f.make_formatter(flags_of(*flags));
                    self.play(&mut inner);
                    if let Some(Call::EndSub) = self.calls.first() {
                        self.next();
                        self.closed(false, 0);
                    }
                }
                Call::Open(0, name) => play_builder!(self, f.debug_struct(name), |b, c| match c {
                    Call::Field(s) => b.field(s),
                    _ => panic!("no field of a struct"),
                }),
                Call::Open(1, name) => play_builder!(self, f.debug_tuple(name), |b, _c| b.field()),
                Call::Open(2, _) => play_builder!(self, f.debug_list(), |b, _c| b.entry()),
                Call::Open(..) => play_builder!(self, f.debug_set(), |b, _c| b.entry()),
                _ => unreachable!(),
            }
        }
    }
}

/// Plays a run; the number is left for the caller.
fn play(f: &mut Formatter<'_>, run: &[Call]) -> Played {
    let mut player = Player {
        calls: run,
        ended: false,
        so_far: Played {
            answers: Vec::with_capacity(run.len()),
            number: 0,
            open: 0,
            builders: 0,
            margin: None,
        },
    };
    player.play(f);
    assert!(player.ended && player.so_far.answers.len() == run.len());
    player.so_far
}

/// A run counted by const_format: the number is its total.
pub fn rust_count(run: &[Call], flags: u64) -> Played {
    let mut counter = ComputeStrLength::new();
    let played = play(&mut counter.make_formatter(flags_of(flags)), run);
    Played {
        number: counter.len(),
        ..played
    }
}

/// A run written by const_format: the number is its cursor.
pub fn rust_write(run: &[Call], flags: u64, buf: &mut [u8], at: usize) -> Played {
    let mut cursor = at;
    let mut writer = StrWriterMut::from_custom(buf, &mut cursor);
    let played = play(&mut writer.make_formatter(flags_of(flags)), run);
    Played {
        number: cursor,
        ..played
    }
}

/// A single write of const_format's writer.
pub fn rust_single(v: &Value, flags: u64, buf: &mut [u8], at: usize) -> (u8, usize) {
    let mut cursor = at;
    let mut w = StrWriterMut::from_custom(buf, &mut cursor);
    let answer = play_value!(w, v, flags_of(flags));
    (number(answer), cursor)
}

/// `truncate` of const_format's writer: for `NoEncoding`, and for `Utf8Encoding` on the text s.
pub fn rust_truncate(buf: &mut [u8], at: usize, length: usize) -> (u8, usize) {
    let mut cursor = at;
    StrWriterMut::from_custom(buf, &mut cursor).truncate(length);
    (0, cursor)
}

pub fn rust_truncate_utf8(buf: &mut [u8], s: &str, length: usize) -> (u8, usize) {
    let mut cursor = 0;
    let mut w = StrWriterMut::from_custom_cleared(buf, &mut cursor);
    w.write_str(s).expect("it fits");
    let answer = w.truncate(length);
    (number(answer), cursor)
}

/// An integer of a width, from its bits.
macro_rules! by_width {
    ($signed:expr, $width:expr, $n:expr, |$x:ident| $e:expr) => {
        match ($signed, $width) {
            (false, 0) => {
                let $x = $n as u8;
                $e
            }
            (false, 1) => {
                let $x = $n as u16;
                $e
            }
            (false, 2) => {
                let $x = $n as u32;
                $e
            }
            (false, _) => {
                let $x = $n;
                $e
            }
            (true, 0) => {
                let $x = $n as i8;
                $e
            }
            (true, 1) => {
                let $x = $n as i16;
                $e
            }
            (true, 2) => {
                let $x = $n as i32;
                $e
            }
            (true, _) => {
                let $x = $n as i64;
                $e
            }
        }
    };
}

/// The length of an integer by const_format's own function, displayed or by the flags.
pub fn rust_length(signed: bool, width: u64, n: u64, debug: bool, flags: u64) -> usize {
    by_width!(signed, width, n, |x| if debug {
        PWrapper(x).compute_debug_len(flags_of(flags))
    } else {
        PWrapper(x).compute_display_len(flags_of(flags))
    })
}

/// An integer's sign, absolute value and mask.
pub fn rust_integer(signed: bool, width: u64, n: u64) -> Integer {
    by_width!(signed, width, n, |x| PConvWrapper(x).to_integer())
}

/// The array of an `Integer` from `start` on: binary, hexadecimal, and in decimal.
pub fn rust_arrays(i: Integer, flags: u64) -> [Vec<u8>; 3] {
    let flags = flags_of(flags);
    let b = PWrapper(i).to_start_array_binary(flags);
    let h = PWrapper(i).to_start_array_hexadecimal(flags);
    let d = PWrapper(i).to_start_array_display();
    [
        b.array[b.start..].to_vec(),
        h.array[h.start..].to_vec(),
        d.array[d.start..].to_vec(),
    ]
}
