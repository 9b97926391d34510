//! The numbers of calls, flags, widths and answers: those of client/table_text.h are played through
//! the library, which gives the texts and answers that stand here, and those of the client are the
//! same.

use std::collections::{BTreeMap, BTreeSet};
use table_text::{Call, Error, Formatter, FormattingFlags, Run};

#[path = "../src/ffi.rs"]
mod ffi;

/// The enumerators of the header, without `TABLE_TEXT_`.
struct Header(BTreeMap<String, u64>);

impl Header {
    fn read() -> Self {
        let text = include_str!("../table_text.h");
        let mut numbers = BTreeMap::new();
        for item in text.split([',', '{', '}', '\n']) {
            let Some((name, number)) = item.split_once('=') else {
                continue;
            };
            let name = name.trim().strip_prefix("TABLE_TEXT_").expect(item);
            let number = number.split_whitespace().next().expect(item);
            let number = number.parse().expect(item);
            assert_eq!(numbers.insert(name.to_string(), number), None, "{name}");
        }
        Header(numbers)
    }

    fn number(&self, name: &str) -> u64 {
        *self.0.get(name).expect(name)
    }

    fn answer(&self, name: &str) -> u8 {
        self.number(name) as u8
    }
}

/// `NotAChar` as the header has it: `NOT_A_CHAR`.
fn in_header(name: &str) -> String {
    let mut s = String::new();
    for c in name.chars() {
        if c.is_uppercase() && !s.is_empty() {
            s.push('_');
        }
        s.push(c.to_ascii_uppercase());
    }
    s
}

/// A run as the library takes it.
#[derive(Default)]
struct Words {
    calls: Vec<u64>,
    text: Vec<u8>,
}

/// What the library leaves: the first refusal, the total or the cursor, the open entries, and the
/// answers.
#[derive(Debug, PartialEq)]
struct Left {
    first: u8,
    number: usize,
    open: usize,
    answers: Vec<u8>,
}

impl Words {
    fn of(calls: &[(u64, &[u8], u64, u64)]) -> Self {
        let mut words = Words::default();
        for (call, text, a, b) in calls {
            words.push(*call, text, *a, *b);
        }
        words
    }

    fn push(&mut self, call: u64, text: &[u8], a: u64, b: u64) {
        let start = self.text.len() as u64;
        self.text.extend_from_slice(text);
        self.calls
            .extend_from_slice(&[call, start, text.len() as u64, a, b]);
    }

    /// Counts with room for this many answers, all 99 before, and without.
    fn count(&self, flags: u64, room: usize) -> Left {
        let (mut number, mut open, mut answers) = (77, 77, vec![99; room]);
        let first = unsafe {
            ffi::table_text_count_each(
                flags,
                self.calls.as_ptr(),
                self.calls.len(),
                self.text.as_ptr(),
                self.text.len(),
                &mut number,
                &mut open,
                answers.as_mut_ptr(),
                answers.len(),
            )
        };
        let mut total = 77;
        let alone = unsafe {
            ffi::table_text_count(
                flags,
                self.calls.as_ptr(),
                self.calls.len(),
                self.text.as_ptr(),
                self.text.len(),
                &mut total,
            )
        };
        assert_eq!((alone, total), (first, number));
        Left {
            first,
            number,
            open,
            answers,
        }
    }

    /// Writes with room for this many answers, all 99 before, and without.
    fn write(&self, flags: u64, buf: &mut [u8], at: usize, room: usize) -> Left {
        let (mut number, mut open, mut answers) = (at, 77, vec![99; room]);
        let (mut other, mut cursor) = (buf.to_vec(), at);
        let first = unsafe {
            ffi::table_text_write_each(
                flags,
                buf.as_mut_ptr(),
                buf.len(),
                &mut number,
                self.calls.as_ptr(),
                self.calls.len(),
                self.text.as_ptr(),
                self.text.len(),
                &mut open,
                answers.as_mut_ptr(),
                answers.len(),
            )
        };
        let alone = unsafe {
            ffi::table_text_write(
                flags,
                other.as_mut_ptr(),
                other.len(),
                &mut cursor,
                self.calls.as_ptr(),
                self.calls.len(),
                self.text.as_ptr(),
                self.text.len(),
            )
        };
        assert_eq!((alone, cursor, other.as_slice()), (first, number, &*buf));
        Left {
            first,
            number,
            open,
            answers,
        }
    }
}

#[test]
fn the_clients_numbers_are_those_of_the_header() {
    let header = Header::read();
    let mut names = BTreeSet::new();
    for (place, call) in Call::ALL.into_iter().enumerate() {
        assert_eq!(call as usize, place);
        let name = in_header(&format!("{call:?}"));
        assert_eq!(header.number(&name), call as u64, "{name}");
        names.insert(name);
    }
    for number in 1..=9 {
        let error = Error::from_number(number).unwrap_err();
        let name = in_header(&format!("{error:?}"));
        assert_eq!(header.answer(&name), number, "{name}");
        names.insert(name);
    }
    // The rest is met below.
    let rest = "DONE DECIMAL HEXADECIMAL BINARY LOWER ALTERNATE 8_BITS 16_BITS 32_BITS 64_BITS";
    names.extend(rest.split(' ').map(String::from));
    assert!(names.iter().eq(header.0.keys()), "{:?}", header.0);
}

/// What stands in [`calls`], by the client's methods.
fn record(f: &mut Formatter) {
    let mut s = f.debug_struct("S");
    let mut t = s.field("a").debug_tuple("T");
    let mut list = t.field().debug_list();
    let mut set = list.entry().debug_set();
    set.entry().write_str_range("0é1", 1..4);
    set.entry().write_str_range_debug("a'é", 1..4);
    set.finish();
    list.finish();
    t.field().write_ascii_range(b"xyz", 1..2);
    t.field().write_ascii_range_debug(b"x\t", 1..2);
    t.finish();
    let f = s.field("b");
    {
        let mut hexadecimal = f.make_formatter(
            FormattingFlags::NEW
                .set_lower_hexadecimal()
                .set_alternate(true),
        );
        hexadecimal.write_char('é');
        hexadecimal.write_char_debug('\'');
        hexadecimal.write_ascii_repeated(b'-', 3);
        hexadecimal.write_u8_display(255);
        hexadecimal.write_u8_debug(255);
        hexadecimal.write_i16_display(-1);
        hexadecimal.write_i16_debug(-1);
        hexadecimal.write_i32_debug(-1);
        hexadecimal.write_i64_debug(-1);
    }
    f.write_i8_debug(-1);
    s.finish();
}

/// A call, its text and its two numbers, and the text that it adds.
type Case = (&'static str, &'static str, u64, u64, &'static str);

/// A run in which every call occurs.
fn calls(header: &Header) -> [Case; 32] {
    let flags = ["HEXADECIMAL", "LOWER", "ALTERNATE"];
    let flags: u64 = flags.iter().map(|name| header.number(name)).sum();
    let bits = |n: u32| header.number(&format!("{n}_BITS"));
    [
        ("OPEN_STRUCT", "S", 0, 0, "S"),
        ("FIELD", "a", 0, 0, " { a: "),
        ("OPEN_TUPLE", "T", 0, 0, "T"),
        ("TUPLE_FIELD", "", 0, 0, "("),
        ("OPEN_LIST", "", 0, 0, ""),
        ("ENTRY", "", 0, 0, "["),
        ("OPEN_SET", "", 0, 0, ""),
        ("ENTRY", "", 0, 0, "{"),
        ("STR", "0é1", 1, 4, "é1"),
        ("ENTRY", "", 0, 0, ", "),
        ("STR_DEBUG", "a'é", 1, 4, "\"\\'é\""),
        ("FINISH", "", 0, 0, "}"),
        ("FINISH", "", 0, 0, "]"),
        ("TUPLE_FIELD", "", 0, 0, ", "),
        ("ASCII", "xyz", 1, 2, "y"),
        ("TUPLE_FIELD", "", 0, 0, ", "),
        ("ASCII_DEBUG", "x\t", 1, 2, "\"\\t\""),
        ("FINISH", "", 0, 0, ")"),
        ("FIELD", "b", 0, 0, ", b: "),
        ("SUB_FORMATTER", "", flags, 0, ""),
        ("CHAR", "", 0xE9, 0, "é"),
        ("CHAR_DEBUG", "", 0x27, 0, "'\\''"),
        ("REPEATED", "", 0x2D, 3, "---"),
        ("UNSIGNED", "", 255, bits(8), "255"),
        ("UNSIGNED_DEBUG", "", 255, bits(8), "0xff"),
        ("SIGNED", "", 0xFFFF, bits(16), "-1"),
        ("SIGNED_DEBUG", "", 0xFFFF, bits(16), "0xffff"),
        ("SIGNED_DEBUG", "", 0xFFFF_FFFF, bits(32), "0xffffffff"),
        ("SIGNED_DEBUG", "", u64::MAX, bits(64), "0xffffffffffffffff"),
        ("END_FORMATTER", "", 0, 0, ""),
        ("SIGNED_DEBUG", "", 255, bits(8), "-1"),
        ("FINISH", "", 0, 0, " }"),
    ]
}

#[test]
fn every_call() {
    let header = Header::read();
    let decimal = header.number("DECIMAL");
    let calls = calls(&header);
    let names: BTreeSet<&str> = calls.iter().map(|call| call.0).collect();
    assert_eq!(names.len(), Call::ALL.len());

    let mut words = Words::default();
    let mut text = String::new();
    for (name, name_or_string, a, b, piece) in calls {
        words.push(header.number(name), name_or_string.as_bytes(), a, b);
        text.push_str(piece);
        let left = words.count(decimal, 0);
        assert_eq!((left.first, left.number), (0, text.len()), "{name}");
    }
    let mut buf = vec![0; text.len()];
    let left = words.write(decimal, &mut buf, 0, calls.len());
    assert_eq!(std::str::from_utf8(&buf), Ok(text.as_str()));
    let done = Left {
        first: header.answer("DONE"),
        number: text.len(),
        open: 0,
        answers: vec![header.answer("DONE"); calls.len()],
    };
    assert_eq!(left, done);

    let mut run = Run::new(FormattingFlags::NEW);
    record(&mut run);
    let mut buf = vec![0; text.len()];
    assert_eq!(run.count(), Ok(text.len()));
    assert_eq!(run.write(&mut buf, 0), Ok(text.len()));
    assert_eq!(std::str::from_utf8(&buf), Ok(text.as_str()));
}

#[test]
fn every_flag() {
    let header = Header::read();
    let new = FormattingFlags::NEW;
    let lower = new.set_lower_hexadecimal();
    let sets = [
        (new, "DECIMAL", "-1"),
        (lower.set_decimal(), "DECIMAL LOWER", "-1"),
        (new.set_hexadecimal(), "HEXADECIMAL", "FF"),
        (lower, "HEXADECIMAL LOWER", "ff"),
        (new.set_binary(), "BINARY", "11111111"),
        (lower.set_binary(), "BINARY LOWER", "11111111"),
    ];
    let mut numbers = BTreeSet::new();
    for (plain, names, digits) in sets {
        let prefix = match names.split(' ').next() {
            Some("HEXADECIMAL") => "0x",
            Some("BINARY") => "0b",
            _ => "",
        };
        let number: u64 = names.split(' ').map(|name| header.number(name)).sum();
        let alternate = plain.set_alternate(true);
        let texts = [
            (plain, number, format!("[{digits}]")),
            (
                alternate,
                number + header.number("ALTERNATE"),
                format!("[\n    {prefix}{digits},\n]"),
            ),
        ];
        for (flags, number, text) in texts {
            assert_eq!(flags.number(), number);
            assert_eq!(flags.set_alternate(false), plain);
            numbers.insert(number);
            let mut run = Run::new(flags);
            let mut list = run.debug_list();
            list.entry().write_i8_debug(-1);
            list.finish();
            let mut buf = vec![0; text.len()];
            assert_eq!(run.count(), Ok(text.len()));
            assert_eq!(run.write(&mut buf, 0), Ok(text.len()));
            assert_eq!(std::str::from_utf8(&buf), Ok(text.as_str()));
        }
    }
    assert!(numbers.into_iter().eq(0..12));
}

#[test]
fn flags_that_are_none_are_refused() {
    let header = Header::read();
    let words = Words::of(&[(header.number("OPEN_LIST"), b"", 0, 0)]);
    for flags in [12, 13, 16, u64::MAX] {
        let refused = |first, number| Left {
            first,
            number,
            open: 0,
            answers: vec![99; 2],
        };
        let wrong = header.answer("WRONG_CALL");
        let beyond = header.answer("BAD_CURSOR");
        let mut buf = *b"....";
        assert_eq!(words.count(flags, 2), refused(wrong, 0));
        assert_eq!(words.write(flags, &mut buf, 4, 2), refused(wrong, 4));
        assert_eq!(words.write(flags, &mut buf, 5, 2), refused(beyond, 5));
        assert_eq!(&buf, b"....");
    }
}

#[test]
fn every_answer() {
    let header = Header::read();
    let call = |name| header.number(name);
    let answer = |name| header.answer(name);
    let (string, huge) = (call("STR"), usize::MAX as u64);
    let deep = vec![(call("SUB_FORMATTER"), &b""[..], 0, 0); 65];
    let counted: [(&str, Words, usize); 7] = [
        ("DONE", Words::of(&[(string, b"a", 0, 1)]), 1),
        ("NOT_ASCII", Words::of(&[(call("ASCII"), b"\x80", 0, 1)]), 0),
        ("NOT_UTF8", Words::of(&[(string, b"\x80", 0, 1)]), 0),
        (
            "NOT_A_CHAR",
            Words::of(&[(call("CHAR"), b"", 0xD800, 0)]),
            0,
        ),
        (
            "COUNT_TOO_LARGE",
            Words::of(&[
                (call("REPEATED"), b"", 0, huge),
                (call("REPEATED"), b"", 0, 1),
            ]),
            usize::MAX,
        ),
        ("TOO_DEEP", Words::of(&deep), 0),
        ("WRONG_CALL", Words::of(&[(call("FINISH"), b"", 0, 0)]), 0),
    ];
    for (name, words, total) in counted {
        let left = words.count(0, 66);
        let calls = words.calls.len() / 5;
        assert_eq!((left.first, left.number), (answer(name), total), "{name}");
        assert!(left.answers[..calls - 1].iter().all(|a| *a == 0), "{name}");
        assert_eq!(left.answers[calls - 1], answer(name));
        assert!(left.answers[calls..].iter().all(|a| *a == 99), "{name}");
        assert_eq!(left.open, if name == "TOO_DEEP" { 64 } else { 0 });
    }
    let written = [
        ("NOT_ENOUGH_SPACE", Words::of(&[(string, b"ab", 0, 2)]), 3),
        (
            "NOT_ON_CHAR_BOUNDARY",
            Words::of(&[(string, "é".as_bytes(), 0, 1)]),
            3,
        ),
        ("BAD_CURSOR", Words::of(&[(string, b"a", 0, 1)]), 5),
    ];
    for (name, words, at) in written {
        let mut buf = *b"....";
        let left = Left {
            first: answer(name),
            number: at,
            open: 0,
            answers: vec![answer(name)],
        };
        assert_eq!(words.write(0, &mut buf, at, 1), left, "{name}");
        assert_eq!(&buf, b"....", "{name}");
    }
}

/// As many answers as there is room for, and the open entries also without room.
#[test]
fn answers_have_as_much_room_as_is_lent() {
    let header = Header::read();
    let words = Words::of(&[
        (header.number("FINISH"), b"", 0, 0),
        (header.number("OPEN_LIST"), b"", 0, 0),
        (header.number("ENTRY"), b"", 0, 0),
    ]);
    for room in 0..5 {
        let mut answers = vec![8, 0, 0, 99, 99];
        answers.truncate(room);
        let left = Left {
            first: 8,
            number: 1,
            open: 1,
            answers,
        };
        assert_eq!(words.count(0, room), left);
        assert_eq!(words.write(0, &mut [0; 4], 0, room), left);
    }
}
