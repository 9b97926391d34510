//! Runs of calls, single writes and truncations through const_format and through our static
//! libraries. Small inputs are tried whole, the rest by chance from a seed. Compared are the answer
//! to every call, the total or cursor, the open entries, the margin, and every byte of the buffer,
//! which has non-zero contents before. After a quoted text that was refused with 1 the Rust is the
//! reference before the cursor only: from there on our buffer must be what it was.
//!
//! compare SEED COUNT: compares, with COUNT runs by chance. compare --sample COUNT SEED: prints runs
//! with const_format's answers, one to a line, for crates/rust_replay.

#[path = "alone.rs"]
mod alone;
#[path = "calls.rs"]
mod calls;
#[path = "library.rs"]
mod library;
#[path = "random.rs"]
mod random;
#[path = "single.rs"]
mod single;

use calls::*;
use const_format::ComputeStrLength;
use library::{Each, UNTOUCHED};
use random::{random_place, random_run, Random};
use single::{edges, signed, single, single_count, to_integer};

#[derive(Default)]
struct Tally {
    compared: u64,
    differ: u64,
    refused: [u64; 10],
    later: u64,
    open: u64,
    margins: u64,
    in_full: u64,
    left_high: u64,
    left_out: u64,
    left_out_wrong: u64,
    quoted_refused: u64,
    strays: u64,
}

impl Tally {
    fn same<T: PartialEq + std::fmt::Debug>(
        &mut self,
        ours: T,
        theirs: T,
        what: &str,
        input: &dyn std::fmt::Debug,
    ) {
        self.compared += 1;
        if ours != theirs {
            self.differ += 1;
            if self.differ < 20 {
                println!("{what}: {ours:?}, const_format {theirs:?}: {input:?}");
            }
        }
    }
}

/// A buffer with non-zero contents.
fn contents(size: usize) -> Vec<u8> {
    (0..size).map(|i| (i * 37 + 91) as u8).collect()
}

/// Whether a call's value is a quoted string or quoted ASCII text.
fn is_quoted_text(call: &Call) -> bool {
    matches!(
        call,
        Call::Value(Value::Str { debug: true, .. } | Value::Ascii { debug: true, .. })
    )
}

/// Whether a quoted text of a run was refused with 1: the Rust may then leave bytes past the cursor,
/// and is no reference there (document 02, ticket 5).
fn is_quoted_refused(run: &[Call], answers: &[u8]) -> bool {
    run.iter()
        .zip(answers)
        .any(|(call, answer)| *answer == 1 && is_quoted_text(call))
}

/// The buffer as const_format left it before the cursor, and as it was from there on.
fn without_strays(mut bytes: Vec<u8>, cursor: usize) -> Vec<u8> {
    let before = contents(bytes.len());
    bytes[cursor..].copy_from_slice(&before[cursor..]);
    bytes
}

/// The buffer that ours should leave where const_format left these bytes.
fn expected(t: &mut Tally, bytes: Vec<u8>, cursor: usize, quoted_refused: bool) -> Vec<u8> {
    if !quoted_refused {
        return bytes;
    }
    let cleared = without_strays(bytes.clone(), cursor);
    t.quoted_refused += 1;
    t.strays += (cleared != bytes) as u64;
    cleared
}

/// The buffer sizes around a text of n bytes from a cursor on.
fn sizes(n: usize, at: usize) -> impl Iterator<Item = usize> {
    (at + n).saturating_sub(1).max(at)..=at + n + 1
}

/// What our library should say of every call where const_format played a run, with two places for
/// answers behind the calls.
fn each_of(theirs: &Played) -> Each {
    let mut answers = theirs.answers.clone();
    answers.extend([UNTOUCHED; 2]);
    Each {
        first: theirs.first(),
        number: theirs.number,
        open: theirs.open,
        answers,
    }
}

/// The run with a list's first entry behind it, in a sub-formatter with the alternate flag: `[`, a
/// line feed, and the margin in spaces, which the list has raised by 4.
fn with_entry(words: &Encoded) -> Encoded {
    let end = words.text.len() as u64;
    let mut calls = words.calls.clone();
    calls.extend([8, end, 0, 1, 0]);
    calls.extend([2, end, 0, 0, 0]);
    calls.extend([6, end, 0, 0, 0]);
    Encoded {
        calls,
        text: words.text.clone(),
    }
}

/// The margin that `Formatter::margin` gives at the end of a run, where it can be asked and two more
/// entries may be opened.
fn asked_margin(t: &mut Tally, theirs: &Played) -> Option<usize> {
    let margin = theirs.margin.filter(|_| theirs.open <= 62)?;
    t.margins += 1;
    Some(margin)
}

/// A run counted by both.
fn compare_count(t: &mut Tally, run: &[Call], words: &Encoded, flags: u64) -> usize {
    let theirs = rust_count(run, flags);
    let ours = library::count(flags, &words.calls, &words.text);
    let input = (flags, run);
    t.same(ours, (theirs.first(), theirs.number), "counted", &input);
    let each = library::count_each(flags, &words.calls, &words.text, run.len() + 2);
    t.same(each, each_of(&theirs), "each counted", &input);
    if let Some(margin) = asked_margin(t, &theirs) {
        let more = with_entry(words);
        let ours = library::count(flags, &more.calls, &more.text).1;
        t.in_full += 1;
        t.same(
            ours,
            theirs.number + 2 + margin + 4,
            "margin counted",
            &input,
        );
    }
    theirs.number
}

/// A run written by both.
fn compare_write(t: &mut Tally, run: &[Call], words: &Encoded, flags: u64, size: usize, at: usize) {
    let mut bytes = contents(size);
    let theirs = rust_write(run, flags, &mut bytes, at);
    let input = (flags, size, at, run);
    t.refused[theirs.first().min(9) as usize] += 1;
    t.later += theirs
        .answers
        .iter()
        .skip_while(|a| **a == 0)
        .count()
        .saturating_sub(1) as u64;
    t.open += (theirs.open > 0) as u64;
    let quoted_refused = is_quoted_refused(run, &theirs.answers);
    let bytes = expected(t, bytes, theirs.number, quoted_refused);
    let mut ours = contents(size);
    let r = library::write(flags, &words.calls, &words.text, &mut ours, at);
    t.same(
        (r, &ours),
        ((theirs.first(), theirs.number), &bytes),
        "written",
        &input,
    );
    let mut ours = contents(size);
    let room = run.len() + 2;
    let each = library::write_each(flags, &words.calls, &words.text, &mut ours, at, room);
    t.same(
        (each, &ours),
        (each_of(&theirs), &bytes),
        "each written",
        &input,
    );
    if let Some(margin) = asked_margin(t, &theirs) {
        let in_full = 2 + margin + 4 <= size - theirs.number;
        t.in_full += in_full as u64;
        t.left_high += (in_full && margin > 4 * theirs.builders) as u64;
        compare_written_margin(t, run, words, flags, at, (theirs.number, bytes, margin));
    }
}

/// The margin at the end of a run that was written. Where there is no room for its spaces they are
/// refused, so that no more than that is seen.
fn compare_written_margin(
    t: &mut Tally,
    run: &[Call],
    words: &Encoded,
    flags: u64,
    at: usize,
    (mut cursor, mut bytes, margin): (usize, Vec<u8>, usize),
) {
    let size = bytes.len();
    for piece in [b"[\n".to_vec(), vec![b' '; margin + 4]] {
        if piece.len() <= size - cursor {
            bytes[cursor..cursor + piece.len()].copy_from_slice(&piece);
            cursor += piece.len();
        }
    }
    let more = with_entry(words);
    let mut ours = contents(size);
    let r = library::write(flags, &more.calls, &more.text, &mut ours, at);
    t.same(
        (r.1, ours),
        (cursor, bytes),
        "margin written",
        &(flags, size, at, run),
    );
}

/// Every prefix of a run: with it the total, cursor, open entries, margin and bytes after each call.
fn compare_prefixes(
    t: &mut Tally,
    run: &[Call],
    words: &Encoded,
    flags: u64,
    size: usize,
    at: usize,
) {
    for k in 1..run.len() {
        let prefix = Encoded {
            calls: words.calls[..5 * k].to_vec(),
            text: words.text.clone(),
        };
        compare_count(t, &run[..k], &prefix, flags);
        compare_write(t, &run[..k], &prefix, flags, size, at);
    }
}

/// A value as a run of one call, as a single write, and counted by a single call.
fn compare_value(t: &mut Tally, v: &Value, flags: u64) {
    let run = [Call::Value(v.clone())];
    let words = Encoded::new(&run);
    let total = compare_count(t, &run, &words, flags);
    if let Some(ours) = single_count(v, flags) {
        t.same(ours, (0, total), "counted alone", &(flags, v));
    }
    let length = match *v {
        Value::Unsigned { debug, width, n } => Some((false, debug, width, n)),
        Value::Signed { debug, width, x } => Some((true, debug, width, x as u64)),
        _ => None,
    };
    if let Some((signed, debug, width, n)) = length {
        let theirs = rust_length(signed, width, n, debug, flags);
        let ours = single_count(v, flags).expect("an integer has a count");
        t.same(ours, (0, theirs), "length", &(flags, v));
    }
    for at in [0, 3] {
        for size in sizes(total, at) {
            compare_write(t, &run, &words, flags, size, at);
            compare_single(t, v, flags, size, at);
        }
    }
}

fn compare_single(t: &mut Tally, v: &Value, flags: u64, size: usize, at: usize) {
    let mut ours = contents(size);
    let mut theirs = ours.clone();
    let r = single(v, flags, &mut ours, at);
    let q = rust_single(v, flags, &mut theirs, at);
    t.refused[q.0.min(9) as usize] += 1;
    let quoted_refused = q.0 == 1 && is_quoted_text(&Call::Value(v.clone()));
    let theirs = expected(t, theirs, q.1, quoted_refused);
    t.same(
        (r, ours),
        (q, theirs),
        "written alone",
        &(flags, size, at, v),
    );
}

/// Every u8 and i8, and the edges of the wider types, under the twelve flag sets.
fn integers(t: &mut Tally) {
    for width in 0..4 {
        for n in edges(width) {
            let x = signed(width, n);
            for flags in 0..12 {
                for debug in [false, true] {
                    compare_value(t, &Value::Unsigned { debug, width, n }, flags);
                    compare_value(t, &Value::Signed { debug, width, x }, flags);
                }
            }
        }
    }
}

/// The text at the end of an array, and whether all is zero before it.
fn laid(start: usize, array: &[u8]) -> (Vec<u8>, bool) {
    (
        array[start..].to_vec(),
        array[..start].iter().all(|b| *b == 0),
    )
}

/// An `Integer` laid in arrays by both, compared from `start` on.
fn compare_arrays(t: &mut Tally, i: const_format::pargument::Integer) {
    let ours = library::Integer {
        is_negative: i.is_negative,
        unsigned: i.unsigned as u64,
        mask: *i.mask as u64,
    };
    for flags in 0..12 {
        let theirs = rust_arrays(i, flags).map(|text| (text, true));
        let b = library::integer_binary(ours, flags);
        let h = library::integer_hexadecimal(ours, flags);
        let d = library::integer_display(ours);
        t.same((b.0, h.0), (0, 0), "laid", &(flags, ours));
        let arrays = [laid(b.1, &b.2), laid(h.1, &h.2), laid(d.0, &d.1)];
        t.same(arrays, theirs, "laid", &(flags, ours));
    }
}

/// Masks for an `Integer` that no type gives.
static MASKS: [u128; 8] = [
    0,
    1,
    0x7F,
    0xFFFF_FFFF_0000,
    0x5555_5555_5555_5555,
    0xAAAA_AAAA_AAAA_AAAA,
    1 << 63,
    u64::MAX as u128,
];

/// The same numbers as `Integer`, and their digits in arrays; then an `Integer` of any sign and mask,
/// zero with a minus among them.
fn integer_arrays(t: &mut Tally) {
    for width in 0..4 {
        for n in edges(width) {
            for is_signed in [false, true] {
                let theirs = rust_integer(is_signed, width, n);
                let ours = to_integer(is_signed, width, n);
                t.same(
                    (ours.is_negative, ours.unsigned as u128, ours.mask as u128),
                    (theirs.is_negative, theirs.unsigned, *theirs.mask),
                    "to_integer",
                    &(is_signed, width, n),
                );
                compare_arrays(t, theirs);
            }
        }
    }
    for n in edges(3) {
        for mask in &MASKS {
            for is_negative in [false, true] {
                let unsigned = n as u128;
                compare_arrays(
                    t,
                    const_format::pargument::Integer {
                        is_negative,
                        unsigned,
                        mask,
                    },
                );
            }
        }
    }
}

/// Every character below 0x800, and the edges above.
fn characters(t: &mut Tally) {
    let above = [
        0x800, 0x801, 0xFFF, 0x1000, 0xD7FF, 0xE000, 0xFFFD, 0xFFFE, 0xFFFF, 0x10000, 0x10001,
        0x3FFFF, 0x40000, 0xFFFFF, 0x100000, 0x10FFFE, 0x10FFFF,
    ];
    for code in (0..0x800).chain(above) {
        let c = char::from_u32(code).expect("a scalar value");
        for debug in [false, true] {
            compare_value(t, &Value::Char { debug, c }, 0);
        }
        for text in [
            format!("{c}"),
            format!("a{c}"),
            format!("{c}b"),
            format!("{c}\""),
        ] {
            let end = text.len() as u64;
            for debug in [false, true] {
                compare_value(
                    t,
                    &Value::Str {
                        debug,
                        s: text.clone(),
                        start: 0,
                        end,
                    },
                    0,
                );
            }
        }
    }
}

/// Strings and ASCII text with escapes at each place, in every range and every buffer size; each
/// byte repeated.
fn strings(t: &mut Tally) {
    for byte in 0..=255 {
        for times in 0..4 {
            compare_value(t, &Value::Repeated { byte, times }, 0);
        }
    }
    for text in [
        "",
        "a",
        "\n",
        "\u{1}",
        "\"a",
        "a\\",
        "\u{1}\t'",
        "é",
        "a≢b",
        "𝄞\u{1f}",
        "\r\u{0}\u{7f}é",
    ] {
        let n = text.len() as u64;
        for (start, end) in (0..n + 2).flat_map(|a| (0..n + 2).map(move |b| (a, b))) {
            for debug in [false, true] {
                let s = Value::Str {
                    debug,
                    s: text.to_string(),
                    start,
                    end,
                };
                let bytes = text.bytes().filter(u8::is_ascii).collect();
                let ascii = Value::Ascii {
                    debug,
                    s: bytes,
                    start,
                    end,
                };
                for v in [s, ascii] {
                    compare_value(t, &v, 0);
                    let run = [Call::Value(v.clone())];
                    let words = Encoded::new(&run);
                    for size in 0..28 {
                        compare_write(t, &run, &words, 0, size, 0);
                        compare_single(t, &v, 0, size, 0);
                    }
                }
            }
        }
    }
}

/// Whether a truncation for UTF-8 is to the cursor, before a byte that continues a character: the Rust
/// looks at that byte, and is no reference there (document 02, ticket 2).
fn is_stale_at_cursor(b: &[u8], at: usize, length: usize) -> bool {
    length == at && matches!(b.get(at), Some(0x80..=0xBF))
}

/// Truncation to every length, over texts with stale bytes past them.
fn truncations(t: &mut Tally) {
    for text in ["", "a", "é", "a≢", "𝄞b", "ab\u{7ff}"] {
        for stale in [0x00, 0x7F, 0x80, 0xA9, 0xBF, 0xC0, 0xFF] {
            for more in 0..3 {
                let mut b = vec![stale; text.len() + more];
                b[..text.len()].copy_from_slice(text.as_bytes());
                for length in 0..b.len() + 3 {
                    let mut cursor = text.len();
                    let answer = library::truncate_utf8(&b, &mut cursor, length);
                    if is_stale_at_cursor(&b, text.len(), length) {
                        t.left_out += 1;
                        t.left_out_wrong += ((answer, cursor) != (0, length)) as u64;
                    } else {
                        let theirs = rust_truncate_utf8(&mut b, text, length);
                        t.same((answer, cursor), theirs, "truncated", &(&b, text, length));
                    }
                    let mut cursor = text.len();
                    let answer = library::truncate(&b, &mut cursor, length);
                    let theirs = rust_truncate(&mut b, text.len(), length);
                    t.same(
                        (answer, cursor),
                        theirs,
                        "truncated bytes",
                        &(&b, text, length),
                    );
                }
            }
        }
    }
}

/// The calls that a Rust caller could make next. `open` has a builder's kind and whether it has a
/// field, or 4 for a sub-formatter.
fn next_calls(open: &[(u64, bool)]) -> Vec<Call> {
    let s = |s: &str| s.to_string();
    let mut next = Vec::new();
    if let Some((kind, _)) = open.last() {
        match kind {
            0 => next.push(Call::Field(s("x"))),
            1 => next.push(Call::Item),
            2 | 3 => next.push(Call::Entry),
            _ => next.push(Call::EndSub),
        }
        if *kind < 4 {
            next.push(Call::Finish);
        }
    }
    if open.last().is_none_or(|(_, has)| *has) {
        next.extend([
            Call::Value(Value::Unsigned {
                debug: true,
                width: 0,
                n: 27,
            }),
            Call::Value(Value::Str {
                debug: true,
                s: s("é\n"),
                start: 0,
                end: 3,
            }),
            Call::Open(0, s("P")),
            Call::Open(1, s("")),
            Call::Open(2, s("")),
            Call::Open(3, s("")),
            Call::Sub(5),
        ]);
    }
    next
}

fn pile(open: &[(u64, bool)], call: &Call) -> Vec<(u64, bool)> {
    let mut open = open.to_vec();
    match call {
        Call::Open(kind, _) => open.push((*kind, false)),
        Call::Sub(_) => open.push((4, true)),
        Call::Field(_) | Call::Item | Call::Entry => open.last_mut().expect("a builder").1 = true,
        Call::Finish | Call::EndSub => drop(open.pop()),
        Call::Value(_) => {}
    }
    open
}

/// All runs of up to `left` more calls, plain and alternate, in every buffer size up to the text's.
fn small_runs(t: &mut Tally, run: &mut Vec<Call>, open: &[(u64, bool)], left: usize) {
    let words = Encoded::new(run);
    for flags in [0, 1] {
        let total = compare_count(t, run, &words, flags);
        for size in 0..=total + 1 {
            compare_write(t, run, &words, flags, size, 0);
        }
        compare_write(t, run, &words, flags, total + 2, 2);
    }
    if left == 0 {
        return;
    }
    for call in next_calls(open) {
        let after = pile(open, &call);
        run.push(call);
        small_runs(t, run, &after, left - 1);
        run.pop();
    }
}

fn random_runs(t: &mut Tally, r: &mut Random, count: u64) {
    for _ in 0..count {
        let run = random_run(r, 300);
        let flags = r.below(12);
        let words = Encoded::new(&run);
        let total = compare_count(t, &run, &words, flags);
        for _ in 0..3 {
            let (size, at) = random_place(r, total);
            compare_write(t, &run, &words, flags, size, at);
        }
        let (size, at) = random_place(r, total);
        compare_prefixes(t, &run, &words, flags, size, at);
    }
}

/// Runs with longer names, so that a name is refused where smaller pieces still fit: the margin that
/// its builder leaves high can be measured then.
fn long_names(t: &mut Tally, r: &mut Random, count: u64) {
    for _ in 0..count {
        let mut run = random_run(r, 20);
        for call in &mut run {
            if let Call::Open(0 | 1, name) | Call::Field(name) = call {
                if r.below(3) == 0 {
                    *name = "m".repeat(20 + r.below(80) as usize);
                }
            }
        }
        let flags = r.below(12);
        let words = Encoded::new(&run);
        let total = compare_count(t, &run, &words, flags);
        let size = r.below(total as u64 + 1) as usize;
        compare_write(t, &run, &words, flags, size, 0);
        compare_prefixes(t, &run, &words, flags, size, 0);
    }
}

fn hex(bytes: &[u8]) -> String {
    bytes.iter().map(|b| format!("{b:02X}")).collect()
}

/// Prints runs with const_format's answers, their fields parted by commas: flags, cursor, size of the
/// buffer, how many words, the words, the texts in hexadecimal, the first refusal and the total of
/// counting, the first refusal and the cursor of writing, and the buffer in hexadecimal, after a
/// refused quoted text as it was from the cursor on.
fn sample(r: &mut Random, count: u64) {
    let mut printed = 0;
    while printed < count {
        let mut run = random_run(r, 60);
        run.truncate(1 + r.below(run.len() as u64) as usize);
        let flags = r.below(12);
        let words = Encoded::new(&run);
        let counted = rust_count(&run, flags);
        let total = counted.number;
        let (size, at) = random_place(r, total);
        if words.calls.len() > 200 || words.text.len() > 400 || size > 400 {
            continue;
        }
        let mut b = contents(size);
        let written = rust_write(&run, flags, &mut b, at);
        if is_quoted_refused(&run, &written.answers) {
            b = without_strays(b, written.number);
        }
        let numbers: Vec<String> = words.calls.iter().map(u64::to_string).collect();
        println!(
            "{flags},{at},{size},{},{},{},{},{total},{},{},{}",
            numbers.len(),
            numbers.join(","),
            hex(&words.text),
            counted.first(),
            written.first(),
            written.number,
            hex(&b)
        );
        printed += 1;
    }
}

/// Everything that both can play, section by section.
fn compare_all(t: &mut Tally, r: &mut Random, count: u64) {
    let mut seen = 0;
    let mut said = |t: &Tally, what: &str| {
        println!("{what}: {} compared", t.compared - seen);
        seen = t.compared;
    };
    integers(t);
    said(t, "integers");
    integer_arrays(t);
    said(t, "integers in arrays");
    characters(t);
    said(t, "characters");
    strings(t);
    said(t, "strings");
    truncations(t);
    said(t, "truncations");
    small_runs(t, &mut Vec::new(), &[], 7);
    said(t, "all runs of up to 7 calls");
    random_runs(t, r, count);
    said(t, "runs by chance");
    long_names(t, r, count / 10);
    said(t, "runs by chance with long names");
}

/// Prints what was seen beside the comparisons.
fn print_tally(t: &Tally) {
    let n = t.refused;
    println!(
        "writes: {} done, {} refused with 1, {} with 3; {} answers after a first refusal; {} left entries open",
        n[0], n[1], n[3], t.later, t.open
    );
    println!(
        "margins: {} compared, {} measured in full, {} of these left high by a refused builder",
        t.margins, t.in_full, t.left_high
    );
    println!(
        "truncations left out: {} to the cursor before a byte 80 to BF, ours alone: {} wrong",
        t.left_out, t.left_out_wrong
    );
    println!(
        "writes compared before the cursor only: {} with a quoted text refused with 1, of which const_format left bytes past the cursor in {}",
        t.quoted_refused, t.strays
    );
}

fn main() {
    assert!(ComputeStrLength::new().is_empty());
    let mut args: Vec<String> = std::env::args().skip(1).collect();
    let only_sample = args.first().is_some_and(|a| a == "--sample");
    if only_sample {
        args.remove(0);
    }
    let numbers: Vec<u64> = args.iter().map(|a| a.parse().expect("a number")).collect();
    let [a, b] = numbers[..] else {
        panic!("a seed and a count")
    };
    if only_sample {
        return sample(&mut Random(b * 2 + 1), a);
    }
    let (seed, count) = (a, b);
    let mut r = Random(seed * 2 + 1);
    let mut t = Tally::default();
    compare_all(&mut t, &mut r, count);
    let (tried, wrong) = alone::wrong_flags();
    println!("{tried} single calls with flags from 12 on, ours alone: {wrong} wrong");
    let bad = alone::damaged(&mut r, count);
    println!("{count} damaged runs, ours alone: {bad} wrong");
    print_tally(&t);
    let differ = t.differ + wrong + bad + t.left_out_wrong;
    println!("{} compared, {differ} differ", t.compared);
    if differ > 0 {
        std::process::exit(1);
    }
}
