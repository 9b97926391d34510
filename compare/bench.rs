//! Nanoseconds of single calls and of whole runs, here and by const_format, in one program. Both
//! sides are functions that are not inlined and take the same inputs, which the compiler cannot see;
//! the buffers are not cleared. Each figure is the best of many rounds, and the rounds of the two
//! sides alternate. With `--ours`, the nanoseconds of our side alone, a figure to a line, as
//! compare/against reads them.

#[path = "calls.rs"]
mod calls;
#[path = "library.rs"]
mod library;

use calls::{flags_of, number, Call, Encoded, Value};
use const_format::{ComputeStrLength, Formatter, StrWriterMut};
use std::hint::black_box;
use std::time::Instant;

const ROUNDS: usize = 401;

fn round(n: u64, f: &mut dyn FnMut(u64)) -> f64 {
    let start = Instant::now();
    f(n);
    start.elapsed().as_nanos() as f64 / n as f64
}

/// Whether our side alone is measured.
fn ours_alone() -> bool {
    std::env::args().nth(1).as_deref() == Some("--ours")
}

/// A figure of our side alone: the least of 31 rounds.
fn figure(name: &str, per: f64, ours: &mut dyn FnMut(u64)) {
    let n = (300_000.0 / round(1000, ours).max(1.0)) as u64 + 1;
    let least = (0..31).fold(f64::MAX, |least, _| least.min(round(n, ours)));
    println!("{name}\t{:.3}", least / per);
}

/// A row of the table: the least of the rounds of each side.
fn row(name: &str, mut ours: impl FnMut() -> u8, mut theirs: impl FnMut() -> u8) {
    let mut ours = |n| (0..n).for_each(|_| assert_eq!(ours(), 0));
    if ours_alone() {
        return figure(name, 1.0, &mut ours);
    }
    let mut theirs = |n| (0..n).for_each(|_| assert_eq!(theirs(), 0));
    let estimate = round(1000, &mut theirs).max(1.0);
    let n = (1_000_000.0 / estimate) as u64 + 1;
    let (mut a, mut b) = (f64::MAX, f64::MAX);
    for _ in 0..ROUNDS {
        a = a.min(round(n, &mut ours));
        b = b.min(round(n, &mut theirs));
    }
    println!("| {name} | {a:.1} | {b:.1} | {:.2} |", a / b);
}

/// A single write and a single count of const_format, as functions.
macro_rules! theirs {
    ($write:ident, $count:ident, $method:ident, $type:ty) => {
        #[inline(never)]
        fn $write(buf: &mut [u8], cursor: &mut usize, x: $type) -> u8 {
            number(StrWriterMut::from_custom(buf, cursor).$method(x))
        }

        #[inline(never)]
        fn $count(total: &mut usize, x: $type) -> u8 {
            let mut c = ComputeStrLength::new();
            c.add_len(*total);
            let answer = c.make_formatter(flags_of(0)).$method(x);
            *total = c.len();
            number(answer)
        }
    };
    (flags $write:ident, $count:ident, $method:ident, $type:ty) => {
        #[inline(never)]
        fn $write(buf: &mut [u8], cursor: &mut usize, x: $type, flags: u64) -> u8 {
            number(StrWriterMut::from_custom(buf, cursor).$method(x, flags_of(flags)))
        }

        #[inline(never)]
        fn $count(total: &mut usize, x: $type, flags: u64) -> u8 {
            let mut c = ComputeStrLength::new();
            c.add_len(*total);
            let answer = c.make_formatter(flags_of(flags)).$method(x);
            *total = c.len();
            number(answer)
        }
    };
}

theirs!(write_u64_display, count_u64_display, write_u64_display, u64);
theirs!(write_i64_display, count_i64_display, write_i64_display, i64);
theirs!(flags write_u64_debug, count_u64_debug, write_u64_debug, u64);
theirs!(write_str, count_str, write_str, &str);
theirs!(write_str_debug, count_str_debug, write_str_debug, &str);
theirs!(write_char, count_char, write_char, char);
theirs!(write_char_debug, count_char_debug, write_char_debug, char);

/// The rows of a single value: written at cursor 3 of a buffer, and counted.
macro_rules! single {
    ($name:expr, $write:ident, $count:ident, $x:expr, $ours:expr $(, $flags:expr)?) => {{
        let mut buf = vec![0u8; 512];
        let mut same = buf.clone();
        let x = $x;
        row(
            concat!($name, ", written"),
            || {
                let mut cursor = 3;
                library::$write(black_box(&mut buf), &mut cursor, $ours(black_box(x)) $(, black_box($flags))?)
            },
            || {
                let mut cursor = 3;
                $write(black_box(&mut same), &mut cursor, black_box(x) $(, black_box($flags))?)
            },
        );
        row(
            concat!($name, ", counted"),
            || {
                let mut total = 3;
                library::$count(&mut total, $ours(black_box(x)) $(, black_box($flags))?)
            },
            || {
                let mut total = 3;
                $count(&mut total, black_box(x) $(, black_box($flags))?)
            },
        );
    }};
}

/// The rows of a quoted string.
macro_rules! quoted {
    ($name:expr, $s:expr) => {
        single!(
            $name,
            write_str_debug,
            count_str_debug,
            $s,
            |s: &'static str| s.as_bytes()
        )
    };
}

/// The row of a quoted string of 256 bytes, 8 of them escaped by a letter, that is refused: written at
/// cursor 3 of a buffer one byte too short for it.
fn refused(s: &'static str) {
    let mut buf = vec![0u8; 3 + s.len() + 8 + 1];
    let mut same = buf.clone();
    row(
        "quoted string of 256 bytes, 8 escapes, refused",
        || {
            let mut cursor = 3;
            library::write_str_debug(black_box(&mut buf), &mut cursor, black_box(s).as_bytes()) - 1
        },
        || {
            let mut cursor = 3;
            write_str_debug(black_box(&mut same), &mut cursor, black_box(s)) - 1
        },
    );
}

/// A panel with its cuts: names and values are data on both sides.
struct Panel {
    names: [&'static str; 9],
    id: u64,
    name: &'static str,
    cuts: [(i32, u16); 3],
    end: u8,
    ok: u8,
}

const PANEL: Panel = Panel {
    names: [
        "Panel", "id", "name", "cuts", "Cut", "x", "y", "end", "marks",
    ],
    id: 7,
    name: "jib",
    cuts: [(1000, 20), (-350, 4000), (12, 65535)],
    end: 1,
    ok: 0,
};

/// `Panel { id: 7, name: "jib", cuts: [Cut { x: .., y: .. }, ..], end: (1, 0), marks: {} }`
fn play_panel(f: &mut Formatter<'_>, p: &Panel) -> u8 {
    let n = &p.names;
    let mut first = 0;
    let mut keep = |answer| first = if first == 0 { number(answer) } else { first };
    let mut s = f.debug_struct(n[0]);
    keep(s.field(n[1]).write_u64_debug(p.id));
    keep(s.field(n[2]).write_str_debug(p.name));
    let mut list = s.field(n[3]).debug_list();
    for (x, y) in &p.cuts {
        let mut cut = list.entry().debug_struct(n[4]);
        keep(cut.field(n[5]).write_i32_debug(*x));
        keep(cut.field(n[6]).write_u16_debug(*y));
        keep(cut.finish());
    }
    keep(list.finish());
    let mut end = s.field(n[7]).debug_tuple("");
    keep(end.field().write_u8_debug(p.end));
    keep(end.field().write_u8_debug(p.ok));
    keep(end.finish());
    keep(s.field(n[8]).debug_set().finish());
    keep(s.finish());
    first
}

#[inline(never)]
fn count_panel(flags: u64, p: &Panel, total: &mut usize) -> u8 {
    let mut c = ComputeStrLength::new();
    let first = play_panel(&mut c.make_formatter(flags_of(flags)), p);
    *total = c.len();
    first
}

#[inline(never)]
fn write_panel(flags: u64, p: &Panel, buf: &mut [u8], cursor: &mut usize) -> u8 {
    play_panel(
        &mut StrWriterMut::from_custom(buf, cursor).make_formatter(flags_of(flags)),
        p,
    )
}

fn open(kind: u64, name: &str) -> Call {
    Call::Open(kind, name.to_string())
}

fn field(name: &str) -> Call {
    Call::Field(name.to_string())
}

fn unsigned(n: u64, width: u64) -> Call {
    Call::Value(Value::Unsigned {
        debug: true,
        width,
        n,
    })
}

fn panel_calls(p: &Panel) -> Vec<Call> {
    let n = &p.names;
    let quoted = Value::Str {
        debug: true,
        s: p.name.to_string(),
        start: 0,
        end: p.name.len() as u64,
    };
    let mut run = vec![
        open(0, n[0]),
        field(n[1]),
        unsigned(p.id, 3),
        field(n[2]),
        Call::Value(quoted),
    ];
    run.extend([field(n[3]), open(2, "")]);
    for (x, y) in &p.cuts {
        run.extend([Call::Entry, open(0, n[4]), field(n[5])]);
        run.push(Call::Value(Value::Signed {
            debug: true,
            width: 2,
            x: *x as i64,
        }));
        run.extend([field(n[6]), unsigned(*y as u64, 1), Call::Finish]);
    }
    run.extend([
        Call::Finish,
        field(n[7]),
        open(1, ""),
        Call::Item,
        unsigned(p.end as u64, 0),
    ]);
    run.extend([
        Call::Item,
        unsigned(p.ok as u64, 0),
        Call::Finish,
        field(n[8]),
        open(3, ""),
        Call::Finish,
        Call::Finish,
    ]);
    run
}

/// `P { x: 7 }`
fn play_small(f: &mut Formatter<'_>, names: (&str, &str), x: u8) -> u8 {
    let mut s = f.debug_struct(names.0);
    let value = number(s.field(names.1).write_u8_debug(x));
    let end = number(s.finish());
    if value == 0 {
        end
    } else {
        value
    }
}

#[inline(never)]
fn count_small(flags: u64, names: (&str, &str), x: u8, total: &mut usize) -> u8 {
    let mut c = ComputeStrLength::new();
    let first = play_small(&mut c.make_formatter(flags_of(flags)), names, x);
    *total = c.len();
    first
}

#[inline(never)]
fn write_small(flags: u64, names: (&str, &str), x: u8, buf: &mut [u8], cursor: &mut usize) -> u8 {
    play_small(
        &mut StrWriterMut::from_custom(buf, cursor).make_formatter(flags_of(flags)),
        names,
        x,
    )
}

fn runs() {
    let panel = Encoded::new(&panel_calls(&PANEL));
    let calls = panel.calls.len() / 5;
    let small = Encoded::new(&[open(0, "P"), field("x"), unsigned(7, 0), Call::Finish]);
    let mut buf = vec![0u8; 2048];
    let mut same = buf.clone();
    for flags in [0, 1] {
        let form = if flags == 0 { "plain" } else { "alternate" };
        let ours = library::write(flags, &panel.calls, &panel.text, &mut buf, 0);
        let mut cursor = 0;
        assert_eq!(
            (write_panel(flags, &PANEL, &mut same, &mut cursor), cursor),
            ours
        );
        assert_eq!(buf, same);
        row(
            &format!("`P {{ x: 7 }}`, {form}, written"),
            || {
                library::write(
                    black_box(flags),
                    black_box(&small.calls),
                    black_box(&small.text),
                    &mut buf,
                    0,
                )
                .0
            },
            || {
                write_small(
                    black_box(flags),
                    black_box(("P", "x")),
                    black_box(7),
                    &mut same,
                    black_box(&mut 0),
                )
            },
        );
        row(
            &format!("`P {{ x: 7 }}`, {form}, counted"),
            || {
                library::count(
                    black_box(flags),
                    black_box(&small.calls),
                    black_box(&small.text),
                )
                .0
            },
            || {
                count_small(
                    black_box(flags),
                    black_box(("P", "x")),
                    black_box(7),
                    black_box(&mut 0),
                )
            },
        );
        row(
            &format!(
                "panel record of {calls} calls, {} bytes, {form}, written",
                ours.1
            ),
            || {
                library::write(
                    black_box(flags),
                    black_box(&panel.calls),
                    black_box(&panel.text),
                    &mut buf,
                    0,
                )
                .0
            },
            || {
                write_panel(
                    black_box(flags),
                    black_box(&PANEL),
                    &mut same,
                    black_box(&mut 0),
                )
            },
        );
        row(
            &format!(
                "panel record of {calls} calls, {} bytes, {form}, counted",
                ours.1
            ),
            || {
                library::count(
                    black_box(flags),
                    black_box(&panel.calls),
                    black_box(&panel.text),
                )
                .0
            },
            || count_panel(black_box(flags), black_box(&PANEL), black_box(&mut 0)),
        );
    }
}

/// Ours alone: nanoseconds by the length of a text, by the depth and by the buffer.
fn growth() {
    if !ours_alone() {
        println!("\n| ours | written | counted |\n|---|---|---|");
    }
    let measure = |name: &str, run: &[Call], size: usize, per: f64| {
        let words = Encoded::new(run);
        let mut buf = vec![0u8; size];
        let mut write = |n| {
            for _ in 0..n {
                let flags = black_box(0);
                let r = library::write(
                    flags,
                    black_box(&words.calls),
                    black_box(&words.text),
                    &mut buf,
                    0,
                );
                assert_eq!(r.0, 0);
            }
        };
        let mut count = |n| {
            for _ in 0..n {
                assert_eq!(
                    library::count(
                        black_box(0),
                        black_box(&words.calls),
                        black_box(&words.text)
                    )
                    .0,
                    0
                );
            }
        };
        if ours_alone() {
            figure(&format!("{name}, written"), per, &mut write);
            return figure(&format!("{name}, counted"), per, &mut count);
        }
        let (mut a, mut b) = (f64::MAX, f64::MAX);
        for _ in 0..ROUNDS {
            a = a.min(round(2000, &mut write));
            b = b.min(round(2000, &mut count));
        }
        println!("| {name} | {:.1} | {:.1} |", a / per, b / per);
    };
    for n in [0usize, 8, 16, 64, 256, 1024, 4096] {
        for debug in [false, true] {
            let form = if debug { "quoted string" } else { "string" };
            let s = "m".repeat(n);
            let v = Call::Value(Value::Str {
                debug,
                s,
                start: 0,
                end: n as u64,
            });
            measure(&format!("{form} of {n} bytes"), &[v], 8192, 1.0);
        }
    }
    for depth in [1, 4, 16, 64] {
        let mut run: Vec<Call> = (0..depth)
            .flat_map(|_| [open(2, ""), Call::Entry])
            .collect();
        run.extend((0..depth).map(|_| Call::Finish));
        let per = run.len() as f64;
        measure(
            &format!("{depth} lists in one another, plain, a call"),
            &run,
            8192,
            per,
        );
    }
    for size in [16, 256, 4096, 65536, 1048576] {
        let run = [open(0, "P"), field("x"), unsigned(7, 0), Call::Finish];
        measure(
            &format!("`P {{ x: 7 }}` into a buffer of {size} bytes"),
            &run,
            size,
            1.0,
        );
    }
}

fn main() {
    if !ours_alone() {
        println!("| | here | const_format | ratio |\n|---|---|---|---|");
    }
    let same = |x| x;
    single!(
        "u64 of 1 digit",
        write_u64_display,
        count_u64_display,
        7,
        same
    );
    single!(
        "u64 of 5 digits",
        write_u64_display,
        count_u64_display,
        65535,
        same
    );
    single!(
        "u64 of 20 digits",
        write_u64_display,
        count_u64_display,
        u64::MAX,
        same
    );
    single!(
        "u64 of 16 digits, hexadecimal alternate",
        write_u64_debug,
        count_u64_debug,
        0xFEDC_BA98_7654_3210,
        same,
        5
    );
    single!(
        "u64 of 64 digits, binary alternate",
        write_u64_debug,
        count_u64_debug,
        0xFEDC_BA98_7654_3210,
        same,
        9
    );
    single!(
        "the least i64",
        write_i64_display,
        count_i64_display,
        i64::MIN,
        |x: i64| x
    );
    let bytes = |s: &'static str| s.as_bytes();
    let long: &'static str = Box::leak("m".repeat(256).into_boxed_str());
    single!(
        "string of 32 bytes",
        write_str,
        count_str,
        &long[..32],
        bytes
    );
    single!("string of 256 bytes", write_str, count_str, long, bytes);
    let escapes = "mmmmmmmmmm\nmmmmmmmmmmmm\"mmmmmmmm";
    assert_eq!(escapes.len(), 32);
    quoted!("quoted string of 0 bytes", "");
    quoted!("quoted string of 8 bytes, no escape", &long[..8]);
    quoted!("quoted string of 8 bytes, 1 escape", "mmm\"mmmm");
    quoted!("quoted string of 32 bytes, 2 escapes", escapes);
    quoted!("quoted string of 256 bytes, no escape", long);
    let some = Box::leak(format!("{}\"", &long[..31]).repeat(8).into_boxed_str());
    quoted!("quoted string of 256 bytes, 8 escapes", &*some);
    refused(some);
    let code = |c: char| c as u32;
    single!("character of 1 byte", write_char, count_char, 'q', code);
    single!("character of 2 bytes", write_char, count_char, 'é', code);
    single!("character of 3 bytes", write_char, count_char, '≢', code);
    single!("character of 4 bytes", write_char, count_char, '𝄞', code);
    single!(
        "quoted character of 2 bytes",
        write_char_debug,
        count_char_debug,
        'é',
        code
    );
    runs();
    growth();
}
