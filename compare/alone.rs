//! Our libraries alone, on what no Rust caller can make.

use crate::calls::{Encoded, Value};
use crate::contents;
use crate::library::{self, Each, UNTOUCHED};
use crate::random::{random_run, Random};
use crate::single::*;

/// Words that are no run of a Rust caller.
fn damaged_words(r: &mut Random) -> Encoded {
    let run = random_run(r, 40);
    let mut words = Encoded::new(&run);
    for _ in 0..1 + r.below(4) {
        let value = match r.below(6) {
            0 => r.next(),
            1 => u64::MAX,
            2 => 1 << r.below(64),
            _ => r.below(24),
        };
        let i = r.below(words.calls.len() as u64) as usize;
        words.calls[i] = value;
        if !words.text.is_empty() {
            let i = r.below(words.text.len() as u64) as usize;
            words.text[i] = r.next() as u8;
        }
    }
    if r.below(4) == 0 {
        let n = words.calls.len() - r.below(5) as usize;
        words.calls.truncate(n);
    }
    words
}

/// Whether the answers of a run that was played are its own: one to each call, the first refusal the
/// first of them, and as many entries open as were opened and not closed.
fn consistent(e: &Each, calls: &[u64]) -> bool {
    let n = calls.len() / 5;
    let mut open = 0;
    for (words, answer) in calls.chunks_exact(5).zip(&e.answers) {
        open += match (words[0], *answer) {
            (0..=3 | 8, 0) => 1,
            (7, 0..=7) | (9, 0) => -1,
            _ => 0,
        };
    }
    let first = e.answers[..n]
        .iter()
        .copied()
        .find(|a| *a != 0)
        .unwrap_or(0);
    e.answers[n..].iter().all(|a| *a == UNTOUCHED)
        && e.answers[..n].iter().all(|a| *a <= 9)
        && (e.first == first || n == 0 && e.first == 9)
        && e.open as i64 == open
        && e.open <= 64
}

/// Whether a shorter array took the first answers, and nothing else changed.
fn shorter(short: &Each, full: &Each) -> bool {
    let room = short.answers.len();
    (short.first, short.number, short.open) == (full.first, full.number, full.open)
        && short.answers[..] == full.answers[..room]
}

/// What our library gave of damaged words: counted and written, with room for all answers and two
/// more, and with less room; by the exports without answers; and the buffers.
struct Given {
    counted: [Each; 2],
    written: [Each; 2],
    plain: [(u8, usize); 2],
    buffers: [Vec<u8>; 3],
}

fn given(words: &Encoded, flags: u64, before: &[u8], at: usize, less: usize) -> Given {
    let Encoded { calls, text } = words;
    let rooms = [calls.len() / 5 + 2, less];
    let mut buffers = [before.to_vec(), before.to_vec(), before.to_vec()];
    let [b, c, d] = &mut buffers;
    Given {
        counted: rooms.map(|room| library::count_each(flags, calls, text, room)),
        written: [
            library::write_each(flags, calls, text, b, at, rooms[0]),
            library::write_each(flags, calls, text, c, at, rooms[1]),
        ],
        plain: [
            library::count(flags, calls, text),
            library::write(flags, calls, text, d, at),
        ],
        buffers,
    }
}

/// Whether what was given is right: answers of document 01, the cursor moved forward inside the
/// buffer over well-formed UTF-8, and no byte changed before where it was or from where it is on. A
/// cursor past the buffer is 9 throughout. Flags from 12 on are refused with 8, after 9, and nothing
/// is played.
fn right(g: &Given, calls: &[u64], flags: u64, before: &[u8], at: usize) -> bool {
    let ([counted, _], [written, _], bytes) = (&g.counted, &g.written, &g.buffers[0]);
    let n = calls.len() / 5;
    let past = at > before.len();
    let refused = |first, number| Each {
        first,
        number,
        open: 0,
        answers: vec![UNTOUCHED; n + 2],
    };
    if flags >= 12 {
        let first = if past { 9 } else { 8 };
        return *counted == refused(8, 0) && *written == refused(first, at) && bytes == before;
    }
    if !consistent(counted, calls) || !consistent(written, calls) {
        return false;
    }
    let cursor = written.number;
    if past {
        let nines = written.answers[..n].iter().all(|a| *a == 9);
        return written.first == 9 && nines && cursor == at && bytes == before;
    }
    at <= cursor
        && cursor <= before.len()
        && bytes[..at] == before[..at]
        && bytes[cursor..] == before[cursor..]
        && std::str::from_utf8(&bytes[at..cursor]).is_ok()
}

/// Damaged words, for our library alone: it answers and ends, and rightly; with less room the answers
/// are the first ones, and all exports agree. Gives how many were wrong.
pub fn damaged(r: &mut Random, count: u64) -> u64 {
    let mut bad = 0;
    for _ in 0..count {
        let words = damaged_words(r);
        let less = r.below(words.calls.len() as u64 / 5 + 3) as usize;
        let flags = match r.below(8) {
            0 => r.next(),
            1 => 12 + r.below(4),
            _ => r.below(12),
        };
        let before = contents(r.below(200) as usize);
        let at = r.below(before.len() as u64 + 3) as usize;
        let g = given(&words, flags, &before, at, less);
        let [counted, written] = [&g.counted, &g.written].map(|[e, _]| (e.first, e.number));
        let agree = g.plain == [counted, written]
            && [&g.counted, &g.written]
                .iter()
                .all(|[full, e]| shorter(e, full))
            && g.buffers.iter().all(|b| *b == g.buffers[0]);
        if !agree || !right(&g, &words.calls, flags, &before, at) {
            bad += 1;
            if bad < 20 {
                let e = (&g.counted, &g.written);
                println!(
                    "damaged: {flags} {at} {e:?} {:?} {:?}",
                    words.calls, words.text
                );
            }
        }
    }
    bad
}

/// Flags from 12 on for single calls with the number n of a width: 8, after 9, and nothing changes.
fn refused_alone(flags: u64, width: u64, n: u64, expect: &mut dyn FnMut(bool)) {
    let (debug, x) = (true, signed(width, n));
    for v in [
        Value::Unsigned { debug, width, n },
        Value::Signed { debug, width, x },
    ] {
        expect(single_count(&v, flags) == Some((8, 0)));
        for (size, at, answer) in [(0, 0, 8), (40, 3, 8), (40, 40, 8), (40, 41, 9), (0, 1, 9)] {
            let mut b = contents(size);
            expect(single(&v, flags, &mut b, at) == (answer, at) && b == contents(size));
        }
    }
    let i = to_integer(true, width, n);
    expect(library::integer_binary(i, flags) == (8, 77, [UNTOUCHED; 66]));
    expect(library::integer_hexadecimal(i, flags) == (8, 77, [UNTOUCHED; 18]));
}

/// The same for many flags and numbers, for our library alone. Gives how many calls were tried and
/// how many were wrong.
pub fn wrong_flags() -> (u64, u64) {
    let (mut tried, mut bad) = (0, 0);
    let mut expect = |fine: bool| {
        tried += 1;
        bad += !fine as u64;
    };
    let most = u64::MAX;
    for flags in [12, 13, 14, 15, 16, 24, 255, 256, 1 << 32, most - 3, most] {
        for width in 0..4 {
            for n in edges(width) {
                refused_alone(flags, width, n, &mut expect);
            }
        }
    }
    (tried, bad)
}
