//! Runs by chance, and places for them.

use crate::calls::{greatest, Call, Value};

/// xorshift64*
pub struct Random(pub u64);

impl Random {
    pub fn next(&mut self) -> u64 {
        self.0 ^= self.0 << 13;
        self.0 ^= self.0 >> 7;
        self.0 ^= self.0 << 17;
        self.0.wrapping_mul(0x2545_F491_4F6C_DD1D)
    }

    pub fn below(&mut self, n: u64) -> u64 {
        (self.next() >> 11) % n
    }
}

fn random_text(r: &mut Random, most: u64) -> String {
    const CHARS: [char; 16] = [
        'a', 'z', '"', '\'', '\\', '\n', '\t', '\r', '\x01', '\x1f', ' ', '\x7f', 'é', '≢', '𝄞',
        'B',
    ];
    let plain = r.below(3) == 0;
    let n = r.below(most + 1);
    (0..n)
        .map(|i| {
            if plain && i > 0 && i + 1 < n {
                'm'
            } else {
                CHARS[r.below(16) as usize]
            }
        })
        .collect()
}

fn random_value(r: &mut Random, longest: u64) -> Value {
    let debug = r.below(2) == 0;
    let width = r.below(4);
    match r.below(8) {
        0 | 1 => {
            let n = match r.below(4) {
                0 => r.below(12),
                1 => u64::MAX,
                2 => 10u64.pow(r.below(20) as u32),
                _ => r.next() >> r.below(64),
            };
            Value::Unsigned {
                debug,
                width,
                n: n & greatest(width),
            }
        }
        2 | 3 => {
            let most = (greatest(width) >> 1) as i64;
            let x = match r.below(4) {
                0 => i64::MIN,
                1 => i64::MAX,
                2 => r.below(21) as i64 - 10,
                _ => r.next() as i64 >> r.below(64),
            };
            Value::Signed {
                debug,
                width,
                x: x.clamp(-most - 1, most),
            }
        }
        4 => Value::Char {
            debug,
            c: random_text(r, 3).chars().next().unwrap_or('q'),
        },
        5 | 6 => {
            let most = if r.below(20) == 0 { longest } else { 8 };
            let s = random_text(r, most);
            let n = s.len() as u64;
            let (start, end) = if r.below(3) == 0 {
                (0, n)
            } else {
                (r.below(n / 2 + 4), r.below(n + 6))
            };
            if r.below(4) == 0 {
                let s: Vec<u8> = s.bytes().filter(u8::is_ascii).collect();
                Value::Ascii {
                    debug,
                    s,
                    start,
                    end,
                }
            } else {
                Value::Str {
                    debug,
                    s,
                    start,
                    end,
                }
            }
        }
        _ => Value::Repeated {
            byte: r.next() as u8,
            times: r.below(6),
        },
    }
}

/// Values and entries in one another. `chain` makes few at each level and goes deep.
fn random_calls(r: &mut Random, run: &mut Vec<Call>, depth: u64, chain: bool, longest: u64) {
    if depth == 0 || (!chain && r.below(3) == 0) {
        run.push(Call::Value(random_value(r, longest)));
        return;
    }
    if r.below(6) == 0 {
        run.push(Call::Sub(r.below(12)));
        for _ in 0..if chain { 1 } else { r.below(3) } {
            random_calls(r, run, depth - 1, chain, longest);
        }
        run.push(Call::EndSub);
        return;
    }
    let kind = r.below(4);
    let name = if kind < 2 {
        random_text(r, 8)
    } else {
        String::new()
    };
    run.push(Call::Open(kind, name));
    let fields = if chain { 1 } else { r.below(4) };
    for _ in 0..fields {
        run.push(match kind {
            0 => Call::Field(random_text(r, 8)),
            1 => Call::Item,
            _ => Call::Entry,
        });
        for _ in 0..if chain { 1 } else { r.below(3) } {
            random_calls(r, run, depth - 1, chain, longest);
        }
    }
    run.push(Call::Finish);
}

pub fn random_run(r: &mut Random, longest: u64) -> Vec<Call> {
    let mut run = Vec::new();
    if r.below(10) == 0 {
        let depth = 1 + r.below(64);
        random_calls(r, &mut run, depth, true, longest);
    } else {
        for _ in 0..1 + r.below(2) {
            random_calls(r, &mut run, 3, false, longest);
        }
    }
    run
}

/// A cursor and a buffer size at or around what a text of n bytes needs.
pub fn random_place(r: &mut Random, n: usize) -> (usize, usize) {
    let at = r.below(5) as usize;
    let full = at + n;
    let size = match r.below(4) {
        0 => full,
        1 => full.max(at + 1) - 1,
        2 => full + 1,
        _ => at + r.below(n as u64 + 2) as usize,
    };
    (size, at)
}
