//! Single calls of our library by a value, and the numbers that are tried.

use crate::calls::{greatest, Value};
use crate::library;

/// A single write of our library.
pub fn single(v: &Value, flags: u64, b: &mut [u8], at: usize) -> (u8, usize) {
    use library::*;
    let mut c = at;
    let answer = match *v {
        Value::Unsigned { debug, width, n } => write_unsigned(b, &mut c, (debug, width), n, flags),
        Value::Signed { debug, width, x } => write_signed(b, &mut c, (debug, width), x, flags),
        Value::Char {
            debug: false,
            c: code,
        } => write_char(b, &mut c, code as u32),
        Value::Char { c: code, .. } => write_char_debug(b, &mut c, code as u32),
        Value::Str {
            debug,
            ref s,
            start,
            end,
        } => {
            let whole = start == 0 && end == s.len() as u64;
            let (s, start, end) = (s.as_bytes(), start as usize, end as usize);
            match (debug, whole) {
                (false, false) => write_str_range(b, &mut c, s, start, end),
                (false, true) => write_str(b, &mut c, s),
                (true, false) => write_str_range_debug(b, &mut c, s, start, end),
                (true, true) => write_str_debug(b, &mut c, s),
            }
        }
        Value::Ascii {
            debug,
            ref s,
            start,
            end,
        } => {
            let whole = start == 0 && end == s.len() as u64;
            let (start, end) = (start as usize, end as usize);
            match (debug, whole) {
                (false, false) => write_ascii_range(b, &mut c, s, start, end),
                (false, true) => write_ascii(b, &mut c, s),
                (true, false) => write_ascii_range_debug(b, &mut c, s, start, end),
                (true, true) => write_ascii_debug(b, &mut c, s),
            }
        }
        Value::Repeated { byte, times } => write_ascii_repeated(b, &mut c, byte, times as usize),
    };
    (answer, c)
}

/// A single count of our library, where it has one.
pub fn single_count(v: &Value, flags: u64) -> Option<(u8, usize)> {
    use library::*;
    let mut t = 0;
    let answer = match *v {
        Value::Unsigned { debug, width, n } => count_unsigned(&mut t, (debug, width), n, flags),
        Value::Signed { debug, width, x } => count_signed(&mut t, (debug, width), x, flags),
        Value::Char { debug: false, c } => count_char(&mut t, c as u32),
        Value::Char { debug: true, c } => count_char_debug(&mut t, c as u32),
        Value::Str {
            debug,
            ref s,
            start: 0,
            end,
        } if end == s.len() as u64 => {
            if debug {
                count_str_debug(&mut t, s.as_bytes())
            } else {
                count_str(&mut t, s.as_bytes())
            }
        }
        _ => return None,
    };
    Some((answer, t))
}

fn write_unsigned(b: &mut [u8], c: &mut usize, form: (bool, u64), n: u64, flags: u64) -> u8 {
    use library::*;
    match form {
        (false, 0) => write_u8_display(b, c, n as u8),
        (false, 1) => write_u16_display(b, c, n as u16),
        (false, 2) => write_u32_display(b, c, n as u32),
        (false, _) => write_u64_display(b, c, n),
        (true, 0) => write_u8_debug(b, c, n as u8, flags),
        (true, 1) => write_u16_debug(b, c, n as u16, flags),
        (true, 2) => write_u32_debug(b, c, n as u32, flags),
        (true, _) => write_u64_debug(b, c, n, flags),
    }
}

fn write_signed(b: &mut [u8], c: &mut usize, form: (bool, u64), x: i64, flags: u64) -> u8 {
    use library::*;
    match form {
        (false, 0) => write_i8_display(b, c, x as i8),
        (false, 1) => write_i16_display(b, c, x as i16),
        (false, 2) => write_i32_display(b, c, x as i32),
        (false, _) => write_i64_display(b, c, x),
        (true, 0) => write_i8_debug(b, c, x as i8, flags),
        (true, 1) => write_i16_debug(b, c, x as i16, flags),
        (true, 2) => write_i32_debug(b, c, x as i32, flags),
        (true, _) => write_i64_debug(b, c, x, flags),
    }
}

fn count_unsigned(t: &mut usize, form: (bool, u64), n: u64, flags: u64) -> u8 {
    use library::*;
    match form {
        (false, 0) => count_u8_display(t, n as u8),
        (false, 1) => count_u16_display(t, n as u16),
        (false, 2) => count_u32_display(t, n as u32),
        (false, _) => count_u64_display(t, n),
        (true, 0) => count_u8_debug(t, n as u8, flags),
        (true, 1) => count_u16_debug(t, n as u16, flags),
        (true, 2) => count_u32_debug(t, n as u32, flags),
        (true, _) => count_u64_debug(t, n, flags),
    }
}

fn count_signed(t: &mut usize, form: (bool, u64), x: i64, flags: u64) -> u8 {
    use library::*;
    match form {
        (false, 0) => count_i8_display(t, x as i8),
        (false, 1) => count_i16_display(t, x as i16),
        (false, 2) => count_i32_display(t, x as i32),
        (false, _) => count_i64_display(t, x),
        (true, 0) => count_i8_debug(t, x as i8, flags),
        (true, 1) => count_i16_debug(t, x as i16, flags),
        (true, 2) => count_i32_debug(t, x as i32, flags),
        (true, _) => count_i64_debug(t, x, flags),
    }
}

/// An integer of a width as our library takes it apart.
pub fn to_integer(is_signed: bool, width: u64, n: u64) -> library::Integer {
    use library::*;
    match (is_signed, width) {
        (false, 0) => to_integer_u8(n as u8),
        (false, 1) => to_integer_u16(n as u16),
        (false, 2) => to_integer_u32(n as u32),
        (false, _) => to_integer_u64(n),
        (true, 0) => to_integer_i8(n as i8),
        (true, 1) => to_integer_i16(n as i16),
        (true, 2) => to_integer_i32(n as i32),
        (true, _) => to_integer_i64(n as i64),
    }
}

/// Every number of 8 bits, and the edges of the wider types.
pub fn edges(width: u64) -> Vec<u64> {
    let most = greatest(width);
    let mut numbers: Vec<u64> = if width == 0 {
        (0..256).collect()
    } else {
        Vec::new()
    };
    for k in 0..20 {
        let p = 10u64.pow(k);
        numbers.extend([p - 1, p, p.saturating_add(1)]);
    }
    for k in 0..64 {
        let p = 1u64 << k;
        numbers.extend([p - 1, p, p + 1, most ^ p, most - (p - 1).min(most)]);
    }
    numbers.push(u64::MAX);
    numbers.retain(|n| *n <= most);
    numbers.sort();
    numbers.dedup();
    numbers
}

/// The signed number of a width that has the bits of n.
pub fn signed(width: u64, n: u64) -> i64 {
    let shift = 64 - (8 << width);
    (n << shift) as i64 >> shift
}
