//! The functions of libtable_text.a and libsingle_writes.a, declared once, and a run as they take it.
#![allow(dead_code)]

#[path = "../client/src/ffi.rs"]
mod ffi;

use ffi::{table_text_count, table_text_count_each, table_text_write, table_text_write_each};

/// The first refusal and the total of a run of words.
pub fn count(flags: u64, calls: &[u64], text: &[u8]) -> (u8, usize) {
    let mut total = 77;
    let first = unsafe {
        table_text_count(
            flags,
            calls.as_ptr(),
            calls.len(),
            text.as_ptr(),
            text.len(),
            &mut total,
        )
    };
    (first, total)
}

/// The first refusal and the cursor of a run of words.
pub fn write(flags: u64, calls: &[u64], text: &[u8], buf: &mut [u8], at: usize) -> (u8, usize) {
    let mut cursor = at;
    let first = unsafe {
        table_text_write(
            flags,
            buf.as_mut_ptr(),
            buf.len(),
            &mut cursor,
            calls.as_ptr(),
            calls.len(),
            text.as_ptr(),
            text.len(),
        )
    };
    (first, cursor)
}

/// What a run of words gave: the first refusal, the total or the cursor, the entries that are open,
/// and the places for answers, which had `UNTOUCHED` before.
#[derive(Clone, Debug, PartialEq)]
pub struct Each {
    pub first: u8,
    pub number: usize,
    pub open: usize,
    pub answers: Vec<u8>,
}

pub const UNTOUCHED: u8 = 0xEE;

/// A run of words counted, with room for so many answers.
pub fn count_each(flags: u64, calls: &[u64], text: &[u8], room: usize) -> Each {
    let (mut number, mut open, mut answers) = (77, 99, vec![UNTOUCHED; room]);
    let first = unsafe {
        table_text_count_each(
            flags,
            calls.as_ptr(),
            calls.len(),
            text.as_ptr(),
            text.len(),
            &mut number,
            &mut open,
            answers.as_mut_ptr(),
            room,
        )
    };
    Each {
        first,
        number,
        open,
        answers,
    }
}

/// A run of words written from a cursor, with room for so many answers.
pub fn write_each(
    flags: u64,
    calls: &[u64],
    text: &[u8],
    buf: &mut [u8],
    at: usize,
    room: usize,
) -> Each {
    let (mut number, mut open, mut answers) = (at, 99, vec![UNTOUCHED; room]);
    let first = unsafe {
        table_text_write_each(
            flags,
            buf.as_mut_ptr(),
            buf.len(),
            &mut number,
            calls.as_ptr(),
            calls.len(),
            text.as_ptr(),
            text.len(),
            &mut open,
            answers.as_mut_ptr(),
            room,
        )
    };
    Each {
        first,
        number,
        open,
        answers,
    }
}

macro_rules! single_writes {
    ($($name:ident($($arg:ident: $type:ty),*) as $export:ident;)*) => {
        extern "C" {
            $(fn $export(buf: *mut u8, buf_len: usize, cursor: *mut usize, $($arg: $type),*) -> u8;)*
        }
        $(
            #[inline(always)]
            pub fn $name(buf: &mut [u8], cursor: &mut usize, $($arg: $type),*) -> u8 {
                unsafe { $export(buf.as_mut_ptr(), buf.len(), cursor, $($arg),*) }
            }
        )*
    };
}

single_writes! {
    write_ascii_repeated(c: u8, n: usize) as single_write_ascii_repeated;
    write_char(c: u32) as single_write_char;
    write_char_debug(c: u32) as single_write_char_debug;
    write_u8_display(x: u8) as single_write_u8_display;
    write_u16_display(x: u16) as single_write_u16_display;
    write_u32_display(x: u32) as single_write_u32_display;
    write_u64_display(x: u64) as single_write_u64_display;
    write_i8_display(x: i8) as single_write_i8_display;
    write_i16_display(x: i16) as single_write_i16_display;
    write_i32_display(x: i32) as single_write_i32_display;
    write_i64_display(x: i64) as single_write_i64_display;
    write_u8_debug(x: u8, flags: u64) as single_write_u8_debug;
    write_u16_debug(x: u16, flags: u64) as single_write_u16_debug;
    write_u32_debug(x: u32, flags: u64) as single_write_u32_debug;
    write_u64_debug(x: u64, flags: u64) as single_write_u64_debug;
    write_i8_debug(x: i8, flags: u64) as single_write_i8_debug;
    write_i16_debug(x: i16, flags: u64) as single_write_i16_debug;
    write_i32_debug(x: i32, flags: u64) as single_write_i32_debug;
    write_i64_debug(x: i64, flags: u64) as single_write_i64_debug;
}

macro_rules! single_texts {
    ($($name:ident($($arg:ident),*) as $export:ident;)*) => {
        extern "C" {
            $(fn $export(buf: *mut u8, buf_len: usize, cursor: *mut usize, s: *const u8, len: usize, $($arg: usize),*) -> u8;)*
        }
        $(
            #[inline(always)]
            pub fn $name(buf: &mut [u8], cursor: &mut usize, s: &[u8], $($arg: usize),*) -> u8 {
                unsafe { $export(buf.as_mut_ptr(), buf.len(), cursor, s.as_ptr(), s.len(), $($arg),*) }
            }
        )*
    };
}

single_texts! {
    write_str() as single_write_str;
    write_str_range(start, end) as single_write_str_range;
    write_str_debug() as single_write_str_debug;
    write_str_range_debug(start, end) as single_write_str_range_debug;
    write_ascii() as single_write_ascii;
    write_ascii_range(start, end) as single_write_ascii_range;
    write_ascii_debug() as single_write_ascii_debug;
    write_ascii_range_debug(start, end) as single_write_ascii_range_debug;
}

extern "C" {
    fn single_truncate(buf: *const u8, buf_len: usize, cursor: *mut usize, length: usize) -> u8;
    fn single_truncate_utf8(
        buf: *const u8,
        buf_len: usize,
        cursor: *mut usize,
        length: usize,
    ) -> u8;
    fn single_count_str(total: *mut usize, s: *const u8, len: usize) -> u8;
    fn single_count_str_debug(total: *mut usize, s: *const u8, len: usize) -> u8;
}

pub fn truncate(buf: &[u8], cursor: &mut usize, length: usize) -> u8 {
    unsafe { single_truncate(buf.as_ptr(), buf.len(), cursor, length) }
}

pub fn truncate_utf8(buf: &[u8], cursor: &mut usize, length: usize) -> u8 {
    unsafe { single_truncate_utf8(buf.as_ptr(), buf.len(), cursor, length) }
}

macro_rules! single_counts {
    ($($name:ident($($arg:ident: $type:ty),*) as $export:ident;)*) => {
        extern "C" {
            $(fn $export(total: *mut usize, $($arg: $type),*) -> u8;)*
        }
        $(
            #[inline(always)]
            pub fn $name(total: &mut usize, $($arg: $type),*) -> u8 {
                unsafe { $export(total, $($arg),*) }
            }
        )*
    };
}

single_counts! {
    count_char(c: u32) as single_count_char;
    count_char_debug(c: u32) as single_count_char_debug;
    count_u8_display(x: u8) as single_count_u8_display;
    count_u16_display(x: u16) as single_count_u16_display;
    count_u32_display(x: u32) as single_count_u32_display;
    count_u64_display(x: u64) as single_count_u64_display;
    count_i8_display(x: i8) as single_count_i8_display;
    count_i16_display(x: i16) as single_count_i16_display;
    count_i32_display(x: i32) as single_count_i32_display;
    count_i64_display(x: i64) as single_count_i64_display;
    count_u8_debug(x: u8, flags: u64) as single_count_u8_debug;
    count_u16_debug(x: u16, flags: u64) as single_count_u16_debug;
    count_u32_debug(x: u32, flags: u64) as single_count_u32_debug;
    count_u64_debug(x: u64, flags: u64) as single_count_u64_debug;
    count_i8_debug(x: i8, flags: u64) as single_count_i8_debug;
    count_i16_debug(x: i16, flags: u64) as single_count_i16_debug;
    count_i32_debug(x: i32, flags: u64) as single_count_i32_debug;
    count_i64_debug(x: i64, flags: u64) as single_count_i64_debug;
}

#[inline(always)]
pub fn count_str(total: &mut usize, s: &[u8]) -> u8 {
    unsafe { single_count_str(total, s.as_ptr(), s.len()) }
}

#[inline(always)]
pub fn count_str_debug(total: &mut usize, s: &[u8]) -> u8 {
    unsafe { single_count_str_debug(total, s.as_ptr(), s.len()) }
}

/// An integer's sign, absolute value and mask.
#[derive(Clone, Copy, Debug, PartialEq)]
pub struct Integer {
    pub is_negative: bool,
    pub unsigned: u64,
    pub mask: u64,
}

macro_rules! to_integers {
    ($($name:ident($type:ty) as $export:ident;)*) => {
        extern "C" {
            $(fn $export(x: $type, unsigned: *mut u64, mask: *mut u64) -> bool;)*
        }
        $(
            pub fn $name(x: $type) -> Integer {
                let (mut unsigned, mut mask) = (77, 77);
                let is_negative = unsafe { $export(x, &mut unsigned, &mut mask) };
                Integer { is_negative, unsigned, mask }
            }
        )*
    };
}

to_integers! {
    to_integer_u8(u8) as single_to_integer_u8;
    to_integer_u16(u16) as single_to_integer_u16;
    to_integer_u32(u32) as single_to_integer_u32;
    to_integer_u64(u64) as single_to_integer_u64;
    to_integer_i8(i8) as single_to_integer_i8;
    to_integer_i16(i16) as single_to_integer_i16;
    to_integer_i32(i32) as single_to_integer_i32;
    to_integer_i64(i64) as single_to_integer_i64;
}

extern "C" {
    fn single_integer_binary(
        is_negative: bool,
        unsigned: u64,
        mask: u64,
        flags: u64,
        start: *mut usize,
        array: *mut [u8; 66],
    ) -> u8;
    fn single_integer_hexadecimal(
        is_negative: bool,
        unsigned: u64,
        mask: u64,
        flags: u64,
        start: *mut usize,
        array: *mut [u8; 18],
    ) -> u8;
    fn single_integer_display(
        is_negative: bool,
        unsigned: u64,
        mask: u64,
        array: *mut [u8; 21],
    ) -> usize;
}

/// The answer, and the place and the array as they were left.
pub fn integer_binary(i: Integer, flags: u64) -> (u8, usize, [u8; 66]) {
    let (mut start, mut array) = (77, [UNTOUCHED; 66]);
    let (s, a) = (&mut start, &mut array);
    let answer = unsafe { single_integer_binary(i.is_negative, i.unsigned, i.mask, flags, s, a) };
    (answer, start, array)
}

pub fn integer_hexadecimal(i: Integer, flags: u64) -> (u8, usize, [u8; 18]) {
    let (mut start, mut array) = (77, [UNTOUCHED; 18]);
    let (s, a) = (&mut start, &mut array);
    let answer =
        unsafe { single_integer_hexadecimal(i.is_negative, i.unsigned, i.mask, flags, s, a) };
    (answer, start, array)
}

pub fn integer_display(i: Integer) -> (usize, [u8; 21]) {
    let mut array = [UNTOUCHED; 21];
    let start = unsafe { single_integer_display(i.is_negative, i.unsigned, i.mask, &mut array) };
    (start, array)
}
