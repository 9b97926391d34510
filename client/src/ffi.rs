//! The functions of libtable_text.a, as client/table_text.h declares them.

extern "C" {
    pub fn table_text_count(
        flags: u64,
        calls: *const u64,
        calls_len: usize,
        text: *const u8,
        text_len: usize,
        total: *mut usize,
    ) -> u8;
    pub fn table_text_write(
        flags: u64,
        buf: *mut u8,
        buf_len: usize,
        cursor: *mut usize,
        calls: *const u64,
        calls_len: usize,
        text: *const u8,
        text_len: usize,
    ) -> u8;
    pub fn table_text_count_each(
        flags: u64,
        calls: *const u64,
        calls_len: usize,
        text: *const u8,
        text_len: usize,
        total: *mut usize,
        open: *mut usize,
        answers: *mut u8,
        answers_len: usize,
    ) -> u8;
    pub fn table_text_write_each(
        flags: u64,
        buf: *mut u8,
        buf_len: usize,
        cursor: *mut usize,
        calls: *const u64,
        calls_len: usize,
        text: *const u8,
        text_len: usize,
        open: *mut usize,
        answers: *mut u8,
        answers_len: usize,
    ) -> u8;
}
