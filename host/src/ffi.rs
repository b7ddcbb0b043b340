//! The archive's functions, as `include/ntfs_index.h` declares them. A slice is a pointer and a length in elements.

pub const CURSOR_WORDS: usize = 43;
pub const ANSWER_WORDS: usize = 6;
pub const CHECK_WORDS: usize = 3;
pub const NAME_WORDS: usize = 7;

// What the first number of an answer says.
pub const NONE: u64 = 0;
pub const ENTRY: u64 = 1;
pub const PASSED: u64 = 1;
pub const NAMED: u64 = 1;

// Which slice holds an entry.
pub const ROOT: u64 = 0;

extern "C" {
    pub fn ntfs_new_cursor(cursor: *mut [u64; CURSOR_WORDS]);

    pub fn ntfs_step(
        root: *const u8,
        root_length: usize,
        pool: *const u8,
        pool_length: usize,
        cluster: usize,
        allowance: u64,
        cursor: *mut [u64; CURSOR_WORDS],
        answer: *mut [u64; ANSWER_WORDS],
    );

    pub fn ntfs_find(
        root: *const u8,
        root_length: usize,
        pool: *const u8,
        pool_length: usize,
        cluster: usize,
        table: *const u16,
        table_length: usize,
        name: *const u16,
        name_length: usize,
        allowance: u64,
        answer: *mut [u64; ANSWER_WORDS],
    );

    pub fn ntfs_check(
        root: *const u8,
        root_length: usize,
        pool: *const u8,
        pool_length: usize,
        cluster: usize,
        table: *const u16,
        table_length: usize,
        marks: *mut u8,
        marks_length: usize,
        answer: *mut [u64; CHECK_WORDS],
    );

    pub fn ntfs_entry_name(entry: *const u8, entry_length: usize, answer: *mut [u64; NAME_WORDS]);
}
