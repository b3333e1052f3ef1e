//! The functions of the library, as `include/img.h` declares them: the one place in Rust that does so, for this crate and for tests and benchmarks that
//! lend slices of their own. `tests/header.rs` compares these lines with the header. [`crate::Workspace`] calls them safely.
//!
//! # Safety
//!
//! Of each function: every pointer and the length behind it are those of one slice, which is not null and aligned, and a slice that is written overlaps no other.
#![allow(missing_docs, clippy::missing_safety_doc)]

extern "C" {
    pub fn img_check(
        program: *const u8,
        program_length: usize,
        steps: u64,
        shapes: u64,
        entries: u64,
        text_bytes: u64,
        calls: u64,
        tokens: *mut u64,
        tokens_length: usize,
        code: *mut u64,
        code_length: usize,
        answer: *mut u64,
        answer_length: usize,
    ) -> u64;

    pub fn img_text(
        program: *const u8,
        program_length: usize,
        steps: u64,
        shapes: u64,
        entries: u64,
        text_bytes: u64,
        calls: u64,
        tokens: *mut u64,
        tokens_length: usize,
        code: *mut u64,
        code_length: usize,
        out: *mut u8,
        out_length: usize,
        answer: *mut u64,
        answer_length: usize,
    ) -> u64;

    pub fn img_draw(
        program: *const u8,
        program_length: usize,
        width: i32,
        height: i32,
        steps: u64,
        shapes: u64,
        entries: u64,
        text_bytes: u64,
        calls: u64,
        tokens: *mut u64,
        tokens_length: usize,
        code: *mut u64,
        code_length: usize,
        words: *mut u64,
        words_length: usize,
        texts: *mut u8,
        texts_length: usize,
        out: *mut u8,
        out_length: usize,
        answer: *mut u64,
        answer_length: usize,
    ) -> u64;
}
