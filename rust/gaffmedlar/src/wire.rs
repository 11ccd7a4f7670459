//! What include/gaffmedlar.h declares.
use crate::version::compare;

/// 0 and the counts, or the number of the refusal and zeros.
#[repr(C)]
#[derive(Clone, Copy, Debug, PartialEq, Eq)]
pub struct GrammarReply {
    pub answer: u8,
    pub stages: u16,
    pub rules: u16,
}

/// 0 and the number of tokens, or the number of the refusal and 0.
#[repr(C)]
#[derive(Clone, Copy, Debug, PartialEq, Eq)]
pub struct HistoryReply {
    pub answer: u8,
    pub tokens: u16,
}

/// 0 and the number of choices, or the number of the refusal and 0.
#[repr(C)]
#[derive(Clone, Copy, Debug, PartialEq, Eq)]
pub struct CountReply {
    pub answer: u8,
    pub count: u32,
}

/// 0 and the number of readings, 102 and 0 where they are more than 2^64 - 1, or the number of the refusal and 0.
#[repr(C)]
#[derive(Clone, Copy, Debug, PartialEq, Eq)]
pub struct ReadingsReply {
    pub answer: u8,
    pub count: u64,
}

/// Where a part of a file starts and how many bytes it has, or zeros where it is refused.
#[repr(C)]
#[derive(Clone, Copy, Debug, PartialEq, Eq)]
pub struct PartReply {
    pub start: usize,
    pub length: usize,
}

/// 0 and the length of the file, or the number of the refusal and 0.
#[repr(C)]
#[derive(Clone, Copy, Debug, PartialEq, Eq)]
pub struct WriteReply {
    pub answer: u8,
    pub length: usize,
}

mod linked {
    use super::{CountReply, GrammarReply, HistoryReply, PartReply, ReadingsReply, WriteReply};

    extern "C" {
        pub fn gaffmedlar_version() -> u32;
        pub fn gaffmedlar_grammar_check(grammar: *const u8, grammar_len: usize) -> GrammarReply;
        pub fn gaffmedlar_history_check(history: *const u8, history_len: usize) -> HistoryReply;
        pub fn gaffmedlar_first_reading(
            grammar: *const u8,
            grammar_len: usize,
            history: *const u8,
            history_len: usize,
            reading: *mut u8,
            reading_len: usize,
        ) -> u8;
        pub fn gaffmedlar_next_reading(
            grammar: *const u8,
            grammar_len: usize,
            history: *const u8,
            history_len: usize,
            reading: *mut u8,
            reading_len: usize,
        ) -> u8;
        pub fn gaffmedlar_reading_count(
            grammar: *const u8,
            grammar_len: usize,
            history: *const u8,
            history_len: usize,
        ) -> ReadingsReply;
        pub fn gaffmedlar_reading_count_at(
            grammar: *const u8,
            grammar_len: usize,
            history: *const u8,
            history_len: usize,
            position: usize,
            rule: usize,
        ) -> ReadingsReply;
        pub fn gaffmedlar_reading_at(
            grammar: *const u8,
            grammar_len: usize,
            history: *const u8,
            history_len: usize,
            k: u64,
            reading: *mut u8,
            reading_len: usize,
        ) -> u8;
        pub fn gaffmedlar_run_calls(
            grammar: *const u8,
            grammar_len: usize,
            history: *const u8,
            history_len: usize,
            calls: *const u8,
            calls_len: usize,
            answers: *mut u8,
            answers_len: usize,
            buffer: *mut u8,
            buffer_len: usize,
        ) -> u8;
        pub fn gaffmedlar_sets(
            grammar: *const u8,
            grammar_len: usize,
            history: *const u8,
            history_len: usize,
            words: *mut u32,
            words_len: usize,
        ) -> CountReply;
        pub fn gaffmedlar_choice_count(
            grammar: *const u8,
            grammar_len: usize,
            history: *const u8,
            history_len: usize,
        ) -> CountReply;
        pub fn gaffmedlar_stop_marks(
            grammar: *const u8,
            grammar_len: usize,
            history: *const u8,
            history_len: usize,
            marks: *mut u8,
            marks_len: usize,
        ) -> u8;
        pub fn gaffmedlar_step_bytes(
            history: *const u8,
            history_len: usize,
            position: usize,
        ) -> PartReply;
        pub fn gaffmedlar_step_refusal(
            history: *const u8,
            history_len: usize,
            position: usize,
        ) -> u8;
        pub fn gaffmedlar_write_grammar(
            numbers: *const u32,
            numbers_len: usize,
            file: *mut u8,
            file_len: usize,
        ) -> WriteReply;
        pub fn gaffmedlar_write_history(
            numbers: *const u32,
            numbers_len: usize,
            file: *mut u8,
            file_len: usize,
        ) -> WriteReply;
    }
}

// Each call below hands over slices as pointer and length. The proved functions read and write within these lengths
// only, ask nothing of their content, keep no pointer and end, so the calls are sound.

/// 10,000 times the first part of the version, 100 times the second, and the third.
pub fn version() -> u32 {
    unsafe { linked::gaffmedlar_version() }
}

pub fn grammar_check(grammar: &[u8]) -> GrammarReply {
    compare();
    unsafe { linked::gaffmedlar_grammar_check(grammar.as_ptr(), grammar.len()) }
}

pub fn history_check(history: &[u8]) -> HistoryReply {
    compare();
    unsafe { linked::gaffmedlar_history_check(history.as_ptr(), history.len()) }
}

pub fn first_reading(grammar: &[u8], history: &[u8], reading: &mut [u8]) -> u8 {
    compare();
    unsafe {
        linked::gaffmedlar_first_reading(
            grammar.as_ptr(),
            grammar.len(),
            history.as_ptr(),
            history.len(),
            reading.as_mut_ptr(),
            reading.len(),
        )
    }
}

pub fn next_reading(grammar: &[u8], history: &[u8], reading: &mut [u8]) -> u8 {
    compare();
    unsafe {
        linked::gaffmedlar_next_reading(
            grammar.as_ptr(),
            grammar.len(),
            history.as_ptr(),
            history.len(),
            reading.as_mut_ptr(),
            reading.len(),
        )
    }
}

pub fn reading_count(grammar: &[u8], history: &[u8]) -> ReadingsReply {
    compare();
    unsafe {
        linked::gaffmedlar_reading_count(
            grammar.as_ptr(),
            grammar.len(),
            history.as_ptr(),
            history.len(),
        )
    }
}

pub fn reading_count_at(
    grammar: &[u8],
    history: &[u8],
    position: usize,
    rule: usize,
) -> ReadingsReply {
    compare();
    unsafe {
        linked::gaffmedlar_reading_count_at(
            grammar.as_ptr(),
            grammar.len(),
            history.as_ptr(),
            history.len(),
            position,
            rule,
        )
    }
}

/// Readings are counted from 1.
pub fn reading_at(grammar: &[u8], history: &[u8], k: u64, reading: &mut [u8]) -> u8 {
    compare();
    unsafe {
        linked::gaffmedlar_reading_at(
            grammar.as_ptr(),
            grammar.len(),
            history.as_ptr(),
            history.len(),
            k,
            reading.as_mut_ptr(),
            reading.len(),
        )
    }
}

/// A call is 0 for first reading, any other number for next reading.
pub fn run_calls(
    grammar: &[u8],
    history: &[u8],
    calls: &[u8],
    answers: &mut [u8],
    buffer: &mut [u8],
) -> u8 {
    compare();
    unsafe {
        linked::gaffmedlar_run_calls(
            grammar.as_ptr(),
            grammar.len(),
            history.as_ptr(),
            history.len(),
            calls.as_ptr(),
            calls.len(),
            answers.as_mut_ptr(),
            answers.len(),
            buffer.as_mut_ptr(),
            buffer.len(),
        )
    }
}

pub fn sets(grammar: &[u8], history: &[u8], words: &mut [u32]) -> CountReply {
    compare();
    unsafe {
        linked::gaffmedlar_sets(
            grammar.as_ptr(),
            grammar.len(),
            history.as_ptr(),
            history.len(),
            words.as_mut_ptr(),
            words.len(),
        )
    }
}

pub fn choice_count(grammar: &[u8], history: &[u8]) -> CountReply {
    compare();
    unsafe {
        linked::gaffmedlar_choice_count(
            grammar.as_ptr(),
            grammar.len(),
            history.as_ptr(),
            history.len(),
        )
    }
}

pub fn stop_marks(grammar: &[u8], history: &[u8], marks: &mut [u8]) -> u8 {
    compare();
    unsafe {
        linked::gaffmedlar_stop_marks(
            grammar.as_ptr(),
            grammar.len(),
            history.as_ptr(),
            history.len(),
            marks.as_mut_ptr(),
            marks.len(),
        )
    }
}

pub fn step_bytes(history: &[u8], position: usize) -> PartReply {
    compare();
    unsafe { linked::gaffmedlar_step_bytes(history.as_ptr(), history.len(), position) }
}

pub fn step_refusal(history: &[u8], position: usize) -> u8 {
    compare();
    unsafe { linked::gaffmedlar_step_refusal(history.as_ptr(), history.len(), position) }
}

pub fn write_grammar(numbers: &[u32], file: &mut [u8]) -> WriteReply {
    compare();
    unsafe {
        linked::gaffmedlar_write_grammar(
            numbers.as_ptr(),
            numbers.len(),
            file.as_mut_ptr(),
            file.len(),
        )
    }
}

pub fn write_history(numbers: &[u32], file: &mut [u8]) -> WriteReply {
    compare();
    unsafe {
        linked::gaffmedlar_write_history(
            numbers.as_ptr(),
            numbers.len(),
            file.as_mut_ptr(),
            file.len(),
        )
    }
}
