//! The proved judge by its C interface, `include/wuzlevor.h`.

use crate::judge::Answer;
use crate::row::Row;

extern "C" {
    fn wuz_judge(
        rule: *const u8,
        rule_len: usize,
        word: *const u8,
        word_len: usize,
        limit: u64,
        table: *mut u64,
        table_len: usize,
        answer: *mut u64,
        answer_len: usize,
    ) -> u64;
}

/// The most work that any judgement can count: what the program lends for the largest job.
const MOST_WORK: u64 = 4_210_688;

/// What the call answers: number, place, found, count.
pub type Told = [u64; 4];

/// Judges every span of a word, into the first rows of the table.
pub fn judge(rule: &[u8], word: &[u8], table: &mut [Row]) -> Told {
    let mut told = [u64::MAX; 4];
    let numbers = table.as_flattened_mut();
    // The pointers and lengths are those of slices, and those that are written are borrowed by nobody else: all that the interface asks.
    unsafe {
        wuz_judge(
            rule.as_ptr(),
            rule.len(),
            word.as_ptr(),
            word.len(),
            MOST_WORK,
            numbers.as_mut_ptr(),
            numbers.len(),
            told.as_mut_ptr(),
            told.len(),
        );
    }
    told
}

/// What the call answers where an unproved judge gives this answer.
pub fn told(answer: &Answer) -> Told {
    [0, 0, answer.found, answer.count]
}
