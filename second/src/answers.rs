//! The line that answers a case: what the call says, and what its buffers hold afterwards; or the
//! numbers as they are printed.

use crate::stream::Case;
use crate::{day, judge, printed};

/// The found and count of both readers' answers, which are always 0.
const FOUND_AND_COUNT: &str = "0\t0";

/// The line of answer to a case.
pub fn line(case: &Case) -> String {
    match case {
        Case::Rule(text) => rule_line(text),
        Case::Day {
            letters,
            seconds,
            bytes,
        } => day_line(bytes, lent_letters(*letters), lent_seconds(*seconds)),
        Case::Judge {
            table,
            limit,
            rule,
            word,
        } => judge_line(rule, word, *limit, lent_table(*table)),
        Case::Numbers { first, count } => numbers_line(*first, *count),
    }
}

/// The line of answer to a rule text.
fn rule_line(text: &[u8]) -> String {
    let (verdict, reading) = printed::reading(text);
    format!("rule\t{verdict}\t{FOUND_AND_COUNT}\t{reading}\n")
}

/// The line of answer to a day file that is read into the buffers.
fn day_line(bytes: &[u8], mut letters: Vec<u8>, mut seconds: Vec<u32>) -> String {
    let (number, place, n) = match day::read(bytes, &mut letters, &mut seconds) {
        Ok(n) => (0, 0, n),
        Err(refusal) => (refusal.number(), refusal.place, 0),
    };
    let letters = printed::list(letters.iter().map(u8::to_string), ",");
    let seconds = printed::list(seconds.iter().map(u32::to_string), ",");
    format!("day\t{number}\t{place}\t{FOUND_AND_COUNT}\t{n}\t{letters}\t{seconds}\n")
}

/// The line of answer to a judge call that writes the table.
fn judge_line(rule: &[u8], word: &[u8], limit: u64, mut table: Vec<u64>) -> String {
    let judge::Answer {
        number,
        place,
        found,
        count,
    } = judge::judge(rule, word, limit, &mut table);
    let table = printed::list(printed::runs(&table), ",");
    format!("judge\t{number}\t{place}\t{found}\t{count}\t{table}\n")
}

/// The line of answer to so many numbers from the first on.
fn numbers_line(first: u64, count: usize) -> String {
    let numbers = (0..count as u64).map(|after| printed::number(first + after));
    format!("numbers\t{}\n", printed::list(numbers, ","))
}

/// A buffer of letters as it is lent: every element tells its place, and none is an event.
fn lent_letters(length: usize) -> Vec<u8> {
    (128..=255).cycle().take(length).collect()
}

/// A buffer of seconds as it is lent: every element tells its place, and none is a day's second.
fn lent_seconds(length: usize) -> Vec<u32> {
    (100_000..).take(length).collect()
}

/// A table as it is lent: every number tells its place, and no two are alike.
fn lent_table(length: usize) -> Vec<u64> {
    (0..length as u64).map(|i| u64::MAX - i).collect()
}
