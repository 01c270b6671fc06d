//! The judges beside each other: that they answer alike, and how long each takes.

use std::hint::black_box;

use bench::blocks::{empty_table, MOST_BLOCKS};
use bench::judge::{Answer, Judge};
use bench::proved::{self, Told};
use bench::row::Row;
use bench::rules::Rule;
use bench::{baseline, tuned};

use crate::timing::Times;

/// The rounds of samples; the median is of as many.
const ROUNDS: usize = 41;

/// What was measured of a rule on its word of n events.
pub struct Measured<'a> {
    pub rule: &'a Rule,
    pub n: usize,
    pub answer: Answer,
    pub times: Times,
}

/// Compares the judges on a rule, and then times them.
pub fn measure(rule: &Rule, n: usize) -> Result<Measured<'_>, String> {
    let (text, word) = (rule.text.as_bytes(), (rule.word)(n));
    let answer = compare(text, &word).map_err(|what| format!("{}, n = {n}: {what}", rule.name))?;
    let times = Times::of(
        ROUNDS,
        [
            &mut call(proved::judge, text, &word),
            &mut call(baseline::judge, text, &word),
            &mut call(tuned::judge, text, &word),
        ],
    );
    Ok(Measured {
        rule,
        n,
        answer,
        times,
    })
}

/// A call of a judge, with a table of its own, that the compiler cannot leave out.
fn call<'a, A>(
    judge: impl Fn(&[u8], &[u8], &mut [Row]) -> A + 'a,
    text: &'a [u8],
    word: &'a [u8],
) -> impl FnMut() + 'a {
    let mut table = empty_table(word.len());
    move || {
        black_box(judge(
            black_box(text),
            black_box(word),
            black_box(&mut table),
        ));
    }
}

/// The answer of all judges, or how they differ: in found, count or any number of the table.
fn compare(text: &[u8], word: &[u8]) -> Result<Answer, String> {
    // Full of ones, and the others' of zeros, so that a number that one of them leaves unwritten differs.
    let mut table = vec![[u64::MAX; 4]; MOST_BLOCKS * (word.len() + 1)];
    let told = proved::judge(text, word, &mut table);
    if told[0] != 0 {
        return Err(format!("the proved judge refuses it: {told:?}"));
    }
    compare_with("baseline", baseline::judge, text, word, &told, &table)?;
    compare_with("tuned judge", tuned::judge, text, word, &told, &table)
}

/// The answer of an unproved judge, or how it differs from what the proved one has told and written.
fn compare_with(
    name: &str,
    judge: Judge,
    text: &[u8],
    word: &[u8],
    told: &Told,
    table: &[Row],
) -> Result<Answer, String> {
    let mut same = empty_table(word.len());
    let answer = judge(text, word, &mut same);
    if *told != proved::told(&answer) {
        return Err(format!(
            "the proved judge says {told:?}, the {name} {answer:?}"
        ));
    }
    match (0..(answer.k + 1) * (word.len() + 1)).find(|&row| table[row] != same[row]) {
        Some(row) => Err(format!("the {name}'s table differs in row {row}")),
        None => Ok(answer),
    }
}

/// Writes what was measured as a table.
pub fn print_table(measured: &[Measured]) {
    println!("| rule | m | k | n | found | count | proved (µs) | baseline (µs) | ratio | tuned (µs) | ratio |");
    println!("|---|--:|--:|--:|--:|--:|--:|--:|--:|--:|--:|");
    for one in measured {
        let (answer, times) = (&one.answer, &one.times);
        println!(
            "| {} | {} | {} | {} | {} | {} | {:.1} | {:.1} | {:.2} | {:.1} | {:.2} |",
            one.rule.name,
            answer.m,
            answer.k,
            one.n,
            answer.found,
            answer.count,
            times.proved,
            times.baseline,
            times.against_baseline(),
            times.tuned,
            times.against_tuned()
        );
    }
}
