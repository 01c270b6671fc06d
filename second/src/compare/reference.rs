//! The calls of the C interface as the second program answers them.
//!
//! Each gives its number, or none where a buffer is too short for any answer; then nothing changes.

use super::call::{Call, Callee, FILE_LINES, FILE_NODES, NODES, UNANSWERED};
use crate::refusal::{Reason, Refusal};
use crate::rule::{Kind, Node, Rule};
use crate::{day, job, judge, merge, rewrite, rule, rule_file};

/// Does a call.
pub fn run(call: Call<'_>) -> Option<u32> {
    match call {
        Call::ReadRule {
            text,
            answer,
            nodes,
        } => read_rule(text, answer, nodes),
        Call::ReadDay {
            file,
            letters,
            seconds,
            answer,
        } => read_day(file, letters, seconds, answer),
        Call::Judge {
            rule,
            word,
            limit,
            table,
            answer,
        } => write_judgement(judge::judge, [rule, word], limit, table, answer),
        Call::RunJob { job, out, answer } => run_job(job, out, answer),
        Call::ReadRuleFile {
            file,
            answer,
            lines,
            nodes,
        } => read_rule_file(file, answer, lines, nodes),
        Call::JudgeRuleFile {
            file,
            word,
            limit,
            table,
            answer,
        } => write_judgement(judge::judge_file, [file, word], limit, table, answer),
        Call::RewriteRule { text, out, answer } => rewrite_rule(text, out, answer),
        Call::MergeDays {
            first,
            second,
            letters,
            seconds,
            answer,
        } => merge_days([first, second], letters, seconds, answer),
    }
}

/// What a call returns that gives such a number, or none.
pub fn returned(number: Option<u32>) -> u64 {
    number.map_or(UNANSWERED, u64::from)
}

/// Reads a rule text, and writes two numbers for each of its nodes.
fn read_rule(text: &[u8], answer: &mut [u64], nodes: &mut [u64]) -> Option<u32> {
    let answer = answer.get_mut(..Callee::ReadRule.answer_length())?;
    let nodes = nodes.get_mut(..NODES)?;
    let rule = match rule::read(text) {
        Ok(rule) => rule,
        Err(refusal) => return Some(refuse(answer, refusal.number(), refusal.place)),
    };
    answer.copy_from_slice(&[0, 0, 0, 0, rule.m() as u64, rule.k() as u64]);
    write_nodes(&rule, nodes);
    Some(0)
}

/// Reads a rule file, and writes two numbers for each line and for each node of its rule.
fn read_rule_file(
    file: &[u8],
    answer: &mut [u64],
    lines: &mut [u64],
    nodes: &mut [u64],
) -> Option<u32> {
    let answer = answer.get_mut(..Callee::ReadRuleFile.answer_length())?;
    let lines = lines.get_mut(..FILE_LINES)?;
    let nodes = nodes.get_mut(..FILE_NODES)?;
    let read = match rule_file::read(file) {
        Ok(read) => read,
        Err(refusal) => return Some(refuse(answer, refusal.number(), refusal.place)),
    };
    answer.copy_from_slice(&[0, 0, 0, 0, read.len() as u64]);
    let lent = lines.chunks_exact_mut(2).zip(nodes.chunks_exact_mut(NODES));
    for ((sizes, nodes), line) in lent.zip(&read) {
        sizes.copy_from_slice(&[line.rule.m() as u64, line.rule.k() as u64]);
        write_nodes(&line.rule, nodes);
    }
    Some(0)
}

/// Writes two numbers for each node of a rule.
fn write_nodes(rule: &Rule, nodes: &mut [u64]) {
    for (numbers, node) in nodes.chunks_exact_mut(2).zip(&rule.nodes) {
        numbers.copy_from_slice(&record(node));
    }
}

/// A node as the C interface writes it: its offset and the number of its kind.
fn record(node: &Node) -> [u64; 2] {
    let kind = match node.kind {
        Kind::NoWord => 0,
        Kind::EmptyWord => 1,
        Kind::Union(..) => 2,
        Kind::Intersection(..) => 3,
        Kind::Concatenation(..) => 4,
        Kind::Complement(_) => 5,
        Kind::Star(_) => 6,
        Kind::OneOf(set) => (1 << 63) + set.letters().map(letter_number).sum::<u64>(),
    };
    [node.offset as u64, kind]
}

/// What a letter adds to the number of a set.
fn letter_number(letter: u8) -> u64 {
    match letter {
        b'A'..=b'Z' => 1 << (letter - b'A'),
        _ => 1 << (26 + letter - b'a'),
    }
}

/// Reads a day file into the two buffers.
fn read_day(
    file: &[u8],
    letters: &mut [u8],
    seconds: &mut [u32],
    answer: &mut [u64],
) -> Option<u32> {
    let answer = answer.get_mut(..Callee::ReadDay.answer_length())?;
    Some(answer_length(answer, day::read(file, letters, seconds)))
}

/// Rewrites a rule text into a buffer.
fn rewrite_rule(text: &[u8], out: &mut [u8], answer: &mut [u64]) -> Option<u32> {
    let answer = answer.get_mut(..Callee::RewriteRule.answer_length())?;
    Some(answer_length(answer, rewrite::rewrite(text, out)))
}

/// Merges two day files into the two buffers.
fn merge_days(
    files: [&[u8]; 2],
    letters: &mut [u8],
    seconds: &mut [u32],
    answer: &mut [u64],
) -> Option<u32> {
    let answer = answer.get_mut(..Callee::MergeDays.answer_length())?;
    Some(answer_length(answer, merge::merge(files, letters, seconds)))
}

/// Answers with the length of what was written, or with the refusal; gives the number.
fn answer_length(answer: &mut [u64], written: Result<usize, Refusal>) -> u32 {
    match written {
        Ok(n) => answer.copy_from_slice(&[0, 0, 0, 0, n as u64]),
        Err(refusal) => return refuse(answer, refusal.number(), refusal.place),
    }
    0
}

/// One of the two judges, of a rule text or of a rule file.
type Judge = fn(&[u8], &[u8], u64, &mut [u64]) -> judge::Answer;

/// Judges a word by a rule text or a rule file, and writes the table.
fn write_judgement(
    judge: Judge,
    [by, word]: [&[u8]; 2],
    limit: u64,
    table: &mut [u64],
    answer: &mut [u64],
) -> Option<u32> {
    let answer = answer.get_mut(..Callee::Judge.answer_length())?;
    let judge::Answer {
        number,
        place,
        found,
        count,
    } = judge(by, word, limit, table);
    answer.copy_from_slice(&[number.into(), place as u64, found, count]);
    Some(number)
}

/// Runs a job and writes its text.
fn run_job(job: &[u8], out: &mut [u8], answer: &mut [u64]) -> Option<u32> {
    let answer = answer.get_mut(..Callee::RunJob.answer_length())?;
    let report = match job::judge_job(job) {
        Ok(report) => report,
        Err((number, place)) => return Some(refuse(answer, number, place)),
    };
    let text = report.lines();
    let Some(written) = out.get_mut(..text.len()) else {
        return Some(refuse(answer, Reason::BufferTooShort as u32, 0));
    };
    written.copy_from_slice(text.as_bytes());
    answer.copy_from_slice(&[0, 0, report.found, report.count, text.len() as u64]);
    Some(0)
}

/// Answers with a refusal whose values are all 0 but for number and place; gives the number.
fn refuse(answer: &mut [u64], number: u32, place: usize) -> u32 {
    answer.fill(0);
    answer[0] = number.into();
    answer[1] = place as u64;
    number
}
