//! What a case shows of the letters, besides the number that should come.

use std::fmt;
use std::ops::RangeInclusive;

use super::call::Callee;
use super::mergings;
use super::request::Asked;
use crate::refusal::Reason;
use crate::{day, job, named_rule, rule_file};

/// The bytes between the capitals and the small letters, which are no letters.
const BETWEEN: RangeInclusive<u8> = b'['..=b'`';

/// Those of them that may stand in a rule all the same.
const BRACKETS: [u8; 2] = *b"[]";

/// What a case may show: a capital in something accepted, or a byte between the two runs of letters
/// as what is refused.
#[derive(Clone, Copy, Debug, PartialEq, Eq, PartialOrd, Ord)]
pub enum Letters {
    CapitalInRule,
    CapitalInWord,
    CapitalInDay,
    BetweenInRule,
    BetweenInWord,
    BetweenInDay,
}

impl Letters {
    /// What the cases of a callee have to show.
    pub fn of(callee: Callee) -> &'static [Letters] {
        use Letters::*;
        match callee {
            Callee::ReadRule | Callee::ReadRuleFile | Callee::RewriteRule => {
                &[CapitalInRule, BetweenInRule]
            }
            Callee::ReadDay | Callee::MergeDays => &[CapitalInDay, BetweenInDay],
            Callee::Judge | Callee::JudgeRuleFile => {
                &[CapitalInRule, CapitalInWord, BetweenInRule, BetweenInWord]
            }
            Callee::RunJob | Callee::Program => {
                &[CapitalInRule, CapitalInDay, BetweenInRule, BetweenInDay]
            }
            Callee::Troubled => &[],
        }
    }
}

impl fmt::Display for Letters {
    fn fmt(&self, formatter: &mut fmt::Formatter) -> fmt::Result {
        formatter.pad(match self {
            Letters::CapitalInRule => "accepted, rule with capital",
            Letters::CapitalInWord => "accepted, word with capital",
            Letters::CapitalInDay => "accepted, day with capital",
            Letters::BetweenInRule => "refusal 3 for 92, 94 to 96",
            Letters::BetweenInWord => "refusal 8 for byte 91 to 96",
            Letters::BetweenInDay => "refusal 12 for byte 91 to 96",
        })
    }
}

/// What a call shows if such a number and place should come.
pub fn shown(asked: &Asked, number: u32, place: usize) -> Vec<Letters> {
    let mut parts = Parts::default();
    let merged;
    match asked {
        Asked::Rule { text, .. } | Asked::Rewriting { text, .. } => parts.rule = text,
        Asked::Day { file, .. } => parts.day = file,
        Asked::Merging { files, .. } => {
            merged = mergings::decisive(files);
            parts.day = &merged;
        }
        Asked::Judge { rule, word, .. } => (parts.rule, parts.word) = (rule, word),
        Asked::Job { job, .. } => return shown_by_job(job, number, place),
        Asked::RuleFile { file, .. } => return shown_by_file(file, b"", number, place),
        Asked::JudgeFile { file, word, .. } => return shown_by_file(file, word, number, place),
    }
    parts.shown(number, place)
}

/// What a job shows if such a number and place should come.
pub fn shown_by_job(job: &[u8], number: u32, place: usize) -> Vec<Letters> {
    let mut parts = Parts::default();
    if let Ok((rule, day)) = job::split_job(job) {
        (parts.rule, parts.day) = (rule, day);
    }
    parts.shown(number, place)
}

/// What a rule file shows, with the word that is judged, if such a number and place should come.
fn shown_by_file(file: &[u8], word: &[u8], number: u32, place: usize) -> Vec<Letters> {
    let rules: Vec<&[u8]> = rule_file::written_lines(file)
        .map(|line| line.rule)
        .collect();
    let (rule, place) = if number == Reason::RuleByte as u32 {
        // Its place is the line, from 1; the letters are told by the offset in that line's rule.
        let rule = rules[place - 1];
        let offset = named_rule::first_foreign(rule).expect("a foreign byte is refused");
        (rule.to_vec(), offset)
    } else {
        (rules.concat(), place)
    };
    let parts = Parts {
        rule: &rule,
        word,
        day: b"",
    };
    parts.shown(number, place)
}

/// The parts of a case in which letters stand; those that it does not have are empty.
#[derive(Default)]
struct Parts<'a> {
    rule: &'a [u8],
    word: &'a [u8],
    day: &'a [u8],
}

impl Parts<'_> {
    /// What they show if such a number and place should come.
    fn shown(&self, number: u32, place: usize) -> Vec<Letters> {
        const ACCEPTED: u32 = 0;
        const RULE_BYTE: u32 = Reason::RuleByte as u32;
        const WORD_BYTE: u32 = Reason::WordByte as u32;
        const LINE_FORM: u32 = Reason::LineForm as u32;
        let if_met = |met: bool, shown: Letters| met.then_some(shown).into_iter().collect();
        match number {
            ACCEPTED => self.capitals(),
            RULE_BYTE => if_met(is_foreign(self.rule[place]), Letters::BetweenInRule),
            WORD_BYTE => if_met(is_between(self.word[place]), Letters::BetweenInWord),
            LINE_FORM => if_met(has_letter_between(self.day, place), Letters::BetweenInDay),
            _ => Vec::new(),
        }
    }

    /// In which parts a capital stands.
    fn capitals(&self) -> Vec<Letters> {
        let day_letters = day_letters(self.day);
        let parts = [
            (self.rule, Letters::CapitalInRule),
            (self.word, Letters::CapitalInWord),
            (&day_letters, Letters::CapitalInDay),
        ];
        let has_capital = |part: &[u8]| part.iter().any(u8::is_ascii_uppercase);
        let with_capital = parts.into_iter().filter(|(part, _)| has_capital(part));
        with_capital.map(|(_, shown)| shown).collect()
    }
}

/// Whether a byte stands between the two runs of letters.
fn is_between(byte: u8) -> bool {
    BETWEEN.contains(&byte)
}

/// Whether a byte stands between the two runs of letters and may not stand in a rule.
fn is_foreign(byte: u8) -> bool {
    is_between(byte) && !BRACKETS.contains(&byte)
}

/// The letters of an accepted day: each line has its letter just before its newline.
fn day_letters(day: &[u8]) -> Vec<u8> {
    let lines = day.split_inclusive(|&byte| byte == b'\n');
    lines
        .filter_map(|line| line.iter().rev().nth(1).copied())
        .collect()
}

/// Whether a line of a day, counted from 1, is of the form but for a letter between the two runs.
fn has_letter_between(day: &[u8], place: usize) -> bool {
    let mut lines = day.split_inclusive(|&byte| byte == b'\n');
    let line = lines.nth(place - 1).expect("a bad line has its place");
    let Some((before, [letter, end])) = line.split_last_chunk() else {
        return false;
    };
    let with_good_letter = [before, &[b'a', *end]].concat();
    let refusal = day::read(&with_good_letter, &mut [0], &mut [0]).err();
    let is_of_form = refusal.is_none_or(|refusal| refusal.reason != Reason::LineForm);
    is_between(*letter) && is_of_form
}
