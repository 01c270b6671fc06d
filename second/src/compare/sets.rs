//! What a case shows of sets of letters, besides the number that should come.

use std::fmt;

use super::call::Callee;
use super::request::Asked;
use crate::limits::is_event;
use crate::refusal::Reason;
use crate::rule::check_sentence;
use crate::{job, named_rule, rule_file};

/// What a case may show.
#[derive(Clone, Copy, Debug, PartialEq, Eq, PartialOrd, Ord)]
pub enum Sets {
    /// Letters stand in brackets in an accepted rule.
    Brackets,
    /// A dot stands in an accepted rule.
    Dot,
    /// A rule stops being the beginning of a sentence in brackets.
    BrokenBrackets,
}

impl Sets {
    /// What the cases of a callee have to show.
    pub fn of(callee: Callee) -> &'static [Sets] {
        match callee {
            Callee::ReadDay | Callee::MergeDays | Callee::Troubled => &[],
            _ => &[Sets::Brackets, Sets::Dot, Sets::BrokenBrackets],
        }
    }
}

impl fmt::Display for Sets {
    fn fmt(&self, formatter: &mut fmt::Formatter) -> fmt::Result {
        formatter.pad(match self {
            Sets::Brackets => "accepted, rule with brackets",
            Sets::Dot => "accepted, rule with dot",
            Sets::BrokenBrackets => "refusal 4 within brackets",
        })
    }
}

/// What a call shows if such a number and place should come.
pub fn shown(asked: &Asked, number: u32, place: usize) -> Vec<Sets> {
    match asked {
        Asked::Rule { text, .. } | Asked::Rewriting { text, .. } => shown_by_rule(text, number),
        Asked::Judge { rule, .. } => shown_by_rule(rule, number),
        Asked::Job { job, .. } => shown_by_job(job, number),
        Asked::RuleFile { file, .. } | Asked::JudgeFile { file, .. } => {
            shown_by_file(file, number, place)
        }
        Asked::Day { .. } | Asked::Merging { .. } => Vec::new(),
    }
}

/// What a job shows if such a number should come.
pub fn shown_by_job(job: &[u8], number: u32) -> Vec<Sets> {
    let rule = job::split_job(job).map(|(rule, _)| rule);
    rule.map_or(Vec::new(), |rule| shown_by_rule(rule, number))
}

/// What a rule file shows if such a number and place should come; the place is a line, from 1.
fn shown_by_file(file: &[u8], number: u32, place: usize) -> Vec<Sets> {
    let rules: Vec<&[u8]> = rule_file::written_lines(file)
        .map(|line| line.rule)
        .collect();
    if number != Reason::NotASentence as u32 {
        return shown_by_rule(&rules.concat(), number);
    }
    // Where a name is malformed, that is what makes it no sentence.
    let form = named_rule::parts(rules[place - 1]).map(|parts| named_rule::form(&parts));
    form.map_or(Vec::new(), |form| shown_by_rule(&form, number))
}

/// What a rule shows if such a number should come.
fn shown_by_rule(rule: &[u8], number: u32) -> Vec<Sets> {
    const ACCEPTED: u32 = 0;
    const NOT_A_SENTENCE: u32 = Reason::NotASentence as u32;
    let met = match number {
        ACCEPTED => [
            (rule.contains(&b'['), Sets::Brackets),
            (rule.contains(&b'.'), Sets::Dot),
        ]
        .to_vec(),
        NOT_A_SENTENCE => vec![(breaks_in_brackets(rule), Sets::BrokenBrackets)],
        _ => Vec::new(),
    };
    let met = met.into_iter().filter(|&(is_met, _)| is_met);
    met.map(|(_, shown)| shown).collect()
}

/// Whether the longest beginning that a sentence has ends in brackets that are still open.
fn breaks_in_brackets(rule: &[u8]) -> bool {
    let length = check_sentence(rule).expect_err("the rule is no sentence");
    let other = rule[..length].iter().rfind(|&&byte| !is_event(byte));
    other == Some(&b'[')
}
