//! Stand-ins for wrong libraries that take some bytes for others or have other verdicts on plain
//! rules, and the calls in which the edges find any wrong library.

use second::compare::call::{Call, Callee, Library};
use second::compare::check::check;
use second::compare::edge_requests::requests;
use second::compare::job_edges;
use second::compare::reference;
use second::compare::request::{Asked, Request};
use second::job::split_job;
use second::refusal::Refusal;
use second::rule::{read, read_with_repeated_stars};

use crate::check::{answer, borrowed};
use crate::rule_verdict::{rewriter_verdict, verdict, Wrong};

/// The calls that take a plain rule.
pub const PLAIN: [Callee; 4] = [
    Callee::ReadRule,
    Callee::Judge,
    Callee::RunJob,
    Callee::RewriteRule,
];

/// What a call is given to read, but for a job, which has two of these.
pub enum Part {
    RuleOrWord,
    Day,
    RuleFile,
}

/// A mistake that a library makes: what it takes the bytes of a part for.
pub type Mistake<'a> = &'a dyn Fn(Part, &[u8]) -> Vec<u8>;

/// The bytes of a job as the library takes them.
pub fn taken_job(job: &[u8], mistake: Mistake) -> Vec<u8> {
    let Ok((rule, day)) = split_job(job) else {
        return job.to_vec();
    };
    let (rule, day) = (mistake(Part::RuleOrWord, rule), mistake(Part::Day, day));
    job_edges::job(&rule, &day)
}

/// What a library does with a call that makes the mistake in it.
fn done_wrong(call: Call, mistake: Mistake) -> u64 {
    let text = |text: &[u8]| mistake(Part::RuleOrWord, text);
    let rules = |file: &[u8]| mistake(Part::RuleFile, file);
    let days = |file: &[u8]| mistake(Part::Day, file);
    let (first, second) = match &call {
        Call::ReadRule { text: rule, .. } => (text(rule), Vec::new()),
        Call::ReadDay { file, .. } => (days(file), Vec::new()),
        Call::Judge { rule, word, .. } => (text(rule), text(word)),
        Call::RunJob { job, .. } => (taken_job(job, mistake), Vec::new()),
        Call::ReadRuleFile { file, .. } => (rules(file), Vec::new()),
        Call::JudgeRuleFile { file, word, .. } => (rules(file), text(word)),
        Call::RewriteRule { text: rule, .. } => (text(rule), Vec::new()),
        Call::MergeDays { first, second, .. } => (days(first), days(second)),
    };
    let mut call = call;
    match &mut call {
        Call::ReadRule { text, .. } => *text = &first,
        Call::ReadDay { file, .. } => *file = &first,
        Call::Judge { rule, word, .. } => (*rule, *word) = (&first, &second),
        Call::RunJob { job, .. } => *job = &first,
        Call::ReadRuleFile { file, .. } => *file = &first,
        Call::JudgeRuleFile { file, word, .. } => (*file, *word) = (&first, &second),
        Call::RewriteRule { text, .. } => *text = &first,
        Call::MergeDays {
            first: one,
            second: other,
            ..
        } => (*one, *other) = (&first, &second),
    }
    reference::returned(reference::run(call))
}

/// The edges that are short; no other has to be asked to find a wrong letter or a wrong second.
pub fn short_edges() -> Vec<Request> {
    let edges = requests().into_iter();
    edges.filter(|request| length(request) < 40).collect()
}

/// How many bytes a request gives to read.
pub fn length(request: &Request) -> usize {
    match &request.asked {
        Asked::Judge { word, .. } | Asked::JudgeFile { word, .. } => {
            rules_of(request).len() + word.len()
        }
        Asked::Day { file, .. } => file.len(),
        Asked::Merging { files, .. } => files.concat().len(),
        _ => rules_of(request).len(),
    }
}

/// The callees in which the edges find a difference to a library.
pub fn found(edges: &[Request], library: &Library) -> Vec<Callee> {
    let differs = |request: &Request| check(library, "a case", request).difference.is_some();
    let has = |callee: &Callee| {
        let mut edges = edges.iter().filter(|edge| edge.asked.callee() == *callee);
        edges.any(differs)
    };
    Callee::LIBRARY.into_iter().filter(has).collect()
}

/// The callees in which the edges find a difference to a library that makes the mistake.
pub fn found_with(edges: &[Request], mistake: Mistake) -> Vec<Callee> {
    found(edges, &|_: &str, call: Call| done_wrong(call, mistake))
}

/// What a request gives to read but for a word: a rule, a job or a rule file.
pub fn rules_of(request: &Request) -> &[u8] {
    match &request.asked {
        Asked::Rule { text: bytes, .. }
        | Asked::Judge { rule: bytes, .. }
        | Asked::Job { job: bytes, .. }
        | Asked::RuleFile { file: bytes, .. }
        | Asked::JudgeFile { file: bytes, .. }
        | Asked::Rewriting { text: bytes, .. } => bytes,
        Asked::Day { .. } | Asked::Merging { .. } => b"",
    }
}

/// The verdict of a call on its plain rule, if it takes one; a mistake may be made in it.
fn verdict_of(call: &Call, wrong: Wrong) -> Option<(u64, u64)> {
    match call {
        Call::ReadRule { text, .. } => Some(verdict(text, wrong)),
        Call::Judge { rule, .. } => Some(verdict(rule, wrong)),
        Call::RunJob { job, .. } => {
            let (rule, _) = split_job(job).ok()?;
            Some(verdict(rule, wrong))
        }
        Call::RewriteRule { text, .. } => Some(rewriter_verdict(text, wrong)),
        _ => None,
    }
}

/// What a library does with a call that has another verdict on some plain rules.
pub fn with_verdict(mut call: Call, wrong: Wrong) -> u64 {
    let number = reference::run(borrowed(&mut call));
    let came = verdict_of(&call, wrong);
    match came {
        Some(came) if number.is_some() && Some(came) != verdict_of(&call, Wrong::Nothing) => {
            let own = match call {
                Call::ReadRule { .. } => Callee::ReadRule.answer_length(),
                Call::Judge { .. } => Callee::Judge.answer_length(),
                _ => Callee::RunJob.answer_length(),
            };
            let answer = &mut answer(&mut call)[..own];
            answer.fill(0);
            (answer[0], answer[1]) = came;
            came.0
        }
        _ => reference::returned(number),
    }
}

/// Checks that without a mistake the verdicts are those of the second program.
pub fn check_verdicts(edges: &[Request]) {
    let plain = |refusal: Refusal| (refusal.number().into(), refusal.place as u64);
    for edge in edges {
        let (came, right) = match &edge.asked {
            Asked::Rule { text, .. } => (verdict(text, Wrong::Nothing), read(text)),
            Asked::Rewriting { text, .. } => (
                rewriter_verdict(text, Wrong::Nothing),
                read_with_repeated_stars(text),
            ),
            _ => continue,
        };
        assert_eq!(came, right.map_or_else(plain, |_| (0, 0)), "{edge}");
    }
}
