//! Libraries with wrong letters: the edges find each in every call that its mistake can change.

use std::ops::RangeInclusive;

use second::compare::call::{Call, Callee};
use second::compare::reference;
use second::compare::request::Request;
use second::day;
use second::job::split_job;
use second::language::spans_of_nodes;
use second::limits::MAX_DAY_LINES;
use second::rule::{read, Kind, Rule};
use second::rule_file::read_last;

use crate::check::{answer, borrowed};
use crate::wrong::{found, found_with, short_edges, Part};

/// A mistake that a library makes: what it takes a byte for that stands where an event can.
type Mistake<'a> = &'a dyn Fn(u8) -> u8;

/// The bytes of a part as the library takes them.
fn taken(part: Part, bytes: &[u8], mistake: Mistake) -> Vec<u8> {
    match part {
        Part::RuleOrWord => bytes.iter().map(|&byte| mistake(byte)).collect(),
        Part::Day => taken_day(bytes, mistake),
        Part::RuleFile => taken_file(bytes, mistake),
    }
}

/// The bytes of a day as the library takes them: only what stands between a tab and a newline is
/// changed.
fn taken_day(file: &[u8], mistake: Mistake) -> Vec<u8> {
    let mut taken = file.to_vec();
    for (at, part) in file.windows(3).enumerate() {
        if let [b'\t', byte, b'\n'] = part {
            taken[at + 1] = mistake(*byte);
        }
    }
    taken
}

/// The bytes of a rule file as the library takes them: only what stands in a rule is changed, and
/// not in a name there.
fn taken_file(file: &[u8], mistake: Mistake) -> Vec<u8> {
    let (mut tabs, mut in_name) = (0, false);
    let taken = file.iter().map(|&byte| {
        match byte {
            b'\n' => (tabs, in_name) = (0, false),
            b'\t' => tabs += 1,
            b'<' | b'>' => in_name = byte == b'<',
            _ if tabs >= 2 && !in_name => return mistake(byte),
            _ => {}
        }
        byte
    });
    taken.collect()
}

/// A library that complements against the words of small letters alone, so that no span with a
/// capital obeys a complement.
///
/// It does so only if the rule is a complement and has no other special node, and only its answer
/// shows it: whatever finds this library finds one that always does so.
fn small_complements(_: &str, mut call: Call) -> u64 {
    let number = reference::run(borrowed(&mut call));
    if number == Some(0) {
        let lost = lost_by(&call);
        let answer = answer(&mut call);
        // For each such span the whole rule's walk does not come to the complement's exit.
        let (found, count) = (2, 3);
        answer[found] -= lost;
        answer[count] -= lost;
    }
    reference::returned(number)
}

/// How many spans an accepted call should find that the library above does not.
fn lost_by(call: &Call) -> u64 {
    match call {
        Call::ReadRule { .. }
        | Call::ReadDay { .. }
        | Call::ReadRuleFile { .. }
        | Call::RewriteRule { .. }
        | Call::MergeDays { .. } => 0,
        Call::Judge { rule, word, .. } => lost(read(rule).unwrap(), word),
        Call::JudgeRuleFile { file, word, .. } => lost(read_last(file).unwrap(), word),
        Call::RunJob { job, .. } => {
            let (rule, day) = split_job(job).unwrap();
            let mut letters = [0; MAX_DAY_LINES];
            let n = day::read(day, &mut letters, &mut [0; MAX_DAY_LINES]).unwrap();
            lost(read(rule).unwrap(), &letters[..n])
        }
    }
}

/// How many spans with a capital obey a rule, if it is a complement with no other special node.
fn lost(rule: Rule, word: &[u8]) -> u64 {
    let head = rule.head();
    if rule.k() != 1 || !matches!(rule.nodes[head].kind, Kind::Complement(_)) {
        return 0;
    }
    let obeying = &spans_of_nodes(&rule, word)[head];
    let has_capital = |i: usize, j: usize| word[i..j].iter().any(u8::is_ascii_uppercase);
    let n = word.len();
    let spans = (0..=n).flat_map(|i| (i..=n).map(move |j| (i, j)));
    let lost = spans.filter(|&(i, j)| obeying.obeys(i, j) && has_capital(i, j));
    lost.count() as u64
}

/// The callees in which the edges find a difference to a library that takes letters so.
fn found_with_letters(edges: &[Request], mistake: Mistake) -> Vec<Callee> {
    found_with(edges, &|part, bytes| taken(part, bytes, mistake))
}

#[test]
fn the_edges_find_a_library_with_other_letters() {
    let edges = short_edges();
    let no_letters = [65..=90, 97..=122, 65..=65, 90..=90, 97..=97, 122..=122];
    let letters = [91..=96, 64..=64, 91..=91, 96..=96, 123..=123];
    let with = |bytes: RangeInclusive<u8>, other: u8| {
        move |byte: u8| if bytes.contains(&byte) { other } else { byte }
    };
    for bytes in no_letters {
        let found = found_with_letters(&edges, &with(bytes.clone(), b'_'));
        assert_eq!(found, Callee::LIBRARY, "{bytes:?} are no letters");
    }
    for bytes in letters {
        let found = found_with_letters(&edges, &with(bytes.clone(), b'q'));
        assert_eq!(found, Callee::LIBRARY, "{bytes:?} are letters");
    }
    assert_eq!(found_with_letters(&edges, &|byte| byte), []);
}

#[test]
fn the_edges_find_a_library_that_folds_the_cases() {
    // The readers give a letter in the wrong case, and the judge takes both cases for the same.
    let edges = short_edges();
    let folds = [u8::to_ascii_lowercase, u8::to_ascii_uppercase];
    for fold in folds {
        let found = found_with_letters(&edges, &|byte| fold(&byte));
        assert_eq!(found, Callee::LIBRARY);
    }
}

#[test]
fn the_edges_find_a_library_with_small_complements() {
    let mut answer = [9; 4];
    let judge = Call::Judge {
        rule: b"!a",
        word: b"A",
        limit: 7,
        table: &mut [0; 16],
        answer: &mut answer,
    };
    assert_eq!(small_complements("", judge), 0);
    // Of three spans (0, 1) is lost, and of seven places one.
    assert_eq!(answer, [0, 0, 2, 6]);
    // Only the calls that do not judge cannot show it.
    let judges = [Callee::Judge, Callee::RunJob, Callee::JudgeRuleFile];
    assert_eq!(found(&short_edges(), &small_complements), judges);
}
