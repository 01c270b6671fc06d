//! Libraries that take sets of letters wrongly: the edges find each mistake in every call that it
//! can change.

use std::sync::OnceLock;

use second::compare::call::{Call, Callee, Library, NODES};
use second::compare::edge_requests::requests;
use second::compare::job_edges::{job, jobs};
use second::compare::reference;
use second::compare::request::{Asked, Request};
use second::job::{output, split_job};
use second::rule::{check_sentence, read};
use second::rule_file;

use crate::check::borrowed;
use crate::rule_verdict::{verdict, Wrong};
use crate::wrong::{check_verdicts, found_with, rules_of, with_verdict, PLAIN};

/// The calls that answer with nodes.
const READERS: [Callee; 2] = [Callee::ReadRule, Callee::ReadRuleFile];

/// The calls that judge.
const JUDGES: [Callee; 3] = [Callee::Judge, Callee::RunJob, Callee::JudgeRuleFile];

/// The edges with brackets or dots, but for long files.
fn edges() -> &'static [Request] {
    static EDGES: OnceLock<Vec<Request>> = OnceLock::new();
    let is_about_sets = |request: &Request| {
        let bytes = rules_of(request);
        bytes.len() < 300 && bytes.iter().any(|byte| b"[.".contains(byte))
    };
    EDGES.get_or_init(|| requests().into_iter().filter(is_about_sets).collect())
}

/// The calls in which the edges find a difference to a library.
fn found(library: &Library) -> Vec<Callee> {
    crate::wrong::found(edges(), library)
}

#[test]
fn the_verdicts_are_those_of_the_second_program() {
    check_verdicts(edges());
}

/// The mistakes that change a verdict.
const WRONGS: [Wrong; 20] = [
    Wrong::Before(20, 4),
    Wrong::Before(5, 20),
    Wrong::Before(6, 20),
    Wrong::Before(20, 3),
    Wrong::PlaceBefore,
    Wrong::PlaceOfBracket,
    Wrong::PlaceInBrackets,
    Wrong::LastFallen,
    Wrong::EqualTaken,
    Wrong::FirstBracketsAlone,
    Wrong::AcrossBrackets,
    Wrong::OutsideBrackets,
    Wrong::CasesAlike,
    Wrong::SmallBelowCapitals,
    Wrong::EmptyTaken,
    Wrong::UnclosedTaken,
    Wrong::BracketsForeign,
    Wrong::DotForeign,
    Wrong::NodesByLetters,
    Wrong::BrokenAtBracket,
];

#[test]
fn the_edges_find_a_library_with_wrong_verdicts_on_sets() {
    for wrong in WRONGS {
        let library = |_: &str, call: Call| with_verdict(call, wrong);
        assert_eq!(found(&library), PLAIN, "{wrong:?}");
    }
    let library = |_: &str, call: Call| with_verdict(call, Wrong::Nothing);
    assert_eq!(found(&library), []);
}

/// What a library does that gives records wrongly; a record is given with its line's text after
/// replacement.
fn with_records(mut call: Call, mistake: RecordMistake) -> u64 {
    let number = reference::run(borrowed(&mut call));
    match &mut call {
        Call::ReadRule { text, nodes, .. } if number == Some(0) => {
            let m = read(text).unwrap().m();
            let records = nodes.chunks_exact_mut(2).take(m);
            records.for_each(|record| mistake(text, record));
        }
        Call::ReadRuleFile { file, nodes, .. } if number == Some(0) => {
            let lines = rule_file::read(file).unwrap();
            for (line, nodes) in lines.iter().zip(nodes.chunks_exact_mut(NODES)) {
                let records = nodes.chunks_exact_mut(2).take(line.rule.m());
                records.for_each(|record| mistake(&line.text, record));
            }
        }
        _ => {}
    }
    reference::returned(number)
}

/// Whether a record is that of a set.
fn is_set(record: &[u64]) -> bool {
    record[1] >> 63 == 1
}

/// The byte at which a record stands.
fn byte(text: &[u8], record: &[u64]) -> u8 {
    text[record[0] as usize]
}

/// The kind of a concatenation.
const CONCATENATION: u64 = 4;

/// What a library makes of a record, given the text to which its offset belongs.
type RecordMistake = fn(&[u8], &mut [u64]);

/// The mistakes that change a record.
const RECORD_MISTAKES: [(&str, RecordMistake); 8] = [
    ("a set stands at its first letter", |text, record| {
        record[0] += u64::from(is_set(record) && byte(text, record) == b'[');
    }),
    (
        "what joins a set stands at its first letter",
        |text, record| {
            let joins = record[1] == CONCATENATION && byte(text, record) == b'[';
            record[0] += u64::from(joins);
        },
    ),
    ("a letter has its byte as its kind", |text, record| {
        if is_set(record) && byte(text, record).is_ascii_alphabetic() {
            record[1] = byte(text, record).into();
        }
    }),
    ("a letter in brackets has another kind", |text, record| {
        if record[1].count_ones() == 2 && byte(text, record) == b'[' {
            record[1] += 1 << 62;
        }
    }),
    ("a dot has no capitals", |text, record| {
        if is_set(record) && byte(text, record) == b'.' {
            record[1] = (1 << 63) + ((1 << 26) - 1) * (1 << 26);
        }
    }),
    ("a dot has a kind of its own", |text, record| {
        if is_set(record) && byte(text, record) == b'.' {
            record[1] = 7;
        }
    }),
    ("small letters have the low bits", |_, record| {
        if is_set(record) {
            let letters = record[1] % (1 << 52);
            let turned = (letters >> 26) + letters % (1 << 26) * (1 << 26);
            record[1] = (1 << 63) + turned;
        }
    }),
    ("a set has no highest bit", |_, record| {
        record[1] %= 1 << 63;
    }),
];

#[test]
fn the_edges_find_a_library_with_wrong_records_of_sets() {
    for (name, mistake) in RECORD_MISTAKES {
        let library = |_: &str, call: Call| with_records(call, mistake);
        assert_eq!(found(&library), READERS, "{name}");
    }
    let library = |_: &str, call: Call| with_records(call, |_, _| {});
    assert_eq!(found(&library), []);
}

/// What a library makes of the letters in brackets.
type Made = fn(&[u8]) -> Vec<u8>;

/// A rule or a rule file in which each good set in brackets has become what is made of its letters.
fn with_sets(text: &[u8], made: Made) -> Vec<u8> {
    let mut taken = Vec::new();
    let mut rest = text;
    while let Some((&byte, after)) = rest.split_first() {
        let letters = after.iter().take_while(|byte| byte.is_ascii_alphabetic());
        let letters = &after[..letters.count()];
        let is_set = byte == b'[' && after.get(letters.len()) == Some(&b']');
        rest = after;
        if is_set && check_sentence(&[b"[", letters, b"]"].concat()).is_ok() && letters.is_sorted()
        {
            taken.extend([b"[", &made(letters)[..], b"]"].concat());
            rest = &after[letters.len() + 1..];
        } else {
            taken.push(byte);
        }
    }
    taken
}

/// Letters without those that come twice, in byte order.
fn sorted(mut letters: Vec<u8>) -> Vec<u8> {
    letters.sort();
    letters.dedup();
    letters
}

/// Every letter from the first to the last of some.
fn range(letters: &[u8]) -> Vec<u8> {
    let all = letters[0]..=letters[letters.len() - 1];
    all.filter(u8::is_ascii_alphabetic).collect()
}

/// Letters in both cases.
fn in_both_cases(letters: &[u8]) -> Vec<u8> {
    let other = letters.iter().map(|letter| letter ^ 32);
    sorted(letters.iter().copied().chain(other).collect())
}

#[test]
fn the_edges_find_a_judge_whose_sets_fit_other_events() {
    let mistakes: [(&str, Made); 4] = [
        ("all from the first to the last", range),
        ("both cases", in_both_cases),
        ("the first alone", |letters| letters[..1].to_vec()),
        ("the last alone", |letters| {
            letters[letters.len() - 1..].to_vec()
        }),
    ];
    let edges = judged();
    for (name, made) in mistakes {
        // Words and days have no brackets, so they are not changed.
        let found = found_with(&edges, &|_, bytes| with_sets(bytes, made));
        assert_eq!(found, JUDGES, "{name}");
    }
    let same = found_with(&edges, &|_, bytes| with_sets(bytes, <[u8]>::to_vec));
    assert_eq!(same, []);
}

#[test]
fn the_edges_find_a_judge_whose_dot_has_no_capitals() {
    let found = found_with(&judged(), &|_, bytes| with_small_dots(bytes));
    assert_eq!(found, JUDGES);
}

/// A rule or a rule file in which each dot has become the small letters in brackets.
fn with_small_dots(text: &[u8]) -> Vec<u8> {
    let parts: Vec<&[u8]> = text.split(|&byte| byte == b'.').collect();
    parts.join(&b"[abcdefghijklmnopqrstuvwxyz]"[..])
}

/// The edges that are judged by a short rule, which stays accepted if its sets become longer.
fn judged() -> Vec<Request> {
    const SHORT: usize = 6;
    let is_good = |edge: &&Request| match &edge.asked {
        Asked::Judge { rule, .. } => rule.len() <= SHORT && read(rule).is_ok(),
        Asked::Job { job, .. } => {
            let rule = split_job(job).map_or(&b""[..], |(rule, _)| rule);
            rule.len() <= SHORT && read(rule).is_ok()
        }
        Asked::JudgeFile { file, .. } => file.len() <= 5 + SHORT && rule_file::read(file).is_ok(),
        _ => false,
    };
    edges().iter().filter(is_good).cloned().collect()
}

#[test]
fn the_edges_of_jobs_alone_find_wrong_sets() {
    let jobs = jobs();
    let rules = || jobs.iter().filter_map(|job| split_job(job).ok());
    for wrong in WRONGS {
        let differs = |rule: &[u8]| verdict(rule, wrong) != verdict(rule, Wrong::Nothing);
        assert!(rules().any(|(rule, _)| differs(rule)), "{wrong:?}");
    }
    let makes = [
        |rule: &[u8]| with_sets(rule, range),
        |rule: &[u8]| with_sets(rule, in_both_cases),
        with_small_dots,
    ];
    for made in makes {
        let differs = |rule: &[u8], day: &[u8]| {
            let [right, wrong] = [rule.to_vec(), made(rule)].map(|rule| output(&job(&rule, day)));
            right.starts_with('H') && wrong.starts_with('H') && right != wrong
        };
        assert!(rules().any(|(rule, day)| differs(rule, day)));
    }
}
