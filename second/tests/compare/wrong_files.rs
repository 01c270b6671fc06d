//! Libraries that read rule files wrongly: the edges find each mistake in both calls, or in the one
//! that it can change.

use std::sync::OnceLock;

use second::compare::call::{Call, Callee, Library};
use second::compare::edge_requests::requests;
use second::compare::reference;
use second::compare::request::{Asked, Request};
use second::rule::Rule;
use second::rule_file::{read, read_last, written_lines};

use crate::check::{answer, borrowed};
use crate::file_verdict::{own_parentheses, verdict, Wrong, ORDER};
use crate::wrong;

/// The calls that take a rule file.
const BOTH: [Callee; 2] = [Callee::ReadRuleFile, Callee::JudgeRuleFile];

/// The edges that are about rule files.
fn edges() -> &'static [Request] {
    static EDGES: OnceLock<Vec<Request>> = OnceLock::new();
    EDGES.get_or_init(|| {
        let is_about_files = |request: &Request| BOTH.contains(&request.asked.callee());
        requests().into_iter().filter(is_about_files).collect()
    })
}

/// The calls in which the edges find a difference to a library.
fn found(library: &Library) -> Vec<Callee> {
    wrong::found(edges(), library)
}

/// The file of a call.
fn file<'a>(call: &Call<'a>) -> &'a [u8] {
    match call {
        Call::ReadRuleFile { file, .. } | Call::JudgeRuleFile { file, .. } => file,
        _ => unreachable!("only rule files are asked"),
    }
}

/// What a library does with a call that has another verdict on some files.
fn with_verdict(mut call: Call, wrong: &Wrong) -> u64 {
    let number = reference::run(borrowed(&mut call));
    let came = verdict(file(&call), wrong);
    if number.is_none() || came == verdict(file(&call), &Wrong::Nothing) {
        return reference::returned(number);
    }
    let own = match call {
        Call::ReadRuleFile { .. } => Callee::ReadRuleFile.answer_length(),
        _ => Callee::JudgeRuleFile.answer_length(),
    };
    let answer = &mut answer(&mut call)[..own];
    answer.fill(0);
    (answer[0], answer[1]) = came;
    came.0
}

#[test]
fn the_verdicts_are_those_of_the_second_program() {
    for edge in edges() {
        let Asked::RuleFile { file, .. } = &edge.asked else {
            continue;
        };
        let right = read(file).map_or_else(
            |refusal| (refusal.number().into(), refusal.place as u64),
            |_| (0, 0),
        );
        let shown = file[..file.len().min(99)].escape_ascii();
        assert_eq!(verdict(file, &Wrong::Nothing), right, "{shown}");
    }
}

#[test]
fn the_edges_find_a_library_with_wrong_verdicts() {
    let wrongs = [
        Wrong::OwnName,
        Wrong::LaterName,
        Wrong::NameByBeginning,
        Wrong::NodesAsWritten,
        Wrong::SpecialAsWritten,
        Wrong::BytesAfterReplacement,
        Wrong::PlaceOfRuleFault,
        Wrong::PlaceFromZero,
        Wrong::SeventeenthLineRead,
        Wrong::SeventeenthLineFirst,
        Wrong::FifteenLines,
        Wrong::LastNewlineMissing,
        Wrong::EmptyFileAccepted,
        Wrong::EmptyFileAtZero,
        Wrong::UnusedLinesUnread,
        Wrong::CapitalNames,
        Wrong::NamesOf(11),
        Wrong::NamesOf(13),
        Wrong::UsedNamesOf(11),
        Wrong::UsedNamesOf(13),
        Wrong::TabEndsRule,
        Wrong::LowestNumberFirst,
        Wrong::EqualLettersTaken,
        Wrong::PlaceOfFallenLetter,
        Wrong::NamesInBrackets,
        Wrong::RepeatedStarsTaken,
        Wrong::PlaceOfStar,
        Wrong::StarsThroughNames,
        Wrong::Before(21, 4),
        Wrong::Before(21, 17),
        Wrong::Before(5, 21),
        Wrong::Before(6, 21),
        Wrong::Before(20, 4),
        Wrong::Before(5, 20),
        Wrong::Before(6, 20),
        Wrong::Before(20, 17),
        Wrong::Before(5, 17),
    ];
    for wrong in wrongs {
        let library = |_: &str, call: Call| with_verdict(call, &wrong);
        assert_eq!(found(&library), BOTH, "{wrong:?}");
    }
    let library = |_: &str, call: Call| with_verdict(call, &Wrong::Nothing);
    assert_eq!(found(&library), []);
}

#[test]
fn the_edges_find_a_library_with_another_order_in_a_line() {
    for at in 1..ORDER.len() {
        // An empty rule is neither too long nor foreign, and one with both 1 and 2 there is none.
        if ORDER[at - 1] == 1 {
            continue;
        }
        let wrong = Wrong::Swapped(at);
        let library = |_: &str, call: Call| with_verdict(call, &wrong);
        assert_eq!(found(&library), BOTH, "{} first", ORDER[at]);
    }
}

/// What a library does that gives each offset of an accepted file wrongly.
fn with_offsets(mut call: Call, changed: fn(&[u8], usize, u64) -> u64) -> u64 {
    let number = reference::run(borrowed(&mut call));
    if let (Some(0), Call::ReadRuleFile { file, nodes, .. }) = (number, &mut call) {
        for (line, read) in read(file).unwrap().iter().enumerate() {
            for record in nodes[128 * line..].chunks_exact_mut(2).take(read.rule.m()) {
                record[0] = changed(file, line, record[0]);
            }
        }
    }
    reference::returned(number)
}

/// An offset that does not count the parentheses of names, in a line of a file, from 0.
fn without_own_parentheses(file: &[u8], line: usize, offset: u64) -> u64 {
    let own = &own_parentheses(file)[line][..offset as usize];
    offset - own.iter().filter(|&&own| own).count() as u64
}

#[test]
fn the_edges_find_a_library_with_wrong_offsets() {
    let reader = [Callee::ReadRuleFile];
    let short = |_: &str, call: Call| with_offsets(call, |_, _, offset| offset % 65_536);
    assert_eq!(found(&short), reader);
    let own = |_: &str, call: Call| with_offsets(call, without_own_parentheses);
    assert_eq!(found(&own), reader);
    let right = |_: &str, call: Call| with_offsets(call, |_, _, offset| offset);
    assert_eq!(found(&right), []);
}

/// The blocks of a table as a library has them whose offsets have 16 bits.
fn by_short_offsets(rule: &Rule, table: &mut [u64], n: usize) {
    let block = 4 * (n + 1);
    let mut offsets: Vec<usize> = rule
        .special_nodes()
        .map(|at| rule.nodes[at].offset)
        .collect();
    offsets.sort();
    let mut order: Vec<usize> = (0..offsets.len()).collect();
    order.sort_by_key(|&at| offsets[at] % 65_536);
    let blocks: Vec<u64> = table[block..block * (1 + rule.k())].to_vec();
    for (to, &from) in order.iter().enumerate() {
        let moved = &blocks[block * from..block * (from + 1)];
        table[block * (to + 1)..block * (to + 2)].copy_from_slice(moved);
    }
}

#[test]
fn the_edges_find_a_judge_with_short_offsets() {
    let library = |_: &str, mut call: Call| {
        let number = reference::run(borrowed(&mut call));
        if let (
            Some(0),
            Call::JudgeRuleFile {
                file, word, table, ..
            },
        ) = (number, &mut call)
        {
            by_short_offsets(&read_last(file).unwrap(), table, word.len());
        }
        reference::returned(number)
    };
    assert_eq!(found(&library), [Callee::JudgeRuleFile]);
}

/// What a library does that takes another file, wherever the right one is accepted.
fn with_file(call: Call, changed: fn(&[u8]) -> Vec<u8>) -> u64 {
    let taken = match read(file(&call)) {
        Ok(_) => changed(file(&call)),
        Err(_) => file(&call).to_vec(),
    };
    let mut call = call;
    match &mut call {
        Call::ReadRuleFile { file, .. } | Call::JudgeRuleFile { file, .. } => *file = &taken,
        _ => unreachable!("only rule files are asked"),
    }
    reference::returned(reference::run(call))
}

/// The first line of a file.
fn first_line(file: &[u8]) -> Vec<u8> {
    let mut lines = file.split_inclusive(|&byte| byte == b'\n');
    lines.next().unwrap().to_vec()
}

/// A file in which each name has become its line's text after replacement, without parentheses.
fn replaced_bare(file: &[u8]) -> Vec<u8> {
    let mut lines: Vec<[String; 2]> = Vec::new();
    for line in written_lines(file) {
        let [name, mut rule] =
            [line.name, line.rule].map(|part| String::from_utf8(part.into()).unwrap());
        for [name, text] in &lines {
            rule = rule.replace(&format!("<{name}>"), text);
        }
        lines.push([name, rule]);
    }
    let written = |[name, rule]: &[String; 2]| format!("R\t{name}\t{rule}\n");
    lines.iter().map(written).collect::<String>().into()
}

#[test]
fn the_edges_find_a_library_that_replaces_without_parentheses() {
    let library = |_: &str, call: Call| with_file(call, replaced_bare);
    assert_eq!(found(&library), BOTH);
}

#[test]
fn the_edges_find_a_judge_that_judges_another_line() {
    let library = |_: &str, call: Call| match call {
        Call::JudgeRuleFile { .. } => with_file(call, first_line),
        _ => reference::returned(reference::run(call)),
    };
    assert_eq!(found(&library), [Callee::JudgeRuleFile]);
}

#[test]
fn the_edges_find_a_judge_that_looks_at_the_word_first() {
    let library = |_: &str, mut call: Call| {
        let number = reference::run(borrowed(&mut call));
        let Call::JudgeRuleFile { word, answer, .. } = &mut call else {
            return reference::returned(number);
        };
        if number.is_some_and(|number| number > 10) && word.len() > 255 {
            answer[..4].copy_from_slice(&[7, 0, 0, 0]);
            return 7;
        }
        reference::returned(number)
    };
    assert_eq!(found(&library), [Callee::JudgeRuleFile]);
}

#[test]
fn the_edges_find_a_library_with_its_nodes_elsewhere() {
    // One line's nodes directly after the other's.
    let library = |_: &str, mut call: Call| {
        let before = match &call {
            Call::ReadRuleFile { nodes, .. } => nodes.to_vec(),
            _ => Vec::new(),
        };
        let number = reference::run(borrowed(&mut call));
        if let (Some(0), Call::ReadRuleFile { file, nodes, .. }) = (number, &mut call) {
            let records: Vec<u64> = (read(file).unwrap().iter().enumerate())
                .flat_map(|(line, read)| nodes[128 * line..][..2 * read.rule.m()].to_vec())
                .collect();
            nodes.copy_from_slice(&before);
            nodes[..records.len()].copy_from_slice(&records);
        }
        reference::returned(number)
    };
    assert_eq!(found(&library), [Callee::ReadRuleFile]);
}
