//! What cases show of rule files, how that is counted, and that what never came is a failure.

use second::compare::call::{Callee, Kind, FILE_LINES, FILE_NODES};
use second::compare::check::Checked;
use second::compare::names::{refusals_at_lines, shown, Names};
use second::compare::request::Asked;
use second::compare::run::{Label, Run};
use second::rule_file_chains::{letter_at, special_at_long_offsets, Chain};

/// What a file shows if it is read.
fn of_read(file: &[u8], number: u32, place: usize) -> Vec<Kind> {
    let read = Asked::RuleFile {
        file: file.to_vec(),
        lines: FILE_LINES,
        nodes: FILE_NODES,
    };
    shown(&read, number, place)
}

/// What a file shows if a word is judged by it.
fn of_judged(file: &[u8], number: u32, place: usize) -> Vec<Kind> {
    let judged = Asked::JudgeFile {
        file: file.to_vec(),
        word: b"ab".to_vec(),
        limit: 9,
        table: 99,
    };
    shown(&judged, number, place)
}

#[test]
fn the_line_of_a_refusal_is_seen() {
    assert_eq!(of_read(b"", 16, 1), [Kind::AtLine(16, 1)]);
    assert_eq!(of_judged(b"R\tx\t)\n", 4, 1), [Kind::AtLine(4, 1)]);
    // These have no line, or always the same.
    assert_eq!(of_judged(b"R\tx\ta\n", 8, 1), []);
    assert_eq!(of_judged(b"R\tx\ta\n", 10, 0), []);
    assert_eq!(of_read(b"", 19, 17), []);
    let (text, nodes) = (b")".to_vec(), 128);
    assert_eq!(shown(&Asked::Rule { text, nodes }, 4, 1), []);
}

#[test]
fn names_within_names_are_seen() {
    let nested = [Kind::ShownNames(Names::Nested)];
    let file = b"R\tx\ta\nR\ty\t<x>\nR\tz\tb<y>\n";
    assert_eq!(of_read(file, 0, 0), nested);
    assert_eq!(of_judged(file, 0, 0), nested);
    for file in [
        &b"R\tx\ta\nR\ty\tb\n"[..],
        b"R\tx\ta\nR\ty\t<x>\n",
        b"R\tx\ta\nR\ty\t<x>\nR\tz\t<x><x>\n",
    ] {
        assert_eq!(of_read(file, 0, 0), []);
    }
}

#[test]
fn long_offsets_are_seen() {
    let long = Kind::ShownNames(Names::LongOffset);
    assert!(!of_read(&letter_at(65_535), 0, 0).contains(&long));
    assert!(of_read(&letter_at(65_536), 0, 0).contains(&long));
    // To a judge, only the offset of a special node of the last line makes a difference.
    assert!(!of_judged(&letter_at(65_536), 0, 0).contains(&long));
    let special = special_at_long_offsets();
    assert!(of_judged(&special, 0, 0).contains(&long));
    let last = ["?".repeat(25), "!?".to_string()].concat();
    let long_last = Chain::nested(b'a', 1_500).then(&last);
    assert!(of_judged(&long_last.file, 0, 0).contains(&long));
    let long_before = long_last.then("!a").file;
    assert!(of_read(&long_before, 0, 0).contains(&long));
    assert!(!of_judged(&long_before, 0, 0).contains(&long));
}

#[test]
fn every_refusal_at_every_line_has_to_come_among_the_edges() {
    let all = refusals_at_lines();
    assert_eq!(all.len(), 11 * 16 - 1);
    assert!(!all.contains(&Kind::AtLine(18, 1)));
    for callee in [Callee::ReadRuleFile, Callee::JudgeRuleFile] {
        let (_, edges) = callee.required_of_edges();
        assert!(all.iter().all(|kind| edges.contains(kind)));
        let (_, many) = callee.required();
        assert!(!all.iter().any(|kind| many.contains(kind)));
        let shown = [Names::Nested, Names::LongOffset].map(Kind::ShownNames);
        assert!(shown.iter().all(|kind| many.contains(kind)));
    }
    assert_eq!(
        Callee::RunJob.required_of_edges(),
        Callee::RunJob.required()
    );
}

#[test]
fn a_line_that_never_came_is_a_failure() {
    let mut output = Vec::new();
    let mut run = Run::new(&mut output);
    let label = Label {
        name: "a case".into(),
        again: "compare".into(),
    };
    let (callee, kinds) = Callee::ReadRuleFile.required_of_edges();
    for kind in kinds.into_iter().filter(|&kind| kind != Kind::AtLine(5, 7)) {
        let checked = Checked {
            callee,
            kind: Kind::Number(0),
            shown: vec![kind],
            difference: None,
        };
        run.add(&label, &[(checked, &"a file")]).unwrap();
    }
    assert!(!run.finish(&[callee.required_of_edges()]).unwrap());
    let text = String::from_utf8(output).unwrap();
    assert_eq!(text.matches("MISSING").count(), 1);
    assert!(text.contains("MISSING: wuz_read_rule_file never had refusal 5 at line 7\n"));
    assert!(text.contains("refusal 5 by its line        1 1 1 1 1 1 0 1 1 1 1 1 1 1 1 1\n"));
    assert!(text.contains("refusal 18 by its line       0 1 1 1 1 1 1 1 1 1 1 1 1 1 1 1\n"));
}
