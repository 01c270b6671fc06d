//! What cases show of sets, that what never came is a failure, and that every two bytes in brackets
//! are asked.

use std::collections::HashSet;

use second::compare::call::{Callee, Kind};
use second::compare::edge_requests::pairs;
use second::compare::request::Asked;
use second::compare::run::Run;
use second::compare::sets::{shown, Sets};

/// All that read a rule and give what it says.
pub const RULE_READERS: [Callee; 6] = [
    Callee::ReadRule,
    Callee::Judge,
    Callee::RunJob,
    Callee::ReadRuleFile,
    Callee::JudgeRuleFile,
    Callee::Program,
];

/// What a rule shows, in all calls that take it plainly.
fn of_rule(rule: &str, number: u32, place: usize) -> Vec<Sets> {
    let rule = rule.as_bytes().to_vec();
    let read = Asked::Rule {
        text: rule.clone(),
        nodes: 128,
    };
    let judged = Asked::Judge {
        rule: rule.clone(),
        word: b"a.[".to_vec(),
        limit: 9,
        table: 99,
    };
    let job = Asked::Job {
        job: [b"R\t", &rule[..], b"\nE\t0\t[\n"].concat(),
        out: 99,
    };
    let rewriting = Asked::Rewriting {
        text: rule,
        out: 99,
    };
    let all = [read, judged, job, rewriting].map(|asked| shown(&asked, number, place));
    let [read, others @ ..] = all;
    assert!(others.iter().all(|other| *other == read));
    read
}

/// What a rule file shows if it is read, and if a word is judged by it.
fn of_file(file: &str, number: u32, place: usize) -> Vec<Sets> {
    let read = Asked::RuleFile {
        file: file.into(),
        lines: 32,
        nodes: 2_048,
    };
    let judged = Asked::JudgeFile {
        file: file.into(),
        word: b"a.[".to_vec(),
        limit: 9,
        table: 99,
    };
    let [read, judged] = [read, judged].map(|asked| shown(&asked, number, place));
    assert_eq!(read, judged);
    read
}

#[test]
fn sets_are_seen_in_what_is_accepted() {
    assert_eq!(of_rule("a|b", 0, 0), []);
    assert_eq!(of_rule("a[bc]", 0, 0), [Sets::Brackets]);
    assert_eq!(of_rule("a.", 0, 0), [Sets::Dot]);
    assert_eq!(of_rule(".[a]", 0, 0), [Sets::Brackets, Sets::Dot]);
    assert_eq!(of_rule("[ba]", 20, 2), []);
    assert_eq!(of_file("R\tx\t[ab]\nR\ty\ta\n", 0, 0), [Sets::Brackets]);
    assert_eq!(of_file("R\tx\ta\nR\ty\t<x>.\n", 0, 0), [Sets::Dot]);
    assert_eq!(of_file("R\tx\ta\nR\ty\t<x>\n", 0, 0), []);
}

#[test]
fn rules_that_break_in_brackets_are_seen() {
    let broken = [Sets::BrokenBrackets];
    for (rule, place) in [
        ("[", 1),
        ("[]", 1),
        ("[a", 2),
        ("x[ab", 4),
        ("[a|b]", 2),
        ("[.]", 1),
    ] {
        assert_eq!(of_rule(rule, 4, place), broken, "{rule}");
        let file = format!("R\tx\ta\nR\ty\t<x>{rule}\n");
        assert_eq!(of_file(&file, 4, 2), broken, "{rule}");
    }
    for (rule, place) in [("]", 0), ("[a]]", 3), ("[ab]|", 5), ("a)[", 1)] {
        assert_eq!(of_rule(rule, 4, place), [], "{rule}");
        let file = format!("R\tx\ta\nR\ty\t<x>{rule}\n");
        assert_eq!(of_file(&file, 4, 2), [], "{rule}");
    }
    // A name may not stand there, and a malformed one is another fault.
    assert_eq!(of_file("R\tx\ta\nR\ty\t[<x>]\n", 4, 2), broken);
    assert_eq!(of_file("R\tx\ta\nR\ty\t[<x]\n", 4, 2), []);
    let day = Asked::Day {
        file: b"[".to_vec(),
        letters: 1,
        seconds: 1,
    };
    assert_eq!(shown(&day, 12, 1), []);
}

#[test]
fn what_is_never_shown_is_a_failure() {
    for callee in RULE_READERS.into_iter().chain([Callee::RewriteRule]) {
        let mut output = Vec::new();
        let run = Run::new(&mut output);
        assert!(!run.finish(&[callee.required()]).unwrap());
        let text = String::from_utf8(output).unwrap();
        for missing in [
            "refusal 20",
            "accepted, rule with brackets",
            "accepted, rule with dot",
            "refusal 4 within brackets",
        ] {
            let line = format!("MISSING: {callee} never had {missing}\n");
            assert!(text.contains(&line), "{line}");
        }
    }
    for callee in [Callee::ReadRuleFile, Callee::JudgeRuleFile] {
        let (_, kinds) = callee.required_of_edges();
        for line in 1..=16 {
            assert!(kinds.contains(&Kind::AtLine(20, line)));
        }
    }
    let has_20 = |callee: Callee| callee.kinds().contains(&Kind::Number(20));
    assert!(!has_20(Callee::ReadDay) && !has_20(Callee::Troubled));
}

#[test]
fn every_two_bytes_in_brackets_are_asked() {
    let text = |asked: Asked| match asked {
        Asked::Rule { text, .. } => text,
        other => panic!("{other}"),
    };
    let texts: HashSet<Vec<u8>> = pairs().map(|request| text(request.asked)).collect();
    assert_eq!(texts.len(), 65_536);
    for text in texts {
        assert!(matches!(text[..], [b'[', _, _, b']']));
    }
}
