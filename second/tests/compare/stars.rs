//! What cases show of stars in a row, that what never came is a failure, and that every short text
//! is asked.

use std::collections::HashMap;

use second::compare::call::{Callee, Kind};
use second::compare::edge_requests::{requests, short_texts};
use second::compare::request::Asked;
use second::compare::run::Run;
use second::compare::stars::{shown, Stars};

use crate::sets::RULE_READERS;

/// What a rewriting shows.
fn of_rewriting(text: &str, out: usize, number: u32) -> Vec<Stars> {
    let text = text.as_bytes().to_vec();
    shown(&Asked::Rewriting { text, out }, number)
}

#[test]
fn what_a_rewriting_does_is_seen() {
    use Stars::*;
    assert_eq!(of_rewriting("a**", 2, 0), [Shorter, RefusedByReader]);
    assert_eq!(
        of_rewriting("a**", 3, 0),
        [Shorter, RefusedByReader, RoomToSpare]
    );
    assert_eq!(of_rewriting("(a*)*", 5, 0), [Unchanged]);
    assert_eq!(of_rewriting("(a*)*", 9, 0), [Unchanged, RoomToSpare]);
    assert_eq!(of_rewriting("a**", 1, 15), []);
    assert_eq!(of_rewriting("a**|", 9, 4), []);
    let (text, nodes) = (b"a**".to_vec(), 128);
    assert_eq!(shown(&Asked::Rule { text, nodes }, 21), []);
}

#[test]
fn what_is_never_shown_is_a_failure() {
    let missing = |callee: Callee| {
        let mut output = Vec::new();
        let run = Run::new(&mut output);
        assert!(!run.finish(&[callee.required()]).unwrap());
        String::from_utf8(output).unwrap()
    };
    let text = missing(Callee::RewriteRule);
    for kind in [
        "accepted",
        "refusal 1",
        "refusal 2",
        "refusal 3",
        "refusal 4",
        "refusal 5",
        "refusal 6",
        "refusal 15",
        "refusal 20",
        "a buffer too short to answer",
        "accepted, made shorter",
        "accepted, left as it is",
        "accepted, 21 by the reader",
        "accepted, room to spare",
    ] {
        let line = format!("MISSING: wuz_rewrite_rule never had {kind}\n");
        assert!(text.contains(&line), "{line}");
    }
    assert!(!text.contains("refusal 21"));
    for callee in RULE_READERS {
        let line = format!("MISSING: {callee} never had refusal 21\n");
        assert!(missing(callee).contains(&line), "{line}");
    }
    for callee in [Callee::ReadRuleFile, Callee::JudgeRuleFile] {
        let (_, kinds) = callee.required_of_edges();
        for line in 1..=16 {
            assert!(kinds.contains(&Kind::AtLine(21, line)));
        }
    }
    assert!(!missing(Callee::ReadDay).contains("refusal 21"));
}

#[test]
fn every_short_text_is_read_and_rewritten_once() {
    let mut asked: [HashMap<Vec<u8>, u32>; 2] = Default::default();
    for request in short_texts() {
        let (call, text) = match request.asked {
            Asked::Rule { text, .. } => (0, text),
            Asked::Rewriting { text, .. } => (1, text),
            other => panic!("{other}"),
        };
        *asked[call].entry(text).or_default() += 1;
    }
    for texts in asked {
        // 6 + 36 + 216 + 1,296 + 7,776 + 46,656.
        assert_eq!(texts.len(), 55_986);
        for (text, times) in texts {
            assert_eq!(times, 1);
            assert!((1..=6).contains(&text.len()));
            assert!(text.iter().all(|byte| b"a*()|!".contains(byte)));
        }
    }
}

#[test]
fn the_named_edges_are_rewritten_with_every_kind_of_buffer() {
    let requests = requests();
    let is_asked = |text: &[u8], length: usize| {
        let text = text.to_vec();
        let asked = Asked::Rewriting { text, out: length };
        requests.iter().any(|request| request.asked == asked)
    };
    let stars = |count: usize| ["a", &"*".repeat(count)].concat();
    for (text, n) in [
        ("a**", 2),
        ("(a*)**", 5),
        ("(a*)*", 5),
        ("(a**)**", 5),
        ("a**b**", 4),
        ("!a**", 3),
        ("a**|b", 4),
        ("[ab]**", 5),
        (".**", 2),
        (&stars(63), 2),
    ] {
        for out in [0, n - 1, n, n + 5] {
            assert!(is_asked(text.as_bytes(), out), "{text}, {out}");
        }
    }
    for text in [
        "a**|",
        "**",
        "[ba]**",
        "a**[ba]",
        "<x>**",
        &stars(64),
        &stars(70),
    ] {
        for out in [0, 5] {
            assert!(is_asked(text.as_bytes(), out), "{text}, {out}");
        }
    }
}
