//! The rewriter, sentence by sentence of document 02 f): its numbers, its text, and that the language
//! stays the same.

use second::generate::{alphabet, sentence, word, Bounds};
use second::judge::judge;
use second::language::spans_of_nodes;
use second::random::Random;
use second::random_stars::repeat_stars;
use second::rewrite::{rewrite, rewritten};
use second::rule::{read, read_with_repeated_stars, Rule};
use second::star_edges::short_texts;
use second::table;
use second::work::Automaton;

/// What a text is rewritten to, or number and place.
fn made(text: &str) -> Result<String, (u32, usize)> {
    let made = rewritten(text.as_bytes());
    let made = made.map(|made| String::from_utf8(made).unwrap());
    made.map_err(|refusal| (refusal.number(), refusal.place))
}

/// Rewrites into a buffer of dashes; gives n or the number, and the buffer.
fn written(text: &str, out: usize) -> (Result<usize, u32>, String) {
    let mut buffer = vec![b'-'; out];
    let n = rewrite(text.as_bytes(), &mut buffer).map_err(|refusal| refusal.number());
    (n, String::from_utf8(buffer).unwrap())
}

/// A text so many times over.
fn many(text: &str, times: usize) -> String {
    text.repeat(times)
}

#[test]
fn every_run_of_stars_becomes_one_star() {
    for (text, expected) in [
        ("a**", "a*"),
        ("a***", "a*"),
        ("a****", "a*"),
        ("a*****", "a*"),
        ("(a*)**", "(a*)*"),
        ("(a**)*", "(a*)*"),
        ("(a***)**", "(a*)*"),
        ("a**b***c****d", "a*b*c*d"),
        ("a**|b**&c**", "a*|b*&c*"),
        ("!a**", "!a*"),
        ("!!a**", "!!a*"),
        ("0**1**", "0*1*"),
        (".**[ab]***", ".*[ab]*"),
        ("A**z**", "A*z*"),
    ] {
        assert_eq!(made(text).as_deref(), Ok(expected), "{text}");
    }
    let longest = format!("a{}", many("*", 63));
    assert_eq!(made(&longest).as_deref(), Ok("a*"));
}

#[test]
fn nothing_else_changes() {
    for text in [
        "a", "a*", "(a*)*", "((a*)*)*", "((a))*", "!!!!!!!a", "aa", "a*a*", "a|a|a", "0", "11",
        "[Aa]..", "(a*)(a*)",
    ] {
        assert_eq!(made(text).as_deref(), Ok(text));
    }
}

#[test]
fn all_rule_text_checks_but_21_are_made_on_the_text_as_given() {
    let stars = |count: usize| format!("a{}", many("*", count));
    for (text, expected) in [
        (String::new(), (1, 0)),
        (many("a", 256), (2, 0)),
        // Its new text would have two bytes.
        (stars(255), (2, 0)),
        ("a**_".into(), (3, 3)),
        ("a**<x>".into(), (3, 3)),
        ("a**|".into(), (4, 4)),
        ("**".into(), (4, 0)),
        ("a**b)c**".into(), (4, 4)),
        ("[ba]**".into(), (20, 2)),
        ("a**[ba]".into(), (20, 5)),
        // 65 nodes, of which 2 would be left, and 20 comes before 5.
        (stars(64), (5, 0)),
        (stars(70), (5, 0)),
        (stars(254), (5, 0)),
        (format!("{}**", many("a", 32)), (5, 0)),
        (format!("{}[ba]", stars(70)), (20, 73)),
        (format!("{}a**", many("!", 8)), (6, 0)),
        // 5 comes before 6.
        (format!("{}{}", many("!", 8), stars(70)), (5, 0)),
    ] {
        assert_eq!(made(&text), Err(expected), "{text}");
    }
    assert!(made(&format!("{}**", many("a", 31))).is_ok());
    assert!(made(&format!("{}a**", many("!", 7))).is_ok());
    let longest = [many("(", 126), "a".into(), many(")", 126), "**".into()].concat();
    assert_eq!(made(&longest).as_deref(), Ok(&longest[..254]));
}

#[test]
fn a_buffer_shorter_than_the_new_text_is_15_and_stays() {
    assert_eq!(written("a***", 2), (Ok(2), "a*".into()));
    assert_eq!(written("a***", 1), (Err(15), "-".into()));
    assert_eq!(written("a***", 0), (Err(15), String::new()));
    assert_eq!(written("(a*)*", 5), (Ok(5), "(a*)*".into()));
    assert_eq!(written("(a*)*", 4), (Err(15), "----".into()));
}

#[test]
fn what_lies_beyond_n_stays() {
    assert_eq!(written("a***", 4), (Ok(2), "a*--".into()));
    assert_eq!(written("a**b**", 9), (Ok(4), "a*b*-----".into()));
    assert_eq!(written("a", 3), (Ok(1), "a--".into()));
}

#[test]
fn number_15_comes_last() {
    for (text, number) in [
        ("", 1),
        ("_", 3),
        ("a**|", 4),
        ("[ba]", 20),
        ("!!!!!!!!a", 6),
    ] {
        assert_eq!(written(text, 0), (Err(number), String::new()));
        assert_eq!(written(text, 3), (Err(number), "---".into()));
    }
    assert_eq!(written(&many("a", 33), 0).0, Err(5));
    assert_eq!(written(&many("a", 256), 0).0, Err(2));
}

/// The blocks of the table and the full work count of a rule on a word, whatever its stars.
fn judged(rule: &Rule, word: &[u8]) -> (Vec<u64>, u64) {
    let spans = spans_of_nodes(rule, word);
    let mut blocks = vec![0; table::need(rule.k(), word.len())];
    table::fill(&mut blocks, rule, &spans, word.len());
    (blocks, Automaton::new(rule, word, &spans).work_count())
}

/// Checks all that holds of an accepted text and its new text; gives by how much the count falls.
fn check_same(text: &[u8], word: &[u8]) -> u64 {
    let shown = text.escape_ascii();
    let old = read_with_repeated_stars(text).unwrap();
    let made = rewritten(text).unwrap();
    let new = read(&made).unwrap_or_else(|refusal| panic!("{shown}: {refusal:?}"));
    let lost = text.len() - made.len();
    assert_eq!((new.m() + lost, new.k()), (old.m(), old.k()), "{shown}");
    let has_pair = text.windows(2).any(|pair| pair == b"**");
    assert_eq!(lost > 0, has_pair, "{shown}");
    assert_eq!(read(text).is_err(), has_pair, "{shown}");
    assert_eq!(rewritten(&made).as_ref(), Ok(&made), "{shown}");
    let (blocks, count) = judged(&old, word);
    let mut table = vec![0; blocks.len()];
    let answer = judge(&made, word, u64::MAX, &mut table);
    assert_eq!(answer.number, 0, "{shown}");
    assert_eq!(table, blocks, "{shown} on {}", word.escape_ascii());
    assert!(answer.count <= count, "{shown}");
    count - answer.count
}

#[test]
fn the_new_text_has_the_same_spans_and_no_higher_count() {
    let mut random = Random::new(21);
    let bounds = Bounds {
        bytes: 60,
        nodes: 30,
        special: 6,
    };
    let (mut accepted, mut unchanged, mut lower) = (0, 0, 0);
    for round in 0..3_000 {
        let letters = alphabet(&mut random);
        let mut text = sentence(&mut random, letters, &bounds);
        if round % 4 != 0 {
            repeat_stars(&mut random, &mut text, 255);
        }
        let word = word(&mut random, letters, 7);
        if rewritten(&text).is_ok() {
            accepted += 1;
            unchanged += usize::from(read(&text).is_ok());
            lower += usize::from(check_same(&text, &word) > 0);
        }
    }
    assert!(accepted > 2_500, "{accepted}");
    assert!(unchanged > 500 && lower > 1_000, "{unchanged}, {lower}");
}

#[test]
fn every_short_text_is_rewritten_with_the_same_spans() {
    let (mut accepted, mut shorter) = (0, 0);
    for text in short_texts() {
        let by_reader = read(&text).map_err(|refusal| refusal.number());
        match rewritten(&text) {
            Ok(made) => {
                accepted += 1;
                check_same(&text, b"a");
                shorter += usize::from(made != text);
                assert_eq!(made != text, by_reader == Err(21));
            }
            // No short text has too many nodes, so the reader gives the same.
            Err(refusal) => {
                let place = read(&text).unwrap_err().place;
                assert_eq!(by_reader, Err(refusal.number()));
                assert_eq!(place, refusal.place);
            }
        }
    }
    // As many as the grammar has trees, and those in which no star is the side of a star.
    assert_eq!((accepted, accepted - shorter), (593, 494));
}

#[test]
fn the_count_of_the_issue_s_own_rule_falls() {
    // On aa: as a* of C6, and besides the outer star's exit at all six spans, its entry at the
    // three starts, and the inner one's entry at the other three.
    let old = read_with_repeated_stars(b"a**").unwrap();
    let new = read(&rewritten(b"a**").unwrap()).unwrap();
    let ((blocks, count), (new_blocks, new_count)) = (judged(&old, b"aa"), judged(&new, b"aa"));
    assert_eq!(blocks, new_blocks);
    assert_eq!(new_count, 18);
    assert_eq!(count, 30);
}
