//! Stars in a row, sentence by sentence of document 02 f): the number 21 and its place.

use second::generate::{sentence, Bounds};
use second::job::output;
use second::judge::judge;
use second::random::Random;
use second::random_stars::repeat_stars;
use second::rule::read;
use second::{judge, rule_file};

/// Number and place; 0 and 0 if accepted.
fn verdict(text: &str) -> (u32, usize) {
    let read = read(text.as_bytes());
    read.map_or_else(|refusal| (refusal.number(), refusal.place), |_| (0, 0))
}

/// Checks the verdicts on some texts.
fn check(cases: &[(&str, (u32, usize))]) {
    for (text, expected) in cases {
        assert_eq!(verdict(text), *expected, "{text}");
    }
}

/// Number and place of a rule file of these rules, whose names are `a`, `b` and so on.
fn file_verdict(rules: &[&str]) -> (u32, usize) {
    let line = |(name, rule): (char, &&str)| format!("R\t{name}\t{rule}\n");
    let file: String = ('a'..).zip(rules).map(line).collect();
    let read = rule_file::read(file.as_bytes());
    read.map_or_else(|refusal| (refusal.number(), refusal.place), |_| (0, 0))
}

/// A text so many times over.
fn many(text: &str, times: usize) -> String {
    text.repeat(times)
}

#[test]
fn two_stars_in_a_row_are_refused_at_the_second() {
    check(&[
        ("a**", (21, 2)),
        ("(a*)**", (21, 5)),
        ("(a**)*", (21, 3)),
        ("a**b", (21, 2)),
        ("ba**", (21, 3)),
        ("a*b**", (21, 4)),
        ("a**|b", (21, 2)),
        ("b|a**", (21, 4)),
        ("b&a**", (21, 4)),
        ("!a**", (21, 3)),
        ("(a|b)**", (21, 6)),
        ("0**", (21, 2)),
        ("1**", (21, 2)),
        (".**", (21, 2)),
        ("[ab]**", (21, 5)),
        ("A**", (21, 2)),
    ]);
}

#[test]
fn the_place_is_that_of_the_first_such_star() {
    check(&[
        ("a***", (21, 2)),
        ("a****", (21, 2)),
        ("a**b**", (21, 2)),
        ("a*b***c**", (21, 4)),
        ("(a**)**", (21, 3)),
        ("(a*)**b***", (21, 5)),
    ]);
    for depth in 0..=125 {
        let nested = [many("(", depth), "a".into(), many(")", depth)].concat();
        assert_eq!(verdict(&format!("{nested}**")), (21, nested.len() + 1));
    }
    // At the very end of 255 bytes.
    let longest = [many("(", 126), "a".into(), many(")", 126), "**".into()].concat();
    assert_eq!((longest.len(), verdict(&longest)), (255, (21, 254)));
}

#[test]
fn stars_that_do_not_directly_follow_a_star_are_fine() {
    for text in [
        "a*", "(a*)*", "((a*)*)*", "((a*))*", "(a*b*)*", "a*b*", "a*(b)*", "a*!b*", "a*|b*",
        "a*&b*", "!(a*)*", "[ab]*.*", "0*1*",
    ] {
        assert_eq!(verdict(text), (0, 0), "{text}");
    }
}

#[test]
fn several_complements_may_still_follow_each_other() {
    check(&[
        ("!!a", (0, 0)),
        ("!!!!!!!a", (0, 0)),
        ("!!(a*)*", (0, 0)),
        ("!!!!!!!!a", (6, 0)),
        ("!!!!!!!a**", (21, 9)),
    ]);
}

#[test]
fn number_4_is_judged_as_before() {
    check(&[
        ("a**|", (4, 4)),
        ("**", (4, 0)),
        ("*", (4, 0)),
        ("(**)", (4, 1)),
        ("a|**", (4, 2)),
        ("!**", (4, 1)),
        ("a**)", (4, 3)),
        ("(a**", (4, 4)),
        ("a**||b", (4, 4)),
        ("a**()", (4, 4)),
        ("[a**]", (4, 2)),
        ("[]**", (4, 1)),
    ]);
    let crowded = format!("a{}(", many("*", 70));
    assert_eq!(verdict(&crowded), (4, 72));
}

#[test]
fn number_21_comes_directly_after_20_and_so_before_5_and_6() {
    check(&[
        ("[ba]**", (20, 2)),
        ("a**[ba]", (20, 5)),
        ("[aa]***|b", (20, 2)),
        ("a**_", (3, 3)),
        ("<x>**", (3, 0)),
    ]);
    let stars = |count: usize| format!("a{}", many("*", count));
    for count in [63, 64, 70, 254] {
        assert_eq!(verdict(&stars(count)), (21, 2), "{count}");
    }
    assert_eq!(verdict(&stars(255)), (2, 0));
    assert_eq!(verdict(&format!("{}**", many("a", 33))), (21, 34));
    assert_eq!(verdict(&format!("b**{}", many("a", 33))), (21, 2));
    assert_eq!(verdict(&format!("{}a**", many("!", 8))), (21, 10));
    assert_eq!(verdict(&format!("{}a**[ba]", many("!", 8))), (20, 13));
}

#[test]
fn a_sentence_with_stars_put_behind_its_operands_is_21() {
    let mut random = Random::new(23);
    let bounds = Bounds {
        bytes: 99,
        nodes: 40,
        special: 9,
    };
    for _ in 0..2_000 {
        let mut text = sentence(&mut random, b"aZ", &bounds);
        assert!(!text.windows(2).any(|pair| pair == b"**"));
        repeat_stars(&mut random, &mut text, 255);
        let first = text.windows(2).position(|pair| pair == b"**").unwrap();
        let refusal = read(&text).unwrap_err();
        assert_eq!((refusal.number(), refusal.place), (21, first + 1));
    }
}

#[test]
fn the_judge_and_jobs_refuse_it() {
    // 7 to 10 come later.
    let word = [b'_'; 256];
    let judge::Answer {
        number,
        place,
        found,
        count,
    } = judge(b"(a*)**", &word, 0, &mut []);
    assert_eq!((number, place, found, count), (21, 5, 0, 0));
    let mut table = [7; 8];
    assert_eq!(judge(b"a**", b"a", u64::MAX, &mut table).number, 21);
    assert_eq!(table, [7; 8]);
    assert_eq!(output(b"R\ta**\nE\t0\ta\n"), "X\t21\t2\n");
    assert_eq!(output(b"R\t(a*)**\nE\n"), "X\t21\t5\n");
    assert_eq!(output(b"R\t(a*)*\n"), "H\t0\t3\t0\t1\t5\nS\t0\t0\n");
}

#[test]
fn in_a_rule_file_the_place_is_the_line_and_the_text_is_that_written() {
    assert_eq!(file_verdict(&["a**"]), (21, 1));
    assert_eq!(file_verdict(&["a*", "<a>*"]), (0, 0));
    assert_eq!(file_verdict(&["a*", "<a>**"]), (21, 2));
    assert_eq!(file_verdict(&["a*", "(<a>*)*"]), (0, 0));
    assert_eq!(file_verdict(&["a*", "<a>*b*", "<b>*", "<c>*"]), (0, 0));
    assert_eq!(file_verdict(&["a", "b**", "<a>"]), (21, 2));
    assert_eq!(file_verdict(&["!!a", "!!<a>"]), (0, 0));
    for line in 1..=16 {
        let mut rules = vec!["a*"; line - 1];
        rules.extend(["a**", "a"]);
        assert_eq!(file_verdict(&rules), (21, line));
    }
}

#[test]
fn in_a_line_17_and_20_come_before_21_and_5_and_6_after_it() {
    assert_eq!(file_verdict(&["a", "<a>**|"]), (4, 2));
    assert_eq!(file_verdict(&["a", "<z>**"]), (17, 2));
    assert_eq!(file_verdict(&["a", "a**<z>"]), (17, 2));
    assert_eq!(file_verdict(&["a", "<a>**[ba]"]), (20, 2));
    let (nodes, special) = (many("<a>", 33), many("!", 8));
    assert_eq!(file_verdict(&["aa", &format!("{nodes}**")]), (21, 2));
    assert_eq!(file_verdict(&["a", &format!("{special}<a>**")]), (21, 2));
    let stars = many("*", 64);
    assert_eq!(file_verdict(&["a", &format!("<a>{stars}")]), (21, 2));
}

#[test]
fn a_judge_by_a_file_refuses_it_before_the_word() {
    let file = b"R\tx\ta*\nR\ty\t<x>**\n";
    let answer = judge::judge_file(file, &[b'_'; 256], 0, &mut []);
    assert_eq!((answer.number, answer.place), (21, 2));
}
