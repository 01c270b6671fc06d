//! The command `edges known`: short, read whole, and answered as document 01 answers it.

use std::collections::BTreeSet;
use std::sync::OnceLock;

use crate::judge::{calls_of, check_answer, Answer, Call};
use crate::judge_edges::{
    all_spans, check_spans, first_block, in_order_of_records, known_days, of, with_limit,
};
use crate::{answer_lines, answered, cases, stream};

/// How many judge calls there are; they come before all else.
const CALLS: usize = 64;

/// The judge calls with their answers, asked for once for all tests.
fn edges() -> &'static [(Call, Answer)] {
    static EDGES: OnceLock<Vec<(Call, Answer)>> = OnceLock::new();
    EDGES.get_or_init(|| calls_of(&answered(&stream("edges known"))[..CALLS]))
}

/// The limit that the program would lend.
fn program_limit(call: &Call) -> u64 {
    let (m, n) = (call.m() as u64, call.n() as u64);
    m * (n + 1) * (n + 2)
}

/// Checks that the only edge with this rule and word is refused so.
fn check_refused(rule: &[u8], word: &[u8], number: usize, place: usize) -> &'static Call {
    let edges = of(edges(), rule, word);
    assert_eq!(edges.len(), 1, "{}", rule.escape_ascii());
    let (call, answer) = edges[0];
    assert_eq!(
        *answer,
        call.refused(number, place),
        "{}",
        rule.escape_ascii()
    );
    call
}

#[test]
fn the_stream_is_answered_whole_and_stays_small() {
    let stream = stream("edges known");
    assert!(stream.len() <= 6_000, "{} bytes", stream.len());
    let cases = cases(&stream);
    let (calls, numbers) = cases.split_at(CALLS);
    assert!(calls.iter().all(|case| case.header[0] == "judge"));
    assert!(numbers.iter().all(|case| case.header[0] == "numbers"));
    let lines = answer_lines(&stream);
    assert_eq!(lines.len(), cases.len());
    assert_eq!(lines.len(), 69);
    let bytes: usize = lines.iter().map(|line| line.len() + 1).sum();
    assert!(bytes <= 60_000, "{bytes} bytes of answers");
}

#[test]
fn every_answer_is_what_the_definitions_ask() {
    for (call, answer) in edges() {
        check_answer(call, answer);
    }
}

#[test]
fn every_number_of_the_judge_occurs() {
    let numbers: BTreeSet<usize> = edges().iter().map(|(_, answer)| answer.number).collect();
    assert_eq!(numbers, (0..=10).chain([20, 21]).collect());
}

#[test]
fn the_known_days_come_first_and_in_order() {
    for (at, (rule, word, spans, count)) in known_days().into_iter().enumerate() {
        let name = format!("C{}", at + 1);
        let (call, answer) = &edges()[at];
        assert_eq!(
            (&call.rule[..], &call.word[..]),
            (rule.as_bytes(), word.as_bytes()),
            "{name}"
        );
        assert_eq!(
            (call.table, call.limit),
            (call.need(), program_limit(call)),
            "{name}"
        );
        assert_eq!((answer.number, answer.place), (0, 0), "{name}");
        assert_eq!(answer.found, spans.len() as u64, "{name}");
        assert!(count.is_none_or(|count| count == answer.count), "{name}");
        let block = first_block(word.len(), &spans);
        assert_eq!(answer.table[..block.len()], block, "{name}");
    }
}

#[test]
fn the_named_limits_pass_and_stop() {
    // The limits in front of which document 01 says what happens, and the ends.
    let named = of(edges(), b"!a", b"a");
    let table = [1, 0, 0, 0, 2, 0, 0, 0, 1, 0, 0, 0, 2, 0, 0, 0];
    for limit in [7, u64::MAX] {
        let (call, answer) = with_limit(&named, limit);
        assert_eq!(*answer, call.accepted(7, &table), "limit {limit}");
    }
    for limit in [6, 0] {
        let (call, answer) = with_limit(&named, limit);
        assert_eq!(*answer, call.stopped(), "limit {limit}");
    }
    let star = of(edges(), b"1*", b"");
    let (call, answer) = with_limit(&star, 4);
    assert_eq!(*answer, call.accepted(4, &[1, 0, 0, 0]));
    let (call, answer) = with_limit(&star, 3);
    assert_eq!(*answer, call.stopped());
}

#[test]
fn example_1_tells_its_words_apart() {
    let rule = "((ttt)*t&(tttt)*ttt)bt*".replace('t', "(a|b)");
    // Span (0, 8) of the first word obeys too: its eighth letter is the b.
    check_spans(edges(), rule.as_bytes(), b"aaaaaaaba", &[(0, 8), (0, 9)]);
    check_spans(edges(), rule.as_bytes(), b"ababaaaa", &[]);
    assert_eq!(of(edges(), rule.as_bytes(), b"ababaaaa")[0].0.m(), 52);
}

#[test]
fn seven_special_nodes_pass_and_eight_do_not() {
    let (call, answer) = of(edges(), b"!!!!!!!a", b"ab")[0];
    assert_eq!((call.k(), answer.number), (7, 0));
    // Seven complements are one: everything but the letter a.
    let spans = all_spans(2);
    let others: Vec<(usize, usize)> = spans.into_iter().filter(|&span| span != (0, 1)).collect();
    check_spans(edges(), b"!!!!!!!a", b"ab", &others);
    let call = check_refused(b"!!!!!!!!a", b"", 6, 0);
    assert_eq!((call.table, call.limit), (9 * 4, u64::MAX));
}

#[test]
fn seven_nested_special_nodes_tell_their_order() {
    let orders = [
        (
            "(a|b)*&(a|b)*&(a*b*|b*a*)&a*b*&(ab|a|b|1)&(1|a|b)&(a|b)&a",
            "abba",
            true,
        ),
        (
            "a&((a|b)&((1|a|b)&((ab|a|b|1)&(a*b*&((a*b*|b*a*)&((a|b)*&(a|b)*))))))",
            "abba",
            false,
        ),
        ("((!a&b*)a*&!(ab))b|!(b&!(ba))b", "aba", false),
    ];
    for (rule, word, records_rise) in orders {
        let (call, answer) = of(edges(), rule.as_bytes(), word.as_bytes())[0];
        assert_eq!((call.k(), answer.number), (7, 0), "{rule}");
        // No two of the special nodes have the same block.
        let numbers = 4 * (call.n() + 1);
        let blocks: BTreeSet<&[u64]> = answer.table.chunks(numbers).skip(1).collect();
        assert_eq!(blocks.len(), 7, "{rule}");
        let by_records = in_order_of_records(call, answer);
        assert_eq!(by_records == answer.table, records_rise, "{rule}");
    }
}

#[test]
fn rules_of_64_nodes_pass_and_of_65_do_not() {
    let rule = ["a".repeat(32), "*".into()].concat();
    let word = [b'a'; 33];
    assert_eq!(of(edges(), rule.as_bytes(), &word)[0].0.m(), 64);
    // The star is the last letter's alone: at least 31 letters.
    let spans = [(0, 31), (0, 32), (0, 33), (1, 32), (1, 33), (2, 33)];
    check_spans(edges(), rule.as_bytes(), &word, &spans);
    let call = check_refused(&[b'a'; 33], b"", 5, 0);
    assert_eq!((call.table, call.limit), (4, u64::MAX));
}

#[test]
fn words_of_255_events_pass_and_of_256_do_not() {
    check_spans(edges(), b"a*", &[b'a'; 255], &all_spans(255));
    let word = "ab".repeat(128);
    let spans: Vec<(usize, usize)> = (0..254).step_by(2).map(|i| (i, i + 2)).collect();
    check_spans(edges(), b"ab", &word.as_bytes()[..255], &spans);
    check_refused(b"ab", word.as_bytes(), 7, 0);
}

#[test]
fn tables_are_as_long_as_the_need_or_not() {
    let edges = of(edges(), b"!a", b"b");
    let lengths: Vec<usize> = edges.iter().map(|(call, _)| call.table).collect();
    assert_eq!(lengths, [16, 15, 19, 0]);
    let needed = [3, 0, 0, 0, 2, 0, 0, 0, 3, 0, 0, 0, 2, 0, 0, 0];
    for (call, answer) in edges {
        let expected = if call.table < 16 {
            call.refused(9, 0)
        } else {
            call.accepted(7, &needed)
        };
        assert_eq!(*answer, expected, "{} numbers", call.table);
    }
}

#[test]
fn a_bad_byte_is_8_at_the_first_one() {
    for (word, place) in [(b"_ba", 0), (b"ab_", 2), (b"a{_", 1)] {
        let call = check_refused(b"a", word, 8, place);
        assert_eq!((call.table, call.limit), (call.need(), u64::MAX));
    }
}

#[test]
fn the_rule_texts_row_comes_before_the_words_and_the_tables() {
    let bad: [(&[u8], usize, usize); 6] = [
        (b"", 1, 0),
        (&[b'a'; 256], 2, 0),
        (b"a_", 3, 1),
        (b"(a", 4, 2),
        (&[b'a'; 33], 5, 0),
        (b"!!!!!!!!a", 6, 0),
    ];
    for (rule, number, place) in bad {
        let call = check_refused(rule, b"a_", number, place);
        assert_eq!((call.table, call.limit), (0, 0));
    }
}

#[test]
fn the_traps_are_walked() {
    let others: Vec<(usize, usize)> = all_spans(3)
        .into_iter()
        .filter(|span| ![(0, 1), (2, 3)].contains(span))
        .collect();
    check_spans(edges(), b"!a", b"aba", &others);
    check_spans(edges(), b"a*", b"aaa", &all_spans(3));
    check_spans(edges(), b"(1|a)*", b"", &[(0, 0)]);
    check_spans(edges(), b"(1|a)*", b"a", &all_spans(1));
    // All 8 states but the letter's exit.
    let (_, answer) = of(edges(), b"(1|a)*", b"")[0];
    assert_eq!(answer.count, 7);
}

#[test]
fn the_traps_of_the_letters_are_walked() {
    check_spans(edges(), b"A", b"A", &[(0, 1)]);
    check_spans(
        edges(),
        b"!a",
        b"aA",
        &[(0, 0), (0, 2), (1, 1), (1, 2), (2, 2)],
    );
    check_spans(edges(), b"Z", b"zZ", &[(1, 2)]);
    let letters = edges()[47..50].iter();
    let words: Vec<&[u8]> = letters.map(|(call, _)| &call.word[..]).collect();
    assert_eq!(words, [&b"A"[..], b"aA", b"zZ"]);
}

#[test]
fn sets_come_good_and_bad() {
    check_spans(edges(), b"[abc]", b"adc", &[(0, 1), (2, 3)]);
    check_spans(edges(), b"[Za]", b"aZz", &[(0, 1), (1, 2)]);
    check_spans(edges(), b".", b"aZ", &[(0, 1), (1, 2)]);
    // The complement of all words has no word, and nothing is joined to it.
    check_spans(edges(), b"!.*[bc]", b"abac", &[]);
    for (rule, number, place) in [
        (&b"[ba]"[..], 20, 2),
        (b"[aa]", 20, 2),
        (b"[]", 4, 1),
        (b"[ba]|", 4, 5),
    ] {
        check_refused(rule, b"", number, place);
    }
    let rules: Vec<&[u8]> = edges()[50..58]
        .iter()
        .map(|(call, _)| &call.rule[..])
        .collect();
    let sets = [&b"[abc]"[..], b"[Za]", b".", b"!.*[bc]"];
    let bad = [&b"[ba]"[..], b"[aa]", b"[]", b"[ba]|"];
    assert_eq!(rules, [sets, bad].concat());
}

#[test]
fn stars_are_the_last_calls() {
    check_spans(edges(), b"(a*)*", b"aa", &all_spans(2));
    // What is not of a alone, and then any number of b.
    check_spans(edges(), b"!(a*)*b*", b"ab", &[(0, 2), (1, 2)]);
    for (rule, number, place) in [
        (&b"a**"[..], 21, 2),
        (b"(a*)**", 21, 5),
        (b"a**|", 4, 4),
        (b"[ba]**", 20, 2),
    ] {
        check_refused(rule, b"", number, place);
    }
    let rules = edges()[58..].iter().map(|(call, _)| &call.rule[..]);
    let stars = [&b"(a*)*"[..], b"!(a*)*b*"];
    let bad = [&b"a**"[..], b"(a*)**", b"a**|", b"[ba]**"];
    assert!(rules.eq(stars.into_iter().chain(bad)));
}

#[test]
fn a_few_numbers_end_the_stream() {
    let lines = answer_lines(&stream("edges known"));
    let expected = [
        "numbers\t0:1,1:1,2:1,3:1,4:1,5:1,6:1,7:1,8:1,9:1,10:2,11:2",
        "numbers\t98:2,99:2,100:3,101:3",
        "numbers\t998:3,999:3,1000:4,1001:4",
        "numbers\t9999999999999999999:19,10000000000000000000:20,10000000000000000001:20",
        "numbers\t18446744073709551613:20,18446744073709551614:20,18446744073709551615:20",
    ];
    assert_eq!(lines[CALLS..], expected);
}
