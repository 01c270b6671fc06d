//! The known cases of document 01: C1 to C12, Example 1 of document 004, and the traps.

use second::judge::{judge, Answer};
use second::rule;

type Spans = Vec<(usize, usize)>;

/// The answer without a limit that matters, and the table, which has room for every special node.
fn judged(rule: &str, word: &str) -> (Answer, Vec<u64>) {
    let mut table = vec![0; 8 * (word.len() + 1) * 4];
    let answer = judge(rule.as_bytes(), word.as_bytes(), u64::MAX, &mut table);
    (answer, table)
}

/// Every bit that is 1 in the first block, whether it belongs to a span or not.
fn ones(table: &[u64], n: usize) -> Spans {
    let is_one = |i: usize, j: usize| table[4 * i + j / 64] >> (j % 64) & 1 == 1;
    let every = (0..=n).flat_map(|i| (0..256).map(move |j| (i, j)));
    every.filter(|&(i, j)| is_one(i, j)).collect()
}

fn all_spans(n: usize) -> Spans {
    (0..=n).flat_map(|i| (i..=n).map(move |j| (i, j))).collect()
}

fn all_but(n: usize, missing: (usize, usize)) -> Spans {
    all_spans(n)
        .into_iter()
        .filter(|&span| span != missing)
        .collect()
}

#[test]
fn c1_to_c12() {
    let cases = [
        ("C1", "1", "", vec![(0, 0)], Some(2)),
        ("C2", "0", "a", vec![], Some(2)),
        ("C3", "a", "", vec![], Some(1)),
        ("C4", "!a", "a", vec![(0, 0), (1, 1)], Some(7)),
        ("C5", "!0", "ab", all_spans(2), Some(12)),
        ("C6", "a*", "aa", all_spans(2), Some(18)),
        ("C7", "a&a", "a", vec![(0, 1)], Some(9)),
        ("C8", "(a&ab)(bc|c)", "abc", vec![], None),
        ("C9", "a(bc|c)&ab(bc|c)", "abc", vec![(0, 3)], None),
        ("C10", "!ab", "ab", vec![(1, 2)], None),
        ("C11", "!(ab)", "ab", all_but(2, (0, 2)), None),
        ("C12", "!a*", "aa", vec![], None),
    ];
    for (name, rule, word, spans, count) in cases {
        let (answer, table) = judged(rule, word);
        assert_eq!((answer.number, answer.place), (0, 0), "{name}");
        assert_eq!(answer.found, spans.len() as u64, "{name}");
        assert_eq!(ones(&table, word.len()), spans, "{name}");
        if let Some(count) = count {
            assert_eq!(answer.count, count, "{name}");
        }
    }
}

#[test]
fn example_1_of_document_004() {
    let text = "((ttt)*t&(tttt)*ttt)bt*".replace('t', "(a|b)");
    let rule = rule::read(text.as_bytes()).unwrap();
    assert_eq!((rule.m(), rule.k()), (52, 1));

    let (answer, table) = judged(&text, "aaaaaaaba");
    assert_eq!(answer.number, 0);
    assert!(ones(&table, 9).contains(&(0, 9)));

    let (answer, table) = judged(&text, "ababaaaa");
    assert_eq!(answer.number, 0);
    assert!(!ones(&table, 8).contains(&(0, 8)));
}

#[test]
fn example_1_holds_the_language_it_was_made_for() {
    // A word belongs if b follows its first i letters for some i that is 7 modulo 12.
    let text = "((ttt)*t&(tttt)*ttt)bt*".replace('t', "(a|b)");
    let word = "abbabbabababababbaabbabababbb";
    let belongs = |span: &str| {
        span.bytes()
            .enumerate()
            .any(|(i, b)| i % 12 == 7 && b == b'b')
    };
    let (_, table) = judged(&text, word);
    let expected: Spans = all_spans(word.len())
        .into_iter()
        .filter(|&(i, j)| belongs(&word[i..j]))
        .collect();
    assert!(expected.len() > 20);
    assert_eq!(ones(&table, word.len()), expected);
}

#[test]
fn a_tail_is_not_spread_over_an_intersection() {
    let (_, apart) = judged("(a&ab)(bc|c)", "abc");
    let (_, spread) = judged("a(bc|c)&ab(bc|c)", "abc");
    assert!(!ones(&apart, 3).contains(&(0, 3)));
    assert!(ones(&spread, 3).contains(&(0, 3)));
}

#[test]
fn a_complement_has_no_bits_below_the_diagonal_or_beyond_n() {
    for (rule, word) in [
        ("!0", "abcab"),
        ("!a", "aaa"),
        ("b!(ab)", "bbb"),
        ("!0", ""),
    ] {
        let n = word.len();
        let (_, table) = judged(rule, word);
        let spans = ones(&table, n);
        assert!(!spans.is_empty(), "{rule}");
        assert!(spans.iter().all(|&(i, j)| i <= j && j <= n), "{rule}");
    }
}

#[test]
fn a_star_finds_its_spans_from_every_start() {
    let (answer, table) = judged("a*", "aaaa");
    assert_eq!(ones(&table, 4), all_spans(4));
    // From start i: the star's entry at i, the other three from i on, but the inner exit not at i.
    assert_eq!(
        answer.count,
        (0..=4).map(|i| 1 + 3 * (5 - i) - 1).sum::<u64>()
    );
}

#[test]
fn a_star_around_the_empty_word_finishes() {
    assert_eq!(
        judged("1*", "").0,
        Answer {
            number: 0,
            place: 0,
            found: 1,
            count: 4
        }
    );
    // Each further star adds its own two states.
    assert_eq!(judged("(1*)*", "").0.count, 6);
    assert_eq!(judged("((1*)*)*", "").0.count, 8);
    // The exit of 0 is not reached.
    assert_eq!(judged("0*", "").0.count, 3);
}
