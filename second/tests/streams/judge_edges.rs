//! The command `edges` for the judge: answers that document 01 gives by hand, nothing left out.

use std::collections::BTreeSet;
use std::sync::OnceLock;

use second::rule::read;

use crate::judge::{calls, check_answer, Answer, Call};
use crate::{answer_lines, stream};

/// The edges of both streams with their answers, asked for once for all tests.
fn edges() -> &'static [(Call, Answer)] {
    static EDGES: OnceLock<Vec<(Call, Answer)>> = OnceLock::new();
    EDGES.get_or_init(|| {
        let names = ["edges judge", "edges judge-large"];
        names.into_iter().flat_map(calls).collect()
    })
}

/// The edges with such a rule and word; there must be one.
pub fn of<'a>(edges: &'a [(Call, Answer)], rule: &[u8], word: &[u8]) -> Vec<&'a (Call, Answer)> {
    let is_it = |(call, _): &&(Call, Answer)| call.rule == rule && call.word == word;
    let found: Vec<_> = edges.iter().filter(is_it).collect();
    let (rule, word) = (rule.escape_ascii(), word.escape_ascii());
    assert!(!found.is_empty(), "no edge {rule} on {word}");
    found
}

/// The answer with such a limit; there must be one.
pub fn with_limit<'a>(edges: &[&'a (Call, Answer)], limit: u64) -> &'a (Call, Answer) {
    let found = edges.iter().find(|(call, _)| call.limit == limit);
    found.unwrap_or_else(|| panic!("no edge with limit {limit}"))
}

/// The full count of a rule and a word, told by an accepted edge; one below must be refused.
fn full_count(edges: &[(Call, Answer)], rule: &[u8], word: &[u8]) -> u64 {
    let edges = of(edges, rule, word);
    let accepted = edges.iter().find(|(_, answer)| answer.number == 0);
    let count = accepted.expect("an accepted edge").1.count;
    assert_eq!(with_limit(&edges, count).1.number, 0);
    let (call, answer) = with_limit(&edges, count - 1);
    assert_eq!(*answer, call.stopped());
    count
}

/// The needed numbers of the first block from its spans.
pub fn first_block(n: usize, spans: &[(usize, usize)]) -> Vec<u64> {
    let mut block = vec![0; 4 * (n + 1)];
    for (i, j) in spans {
        block[4 * i + j / 64] |= 1 << (j % 64);
    }
    block
}

/// All spans of a word.
pub fn all_spans(n: usize) -> Vec<(usize, usize)> {
    (0..=n).flat_map(|i| (i..=n).map(move |j| (i, j))).collect()
}

/// Checks the first block of every accepted edge with this rule and word.
pub fn check_spans(edges: &[(Call, Answer)], rule: &[u8], word: &[u8], spans: &[(usize, usize)]) {
    let block = first_block(word.len(), spans);
    let edges = of(edges, rule, word);
    let accepted: Vec<_> = edges
        .iter()
        .filter(|(_, answer)| answer.number == 0)
        .collect();
    assert!(!accepted.is_empty());
    for (_, answer) in accepted {
        assert_eq!(answer.found, spans.len() as u64, "{}", rule.escape_ascii());
        assert_eq!(
            answer.table[..block.len()],
            block,
            "{}",
            rule.escape_ascii()
        );
    }
}

#[test]
fn every_answer_is_what_the_definitions_ask() {
    for (call, answer) in edges() {
        check_answer(call, answer);
    }
}

#[test]
fn each_stream_and_its_answers_stay_small() {
    for (name, least) in [("edges judge", 1_000), ("edges judge-large", 150)] {
        let stream = stream(name);
        assert!(stream.len() <= 65_536, "{name}: {} bytes", stream.len());
        let lines = answer_lines(&stream);
        assert!(lines.len() >= least, "{name}: {} cases", lines.len());
        let bytes: usize = lines.iter().map(|line| line.len() + 1).sum();
        assert!(bytes <= 600_000, "{name}: {bytes} bytes of answers");
    }
}

#[test]
fn every_number_of_the_judge_occurs() {
    let edges = edges();
    for number in (0..=10).chain([20]) {
        assert!(
            edges.iter().any(|(_, answer)| answer.number == number),
            "no {number}"
        );
    }
}

/// C1 to C12 as document 01's table has them: rule, word, spans and count, blank counts left out.
pub fn known_days() -> [(&'static str, &'static str, Vec<(usize, usize)>, Option<u64>); 12] {
    let but = |spans: Vec<(usize, usize)>, missing| -> Vec<(usize, usize)> {
        spans.into_iter().filter(|&span| span != missing).collect()
    };
    [
        ("1", "", vec![(0, 0)], Some(2)),
        ("0", "a", vec![], Some(2)),
        ("a", "", vec![], Some(1)),
        ("!a", "a", vec![(0, 0), (1, 1)], Some(7)),
        ("!0", "ab", all_spans(2), Some(12)),
        ("a*", "aa", all_spans(2), Some(18)),
        ("a&a", "a", vec![(0, 1)], Some(9)),
        ("(a&ab)(bc|c)", "abc", vec![], None),
        ("a(bc|c)&ab(bc|c)", "abc", vec![(0, 3)], None),
        ("!ab", "ab", vec![(1, 2)], None),
        ("!(ab)", "ab", but(all_spans(2), (0, 2)), None),
        ("!a*", "aa", vec![], None),
    ]
}

#[test]
fn the_known_days_pass_and_stop_at_their_counts() {
    let edges = edges();
    for (rule, word, spans, count) in known_days() {
        check_spans(edges, rule.as_bytes(), word.as_bytes(), &spans);
        let full = full_count(edges, rule.as_bytes(), word.as_bytes());
        assert!(count.is_none_or(|count| count == full), "{rule}");
    }
}

#[test]
fn example_1_tells_its_words_apart() {
    let edges = edges();
    let rule = "((ttt)*t&(tttt)*ttt)bt*".replace('t', "(a|b)");
    let span_obeys = |word: &str, i: usize, j: usize| {
        full_count(edges, rule.as_bytes(), word.as_bytes());
        let edges = of(edges, rule.as_bytes(), word.as_bytes());
        let (_, answer) = edges.iter().find(|(_, answer)| answer.number == 0).unwrap();
        answer.table[4 * i] >> j & 1 == 1
    };
    assert!(span_obeys("aaaaaaaba", 0, 9));
    assert!(!span_obeys("ababaaaa", 0, 8));
    // The same spans within longer words.
    assert!(span_obeys("baaaaaaabab", 1, 10));
    assert!(span_obeys("caaaaaaabac", 1, 10));
    assert!(span_obeys("ababaaaaaaaaaaaba", 8, 17));
    assert!(!span_obeys("ababaaaaaaaaaaaba", 0, 8));
    assert!(span_obeys("aaaaaaabaababaaaa", 0, 9));
    assert!(!span_obeys("aaaaaaabaababaaaa", 9, 17));
    // 19 is 7 modulo 12 too; 31 is the last place and ends the span.
    assert!(span_obeys("aaaaaaaaaaaaaaaaaaabaaaaaaaaaaab", 0, 32));
}

#[test]
fn the_limit_decides_at_the_count_and_nowhere_else() {
    let edges = edges();
    let named = of(edges, b"!a", b"a");
    let table = [1, 0, 0, 0, 2, 0, 0, 0, 1, 0, 0, 0, 2, 0, 0, 0];
    for limit in [7, 8, 12, 13, 256, 65_536, 1 << 32, 1 << 63, u64::MAX] {
        let (call, answer) = with_limit(&named, limit);
        assert_eq!(*answer, call.accepted(7, &table), "limit {limit}");
    }
    for limit in [0, 1, 2, 5, 6] {
        let (call, answer) = with_limit(&named, limit);
        assert_eq!(*answer, call.stopped(), "limit {limit}");
    }
}

#[test]
fn the_programs_limit_can_be_met() {
    let edges = edges();
    for (rule, m) in [("1", 1), ("1&1", 3), ("(1|1)*", 4)] {
        assert_eq!(full_count(edges, rule.as_bytes(), b""), 2 * m, "{rule}");
    }
    // All states at all spans, but for the head's entry and the letter's exit.
    for (n, stars, program_limit) in [(64, 20, 90_090), (255, 63, 4_210_688)] {
        let around = stars as usize - 1;
        let rule = ["(".repeat(around), "a*".into(), ")*".repeat(around)].concat();
        let word = vec![b'a'; n as usize];
        let full = full_count(edges, rule.as_bytes(), &word);
        assert_eq!(
            full,
            2 * stars * (n + 1) * (n + 2) / 2 + (n + 1) + n * (n + 1) / 2
        );
        let edges = of(edges, rule.as_bytes(), &word);
        assert_eq!(with_limit(&edges, program_limit).1.number, 0);
        for limit in [0, 65_536] {
            let (call, answer) = with_limit(&edges, limit);
            assert_eq!(*answer, call.stopped());
        }
    }
}

#[test]
fn stars_around_the_empty_word_finish() {
    let edges = edges();
    let counts = [
        ("1*", 4),
        ("(1|a)*", 7),
        ("((a*)*)*", 7),
        ("(1*)*", 6),
        // The whole rule reaches the entry of ! only; the ! reaches all four states of the star.
        ("!(1*)", 5),
        // Both states of * and of !, and for the ! the letter's entry.
        ("(!a)*", 5),
        // Both states of * and the entry of &, and for the & both letters' entries.
        ("(a&a)*", 5),
        ("0*", 3),
    ];
    for (rule, count) in counts {
        assert_eq!(full_count(edges, rule.as_bytes(), b""), count, "{rule}");
    }
    check_spans(edges, b"(1|a)*", b"ab", &[(0, 0), (0, 1), (1, 1), (2, 2)]);
    check_spans(edges, b"!(1*)", b"ab", &[(0, 1), (0, 2), (1, 2)]);
    check_spans(
        edges,
        b"(!a)*",
        b"ab",
        &[(0, 0), (0, 2), (1, 1), (1, 2), (2, 2)],
    );
    check_spans(edges, b"(a&a)*", b"ab", &[(0, 0), (0, 1), (1, 1), (2, 2)]);
    check_spans(edges, b"((a*)*)*", b"ab", &[(0, 0), (0, 1), (1, 1), (2, 2)]);
    check_spans(edges, b"(1*)*", b"ab", &[(0, 0), (1, 1), (2, 2)]);
}

#[test]
fn the_traps_are_walked() {
    let edges = edges();
    // The tail belongs behind the intersection; spread over both sides it would find abc.
    check_spans(edges, b"(a&ab)(bc|c)", b"aabcabc", &[]);
    check_spans(edges, b"a(bc|c)&ab(bc|c)", b"aabcabc", &[(1, 4), (4, 7)]);
    check_spans(edges, b"!0", b"aaaa", &all_spans(4));
    let empty: Vec<(usize, usize)> = (0..=4).map(|i| (i, i)).collect();
    let spans = all_spans(4);
    let longer = spans.iter().copied().filter(|span| !empty.contains(span));
    check_spans(edges, b"!1", b"aaaa", &longer.collect::<Vec<_>>());
    check_spans(edges, b"!a*", b"aaaa", &[]);
    check_spans(edges, b"a*", b"aaaaa", &all_spans(5));
    // After an inner special node the walk goes on at its own exit: !((a&a)b) misses ab only.
    let missing_ab = spans.iter().copied().filter(|&span| span != (1, 3));
    check_spans(
        edges,
        b"!((a&a)b)",
        b"aabb",
        &missing_ab.collect::<Vec<_>>(),
    );
}

/// The needed numbers if the special blocks stood in the order of the records.
pub fn in_order_of_records(call: &Call, answer: &Answer) -> Vec<u64> {
    let rule = read(&call.rule).unwrap();
    let offsets: Vec<usize> = rule
        .special_nodes()
        .map(|node| rule.nodes[node].offset)
        .collect();
    let numbers = 4 * (call.n() + 1);
    let mut table = answer.table[..numbers].to_vec();
    for &offset in &offsets {
        let lower = offsets.iter().filter(|&&other| other < offset).count();
        table.extend(&answer.table[(1 + lower) * numbers..(2 + lower) * numbers]);
    }
    table
}

#[test]
fn seven_special_nodes_tell_the_order_of_their_blocks() {
    let edges = edges();
    let accepted = |rule: &str| -> Vec<&(Call, Answer)> {
        let is_it =
            |(call, answer): &&(Call, Answer)| call.rule == rule.as_bytes() && answer.number == 0;
        edges.iter().filter(is_it).collect()
    };
    let order_shows = |rule: &str| {
        let shows = |(call, answer): &&(Call, Answer)| {
            in_order_of_records(call, answer) != answer.table[..call.need()]
        };
        accepted(rule).iter().any(shows)
    };
    for rule in [
        "!(a|!(b|!(ab|!(1|!(ba|!(aa|!b))))))",
        "a&((a|b)&((1|a|b)&((ab|a|b|1)&(a*b*&((a|b)*&((a|b)*&(a|b)*))))))",
        "!(a&!(b&!(a|!(b&a))))",
        "!(!(!(!(a&b)|a)&b)&a)",
        "!a&!b&!(a&b)&1",
        "1&(!(b&a)&(!b&!a))",
        "((a&!b)*&!a)b&!!b|a",
        "a|!!b&b(!a&(!b&a)*)",
        "a*&(b*&(!a&(!b&!(ab))))",
        "!(!(!(a&b)&a)&b)!b",
    ] {
        assert_eq!(accepted(rule)[0].0.k(), 7, "{rule}");
        assert!(order_shows(rule), "{rule}");
    }
    // Both orders are one, or read alike; what these tell is the languages.
    for rule in [
        "!!!!!!!a",
        "!a!a!b!a!b!b!a",
        "(a|b)*&(a|b)*&(a|b)*&a*b*&(ab|a|b|1)&(1|a|b)&(a|b)&a",
        "a&a&a&a&a&a&a&a",
    ] {
        assert_eq!(accepted(rule)[0].0.k(), 7, "{rule}");
        assert!(!order_shows(rule), "{rule}");
    }
}

#[test]
fn every_short_sentence_is_judged() {
    let edges = edges();
    let signs = b"ab01|&!*";
    let mut texts: Vec<Vec<u8>> = signs.iter().map(|&sign| vec![sign]).collect();
    for at in 0..8 + 64 {
        let longer = signs.map(|sign| [&texts[at][..], &[sign]].concat());
        texts.extend(longer);
    }
    assert_eq!(texts.len(), 8 + 64 + 512);
    let sentences: Vec<Vec<u8>> = texts
        .into_iter()
        .filter(|text| read(text).is_ok())
        .collect();
    assert!(sentences.len() > 150, "{} sentences", sentences.len());
    for text in sentences {
        let mut found = of(edges, &text, b"aba").into_iter();
        assert!(found.any(|(_, answer)| answer.number == 0));
    }
}

/// The letters as the edges have them in one word.
fn alphabet() -> Vec<u8> {
    (b'a'..=b'z').chain(b'A'..=b'Z').collect()
}

#[test]
fn every_letter_is_itself_in_one_case_alone() {
    for (small, capital) in (b'a'..=b'z').zip(b'A'..=b'Z') {
        check_spans(edges(), &[small], &[small, capital], &[(0, 1)]);
        check_spans(edges(), &[capital], &[small, capital], &[(1, 2)]);
    }
    let alphabet = alphabet();
    let (small, capital) = alphabet.split_at(26);
    check_spans(edges(), small, &alphabet, &[(0, 26)]);
    check_spans(edges(), capital, &alphabet, &[(26, 52)]);
    check_spans(edges(), b"a", b"A", &[]);
    check_spans(edges(), b"A", b"a", &[]);
    check_spans(edges(), b"A", b"A", &[(0, 1)]);
    check_spans(edges(), b"Z", b"zZ", &[(1, 2)]);
    check_spans(edges(), b"z", b"Zz", &[(1, 2)]);
    check_spans(edges(), b"aA", b"aAaa", &[(0, 2)]);
    check_spans(edges(), b"a&A", b"aA", &[]);
}

#[test]
fn a_complement_is_against_all_letters() {
    let but = |n: usize, missing: &[(usize, usize)]| -> Vec<(usize, usize)> {
        let spans = all_spans(n).into_iter();
        spans.filter(|span| !missing.contains(span)).collect()
    };
    let alphabet = alphabet();
    check_spans(edges(), b"!0", &alphabet, &all_spans(52));
    let empty: Vec<(usize, usize)> = (0..=52).map(|i| (i, i)).collect();
    let and_one = |i: usize| [&empty[..], &[(i, i + 1)]].concat();
    check_spans(edges(), b"!a*", &alphabet, &but(52, &and_one(0)));
    check_spans(edges(), b"!Z*", &alphabet, &but(52, &and_one(51)));
    check_spans(edges(), b"!a", b"A", &all_spans(1));
    check_spans(edges(), b"!a", b"aA", &but(2, &[(0, 1)]));
    check_spans(edges(), b"!A", b"a", &all_spans(1));
    check_spans(edges(), b"!A", b"Aa", &but(2, &[(0, 1)]));
    check_spans(edges(), b"!!A", b"aA", &[(1, 2)]);
    check_spans(edges(), b"!a&!A", b"aAb", &but(3, &[(0, 1), (1, 2)]));
}

#[test]
fn sets_fit_their_letters_and_no_others() {
    let edges = edges();
    let alphabet = alphabet();
    let each = |places: std::ops::Range<usize>| -> Vec<(usize, usize)> {
        places.map(|i| (i, i + 1)).collect()
    };
    check_spans(edges, b"[ab]", b"abc", &each(0..2));
    check_spans(edges, b"[ac]", b"abc", &[(0, 1), (2, 3)]);
    check_spans(edges, b"[bc]", b"a", &[]);
    check_spans(edges, b"[Za]", b"YZabz", &each(1..3));
    check_spans(edges, b"[az]", b"AaZz", &[(1, 2), (3, 4)]);
    check_spans(edges, b".", b"zZqQ", &each(0..4));
    check_spans(edges, b".", b"", &[]);
    check_spans(edges, b"!(.*)", b"aA", &[]);
    check_spans(edges, b"a.b", b"acbab", &[(0, 3)]);
    check_spans(edges, b"[ab]&[bc]", b"abc", &[(1, 2)]);
    check_spans(edges, b"[ab][bc]", b"abbc", &[(0, 2), (1, 3), (2, 4)]);
    // a to m and N to Z are the first and the last quarter of the alphabet in this order.
    let quarters = [each(0..13), each(39..52)].concat();
    check_spans(edges, b"[NOPQRSTUVWXYZabcdefghijklm]", &alphabet, &quarters);
    let (call, answer) = of(edges, b".", &alphabet)[0];
    assert_eq!(*answer, call.stopped());
    // The entry at each of 53 starts, and 52 exits.
    assert_eq!(call.limit, 104);
}

#[test]
fn rules_of_64_nodes_are_judged() {
    let edges = edges();
    let word = [b'a'; 33];
    // The star is the last letter's alone: at least 31 letters.
    let rule = ["a".repeat(32), "*".into()].concat();
    let spans = [(0, 31), (0, 32), (0, 33), (1, 32), (1, 33), (2, 33)];
    check_spans(edges, rule.as_bytes(), &word, &spans);
    // Here it is for all 32 together.
    let rule = ["(".repeat(79), "(a)".repeat(32), ")".repeat(79), "*".into()].concat();
    let mut spans: Vec<(usize, usize)> = (0..=33).map(|i| (i, i)).collect();
    spans.extend([(0, 32), (1, 33)]);
    check_spans(edges, rule.as_bytes(), &word, &spans);
    for (rule, word) in [(rule.as_bytes(), &word[..]), (rule.as_bytes(), b"")] {
        assert_eq!(of(edges, rule, word)[0].0.m(), 64);
        full_count(edges, rule, word);
    }
}

#[test]
fn seven_intersections_find_the_letters_of_long_words() {
    for n in [127, 128, 191, 254] {
        let is_a = |i: &usize| i.count_ones().is_multiple_of(2);
        let word: Vec<u8> = (0..n).map(|i| if is_a(&i) { b'a' } else { b'b' }).collect();
        let spans: Vec<(usize, usize)> = (0..n).filter(is_a).map(|i| (i, i + 1)).collect();
        check_spans(edges(), b"a&a&a&a&a&a&a&a", &word, &spans);
    }
}

#[test]
fn words_of_every_length_at_an_edge_are_judged() {
    let edges = edges();
    for n in [
        0, 1, 62, 63, 64, 65, 126, 127, 128, 129, 191, 192, 193, 254, 255,
    ] {
        let word = vec![b'a'; n];
        let steps: Vec<(usize, usize)> = (0..n).map(|i| (i, i + 1)).collect();
        check_spans(edges, b"a", &word, &steps);
        check_spans(edges, b"a*", &word, &all_spans(n));
        let is_at = |(call, _): &&(Call, Answer)| call.n() == n;
        let with_special = |least: usize, number: usize| {
            let mut there = edges.iter().filter(is_at);
            there.any(|(call, answer)| call.k() >= least && answer.number == number)
        };
        assert!(with_special(1, 0), "n {n}");
        assert!(with_special(7, 10), "n {n}");
    }
    let (call, answer) = of(edges, b"a", &[b'a'; 256])[0];
    assert_eq!(*answer, call.refused(7, 0));
}

#[test]
fn the_most_of_everything_comes_together() {
    let edges = edges();
    let largest = |number: usize| {
        let is_largest = |call: &Call| call.k() == 7 && call.n() == 255 && call.m() == 64;
        let mut edges = edges.iter();
        edges.any(|(call, answer)| answer.number == number && is_largest(call))
    };
    assert!(largest(0) && largest(10));
    let table = |length: usize, number: usize| {
        let mut edges = edges.iter();
        edges.any(|(call, answer)| {
            call.need() == 8_192 && call.table == length && answer.number == number
        })
    };
    assert!(table(8_191, 9) && table(8_192, 0) && table(8_193, 10));
}

#[test]
fn tables_are_about_as_long_as_the_need() {
    let edges = edges();
    for (rule, word, need) in [
        ("1", "", 4),
        ("!a", "a", 16),
        ("!a&!b", "", 16),
        ("a&!a", "aba", 48),
        ("!!!!!!!a", "a", 64),
    ] {
        let edges = of(edges, rule.as_bytes(), word.as_bytes());
        let numbers = |table: usize| -> BTreeSet<usize> {
            let there = edges.iter().filter(|(call, _)| call.table == table);
            there.map(|(_, answer)| answer.number).collect()
        };
        for table in [0, 1, need / 4, need - 1] {
            assert_eq!(numbers(table), BTreeSet::from([9]), "{rule}: {table}");
        }
        for table in [need, need + 1, 2 * need] {
            assert_eq!(numbers(table), BTreeSet::from([0, 10]), "{rule}: {table}");
        }
        // A short table comes before a count above the limit.
        let stopped = |(call, _): &&&(Call, Answer)| call.table == need - 1 && call.limit == 0;
        let (call, answer) = edges.iter().find(stopped).unwrap();
        assert_eq!(*answer, call.refused(9, 0));
    }
}

#[test]
fn every_byte_stands_as_a_word() {
    let edges = edges();
    for byte in 0..=255u8 {
        let is_it = |(call, _): &&&(Call, Answer)| call.table == 8;
        let found = of(edges, b"a", &[byte]);
        let (call, answer) = found.iter().find(is_it).unwrap();
        let expected = match byte {
            b'a' => call.accepted(3, &[2, 0, 0, 0, 0, 0, 0, 0]),
            b'A'..=b'Z' | b'b'..=b'z' => call.accepted(2, &[0; 8]),
            _ => call.refused(8, 0),
        };
        assert_eq!(*answer, expected, "byte {byte}");
    }
}

#[test]
fn a_bad_byte_is_8_at_the_first_one() {
    let edges = edges();
    let places: [(&[u8], usize); 11] = [
        (b"`bab", 0),
        (b"a{ab", 1),
        (b"ab\0b", 2),
        (b"aba\xff", 3),
        (b"a[ab", 1),
        (b"aba_", 3),
        (b"a_a@", 1),
        (b"a{a`", 1),
        (b"a`a{", 1),
        (b"\xff\0ab", 0),
        (b"aa\0\xff", 2),
    ];
    for (word, place) in places {
        let (call, answer) = of(edges, b"a*", word)[0];
        assert_eq!(*answer, call.refused(8, place), "{}", word.escape_ascii());
    }
    let mut word = vec![b'a'; 255];
    word[254] = b'_';
    let (call, answer) = of(edges, b"a", &word)[0];
    assert_eq!(*answer, call.refused(8, 254));
    let (_, answer) = of(edges, b"a*", b"aBaC")[0];
    assert_eq!((answer.number, answer.found), (0, 7));
}

#[test]
fn the_ends_of_the_letters_stand_everywhere_in_a_word() {
    let edges = edges();
    for (word, place) in [("?b", 0), ("a?b", 1), ("a?", 1)] {
        let with = |byte: u8| {
            word.replace('?', &char::from(byte).to_string())
                .into_bytes()
        };
        for letter in [65, 90, 97, 122] {
            let word = with(letter);
            let is_a = |i: &usize| word[*i] == b'a';
            let spans: Vec<_> = (0..word.len()).filter(is_a).map(|i| (i, i + 1)).collect();
            check_spans(edges, b"a", &word, &spans);
        }
        for byte in [64, 91, 92, 93, 94, 95, 96, 123] {
            let (call, answer) = of(edges, b"a", &with(byte))[0];
            assert_eq!(*answer, call.refused(8, place), "byte {byte}");
        }
    }
}

#[test]
fn of_several_faults_the_lowest_number_wins() {
    let edges = edges();
    let some = |rule: &[u8], word: &[u8], table: usize, limit: u64| -> &Answer {
        let is_it = |(call, _): &&&(Call, Answer)| call.table == table && call.limit == limit;
        let found = of(edges, rule, word);
        &found.iter().find(is_it).expect("an edge").1
    };
    let long = [b'a'; 256];
    // 7 with enough of everything, with a short table, with no limit, and with a bad byte.
    assert_eq!(some(b"a", &long, 1_028, u64::MAX).number, 7);
    assert_eq!(some(b"a", &long, 3, 0).number, 7);
    let long_and_bad = [&long[..], b"_"].concat();
    assert_eq!(some(b"a", &long_and_bad, 3, u64::MAX).number, 7);
    assert_eq!(some(b"a", &[b'_'; 256], 3, 0).number, 7);
    // 8 with a short table and with no limit.
    for table in [0, 3, 11, 12, 15] {
        for limit in [0, u64::MAX] {
            let answer = some(b"a", b"a_", table, limit);
            assert_eq!((answer.number, answer.place), (8, 1), "{table} {limit}");
        }
    }
}

#[test]
fn the_rule_texts_row_comes_first() {
    let edges = edges();
    let bad: [(&[u8], usize, usize); 12] = [
        (b"", 1, 0),
        (&[b'a'; 256], 2, 0),
        (b"_", 3, 0),
        (b"a_", 3, 1),
        (b"ab\n", 3, 2),
        (b"a|", 4, 2),
        (b")", 4, 0),
        (b"(a", 4, 2),
        (b"ba**", 21, 3),
        (&[b'a'; 33], 5, 0),
        (b"!!!!!!!!a", 6, 0),
        (b"x[ba]", 20, 3),
    ];
    // A good call but for the rule, a limit of 0, no table, a bad byte, and all faults at once.
    let calls: [(&[u8], usize, u64); 6] = [
        (b"a", 9, u64::MAX),
        (b"a", 9, 0),
        (b"a", 0, u64::MAX),
        (b"a_", 9, u64::MAX),
        (b"_a", 3, 0),
        (&[b'_'; 256], 0, 0),
    ];
    for (rule, number, place) in bad {
        for (word, table, limit) in calls {
            let is_it = |(call, _): &&&(Call, Answer)| (call.table, call.limit) == (table, limit);
            let found = of(edges, rule, word);
            let (call, answer) = found.iter().find(is_it).expect("an edge");
            assert_eq!(*answer, call.refused(number, place));
        }
    }
}
