//! The judge on a rule file: by its last line alone, and with the order of its numbers.

use second::judge::{judge, judge_file, Answer};
use second::judge_edges::KNOWN_DAYS;
use second::random::Random;
use second::random_calls::word_of;
use second::rule_file::read;
use second::rule_file_chains::special_at_long_offsets;

mod common;

use common::literal_spans;

/// What a needless number of a table holds before a call.
const KEPT: u64 = 77;

/// Number, place, found and count of an answer.
fn values(answer: Answer) -> (u32, usize, u64, u64) {
    (answer.number, answer.place, answer.found, answer.count)
}

/// A file of two lines, `x` and `y`.
fn two_lines(first: &str, last: &str) -> Vec<u8> {
    format!("R\tx\t{first}\nR\ty\t{last}\n").into()
}

/// Judges a word by a file with a table of such a length.
fn judged(
    file: &[u8],
    word: &[u8],
    limit: u64,
    table: usize,
) -> ((u32, usize, u64, u64), Vec<u64>) {
    let mut table = vec![KEPT; table];
    let answer = judge_file(file, word, limit, &mut table);
    (values(answer), table)
}

#[test]
fn the_issue_s_own_file() {
    let (answer, table) = judged(&two_lines("a|b", "<x>c"), b"acbc", u64::MAX, 20);
    assert_eq!(answer, (0, 0, 2, 30));
    // Spans (0, 2) and (2, 4).
    assert_eq!((table[0], table[8]), (4, 16));
}

#[test]
fn the_last_line_alone_is_judged() {
    let (answer, _) = judged(&two_lines("a", "b"), b"aab", u64::MAX, 16);
    assert_eq!(answer.2, 1);
    let (answer, _) = judged(&two_lines("b", "a"), b"aab", u64::MAX, 16);
    assert_eq!(answer.2, 2);
    // The table that a line takes is the last one's.
    let (answer, _) = judged(&two_lines("!!!a", "b"), b"aab", u64::MAX, 16);
    assert_eq!(answer.0, 0);
    let (answer, _) = judged(&two_lines("b", "!!!a"), b"aab", u64::MAX, 63);
    assert_eq!(answer.0, 9);
}

#[test]
fn a_name_is_judged_as_what_it_stands_for() {
    for (rule, word) in KNOWN_DAYS {
        let mut table = vec![KEPT; 99];
        let answer = judge(rule.as_bytes(), word.as_bytes(), u64::MAX, &mut table);
        for file in [format!("R\tx\t{rule}\n").into(), two_lines(rule, "<x>")] {
            let by_file = judged(&file, word.as_bytes(), u64::MAX, 99);
            assert_eq!(by_file, (values(answer), table.clone()), "{rule}");
        }
    }
}

#[test]
fn the_numbers_of_a_judgement_have_an_order() {
    let file = two_lines("a", "!<x>");
    let long = [b'_'; 256];
    // The file's own refusals come before all others.
    for (bad, number, place) in [
        (Vec::new(), 16, 1),
        (two_lines("a", "<z>"), 17, 2),
        (two_lines("_", "a"), 3, 1),
        ([two_lines("a", "b"), two_lines("a", "b")].concat(), 18, 3),
    ] {
        let (answer, table) = judged(&bad, &long, 0, 3);
        assert_eq!((answer, table), ((number, place, 0, 0), vec![KEPT; 3]));
    }
    let kept = |length: usize| vec![KEPT; length];
    assert_eq!(judged(&file, &long, 0, 0), ((7, 0, 0, 0), kept(0)));
    assert_eq!(judged(&file, b"aba_b_", 0, 0), ((8, 3, 0, 0), kept(0)));
    assert_eq!(judged(&file, b"a", 0, 15), ((9, 0, 0, 0), kept(15)));
    let zeros = [vec![0; 16], kept(2)].concat();
    assert_eq!(judged(&file, b"a", 6, 18), ((10, 0, 0, 6), zeros));
    let block = [1, 0, 0, 0, 2, 0, 0, 0];
    let table = [&block[..], &block, &kept(2)].concat();
    assert_eq!(judged(&file, b"a", 7, 18), ((0, 0, 2, 7), table));
    assert_eq!(judged(&file, &long[..255], 0, 0).0, (8, 0, 0, 0));
}

#[test]
fn blocks_stand_by_offsets_after_replacement() {
    let file = special_at_long_offsets();
    let last = read(&file).unwrap().pop().unwrap();
    let word = [vec![b'a'; 21], vec![b'b']].concat();
    let block = 4 * (word.len() + 1);
    let (answer, table) = judged(&file, &word, u64::MAX, 3 * block);
    assert_eq!(answer.0, 0);
    let spans = literal_spans(&last.rule, &word);
    let mut special: Vec<usize> = last.rule.special_nodes().collect();
    special.sort_by_key(|&node| last.rule.nodes[node].offset);
    let offsets: Vec<usize> = special
        .iter()
        .map(|&node| last.rule.nodes[node].offset)
        .collect();
    assert!(offsets[0] < 65_536 && offsets[1] - 65_536 < offsets[0]);
    for (at, node) in [last.rule.head(), special[0], special[1]]
        .into_iter()
        .enumerate()
    {
        for (i, row) in spans[node].iter().enumerate() {
            let bits = (0..).zip(row).map(|(j, &obeys)| u64::from(obeys) << j);
            assert_eq!(table[block * at + 4 * i], bits.sum::<u64>());
        }
    }
    assert_ne!(table[block..2 * block], table[2 * block..]);
}

#[test]
fn random_files_are_judged_as_their_last_text() {
    let mut random = Random::new(23);
    let mut compared = 0;
    for _ in 0..1_500 {
        let file = second::compare::random_rule_files::file(&mut random);
        let Some(last) = read(&file).ok().and_then(|mut lines| lines.pop()) else {
            continue;
        };
        if last.text.len() > 255 {
            continue;
        }
        let n = random.below(7);
        let word = word_of(&mut random, &last.text, n);
        let length = (last.rule.k() + 1) * (n + 1) * 4 + random.below(3);
        let limit = if random.one_in(2) {
            u64::MAX
        } else {
            random.below(200) as u64
        };
        let mut table = vec![KEPT; length];
        let answer = values(judge(&last.text, &word, limit, &mut table));
        assert_eq!(judged(&file, &word, limit, length), (answer, table));
        compared += 1;
    }
    assert!(compared > 500, "{compared}");
}
