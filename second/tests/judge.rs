//! The judge call: the table number by number, refusals 7 to 10, and what each does to the table.

#[path = "common/blocks.rs"]
mod blocks;
mod common;

use blocks::expected_table;
use second::generate::{alphabet, sentence, word, Bounds};
use second::judge::{judge, Answer};
use second::random::Random;

/// What a table holds before a call, so that any touch shows.
const DIRT: u64 = 0xdead_beef_0123_4567;

const BOUNDS: Bounds = Bounds {
    bytes: 60,
    nodes: 40,
    special: 7,
};

/// A refusal with found and count 0.
fn refused(number: u32, place: usize) -> Answer {
    Answer {
        number,
        place,
        found: 0,
        count: 0,
    }
}

/// A random rule text and word.
fn random_case(random: &mut Random) -> (Vec<u8>, Vec<u8>) {
    let letters = alphabet(random);
    (
        sentence(random, letters, &BOUNDS),
        word(random, letters, 10),
    )
}

#[test]
fn the_table_is_exactly_the_language_of_each_block() {
    let mut random = Random::new(9);
    for _ in 0..3_000 {
        let (text, word) = random_case(&mut random);
        let expected = expected_table(&text, &word);
        let beyond = random.below(9);
        let mut table = vec![DIRT; expected.len() + beyond];
        let answer = judge(&text, &word, u64::MAX, &mut table);
        let found = expected[..4 * (word.len() + 1)]
            .iter()
            .map(|n| n.count_ones())
            .sum::<u32>();
        assert_eq!((answer.number, answer.place), (0, 0));
        assert_eq!(answer.found, u64::from(found));
        assert_eq!(table[..expected.len()], expected, "{}", text.escape_ascii());
        assert_eq!(table[expected.len()..], vec![DIRT; beyond]);
    }
}

#[test]
fn special_blocks_stand_in_rising_offset() {
    // The ! stands at 0 and the & at 2. On b every span obeys !a, and (0, 1) the & too.
    let mut table = vec![DIRT; 24];
    let answer = judge(b"!a&b", b"b", u64::MAX, &mut table);
    assert_eq!((answer.number, answer.found), (0, 1));
    let whole = [0b10, 0, 0, 0, 0, 0, 0, 0];
    let complement = [0b11, 0, 0, 0, 0b10, 0, 0, 0];
    assert_eq!(table, [whole, complement, whole].concat());

    // Here the outer ! has the lower offset although its record comes last.
    let mut table = vec![DIRT; 24];
    judge(b"!(a&a)", b"a", u64::MAX, &mut table);
    let both = [0b10, 0, 0, 0, 0, 0, 0, 0];
    let neither = [0b01, 0, 0, 0, 0b10, 0, 0, 0];
    assert_eq!(table, [neither, neither, both].concat());
}

#[test]
fn bits_reach_into_all_four_numbers() {
    let word = [b'a'; 255];
    let mut table = vec![DIRT; 2 * 256 * 4];
    let answer = judge(b"!0", &word, u64::MAX, &mut table);
    assert_eq!((answer.number, answer.found), (0, 256 * 257 / 2));
    for i in 0..256usize {
        let from = |number: usize| match i.saturating_sub(64 * number) {
            0 => u64::MAX,
            below if below < 64 => u64::MAX << below,
            _ => 0,
        };
        let row = [from(0), from(1), from(2), from(3)];
        assert_eq!(table[4 * i..4 * i + 4], row);
        assert_eq!(table[1024 + 4 * i..1024 + 4 * i + 4], row);
    }
}

#[test]
fn single_bits_around_the_edges_of_the_numbers() {
    let word = [b'a'; 200];
    let mut table = vec![DIRT; 201 * 4];
    let answer = judge(b"a", &word, u64::MAX, &mut table);
    assert_eq!((answer.number, answer.found), (0, 200));
    assert_eq!(table[4 * 62..4 * 63], [1 << 63, 0, 0, 0]);
    assert_eq!(table[4 * 63..4 * 64], [0, 1, 0, 0]);
    assert_eq!(table[4 * 126..4 * 127], [0, 1 << 63, 0, 0]);
    assert_eq!(table[4 * 127..4 * 128], [0, 0, 1, 0]);
    assert_eq!(table[4 * 191..4 * 192], [0, 0, 0, 1]);
    assert_eq!(table[4 * 199..4 * 200], [0, 0, 0, 1 << 8]);
    assert_eq!(table[4 * 200..], [0, 0, 0, 0]);
}

#[test]
fn limits_just_below_at_and_above_the_count() {
    let mut random = Random::new(10);
    for _ in 0..1_000 {
        let (text, word) = random_case(&mut random);
        let expected = expected_table(&text, &word);
        let mut table = vec![DIRT; expected.len() + 3];
        let full = judge(&text, &word, u64::MAX, &mut table);
        assert!(full.count >= 1);

        for limit in [full.count, full.count + 1] {
            let mut again = vec![DIRT; expected.len() + 3];
            assert_eq!(judge(&text, &word, limit, &mut again), full);
            assert_eq!(again, table);
        }
        for limit in [full.count - 1, 0] {
            let mut cleared = vec![DIRT; expected.len() + 3];
            let answer = judge(&text, &word, limit, &mut cleared);
            assert_eq!(
                answer,
                Answer {
                    number: 10,
                    place: 0,
                    found: 0,
                    count: limit
                }
            );
            assert_eq!(cleared[..expected.len()], vec![0; expected.len()]);
            assert_eq!(cleared[expected.len()..], [DIRT; 3]);
        }
    }
}

#[test]
fn the_edge_of_the_limit_named_by_document_01() {
    let mut table = [DIRT; 16];
    let accepted = Answer {
        number: 0,
        place: 0,
        found: 2,
        count: 7,
    };
    assert_eq!(judge(b"!a", b"a", 7, &mut table), accepted);
    let stopped = Answer {
        number: 10,
        place: 0,
        found: 0,
        count: 6,
    };
    assert_eq!(judge(b"!a", b"a", 6, &mut table), stopped);
    assert_eq!(table, [0; 16]);
}

#[test]
fn a_table_too_short_is_9_and_stays_as_it_was() {
    let mut random = Random::new(11);
    for _ in 0..500 {
        let (text, word) = random_case(&mut random);
        let k = text
            .iter()
            .filter(|&byte| matches!(byte, b'&' | b'!'))
            .count();
        let need = (k + 1) * (word.len() + 1) * 4;
        for limit in [0, u64::MAX] {
            let mut table = vec![DIRT; need - 1];
            assert_eq!(judge(&text, &word, limit, &mut table), refused(9, 0));
            assert_eq!(table, vec![DIRT; need - 1]);
        }
        assert_eq!(judge(&text, &word, u64::MAX, &mut []), refused(9, 0));
        assert_eq!(
            judge(&text, &word, u64::MAX, &mut vec![DIRT; need]).number,
            0
        );
    }
}

#[test]
fn the_need_at_its_smallest_and_largest() {
    assert_eq!(judge(b"1", b"", 2, &mut [DIRT; 4]).number, 0);
    assert_eq!(judge(b"1", b"", 2, &mut [DIRT; 3]), refused(9, 0));
    let word = [b'a'; 255];
    assert_eq!(
        judge(b"!!!!!!!a", &word, u64::MAX, &mut [DIRT; 8192]).number,
        0
    );
    assert_eq!(
        judge(b"!!!!!!!a", &word, u64::MAX, &mut [DIRT; 8191]),
        refused(9, 0)
    );
}

#[test]
fn a_word_over_255_is_7_before_8_9_and_10() {
    assert_eq!(
        judge(b"a", &[b'a'; 255], u64::MAX, &mut [DIRT; 1024]).number,
        0
    );
    let mut table = [DIRT; 1028];
    assert_eq!(
        judge(b"a", &[b'a'; 256], u64::MAX, &mut table),
        refused(7, 0)
    );
    assert_eq!(judge(b"a", &[b'_'; 256], 0, &mut table), refused(7, 0));
    assert_eq!(judge(b"a", &[b'a'; 256], 0, &mut []), refused(7, 0));
    assert_eq!(table, [DIRT; 1028]);
}

#[test]
fn a_byte_outside_the_letters_is_8_at_the_first_one() {
    for byte in 0..=255u8 {
        let mut table = [DIRT; 16];
        let answer = judge(b"a", &[b'a', byte, byte], u64::MAX, &mut table);
        if byte.is_ascii_alphabetic() {
            assert_eq!(answer.number, 0, "byte {byte}");
        } else {
            assert_eq!(answer, refused(8, 1), "byte {byte}");
            assert_eq!(table, [DIRT; 16]);
        }
    }
    assert_eq!(judge(b"a", b"_", u64::MAX, &mut [DIRT; 8]), refused(8, 0));
    let last = [&[b'a'; 254][..], b"0"].concat();
    assert_eq!(
        judge(b"a", &last, u64::MAX, &mut [DIRT; 1024]),
        refused(8, 254)
    );
}

#[test]
fn refusal_8_comes_before_9_and_9_before_10() {
    assert_eq!(judge(b"a", b"a|", 0, &mut []), refused(8, 1));
    assert_eq!(judge(b"a", b"a", 0, &mut [DIRT; 7]), refused(9, 0));
}

#[test]
fn the_rule_texts_row_comes_first() {
    let long = [b'_'; 256];
    let rules: [(&[u8], Answer); 6] = [
        (b"", refused(1, 0)),
        (&long, refused(2, 0)),
        (b"a_", refused(3, 1)),
        (b"a|", refused(4, 2)),
        (&[b'a'; 33], refused(5, 0)),
        (b"!!!!!!!!a", refused(6, 0)),
    ];
    for (rule, expected) in rules {
        assert_eq!(judge(rule, &long, 0, &mut []), expected);
        let mut table = [DIRT; 64];
        assert_eq!(judge(rule, b"a", u64::MAX, &mut table), expected);
        assert_eq!(table, [DIRT; 64]);
    }
}
