//! The letters: 52 events in rules, words and day lines, each of them itself alone, and no other
//! byte is one.

use second::day;
use second::generate::{alphabet, sentence, word, Bounds};
use second::job::output;
use second::judge::{judge, Answer};
use second::random::Random;
use second::rule::{read, Kind};
use second::set::Set;

/// The letters, written out.
const LETTERS: &[u8] = b"abcdefghijklmnopqrstuvwxyzABCDEFGHIJKLMNOPQRSTUVWXYZ";

/// Whether a byte is a letter, by its number.
fn is_letter(byte: u8) -> bool {
    matches!(byte, 65..=90 | 97..=122)
}

/// The text with a byte for its question mark, and the place of that.
fn with_byte(text: &str, byte: u8) -> (Vec<u8>, usize) {
    let place = text.bytes().position(|other| other == b'?').unwrap();
    let mut text = text.as_bytes().to_vec();
    text[place] = byte;
    (text, place)
}

/// The answer without a limit that matters, and the needed numbers of the table.
fn judged(rule: &[u8], word: &[u8]) -> (Answer, Vec<u64>) {
    let special = rule.iter().filter(|byte| b"&!".contains(byte)).count();
    let mut table = vec![0; (special + 1) * (word.len() + 1) * 4];
    let answer = judge(rule, word, u64::MAX, &mut table);
    (answer, table)
}

/// The spans of a short word whose bit is 1 in the first block.
fn spans(rule: &[u8], word: &[u8]) -> Vec<(usize, usize)> {
    let (answer, table) = judged(rule, word);
    assert_eq!(answer.number, 0, "{}", rule.escape_ascii());
    let is_one = |&(i, j): &(usize, usize)| table[4 * i] >> j & 1 == 1;
    all_spans(word.len()).into_iter().filter(is_one).collect()
}

/// All spans of a word.
fn all_spans(n: usize) -> Vec<(usize, usize)> {
    (0..=n).flat_map(|i| (i..=n).map(move |j| (i, j))).collect()
}

/// All spans of a word but some.
fn all_but(n: usize, missing: &[(usize, usize)]) -> Vec<(usize, usize)> {
    let spans = all_spans(n).into_iter();
    spans.filter(|span| !missing.contains(span)).collect()
}

#[test]
fn a_rule_takes_the_letters_at_every_place_and_no_other_byte() {
    let texts = [
        "?", "?b", "a?b", "a?", "!?", "?|a", "a|?", "?&a", "a&?", "(?)", "?*", "!(?|b)*A",
    ];
    for text in texts {
        for byte in (0..=255).filter(|byte| !b"01|&!*()[].".contains(byte)) {
            let (text, place) = with_byte(text, byte);
            let shown = text.escape_ascii();
            match read(&text) {
                Ok(rule) => {
                    assert!(is_letter(byte), "{shown}");
                    let mut nodes = rule.nodes.iter().filter(|node| node.offset == place);
                    let letter = Kind::OneOf(Set::of(&[byte]));
                    assert!(nodes.any(|node| node.kind == letter), "{shown}");
                }
                Err(refusal) => {
                    assert!(!is_letter(byte), "{shown}");
                    assert_eq!((refusal.number(), refusal.place), (3, place), "{shown}");
                }
            }
        }
    }
}

#[test]
fn a_word_takes_the_letters_at_every_place_and_no_other_byte() {
    for word in ["?", "?b", "a?b", "a?", "abcdefg?"] {
        for byte in 0..=255 {
            let (word, place) = with_byte(word, byte);
            let (answer, _) = judged(b"a", &word);
            let expected = if is_letter(byte) { (0, 0) } else { (8, place) };
            assert_eq!((answer.number, answer.place), expected, "byte {byte}");
        }
    }
}

#[test]
fn a_day_line_takes_the_letters_and_no_other_byte() {
    let days = [
        ("E\t5\t?\n", 1),
        ("E\t5\t?\nE\t5\tb\n", 1),
        ("E\t5\ta\nE\t5\t?\nE\t5\tb\n", 2),
        ("E\t5\ta\nE\t5\t?\n", 2),
    ];
    for (day, line) in days {
        for byte in 0..=255 {
            let (day, _) = with_byte(day, byte);
            let mut letters = [0; 4];
            let answer = day::read(&day, &mut letters, &mut [0; 4]);
            if is_letter(byte) {
                let n = day.len() / 6;
                assert_eq!((answer, letters[line - 1]), (Ok(n), byte), "byte {byte}");
            } else {
                let refusal = answer.unwrap_err();
                assert_eq!((refusal.number(), refusal.place), (12, line), "byte {byte}");
                assert_eq!(letters, [0; 4]);
            }
        }
    }
}

#[test]
fn a_job_takes_the_letters_in_both_its_parts() {
    for byte in (0..=255).filter(|byte| !b"01|&!*()[].\n".contains(byte)) {
        let (job, _) = with_byte("R\t?\nE\t0\tQ\n", byte);
        let expected = match byte {
            b'Q' => "H\t1\t1\t0\t1\t3\nS\t0\t1\n",
            _ if is_letter(byte) => "H\t1\t1\t0\t0\t2\n",
            _ => "X\t3\t0\n",
        };
        assert_eq!(output(&job), expected, "byte {byte}");
        let (job, _) = with_byte("R\tQ\nE\t0\tQ\nE\t0\t?\n", byte);
        let expected = match byte {
            b'Q' => "H\t2\t1\t0\t2\t5\nS\t0\t1\nS\t1\t2\n",
            _ if is_letter(byte) => "H\t2\t1\t0\t1\t4\nS\t0\t1\n",
            _ => "X\t12\t2\n",
        };
        assert_eq!(output(&job), expected, "byte {byte}");
    }
}

#[test]
fn a_capital_alone_is_a_rule_of_one_node() {
    let rule = read(b"A").unwrap();
    assert_eq!((rule.m(), rule.k()), (1, 0));
    assert_eq!(rule.nodes[0].kind, Kind::OneOf(Set::of(b"A")));
    assert_eq!(output(b"R\tA\n"), "H\t0\t1\t0\t0\t1\n");
}

#[test]
fn tags_are_tags_by_their_place() {
    for tag in *b"REHSX" {
        let (day, _) = with_byte("E\t0\t?\n", tag);
        let mut letters = [0];
        assert_eq!(day::read(&day, &mut letters, &mut [9]), Ok(1));
        assert_eq!(letters, [tag]);
        let (rule, _) = with_byte("R\t?*\n", tag);
        let job = [rule, day].concat();
        assert!(output(&job).starts_with("H\t1\t2\t0\t3\t"));
    }
    for tag in LETTERS.iter().filter(|&&tag| tag != b'E') {
        let (day, _) = with_byte("?\t0\tE\n", *tag);
        let refusal = day::read(&day, &mut [0], &mut [0]).unwrap_err();
        assert_eq!((refusal.number(), refusal.place), (12, 1));
    }
    for tag in LETTERS.iter().filter(|&&tag| tag != b'R') {
        assert_eq!(output(&with_byte("?\tE\n", *tag).0), "X\t16\t0\n");
    }
}

#[test]
fn no_letter_is_another_one() {
    for &letter in LETTERS {
        for &event in LETTERS {
            let (answer, table) = judged(&[letter], &[event]);
            let (found, count) = if letter == event { (1, 3) } else { (0, 2) };
            assert_eq!((answer.found, answer.count), (found, count));
            assert_eq!(table[0], 2 * found);
        }
    }
    assert_eq!(spans(b"aA", b"aaAA"), [(1, 3)]);
    assert_eq!(spans(b"a&A", b"aA"), []);
    assert_eq!(spans(b"(Z|z)*", b"zZ"), all_spans(2));
}

#[test]
fn a_complement_is_against_all_words_over_the_letters() {
    assert_eq!(spans(b"!0", LETTERS), all_spans(52));
    for (i, &letter) in LETTERS.iter().enumerate() {
        assert_eq!(spans(b"!0", &[letter]), all_spans(1));
        assert_eq!(spans(b"!1", &[letter]), [(0, 1)]);
        let others = all_but(52, &[(i, i + 1)]);
        assert_eq!(spans(&[b'!', letter], LETTERS), others);
        assert_eq!(spans(&[b'!', b'!', letter], LETTERS), [(i, i + 1)]);
    }
    assert_eq!(spans(b"!a", b"A"), all_spans(1));
    assert_eq!(spans(b"!A", b"a"), all_spans(1));
    assert_eq!(spans(b"!a*", b"aA"), [(0, 2), (1, 2)]);
    assert_eq!(spans(b"!(A*)", b"aA"), [(0, 1), (0, 2)]);
    // Whole: entry and both exits, and entry and exit. The complement: its letter's two entries.
    assert_eq!(judged(b"!a", b"A").0.count, 7);
}

/// The text with every letter in its other case; letters in brackets have to rise again.
fn swapped(text: &[u8]) -> Vec<u8> {
    let swap = |&byte: &u8| if is_letter(byte) { byte ^ 32 } else { byte };
    let mut text: Vec<u8> = text.iter().map(swap).collect();
    for part in text.split_mut(|&byte| byte == b'[').skip(1) {
        let letters = part.iter().position(|&byte| byte == b']').unwrap();
        part[..letters].sort();
    }
    text
}

#[test]
fn to_swap_the_cases_of_rule_and_word_changes_nothing() {
    let mut random = Random::new(15);
    let bounds = Bounds {
        bytes: 60,
        nodes: 40,
        special: 7,
    };
    let mut told_apart = 0;
    for _ in 0..2_000 {
        let letters = alphabet(&mut random);
        let rule = sentence(&mut random, letters, &bounds);
        let word = word(&mut random, letters, 8);
        let answer = judged(&rule, &word);
        assert_eq!(judged(&swapped(&rule), &swapped(&word)), answer);
        told_apart += usize::from(judged(&swapped(&rule), &word) != answer);
    }
    // To swap those of the rule alone mostly does change something.
    assert!(told_apart > 500, "{told_apart}");
}
