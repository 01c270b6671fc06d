//! Which texts are sentences, and the place of refusal 4, against a chart of the grammar.
//!
//! The recogniser knows no precedence and no reading order: it tries every split of every part.

use std::collections::HashSet;

use second::generate::{sentence, spoil_leaf, Bounds};
use second::random::Random;
use second::random_stars::repeat_stars;
use second::rule::{is_listed, read};

/// One byte for each that the grammar tells apart, but for sets.
const SIGNS: &[u8] = b"a|&!*()";

/// What stands in sets, and a few signs to stand beside them.
const SET_SIGNS: &[u8] = b"[]ab.|*";

/// Whether each part of a text, from i up to j, is a sentence.
struct Chart<'a> {
    text: &'a [u8],
    sentence: Vec<Vec<bool>>,
}

impl<'a> Chart<'a> {
    fn new(text: &'a [u8]) -> Self {
        let n = text.len();
        let mut chart = Chart {
            text,
            sentence: vec![vec![false; n + 1]; n + 1],
        };
        for length in 1..=n {
            for i in 0..=n - length {
                chart.sentence[i][i + length] = chart.derives(i, i + length);
            }
        }
        chart
    }

    /// Whether some rule of formation gives the part, from shorter parts.
    fn derives(&self, i: usize, j: usize) -> bool {
        let (text, is) = (self.text, &self.sentence);
        let leaf = j - i == 1 && (is_letter(&text[i]) || b"01.".contains(&text[i]));
        let letters = j - i > 2 && text[i + 1..j - 1].iter().all(is_letter);
        let set = text[i] == b'[' && text[j - 1] == b']' && letters;
        let complement = text[i] == b'!' && is[i + 1][j];
        let star = text[j - 1] == b'*' && is[i][j - 1];
        let inner = j - i > 2 && is[i + 1][j - 1];
        let parentheses = text[i] == b'(' && text[j - 1] == b')' && inner;
        let sign = |s: usize| matches!(text[s], b'|' | b'&');
        let two_sides = (i + 1..j).any(|s| is[i][s] && (is[s][j] || sign(s) && is[s + 1][j]));
        leaf || set || complement || star || parentheses || two_sides
    }

    /// Whether some sentence of any length begins with the first so many bytes.
    ///
    /// The textbook grammar of beginnings: each rule of formation, cut off after any symbol.
    fn begins_sentence(&self, length: usize) -> bool {
        let (text, is) = (self.text, &self.sentence);
        let sign = |s: usize| matches!(text[s], b'|' | b'&');
        let mut begins = vec![true; length + 1];
        for i in (0..length).rev() {
            let prefixed = matches!(text[i], b'!' | b'(') && begins[i + 1];
            let second_side =
                (i + 1..length).any(|s| is[i][s] && (begins[s] || sign(s) && begins[s + 1]));
            let open_set = text[i] == b'[' && text[i + 1..length].iter().all(is_letter);
            begins[i] = is[i][length] || prefixed || second_side || open_set;
        }
        begins[0]
    }

    /// Number and place that document 01 asks for, as long as the limits on m and k are kept.
    fn verdict(&self) -> (u32, usize) {
        let n = self.text.len();
        if self.sentence[0][n] {
            let fallen = fallen(self.text).map(|place| (20, place));
            let repeated = repeated_star(self.text).map(|place| (21, place));
            return fallen.or(repeated).unwrap_or((0, 0));
        }
        let longest = (0..=n).rev().find(|&length| self.begins_sentence(length));
        (
            4,
            longest.expect("the empty beginning begins every sentence"),
        )
    }
}

/// Whether a byte is a letter.
fn is_letter(byte: &u8) -> bool {
    byte.is_ascii_alphabetic()
}

/// The first letter in the brackets of a sentence that is not above the one before it.
fn fallen(text: &[u8]) -> Option<usize> {
    let mut before = None;
    for (at, &byte) in text.iter().enumerate() {
        match byte {
            b'[' => before = Some(0),
            b']' => before = None,
            _ if before.is_some_and(|before| byte <= before) => return Some(at),
            _ => before = before.map(|_| byte),
        }
    }
    None
}

/// The first star that follows a star.
fn repeated_star(text: &[u8]) -> Option<usize> {
    let mut follows = false;
    for (at, &byte) in text.iter().enumerate() {
        if follows && byte == b'*' {
            return Some(at);
        }
        follows = byte == b'*';
    }
    None
}

/// Number and place of the reader's answer.
fn answer(text: &[u8]) -> (u32, usize) {
    read(text).map_or_else(|refusal| (refusal.number(), refusal.place), |_| (0, 0))
}

/// Calls for every text of exactly so many of the signs.
fn for_each_text(signs: &[u8], length: usize, mut call: impl FnMut(&[u8])) {
    let total = signs.len().pow(length as u32);
    let mut text = vec![0; length];
    for mut rank in 0..total {
        for byte in &mut text {
            *byte = signs[rank % signs.len()];
            rank /= signs.len();
        }
        call(&text);
    }
}

/// How many trees the order of tightness gives for texts of each length, over the signs.
fn trees_by_length(signs: &[u8], longest: usize) -> Vec<usize> {
    let times = |sign: u8| usize::from(signs.contains(&sign));
    let letters = signs.iter().filter(|byte| is_letter(byte)).count();
    let leaves = letters + times(b'.');
    // Any letters will do in brackets.
    let sets = |bytes: usize| times(b'[') * letters.pow(bytes as u32 - 2);
    let none = vec![0; longest + 1];
    let (mut leaf, mut star, mut complement) = (none.clone(), none.clone(), none.clone());
    let (mut joined, mut intersection, mut union) = (none.clone(), none.clone(), none);
    let pairs = |left: &[usize], right: &[usize], bytes: usize| -> usize {
        (1..bytes)
            .map(|first| left[first] * right[bytes - first])
            .sum()
    };
    for n in 1..=longest {
        leaf[n] = match n {
            1 => leaves,
            2 => 0,
            _ => sets(n) + times(b'(') * union[n - 2],
        };
        star[n] = leaf[n] + star[n - 1];
        complement[n] = star[n] + times(b'!') * complement[n - 1];
        joined[n] = complement[n] + pairs(&joined, &complement, n);
        intersection[n] = joined[n] + times(b'&') * pairs(&intersection, &joined, n - 1);
        union[n] = intersection[n] + pairs(&union, &intersection, n - 1);
    }
    union
}

#[test]
fn every_short_text_is_judged_as_the_grammar_says() {
    for (signs, longest) in [(SIGNS, 7), (SET_SIGNS, 6)] {
        let trees = trees_by_length(signs, longest);
        for (length, &trees) in trees.iter().enumerate().skip(1) {
            let mut sentences = 0;
            for_each_text(signs, length, |text| {
                let expected = Chart::new(text).verdict();
                sentences += usize::from(expected.0 != 4);
                assert_eq!(answer(text), expected, "{}", text.escape_ascii());
            });
            // Each sentence has one reading, so there are as many sentences as trees.
            assert_eq!(sentences, trees, "of {length} bytes");
        }
    }
}

#[test]
fn the_grammar_of_beginnings_is_what_completions_give() {
    // A beginning of b bytes leaves at most b parentheses open. So if it can be completed at all,
    // b + 1 bytes do: a letter where one is due, and the closing parentheses. Hence
    // the sentences of up to 7 bytes have every possible beginning of up to 3 bytes. Open brackets
    // take a letter, perhaps, and one byte to close them.
    for (signs, longest, most) in [(SIGNS, 7, 3), (SET_SIGNS, 6, 4)] {
        let mut beginnings: HashSet<Vec<u8>> = HashSet::new();
        for length in 1..=longest {
            for_each_text(signs, length, |text| {
                if Chart::new(text).sentence[0][length] {
                    beginnings.extend((0..=length.min(most)).map(|b| text[..b].to_vec()));
                }
            });
        }
        for length in 0..=most {
            for_each_text(signs, length, |text| {
                let begins = Chart::new(text).begins_sentence(length);
                assert_eq!(begins, beginnings.contains(text), "{}", text.escape_ascii());
            });
        }
    }
}

#[test]
fn longer_random_texts_are_judged_as_the_grammar_says() {
    let mut random = Random::new(2);
    let bounds = Bounds {
        bytes: 40,
        nodes: 40,
        special: 4,
    };
    let mut seen = [0; 22];
    for _ in 0..6_000 {
        let mut text = sentence(&mut random, b"aZ", &bounds);
        for _ in 0..random.below(3) {
            let at = random.below(text.len());
            text[at] = random.pick(b"aB01|&!*()[].");
        }
        if random.one_in(8) {
            spoil_leaf(&mut random, &mut text, 40);
        }
        if random.one_in(8) {
            repeat_stars(&mut random, &mut text, 40);
        }
        if text.iter().all(|&byte| is_listed(byte)) {
            let expected = Chart::new(&text).verdict();
            seen[expected.0 as usize] += 1;
            assert_eq!(answer(&text), expected, "{}", text.escape_ascii());
        }
    }
    assert!(seen[0] > 1_000 && seen[4] > 1_000);
    assert!(seen[20] > 100 && seen[21] > 100);
}
