//! Random judge calls for the command `draw`: mostly good ones with a limit near to their count.

use crate::calls::{case as any_call, Call};
use crate::generate::{alphabet, any_byte, grow_tree, sentence, write_tree, Bounds};
use crate::limits::{is_event, LETTERS, MAX_NODES, MAX_RULE_BYTES, MAX_SPECIAL, MAX_WORD};
use crate::random::Random;
use crate::stream::Case;
use crate::{random_rules, rule, table};

/// Any sentence that the judge takes.
const WIDEST: Bounds = Bounds {
    bytes: MAX_RULE_BYTES,
    nodes: MAX_NODES,
    special: MAX_SPECIAL,
};

/// Sentences of a few nodes, which more words obey.
const NARROW: Bounds = Bounds {
    bytes: 30,
    nodes: 14,
    special: MAX_SPECIAL,
};

/// The longest of the ordinary words.
const SHORT_WORD: usize = 40;

/// The longest table that a drawn call lends: a little more than a word of 255 events can need.
const LONGEST_TABLE: usize = 8_448;

/// Bytes that are no events, most of them next to a letter or between the two runs of letters.
const NO_EVENTS: &[u8] = b"@[\\]^_`{\0\xff";

/// A random call, seldom one that is refused for its rule or its word.
pub fn case(random: &mut Random) -> Case {
    match random.below(20) {
        0 => with_bad_rule(random),
        1 => with_bad_byte(random),
        2 => with_long_word(random),
        _ => with_rule_and_word(random),
    }
}

/// A call that only the table's length or the limit can get refused.
fn with_rule_and_word(random: &mut Random) -> Case {
    let rule = good_rule(random);
    let word = good_word(random, &rule);
    let call = Call::new(&rule, &word);
    let (table, limit) = (table_length(random, call.need), limit(random, call.count));
    call.with(table, limit)
}

/// A call whose rule text is refused, whatever else it has.
fn with_bad_rule(random: &mut Random) -> Case {
    let rule = bad_rule(random);
    let mut word = good_word(random, &rule);
    if random.one_in(3) {
        damage(random, &mut word);
    }
    any_call(random.below(12), any_limit(random), &rule, &word)
}

/// A call whose word has one or two bytes that are no events.
fn with_bad_byte(random: &mut Random) -> Case {
    let rule = good_rule(random);
    let mut word = good_word(random, &rule);
    for _ in 0..=random.below(2) {
        damage(random, &mut word);
    }
    let table = table_length(random, need(&rule, &word));
    any_call(table, any_limit(random), &rule, &word)
}

/// A call whose word is too long, by one event or by many.
fn with_long_word(random: &mut Random) -> Case {
    let rule = good_rule(random);
    let n = MAX_WORD + 1 + random.pick(&[0, 0, 0, 1, 45, 300]);
    let mut word = word_of(random, &rule, n);
    if random.one_in(3) {
        damage(random, &mut word);
    }
    let table = if random.one_in(6) {
        need(&rule, &word).min(LONGEST_TABLE)
    } else {
        random.below(12)
    };
    any_call(table, any_limit(random), &rule, &word)
}

/// A sentence within the limits: a small one, any one, or one that has as much as there may be.
pub fn good_rule(random: &mut Random) -> Vec<u8> {
    let letters = alphabet(random);
    match random.below(8) {
        0 => rule_of_many_nodes(random, letters),
        1 | 2 => sentence(random, letters, &WIDEST),
        _ => sentence(random, letters, &NARROW),
    }
}

/// A sentence of about 64 nodes, often with 7 special ones.
fn rule_of_many_nodes(random: &mut Random, letters: &[u8]) -> Vec<u8> {
    loop {
        let nodes = MAX_NODES - random.below(3);
        let tree = grow_tree(random, letters, nodes, MAX_SPECIAL);
        let text = write_tree(random, &tree);
        if text.len() <= MAX_RULE_BYTES {
            return text;
        }
    }
}

/// A rule text that is refused.
fn bad_rule(random: &mut Random) -> Vec<u8> {
    loop {
        let text = random_rules::text(random);
        if rule::read(&text).is_err() {
            return text;
        }
    }
}

/// A word of events, mostly a short one.
fn good_word(random: &mut Random, rule: &[u8]) -> Vec<u8> {
    let n = match random.below(60) {
        0 => MAX_WORD - random.below(3),
        1 => random.below(MAX_WORD + 1),
        2..=20 => random.below(8),
        _ => random.below(SHORT_WORD + 1),
    };
    word_of(random, rule, n)
}

/// A word of so many events, nearly all of them letters of the rule; of the others about half are
/// such a letter in the other case.
pub fn word_of(random: &mut Random, rule: &[u8], n: usize) -> Vec<u8> {
    let mut letters: Vec<u8> = rule
        .iter()
        .copied()
        .filter(|&byte| is_event(byte))
        .collect();
    // A dot fits letters that the rule does not have.
    if letters.is_empty() || rule.contains(&b'.') {
        letters.push(random.pick(b"abAZ"));
    }
    let times = random.pick(&[10, 100, 1_000]);
    let event = |_| {
        let letter = random.pick(&letters);
        match random.below(2 * times) {
            0 => random.pick(LETTERS),
            1 => in_other_case(letter),
            _ => letter,
        }
    };
    (0..n).map(event).collect()
}

/// A small letter for a capital one, and the other way round.
fn in_other_case(letter: u8) -> u8 {
    if letter.is_ascii_lowercase() {
        letter.to_ascii_uppercase()
    } else {
        letter.to_ascii_lowercase()
    }
}

/// Puts a byte that is no event in an event's place, or behind a word that has none.
fn damage(random: &mut Random, word: &mut Vec<u8>) {
    let byte = no_event(random);
    if word.is_empty() {
        word.push(byte);
    } else {
        let at = random.below(word.len());
        word[at] = byte;
    }
}

/// A byte that is no event.
fn no_event(random: &mut Random) -> u8 {
    let byte = any_byte(random);
    if is_event(byte) || random.one_in(2) {
        random.pick(NO_EVENTS)
    } else {
        byte
    }
}

/// How many numbers a table would need for a sentence and a word, if the word were good.
fn need(rule: &[u8], word: &[u8]) -> usize {
    let reading = rule::read(rule).expect("the rule of a call with a bad word is good");
    table::need(reading.k(), word.len())
}

/// A length of the table: mostly the need, else a few more or one less.
fn table_length(random: &mut Random, need: usize) -> usize {
    match random.below(12) {
        0 => need - 1,
        1..=4 => need + 1 + random.below(6),
        _ => need,
    }
}

/// A limit, mostly at the count or beside it.
fn limit(random: &mut Random, count: u64) -> u64 {
    match random.below(16) {
        0..=2 => count - 1,
        3..=8 => count,
        9..=11 => count + 1,
        12 => random.below(2 * count as usize) as u64,
        _ => any_limit(random),
    }
}

/// A limit without a count in mind: none, the highest, or one of any size.
fn any_limit(random: &mut Random) -> u64 {
    match random.below(3) {
        0 => 0,
        1 => u64::MAX,
        _ => random.bits() >> random.below(64),
    }
}
