//! The lines that the commands `cases`, `readings` and `merges` print.

use crate::day::{self, Record};
use crate::generate::{alphabet, change_byte, random_byte, sentence, spoil_leaf, word, Bounds};
use crate::judge::judge;
use crate::limits::{MAX_NODES, MAX_RULE_BYTES, MAX_SPECIAL, MAX_WORD};
use crate::random::Random;
use crate::random_stars::repeat_stars;
use crate::{merge, printed, random_merges, rule, table};

/// One line of the command `cases`: rule text, word, found spans, full work count, m and k.
pub fn case_line(random: &mut Random, rule_bytes: usize, word_length: usize) -> String {
    let bytes = rule_bytes.clamp(1, MAX_RULE_BYTES);
    let bounds = Bounds {
        bytes,
        nodes: MAX_NODES,
        special: MAX_SPECIAL,
    };
    let letters = alphabet(random);
    let text = sentence(random, letters, &bounds);
    let word = word(random, letters, word_length.min(MAX_WORD));
    let rule = rule::read(&text).expect("a random sentence is within the limits");
    let (m, k, n) = (rule.m(), rule.k(), word.len());
    let mut table = vec![0; table::need(k, n)];
    let count = judge(&text, &word, u64::MAX, &mut table).count;
    let spans = table::found_spans(&table, n);
    let spans = printed::list(spans.iter().map(|(i, j)| format!("{i},{j}")), ";");
    let (text, word) = (as_text(&text), as_text(&word));
    format!("{text}\t{word}\t{spans}\t{count}\t{m}\t{k}\n")
}

/// One line of the command `readings`: text, number, place, m, k and the records.
pub fn reading_line(random: &mut Random, most_bytes: usize) -> String {
    let text = good_or_bad_text(random, most_bytes);
    let (verdict, reading) = printed::reading(&text);
    let text = as_text(&text);
    format!("{text}\t{verdict}\t{reading}\n")
}

/// One line of the command `merges`: the events of two days, and those of both merged.
pub fn merge_line(random: &mut Random) -> String {
    let days = random_merges::few(random);
    let days = days.each_ref().map(Vec::as_slice);
    let merged = merge::merged(days).expect("two short good days can be merged");
    let merged = merged
        .iter()
        .map(|event| format!("{}/{}", event.file + 1, shown_record(&event.record)));
    let merged = printed::list(merged, ";");
    let [first, second] = days.map(|day| {
        let records = day::records(day).expect("the days are good");
        printed::list(records.iter().map(shown_record), ";")
    });
    format!("{first}\t{second}\t{merged}\n")
}

/// An event as `second:letter`.
fn shown_record(record: &Record) -> String {
    format!("{}:{}", record.second, char::from(record.letter))
}

/// A random text: bytes without a plan, a sentence, or a sentence with a few bytes changed, with a
/// leaf that has become a bad set or with stars directly after stars.
fn good_or_bad_text(random: &mut Random, most_bytes: usize) -> Vec<u8> {
    if most_bytes == 0 || random.one_in(4) {
        let length = random.below(most_bytes + 1);
        return (0..length).map(|_| random_byte(random)).collect();
    }
    // Beyond both limits, so that refusals 5 and 6 come up where the bytes allow.
    let bounds = Bounds {
        bytes: most_bytes,
        nodes: 2 * MAX_NODES,
        special: 2 * MAX_SPECIAL,
    };
    let letters = alphabet(random);
    let mut text = sentence(random, letters, &bounds);
    if random.one_in(5) {
        spoil_leaf(random, &mut text, most_bytes);
    }
    if random.one_in(12) {
        repeat_stars(random, &mut text, most_bytes);
    }
    for _ in 0..random.below(3) {
        let byte = random_byte(random);
        change_byte(random, &mut text, byte, most_bytes);
    }
    text
}

/// Bytes as text; random texts and words hold printable bytes only.
fn as_text(bytes: &[u8]) -> String {
    bytes.iter().map(|&byte| char::from(byte)).collect()
}
