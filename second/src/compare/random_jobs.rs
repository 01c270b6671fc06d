//! Random whole jobs: good ones, ones damaged in any part, cut off, or longer than is read.

use super::job_edges;
use crate::generate::{any_byte, change_byte, spoil_leaf};
use crate::limits::{LAST_SECOND, MAX_JOB_BYTES, MAX_RULE_BYTES};
use crate::lines::{good_line, joined, Line};
use crate::random::Random;
use crate::random_stars::repeat_stars;
use crate::{random_calls, random_days, random_rules};

/// What may stand for the `R` and the tab.
const WRONG_LEADS: [&[u8]; 13] = [
    b"", b"R", b"\t", b"r\t", b"R ", b"R\t\t", b"RR\t", b" R\t", b"\tR\t", b"E\t", b"R\0",
    b"\xd2\t", b"\nR\t",
];

/// What may stand for the newline behind the rule.
const WRONG_ENDS: [&[u8]; 9] = [
    b"", b"\r", b"\r\n", b"\n\n", b"\t\n", b" \n", b"\0\n", b"\n\0", b"\xff\n",
];

/// Lengths of words about the bounds.
pub const LENGTHS: [usize; 10] = [0, 1, 63, 64, 65, 127, 128, 254, 255, 256];

/// Lengths of rules far beyond the bound, about where a job ends that is read.
const LONG_RULES: [usize; 6] = [256, 2_805, 2_806, 2_807, 2_808, 3_000];

/// The most bytes beyond those that are read.
const MOST_UNREAD: usize = 3_000;

/// The parts of a job.
struct Parts {
    lead: Vec<u8>,
    rule: Vec<u8>,
    end: Vec<u8>,
    lines: Vec<Line>,
}

/// A random job; of any kind that there is, mostly with few events.
pub fn job(random: &mut Random) -> Vec<u8> {
    if random.one_in(10) {
        let rule = random_calls::good_rule(random);
        return job_edges::job(&rule, &random_days::day(random));
    }
    let mut parts = good_parts(random);
    for _ in 0..random.pick(&[0, 0, 0, 1, 1, 2]) {
        damage(random, &mut parts);
    }
    let mut job = [parts.lead, parts.rule, parts.end, joined(&parts.lines)].concat();
    damage_bytes(random, &mut job);
    job
}

/// The parts of a job that is accepted, unless its rule is no sentence or its word too long.
fn good_parts(random: &mut Random) -> Parts {
    let rule = match random.below(16) {
        0 | 1 => random_rules::text(random),
        2 => deeply_nested(random, 0),
        _ => random_calls::good_rule(random),
    };
    let n = word_length(random);
    let word = random_calls::word_of(random, &rule, n);
    let seconds = random_days::rising_seconds(random, n);
    let events = seconds.into_iter().zip(word);
    Parts {
        lead: b"R\t".to_vec(),
        rule,
        end: b"\n".to_vec(),
        lines: events
            .map(|(second, letter)| good_line(second, letter))
            .collect(),
    }
}

/// A short sentence in as many parentheses as a rule's bytes allow, or in more of them.
pub fn deeply_nested(random: &mut Random, more: usize) -> Vec<u8> {
    let inner = random.pick(&[&b"a"[..], b"z*", b"!a", b"a|A", b"(aB)c&c", b"[Za]", b"."]);
    let depth = (MAX_RULE_BYTES - inner.len()) / 2 + more;
    [&vec![b'('; depth], inner, &vec![b')'; depth]].concat()
}

/// The length of a word: mostly short, now and then at a bound.
fn word_length(random: &mut Random) -> usize {
    match random.below(6) {
        0 => random.pick(&LENGTHS),
        1 | 2 => random.below(8),
        _ => random.below(40),
    }
}

/// Damages one part.
fn damage(random: &mut Random, parts: &mut Parts) {
    match random.below(12) {
        0 => parts.lead = random.pick(&WRONG_LEADS).to_vec(),
        1 => parts.end = random.pick(&WRONG_ENDS).to_vec(),
        2 => parts.rule = bad_rule(random),
        3 => {
            let byte = random.pick(b"\0\x80\xff\n\r\t @[\\]^_`{");
            change_byte(random, &mut parts.rule, byte, usize::MAX);
        }
        4 => spoil_leaf(random, &mut parts.rule, usize::MAX),
        5 => repeat_stars(random, &mut parts.rule, usize::MAX),
        _ => random_days::damage(random, &mut parts.lines),
    }
}

/// No rule, one that is much too long, or any text.
fn bad_rule(random: &mut Random) -> Vec<u8> {
    match random.below(3) {
        0 => Vec::new(),
        1 => vec![b'a'; random.pick(&LONG_RULES)],
        _ => random_rules::text(random),
    }
}

/// Leaves the bytes as they are, or changes one, takes some off the end, or adds some there.
fn damage_bytes(random: &mut Random, job: &mut Vec<u8>) {
    match random.below(24) {
        0 | 1 => {
            let byte = any_byte(random);
            change_byte(random, job, byte, usize::MAX);
        }
        2 => job.truncate(random.below(job.len() + 1)),
        3 => drop(job.pop()),
        4 => job.push(random.pick(b"\n\r\0E")),
        5 => lengthen(random, job),
        _ => {}
    }
}

/// Adds lines up to about the bytes that are read, or beyond them.
fn lengthen(random: &mut Random, job: &mut Vec<u8>) {
    let length = match random.below(3) {
        0 => MAX_JOB_BYTES - 2 + random.below(5),
        1 => MAX_JOB_BYTES + random.below(MOST_UNREAD),
        _ => job.len() + random.below(MAX_JOB_BYTES),
    };
    let second = random.pick(&[0, LAST_SECOND as usize]);
    let line = good_line(second, random.pick(b"aA")).concat();
    let more = length.saturating_sub(job.len());
    job.extend(line.iter().cycle().take(more));
}
