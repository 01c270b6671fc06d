//! Random requests to the library: all eight calls, and buffers of every length about the need.

use super::call::{FILE_LINES, FILE_NODES, NODES};
use super::edge_requests::text_length;
use super::job_edges;
use super::lent::Dirt;
use super::mergings::{line_count, lines};
use super::random_jobs::{self, deeply_nested, LENGTHS};
use super::random_rule_files;
use super::request::{Asked, Request};
use super::rewritings::rewritten_length;
use super::rule_file_requests::FileCall;
use crate::calls::Call;
use crate::generate::{any_byte, change_byte};
use crate::judge_edges::BAD_RULES;
use crate::limits::{is_event, MAX_RULE_BYTES, MAX_SPECIAL, MAX_WORD};
use crate::merge_edges::Pair;
use crate::random::Random;
use crate::random_stars::repeat_stars;
use crate::stars::with_single;
use crate::stream::Case;
use crate::{day_edges, random_calls, random_days, random_merges, random_rules};
use crate::{rule_edges, rule_file, rule_file_edges, table};

/// The longest of the rule files on the edges that any draw starts from.
const LONGEST_FILE: usize = 10_000;

/// What any draw starts from: the edges, which also come as they are.
pub struct Draws {
    rules: Vec<Vec<u8>>,
    days: Vec<Vec<u8>>,
    jobs: Vec<Vec<u8>>,
    rule_files: Vec<Vec<u8>>,
}

/// The random source of a case, which depends on nothing but the seed and the case's number.
pub fn source(seed: u64, number: usize) -> Random {
    let mixed = Random::new(seed).bits().wrapping_add(number as u64);
    Random::new(Random::new(mixed).bits())
}

impl Draws {
    /// Gathers the edges.
    pub fn new() -> Self {
        let day = |case| match case {
            Case::Day { bytes, .. } => Some(bytes),
            _ => None,
        };
        Draws {
            rules: rule_edges::texts(),
            days: day_edges::cases().into_iter().filter_map(day).collect(),
            jobs: job_edges::jobs(),
            rule_files: rule_file_edges::files()
                .into_iter()
                .filter(|file| file.len() <= LONGEST_FILE)
                .collect(),
        }
    }

    /// A random request.
    pub fn request(&self, random: &mut Random) -> Request {
        let asked = match random.below(34) {
            0..=4 => self.rule(random),
            5..=9 => self.day(random),
            10..=15 => judgement(random),
            16..=18 => self.rule_file(random),
            19..=21 => {
                let file = self.any_rule_file(random);
                with_word(random, file)
            }
            22..=25 => self.rewriting(random),
            26..=29 => self.merging(random),
            _ => {
                let job = self.job(random);
                with_out(random, job)
            }
        };
        lend(random, asked)
    }

    /// A rule text, an edge or near to one now and then.
    fn rule_text(&self, random: &mut Random) -> Vec<u8> {
        match random.below(24) {
            0 => {
                let more = random.below(2);
                deeply_nested(random, more)
            }
            1..=6 => near_edge(random, &self.rules),
            _ => random_rules::text(random),
        }
    }

    /// A rule text to rewrite: half of them get more stars, and some have been rewritten before.
    fn rewriting(&self, random: &mut Random) -> Asked {
        let mut text = self.rule_text(random);
        match random.below(8) {
            0..=3 => repeat_stars(random, &mut text, MAX_RULE_BYTES + 2),
            4 => text = with_single(&text),
            _ => {}
        }
        let out = out_length(random, rewritten_length(&text));
        Asked::Rewriting { text, out }
    }

    /// A rule text to read.
    fn rule(&self, random: &mut Random) -> Asked {
        let text = self.rule_text(random);
        let nodes = match random.below(16) {
            0 => random.pick(&[0, 1, NODES / 2, NODES - 1]),
            _ => NODES + random.below(5),
        };
        Asked::Rule { text, nodes }
    }

    /// A day to read.
    fn day(&self, random: &mut Random) -> Asked {
        if random.one_in(2) {
            return with_call(random_days::case(random));
        }
        let file = if random.one_in(2) {
            near_edge(random, &self.days)
        } else {
            random_days::day(random)
        };
        let n = file.iter().filter(|&&byte| byte == b'\n').count();
        let mut length = || random.pick(&[n, n + 3, n, n + 3, n, n + 3, n.saturating_sub(1), 0]);
        let (letters, seconds) = (length(), length());
        Asked::Day {
            file,
            letters,
            seconds,
        }
    }

    /// Two days to merge, one of them an edge or near to one now and then.
    fn merging(&self, random: &mut Random) -> Asked {
        let mut files = random_merges::pair(random);
        if random.one_in(8) {
            files[random.below(2)] = near_edge(random, &self.days);
        }
        let (letters, seconds) = merged_lengths(random, &files);
        Asked::Merging {
            files,
            letters,
            seconds,
        }
    }

    /// A rule file to read.
    fn rule_file(&self, random: &mut Random) -> Asked {
        let file = self.any_rule_file(random);
        let mut length = |need: usize| match random.below(24) {
            0 => random.pick(&[0, 1, need / 2, need - 1]),
            _ => need + random.below(5),
        };
        let (lines, nodes) = (length(FILE_LINES), length(FILE_NODES));
        Asked::RuleFile { file, lines, nodes }
    }

    /// A rule file, an edge or near to one now and then.
    fn any_rule_file(&self, random: &mut Random) -> Vec<u8> {
        if random.one_in(8) {
            near_edge(random, &self.rule_files)
        } else {
            random_rule_files::file(random)
        }
    }

    /// A job, an edge or near to one now and then.
    pub fn job(&self, random: &mut Random) -> Vec<u8> {
        if random.one_in(8) {
            near_edge(random, &self.jobs)
        } else {
            random_jobs::job(random)
        }
    }
}

impl Default for Draws {
    fn default() -> Self {
        Draws::new()
    }
}

/// One of the edges, as it is or with one byte changed.
fn near_edge(random: &mut Random, edges: &[Vec<u8>]) -> Vec<u8> {
    let mut bytes = edges[random.below(edges.len())].clone();
    if random.one_in(2) {
        let byte = if random.one_in(2) {
            any_byte(random)
        } else {
            random.pick(b"aAzZ[]._`\n\t01|!*()<>")
        };
        change_byte(random, &mut bytes, byte, usize::MAX);
    }
    bytes
}

/// The call for a random day or a random judge case.
fn with_call(case: Case) -> Asked {
    Asked::case(case, NODES).expect("days and judge cases have calls")
}

/// A judge call: one of the stream's, one for a bad rule, or one with a word's length at a bound.
fn judgement(random: &mut Random) -> Asked {
    match random.below(12) {
        0 => by_bad_rule(random),
        1..=3 => at_bounds(random),
        _ => with_call(random_calls::case(random)),
    }
}

/// A judge call whose rule is refused, and all else perhaps good.
fn by_bad_rule(random: &mut Random) -> Asked {
    Asked::Judge {
        rule: random.pick(&BAD_RULES).to_vec(),
        word: random.pick(&[&b""[..], b"ab", b"aB", b"a_"]).to_vec(),
        limit: random.pick(&[0, u64::MAX]),
        table: random.pick(&[0, table::need(0, 2), table::need(8, 2)]),
    }
}

/// A judge call with a word whose length is at a bound; so are its table and its limit.
fn at_bounds(random: &mut Random) -> Asked {
    let rule = if random.one_in(12) {
        deeply_nested(random, 0)
    } else {
        random_calls::good_rule(random)
    };
    let n = random.pick(&LENGTHS);
    let word = random_calls::word_of(random, &rule, n);
    let (need, count) = if n > MAX_WORD {
        // Refused, with a table and a limit that would do.
        (table::need(MAX_SPECIAL, n), u64::MAX - 1)
    } else {
        let call = Call::new(&rule, &word);
        (call.need, call.count)
    };
    Asked::Judge {
        rule,
        word,
        limit: random.pick(&[0, count - 1, count, count + 1, u64::MAX]),
        table: random.pick(&[need - 1, need, need + 5]),
    }
}

/// A rule file to judge: mostly on a short word, and with a table and a limit about the need.
fn with_word(random: &mut Random, file: Vec<u8>) -> Asked {
    let lines = rule_file::read(&file).unwrap_or_default();
    let text = lines.last().map_or(&b"ab"[..], |line| &line.text);
    let n = match random.below(24) {
        0 => random.pick(&LENGTHS),
        1 => MAX_WORD + 1 + random.below(3),
        2..=9 => random.below(30),
        _ => random.below(8),
    };
    let mut word = random_calls::word_of(random, text, n);
    if n > 0 && random.one_in(12) {
        word[random.below(n)] = random.pick(b"_@[`{<\0\xff");
    }
    if lines.is_empty() || n > MAX_WORD || !word.iter().all(|&byte| is_event(byte)) {
        // Refused, whatever the table and the limit are.
        return Asked::JudgeFile {
            file,
            word,
            limit: random.pick(&[0, u64::MAX]),
            table: random.pick(&[0, table::need(0, 2), table::need(MAX_SPECIAL, n)]),
        };
    }
    let call = FileCall::new(file, &word);
    let (need, count) = (call.need, call.count);
    let table = random.pick(&[need, need, need, need + 5, need + 5, need - 1]);
    let limit = random.pick(&[count, count, count + 1, count - 1, u64::MAX, 0]);
    call.with(table, limit)
}

/// A job with a buffer for its text: mostly enough, else one byte too few or none.
pub fn with_out(random: &mut Random, job: Vec<u8>) -> Asked {
    let out = out_length(random, text_length(&job));
    Asked::Job { job, out }
}

/// The length of a buffer for a text of such a length.
fn out_length(random: &mut Random, length: usize) -> usize {
    match random.below(8) {
        0 => length.saturating_sub(1),
        1 => 0,
        2..=4 => length,
        _ => length + 5,
    }
}

/// Lengths of both buffers for two merged days: mostly enough, else often enough for one file.
fn merged_lengths(random: &mut Random, files: &Pair) -> (usize, usize) {
    let need = lines(files);
    let [first, second] = files.each_ref().map(|file| line_count(file));
    let enough = [need, need, need + 1, need + 4];
    let any = [need, need + 1, need.saturating_sub(1), first, second, 0];
    let lengths = if random.one_in(3) { &any[..] } else { &enough };
    (random.pick(lengths), random.pick(lengths))
}

/// Lends the call an answer, seldom too short a one, and dirt in everything.
pub fn lend(random: &mut Random, asked: Asked) -> Request {
    let need = asked.callee().answer_length();
    let answer = if random.one_in(16) {
        random.below(need)
    } else {
        need + random.below(5)
    };
    let dirt = if random.one_in(2) {
        Dirt::Ones
    } else {
        Dirt::Noise(random.bits())
    };
    Request {
        asked,
        answer,
        dirt,
    }
}
