//! The edges of rule files as calls of the library: read, and judged by their last line.

use super::call::{FILE_LINES, FILE_NODES};
use super::request::Asked;
use crate::judge::judge_file;
use crate::judge_edges::{repeated, KNOWN_DAYS};
use crate::limits::{MAX_SPECIAL, MAX_WORD};
use crate::rule_edges::run;
use crate::rule_file_chains::special_at_long_offsets;
use crate::rule_file_edges::{about_replacement, files, files_with_byte};
use crate::rule_file_lines::{faulty_lines, good_line, good_lines, line, LINE_REASONS};
use crate::{rule_file, table};

/// How many elements a buffer has beyond those it must have.
const BEYOND: usize = 5;

/// The word on which each file is judged that is also read.
const WORD: &[u8] = b"acBb";

/// The word on which each replacement is judged.
const REPLACEMENT_WORD: &[u8] = b"abA";

/// Pairs of lines, `x` and `y`, of which the last alone is judged, and a word on which they differ.
const LAST_LINES: [(&str, &str, &str); 11] = [
    ("a", "b", "ab"),
    ("!a", "b", "ab"),
    ("a", "!b", "ab"),
    ("!a&!b", "ab", "abab"),
    ("a|b", "<x>c", "acbc"),
    ("a", "!<x>&<x><x>*", "aab"),
    ("a&b", "!<x>!<x>", "ab"),
    ("!a", "(<x>&b)|!<x>", "abb"),
    ("[ab]", "<x>*c", "abcac"),
    ("[ac]", "!<x>&.", "abc"),
    (".", "<x>[Zb]", "aZb"),
];

/// A rule file and a word that only the table's length and the limit can get refused.
pub struct FileCall {
    file: Vec<u8>,
    word: Vec<u8>,
    /// How many numbers the judge needs.
    pub need: usize,
    /// The full work count.
    pub count: u64,
}

impl FileCall {
    /// A call with a file that is accepted and a word of events.
    pub fn new(file: Vec<u8>, word: &[u8]) -> Self {
        let last = rule_file::read_last(&file).expect("a call has a good file");
        let need = table::need(last.k(), word.len());
        let count = judge_file(&file, word, u64::MAX, &mut vec![0; need]).count;
        FileCall {
            file,
            word: word.to_vec(),
            need,
            count,
        }
    }

    /// The call with such a table and limit.
    pub fn with(&self, table: usize, limit: u64) -> Asked {
        judgement(&self.file, &self.word, table, limit)
    }

    /// The call with just what it takes, with more than that, and with one too few of either.
    fn around_need(&self) -> [Asked; 4] {
        let FileCall { need, count, .. } = *self;
        [
            self.with(need, count),
            self.with(need + BEYOND, u64::MAX),
            self.with(need + BEYOND, count - 1),
            self.with(need - 1, count),
        ]
    }
}

/// All the calls; those of one file that is read and judged are neighbours.
pub fn calls() -> Vec<Asked> {
    let with_bytes = (0..=255).flat_map(files_with_byte);
    let files = files().into_iter().chain(with_bytes);
    let mut calls: Vec<Asked> = files.flat_map(read_and_judged).collect();
    calls.extend(about_last_lines());
    calls.extend(about_known_days());
    calls.extend(about_blocks());
    calls.extend(about_words());
    calls.extend(about_order());
    calls
}

/// A file that is read, and judged with more than it can need.
pub fn read_and_judged(file: Vec<u8>) -> [Asked; 2] {
    let table = table::need(MAX_SPECIAL, WORD.len()) + BEYOND;
    let judged = judgement(&file, WORD, table, u64::MAX);
    [reading(file), judged]
}

/// A file that is read into buffers that are longer than they must be.
fn reading(file: Vec<u8>) -> Asked {
    Asked::RuleFile {
        file,
        lines: FILE_LINES + BEYOND,
        nodes: FILE_NODES + BEYOND,
    }
}

/// A file that is judged.
fn judgement(file: &[u8], word: &[u8], table: usize, limit: u64) -> Asked {
    Asked::JudgeFile {
        file: file.to_vec(),
        word: word.to_vec(),
        limit,
        table,
    }
}

/// A file of two lines, `x` and `y`.
fn two_lines(first: &str, last: &str) -> Vec<u8> {
    [line("x", first), line("y", last)].concat()
}

/// Files whose lines would be judged differently, and every rule around a name.
fn about_last_lines() -> Vec<Asked> {
    let pair = |(first, last, word): (&str, &str, &str)| {
        FileCall::new(two_lines(first, last), word.as_bytes())
    };
    let pairs = LAST_LINES.map(pair).into_iter();
    let all = pairs.flat_map(|call| call.around_need());
    let replaced = about_replacement().into_iter().map(|file| {
        let call = FileCall::new(file, REPLACEMENT_WORD);
        call.with(call.need, call.count)
    });
    all.chain(replaced).collect()
}

/// C1 to C12 as the last line of a file, by a name, and as its complement.
fn about_known_days() -> Vec<Asked> {
    let files = |rule: &str| {
        [
            line("x", rule),
            two_lines("!b", rule),
            two_lines(rule, "<x>"),
            two_lines(rule, "!<x>"),
        ]
    };
    let days = KNOWN_DAYS.into_iter();
    let calls =
        days.flat_map(|(rule, word)| files(rule).map(|file| FileCall::new(file, word.as_bytes())));
    calls.flat_map(|call| call.around_need()).collect()
}

/// Blocks whose order tells the offsets after replacement, up to long ones.
fn about_blocks() -> Vec<Asked> {
    let mut calls = Vec::new();
    for word in [&b""[..], b"ab", &[run("a", 21), run("b", 1)].concat()] {
        calls.extend(FileCall::new(special_at_long_offsets(), word).around_need());
        let file = two_lines("!a&b", "b|<x>&!(<x>|1)");
        calls.extend(FileCall::new(file, word).around_need());
    }
    calls
}

/// Words of about 255 events, and bytes that are no events at their place.
fn about_words() -> Vec<Asked> {
    let file = two_lines("a|b", "!<x>b*");
    let mut calls = Vec::new();
    for n in [0, 1, 63, 64, 65, 128] {
        calls.extend(FileCall::new(file.clone(), &repeated("ab", n)).around_need());
    }
    let plain = two_lines("a", "<x>b");
    for n in [MAX_WORD - 1, MAX_WORD] {
        calls.extend(FileCall::new(plain.clone(), &repeated("ab", n)).around_need());
    }
    for n in [MAX_WORD + 1, MAX_WORD + 2, 1_000] {
        // 7 comes before 8, 9 and 10.
        calls.push(judgement(
            &file,
            &repeated("ab", n),
            table::need(1, n),
            u64::MAX,
        ));
        calls.push(judgement(&file, &repeated("_", n), 0, 0));
    }
    for byte in 0..=255 {
        // 8 comes before 9 and 10.
        calls.push(judgement(&file, &[byte], table::need(1, 1), u64::MAX));
        calls.push(judgement(
            &file,
            &[b'a', byte, b'b'],
            table::need(1, 3),
            u64::MAX,
        ));
        calls.push(judgement(&file, &[&[b'a'; 9][..], &[byte]].concat(), 0, 0));
    }
    // 9 comes before 10.
    calls.extend([0, 1, 15].map(|table| judgement(&file, b"a", table, 0)));
    calls
}

/// Files that are refused, whatever else is wrong with the call.
fn about_order() -> Vec<Asked> {
    let mut files = vec![Vec::new(), [good_lines(16), b"R".to_vec()].concat()];
    for reason in LINE_REASONS {
        let faulty = faulty_lines(reason, 1).swap_remove(0);
        files.push([good_line(1), faulty].concat());
    }
    let words = [repeated("_", MAX_WORD + 1), b"a_".to_vec(), b"a".to_vec()];
    let on_words = |file: &Vec<u8>| words.each_ref().map(|word| judgement(file, word, 0, 0));
    files.iter().flat_map(on_words).collect()
}
