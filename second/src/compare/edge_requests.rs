//! The edges as requests to the library: the streams of `second edges`, jobs, every byte where an
//! event can stand, every two bytes in brackets, rule files, rewritings with every short text of
//! stars, and mergings.

use super::call::{Callee, FILE_LINES, FILE_NODES, NODES};
use super::lent::Dirt;
use super::request::{Asked, Request};
use super::{job_edges, mergings, rewritings, rule_file_requests};
use crate::limits::{LETTERS, MAX_MERGED};
use crate::{day_edges, edges, job, letter_edges};
use crate::{rule_file_lines, set_edges, star_edges, stars, table};

/// The streams of cases that `second edges` prints, but for `numbers`, which has none with a call.
const STREAMS: [&str; 5] = ["rules", "days", "judge", "judge-large", "known"];

/// The seed of the noise in what is lent.
const NOISE: u64 = 1;

/// How many elements a buffer has beyond those it must have.
const BEYOND: usize = 5;

/// Names as rule files have them, in plain rules.
const PLAIN_NAMES: [&str; 8] = ["<a>", "a<a>", "a<", "a>", ">", "<>", "(<x>)", "<x>)"];

/// How many elements a buffer has for the letters or the seconds of a few lines.
const LINES: usize = 3;

/// All the requests but the most numerous ones, one group after another.
pub fn requests() -> Vec<Request> {
    let mut requests = Vec::new();
    for name in STREAMS {
        let cases = edges::named(name).expect("the streams of edges are named");
        let asked = |case| Asked::case(case, NODES + BEYOND);
        requests.extend(cases.into_iter().filter_map(asked).flat_map(in_all_dirt));
    }
    let jobs = job_edges::jobs().into_iter();
    let jobs = jobs.chain(job_edges::readers_jobs()).flat_map(with_outs);
    requests.extend(jobs.flat_map(in_all_dirt));
    // So many that each comes in ones or in noise alone, by turns.
    let calls = (0..=255).flat_map(with_byte);
    let calls = calls.chain(about_sets()).chain(about_stars());
    let calls = calls.chain(in_merged_days()).enumerate();
    requests.extend(calls.map(|(index, asked)| in_one_dirt(asked, index)));
    requests.extend(rewritings::calls().flat_map(in_all_dirt));
    requests.extend(mergings::refusals().flat_map(in_all_dirt));
    requests.extend(PLAIN_NAMES.into_iter().flat_map(with_plain_name));
    // Two neighbours are about one file, or one pair of files, and come in the same dirt.
    let calls = rule_file_requests::calls().into_iter();
    let calls = calls.chain(mergings::calls()).enumerate();
    requests.extend(calls.map(|(index, asked)| in_one_dirt(asked, index / 2)));
    requests.extend(too_short_to_answer());
    requests.extend(too_short_for_lines());
    requests
}

/// The most numerous requests, each of which is made when it is asked.
pub fn numerous() -> impl Iterator<Item = Request> {
    pairs().chain(short_texts())
}

/// Every two bytes in brackets, as a rule to read.
pub fn pairs() -> impl Iterator<Item = Request> {
    let bytes = || 0..=255;
    let texts = bytes().flat_map(move |one| bytes().map(move |two| set_edges::pair(one, two)));
    texts.enumerate().map(|(index, text)| {
        let nodes = NODES;
        in_one_dirt(Asked::Rule { text, nodes }, index)
    })
}

/// Every short text of stars and what may stand beside them, to read and to rewrite.
pub fn short_texts() -> impl Iterator<Item = Request> {
    let texts = star_edges::short_texts().enumerate();
    texts.flat_map(|(index, text)| {
        // Both the dirt and the room change by turns.
        let rewriting = [rewritings::exact, rewritings::with_room][index / 2 % 2](&text);
        let nodes = NODES;
        [Asked::Rule { text, nodes }, rewriting].map(|asked| in_one_dirt(asked, index))
    })
}

/// A call in ones and in noise, its answer longer than it must be.
fn in_all_dirt(asked: Asked) -> [Request; 2] {
    let answer = asked.callee().answer_length() + BEYOND;
    [Dirt::Ones, Dirt::Noise(NOISE)].map(|dirt| Request {
        asked: asked.clone(),
        answer,
        dirt,
    })
}

/// A call in ones or in noise, by turns.
fn in_one_dirt(asked: Asked, turn: usize) -> Request {
    in_all_dirt(asked)[turn % 2].clone()
}

/// A rule with a name in every call that takes a plain rule, where it has no meaning.
fn with_plain_name(rule: &str) -> Vec<Request> {
    let calls = with_plain_rule(rule.into(), b"a", b"E\t0\ta\n");
    calls.into_iter().flat_map(in_all_dirt).collect()
}

/// Every call that takes a plain rule, with this one, and with such a word and such a day.
fn with_plain_rule(text: Vec<u8>, word: &[u8], day: &[u8]) -> [Asked; 4] {
    let nodes = NODES;
    [
        judgement(&text, word),
        with_room(job_edges::job(&text, day)),
        rewritings::with_room(&text),
        Asked::Rule { text, nodes },
    ]
}

/// A job with buffers for its text of every kind.
fn with_outs(job: Vec<u8>) -> Vec<Asked> {
    let outs = rewritings::outs(text_length(&job)).into_iter();
    outs.map(|out| {
        let job = job.clone();
        Asked::Job { job, out }
    })
    .collect()
}

/// How long the text of a job is; a refused one has none.
pub fn text_length(bytes: &[u8]) -> usize {
    job::judge_job(bytes).map_or(0, |report| report.lines().len())
}

/// A byte at every place where an event can stand, in every call that reads it there; the byte
/// alone is among the streams for the two readers.
fn with_byte(byte: u8) -> Vec<Asked> {
    let mut calls = vec![judgement(&[byte], LETTERS)];
    for rule in ["a", "!a", "!A", "!0"] {
        let words = [vec![byte]].into_iter().chain(letter_edges::words(byte));
        calls.extend(words.map(|word| judgement(rule.as_bytes(), &word)));
    }
    for text in letter_edges::rules(byte) {
        calls.extend(with_plain_rule(text, b"aA", b"E\t0\ta\nE\t0\tA\n"));
    }
    for text in set_edges::with_byte(byte) {
        // All letters, so that a set shows each event that it fits.
        calls.extend(with_plain_rule(text, LETTERS, b"E\t0\tb\nE\t0\tB\n"));
    }
    for file in letter_edges::days(byte) {
        calls.push(with_room(job_edges::job(b"!a", &file)));
        calls.extend(mergings::in_either_file(&file));
        calls.push(Asked::Day {
            file,
            letters: LINES,
            seconds: LINES,
        });
    }
    calls.extend(mergings::with_byte(byte));
    calls
}

/// The days of the stream, each in the first file and in the second.
fn in_merged_days() -> impl Iterator<Item = Asked> {
    let days = day_edges::days().into_iter();
    days.flat_map(|day| mergings::in_either_file(&day))
}

/// The rules about sets where the streams do not have them.
fn about_sets() -> impl Iterator<Item = Asked> {
    set_edges::texts().into_iter().flat_map(judged_and_in_file)
}

/// The rules about stars where the streams do not have them, and what they are rewritten to.
fn about_stars() -> impl Iterator<Item = Asked> {
    let both = |text: Vec<u8>| [stars::with_single(&text), text];
    let texts = star_edges::texts().into_iter().flat_map(both);
    texts.flat_map(judged_and_in_file)
}

/// A rule that is judged, and as the line of a file.
fn judged_and_in_file(text: Vec<u8>) -> [Asked; 3] {
    let file = rule_file_lines::line("x", &text);
    let [read, judged] = rule_file_requests::read_and_judged(file);
    [judgement(&text, b"ab"), read, judged]
}

/// A judge call with the highest limit, and with a table for one special node.
fn judgement(rule: &[u8], word: &[u8]) -> Asked {
    Asked::Judge {
        rule: rule.to_vec(),
        word: word.to_vec(),
        limit: u64::MAX,
        table: table::need(1, word.len()),
    }
}

/// A job with a buffer that is longer than its text.
fn with_room(job: Vec<u8>) -> Asked {
    let out = text_length(&job) + BEYOND;
    Asked::Job { job, out }
}

/// Calls whose answer or nodes are too short, good ones and ones that would be refused.
fn too_short_to_answer() -> Vec<Request> {
    let mut requests = Vec::new();
    for asked in good_and_bad_calls() {
        for answer in 0..asked.callee().answer_length() {
            let short = |request| Request { answer, ..request };
            requests.extend(in_all_dirt(asked.clone()).map(short));
        }
        // Just as long as it must be.
        let answer = asked.callee().answer_length();
        let exact = |request| Request { answer, ..request };
        requests.extend(in_all_dirt(asked).map(exact));
    }
    for text in [&b"!a"[..], b"", b")"] {
        for nodes in [0, 1, 2, 4, NODES - 1, NODES] {
            let text = text.to_vec();
            let request = in_all_dirt(Asked::Rule { text, nodes });
            let answer = Callee::ReadRule.answer_length() - 1;
            requests.extend(request.clone().map(|request| Request { answer, ..request }));
            requests.extend(request);
        }
    }
    requests
}

/// Calls that read a rule file whose lines or nodes are too short, good ones and refused ones.
fn too_short_for_lines() -> Vec<Request> {
    let lengths = [
        (0, 0),
        (0, FILE_NODES),
        (1, FILE_NODES),
        (2, FILE_NODES),
        (FILE_LINES - 1, FILE_NODES),
        (FILE_LINES, 0),
        (FILE_LINES, NODES),
        (FILE_LINES, FILE_NODES - 1),
        (FILE_LINES - 1, FILE_NODES - 1),
        // Just as long as they must be.
        (FILE_LINES, FILE_NODES),
    ];
    let mut requests = Vec::new();
    for file in [&b"R\tx\t!a\n"[..], b"", b"R\tx\t)\n"] {
        for (lines, nodes) in lengths {
            let file = file.to_vec();
            let request = in_all_dirt(Asked::RuleFile { file, lines, nodes });
            let answer = Callee::ReadRuleFile.answer_length() - 1;
            requests.extend(request.clone().map(|request| Request { answer, ..request }));
            requests.extend(request);
        }
    }
    requests
}

/// Mergings that are accepted, and refused for each file, by 22 and by 15.
fn good_and_bad_mergings() -> impl Iterator<Item = Asked> {
    let (good, bad, full) = (b"E\t0\ta\n", b"E\t0\t_\n", b"E\t0\ta\n".repeat(MAX_MERGED));
    let pairs: [[&[u8]; 2]; 4] = [[good, good], [bad, good], [good, bad], [&full, good]];
    let pairs = pairs.map(|pair| pair.map(<[u8]>::to_vec));
    let too_short = Asked::Merging {
        files: pairs[0].clone(),
        letters: 1,
        seconds: 1,
    };
    pairs
        .into_iter()
        .map(mergings::with_room)
        .chain([too_short])
}

/// For each call one that is accepted and one that is refused.
fn good_and_bad_calls() -> Vec<Asked> {
    let mut calls = Vec::new();
    for text in [&b"!a"[..], b"_"] {
        calls.push(Asked::Rule {
            text: text.to_vec(),
            nodes: NODES,
        });
        calls.push(Asked::Judge {
            rule: text.to_vec(),
            word: b"a".to_vec(),
            limit: 7,
            table: 16,
        });
        calls.push(Asked::Job {
            job: job_edges::job(text, b"E\t0\ta\n"),
            out: 64,
        });
        // With enough room, and with too little.
        calls.extend([5, 1].map(|out| Asked::Rewriting {
            text: text.to_vec(),
            out,
        }));
    }
    // Refused by 10, which alone changes the table.
    calls.push(Asked::Judge {
        rule: b"!a".to_vec(),
        word: b"a".to_vec(),
        limit: 6,
        table: 16,
    });
    for file in [&b"R\tx\t!a\n"[..], b"R\tx\t_\n"] {
        calls.extend(rule_file_requests::read_and_judged(file.to_vec()));
    }
    for file in [&b"E\t0\ta\n"[..], b"E\t0\t_\n"] {
        calls.push(Asked::Day {
            file: file.to_vec(),
            letters: LINES,
            seconds: LINES,
        });
    }
    calls.extend(good_and_bad_mergings());
    calls
}
