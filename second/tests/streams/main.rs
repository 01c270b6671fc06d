//! The commands `answers`, `edges` and `draw`, run as programs and tied by their streams.

use std::io::Write;
use std::process::{Command, Output, Stdio};

mod answers;
#[path = "../common/blocks.rs"]
mod blocks;
#[path = "../common/mod.rs"]
mod common;
#[path = "../common/count.rs"]
mod count;
mod draw;
mod edges;
mod judge;
mod judge_answers;
mod judge_draw;
mod judge_edges;
mod known_edges;
mod number_answers;
mod number_draw;
mod number_edges;
#[path = "../common/odometer.rs"]
mod odometer;
mod printing;
mod wrong_numbers;

/// A case as a stream holds it: the fields of its header but the last length, and its bytes; a row
/// of numbers has no length and no bytes.
struct Case {
    header: Vec<String>,
    bytes: Vec<u8>,
}

impl Case {
    fn is_rule(&self) -> bool {
        self.header[0] == "rule"
    }

    /// The lengths of a day's two buffers.
    fn buffers(&self) -> (usize, usize) {
        (
            self.header[1].parse().unwrap(),
            self.header[2].parse().unwrap(),
        )
    }
}

/// Runs a command on an input.
fn run(arguments: &str, input: &[u8]) -> Output {
    let mut child = Command::new(env!("CARGO_BIN_EXE_second"))
        .args(arguments.split(' '))
        .stdin(Stdio::piped())
        .stdout(Stdio::piped())
        .stderr(Stdio::piped())
        .spawn()
        .unwrap();
    // The input is read to its end before the first answer, so this cannot block.
    child.stdin.take().unwrap().write_all(input).unwrap();
    child.wait_with_output().unwrap()
}

/// The stream that a command prints.
fn stream(arguments: &str) -> Vec<u8> {
    let output = run(arguments, b"");
    assert!(output.status.success() && output.stderr.is_empty());
    output.stdout
}

/// The cases of a well-formed stream.
fn cases(mut stream: &[u8]) -> Vec<Case> {
    let mut cases = Vec::new();
    while !stream.is_empty() {
        let end = stream.iter().position(|&byte| byte == b'\n').unwrap();
        let header = String::from_utf8(stream[..end].to_vec()).unwrap();
        let mut header: Vec<String> = header.split(' ').map(String::from).collect();
        let length = take_length(&mut header);
        let rest = &stream[end + 1..];
        let bytes = rest[..length].to_vec();
        assert_eq!(rest[length], b'\n');
        cases.push(Case { header, bytes });
        stream = &rest[length + 1..];
    }
    cases
}

/// How many bytes a case has by its header, whose last length is taken off.
fn take_length(header: &mut Vec<String>) -> usize {
    if header[0] == "numbers" {
        return 0;
    }
    let length_of = |field: &String| -> usize { field.parse().unwrap() };
    let length = length_of(&header.pop().unwrap());
    if header[0] == "judge" {
        length + length_of(&header[3])
    } else {
        length
    }
}

/// The lines of answer to a well-formed stream, without their newlines.
fn answer_lines(stream: &[u8]) -> Vec<String> {
    let output = run("answers", stream);
    assert!(output.status.success() && output.stderr.is_empty());
    let text = String::from_utf8(output.stdout).unwrap();
    assert!(text.is_empty() || text.ends_with('\n'));
    text.lines().map(String::from).collect()
}

/// The cases of a stream, each with its line of answer.
fn answered(stream: &[u8]) -> Vec<(Case, String)> {
    let (cases, lines) = (cases(stream), answer_lines(stream));
    assert_eq!(cases.len(), lines.len());
    cases.into_iter().zip(lines).collect()
}

/// How often each number stands in the answers, accepted cases under 0.
fn numbers(answered: &[(Case, String)]) -> [usize; 22] {
    let mut times = [0; 22];
    for (_, line) in answered {
        times[line.split('\t').nth(1).unwrap().parse::<usize>().unwrap()] += 1;
    }
    times
}

/// A list as it is printed, a comma between, a dash for none.
fn list(items: impl Iterator<Item = usize>) -> String {
    let items: Vec<String> = items.map(|item| item.to_string()).collect();
    if items.is_empty() {
        "-".into()
    } else {
        items.join(",")
    }
}

/// The letters' buffer with these in front, and the rest as it was lent.
fn letters_after(letters: &[u8], length: usize) -> String {
    let lent = (letters.len()..length).map(|i| 128 + i % 128);
    list(letters.iter().map(|&letter| letter.into()).chain(lent))
}

/// The seconds' buffer with these in front, and the rest as it was lent.
fn seconds_after(seconds: &[usize], length: usize) -> String {
    list(
        seconds
            .iter()
            .copied()
            .chain(100_000 + seconds.len()..100_000 + length),
    )
}

/// What holds of every answer by itself, whatever the reading is.
fn check_answer(case: &Case, line: &str) {
    let fields: Vec<&str> = line.split('\t').collect();
    assert_eq!(fields.len(), 8, "{line}");
    assert_eq!(fields[0], case.header[0]);
    assert_eq!(fields[3..5], ["0", "0"], "found and count");
    match (case.is_rule(), fields[1] == "0") {
        (true, true) => check_accepted_rule(&case.bytes, &fields),
        (true, false) => assert_eq!(fields[5..], ["0", "0", "-"]),
        (false, true) => check_accepted_day(case, &fields),
        (false, false) => {
            let (letters, seconds) = case.buffers();
            let untouched = [letters_after(b"", letters), seconds_after(&[], seconds)];
            assert_eq!(fields[5], "0");
            assert_eq!(fields[6..], untouched);
        }
    }
}

/// The offset and the sign of each node that an accepted rule text writes; a set has its letters.
fn written_nodes(text: &[u8]) -> Vec<String> {
    let mut nodes = Vec::new();
    let mut at = 0;
    while at < text.len() {
        let closing = text[at..].iter().position(|&byte| byte == b']');
        let (length, sign) = match text[at] {
            b'[' => {
                let length = closing.unwrap() + 1;
                (length, text[at + 1..at + length - 1].to_vec())
            }
            b'.' => (1, (b'A'..=b'Z').chain(b'a'..=b'z').collect()),
            byte => (1, vec![byte]),
        };
        if !b"()".contains(&text[at]) {
            nodes.push(format!("{at}:{}", String::from_utf8(sign).unwrap()));
        }
        at += length;
    }
    nodes
}

/// An accepted rule has a record for each node that it writes, and the limits are kept.
fn check_accepted_rule(text: &[u8], fields: &[&str]) {
    assert_eq!(fields[2], "0");
    let (m, k): (usize, usize) = (fields[5].parse().unwrap(), fields[6].parse().unwrap());
    assert!((1..=64).contains(&m) && k <= 7);
    assert_eq!(text.iter().filter(|byte| b"&!".contains(byte)).count(), k);
    let records: Vec<&str> = fields[7].split(';').collect();
    assert_eq!(records.len(), m);
    let mut signs: Vec<String> = records
        .iter()
        .filter(|record| !record.ends_with('.'))
        .map(|record| record.to_string())
        .collect();
    let mut expected = written_nodes(text);
    signs.sort_unstable();
    expected.sort_unstable();
    assert_eq!(signs, expected);
}

/// An accepted day is what its letters and seconds make when they are written out again.
fn check_accepted_day(case: &Case, fields: &[&str]) {
    assert_eq!(fields[2], "0");
    let n: usize = fields[5].parse().unwrap();
    let first_n = |field: &str| -> Vec<usize> {
        let items = field.split(',').take(n);
        items.map(|item| item.parse().unwrap()).collect()
    };
    let seconds = first_n(fields[7]);
    let letters: Vec<u8> = first_n(fields[6]).iter().map(|&item| item as u8).collect();
    assert!(letters.iter().all(u8::is_ascii_alphabetic));
    assert!(seconds.is_sorted() && seconds.iter().all(|&second| second <= 89_999));
    let line = |i: usize| format!("E\t{}\t{}\n", seconds[i], char::from(letters[i]));
    let day: String = (0..n).map(line).collect();
    assert_eq!(case.bytes, day.as_bytes());
    let lengths = case.buffers();
    assert_eq!(fields[6], letters_after(&letters, lengths.0));
    assert_eq!(fields[7], seconds_after(&seconds, lengths.1));
}
