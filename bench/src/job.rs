//! An unproved judge as a program: a job's text in, the listing's text out. It takes acceptable jobs only.

use std::io::{self, Read, Write};

use crate::blocks::empty_table;
use crate::judge::{Answer, Judge};
use crate::row::{bit, Row};

/// The bytes of a span's line at most: S, two tabs, two numbers of three digits, newline.
const MOST_LINE: usize = 10;

/// The bytes of the first line at most.
const MOST_HEAD: usize = 64;

/// A short text in a fixed number of bytes, so that it is copied by one move.
#[derive(Clone, Copy)]
struct Piece {
    bytes: [u8; 8],
    length: usize,
}

impl Piece {
    /// A prefix, a number in decimal, and a byte behind; 8 bytes at most.
    fn of(prefix: &[u8], number: u64, behind: u8) -> Piece {
        let mut text = Vec::with_capacity(8);
        text.extend_from_slice(prefix);
        push_decimal(&mut text, number);
        text.push(behind);
        let mut bytes = [0; 8];
        bytes[..text.len()].copy_from_slice(&text);
        Piece {
            bytes,
            length: text.len(),
        }
    }
}

/// The program: a job on standard input, its listing on standard output, in one write.
pub fn main(judge: Judge) -> io::Result<()> {
    let mut job = Vec::new();
    io::stdin().read_to_end(&mut job)?;
    io::stdout().write_all(&run(judge, &job))
}

/// What the program writes for a job.
pub fn run(judge: Judge, job: &[u8]) -> Vec<u8> {
    let line_end = job.iter().position(|&byte| byte == b'\n');
    let line_end = line_end.expect("a job has a rule's line");
    let rule = &job[2..line_end];
    let word = letters(&job[line_end + 1..]);
    let mut table = empty_table(word.len());
    let answer = judge(rule, &word, &mut table);
    listing(&answer, &table[..=word.len()])
}

/// The letters of a day file: the last byte of each line.
fn letters(day: &[u8]) -> Vec<u8> {
    day.windows(2)
        .filter(|pair| pair[1] == b'\n')
        .map(|pair| pair[0])
        .collect()
}

/// The line of the answer, and one for each span of the rows, by rising start and then rising end.
fn listing(answer: &Answer, rows: &[Row]) -> Vec<u8> {
    let mut text = Vec::with_capacity(MOST_HEAD + MOST_LINE * answer.found as usize);
    push_head(&mut text, answer, rows.len() - 1);
    let mut at = text.len();
    // Every piece is written as 8 bytes, so the last one may need room behind the text.
    text.resize(at + MOST_LINE * answer.found as usize + 8, 0);
    let ends: Vec<Piece> = (0..rows.len() as u64)
        .map(|j| Piece::of(b"", j, b'\n'))
        .collect();
    for (i, row) in rows.iter().enumerate() {
        let start = Piece::of(b"S\t", i as u64, b'\t');
        for (j, end) in ends.iter().enumerate().skip(i) {
            if bit(row, j) == 1 {
                put(&mut text, &mut at, &start);
                put(&mut text, &mut at, end);
            }
        }
    }
    text.truncate(at);
    text
}

/// Writes a piece at a place of the text, and moves the place behind it.
fn put(text: &mut [u8], at: &mut usize, piece: &Piece) {
    text[*at..*at + 8].copy_from_slice(&piece.bytes);
    *at += piece.length;
}

fn push_head(text: &mut Vec<u8>, answer: &Answer, n: usize) {
    text.push(b'H');
    for number in [
        n as u64,
        answer.m as u64,
        answer.k as u64,
        answer.found,
        answer.count,
    ] {
        text.push(b'\t');
        push_decimal(text, number);
    }
    text.push(b'\n');
}

/// Writes a number in decimal.
fn push_decimal(text: &mut Vec<u8>, number: u64) {
    if number >= 10 {
        push_decimal(text, number / 10);
    }
    text.push(b'0' + (number % 10) as u8);
}
