//! The days that walk document 01's edges.

use crate::limits::{LAST_SECOND, LETTERS, MAX_DAY_BYTES, MAX_DAY_LINES};
use crate::lines::{good_line, joined, Line, WRONG};
use crate::stream::Case;
use crate::{hour_edges, letter_edges};

/// Days of a few lines that document 01's text about seconds and about order asks for.
const SHORT: [&[u8]; 36] = [
    b"",
    b"E\t0\ta\n",
    b"E\t0\ta\nE\t0\ta\n",
    b"E\t7\tz\nE\t7\ty\nE\t7\tz\n",
    b"E\t9\ta\nE\t10\ta\n",
    b"E\t99\ta\nE\t100\tb\nE\t1000\tc\nE\t10000\td\n",
    b"E\t0\ta\nE\t89999\tb\nE\t89999\tc\n",
    b"E\t0\ta\nE\t0\tA\nE\t0\tz\nE\t0\tZ\n",
    // Tags stand as letters, and are tags by their place alone.
    b"E\t0\tE\n",
    b"E\t0\tR\nE\t1\tS\nE\t1\tX\nE\t2\tH\nE\t2\tE\nE\t3\te\n",
    b"E\tE\tE\n",
    b"A\t0\tE\n",
    // The second falls.
    b"E\t10\ta\nE\t9\ta\n",
    b"E\t1\ta\nE\t0\ta\n",
    b"E\t1\ta\nE\t5\tb\nE\t4\tc\n",
    b"E\t5\ta\nE\t1\tb\nE\t3\tc\n",
    b"E\t65536\ta\nE\t1\tb\n",
    // A capital is no fault of the form: 13, not 12.
    b"E\t90000\tA\n",
    b"E\t5\ta\nE\t4\tA\n",
    // In one line 12 comes before 13.
    b"E\t90000\t_\n",
    b"E\t99999\ta",
    b"E\t90000\ta\r\n",
    b"E\t5\ta\nE\t4\t_\n",
    b"E\t5\ta\nE\t4\taa\n",
    b"E\t5\ta\nE\t4\ta",
    b"E\t5\ta\nE\t04\ta\n",
    b"E\t5\ta\nE 4\ta\n",
    // The first bad line wins.
    b"E\nE\t90000\ta\n",
    b"E\t5\ta\n\nE\t4\ta\n",
    b"E\t90000\ta\nE\n",
    b"E\t5\ta\nE\t4\ta\nE\n",
    b"E\t90000\ta\nE\t0\ta\n",
    b"E\t5\ta\nE\t4\t[\nE\t3\ta\n",
    b"E\t5\ta\nE\t4\ta\nE\t90000\ta\nx",
    // Nothing that looks like a line, or a job instead of a day.
    b"\xef\xbb\xbfE\t0\ta\n",
    b"R\ta\nE\t0\ta\n",
];

/// Seconds of all lengths and about powers of two; those about the day's end are `hour_edges`.
const SECONDS: [usize; 16] = [
    0, 1, 9, 10, 99, 100, 255, 256, 999, 1_000, 9_999, 10_000, 32_768, 65_535, 65_536, 79_999,
];

/// All the days with buffers, one group after another.
pub fn cases() -> Vec<Case> {
    let mut cases: Vec<Case> = days().into_iter().map(with_enough).collect();
    cases.extend(about_buffers());
    cases
}

/// All the days about which no buffer matters.
pub fn days() -> Vec<Vec<u8>> {
    let mut days: Vec<Vec<u8>> = SHORT.map(<[u8]>::to_vec).to_vec();
    days.extend(SECONDS.map(|second| joined(&[good_line(second, b'q')])));
    days.extend(hour_edges::days());
    days.extend(wrong_parts());
    days.extend(changed_bytes());
    days.extend(every_byte());
    days.extend(letter_edges::ENDS.into_iter().flat_map(letter_edges::days));
    days.extend(many_lines());
    days.extend(many_bytes());
    days
}

/// A day with buffers that are longer than it needs, by one letter and two seconds.
fn with_enough(bytes: Vec<u8>) -> Case {
    let lines = bytes.split(|&byte| byte == b'\n').count();
    Case::Day {
        letters: lines,
        seconds: lines + 1,
        bytes,
    }
}

/// Every wrong part of a line, alone and between good lines.
fn wrong_parts() -> Vec<Vec<u8>> {
    let mut days = Vec::new();
    for (part, wrongs) in WRONG.iter().enumerate() {
        for &wrong in *wrongs {
            let mut bad = good_line(4, b'b');
            bad[part] = wrong.to_vec();
            days.push(joined(&[bad.clone()]));
            days.push(joined(&[good_line(3, b'a'), bad, good_line(5, b'c')]));
        }
    }
    days.extend([b"\n".to_vec(), b"\n\n".to_vec(), b"E\t3\ta\n\n".to_vec()]);
    days
}

/// A good second line cut off anywhere, with one byte less, one twice, two swapped, or one bit
/// turned.
fn changed_bytes() -> Vec<Vec<u8>> {
    let good = b"E\t3\ta\nE\t12345\tb\n";
    let second_line = 6..good.len();
    let mut days = Vec::new();
    for at in second_line.clone() {
        days.push(good[..at].to_vec());
        days.push([&good[..at], &good[at + 1..]].concat());
        days.push([&good[..=at], &good[at..]].concat());
    }
    for at in second_line.clone().skip(1) {
        let mut day = good.to_vec();
        day.swap(at - 1, at);
        days.push(day);
    }
    for at in second_line {
        for bit in 0..8 {
            let mut day = good.to_vec();
            day[at] ^= 1 << bit;
            days.push(day);
        }
    }
    days
}

/// Every byte as the letter, and every byte as the only digit.
fn every_byte() -> Vec<Vec<u8>> {
    let as_letter = |byte: u8| [b"E\t5\t", &[byte][..], b"\n"].concat();
    let as_digit = |byte: u8| [b"E\t", &[byte][..], b"\tk\n"].concat();
    let both = |byte: u8| [as_letter(byte), as_digit(byte)];
    (0..=255).flat_map(both).collect()
}

/// Days of about as many lines as there may be; the first bad line wins over a 256th.
fn many_lines() -> Vec<Vec<u8>> {
    let full = different_lines(MAX_DAY_LINES);
    let with = |place: usize, bad: &[u8], rest: &[u8]| {
        let mut lines: Vec<Vec<u8>> = full.iter().map(|line| line.concat()).collect();
        lines[place - 1] = bad.to_vec();
        [&lines.concat(), rest].concat()
    };
    let full_and = |rest: &[u8]| [&joined(&full), rest].concat();
    vec![
        full_and(b""),
        full_and(b"E\t9\ta\n"),
        full_and(b"\n"),
        with(255, b"E\t9\ta", b""),
        with(1, b"E\t0\t_\n", b"E\t9\ta\n"),
        with(128, b"\n", b"E"),
        with(255, b"E\t3\ta\n", b"E"),
    ]
}

/// Days of about as many bytes as there may be; what has more is 11, whatever else is wrong.
fn many_bytes() -> Vec<Vec<u8>> {
    let last_second = good_line(LAST_SECOND as usize, b'z');
    let longest = joined(&vec![last_second; MAX_DAY_LINES]);
    vec![
        [&longest[..], b"E"].concat(),
        longest,
        b"E\t0\tb\n".repeat(MAX_DAY_BYTES / 6),
    ]
}

/// Lines that all differ, none longer than it must be.
fn different_lines(count: usize) -> Vec<Line> {
    let letters = LETTERS.len();
    let line = |index: usize| good_line(index / letters, LETTERS[index % letters]);
    (0..count).map(line).collect()
}

/// Buffers too short, just long enough and longer, alike and different; 15 comes last.
fn about_buffers() -> Vec<Case> {
    let mut cases = Vec::new();
    for n in [0, 1, 3] {
        let day = joined(&different_lines(n));
        for letters in 0..=n + 1 {
            for seconds in 0..=n + 1 {
                cases.push(with_buffers(letters, seconds, &day));
            }
        }
        cases.push(with_buffers(300, n, &day));
        cases.push(with_buffers(n, 300, &day));
        cases.push(with_buffers(256, 256, &day));
    }
    // Every other refusal comes before 15.
    let refused: [&[u8]; 5] = [
        b"x",
        b"E\t5\ta\nE\t4\tb\n",
        b"E\t1\ta\nE\t2\tb\nE\t3\tc",
        b"E\t1\ta\nE\t90000\tb\n",
        b"E\t1\ta\nE\t2\tb\nE\n",
    ];
    for day in refused {
        cases.extend([(0, 0), (1, 0), (0, 3), (1, 2)].map(|(l, s)| with_buffers(l, s, day)));
    }
    let full = joined(&different_lines(MAX_DAY_LINES));
    cases.push(with_buffers(254, 255, &full));
    cases.push(with_buffers(255, 0, &[&full[..], b"x"].concat()));
    cases.push(with_buffers(0, 0, &[b'x'; MAX_DAY_BYTES + 1]));
    cases
}

/// A day with buffers of such lengths.
fn with_buffers(letters: usize, seconds: usize, day: &[u8]) -> Case {
    Case::Day {
        letters,
        seconds,
        bytes: day.to_vec(),
    }
}
