//! Random days for the command `draw`: good ones, damaged ones, and buffers that may be too short.

use crate::generate::{any_byte, change_byte};
use crate::limits::{LAST_SECOND, LETTERS, MAX_DAY_BYTES, MAX_DAY_LINES, MAX_SECOND_DIGITS};
use crate::lines::{empty_line, good_line, joined, Line, SECOND, WRONG};
use crate::random::Random;
use crate::stream::Case;

/// How many seconds a day has.
const DAY: usize = LAST_SECOND as usize + 1;

/// How many seconds an hour has.
const HOUR: usize = 3_600;

/// The first second of the day's last hour.
const LAST_HOUR_BEGIN: usize = DAY - HOUR;

/// How many seconds beyond the day are of the form.
const BEYOND: usize = 10usize.pow(MAX_SECOND_DIGITS as u32) - DAY;

/// The most lines of an ordinary random day.
const FEW_LINES: usize = 20;

/// A random day and random lengths of the buffers.
pub fn case(random: &mut Random) -> Case {
    let bytes = day(random);
    let n = bytes.iter().filter(|&&byte| byte == b'\n').count();
    let (letters, seconds) = buffer_lengths(random, n);
    Case::Day {
        letters,
        seconds,
        bytes,
    }
}

/// A random day.
pub fn day(random: &mut Random) -> Vec<u8> {
    match random.below(50) {
        0 => day_of_many_bytes(random),
        1..=3 => arbitrary_bytes(random),
        _ => day_of_lines(random),
    }
}

/// Lines, often damaged, now and then with one byte of any value in them or cut off.
fn day_of_lines(random: &mut Random) -> Vec<u8> {
    let count = line_count(random);
    let mut lines = good_lines(random, count);
    for _ in 0..random.pick(&[0, 0, 0, 0, 1, 1, 1, 2]) {
        damage(random, &mut lines);
    }
    let mut day = joined(&lines);
    if random.one_in(16) {
        let byte = any_byte(random);
        change_byte(random, &mut day, byte, MAX_DAY_BYTES + 1);
    }
    if random.one_in(16) {
        let length = random.below(day.len() + 1);
        day.truncate(length);
    }
    day
}

/// How many lines: mostly a few, now and then up to or about as many as there may be.
fn line_count(random: &mut Random) -> usize {
    match random.below(48) {
        0 => MAX_DAY_LINES - 3 + random.below(6),
        1 => random.below(MAX_DAY_LINES + 1),
        _ => random.below(FEW_LINES + 1),
    }
}

/// So many good lines.
fn good_lines(random: &mut Random, count: usize) -> Vec<Line> {
    let seconds = rising_seconds(random, count);
    let line = |second| good_line(second, random.pick(LETTERS));
    seconds.into_iter().map(line).collect()
}

/// So many seconds that never fall, from a wide or a narrow part of the day.
pub fn rising_seconds(random: &mut Random, count: usize) -> Vec<usize> {
    let (first, width) = match random.below(8) {
        0 => (random.below(DAY), 1),
        1 => (0, 12),
        2 => (DAY - 10, 10),
        3 => (9_990, 20),
        4 => (LAST_HOUR_BEGIN, HOUR),
        5 => (LAST_HOUR_BEGIN - 10, 20),
        _ => (0, DAY),
    };
    let mut seconds: Vec<usize> = (0..count).map(|_| first + random.below(width)).collect();
    seconds.sort_unstable();
    seconds
}

/// Damages a line, mostly by a wrong part; a new second may be too late, too early or still good.
pub fn damage(random: &mut Random, lines: &mut Vec<Line>) {
    if lines.is_empty() {
        return;
    }
    let at = random.below(lines.len());
    let part = random.below(WRONG.len());
    match random.below(12) {
        0 => lines.insert(at, empty_line()),
        1 => lines[at][SECOND] = random.below(DAY).to_string().into(),
        2 => lines[at][SECOND] = (DAY - 2 + random.below(4)).to_string().into(),
        3 => lines[at][SECOND] = (DAY + random.below(BEYOND)).to_string().into(),
        4 => lines.swap(at, 0),
        5 => put_back(&mut lines[at..]),
        _ => lines[at][part] = random.pick(WRONG[part]).to_vec(),
    }
}

/// Makes the seconds of these lines an hour less, as a clock that is put back has them; those of
/// the first hour stay, and so does what is no number.
fn put_back(lines: &mut [Line]) {
    for line in lines {
        let digits = std::str::from_utf8(&line[SECOND]).unwrap_or_default();
        let second = digits.parse().unwrap_or(0usize);
        if let Some(earlier) = second.checked_sub(HOUR) {
            line[SECOND] = earlier.to_string().into();
        }
    }
}

/// A day of about as many bytes as there may be, of long lines or of short ones.
fn day_of_many_bytes(random: &mut Random) -> Vec<u8> {
    let second = random.pick(&[0, DAY - 1, DAY - 1]);
    let mut lines = vec![good_line(second, random.pick(LETTERS)); MAX_DAY_BYTES / 6 + 1];
    if random.one_in(3) {
        damage(random, &mut lines);
    }
    let mut day = joined(&lines);
    day.truncate(MAX_DAY_BYTES - 2 + random.below(5));
    day
}

/// A few bytes: of any values, or of those that lines are made of.
fn arbitrary_bytes(random: &mut Random) -> Vec<u8> {
    let length = random.below(40);
    if random.one_in(2) {
        (0..length).map(|_| any_byte(random)).collect()
    } else {
        (0..length)
            .map(|_| random.pick(b"EE\t\t019aZ\n\n"))
            .collect()
    }
}

/// Lengths of both buffers: mostly long enough for so many lines.
fn buffer_lengths(random: &mut Random, n: usize) -> (usize, usize) {
    if random.one_in(4) {
        (any_length(random, n), any_length(random, n))
    } else {
        (n + random.below(4), n + random.below(4))
    }
}

/// A length that may be too short for so many lines, or much longer.
fn any_length(random: &mut Random, n: usize) -> usize {
    match random.below(6) {
        0 => 0,
        1 => n.saturating_sub(1),
        2 => n + 1,
        3 => random.below(n + 1),
        4 => n + random.below(60),
        _ => n,
    }
}
