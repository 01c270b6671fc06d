//! The reader of day files: refusals 11 to 15, and the letters and seconds of the lines.

use crate::limits::{is_event, LAST_SECOND, MAX_DAY_BYTES, MAX_DAY_LINES, MAX_SECOND_DIGITS};
use crate::refusal::{Reason, Refusal};

/// What one line holds: an event and its second.
#[derive(Clone, Copy, Debug, PartialEq, Eq)]
pub struct Record {
    pub second: u32,
    pub letter: u8,
}

/// Reads a day into the two buffers and gives n; a refused day changes neither.
pub fn read(bytes: &[u8], letters: &mut [u8], seconds: &mut [u32]) -> Result<usize, Refusal> {
    write(&records(bytes)?, letters, seconds)
}

/// The records of a day in line order, or why it is refused; no buffer is judged.
pub fn records(bytes: &[u8]) -> Result<Vec<Record>, Refusal> {
    if bytes.len() > MAX_DAY_BYTES {
        return Err(Refusal::without_place(Reason::DayTooLong));
    }
    read_lines(bytes)
}

/// Writes records into the two buffers and gives n; where one is too short neither changes.
pub fn write(
    records: &[Record],
    letters: &mut [u8],
    seconds: &mut [u32],
) -> Result<usize, Refusal> {
    let n = records.len();
    if letters.len() < n || seconds.len() < n {
        return Err(Refusal::without_place(Reason::BufferTooShort));
    }
    for (index, record) in records.iter().enumerate() {
        letters[index] = record.letter;
        seconds[index] = record.second;
    }
    Ok(n)
}

/// Reads one line after another up to the first bad one.
fn read_lines(bytes: &[u8]) -> Result<Vec<Record>, Refusal> {
    let mut records = Vec::new();
    let mut second_before = 0;
    for (index, line) in bytes.split_inclusive(|&byte| byte == b'\n').enumerate() {
        let place = index + 1;
        if place > MAX_DAY_LINES {
            return Err(Refusal::at(Reason::TooManyLines, place));
        }
        let record = read_line(line).ok_or(Refusal::at(Reason::LineForm, place))?;
        if record.second > LAST_SECOND || record.second < second_before {
            return Err(Refusal::at(Reason::LineSecond, place));
        }
        second_before = record.second;
        records.push(record);
    }
    Ok(records)
}

/// Reads one line, newline included; nothing if it is not of the form.
fn read_line(line: &[u8]) -> Option<Record> {
    let fields: Vec<&[u8]> = line
        .strip_suffix(b"\n")?
        .split(|&byte| byte == b'\t')
        .collect();
    match fields[..] {
        [b"E", second, &[letter]] if is_event(letter) => Some(Record {
            second: read_second(second)?,
            letter,
        }),
        _ => None,
    }
}

/// Reads a second without judging its size; nothing if it is not of the form.
fn read_second(digits: &[u8]) -> Option<u32> {
    let leading_zero = digits.len() > 1 && digits[0] == b'0';
    if digits.len() > MAX_SECOND_DIGITS || leading_zero || !digits.iter().all(u8::is_ascii_digit) {
        return None;
    }
    std::str::from_utf8(digits).ok()?.parse().ok()
}
