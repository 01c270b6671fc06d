//! Numbers to print where a printing step can go wrong that takes powers of ten off, place by place.

use std::collections::BTreeSet;

use crate::stream::Case;

/// The most digits of a number of 64 bits.
pub const MAX_WIDTH: usize = 20;

/// Every number up to this one is printed.
const ALL_TO: u64 = 1_000_000;

/// How many numbers a long row has.
const LONG: u64 = 1_000;

/// All ten digits in turn, twice, rising and falling, so that no place has a neighbour's digit.
const IN_TURN: [&str; 2] = ["12345678901234567890", "98765432109876543210"];

/// All the cases, one group after another; the first two are empty rows.
pub fn cases() -> Vec<Case> {
    let mut cases = vec![row(0, 0), row(u64::MAX, 0)];
    let firsts = (0..=ALL_TO).step_by(LONG as usize);
    cases.extend(firsts.map(|first| row(first, LONG)));
    cases.extend(powers().map(about));
    let high_powers = powers().filter(|&power| power > ALL_TO);
    cases.extend(high_powers.map(|power| row(power - LONG / 2, LONG)));
    cases.push(row(u64::MAX - (LONG - 1), LONG));
    let high_numbers = telling().into_iter().filter(|&number| number > ALL_TO);
    cases.extend(high_numbers.map(about));
    cases
}

/// So many numbers from the first on.
fn row(first: u64, count: u64) -> Case {
    let count = count as usize;
    Case::Numbers { first, count }
}

/// A number, the one below it and the one above it, as far as there are such.
fn about(number: u64) -> Case {
    let (first, last) = (number.saturating_sub(1), number.saturating_add(1));
    row(first, last - first + 1)
}

/// The powers of ten of at most 64 bits.
fn powers() -> impl Iterator<Item = u64> {
    (0..MAX_WIDTH as u32).map(|place| 10u64.pow(place))
}

/// Numbers that tell places, digits and widths apart, in rising order.
fn telling() -> BTreeSet<u64> {
    let texts = [one_digit(), two_digits(), twenty_digits(), in_turn()].concat();
    // What has more than 64 bits is left out.
    let mut numbers: BTreeSet<u64> = texts.iter().flat_map(|text| text.parse()).collect();
    numbers.extend((0..u64::BITS).map(|bit| 1 << bit));
    numbers.extend(powers().map(|power| u64::MAX - power));
    numbers
}

/// Each digit repeated, and each before zeros.
fn one_digit() -> Vec<String> {
    let mut texts = Vec::new();
    for place in 0..MAX_WIDTH {
        for digit in ('1'..='9').map(String::from) {
            texts.push(digit.repeat(place + 1));
            texts.push(digit + &zeros(place));
        }
    }
    texts
}

/// Nines before zeros, a zero behind or within nines, and zeros between and behind two nines or two
/// ones.
fn two_digits() -> Vec<String> {
    let mut texts = Vec::new();
    for before in 0..MAX_WIDTH {
        for after in 0..MAX_WIDTH - before {
            let (between, behind) = (zeros(before), zeros(after));
            let (nines, more_nines) = ("9".repeat(before), "9".repeat(after));
            texts.push(format!("9{nines}{behind}"));
            texts.push(format!("9{nines}0{more_nines}"));
            texts.push(format!("9{between}9{behind}"));
            texts.push(format!("1{between}1{behind}"));
        }
    }
    texts
}

/// A one with zeros behind it, 20 digits in all, and each digit in place of each zero.
fn twenty_digits() -> Vec<String> {
    let mut texts = Vec::new();
    for place in 0..MAX_WIDTH - 1 {
        let (between, behind) = (zeros(MAX_WIDTH - 2 - place), zeros(place));
        texts.extend(('1'..='9').map(|digit| format!("1{between}{digit}{behind}")));
    }
    texts
}

/// Every beginning and every end of the digits in turn and of the last number's digits.
fn in_turn() -> Vec<String> {
    let last = u64::MAX.to_string();
    let mut texts = Vec::new();
    for text in IN_TURN.into_iter().chain([last.as_str()]) {
        for at in 0..MAX_WIDTH {
            texts.push(text[..=at].to_string());
            texts.push(text[at..].to_string());
        }
    }
    texts
}

/// So many zeros.
fn zeros(count: usize) -> String {
    "0".repeat(count)
}
