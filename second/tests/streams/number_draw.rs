//! The command `draw` for numbers: its size, that a seed fixes it, and that it comes everywhere.

use std::sync::OnceLock;

use crate::printing::{check_answer, digits_and_width, items, rows, Row};
use crate::{cases, stream};

/// The seeds that the tests below draw from.
const SEEDS: [usize; 4] = [1, 2, 3, 4];

/// The command for a stream as long as the limit lets it be.
pub fn longest(seed: usize) -> String {
    format!("draw {seed} 1000000 numbers")
}

/// The rows of each seed with their answers, asked for once for all tests.
fn many() -> &'static [Vec<(Row, String)>] {
    static MANY: OnceLock<Vec<Vec<(Row, String)>>> = OnceLock::new();
    MANY.get_or_init(|| SEEDS.map(|seed| rows(&longest(seed))).into())
}

#[test]
fn there_are_as_many_rows_as_asked_for() {
    assert!(stream("draw 3 0 numbers").is_empty());
    for count in [1, 2, 17, 200] {
        let cases = cases(&stream(&format!("draw 3 {count} numbers")));
        assert_eq!(cases.len(), count);
        assert!(cases.iter().all(|case| case.header[0] == "numbers"));
    }
}

#[test]
fn the_stream_ends_with_the_last_whole_row_that_fits() {
    for seed in SEEDS {
        let stream = stream(&longest(seed));
        assert!(stream.len() <= 65_536);
        // No row takes more than 32 bytes.
        assert!(stream.len() > 65_536 - 32, "{} bytes", stream.len());
    }
}

#[test]
fn a_seed_fixes_the_stream() {
    assert_eq!(stream(&longest(1)), stream(&longest(1)));
    assert_ne!(stream(&longest(1)), stream(&longest(2)));
    let (short, long) = (stream("draw 9 40 numbers"), stream("draw 9 80 numbers"));
    assert!(long.starts_with(&short) && long.len() > short.len());
}

#[test]
fn every_answer_is_what_an_odometer_shows() {
    for (row, line) in many().iter().flatten() {
        check_answer(row, line);
    }
}

#[test]
fn a_few_numbers_stand_in_a_row() {
    for rows in many() {
        let mut times = [0; 9];
        for (row, _) in rows {
            times[row.count as usize] += 1;
        }
        assert_eq!(times[0], 0);
        let least = rows.len() / 12;
        assert!(times[1..].iter().all(|&times| times > least), "{times:?}");
    }
}

#[test]
fn every_width_comes_often() {
    for rows in many() {
        let mut times = [0; 21];
        for (_, line) in rows {
            times[digits_and_width(items(line)[0]).1] += 1;
        }
        assert_eq!(times[0], 0);
        assert!(times[1..].iter().all(|&times| times >= 50), "{times:?}");
    }
}

#[test]
fn every_number_of_bits_comes() {
    for rows in many() {
        let mut times = [0; 65];
        for number in rows.iter().flat_map(|(row, _)| row.numbers()) {
            times[(u64::BITS - number.leading_zeros()) as usize] += 1;
        }
        assert!(times.iter().all(|&times| times >= 10), "{times:?}");
        // Half of all numbers of 64 bits have the highest one.
        assert!(times[64] > 500, "{}", times[64]);
    }
}

#[test]
fn every_digit_stands_at_every_place() {
    for rows in many() {
        let mut times = [[0; 10]; 20];
        for item in rows.iter().flat_map(|(_, line)| items(line)) {
            let (digits, _) = digits_and_width(item);
            for (place, digit) in digits.bytes().rev().enumerate() {
                times[place][usize::from(digit - b'0')] += 1;
            }
        }
        let (highest, others) = times.split_last().unwrap();
        for (place, times) in others.iter().enumerate() {
            assert!(times.iter().all(|&times| times >= 10), "{place}: {times:?}");
        }
        assert!(highest[1] > 500, "{highest:?}");
    }
}

#[test]
fn rows_often_go_over_a_carry_and_come_to_both_ends() {
    let (mut first, mut last) = (0, 0);
    for rows in many() {
        let ends_in = |number: u64, digits: &str| number.to_string().ends_with(digits);
        let carries = |(row, _): &&(Row, String)| {
            let mut numbers = row.numbers().skip(1);
            numbers.any(|number| ends_in(number, "000"))
        };
        let carries = rows.iter().filter(carries).count();
        assert!(carries > rows.len() / 20, "{carries} of {}", rows.len());
        let has = |number: u64| move |(row, _): &&(Row, String)| row.numbers().any(|n| n == number);
        first += rows.iter().filter(has(0)).count();
        last += rows.iter().filter(has(u64::MAX)).count();
    }
    assert!(first > 20 && last > 20, "{first} {last}");
}
