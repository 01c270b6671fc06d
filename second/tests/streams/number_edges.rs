//! The command `edges numbers`: every number that the request's issue asks for, and the answers.

use std::sync::OnceLock;

use crate::printing::{check_answer, digits_and_width, items, rows, Row};
use crate::stream;

/// The rows with their answers, asked for once for all tests.
pub fn edges() -> &'static [(Row, String)] {
    static EDGES: OnceLock<Vec<(Row, String)>> = OnceLock::new();
    EDGES.get_or_init(|| rows("edges numbers"))
}

/// All the numbers in rising order, each once.
fn numbers() -> &'static [u64] {
    static NUMBERS: OnceLock<Vec<u64>> = OnceLock::new();
    NUMBERS.get_or_init(|| {
        let mut numbers: Vec<u64> = edges().iter().flat_map(|(row, _)| row.numbers()).collect();
        numbers.sort_unstable();
        numbers.dedup();
        numbers
    })
}

/// Checks that these numbers are among the edges, and that there are so many of them.
fn check_among(expected: impl IntoIterator<Item = u64>, count: usize) {
    let mut expected: Vec<u64> = expected.into_iter().collect();
    expected.sort_unstable();
    expected.dedup();
    assert_eq!(expected.len(), count);
    for number in expected {
        assert!(numbers().binary_search(&number).is_ok(), "no {number}");
    }
}

/// A power of ten.
fn power(place: u32) -> u64 {
    10u64.pow(place)
}

/// The pairs of places of which the first is the higher one.
fn pairs() -> impl Iterator<Item = (u32, u32)> {
    (0..20).flat_map(|high| (0..high).map(move |low| (high, low)))
}

#[test]
fn the_stream_and_its_answers_stay_small() {
    let stream = stream("edges numbers");
    assert!(stream.len() <= 65_536, "{} bytes", stream.len());
    let bytes: usize = edges().iter().map(|(_, line)| line.len() + 1).sum();
    assert!(bytes <= 10_000_000, "{bytes} bytes of answers");
    // So a difference is found at once.
    assert!(edges().iter().all(|(row, _)| row.count <= 1_000));
}

#[test]
fn every_answer_is_what_an_odometer_shows() {
    for (row, line) in edges() {
        check_answer(row, line);
    }
}

#[test]
fn every_number_up_to_a_million_is_there() {
    let all: Vec<u64> = (0..=1_000_000).collect();
    assert!(numbers().starts_with(&all));
}

#[test]
fn every_power_of_ten_is_there_with_its_neighbours() {
    check_among((0..20).map(|place| power(place) - 1), 20);
    check_among((0..20).map(power), 20);
    check_among((0..20).map(|place| power(place) + 1), 20);
    for place in 0..20 {
        let is_alone = |row: &Row| (row.first, row.count) == (power(place) - 1, 3);
        assert!(edges().iter().any(|(row, _)| is_alone(row)), "10^{place}");
    }
    // Long rows go over the high ones too.
    for power in (7..20).map(power) {
        check_among(power - 500..power + 500, 1_000);
    }
}

#[test]
fn the_last_numbers_are_there() {
    check_among(u64::MAX - 999..=u64::MAX, 1_000);
    assert_eq!(*numbers().last().unwrap(), 18_446_744_073_709_551_615);
}

#[test]
fn rows_without_numbers_are_there() {
    let firsts: Vec<u64> = edges()
        .iter()
        .filter(|(row, _)| row.count == 0)
        .map(|(row, _)| row.first)
        .collect();
    assert_eq!(firsts, [0, u64::MAX]);
}

#[test]
fn every_digit_is_there_alone_and_repeated() {
    let products = |factor: fn(u32) -> u64| {
        let products =
            move |digit: u64| (0..20).flat_map(move |place| digit.checked_mul(factor(place)));
        (1..=9).flat_map(products)
    };
    // At the highest place only a 1 has 64 bits.
    check_among(products(power), 9 * 19 + 1);
    check_among(products(power).map(|number| number - 1), 9 * 19 + 1);
    let ones = |place| (0..=place).map(power).sum();
    check_among(products(ones), 9 * 19 + 1);
}

#[test]
fn two_places_are_there_together() {
    check_among(pairs().map(|(high, low)| power(high) + power(low)), 190);
    // Nines before zeros, and nines about an 8.
    check_among(pairs().map(|(high, low)| power(high) - power(low)), 190);
    let about_8 = pairs().map(|(high, low)| power(high) - power(low) - 1);
    check_among(about_8, 190);
    // Two nines with zeros between, and a zero within nines.
    let below_20_digits = || pairs().filter(|&(high, _)| high < 19);
    let nines = below_20_digits().map(|(high, low)| 9 * (power(high) + power(low)));
    check_among(nines, 171);
    let zero = below_20_digits().map(|(high, low)| power(high + 1) - 1 - 9 * power(low));
    check_among(zero, 171);
}

#[test]
fn powers_of_two_are_there_with_their_neighbours() {
    check_among((0..64).map(|bit| (1 << bit) - 1), 64);
    check_among((0..64).map(|bit| 1 << bit), 64);
    check_among((0..64).map(|bit| (1 << bit) + 1), 64);
}

#[test]
fn all_places_can_have_different_digits() {
    let beginning = 12_345_678_901_234_567_890;
    check_among([beginning, 9_876_543_210_987_654_321, 1_234_567_890], 3);
    // One less at each place of the last number.
    check_among((0..20).map(|place| u64::MAX - power(place)), 20);
}

#[test]
fn every_digit_stands_at_every_place_of_every_width() {
    let mut seen = [[[false; 10]; 20]; 21];
    for item in edges().iter().flat_map(|(_, line)| items(line)) {
        let (digits, width) = digits_and_width(item);
        for (place, digit) in digits.bytes().rev().enumerate() {
            seen[width][place][usize::from(digit - b'0')] = true;
        }
    }
    for (width, seen) in seen.iter().enumerate().skip(1) {
        for (place, seen) in seen[..width].iter().enumerate() {
            let can_stand = |digit: usize| match (width, place) {
                (1, _) => true,
                (20, 19) => digit == 1,
                (20, 18) => digit <= 8,
                _ => digit > 0 || place + 1 < width,
            };
            let expected: Vec<bool> = (0..10).map(can_stand).collect();
            assert_eq!(seen[..], expected, "{width} {place}");
        }
    }
}
