//! The digits of printed numbers: what an odometer shows, and what is read back from them.

#[path = "common/odometer.rs"]
mod odometer;

use odometer::Odometer;
use second::printed::number;

/// Checks so many numbers from one on that has these digits.
fn check_row(digits: &str, first: u64, count: u64) {
    let mut odometer = Odometer::at(digits);
    for after in 0..count {
        let printed = number(first + after);
        assert_eq!(printed, odometer.shown());
        let (digits, width) = printed.split_once(':').unwrap();
        assert_eq!(digits.parse(), Ok(first + after));
        assert_eq!(width.parse(), Ok(digits.len()));
        odometer.step();
    }
}

#[test]
fn an_odometer_carries() {
    let rows = [
        ("0", "1:1"),
        ("8", "9:1"),
        ("9", "10:2"),
        ("19", "20:2"),
        ("98", "99:2"),
        ("1099", "1100:4"),
        ("99999", "100000:6"),
    ];
    for (digits, next) in rows {
        let mut odometer = Odometer::at(digits);
        odometer.step();
        assert_eq!(odometer.shown(), next);
    }
}

#[test]
fn the_issues_edges_are_written_out() {
    assert_eq!(number(0), "0:1");
    assert_eq!(number(9), "9:1");
    assert_eq!(number(10), "10:2");
    assert_eq!(number(999_999), "999999:6");
    assert_eq!(number(1_000_000), "1000000:7");
    let power = 10_000_000_000_000_000_000;
    assert_eq!(number(power - 1), "9999999999999999999:19");
    assert_eq!(number(power), "10000000000000000000:20");
    assert_eq!(number(power + 1), "10000000000000000001:20");
    assert_eq!(number(u64::MAX), "18446744073709551615:20");
}

#[test]
fn every_number_up_to_a_million_is_an_odometers() {
    check_row("0", 0, 1_000_001);
}

#[test]
fn the_numbers_about_every_power_of_ten_are_an_odometers() {
    // The lower ones are among the million.
    for place in 4..20 {
        let digits = ["9".repeat(place - 3), "000".into()].concat();
        check_row(&digits, 10u64.pow(place as u32) - 1_000, 2_000);
    }
}

#[test]
fn the_last_numbers_are_an_odometers() {
    check_row("18446744073709550616", u64::MAX - 999, 1_000);
}
