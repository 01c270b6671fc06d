//! The command `answers` for numbers: the form of their rows and of their lines.

use second::stream::{self, Case};

use crate::{answer_lines, run};

/// The line that answers one row.
fn line(first: u64, count: usize) -> String {
    let lines = answer_lines(&Case::Numbers { first, count }.written());
    assert_eq!(lines.len(), 1);
    lines[0].clone()
}

#[test]
fn a_row_is_a_header_and_a_newline() {
    let rows: [(u64, usize, &[u8]); 5] = [
        (0, 1_000, b"numbers 0 1000\n\n"),
        (8, 3, b"numbers 8 3\n\n"),
        (0, 0, b"numbers 0 0\n\n"),
        (5, 99_999, b"numbers 5 99999\n\n"),
        (u64::MAX, 1, b"numbers 18446744073709551615 1\n\n"),
    ];
    for (first, count, expected) in rows {
        let written = Case::Numbers { first, count }.written();
        assert_eq!(written, expected);
        assert_eq!(
            stream::read(expected),
            (vec![Case::Numbers { first, count }], &b""[..])
        );
    }
}

#[test]
fn numbers_are_answered_with_digits_and_widths() {
    assert_eq!(line(8, 3), "numbers\t8:1,9:1,10:2");
    assert_eq!(line(0, 2), "numbers\t0:1,1:1");
    assert_eq!(line(99, 2), "numbers\t99:2,100:3");
    assert_eq!(line(1_234_567_890, 1), "numbers\t1234567890:10");
    assert_eq!(line(909_090, 1), "numbers\t909090:6");
    assert_eq!(
        line(u64::MAX - 1, 2),
        "numbers\t18446744073709551614:20,18446744073709551615:20"
    );
}

#[test]
fn a_row_without_numbers_is_a_dash() {
    for first in [0, 1, 77, u64::MAX - 1, u64::MAX] {
        assert_eq!(line(first, 0), "numbers\t-");
    }
}

#[test]
fn the_longest_rows_are_taken() {
    let first = line(0, 99_999);
    assert!(first.starts_with("numbers\t0:1,1:1,") && first.ends_with(",99997:5,99998:5"));
    assert_eq!(first.matches(',').count(), 99_998);
    let last = line(u64::MAX - 99_998, 99_999);
    assert!(last.starts_with("numbers\t18446744073709451617:20,18446744073709451618:20,"));
    assert!(last.ends_with(",18446744073709551615:20"));
    assert_eq!(last.matches(',').count(), 99_998);
}

#[test]
fn a_row_cut_off_anywhere_fails() {
    let row = b"numbers 8 3\n\n";
    for length in 1..row.len() {
        let output = run("answers", &row[..length]);
        assert_eq!(output.status.code(), Some(1), "{length} bytes");
        assert!(output.stdout.is_empty() && !output.stderr.is_empty());
    }
}

#[test]
fn rows_stand_among_other_cases() {
    let stream = b"rule 1\na\nnumbers 9 2\n\njudge 4 2 1 0\n1\nnumbers 0 1\n\nday 0 0 0\n\n";
    let expected = [
        "rule\t0\t0\t0\t0\t1\t0\t0:a",
        "numbers\t9:1,10:2",
        "judge\t0\t0\t1\t2\t1,0*3",
        "numbers\t0:1",
        "day\t0\t0\t0\t0\t0\t-\t-",
    ];
    assert_eq!(answer_lines(stream), expected);
}
