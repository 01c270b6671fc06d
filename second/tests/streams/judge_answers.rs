//! The command `answers` for the judge: the form of its calls and of its lines.

use crate::{answer_lines, run};

/// The header of a call and its bytes.
fn written(table: usize, limit: u64, rule: &[u8], word: &[u8]) -> Vec<u8> {
    let header = format!("judge {table} {limit} {} {}\n", rule.len(), word.len());
    [header.as_bytes(), rule, word, b"\n"].concat()
}

/// The line that answers one call.
fn line(table: usize, limit: u64, rule: &[u8], word: &[u8]) -> String {
    let lines = answer_lines(&written(table, limit, rule, word));
    assert_eq!(lines.len(), 1);
    lines[0].clone()
}

#[test]
fn an_accepted_call_is_answered_with_its_blocks() {
    assert_eq!(line(4, 2, b"1", b""), "judge\t0\t0\t1\t2\t1,0*3");
    assert_eq!(line(8, 2, b"0", b"a"), "judge\t0\t0\t0\t2\t0*8");
    assert_eq!(
        line(16, 7, b"!a", b"a"),
        "judge\t0\t0\t2\t7\t1,0*3,2,0*3,1,0*3,2,0*3"
    );
    assert_eq!(
        line(12, 18, b"a*", b"aa"),
        "judge\t0\t0\t6\t18\t7,0*3,6,0*3,4,0*3"
    );
    // Two spans of the & in one row would be 3; here each row of both blocks has one or none.
    assert_eq!(line(16, 9, b"a&a", b"a"), "judge\t0\t0\t1\t9\t2,0*7,2,0*7");
}

#[test]
fn what_lies_beyond_the_need_is_printed_as_it_was() {
    let beyond = "18446744073709551607,18446744073709551606";
    assert_eq!(
        line(10, 2, b"0", b"a"),
        format!("judge\t0\t0\t0\t2\t0*8,{beyond}")
    );
    assert_eq!(
        line(10, 1, b"0", b"a"),
        format!("judge\t10\t0\t0\t1\t0*8,{beyond}")
    );
}

#[test]
fn a_refused_call_is_answered_with_the_table_as_it_was() {
    let table = "18446744073709551615,18446744073709551614,18446744073709551613";
    let refused = |number: usize, place: usize| format!("judge\t{number}\t{place}\t0\t0\t{table}");
    assert_eq!(line(3, 9, b"", b"a"), refused(1, 0));
    assert_eq!(line(3, 9, &[b'a'; 256], b"a"), refused(2, 0));
    assert_eq!(line(3, 9, b"ab?", b"a"), refused(3, 2));
    assert_eq!(line(3, 9, b"a)", b"a"), refused(4, 1));
    assert_eq!(line(3, 9, &[b'a'; 33], b"a"), refused(5, 0));
    assert_eq!(line(3, 9, b"!!!!!!!!a", b"a"), refused(6, 0));
    assert_eq!(line(3, 9, b"a", &[b'a'; 256]), refused(7, 0));
    assert_eq!(line(3, 9, b"a", b"abc-"), refused(8, 3));
    assert_eq!(line(3, 9, b"a", b""), refused(9, 0));
    assert_eq!(line(0, 9, b"a", b""), "judge\t9\t0\t0\t0\t-");
}

#[test]
fn a_full_number_of_the_blocks_is_told_from_dirt() {
    // Row 0 of a* on 64 times a begins with 64 ones, which is also how the table was lent.
    let line = line(260, u64::MAX, b"a*", &[b'a'; 64]);
    let begin = "judge\t0\t0\t2145\t6435\t18446744073709551615,1,0*2,18446744073709551614,1,0*2,";
    assert!(line.starts_with(begin), "{}", &line[..90]);
    assert!(line.ends_with(",9223372036854775808,1,0*3,1,0*2"));
}

#[test]
fn the_highest_numbers_of_a_header_are_taken() {
    let accepted = line(99_999, u64::MAX, b"1", b"");
    assert!(accepted.starts_with("judge\t0\t0\t1\t2\t1,0*3,18446744073709551611,"));
    assert!(accepted.ends_with(",18446744073709451617"));
    assert_eq!(accepted.matches(',').count(), 99_996);
    let long = [b'a'; 99_999];
    assert_eq!(line(0, 0, &long, b"a"), "judge\t2\t0\t0\t0\t-");
    assert_eq!(line(0, 0, b"a", &long), "judge\t7\t0\t0\t0\t-");
}

#[test]
fn lengths_over_99999_are_no_case() {
    let long = [b'a'; 100_000];
    for bad in [written(0, 0, &long, b"a"), written(0, 0, b"a", &long)] {
        let output = run("answers", &bad);
        assert_eq!(output.status.code(), Some(1));
        assert!(output.stdout.is_empty());
    }
}

#[test]
fn rule_and_word_are_parted_by_their_lengths_alone() {
    let stream = [
        written(8, 9, b"a\n", b"a"),
        written(8, 9, b"a", b"\na"),
        written(8, 9, b"aa", b"\n"),
        written(12, 99, b"ab", b""),
        written(12, 99, b"a", b"b"),
        written(12, 99, b"", b"ab"),
        b"rule 1\na\n".to_vec(),
    ];
    let numbers_and_places: Vec<String> = answer_lines(&stream.concat())
        .iter()
        .map(|line| line.split('\t').take(3).collect::<Vec<_>>().join(" "))
        .collect();
    let expected = [
        "judge 3 1",
        "judge 8 0",
        "judge 8 0",
        "judge 0 0",
        "judge 0 0",
        "judge 1 0",
        "rule 0 0",
    ];
    assert_eq!(numbers_and_places, expected);
}

#[test]
fn a_call_cut_off_anywhere_fails() {
    let call = written(4, 2, b"1", b"");
    for length in 1..call.len() {
        let output = run("answers", &call[..length]);
        assert_eq!(output.status.code(), Some(1), "{length} bytes");
        assert!(output.stdout.is_empty() && !output.stderr.is_empty());
    }
}
