//! The command `answers` for the readers, and streams and arguments that are no good.

use crate::{answer_lines, letters_after, run, seconds_after};

#[test]
fn a_rule_is_answered_with_its_reading() {
    let stream = b"rule 3\n!a*\nrule 0\n\nrule 2\na|\nrule 2\na2\nrule 1\nz\n";
    let expected = [
        "rule\t0\t0\t0\t0\t3\t1\t1:a;2:*;0:!",
        "rule\t1\t0\t0\t0\t0\t0\t-",
        "rule\t4\t2\t0\t0\t0\t0\t-",
        "rule\t3\t1\t0\t0\t0\t0\t-",
        "rule\t0\t0\t0\t0\t1\t0\t0:z",
    ];
    assert_eq!(answer_lines(stream), expected);
}

#[test]
fn every_kind_of_node_has_its_sign() {
    assert_eq!(
        answer_lines(b"rule 9\n0|1&!xy*z\n"),
        ["rule\t0\t0\t0\t0\t11\t2\t0:0;2:1;5:x;4:!;6:y;7:*;6:.;8:z;8:.;3:&;1:|"]
    );
}

#[test]
fn a_day_is_answered_with_both_buffers() {
    let stream = b"day 3 2 13\nE\t7\tc\nE\t12\tb\n\nday 1 2 13\nE\t7\tc\nE\t12\tb\n\nday 0 0 0\n\n\
        day 1 0 1\nE\n";
    let expected = [
        "day\t0\t0\t0\t0\t2\t99,98,130\t7,12",
        "day\t15\t0\t0\t0\t0\t128\t100000,100001",
        "day\t0\t0\t0\t0\t0\t-\t-",
        "day\t12\t1\t0\t0\t0\t128\t-",
    ];
    assert_eq!(answer_lines(stream), expected);
}

#[test]
fn the_letters_of_a_long_buffer_go_round() {
    let line = &answer_lines(b"day 258 3 0\n\n")[0];
    let letters: Vec<&str> = line.split('\t').nth(6).unwrap().split(',').collect();
    assert_eq!(letters.len(), 258);
    assert_eq!(letters[126..130], ["254", "255", "128", "129"]);
    assert_eq!(letters[254..], ["254", "255", "128", "129"]);
}

#[test]
fn the_bytes_of_a_case_may_look_like_a_stream() {
    let stream = b"rule 9\nrule 1\na\n\nday 1 1 11\nday 0 0 0\n\n\nrule 1\n\n\nrule 1\na\n";
    let expected = [
        "rule\t3\t4\t0\t0\t0\t0\t-",
        "day\t12\t1\t0\t0\t0\t128\t100000",
        "rule\t3\t0\t0\t0\t0\t0\t-",
        "rule\t0\t0\t0\t0\t1\t0\t0:a",
    ];
    assert_eq!(answer_lines(stream), expected);
}

#[test]
fn a_stream_without_cases_has_no_answers() {
    assert!(answer_lines(b"").is_empty());
}

#[test]
fn the_highest_numbers_of_a_header_are_taken() {
    let long = [b"rule 99999\n", &[b'a'; 99_999][..], b"\n"].concat();
    assert_eq!(answer_lines(&long), ["rule\t2\t0\t0\t0\t0\t0\t-"]);
    let long = [b"day 0 0 99999\n", &[b'\n'; 99_999][..], b"\n"].concat();
    assert_eq!(answer_lines(&long), ["day\t11\t0\t0\t0\t0\t-\t-"]);
    let letters = letters_after(b"k", 99_999);
    let seconds = seconds_after(&[4], 99_999);
    assert_eq!(
        answer_lines(b"day 99999 99999 6\nE\t4\tk\n\n"),
        [format!("day\t0\t0\t0\t0\t1\t{letters}\t{seconds}")]
    );
}

/// Streams that have no whole case at their beginning.
const NO_CASES: [&[u8]; 88] = [
    b"\n",
    b"x",
    b"x\n",
    b"rule",
    b"rule\n",
    b"rule \n\n",
    b"rule 1",
    b"rule 0\n",
    b"rule 1\n",
    b"rule 1\na",
    b"rule 1\nab\n",
    b"rule 2\na\n",
    b"rule 00\n\n",
    b"rule 01\na\n",
    b"rule +1\na\n",
    b"rule -0\n\n",
    b"rule x\na\n",
    b"rule  1\na\n",
    b"rule 1 \na\n",
    b"rule\t1\na\n",
    b" rule 1\na\n",
    b"Rule 1\na\n",
    b"rule 1\r\na\n",
    b"rule 1 1 1\na\n",
    b"rule 18446744073709551617\na\n",
    b"day 0\n\n",
    b"day 0 0\n\n",
    b"day 0 0 0 0\n\n",
    b"day 0 0 0",
    b"day 0 0 0\n",
    b"day 100000 0 0\n\n",
    b"day 0 100000 0\n\n",
    b"day 00 0 0\n\n",
    b"judge\n",
    b"judge 0 0 0\n\n",
    b"judge 0 0 0 0",
    b"judge 0 0 0 0\n",
    b"judge 0 0 0 0 0\n\n",
    b"judge 0 0 1 1\na\n",
    b"judge 0 0 1 1\naa",
    b"judge 0 0 1 1\naaa\n",
    b"judge 0 0 1 1\na\na\n",
    b"judge 100000 0 0 0\n\n",
    b"judge 0 18446744073709551616 0 0\n\n",
    b"judge 0 00 0 0\n\n",
    b"judge 0 01 0 0\n\n",
    b"judge 0 +1 0 0\n\n",
    b"judge 0 -1 0 0\n\n",
    b"judge 0  0 0\n\n",
    b"judge 00 0 0 0\n\n",
    b"judge 0 0 00 0\n\n",
    b"judge 0 0 0 00\n\n",
    b"Judge 0 0 0 0\n\n",
    b"numbers",
    b"numbers\n",
    b"numbers 0\n\n",
    b"numbers 0 0",
    b"numbers 0 0\n",
    b"numbers 0 1\n",
    b"numbers 0 1\n0\n",
    b"numbers 0 0 0\n\n",
    b"numbers  0 0\n\n",
    b"numbers 0  0\n\n",
    b"numbers 0 0 \n\n",
    b"numbers\t0 0\n\n",
    b" numbers 0 0\n\n",
    b"numbers 0 0\r\n\n",
    b"numbers 00 0\n\n",
    b"numbers 01 1\n\n",
    b"numbers 0 00\n\n",
    b"numbers 0 01\n\n",
    b"numbers +1 1\n\n",
    b"numbers -1 1\n\n",
    b"numbers 1 +1\n\n",
    b"numbers 1 -1\n\n",
    b"numbers x 1\n\n",
    b"numbers 1 x\n\n",
    b"numbers 0 100000\n\n",
    b"numbers 18446744073709551616 0\n\n",
    b"numbers 18446744073709551616 1\n\n",
    b"numbers 018446744073709551615 1\n\n",
    b"numbers 100000000000000000000 1\n\n",
    b"numbers 0 18446744073709551616\n\n",
    b"numbers 18446744073709551615 2\n\n",
    b"numbers 18446744073709551614 3\n\n",
    b"numbers 18446744073709451618 99999\n\n",
    b"number 0 1\n\n",
    b"Numbers 0 1\n\n",
];

#[test]
fn what_came_whole_is_answered_before_the_failure() {
    let too_long = [b"rule 100000\n", &[b'a'; 100_000][..], b"\n"].concat();
    for bad in NO_CASES.into_iter().chain([&too_long[..]]) {
        let whole = b"rule 1\nb\nday 1 0 0\n\n";
        let output = run("answers", &[whole, bad].concat());
        let shown = bad[..bad.len().min(40)].escape_ascii();
        assert_eq!(output.status.code(), Some(1), "{shown}");
        assert!(!output.stderr.is_empty(), "{shown}");
        let expected = "rule\t0\t0\t0\t0\t1\t0\t0:b\nday\t0\t0\t0\t0\t0\t128\t-\n";
        assert_eq!(String::from_utf8(output.stdout).unwrap(), expected);
    }
}

#[test]
fn nothing_after_a_bad_case_is_answered() {
    let output = run("answers", b"rule 1\nb\nrule 01\na\nrule 1\nc\n");
    assert_eq!(output.status.code(), Some(1));
    assert_eq!(output.stdout, b"rule\t0\t0\t0\t0\t1\t0\t0:b\n");
}

#[test]
fn a_stream_cut_off_anywhere_fails_except_between_cases() {
    let stream = b"rule 2\nab\nday 1 1 6\nE\t0\ta\n\n";
    for length in 0..=stream.len() {
        let output = run("answers", &stream[..length]);
        let whole = [0, 10, stream.len()].iter().position(|&end| end == length);
        assert_eq!(output.status.success(), whole.is_some(), "{length} bytes");
        assert_eq!(output.stderr.is_empty(), whole.is_some());
        let lines = output.stdout.iter().filter(|&&byte| byte == b'\n').count();
        let expected = usize::from(length >= 10) + usize::from(length >= stream.len());
        assert_eq!(lines, expected, "{length} bytes");
    }
}

#[test]
fn wrong_arguments_are_told_the_usage() {
    for arguments in [
        "answers 1",
        "edges",
        "edges 1",
        "edges x",
        "edges judge 1",
        "edges number",
        "edges numbers 1",
        "draw",
        "draw 1",
        "draw 1 2",
        "draw 1 2 3",
        "draw 1 2 days",
        "draw x 2 judge",
        "draw 1 -2 judge",
        "draw 1 2 judge 3",
        "draw 1 numbers",
        "draw 1 2 numbers 3",
    ] {
        let output = run(arguments, b"");
        assert_eq!(output.status.code(), Some(2), "{arguments}");
        assert!(output.stdout.is_empty());
        let message = String::from_utf8(output.stderr).unwrap();
        for usage in [
            "second answers < CASES",
            "second edges rules|days|judge|judge-large|known|numbers\n",
            "second draw SEED COUNT readers|judge|numbers\n",
        ] {
            assert!(message.contains(usage));
        }
    }
}
