//! The program in trouble: what is made to happen does happen, and wrong programs are found.

use std::ffi::OsStr;
use std::io::{ErrorKind, Read, Write};
use std::os::unix::process::ExitStatusExt;
use std::process::Command;

use second::compare::call::Kind;
use second::compare::trouble::{cases, check, Trouble};
use second::compare::troubled_input::failing_pair;

use crate::scripts::{script, RIGHT, SECOND};

/// The troubles in which the input fails, so that nothing may be printed.
const FAILING: [Trouble; 7] = [
    Trouble::InputDirectory,
    Trouble::InputNotForReading,
    Trouble::InputClosed,
    Trouble::InputFails,
    Trouble::InputFailsLater,
    Trouble::InputOutOfTime,
    Trouble::InputNotReady,
];

/// What is wrong with a program in each case of a trouble, as it is printed.
fn differences(program: impl AsRef<OsStr>, trouble: Trouble) -> Vec<Option<String>> {
    let cases = cases().into_iter().filter(|case| case.trouble == trouble);
    let checked = cases.map(|case| check(program.as_ref(), &case));
    let shown = checked.map(|checked| {
        assert_eq!(checked.kind, Kind::Trouble(trouble));
        checked.difference.map(|difference| difference.to_string())
    });
    shown.collect()
}

/// Checks that a program passes in every case of a trouble.
fn check_passes(program: impl AsRef<OsStr>, trouble: Trouble) {
    for difference in differences(program, trouble) {
        assert_eq!(difference, None, "{trouble}");
    }
}

/// Checks that a program fails in every case of a trouble, and that this is said.
fn check_fails(program: impl AsRef<OsStr>, trouble: Trouble, said: &str) {
    for difference in differences(program, trouble) {
        let shown = difference.unwrap_or_else(|| panic!("it passed: {trouble}"));
        assert!(shown.contains(said), "{trouble}: {shown}");
    }
}

#[test]
fn every_trouble_comes() {
    for trouble in Trouble::ALL {
        assert!(cases().iter().any(|case| case.trouble == trouble));
    }
}

#[test]
fn an_input_that_fails_first_gives_what_was_written() {
    let (mut writer, mut input) = failing_pair().unwrap();
    writer.write_all(b"R\ta\n").unwrap();
    drop(writer);
    let mut read = [0; 9];
    let length = input.read(&mut read).unwrap();
    assert_eq!(&read[..length], b"R\ta\n");
    let failure = input.read(&mut read).unwrap_err();
    assert_eq!(failure.kind(), ErrorKind::ConnectionReset);
    // It fails once: whoever reads on finds the end.
    assert_eq!(input.read(&mut read).unwrap(), 0);
}

#[test]
fn a_program_that_is_started_does_not_ignore_the_signal_of_a_broken_pipe() {
    let mut shell = Command::new("sh");
    let status = shell.args(["-c", "kill -s PIPE $$"]).status().unwrap();
    assert_eq!(status.signal(), Some(13));
}

#[test]
fn the_second_program_keeps_all_promises_but_one() {
    for trouble in Trouble::ALL {
        match trouble {
            Trouble::InputClosed => check_fails(SECOND, trouble, r#""X" in "X\t16\t0\n""#),
            _ => check_passes(SECOND, trouble),
        }
    }
}

#[test]
fn a_right_program_keeps_this_one_too() {
    let program = script("right-in-trouble", RIGHT);
    check_passes(&program, Trouble::InputClosed);
    check_passes(&program, Trouble::OutputReadByNobody);
}

#[test]
fn a_program_that_takes_a_failure_for_the_end_is_found() {
    let program = script("failure-is-end", "cat 2> /dev/null | SECOND");
    for trouble in FAILING {
        check_fails(&program, trouble, "byte 0 of the standard output");
    }
    check_passes(&program, Trouble::InputInterruptedSocket);
}

#[test]
fn a_program_that_tells_a_failure_is_found() {
    let message = script("failure-message", "echo failed >&2");
    let status = script("failure-status", "exit 1");
    for trouble in FAILING {
        check_fails(&message, trouble, "byte 0 of the standard output");
        check_fails(&status, trouble, "exit status: 1");
    }
}

#[test]
fn a_program_that_gives_up_where_it_is_interrupted_is_found() {
    let commands = "trap 'exit 0' CONT; answer=$(SECOND); echo \"$answer\"";
    let program = script("interrupted", commands);
    for trouble in [
        Trouble::InputInterruptedSocket,
        Trouble::InputInterruptedPipe,
    ] {
        check_fails(&program, trouble, "byte 0 of the standard output");
    }
}

#[test]
fn a_program_that_prints_only_what_a_pipe_takes_at_once_is_found() {
    let program = script("one-write", "SECOND | head -c 65536");
    for trouble in [
        Trouble::OutputReadSlowly,
        Trouble::OutputInterruptedSocket,
        Trouble::OutputInterruptedPipe,
    ] {
        check_fails(&program, trouble, "byte 65536 of the standard output");
    }
}

#[test]
fn a_program_that_a_broken_pipe_ends_by_its_signal_is_found() {
    let program = script("pipe-signal", "kill -s PIPE $$");
    check_fails(&program, Trouble::OutputReadByNobody, "signal: 13 (SIGPIPE)");
}

#[test]
fn a_program_that_tells_that_its_output_is_full_is_found() {
    let program = script("full-status", "SECOND | cat 2> /dev/null");
    check_fails(&program, Trouble::OutputFull, "exit status: 1");
}
