//! What may happen to the program's standard input and output, and what it has to do then.
//!
//! A read that fails is not the end of the input: nothing is printed. A read or a write that a
//! signal interrupts is made again. A write that fails ends the program.

use std::ffi::OsStr;
use std::fmt;
use std::io;
use std::os::unix::process::ExitStatusExt;
use std::process::ExitStatus;

use super::call::{Callee, Kind};
use super::check::Checked;
use super::job_edges;
use super::lent::Difference;
use super::program::{failed_run, output_difference};
use super::request::shown_bytes;
use super::running::Ended;
use super::{troubled_input, troubled_output};
use crate::job;
use crate::limits::{MAX_DAY_LINES, MAX_JOB_BYTES};

/// A job whose beginnings up to any line's end are accepted jobs too: whoever takes a failure for
/// the end of the input has something to print.
const JOB: &[u8] = b"R\t(ab)*&!(ba)\nE\t0\ta\nE\t7\tb\nE\t7\ta\nE\t89999\tb\n";

/// What happens.
#[derive(Clone, Copy, Debug, PartialEq, Eq, PartialOrd, Ord)]
pub enum Trouble {
    InputDirectory,
    InputNotForReading,
    InputClosed,
    /// It gives some bytes and then fails, all of which has happened when the program starts.
    InputFails,
    /// It gives some bytes and then fails, both while the program waits for it.
    InputFailsLater,
    /// It is a socket that gives some bytes, and no more within its time.
    InputOutOfTime,
    /// It is a socket that gives some bytes, and nobody waits for more.
    InputNotReady,
    /// It gives all the bytes that are read, and only then fails.
    InputFailsBeyond,
    /// Its reads end with EINTR where the program is stopped and continued.
    InputInterruptedSocket,
    InputInterruptedPipe,
    OutputFull,
    OutputReadByNobody,
    OutputReadSlowly,
    /// Its writes end early, or with EINTR, where the program is stopped and continued.
    OutputInterruptedSocket,
    OutputInterruptedPipe,
}

impl Trouble {
    /// All that may happen.
    pub const ALL: [Trouble; 15] = [
        Trouble::InputDirectory,
        Trouble::InputNotForReading,
        Trouble::InputClosed,
        Trouble::InputFails,
        Trouble::InputFailsLater,
        Trouble::InputOutOfTime,
        Trouble::InputNotReady,
        Trouble::InputFailsBeyond,
        Trouble::InputInterruptedSocket,
        Trouble::InputInterruptedPipe,
        Trouble::OutputFull,
        Trouble::OutputReadByNobody,
        Trouble::OutputReadSlowly,
        Trouble::OutputInterruptedSocket,
        Trouble::OutputInterruptedPipe,
    ];

    /// The bytes with which it is tried, one case each.
    fn inputs(self) -> Vec<Vec<u8>> {
        match self {
            // There is nothing to be read.
            Trouble::InputDirectory | Trouble::InputNotForReading | Trouble::InputClosed => {
                vec![Vec::new()]
            }
            Trouble::InputFails
            | Trouble::InputFailsLater
            | Trouble::InputOutOfTime
            | Trouble::InputNotReady => beginnings(),
            Trouble::InputFailsBeyond => vec![vec![b'\n'; MAX_JOB_BYTES], too_long()],
            Trouble::InputInterruptedSocket | Trouble::InputInterruptedPipe => {
                vec![JOB.to_vec(), long_list()]
            }
            Trouble::OutputFull | Trouble::OutputReadByNobody => {
                vec![JOB.to_vec(), long_list(), Vec::new()]
            }
            Trouble::OutputReadSlowly
            | Trouble::OutputInterruptedSocket
            | Trouble::OutputInterruptedPipe => vec![long_list()],
        }
    }

    /// What the program has to do on an input.
    fn expected(self, input: &[u8]) -> Ended {
        let answer = || job::output(&input[..input.len().min(MAX_JOB_BYTES)]).into_bytes();
        let (output, status) = match self {
            Trouble::InputDirectory
            | Trouble::InputNotForReading
            | Trouble::InputClosed
            | Trouble::InputFails
            | Trouble::InputFailsLater
            | Trouble::InputOutOfTime
            | Trouble::InputNotReady
            | Trouble::OutputFull
            | Trouble::OutputReadByNobody => (Vec::new(), 0),
            Trouble::InputFailsBeyond
            | Trouble::InputInterruptedSocket
            | Trouble::InputInterruptedPipe
            | Trouble::OutputReadSlowly
            | Trouble::OutputInterruptedSocket
            | Trouble::OutputInterruptedPipe => (answer(), 0),
        };
        let status = ExitStatus::from_raw(status);
        Ended { output, status }
    }

    /// Runs the program on an input, and lets it happen.
    fn run(self, program: &OsStr, input: &[u8]) -> io::Result<Ended> {
        match self {
            Trouble::InputDirectory => troubled_input::directory(program),
            Trouble::InputNotForReading => troubled_input::not_for_reading(program),
            Trouble::InputClosed => troubled_input::closed(program),
            Trouble::InputFails => troubled_input::failing(program, input),
            Trouble::InputFailsLater => troubled_input::failing_later(program, input),
            Trouble::InputOutOfTime => troubled_input::out_of_time(program, input),
            Trouble::InputNotReady => troubled_input::not_ready(program, input),
            Trouble::InputFailsBeyond => troubled_input::failing(program, input),
            Trouble::InputInterruptedSocket => troubled_input::interrupted_socket(program, input),
            Trouble::InputInterruptedPipe => troubled_input::interrupted_pipe(program, input),
            Trouble::OutputFull => troubled_output::full(program, input),
            Trouble::OutputReadByNobody => troubled_output::read_by_nobody(program, input),
            Trouble::OutputReadSlowly => troubled_output::read_slowly(program, input),
            Trouble::OutputInterruptedSocket => troubled_output::interrupted_socket(program, input),
            Trouble::OutputInterruptedPipe => troubled_output::interrupted_pipe(program, input),
        }
    }
}

impl fmt::Display for Trouble {
    fn fmt(&self, formatter: &mut fmt::Formatter) -> fmt::Result {
        formatter.pad(match self {
            Trouble::InputDirectory => "input a directory",
            Trouble::InputNotForReading => "input for writing alone",
            Trouble::InputClosed => "input closed",
            Trouble::InputFails => "input that fails",
            Trouble::InputFailsLater => "input that fails later",
            Trouble::InputOutOfTime => "input out of time",
            Trouble::InputNotReady => "input not ready",
            Trouble::InputFailsBeyond => "input that fails beyond",
            Trouble::InputInterruptedSocket => "input interrupted, a socket",
            Trouble::InputInterruptedPipe => "input interrupted, a pipe",
            Trouble::OutputFull => "output full",
            Trouble::OutputReadByNobody => "output read by nobody",
            Trouble::OutputReadSlowly => "output read slowly",
            Trouble::OutputInterruptedSocket => "output interrupted, a socket",
            Trouble::OutputInterruptedPipe => "output interrupted, a pipe",
        })
    }
}

/// No bytes, the job up to each line's end, and the job up to the middle of a line.
fn beginnings() -> Vec<Vec<u8>> {
    let lines = JOB.split_inclusive(|&byte| byte == b'\n');
    let mut beginnings = vec![Vec::new()];
    for line in lines {
        let longer = [beginnings.last().map_or(&[][..], Vec::as_slice), line].concat();
        beginnings.push(longer);
    }
    beginnings.push(JOB[..JOB.len() - 3].to_vec());
    beginnings
}

/// A job whose text is about as long as there is: every span of 255 events obeys.
fn long_list() -> Vec<u8> {
    job_edges::job(b"!0", &b"E\t0\ta\n".repeat(MAX_DAY_LINES))
}

/// More bytes than are read.
fn too_long() -> Vec<u8> {
    job_edges::job(b"a", &b"E\t89999\ta\n".repeat(MAX_DAY_LINES + 50))
}

/// Something that happens, with the bytes that the program is given.
pub struct Case {
    pub trouble: Trouble,
    input: Vec<u8>,
}

impl fmt::Display for Case {
    fn fmt(&self, formatter: &mut fmt::Formatter) -> fmt::Result {
        let (trouble, input) = (self.trouble, shown_bytes(&self.input));
        write!(formatter, "the program: {trouble}; input {input}")
    }
}

/// All the cases.
pub fn cases() -> Vec<Case> {
    let of = |trouble: Trouble| {
        let inputs = trouble.inputs().into_iter();
        inputs.map(move |input| Case { trouble, input })
    };
    Trouble::ALL.into_iter().flat_map(of).collect()
}

/// Runs the program in trouble, and compares what it does with what it has to do.
pub fn check(program: &OsStr, case: &Case) -> Checked {
    let expected = case.trouble.expected(&case.input);
    let difference = match case.trouble.run(program, &case.input) {
        Ok(ended) => output_difference(&expected.output, &ended.output)
            .or_else(|| status_difference(expected.status, ended.status)),
        Err(failure) => Some(failed_run(failure)),
    };
    Checked {
        callee: Callee::Troubled,
        kind: Kind::Trouble(case.trouble),
        shown: Vec::new(),
        difference,
    }
}

/// What is wrong with the way in which a program ended.
fn status_difference(expected: ExitStatus, came: ExitStatus) -> Option<Difference> {
    (came != expected).then(|| Difference {
        place: "the end of the program".to_string(),
        expected: expected.to_string(),
        came: came.to_string(),
    })
}
