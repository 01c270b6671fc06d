//! The proved program: a job into its standard input, and its standard output compared.

use std::ffi::OsStr;
use std::fmt;
use std::io::{self, ErrorKind, PipeWriter, Read, Write};
use std::os::unix::process::ExitStatusExt;
use std::process::Command;
use std::sync::mpsc::{self, Receiver};
use std::thread;

use super::call::{Callee, Kind};
use super::check::Checked;
use super::lent::{first_different, shown_around, Difference};
use super::request::shown_bytes;
use super::running::{Running, PATIENCE, REST};
use super::{hours, letters, sets};
use crate::job;
use crate::limits::MAX_JOB_BYTES;
use crate::random::Random;

/// How many pieces of a trickling input come between two rests.
const PIECES_A_REST: usize = 8;

/// What a program is given, and how.
pub struct Input {
    pub bytes: Vec<u8>,
    /// The lengths of the pieces in which it is written.
    pieces: Vec<usize>,
    /// Whether it is left open until the program has ended; only where more comes than is read.
    held_open: bool,
}

impl Input {
    /// An input written at random, in one piece or in small ones.
    pub fn drawn(random: &mut Random, bytes: Vec<u8>) -> Self {
        let pieces = if random.one_in(2) {
            vec![bytes.len()]
        } else {
            random_pieces(random, bytes.len())
        };
        let held_open = bytes.len() > MAX_JOB_BYTES && random.one_in(2);
        Input {
            bytes,
            pieces,
            held_open,
        }
    }

    /// The bytes that the program has to read.
    pub fn job(&self) -> &[u8] {
        &self.bytes[..self.bytes.len().min(MAX_JOB_BYTES)]
    }
}

impl fmt::Display for Input {
    fn fmt(&self, formatter: &mut fmt::Formatter) -> fmt::Result {
        let (bytes, pieces) = (shown_bytes(&self.bytes), self.pieces.len());
        let open = if self.held_open { ", held open" } else { "" };
        write!(
            formatter,
            "the program: input {bytes} in {pieces} pieces{open}"
        )
    }
}

/// Lengths of pieces that make so many bytes, none of them longer than a random bound.
fn random_pieces(random: &mut Random, mut length: usize) -> Vec<usize> {
    let longest = random.pick(&[1, 4, 20, 100, 1_000]);
    let mut pieces = Vec::new();
    while length > 0 {
        let piece = length.min(1 + random.below(longest));
        pieces.push(piece);
        length -= piece;
    }
    pieces
}

/// Runs the program on an input, and compares what it prints.
pub fn check(program: &OsStr, input: &Input) -> Checked {
    let (number, place, expected) = match job::judge_job(input.job()) {
        Ok(report) => (0, 0, report.lines()),
        Err((number, place)) => (number, place, job::output(input.job())),
    };
    let difference = match run(program, input) {
        Ok(ran) => ran.difference(expected.as_bytes()),
        Err(failure) => Some(failed_run(failure)),
    };
    let letters = letters::shown_by_job(input.job(), number, place);
    let hours = hours::shown_by_job(input.job(), number, place).map(Kind::ShownHours);
    let sets = sets::shown_by_job(input.job(), number);
    let sets = sets.into_iter().map(Kind::ShownSets);
    let letters = letters.into_iter().map(Kind::Shown);
    Checked {
        callee: Callee::Program,
        kind: Kind::Number(number),
        shown: letters.chain(hours).chain(sets).collect(),
        difference,
    }
}

/// What is wrong with a run that failed.
pub fn failed_run(failure: io::Error) -> Difference {
    Difference {
        place: "the run of the program".to_string(),
        expected: format!("an end of its own within {} s", PATIENCE.as_secs()),
        came: failure.to_string(),
    }
}

/// What is wrong with an output.
pub fn output_difference(expected: &[u8], came: &[u8]) -> Option<Difference> {
    let at = first_different(expected, came)?;
    Some(Difference {
        place: format!("byte {at} of the standard output"),
        expected: shown_around(expected, at),
        came: shown_around(came, at),
    })
}

/// What a program did that ended by itself.
struct Ran {
    output: Vec<u8>,
    /// How many bytes it took from its standard input.
    taken: usize,
}

impl Ran {
    /// What is wrong with it.
    fn difference(&self, expected: &[u8]) -> Option<Difference> {
        let too_much = (self.taken > MAX_JOB_BYTES).then(|| Difference {
            place: "what is read of the standard input".to_string(),
            expected: format!("at most {MAX_JOB_BYTES} bytes"),
            came: format!("{} bytes", self.taken),
        });
        output_difference(expected, &self.output).or(too_much)
    }
}

/// Runs the program on an input; fails if it does not end, or not by itself.
fn run(program: &OsStr, input: &Input) -> io::Result<Ran> {
    // This end of the input is kept, to see afterwards how much of it is left.
    let (mut unread, writer) = io::pipe()?;
    let (printed, stdout) = io::pipe()?;
    let mut command = Command::new(program);
    command.stdin(unread.try_clone()?).stdout(stdout);
    let running = Running::start(command, printed)?;
    // All is moved in, so where the run fails nobody keeps the input for whoever still writes it.
    thread::scope(move |scope| {
        let (ended, end) = mpsc::channel();
        let writing = scope.spawn(move || write_pieces(writer, input, end));
        let run = running.finish()?;
        drop(ended);
        let left = unread.read_to_end(&mut Vec::new())?;
        writing.join().expect("writing does not panic")?;
        match run.status.signal() {
            Some(signal) => Err(io::Error::other(format!("it died by signal {signal}"))),
            None => Ok(Ran {
                output: run.output,
                taken: input.bytes.len() - left,
            }),
        }
    })
}

/// Writes an input and closes it; one that is held open when the program's end is told.
fn write_pieces(mut writer: PipeWriter, input: &Input, end: Receiver<()>) -> io::Result<()> {
    let mut rest = &input.bytes[..];
    for (index, &piece) in input.pieces.iter().enumerate() {
        let (next, later) = rest.split_at(piece);
        match writer.write_all(next) {
            // A program may stop reading.
            Err(error) if error.kind() == ErrorKind::BrokenPipe => break,
            done => done?,
        }
        rest = later;
        if index % PIECES_A_REST == PIECES_A_REST - 1 {
            thread::sleep(REST);
        }
    }
    if input.held_open {
        // Nothing is ever sent: the other side is dropped.
        let _ = end.recv();
    }
    Ok(())
}
