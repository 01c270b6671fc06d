//! The binary `second`: the program of document 01, and the commands that print cases or answers.

use std::env;
use std::fs::File;
use std::io::{self, BufWriter, Read, Write};
use std::os::fd::AsFd;
use std::process::ExitCode;

use second::random::Random;
use second::stream::Case;
use second::{answers, cases, draw, edges, job, stream};

const USAGE: &str = "usage: second < JOB
       second cases SEED COUNT MAX_RULE_BYTES MAX_WORD
       second readings SEED COUNT MAX_BYTES
       second merges SEED COUNT
       second answers < CASES
       second edges rules|days|judge|judge-large|known|numbers
       second draw SEED COUNT readers|judge|numbers";

fn main() -> io::Result<ExitCode> {
    let arguments: Vec<String> = env::args().skip(1).collect();
    let arguments: Vec<&str> = arguments.iter().map(String::as_str).collect();
    run_command(&arguments).unwrap_or_else(|| {
        eprintln!("{USAGE}");
        Ok(ExitCode::from(2))
    })
}

/// Does what the arguments ask for; none if they are not as the usage says.
fn run_command(arguments: &[&str]) -> Option<io::Result<ExitCode>> {
    let done = match *arguments {
        [] => {
            run_job();
            Ok(())
        }
        ["cases", seed, count, rule_bytes, word_length] => {
            let (bytes, length) = (number(rule_bytes)?, number(word_length)?);
            let line = |random: &mut Random| cases::case_line(random, bytes, length);
            print_lines(number(seed)?, number(count)?, line)
        }
        ["readings", seed, count, most_bytes] => {
            let bytes = number(most_bytes)?;
            let line = |random: &mut Random| cases::reading_line(random, bytes);
            print_lines(number(seed)?, number(count)?, line)
        }
        ["merges", seed, count] => print_lines(number(seed)?, number(count)?, cases::merge_line),
        ["answers"] => return Some(answer_cases()),
        ["edges", name] => print_cases(&edges::named(name)?),
        ["draw", seed, count, kind] => {
            let stream = draw::stream(number(seed)? as u64, number(count)?, draw::kind(kind)?);
            io::stdout().write_all(&stream)
        }
        _ => return None,
    };
    Some(done.map(|()| ExitCode::SUCCESS))
}

/// The number that an argument is.
fn number(argument: &str) -> Option<usize> {
    argument.parse().ok()
}

/// Answers one job from standard input on standard output; nothing where a read fails.
fn run_job() {
    if let Ok(job) = read_job() {
        // Where a write fails there is nobody to be told.
        let _ = io::stdout().write_all(job::output(&job).as_bytes());
    }
}

/// Takes one job from standard input.
fn read_job() -> io::Result<Vec<u8>> {
    // A file of its own has no buffer, so what follows the job really stays unread; and it does not
    // hide that a descriptor is not for reading.
    let input = File::from(io::stdin().as_fd().try_clone_to_owned()?);
    job::read(input)
}

/// Prints so many random lines.
fn print_lines(
    seed: usize,
    count: usize,
    mut line: impl FnMut(&mut Random) -> String,
) -> io::Result<()> {
    let mut random = Random::new(seed as u64);
    let mut output = BufWriter::new(io::stdout().lock());
    for _ in 0..count {
        output.write_all(line(&mut random).as_bytes())?;
    }
    output.flush()
}

/// Answers a stream of cases from standard input; fails where it is malformed or cut off.
fn answer_cases() -> io::Result<ExitCode> {
    let mut input = Vec::new();
    io::stdin().lock().read_to_end(&mut input)?;
    let (cases, rest) = stream::read(&input);
    let mut output = BufWriter::new(io::stdout().lock());
    for case in &cases {
        output.write_all(answers::line(case).as_bytes())?;
    }
    output.flush()?;
    if rest.is_empty() {
        return Ok(ExitCode::SUCCESS);
    }
    let (count, at) = (cases.len(), input.len() - rest.len());
    eprintln!("second: no whole case at byte {at} of the stream, after {count} cases");
    Ok(ExitCode::FAILURE)
}

/// Prints a stream of cases.
fn print_cases(cases: &[Case]) -> io::Result<()> {
    let mut output = BufWriter::new(io::stdout().lock());
    for case in cases {
        output.write_all(&case.written())?;
    }
    output.flush()
}
