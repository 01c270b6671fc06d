//! foma beside the proved judge: a user's other choice where no bound of the work is asked for.

use std::fs::File;
use std::io::{self, Read};
use std::path::Path;
use std::process::{Child, Command, Stdio};
use std::thread;
use std::time::{Duration, Instant};

use crate::jobs::Jobs;
use crate::judging::Measured;

/// How long a rule may take foma.
const LIMIT: Duration = Duration::from_secs(5);

/// How often it is looked whether foma has ended.
const LOOK: Duration = Duration::from_millis(2);

/// What foma came to on a job.
enum Outcome {
    Done(Scanned),
    OverTime,
    /// It ended without an answer: it had no more memory, or failed.
    NoAnswer,
}

/// The microseconds to compile and to scan, and the spans found.
struct Scanned {
    compile: f64,
    scan: f64,
    found: u64,
}

/// Runs foma on the rules that were measured at n = 255; what it finds has to be what was found.
pub fn print_foma(foma: &Path, measured: &[Measured], jobs: &Jobs) -> Result<(), String> {
    println!("| rule (n = 255) | proved (µs) | foma compile (µs) | foma scan (µs) |");
    println!("|---|--:|--:|--:|");
    for one in measured.iter().filter(|one| one.n == 255) {
        let name = one.rule.name;
        let job = jobs
            .write(one.rule, one.n)
            .map_err(|error| error.to_string())?;
        let outcome = run(foma, &job).map_err(|error| format!("foma, {name}: {error}"))?;
        let said = match outcome {
            Outcome::OverTime => format!("over {} s |", LIMIT.as_secs()),
            Outcome::NoAnswer => "no answer |".to_string(),
            Outcome::Done(scanned) if scanned.found == one.answer.found => {
                format!("{:.0} | {:.1}", scanned.compile, scanned.scan)
            }
            Outcome::Done(scanned) => {
                let (foma, proved) = (scanned.found, one.answer.found);
                return Err(format!(
                    "{name}: foma finds {foma} spans, the judges {proved}"
                ));
            }
        };
        println!("| {name} | {:.1} | {said} |", one.times.proved);
    }
    Ok(())
}

fn run(foma: &Path, job: &Path) -> io::Result<Outcome> {
    let mut child = Command::new(foma)
        .stdin(File::open(job)?)
        .stdout(Stdio::piped())
        .stderr(Stdio::null())
        .spawn()?;
    if !ends_in_time(&mut child)? {
        child.kill()?;
        child.wait()?;
        return Ok(Outcome::OverTime);
    }
    let mut line = String::new();
    if let Some(mut stdout) = child.stdout.take() {
        stdout.read_to_string(&mut line)?;
    }
    Ok(scanned(&line).map_or(Outcome::NoAnswer, Outcome::Done))
}

/// Waits for the end of a child, within the limit.
fn ends_in_time(child: &mut Child) -> io::Result<bool> {
    let begin = Instant::now();
    while begin.elapsed() < LIMIT {
        if child.try_wait()?.is_some() {
            return Ok(true);
        }
        thread::sleep(LOOK);
    }
    Ok(false)
}

/// Reads foma's line.
fn scanned(line: &str) -> Option<Scanned> {
    let mut fields = line.split_whitespace();
    Some(Scanned {
        compile: fields.next()?.parse().ok()?,
        scan: fields.next()?.parse().ok()?,
        found: fields.next()?.parse().ok()?,
    })
}
