//! The whole program beside the unproved ones: from its start to the last byte of its output.

use std::fs::File;
use std::io::{self, Read};
use std::path::Path;
use std::process::{Command, Stdio};
use std::time::Instant;

use bench::rules::{Group, Rule};

use crate::jobs::Jobs;
use crate::target::print_target;
use crate::timing::Times;

/// The rounds of runs; the median is of as many.
const ROUNDS: usize = 41;

/// The runs by which the worst job is chosen.
const QUICK_RUNS: usize = 3;

/// The programs that are compared.
pub struct Programs<'a> {
    pub checker: &'a Path,
    pub baseline: &'a Path,
    pub tuned: &'a Path,
}

/// Compares the outputs on every rule's job, and then times the worst job and an everyday one.
pub fn print_programs(programs: &Programs, rules: &[Rule], jobs: &Jobs) -> Result<(), String> {
    let worst = worst_rule(programs, rules, jobs)?;
    let everyday = rules.iter().find(|rule| rule.group == Group::Everyday);
    println!(
        "| job (n = 255) | bytes out | checker (µs) | baseline (µs) | ratio | tuned (µs) | ratio |"
    );
    println!("|---|--:|--:|--:|--:|--:|--:|");
    let mut ratios = Vec::new();
    for rule in [worst].into_iter().chain(everyday) {
        let job = jobs.write(rule, 255).map_err(|error| error.to_string())?;
        let (times, bytes) = time(programs, &job).map_err(|error| error.to_string())?;
        let (name, ratio) = (rule.name, times.against_baseline());
        println!(
            "| {name} | {bytes} | {:.0} | {:.0} | {ratio:.2} | {:.0} | {:.2} |",
            times.proved,
            times.baseline,
            times.tuned,
            times.against_tuned()
        );
        ratios.push((name, ratio));
    }
    println!();
    for (name, ratio) in ratios {
        let what = format!("ratio of \"{name}\" to the baseline");
        print_target(&what, ratio, 2, "at most 1.2", ratio <= 1.2);
    }
    Ok(())
}

/// The rule whose job takes the checker longest. Says where the outputs differ on a job.
fn worst_rule<'a>(programs: &Programs, rules: &'a [Rule], jobs: &Jobs) -> Result<&'a Rule, String> {
    let mut worst = None;
    for rule in rules {
        let job = jobs.write(rule, 255).map_err(|error| error.to_string())?;
        let time = quick_time(programs, &job).map_err(|error| format!("{}: {error}", rule.name))?;
        if worst.is_none_or(|(longest, _)| time > longest) {
            worst = Some((time, rule));
        }
    }
    worst
        .map(|(_, rule)| rule)
        .ok_or("there are no rules".to_string())
}

/// The checker's shortest time of a few runs, once its output is found to be that of the others.
fn quick_time(programs: &Programs, job: &Path) -> io::Result<f64> {
    let output = run(programs.checker, job)?.1;
    for other in [programs.baseline, programs.tuned] {
        if run(other, job)?.1 != output {
            return Err(io::Error::other("the outputs of the programs differ"));
        }
    }
    let mut shortest = f64::INFINITY;
    for _ in 0..QUICK_RUNS {
        shortest = shortest.min(run(programs.checker, job)?.0);
    }
    Ok(shortest)
}

/// The median times of the programs on a job, run by turns, and the bytes of their output.
fn time(programs: &Programs, job: &Path) -> io::Result<(Times, usize)> {
    let turn = [programs.checker, programs.baseline, programs.tuned];
    let (mut samples, mut bytes) = ([const { Vec::new() }; 3], 0);
    for _ in 0..ROUNDS {
        for (times, program) in samples.iter_mut().zip(turn) {
            let (micros, output) = run(program, job)?;
            times.push(micros);
            bytes = output.len();
        }
    }
    Ok((Times::medians(samples), bytes))
}

/// The microseconds from a program's start to the end of its output, and the output.
fn run(program: &Path, job: &Path) -> io::Result<(f64, Vec<u8>)> {
    let mut output = Vec::new();
    let begin = Instant::now();
    let mut child = Command::new(program)
        .stdin(File::open(job)?)
        .stdout(Stdio::piped())
        .spawn()?;
    let mut stdout = child.stdout.take().expect("it is piped");
    stdout.read_to_end(&mut output)?;
    let micros = begin.elapsed().as_secs_f64() * 1e6;
    child.wait()?;
    Ok((micros, output))
}
