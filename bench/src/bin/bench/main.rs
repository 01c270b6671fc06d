//! The bench: times the proved judge and program beside two unproved ones, and says how much stack the judge uses.
//!
//! The baseline is the plain bit-parallel method in unproved Rust, the one that the targets are set against; the tuned judge is the same
//! idea tuned by hand as far as it went, for comparison.
//!
//! usage: bench CHECKER BASELINE TUNED [FOMA], the programs to run. Speed is measured, never tested: the exit status is 1 only where two
//! answers differ or something cannot be run.

mod foma;
mod growth;
mod jobs;
mod judging;
mod program;
mod ratios;
mod stack;
mod target;
mod timing;

use std::path::Path;
use std::process::ExitCode;

use bench::rules::{rules, Rule};

use jobs::Jobs;
use judging::Measured;
use program::Programs;

/// The numbers of events that every rule is measured at.
const EVENTS: [usize; 2] = [255, 32];

/// What the unproved judges are, for the reader of the tables.
const JUDGES: &str = "The baseline is the plain bit-parallel method in unproved Rust, cleanly written: the targets are set against it. \
The tuned judge is the same idea in unproved Rust, tuned by hand as far as it went: it is shown for comparison.";

fn main() -> ExitCode {
    let arguments: Vec<String> = std::env::args().skip(1).collect();
    let done = match &arguments[..] {
        [checker, baseline, tuned, foma @ ..] if foma.len() <= 1 => {
            let programs = Programs {
                checker: Path::new(checker),
                baseline: Path::new(baseline),
                tuned: Path::new(tuned),
            };
            run(&programs, foma.first())
        }
        _ => Err("usage: bench CHECKER BASELINE TUNED [FOMA]".to_string()),
    };
    match done {
        Ok(()) => ExitCode::SUCCESS,
        Err(what) => {
            eprintln!("bench: {what}");
            ExitCode::FAILURE
        }
    }
}

fn run(programs: &Programs, foma: Option<&String>) -> Result<(), String> {
    let rules = rules();
    let jobs = Jobs::new().map_err(|error| error.to_string())?;
    println!("\n{JUDGES}");
    println!("\n## The judge\n");
    let measured = measure_all(&rules)?;
    judging::print_table(&measured);
    println!();
    ratios::print_targets(&measured);
    println!();
    ratios::print_comparison(&measured);
    println!("\n## Growth\n");
    growth::print_growth(&measured)?;
    println!("\n## The whole program\n");
    eprintln!("bench: the programs");
    program::print_programs(programs, &rules, &jobs)?;
    println!("\n## foma\n");
    match foma {
        Some(foma) => foma::print_foma(Path::new(foma), &measured, &jobs)?,
        None => println!("foma is not installed: not compared."),
    }
    println!("\n## Stack\n");
    stack::print_stack(&rules);
    Ok(())
}

/// Measures every rule; says on standard error how far it is.
fn measure_all(rules: &[Rule]) -> Result<Vec<Measured<'_>>, String> {
    let mut measured = Vec::new();
    for rule in rules {
        eprintln!("bench: {}", rule.name);
        for n in EVENTS {
            measured.push(judging::measure(rule, n)?);
        }
    }
    Ok(measured)
}
