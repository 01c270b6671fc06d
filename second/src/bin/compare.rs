//! The binary `compare`: the proved library and program against the second program.

use std::env;
use std::ffi::OsStr;
use std::io;
use std::process::ExitCode;

use second::compare::commands::{self, Cases};
use second::compare::proved;

const USAGE: &str = "usage: compare edges
       compare library SEED COUNT [FIRST]
       compare jobs PROGRAM SEED COUNT [FIRST]";

fn main() -> io::Result<ExitCode> {
    let arguments: Vec<String> = env::args().collect();
    let arguments: Vec<&str> = arguments.iter().map(String::as_str).collect();
    let Some(well) = run_command(&arguments) else {
        eprintln!("{USAGE}");
        return Ok(ExitCode::from(2));
    };
    Ok(if well? {
        ExitCode::SUCCESS
    } else {
        ExitCode::FAILURE
    })
}

/// Does what the arguments ask for; none if they are not as the usage says.
fn run_command(arguments: &[&str]) -> Option<io::Result<bool>> {
    let mut output = io::stdout();
    let library = &proved::run;
    match *arguments {
        [binary, "edges"] => {
            let command = format!("{binary} edges");
            Some(commands::edges(library, &command, &mut output))
        }
        [binary, "library", ref numbers @ ..] => {
            let command = format!("{binary} library");
            let cases = cases(numbers)?;
            Some(commands::library(library, cases, &command, &mut output))
        }
        [binary, "jobs", program, ref numbers @ ..] => {
            let command = format!("{binary} jobs {program}");
            let (program, cases) = (OsStr::new(program), cases(numbers)?);
            Some(commands::jobs(
                library,
                program,
                cases,
                &command,
                &mut output,
            ))
        }
        _ => None,
    }
}

/// Which cases the numbers of a command mean.
fn cases(numbers: &[&str]) -> Option<Cases> {
    let (seed, count, first) = match *numbers {
        [seed, count] => (seed, count, "1"),
        [seed, count, first] => (seed, count, first),
        _ => return None,
    };
    Some(Cases {
        seed: number(seed)?,
        count: number(count)? as usize,
        first: number(first).filter(|&first| first > 0)? as usize,
    })
}

/// The number that an argument is, in decimal digits alone.
fn number(argument: &str) -> Option<u64> {
    let digits = argument.bytes().all(|byte| byte.is_ascii_digit());
    digits.then(|| argument.parse().ok())?
}
