//! The commands of the binary `compare`.

use std::ffi::OsStr;
use std::fmt::Display;
use std::io::{self, Write};

use super::call::{Callee, Library, Required};
use super::check::check;
use super::program::{self, Input};
use super::progress::Progress;
use super::random_requests::{lend, source, with_out, Draws};
use super::run::{Label, Run};
use super::{edge_requests, job_edges, trouble};

/// From so many random requests on, every number has to come.
const MANY_REQUESTS: usize = 20_000;

/// From so many random jobs on, every number has to come.
const MANY_JOBS: usize = 2_000;

/// Which random cases are run: so many of a seed, from a number on; the first has number 1.
#[derive(Clone, Copy)]
pub struct Cases {
    pub seed: u64,
    pub count: usize,
    pub first: usize,
}

impl Cases {
    /// The numbers of the cases.
    fn numbers(self) -> impl Iterator<Item = usize> {
        (self.first..).take(self.count)
    }

    /// The label of a case, given the command without its numbers.
    fn label(self, command: &str, number: usize) -> Label {
        let seed = self.seed;
        Label {
            name: format!("case {number} of seed {seed}"),
            again: format!("{command} {seed} 1 {number}"),
        }
    }

    /// What is being done, for the progress.
    fn doing(self, what: &str, number: usize) -> String {
        let (seed, count) = (self.seed, self.count);
        let done = number - self.first;
        format!("{what}, seed {seed}: {done} of {count} done, at case {number}")
    }
}

/// Compares all edges; tells whether all is well. The command is what shows it again.
pub fn edges(library: &Library, command: &str, output: &mut dyn Write) -> io::Result<bool> {
    let progress = Progress::start();
    progress.doing("edges: working out the cases".to_string());
    let requests = edge_requests::requests();
    let all = requests.len() + edge_requests::numerous().count();
    let mut run = Run::new(output);
    let requests = requests.into_iter().chain(edge_requests::numerous());
    for (index, request) in requests.enumerate() {
        progress.doing(format!("edges: {index} of {all} done"));
        let label = Label {
            name: format!("case {} of the edges", index + 1),
            again: command.to_string(),
        };
        let checked = check(library, &label.name, &request);
        run.add(&label, &[(checked, &request as &dyn Display)])?;
        if run.is_over() {
            break;
        }
    }
    run.finish(&Callee::LIBRARY.map(Callee::required_of_edges))
}

/// Compares random requests to the library; tells whether all is well.
pub fn library(
    library: &Library,
    cases: Cases,
    command: &str,
    output: &mut dyn Write,
) -> io::Result<bool> {
    let progress = Progress::start();
    let draws = Draws::new();
    let mut run = Run::new(output);
    for number in cases.numbers() {
        progress.doing(cases.doing("library", number));
        let request = draws.request(&mut source(cases.seed, number));
        let label = cases.label(command, number);
        let checked = check(library, &label.name, &request);
        run.add(&label, &[(checked, &request as &dyn Display)])?;
        if run.is_over() {
            break;
        }
    }
    let required = match cases.count {
        MANY_REQUESTS.. => Callee::LIBRARY.map(Callee::required).into(),
        _ => Vec::new(),
    };
    run.finish(&required)
}

/// Compares the program in trouble, and then whole jobs, each through the program and the library;
/// tells whether all is well.
pub fn jobs(
    library: &Library,
    program: &OsStr,
    cases: Cases,
    command: &str,
    output: &mut dyn Write,
) -> io::Result<bool> {
    let progress = Progress::start();
    let (edges, draws) = (job_edges::jobs(), Draws::new());
    let mut run = Run::new(output);
    let again = format!("{command} {} 0", cases.seed);
    troubles(&mut run, program, &again, &progress)?;
    for number in cases.numbers() {
        if run.is_over() {
            break;
        }
        progress.doing(cases.doing("jobs", number));
        let mut random = source(cases.seed, number);
        let edge = number.checked_sub(1).and_then(|index| edges.get(index));
        let bytes = edge.cloned().unwrap_or_else(|| draws.job(&mut random));
        let input = Input::drawn(&mut random, bytes);
        let asked = with_out(&mut random, input.job().to_vec());
        let request = lend(&mut random, asked);
        let label = cases.label(command, number);
        let by_program = program::check(program, &input);
        let by_library = check(library, &label.name, &request);
        run.add(&label, &[(by_program, &input), (by_library, &request)])?;
    }
    let required: &[Callee] = match cases.count {
        MANY_JOBS.. => &[Callee::Troubled, Callee::RunJob, Callee::Program],
        _ => &[Callee::Troubled],
    };
    let required: Vec<Required> = required.iter().map(|callee| callee.required()).collect();
    run.finish(&required)
}

/// Compares what the program does in trouble; the command shows it again.
fn troubles(run: &mut Run, program: &OsStr, again: &str, progress: &Progress) -> io::Result<()> {
    let cases = trouble::cases();
    for (index, case) in cases.iter().enumerate() {
        if run.is_over() {
            break;
        }
        let (all, what) = (cases.len(), case.trouble);
        progress.doing(format!("trouble: {index} of {all} done, at {what}"));
        let label = Label {
            name: format!("case {} of the program in trouble", index + 1),
            again: again.to_string(),
        };
        run.add(&label, &[(trouble::check(program, case), case)])?;
    }
    Ok(())
}
