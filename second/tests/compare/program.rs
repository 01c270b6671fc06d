//! Programs that are run: the second program itself does not differ, others do.

use second::compare::call::Kind;
use second::compare::job_edges::jobs;
use second::compare::program::{check, Input};
use second::compare::random_requests::source;

use crate::scripts::SECOND;

/// What is wrong with a program on an input, as it is printed; it has to be something.
fn difference(program: &str, input: &Input) -> String {
    let difference = check(program.as_ref(), input).difference;
    difference
        .unwrap_or_else(|| panic!("{program} passed on {input}"))
        .to_string()
}

/// What is wrong with a shell that is given commands for a job, whose answer is 16.
fn shell_difference(commands: &str) -> String {
    let input = Input::drawn(&mut source(1, 1), commands.as_bytes().to_vec());
    difference("/bin/sh", &input)
}

#[test]
fn the_second_program_does_not_differ() {
    for (index, job) in jobs().into_iter().enumerate() {
        let input = Input::drawn(&mut source(1, index), job);
        let checked = check(SECOND.as_ref(), &input);
        assert_eq!(checked.difference, None, "{input}");
    }
}

#[test]
fn the_number_is_the_jobs() {
    let kind = |job: &[u8]| {
        let input = Input::drawn(&mut source(2, 1), job.to_vec());
        check(SECOND.as_ref(), &input).kind
    };
    assert_eq!(kind(b"R\t1\n"), Kind::Number(0));
    assert_eq!(kind(b"R\ta|\n"), Kind::Number(4));
    // The newline is the first byte that is not read.
    let job = [b"R\t", &[b'a'; 2_807][..], b"\n"].concat();
    assert_eq!(kind(&job), Kind::Number(16));
}

#[test]
fn what_is_right_passes_whoever_prints_it() {
    let input = Input::drawn(&mut source(1, 1), br"printf 'X\t16\t0\n'".to_vec());
    assert_eq!(check("/bin/sh".as_ref(), &input).difference, None);
}

#[test]
fn a_program_that_prints_something_else_differs() {
    let nothing = shell_difference("true");
    assert!(nothing.contains("byte 0 of the standard output"));
    let off = shell_difference(r"printf 'X\t16\t1\n'");
    assert!(off.contains("byte 5 of the standard output"), "{off}");
    let more = shell_difference(r"printf 'X\t16\t0\n\n'");
    assert!(more.contains("byte 7 of the standard output"), "{more}");
}

#[test]
fn a_program_that_reads_too_much_differs() {
    // The commands are a line of their own; the shell or `cat` takes what comes behind.
    let commands = format!("cat > /dev/null; printf 'X\\t16\\t0\\n'; exit\n{:3000}", "");
    let inputs = (1..).map(|case| Input::drawn(&mut source(1, case), commands.clone().into()));
    // An input that is held open has no end for `cat`.
    let ends = |input: &Input| !input.to_string().contains("held open");
    let input = inputs.into_iter().find(ends).unwrap();
    let printed = difference("/bin/sh", &input);
    assert!(printed.contains("at most 2809 bytes"), "{printed}");
}

#[test]
fn a_program_that_dies_or_is_not_there_differs() {
    let printed = shell_difference(r"printf 'X\t16\t0\n'; kill -9 $$");
    assert!(printed.contains("died by signal 9"), "{printed}");
    let input = Input::drawn(&mut source(1, 1), b"R\t1\n".to_vec());
    let printed = difference("/nowhere/checker", &input);
    assert!(printed.contains("could not be run"), "{printed}");
}

#[test]
fn a_program_that_does_not_end_differs() {
    let printed = shell_difference("exec sleep 60");
    assert!(printed.contains("did not end"), "{printed}");
    let printed = shell_difference("exec yes");
    assert!(printed.contains("died by signal"), "{printed}");
}
