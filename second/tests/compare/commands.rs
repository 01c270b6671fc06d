//! Whole runs: what they print, how they end, and that they stop.

use second::compare::call::{Call, Callee, Kind};
use second::compare::check::Checked;
use second::compare::commands::{edges, jobs, library, Cases};
use second::compare::reference;
use second::compare::run::{Label, Run};
use second::compare::trouble;

use crate::scripts::{script, RIGHT};

const CASES: Cases = Cases {
    seed: 3,
    count: 60,
    first: 1,
};

/// A library that makes no mistake.
fn right(_: &str, call: Call) -> u64 {
    reference::returned(reference::run(call))
}

/// A library that does nothing.
fn idle(_: &str, _: Call) -> u64 {
    0
}

/// What a command prints, and whether all was well.
fn printed(command: impl FnOnce(&mut Vec<u8>) -> std::io::Result<bool>) -> (String, bool) {
    let mut output = Vec::new();
    let well = command(&mut output).unwrap();
    (String::from_utf8(output).unwrap(), well)
}

/// The last line of a text.
fn last_line(text: &str) -> &str {
    text.lines().last().unwrap()
}

#[test]
fn a_right_library_passes() {
    let (text, well) = printed(|output| library(&right, CASES, "compare library", output));
    assert_eq!((last_line(&text), well), ("60 passed, 0 failed", true));
    for callee in Callee::LIBRARY {
        assert!(text.contains(&format!("{callee}: ")), "{text}");
    }
    assert!(!text.contains("DIFFERENCE"));
}

#[test]
fn a_wrong_library_fails_and_ends_the_run() {
    let (text, well) = printed(|output| library(&idle, CASES, "compare library", output));
    assert!(last_line(&text).ends_with(" passed, 10 failed"), "{text}");
    assert!(!well && text.contains("stopped after 10 differences"));
    assert_eq!(text.matches("DIFFERENCE in case ").count(), 10);
}

#[test]
fn a_difference_can_be_shown_again() {
    let (text, _) = printed(|output| library(&idle, CASES, "compare library", output));
    let found = text.lines().find(|line| line.contains("DIFFERENCE"));
    let name = found.unwrap().trim_start_matches("DIFFERENCE in case ");
    let number = name.trim_end_matches(" of seed 3");
    assert!(text.contains(&format!("again:    compare library 3 1 {number}\n")));
    let only = Cases {
        count: 1,
        first: number.parse().unwrap(),
        ..CASES
    };
    let (again, _) = printed(|output| library(&idle, only, "compare library", output));
    let difference = |text: &str| text.split("  again:").next().unwrap().to_string();
    assert_eq!(difference(&again), difference(&text));
}

#[test]
fn no_case_is_no_success() {
    let none = Cases { count: 0, ..CASES };
    let (text, well) = printed(|output| library(&right, none, "compare library", output));
    assert_eq!((text.as_str(), well), ("0 passed, 0 failed\n", false));
}

#[test]
fn all_edges_pass_and_give_every_number() {
    let (text, well) = printed(|output| edges(&right, "compare edges", output));
    assert!(well, "{text}");
    assert!(last_line(&text).ends_with(" passed, 0 failed"));
    let (text, well) = printed(|output| edges(&idle, "compare edges", output));
    assert!(!well && text.contains("again:    compare edges\n"));
}

#[test]
fn jobs_go_through_the_program_and_the_library() {
    let program = &script("right-jobs", RIGHT);
    let command = "compare jobs checker";
    let (text, well) = printed(|output| jobs(&right, program, CASES, command, output));
    let all = 60 + trouble::cases().len();
    assert_eq!(last_line(&text), format!("{all} passed, 0 failed"));
    assert!(well && text.contains("the program: 60 cases\n"));
    assert!(text.contains("wuz_run_job: 60 cases\n"));
    let (text, well) = printed(|output| jobs(&idle, program, CASES, command, output));
    assert!(!well && text.contains("called:   wuz_run_job: job \""));
    // The first line of document 01's whole case alone is wrong.
    let changed = "SECOND | sed s/^H.1.2.1/h/";
    let wrong = &script("wrong-jobs", &RIGHT.replace("SECOND", changed));
    let (text, well) = printed(|output| jobs(&right, wrong, CASES, command, output));
    assert!(!well && text.contains("called:   the program: input \""));
    assert!(text.contains("again:    compare jobs checker 3 1 1\n"));
}

#[test]
fn the_program_in_trouble_comes_with_any_jobs() {
    let none = Cases { count: 0, ..CASES };
    let program = &script("right-without-jobs", RIGHT);
    let (text, well) = printed(|output| jobs(&right, program, none, "compare jobs", output));
    let all = trouble::cases().len();
    assert!(text.starts_with(&format!("the program in trouble: {all} cases\n")));
    assert_eq!(last_line(&text), format!("{all} passed, 0 failed"));
    assert!(well);
    let wrong = "/bin/false".as_ref();
    let (text, well) = printed(|output| jobs(&right, wrong, CASES, "compare jobs", output));
    assert!(!well && text.contains("stopped after 10 differences"));
    assert!(text.contains("DIFFERENCE in case 1 of the program in trouble\n"));
    assert!(text.contains("called:   the program: input a directory; input \"\" (0 bytes)\n"));
    assert!(text.contains("again:    compare jobs 3 0\n"));
}

#[test]
fn a_number_that_never_came_is_a_failure() {
    let mut output = Vec::new();
    let mut run = Run::new(&mut output);
    let label = Label {
        name: "a case".into(),
        again: "compare".into(),
    };
    for kind in Callee::ReadDay.kinds() {
        if kind != Kind::Number(14) {
            let checked = Checked {
                callee: Callee::ReadDay,
                kind,
                shown: Vec::new(),
                difference: None,
            };
            run.add(&label, &[(checked, &"a day")]).unwrap();
        }
    }
    assert!(!run.finish(&[Callee::ReadDay.required()]).unwrap());
    let text = String::from_utf8(output).unwrap();
    assert!(text.contains("MISSING: wuz_read_day never had refusal 14\n"));
    assert_eq!(last_line(&text), "10 passed, 1 failed");
}

#[test]
fn a_trouble_that_never_came_is_a_failure() {
    let mut output = Vec::new();
    let run = Run::new(&mut output);
    assert!(!run.finish(&[Callee::Troubled.required()]).unwrap());
    let text = String::from_utf8(output).unwrap();
    assert!(text.contains("MISSING: the program in trouble never had input closed\n"));
    assert_eq!(last_line(&text), "0 passed, 15 failed");
}
