//! The edges of jobs, by what document 01 says of them.

use second::compare::job_edges::jobs;
use second::job::{output, read};

/// Checks that a job is among the edges, and how the program's text for it begins.
fn check_among(jobs: &[Vec<u8>], job: &[u8], printed: &str) {
    assert!(jobs.contains(&job.to_vec()), "{}", job.escape_ascii());
    let output = output(&read(job).unwrap());
    assert!(output.starts_with(printed), "{output}");
}

#[test]
fn the_whole_case_comes_first() {
    let first = &jobs()[0];
    assert_eq!(first, b"R\t!a\nE\t0\ta\n");
    assert_eq!(output(first), "H\t1\t2\t1\t2\t7\nS\t0\t0\nS\t1\t1\n");
}

#[test]
fn the_edges_that_document_01_names_are_there() {
    let jobs = jobs();
    check_among(&jobs, b"R\t1\n", "H\t0\t1\t0\t1\t2\nS\t0\t0\n");
    check_among(&jobs, b"R\t!0\nE\t0\ta\nE\t1\tb\n", "H\t2\t2\t1\t6\t12\n");
    check_among(&jobs, b"", "X\t16\t0\n");
    check_among(&jobs, b"R\t\n", "X\t1\t0\n");
    check_among(&jobs, b"R\ta\nE\t90000\ta\n", "X\t13\t1\n");
    check_among(&jobs, b"R\ta\nE\t100000\ta\n", "X\t12\t1\n");
    check_among(&jobs, b"R\tA\nE\t0\tA\n", "H\t1\t1\t0\t1\t3\nS\t0\t1\n");
    check_among(&jobs, b"R\tA\nE\t0\ta\n", "H\t1\t1\t0\t0\t2\n");
    check_among(&jobs, b"R\tE\nE\t0\tE\n", "H\t1\t1\t0\t1\t3\nS\t0\t1\n");
    check_among(&jobs, b"R\tE\t0\tE\n", "X\t3\t1\n");
    check_among(&jobs, b"E\tE\nE\t0\tE\n", "X\t16\t0\n");
    check_among(&jobs, b"R\tE\nR\tE\nE\t0\tE\n", "X\t12\t1\n");
    let day = "E\t89999\ta\n".repeat(255);
    let stars = format!("R\t{}a*{}\n{day}", "(".repeat(62), ")*".repeat(62));
    check_among(&jobs, stars.as_bytes(), "H\t255\t64\t0\t32896\t");
    let nested = format!("R\t{}a{}\n{day}", "(".repeat(127), ")".repeat(127));
    check_among(&jobs, nested.as_bytes(), "H\t255\t1\t0\t255\t511\n");
    check_among(&jobs, format!("{nested}E").as_bytes(), "X\t11\t0\n");
}

#[test]
fn the_edges_of_stars_are_there() {
    let jobs = jobs();
    let check = |rule: &str, printed: &str| {
        check_among(&jobs, format!("R\t{rule}\n").as_bytes(), printed);
    };
    check("(a*)*", "H\t0\t3\t0\t1\t");
    check("a**", "X\t21\t2\n");
    check("(a*)**", "X\t21\t5\n");
    check("!!a**", "X\t21\t4\n");
    check("a**|", "X\t4\t4\n");
    check("**", "X\t4\t0\n");
    check("[ba]**", "X\t20\t2\n");
    check("a**[ba]", "X\t20\t5\n");
    check("!!!!!!!!a**", "X\t21\t10\n");
    check_among(&jobs, b"R\ta**\nE\n", "X\t21\t2\n");
    for stars in [63, 64] {
        let job = format!("R\ta{}\nE\t0\ta\n", "*".repeat(stars));
        check_among(&jobs, job.as_bytes(), "X\t21\t2\n");
    }
}

#[test]
fn the_edges_of_the_25th_hour_are_there() {
    let jobs = jobs();
    let check = |day: &str, printed: &str| {
        check_among(&jobs, format!("R\tab\n{day}").as_bytes(), printed);
    };
    for second in [86_399, 86_400, 89_998, 89_999] {
        check(&format!("E\t{second}\tq\n"), "H\t1\t3\t0\t0\t");
    }
    for second in [90_000, 90_001, 99_999] {
        check(&format!("E\t{second}\tq\n"), "X\t13\t1\n");
    }
    check("E\t100000\tq\n", "X\t12\t1\n");
    let day = "E\t86399\ta\nE\t86400\tb\nE\t89999\tc\n";
    check(day, "H\t3\t3\t0\t1\t");
    check("E\t89999\ta\nE\t89999\tb\n", "H\t2\t3\t0\t1\t");
    check("E\t86401\ta\nE\t86400\tb\n", "X\t13\t2\n");
    check("E\t10799\ta\nE\t7200\tb\n", "X\t13\t2\n");
    check("E\t89999\ta\nE\t86400\tb\n", "X\t13\t2\n");
    check_among(&jobs, b"R\ta\nE\t90000\t_\n", "X\t12\t1\n");
}

#[test]
fn the_longest_text_has_every_span_and_the_room_that_the_c_interface_names() {
    let texts: Vec<String> = jobs().iter().map(|job| output(job)).collect();
    let longest = texts.iter().max_by_key(|text| text.len()).unwrap();
    assert_eq!(longest.lines().count(), 1 + 256 * 257 / 2);
    assert!(longest.len() <= 328_985);
}
