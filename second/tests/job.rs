//! The program: its output byte for byte, refusal 16, the order of the rows, and how much it reads.

use std::io::{Read, Seek, Write};
use std::process::{Command, Stdio};

use second::generate::{alphabet, sentence, word, Bounds};
use second::job::{output, read};
use second::judge::judge;
use second::random::Random;
use second::rule;

/// The output for a job of which the program reads what it may.
fn run(input: &[u8]) -> String {
    output(&read(input).unwrap())
}

/// A day of so many lines of ten bytes each, the longest there are.
fn long_day(lines: usize) -> String {
    "E\t89999\ta\n".repeat(lines)
}

#[test]
fn the_worked_job() {
    assert_eq!(
        run(b"R\t!a\nE\t0\ta\n"),
        "H\t1\t2\t1\t2\t7\nS\t0\t0\nS\t1\t1\n"
    );
}

#[test]
fn a_day_without_events() {
    assert_eq!(run(b"R\t1\n"), "H\t0\t1\t0\t1\t2\nS\t0\t0\n");
    assert_eq!(run(b"R\ta\n"), "H\t0\t1\t0\t0\t1\n");
}

#[test]
fn spans_by_rising_i_and_then_rising_j() {
    let expected = "H\t2\t2\t0\t6\t18\nS\t0\t0\nS\t0\t1\nS\t0\t2\nS\t1\t1\nS\t1\t2\nS\t2\t2\n";
    assert_eq!(run(b"R\ta*\nE\t1\ta\nE\t1\ta\n"), expected);
    // With eleven events 10 comes after 9, not after 1.
    let job = format!("R\ta\n{}", long_day(11));
    let spans: String = (0..11).map(|i| format!("S\t{}\t{}\n", i, i + 1)).collect();
    assert_eq!(run(job.as_bytes()), format!("H\t11\t1\t0\t11\t23\n{spans}"));
}

#[test]
fn a_bad_first_line_is_16() {
    let bad: [&[u8]; 10] = [
        b"",
        b"R",
        b"R\n",
        b"R\t",
        b"R\ta",
        b"R a\n",
        b"r\ta\n",
        b" R\ta\n",
        b"\tR\ta\n",
        b"RR\ta\n",
    ];
    for job in bad {
        assert_eq!(run(job), "X\t16\t0\n", "{}", job.escape_ascii());
    }
    assert_eq!(run(b"E\t0\ta\nR\ta\n"), "X\t16\t0\n");
    assert_eq!(run(b"R\t\tx"), "X\t16\t0\n");
}

#[test]
fn the_rule_is_every_byte_up_to_the_newline() {
    assert_eq!(run(b"R\t\n"), "X\t1\t0\n");
    assert_eq!(run(b"R\ta\t\n"), "X\t3\t1\n");
    assert_eq!(run(b"R\ta\r\n"), "X\t3\t1\n");
    assert_eq!(run(b"R\tab\xff\n"), "X\t3\t2\n");
    assert_eq!(run(b"R\ta|\n"), "X\t4\t2\n");
    assert_eq!(
        run(format!("R\t{}\n", "a".repeat(33)).as_bytes()),
        "X\t5\t0\n"
    );
    assert_eq!(run(b"R\t!!!!!!!!a\n"), "X\t6\t0\n");
    assert_eq!(
        run(format!("R\t{}\n", "_".repeat(255)).as_bytes()),
        "X\t3\t0\n"
    );
    assert_eq!(
        run(format!("R\t{}\n", "_".repeat(256)).as_bytes()),
        "X\t2\t0\n"
    );
}

#[test]
fn the_rows_come_in_the_tables_order() {
    // Each job has something bad in every row from the one that answers.
    assert_eq!(run(b"r\t)\nE\n"), "X\t16\t0\n");
    assert_eq!(run(b"R\t)\nE\n"), "X\t4\t0\n");
    assert_eq!(run(b"R\ta\nE\n"), "X\t12\t1\n");
    assert_eq!(
        run(format!("R\t)\n{}", "\n".repeat(2_551)).as_bytes()),
        "X\t4\t0\n"
    );
}

#[test]
fn day_refusals_come_through() {
    assert_eq!(run(b"R\ta\nE\t90000\ta\n"), "X\t13\t1\n");
    assert_eq!(run(b"R\ta\nE\t100000\ta\n"), "X\t12\t1\n");
    assert_eq!(run(b"R\ta\nE\t5\ta\nE\t4\ta\n"), "X\t13\t2\n");
    assert_eq!(run(b"R\ta\nE\t0\ta\nE\t0\t_\n"), "X\t12\t2\n");
    let day = "E\t0\ta\n".repeat(256);
    assert_eq!(run(format!("R\ta\n{day}").as_bytes()), "X\t14\t256\n");
    let day = "\n".repeat(2_551);
    assert_eq!(run(format!("R\ta\n{day}").as_bytes()), "X\t11\t0\n");
}

#[test]
fn a_day_may_go_through_the_25th_hour() {
    let job = b"R\tab\nE\t86399\ta\nE\t86400\tb\nE\t89999\ta\nE\t89999\tb\n";
    let same_at_midnight = b"R\tab\nE\t0\ta\nE\t0\tb\nE\t0\ta\nE\t0\tb\n";
    assert!(run(job).ends_with("S\t0\t2\nS\t2\t4\n"));
    assert_eq!(run(job), run(same_at_midnight));
    assert_eq!(run(b"R\ta\nE\t86401\ta\nE\t86400\ta\n"), "X\t13\t2\n");
    assert_eq!(run(b"R\ta\nE\t10799\ta\nE\t7200\ta\n"), "X\t13\t2\n");
}

#[test]
fn the_longest_job_is_read_whole() {
    let rule = ["(".repeat(127), "a".into(), ")".repeat(127)].concat();
    let job = format!("R\t{rule}\n{}", long_day(255));
    assert_eq!(job.len(), 2_808);
    let answer = run(job.as_bytes());
    // A lone letter: from each start its entry, and its exit unless the word has ended.
    assert_eq!(answer.lines().next(), Some("H\t255\t1\t0\t255\t511"));
    assert_eq!(answer.lines().last(), Some("S\t254\t255"));
    assert_eq!(answer.lines().count(), 256);
    assert_eq!(run(format!("{job}E").as_bytes()), "X\t11\t0\n");
    assert_eq!(
        run(format!("{job}{}", long_day(99)).as_bytes()),
        "X\t11\t0\n"
    );
}

#[test]
fn what_follows_2809_bytes_is_unread() {
    // A newline as byte 2,809 still ends the first line, one byte later it does not.
    let newline_at = |bytes: usize| format!("R\t{}\nE\n", "a".repeat(bytes - 3));
    assert_eq!(run(newline_at(2_809).as_bytes()), "X\t2\t0\n");
    assert_eq!(run(newline_at(2_810).as_bytes()), "X\t16\t0\n");
    assert_eq!(read(&[b'x'; 2_809][..]).unwrap().len(), 2_809);
    assert_eq!(read(&[b'x'; 2_810][..]).unwrap().len(), 2_809);
    assert_eq!(read(&[b'x'; 9][..]).unwrap(), [b'x'; 9]);
}

#[test]
fn random_jobs_print_what_the_judge_says() {
    let mut random = Random::new(13);
    for _ in 0..1_000 {
        let letters = alphabet(&mut random);
        let text = sentence(
            &mut random,
            letters,
            &Bounds {
                bytes: 80,
                nodes: 64,
                special: 7,
            },
        );
        let word = word(&mut random, letters, 70);
        let n = word.len();
        let rule = rule::read(&text).unwrap();
        let mut table = vec![0; (rule.k() + 1) * (n + 1) * 4];
        let answer = judge(&text, &word, u64::MAX, &mut table);
        let mut expected = ["H".to_string(), n.to_string(), rule.m().to_string()].join("\t");
        expected += &format!("\t{}\t{}\t{}\n", rule.k(), answer.found, answer.count);
        for bit in 0..256 * (n + 1) {
            if table[bit / 64] & 1 << (bit % 64) != 0 {
                expected += &format!("S\t{}\t{}\n", bit / 256, bit % 256);
            }
        }
        let mut job = [b"R\t", &text[..], b"\n"].concat();
        for (second, &letter) in word.iter().enumerate() {
            job.extend(format!("E\t{second}\t{}\n", letter as char).bytes());
        }
        assert_eq!(run(&job), expected);
    }
}

#[test]
fn the_binary_answers_from_standard_input() {
    let mut child = Command::new(env!("CARGO_BIN_EXE_second"))
        .stdin(Stdio::piped())
        .stdout(Stdio::piped())
        .spawn()
        .unwrap();
    child
        .stdin
        .take()
        .unwrap()
        .write_all(b"R\t!a\nE\t0\ta\n")
        .unwrap();
    let result = child.wait_with_output().unwrap();
    assert!(result.status.success());
    assert_eq!(result.stdout, b"H\t1\t2\t1\t2\t7\nS\t0\t0\nS\t1\t1\n");
}

#[test]
fn the_binary_leaves_what_follows_unread() {
    let path = std::env::temp_dir().join(format!("second-job-{}", std::process::id()));
    std::fs::write(&path, [&[b'x'; 2_809][..], b"unread"].concat()).unwrap();
    let mut file = std::fs::File::open(&path).unwrap();
    let input = file.try_clone().unwrap();
    let result = Command::new(env!("CARGO_BIN_EXE_second"))
        .stdin(input)
        .output()
        .unwrap();
    assert_eq!(result.stdout, b"X\t16\t0\n");
    assert_eq!(file.stream_position().unwrap(), 2_809);
    let mut rest = String::new();
    file.read_to_string(&mut rest).unwrap();
    std::fs::remove_file(&path).unwrap();
    assert_eq!(rest, "unread");
}
