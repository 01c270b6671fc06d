//! The whole jobs that walk document 01's edges; its own whole case is the first.

use crate::judge_edges::{repeated, KNOWN_DAYS};
use crate::letter_edges::{self, ENDS};
use crate::limits::{LAST_SECOND, LETTERS, MAX_DAY_BYTES, MAX_DAY_LINES, MAX_JOB_BYTES};
use crate::lines::{good_line, joined};
use crate::rule_edges::{example_1, run};
use crate::star_edges::nested_stars;
use crate::{day_edges, hour_edges, rule_edges, stream::Case};

/// Document 01's whole case.
const WHOLE_CASE: &[u8] = b"R\t!a\nE\t0\ta\n";

/// Jobs whose first line is not of the form; what follows it would be good.
const BAD_FIRST_LINES: [&[u8]; 26] = [
    b"",
    b"R",
    b"R\n",
    b"R\t",
    b"R\ta",
    b"R\ta\r",
    b"R\ta\0",
    b"Ra\nE\t0\ta\n",
    b"R a\nE\t0\ta\n",
    b"R \ta\nE\t0\ta\n",
    b"r\ta\nE\t0\ta\n",
    b" R\ta\nE\t0\ta\n",
    b"\tR\ta\nE\t0\ta\n",
    b"\ta\nE\t0\ta\n",
    b"a\nE\t0\ta\n",
    b"RR\ta\nE\t0\ta\n",
    b"E\ta\nE\t0\ta\n",
    b"\nR\ta\nE\t0\ta\n",
    b"R\n\ta\nE\t0\ta\n",
    b"R\0a\nE\t0\ta\n",
    b"R\r\ta\nE\t0\ta\n",
    b"\0\ta\nE\t0\ta\n",
    b"\xd2\ta\nE\t0\ta\n",
    b"\xef\xbb\xbfR\ta\nE\t0\ta\n",
    b"E\t0\ta\nR\ta\n",
    b"R\ta\tE\t0\ta",
];

/// Jobs whose rule has a byte too many, or none.
const BAD_RULES: [&[u8]; 14] = [
    b"R\t\n",
    b"R\t\nE\t0\ta\n",
    b"R\t\n\nE\t0\ta\n",
    b"R\t\ta\nE\t0\ta\n",
    b"R\ta\t\nE\t0\ta\n",
    b"R\ta\r\nE\t0\ta\n",
    b"R\ta\0\nE\t0\ta\n",
    b"R\t\0\nE\t0\ta\n",
    b"R\ta\xff\nE\t0\ta\n",
    b"R\t\x80a\nE\t0\ta\n",
    b"R\ta b\nE\t0\ta\n",
    b"R\ta|\nE\t0\ta\n",
    b"R\t()\nE\t0\ta\n",
    b"R\t)_\n",
];

/// Jobs whose day has a bad line.
const BAD_DAYS: [&[u8]; 17] = [
    b"R\ta\n\n",
    b"R\ta\n\nE\t0\ta\n",
    b"R\ta\nE\t0\ta\n\n",
    b"R\ta\nE\t0\ta",
    b"R\ta\nE\t0\ta\nE",
    b"R\ta\nE\t0\ta\nE\t1\ta",
    b"R\ta\nE\t0\ta\r\n",
    b"R\ta\nE\t0\ta\0\n",
    b"R\ta\nE\t0\ta\n\0",
    b"R\ta\nR\ta\n",
    b"R\ta\nE\t00\ta\n",
    b"R\ta\nE\t0\t_\n",
    b"R\ta\nE 0\ta\n",
    b"R\ta\nE\t0 a\n",
    b"R\ta\nE\t90000\ta\n",
    b"R\ta\nE\t100000\ta\n",
    b"R\ta\nE\t5\ta\nE\t4\ta\n",
];

/// Jobs with something bad in each row from the one that answers.
const SEVERAL_FAULTS: [&[u8]; 5] = [
    b"r\t)\nE\n",
    b"R\t)\nE\n",
    b"R\t\nE\t0\t_\n",
    b"R\ta\nE\n",
    b"R\ta\nE\t90000\t_\n",
];

/// Jobs in which tags stand as letters, letters as tags, or a letter in both cases.
const CAPITALS: [&[u8]; 10] = [
    b"R\tA\nE\t0\tA\n",
    b"R\tA\nE\t0\ta\n",
    b"R\ta\nE\t0\tA\n",
    b"R\t!a\nE\t0\tA\nE\t0\ta\n",
    b"R\tR\nE\t0\tR\n",
    b"R\tE\nE\t0\tE\n",
    b"R\tH(S|X)*\nE\t0\tH\nE\t1\tS\nE\t1\tX\n",
    b"R\tE\t0\tE\n",
    b"E\tE\nE\t0\tE\n",
    b"R\tE\nR\tE\nE\t0\tE\n",
];

/// Rules with sets, good ones and bad ones, each on a few days.
const SET_RULES: [&str; 19] = [
    "[ab]",
    "[az]",
    "[Za]",
    ".",
    ".*",
    "![ab]",
    "a.|[bc]*",
    "[ba]",
    "[aa]",
    "[aZ]",
    "x[ab][ba]",
    "[]",
    "[a",
    "]",
    "[.]",
    "[a|b]",
    "[ba]|",
    "[a-b]",
    "[^a]",
];

/// Rules with stars in a row, good ones and bad ones, each on a few days.
const STAR_RULES: [&str; 16] = [
    "(a*)*",
    "a*b*",
    "a**",
    "a***",
    "(a*)**",
    "(a**)*",
    "a**b**",
    "!!a**",
    "a**|b",
    "[ab]**",
    "a**|",
    "**",
    "[ba]**",
    "a**[ba]",
    "a**_",
    "!!!!!!!!a**",
];

/// The jobs, one group after another.
pub fn jobs() -> Vec<Vec<u8>> {
    let mut jobs = vec![WHOLE_CASE.to_vec()];
    jobs.extend(KNOWN_DAYS.map(|(rule, word)| of_word(rule.as_bytes(), word.as_bytes())));
    jobs.extend(["aaaaaaaba", "ababaaaa"].map(|word| of_word(&example_1(), word.as_bytes())));
    for group in [&BAD_FIRST_LINES[..], &BAD_RULES, &BAD_DAYS, &SEVERAL_FAULTS] {
        jobs.extend(group.iter().map(|job| job.to_vec()));
    }
    jobs.extend(about_rules());
    jobs.extend(about_words());
    jobs.extend(about_days());
    jobs.extend(hour_edges::days().iter().map(|day| job(b"ab", day)));
    jobs.extend(about_bytes());
    jobs.extend(about_letters());
    jobs.extend(about_sets());
    jobs.extend(about_stars());
    jobs
}

/// Every edge of the readers as a part of a job, whose other part is good.
pub fn readers_jobs() -> Vec<Vec<u8>> {
    let texts = rule_edges::texts().into_iter();
    let rules = texts.map(|text| of_word(&text, b"ab"));
    let days = day_edges::cases()
        .into_iter()
        .filter_map(|case| match case {
            Case::Day { bytes, .. } => Some(job(b"!a", &bytes)),
            _ => None,
        });
    rules.chain(days).collect()
}

/// A job of a rule and a day.
pub fn job(rule: &[u8], day: &[u8]) -> Vec<u8> {
    [b"R\t", rule, b"\n", day].concat()
}

/// A job of a rule and the day with such a word, an event each second.
fn of_word(rule: &[u8], word: &[u8]) -> Vec<u8> {
    let events = word.iter().enumerate();
    let lines: Vec<_> = events
        .map(|(second, &letter)| good_line(second, letter))
        .collect();
    job(rule, &joined(&lines))
}

/// A day of so many lines that are as long as lines can be.
fn long_lines(count: usize) -> Vec<u8> {
    joined(&vec![good_line(LAST_SECOND as usize, b'a'); count])
}

/// Rules about the bounds.
fn about_rules() -> Vec<Vec<u8>> {
    let nested = |depth: usize| [run("(", depth), run("a", 1), run(")", depth)].concat();
    let rules = [
        run("a", 32),
        [run("a", 32), run("*", 1)].concat(),
        run("a", 33),
        run("!!!!!!!a", 1),
        run("!!!!!!!!a", 1),
        run("a&a&a&a&a&a&a&a", 1),
        run("a&a&a&a&a&a&a&a&a", 1),
        nested(127),
        [nested(127), run("*", 1)].concat(),
        run("a", 255),
        run("a", 256),
        run("_", 256),
    ];
    let words: [&[u8]; 2] = [b"", b"aba"];
    let both = |rule: Vec<u8>| words.map(|word| of_word(&rule, word));
    rules.into_iter().flat_map(both).collect()
}

/// Words about the bounds: the longest text and the highest count are among their answers.
fn about_words() -> Vec<Vec<u8>> {
    let mut jobs = Vec::new();
    for n in [
        0, 1, 9, 10, 11, 63, 64, 65, 99, 100, 127, 128, 254, 255, 256,
    ] {
        jobs.push(of_word(b"ab", &repeated("ab", n)));
        jobs.push(of_word(b"!(a*)&!(b*)", &repeated("aab", n)));
    }
    let stars = nested_stars("a", 63);
    jobs.push(job(&stars, &long_lines(MAX_DAY_LINES)));
    jobs.push(job(b"!!!!!!!0", &long_lines(MAX_DAY_LINES)));
    jobs.push(job(b"0", &long_lines(MAX_DAY_LINES)));
    jobs
}

/// Days of about as many lines and bytes as there may be.
fn about_days() -> Vec<Vec<u8>> {
    let longest = long_lines(MAX_DAY_LINES);
    let short = |count: usize| b"E\t0\tb\n".repeat(count);
    let days = [
        [&longest[..], b"E"].concat(),
        [&longest[..], b"\n"].concat(),
        longest[..longest.len() - 1].to_vec(),
        [&short(MAX_DAY_LINES), &b"E"[..]].concat(),
        [&short(MAX_DAY_LINES - 1), &b"E\t0\t_\nE"[..]].concat(),
        short(MAX_DAY_LINES + 1),
        short(MAX_DAY_BYTES / 6),
        run("\n", MAX_DAY_BYTES),
        run("\n", MAX_DAY_BYTES + 1),
        run("E", MAX_DAY_BYTES),
    ];
    days.iter().map(|day| job(b"b*", day)).collect()
}

/// Jobs of about as many bytes as are read.
fn about_bytes() -> Vec<Vec<u8>> {
    let newline_at = |bytes: usize| [&run("a", bytes - 3)[..], b"\nE\n"].concat();
    let first_line_of = |bytes: usize| [b"R\t", &newline_at(bytes)[..]].concat();
    let nested = [run("(", 127), run("a", 1), run(")", 127)].concat();
    // 2,808 bytes, so the rule may have one more than this.
    let longest = job(&nested, &long_lines(MAX_DAY_LINES));
    let with_star = job(&[&nested[1..], b"*"].concat(), &long_lines(MAX_DAY_LINES));
    vec![
        first_line_of(MAX_JOB_BYTES - 1),
        first_line_of(MAX_JOB_BYTES),
        first_line_of(MAX_JOB_BYTES + 1),
        run("x", MAX_JOB_BYTES),
        run("x", MAX_JOB_BYTES + 1),
        longest.clone(),
        [&longest[..], b"E"].concat(),
        [&longest[..], b"\n"].concat(),
        [longest.clone(), long_lines(99)].concat(),
        with_star,
        [b"R\ta*\n", &long_lines(280)[..], b"x"].concat(),
        [b"R\t_\n", &long_lines(280)[..], b"x"].concat(),
    ]
}

/// Capitals, all letters in one day, and what stands at the ends of the two runs of letters.
fn about_letters() -> Vec<Vec<u8>> {
    let mut jobs: Vec<Vec<u8>> = CAPITALS.map(<[u8]>::to_vec).into();
    jobs.extend([&b"!0"[..], b"!Z", b"(a|A)*"].map(|rule| of_word(rule, LETTERS)));
    for byte in ENDS {
        jobs.push(of_word(&[byte], b"aAzZ"));
        jobs.extend(letter_edges::days(byte).map(|day| job(b"!a", &day)));
    }
    jobs
}

/// Each of the rules on each of the words.
fn on_words(rules: &[&str], words: &[&str]) -> Vec<Vec<u8>> {
    let on_word = |rule: &str, word: &str| of_word(rule.as_bytes(), word.as_bytes());
    let on_all = |rule: &&str| words.iter().map(|word| on_word(rule, word)).collect();
    rules.iter().flat_map::<Vec<_>, _>(on_all).collect()
}

/// Sets in rules, and brackets that are no events.
fn about_sets() -> Vec<Vec<u8>> {
    let mut jobs = on_words(&SET_RULES, &["", "aZb", "zab"]);
    jobs.extend([&b"["[..], b"]", b"."].map(|event| of_word(b"[ab]", event)));
    for set in [".", "[ab]", "[ba]"] {
        jobs.extend([32, 33].map(|times| of_word(&run(set, times), b"a")));
    }
    jobs.extend(["[ab]", "[ba]"].map(|set| of_word(&[run("!", 8), set.into()].concat(), b"a")));
    jobs
}

/// Stars in a row, and so many that 21 comes before 5.
fn about_stars() -> Vec<Vec<u8>> {
    let mut jobs = on_words(&STAR_RULES, &["", "aab"]);
    let rules = [63, 64].map(|stars| [run("a", 1), run("*", stars)].concat());
    jobs.extend(rules.iter().map(|rule| of_word(rule, b"a")));
    // A bad day comes later.
    jobs.push(job(b"a**", b"E\n"));
    jobs
}
