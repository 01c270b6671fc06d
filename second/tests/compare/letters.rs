//! What cases show of the letters, and that the edges ask every byte wherever an event can stand.

use std::collections::HashSet;

use second::compare::call::{Callee, Kind};
use second::compare::edge_requests::requests;
use second::compare::letters::{shown, Letters};
use second::compare::request::{Asked, Request};
use second::compare::run::Run;
use second::job::split_job;

/// What a rule shows.
fn of_rule(text: &[u8], number: u32, place: usize) -> Vec<Letters> {
    let (text, nodes) = (text.to_vec(), 128);
    shown(&Asked::Rule { text, nodes }, number, place)
}

/// What a day shows, alone and merged with another as either file.
fn of_day(file: &[u8], number: u32, place: usize) -> Vec<Letters> {
    let (letters, seconds) = (9, 9);
    let day = Asked::Day {
        file: file.to_vec(),
        letters,
        seconds,
    };
    let day = shown(&day, number, place);
    let other = b"E\t0\ta\n";
    for files in [[file, other], [other, file]] {
        let merging = Asked::Merging {
            files: files.map(<[u8]>::to_vec),
            letters,
            seconds,
        };
        assert_eq!(shown(&merging, number, place), day);
    }
    day
}

/// What a judge call shows.
fn of_judge(rule: &[u8], word: &[u8], number: u32, place: usize) -> Vec<Letters> {
    let judge = Asked::Judge {
        rule: rule.to_vec(),
        word: word.to_vec(),
        limit: 9,
        table: 99,
    };
    shown(&judge, number, place)
}

/// What a rule file shows if it is read, and if a word is judged by it.
fn of_file(file: &[u8], number: u32, place: usize) -> Vec<Letters> {
    let read = Asked::RuleFile {
        file: file.to_vec(),
        lines: 32,
        nodes: 2_048,
    };
    let judged = Asked::JudgeFile {
        file: file.to_vec(),
        word: b"a".to_vec(),
        limit: 9,
        table: 99,
    };
    let [read, judged] = [read, judged].map(|asked| shown(&asked, number, place));
    assert_eq!(read, judged);
    read
}

/// What a job shows.
fn of_job(job: &[u8], number: u32, place: usize) -> Vec<Letters> {
    let (job, out) = (job.to_vec(), 99);
    shown(&Asked::Job { job, out }, number, place)
}

#[test]
fn capitals_are_seen_in_what_is_accepted() {
    assert_eq!(of_rule(b"aB", 0, 0), [Letters::CapitalInRule]);
    assert_eq!(of_rule(b"ab", 0, 0), []);
    assert_eq!(of_rule(b"A|", 4, 2), []);
    let in_both = [Letters::CapitalInRule, Letters::CapitalInWord];
    assert_eq!(of_judge(b"A", b"aA", 0, 0), in_both);
    assert_eq!(of_judge(b"a", b"aA", 0, 0), [Letters::CapitalInWord]);
    assert_eq!(of_judge(b"A", b"A", 10, 0), []);
    // A tag is no letter.
    assert_eq!(of_day(b"E\t0\ta\nE\t0\tb\n", 0, 0), []);
    assert_eq!(of_day(b"E\t0\ta\nE\t0\tB\n", 0, 0), [Letters::CapitalInDay]);
    let in_both = [Letters::CapitalInRule, Letters::CapitalInDay];
    assert_eq!(of_job(b"R\tA\nE\t0\tE\n", 0, 0), in_both);
    assert_eq!(of_job(b"R\ta\nE\t0\ta\n", 0, 0), []);
    let in_rule = [Letters::CapitalInRule];
    assert_eq!(of_file(b"R\tx\tA\nR\ty\ta\n", 0, 0), in_rule);
    assert_eq!(of_file(b"R\tx\ta\nR\ty\t<x>\n", 0, 0), []);
    assert_eq!(of_file(b"R\tx\tA\nR\ty\t<z>\n", 17, 2), []);
}

#[test]
fn bytes_between_the_cases_are_seen_where_they_are_refused() {
    for byte in 0..=255u8 {
        let only = |letters: Letters| match byte {
            91..=96 => vec![letters],
            _ => vec![],
        };
        let rule = match byte {
            b'[' | b']' => vec![],
            _ => only(Letters::BetweenInRule),
        };
        assert_eq!(of_rule(&[b'a', byte], 3, 1), rule);
        assert_eq!(of_judge(&[b'a', byte], b"", 3, 1), rule);
        assert_eq!(of_judge(b"a", &[byte], 8, 0), only(Letters::BetweenInWord));
        // A newline would end the rule, and a good byte leaves the one behind it to be refused.
        if byte != b'\n' {
            let file = [b"R\tx\ta\nR\ty\t<x>", &[byte][..], b"_\n"].concat();
            let is_good = byte.is_ascii_alphabetic() || b"01|&!*()[].<>".contains(&byte);
            let in_file = if is_good {
                vec![Letters::BetweenInRule]
            } else {
                rule
            };
            assert_eq!(of_file(&file, 3, 2), in_file, "byte {byte}");
        }
        let day = [b"E\t0\ta\nE\t1\t", &[byte][..], b"\n"].concat();
        let in_day = only(Letters::BetweenInDay);
        assert_eq!(of_day(&day, 12, 2), in_day);
        assert_eq!(of_job(&[b"R\ta\n", &day[..]].concat(), 12, 2), in_day);
    }
    // Something else is wrong with the line as well, or instead.
    for day in [
        &b"E\t01\t_\n"[..],
        b"e\t1\t_\n",
        b"E\t1\t_",
        b"\n",
        b"_",
        b"E\t1\t_\t\n",
    ] {
        assert_eq!(of_day(day, 12, 1), []);
    }
    // The second is judged later.
    assert_eq!(of_day(b"E\t99999\t_\n", 12, 1), [Letters::BetweenInDay]);
    assert_eq!(of_job(b"r\t_\n", 16, 0), []);
}

#[test]
fn what_is_never_shown_is_a_failure() {
    let mut output = Vec::new();
    let run = Run::new(&mut output);
    let required = [Callee::Judge, Callee::Program].map(Callee::required);
    assert!(!run.finish(&required).unwrap());
    let text = String::from_utf8(output).unwrap();
    for missing in [
        "wuz_judge never had accepted, rule with capital",
        "wuz_judge never had accepted, word with capital",
        "wuz_judge never had refusal 3 for 92, 94 to 96",
        "wuz_judge never had refusal 8 for byte 91 to 96",
        "the program never had accepted, day with capital",
        "the program never had refusal 12 for byte 91 to 96",
    ] {
        assert!(text.contains(&format!("MISSING: {missing}\n")), "{missing}");
    }
    let shown = |kind: &Kind| matches!(kind, Kind::Shown(_));
    let count = |callee: Callee| callee.kinds().iter().filter(|kind| shown(kind)).count();
    assert_eq!(Callee::LIBRARY.map(count), [2, 2, 4, 4, 2, 4, 2, 2]);
}

/// Places in a rule, in a word and in a day; the question mark stands for the byte.
const RULE_PLACES: [&str; 17] = [
    "?", "?b", "a?b", "a?", "!?", "?|a", "a|?", "?&a", "a&?", "(?)", "?*", "[?]", "[?b]", "[B?b]",
    "[B?]", "[B?", "?b]",
];
const WORD_PLACES: [&str; 4] = ["?", "?b", "a?b", "a?"];
const DAY_PLACES: [&str; 4] = [
    "E\t5\t?\n",
    "E\t5\t?\nE\t5\tb\n",
    "E\t5\ta\nE\t5\t?\nE\t5\tb\n",
    "E\t5\ta\nE\t5\t?\n",
];

/// Places in a rule file: tag, tabs, name, rule, the name within it, and newline.
const FILE_PLACES: [&str; 17] = [
    "?\tx\ta\n",
    "R?x\ta\n",
    "R\t?\ta\n",
    "R\tx?\ta\n",
    "R\tx?a\n",
    "R\tx\t?\n",
    "R\tx\ta?b\n",
    "R\tx\ta?",
    "R\tx\ta\nR\ty\t<?>\n",
    "R\tx\ta\nR\ty\t?x>\n",
    "R\tx\ta\nR\ty\t<x?\n",
    "R\tx\ta\nR\ty\t<x>?R\tz\tb\n",
    "R\tx\t[?]\n",
    "R\tx\t[?b]\n",
    "R\tx\t[B?b]\n",
    "R\tx\t[B?]\n",
    "R\tx\t[B?\n",
];

/// All that the edges ask, by what reads it.
#[derive(Default)]
struct AllAsked {
    rules: HashSet<Vec<u8>>,
    days: HashSet<Vec<u8>>,
    judged_rules: HashSet<Vec<u8>>,
    /// The words on which the judge is asked about a complement.
    judged_words: HashSet<Vec<u8>>,
    job_rules: HashSet<Vec<u8>>,
    job_days: HashSet<Vec<u8>>,
    rule_files: HashSet<Vec<u8>>,
    judged_files: HashSet<Vec<u8>>,
    rewritten_rules: HashSet<Vec<u8>>,
    merged_days: [HashSet<Vec<u8>>; 2],
}

impl AllAsked {
    /// Adds a request.
    fn add(&mut self, request: Request) {
        match request.asked {
            Asked::Rule { text, .. } => drop(self.rules.insert(text)),
            Asked::Day { file, .. } => drop(self.days.insert(file)),
            Asked::Judge { rule, word, .. } => {
                if rule == b"!a" {
                    self.judged_words.insert(word);
                }
                self.judged_rules.insert(rule);
            }
            Asked::Job { job, .. } => {
                if let Ok((rule, day)) = split_job(&job) {
                    self.job_rules.insert(rule.to_vec());
                    self.job_days.insert(day.to_vec());
                }
            }
            Asked::RuleFile { file, .. } => drop(self.rule_files.insert(file)),
            Asked::JudgeFile { file, .. } => drop(self.judged_files.insert(file)),
            Asked::Rewriting { text, .. } => drop(self.rewritten_rules.insert(text)),
            Asked::Merging { files, .. } => {
                for (asked, file) in self.merged_days.iter_mut().zip(files) {
                    asked.insert(file);
                }
            }
        }
    }
}

/// Checks that a byte was asked at a place.
fn check_asked(asked: &HashSet<Vec<u8>>, place: &str, byte: u8) {
    let with_byte = |other: u8| if other == b'?' { byte } else { other };
    let text: Vec<u8> = place.bytes().map(with_byte).collect();
    assert!(asked.contains(&text), "{}", text.escape_ascii());
}

#[test]
fn every_byte_is_asked_at_every_place() {
    let mut asked = AllAsked::default();
    requests()
        .into_iter()
        .for_each(|request| asked.add(request));
    for byte in 0..=255 {
        for place in RULE_PLACES {
            check_asked(&asked.rules, place, byte);
            check_asked(&asked.judged_rules, place, byte);
            check_asked(&asked.rewritten_rules, place, byte);
            // A rule in a job ends at a newline.
            if byte != b'\n' {
                check_asked(&asked.job_rules, place, byte);
            }
        }
        for place in WORD_PLACES {
            check_asked(&asked.judged_words, place, byte);
        }
        for place in DAY_PLACES {
            check_asked(&asked.days, place, byte);
            check_asked(&asked.job_days, place, byte);
            for days in &asked.merged_days {
                check_asked(days, place, byte);
            }
        }
        for place in FILE_PLACES {
            check_asked(&asked.rule_files, place, byte);
            check_asked(&asked.judged_files, place, byte);
        }
    }
}
