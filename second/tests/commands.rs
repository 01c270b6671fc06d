//! The commands `cases`, `readings` and `merges`: the form of their lines, and that a seed fixes them.

use std::process::{Command, Output};

use second::judge::judge;
use second::random::Random;
use second::rule;

fn run(arguments: &str) -> Output {
    Command::new(env!("CARGO_BIN_EXE_second"))
        .args(arguments.split(' '))
        .output()
        .unwrap()
}

/// The tab-separated fields of each line.
fn fields(arguments: &str) -> Vec<Vec<String>> {
    let text = String::from_utf8(run(arguments).stdout).unwrap();
    assert!(text.ends_with('\n'));
    text.lines()
        .map(|line| line.split('\t').map(String::from).collect())
        .collect()
}

#[test]
fn cases_hold_sentences_words_and_results() {
    let lines = fields("cases 5 800 30 6");
    assert_eq!(lines.len(), 800);
    for line in &lines {
        let [text, word, spans, count, m, k] = &line[..] else {
            panic!("{line:?}")
        };
        assert!(text.len() <= 30 && word.len() <= 6);
        let rule = rule::read(text.as_bytes()).unwrap();
        assert_eq!((m, k), (&rule.m().to_string(), &rule.k().to_string()));
        let mut table = vec![0; (rule.k() + 1) * (word.len() + 1) * 4];
        let answer = judge(text.as_bytes(), word.as_bytes(), u64::MAX, &mut table);
        assert_eq!(count, &answer.count.to_string());
        let bits = (0..256 * (word.len() + 1)).filter(|bit| table[bit / 64] >> (bit % 64) & 1 == 1);
        let pairs: Vec<String> = bits
            .map(|bit| format!("{},{}", bit / 256, bit % 256))
            .collect();
        let expected = if pairs.is_empty() {
            "-".into()
        } else {
            pairs.join(";")
        };
        assert_eq!(spans, &expected);
    }
    let all: String = lines.iter().map(|line| line[0].as_str()).collect();
    for sign in "abzABZ01|&!*()[].".chars() {
        assert!(all.contains(sign), "no {sign} in any case");
    }
}

#[test]
fn cases_keep_to_the_largest_sizes() {
    let lines = fields("cases 6 40 9999 9999");
    assert_eq!(lines.len(), 40);
    assert!(lines
        .iter()
        .all(|line| line[0].len() <= 255 && line[1].len() <= 255));
    assert!(lines.iter().any(|line| line[1].len() > 100));
    let line = &fields("cases 6 1 0 0")[0];
    assert_eq!((line[0].len(), line[1].len()), (1, 0));
}

/// An accepted text without the letters in its brackets, and without what closes them.
fn outside_brackets(text: &str) -> String {
    let mut parts = text.split('[');
    let first = parts.next().unwrap();
    let after = parts.map(|part| part.split_once(']').unwrap().1);
    let all: Vec<&str> = std::iter::once(first).chain(after).collect();
    all.join("[")
}

#[test]
fn about_a_third_of_the_cases_and_readings_have_sets() {
    for arguments in [
        "cases 5 2000 12 4",
        "cases 5 2000 30 6",
        "readings 5 2000 20",
    ] {
        let lines = fields(arguments);
        let has_set = |line: &&Vec<String>| line[0].contains(['[', '.']);
        let share = 100 * lines.iter().filter(has_set).count() / lines.len();
        assert!((25..=65).contains(&share), "{arguments}: {share}");
    }
    let lines = fields("readings 5 2000 20");
    let fallen = lines.iter().filter(|line| line[1] == "20").count();
    assert!(fallen >= 20, "{fallen}");
    // The place of 4 is in brackets that are still open.
    let is_broken = |line: &&Vec<String>| {
        let place: usize = line[2].parse().unwrap();
        let beginning = line[0][..place].trim_end_matches(|sign: char| sign.is_ascii_alphabetic());
        line[1] == "4" && beginning.ends_with('[')
    };
    let broken = lines.iter().filter(is_broken).count();
    assert!(broken >= 50, "{broken}");
}

#[test]
fn readings_hold_texts_good_and_bad() {
    let lines = fields("readings 7 3000 300");
    assert_eq!(lines.len(), 3000);
    let mut numbers = [0; 22];
    for line in &lines {
        let [text, number, place, m, k, records] = &line[..] else {
            panic!("{line:?}")
        };
        assert!(text.len() <= 300);
        numbers[number.parse::<usize>().unwrap()] += 1;
        let accepted = number == "0";
        assert_eq!(rule::read(text.as_bytes()).is_ok(), accepted);
        if accepted {
            assert_eq!(place, "0");
            let signs = records
                .split(';')
                .filter(|record| !record.ends_with('.'))
                .count();
            let is_sign = |byte: &u8| byte.is_ascii_alphanumeric() || b"|&!*.[".contains(byte);
            let outside = outside_brackets(text);
            assert_eq!(signs, outside.bytes().filter(is_sign).count());
            assert_eq!(records.split(';').count().to_string(), *m);
        } else {
            assert_eq!((m.as_str(), k.as_str(), records.as_str()), ("0", "0", "-"));
        }
    }
    for (number, &times) in numbers.iter().enumerate() {
        let can_come = number <= 6 || number == 20 || number == 21;
        assert_eq!(times > 0, can_come, "{numbers:?}");
    }
}

#[test]
fn readings_print_the_records_as_offset_and_kind() {
    let lines = fields("readings 8 4000 4");
    let line = lines
        .iter()
        .find(|line| line[0] == "!a*")
        .expect("a seed that gives !a*");
    assert_eq!(line[1..], ["0", "0", "3", "1", "1:a;2:*;0:!"]);
    let line = lines
        .iter()
        .find(|line| line[0] == "aa")
        .expect("a seed that gives aa");
    assert_eq!(line[1..], ["0", "0", "3", "0", "0:a;1:a;1:."]);
    let all: String = ('A'..='Z').chain('a'..='z').collect();
    for (text, records) in [("[ab]", "0:ab"), ("[a]", "0:a"), (".", &format!("0:{all}"))] {
        let line = lines.iter().find(|line| line[0] == text);
        let line = line.unwrap_or_else(|| panic!("a seed that gives {text}"));
        assert_eq!(line[1..], ["0", "0", "1", "0", records]);
    }
}

/// The items of a list as `second:letter` with what stands before it, in order.
fn events(list: &str) -> Vec<&str> {
    match list {
        "-" => Vec::new(),
        _ => list.split(';').collect(),
    }
}

/// The second of an event.
fn second_of(event: &str) -> u32 {
    let (second, letter) = event.split_once(':').unwrap();
    assert!(matches!(letter.as_bytes(), [letter] if letter.is_ascii_alphabetic()));
    second.parse().unwrap()
}

#[test]
fn merges_hold_two_days_and_both_together() {
    let lines = fields("merges 4 3000");
    assert_eq!(lines.len(), 3000);
    let (mut ties, mut empty, mut doubles) = (0, 0, 0);
    for line in &lines {
        let [first, second, merged] = &line[..] else {
            panic!("{line:?}")
        };
        let (first, second, merged) = (events(first), events(second), events(merged));
        assert!(first.len() <= 6 && second.len() <= 6);
        for day in [&first, &second] {
            assert!(day.is_sorted_by_key(|event| second_of(event)));
            assert!(day.iter().all(|event| second_of(event) <= 89_999));
        }
        // By rising second, and at equal seconds all of the first file's before the second's.
        let split = merged.iter().map(|event| event.split_once('/').unwrap());
        let split: Vec<(&str, &str)> = split.collect();
        assert!(split.is_sorted_by_key(|(file, event)| (second_of(event), *file)));
        for (file, day) in [("1", &first), ("2", &second)] {
            let own = split.iter().filter(|event| event.0 == file);
            assert_eq!(own.map(|event| event.1).collect::<Vec<_>>(), *day);
        }
        assert_eq!(merged.len(), first.len() + second.len());
        let in_second = |event: &&str| second.iter().any(|e| second_of(e) == second_of(event));
        ties += usize::from(first.iter().any(in_second));
        doubles += usize::from(first.iter().any(|event| second.contains(event)));
        empty += usize::from(first.is_empty() || second.is_empty());
    }
    assert!(ties > 1_500 && doubles > 500, "{ties}, {doubles}");
    assert!((300..1_500).contains(&empty), "{empty}");
    assert!(lines.iter().any(|line| line[..] == ["-", "-", "-"]));
}

#[test]
fn a_seed_fixes_the_lines() {
    assert_eq!(run("merges 1 50").stdout, run("merges 1 50").stdout);
    assert_ne!(run("merges 1 50").stdout, run("merges 2 50").stdout);
    assert_eq!(run("cases 1 50 20 5").stdout, run("cases 1 50 20 5").stdout);
    assert_ne!(run("cases 1 50 20 5").stdout, run("cases 2 50 20 5").stdout);
    assert_eq!(
        run("readings 1 50 20").stdout,
        run("readings 1 50 20").stdout
    );
    assert_ne!(
        run("readings 1 50 20").stdout,
        run("readings 2 50 20").stdout
    );
}

#[test]
fn wrong_arguments_are_told_the_usage() {
    for arguments in [
        "cases",
        "cases 1 2 3",
        "cases 1 2 3 x",
        "readings 1 2",
        "merges",
        "merges 1",
        "merges 1 x",
        "merges 1 2 3",
        "what 1 2 3 4",
        "cases 1 2 3 4 5",
    ] {
        let result = run(arguments);
        assert_eq!(result.status.code(), Some(2), "{arguments}");
        assert!(result.stdout.is_empty());
        assert!(String::from_utf8(result.stderr)
            .unwrap()
            .starts_with("usage"));
    }
}

#[test]
fn the_random_source_is_splitmix64() {
    // The published first outputs for this seed.
    let mut random = Random::new(1_234_567);
    let expected = [
        6_457_827_717_110_365_317,
        3_203_168_211_198_807_973,
        9_817_491_932_198_370_423,
        4_593_380_528_125_082_431,
        16_408_922_859_458_223_821,
    ];
    assert_eq!([(); 5].map(|()| random.bits()), expected);
}
