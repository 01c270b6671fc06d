//! The command `draw` for the readers: its size, that a seed fixes it, and every limit it meets.

use crate::{answered, cases, check_answer, numbers, stream, Case};

/// The seeds that the tests below draw from.
const SEEDS: [usize; 14] = [1, 2, 3, 4, 5, 6, 7, 8, 9, 10, 11, 12, 13, 29];

/// A stream as long as the limit lets it be.
fn longest(seed: usize) -> Vec<u8> {
    stream(&format!("draw {seed} 1000000 readers"))
}

/// All cases of the seeds, with their answers.
fn many() -> Vec<(Case, String)> {
    let answered = |&seed: &usize| answered(&longest(seed));
    SEEDS.iter().flat_map(answered).collect()
}

/// How many lines a day has ended.
fn lines(case: &Case) -> usize {
    case.bytes.iter().filter(|&&byte| byte == b'\n').count()
}

/// Whether the bytes have a part like this.
fn has(bytes: &[u8], part: &[u8]) -> bool {
    bytes.windows(part.len()).any(|window| window == part)
}

#[test]
fn there_are_as_many_cases_as_asked_for() {
    assert!(stream("draw 3 0 readers").is_empty());
    for count in [1, 2, 17, 60] {
        assert_eq!(
            cases(&stream(&format!("draw 3 {count} readers"))).len(),
            count
        );
    }
}

#[test]
fn the_stream_ends_with_the_last_whole_case_that_fits() {
    for seed in SEEDS {
        let stream = longest(seed);
        assert!(stream.len() <= 65_536);
        // No case of these seeds takes more than 2,600 bytes.
        assert!(stream.len() > 65_536 - 2_600, "{} bytes", stream.len());
        let count = cases(&stream).len();
        assert!(count > 150, "{count} cases");
    }
}

#[test]
fn a_seed_fixes_the_stream() {
    assert_eq!(longest(1), longest(1));
    assert_ne!(longest(1), longest(2));
    let (short, long) = (stream("draw 9 40 readers"), stream("draw 9 80 readers"));
    assert!(long.starts_with(&short) && long.len() > short.len());
}

#[test]
fn every_case_has_a_sound_answer() {
    for (case, line) in many() {
        check_answer(&case, &line);
    }
}

#[test]
fn about_half_are_rules_and_both_are_often_accepted() {
    let all = many();
    let share = |meets: &dyn Fn(&Case, &str) -> bool| {
        let met = all.iter().filter(|(case, line)| meets(case, line)).count();
        100 * met / all.len()
    };
    let rules = share(&|case, _| case.is_rule());
    assert!((40..=60).contains(&rules), "{rules} in a hundred");
    let good_rules = share(&|_, line| line.starts_with("rule\t0\t"));
    let good_days = share(&|_, line| line.starts_with("day\t0\t"));
    assert!(good_rules >= 15, "{good_rules} in a hundred");
    assert!(good_days >= 15, "{good_days} in a hundred");
}

#[test]
fn every_number_of_both_readers_occurs() {
    let times = numbers(&many());
    for number in (0..=6).chain(11..=15).chain([20, 21]) {
        assert!(times[number] >= 3, "{number}: {} times", times[number]);
    }
}

#[test]
fn rules_come_to_their_limits() {
    let all = many();
    let rules: Vec<&(Case, String)> = all.iter().filter(|(case, _)| case.is_rule()).collect();
    let has_field = |field: usize, value: &str| {
        let is = |line: &str| line.split('\t').nth(field) == Some(value);
        rules.iter().any(|(_, line)| is(line))
    };
    for m in ["1", "62", "63", "64"] {
        assert!(has_field(5, m), "m {m}");
    }
    for k in ["1", "6", "7"] {
        assert!(has_field(6, k), "k {k}");
    }
    let accepted = |line: &str| line.starts_with("rule\t0\t");
    for length in [1, 100, 253, 254, 255] {
        let mut rules = rules.iter();
        let found = rules.any(|(case, line)| case.bytes.len() == length && accepted(line));
        assert!(found, "{length} bytes");
    }
    for length in [0, 256, 257] {
        assert!(rules.iter().any(|(case, _)| case.bytes.len() == length));
    }
    for run in [[b'('; 60], [b')'; 60], [b'!'; 60], [b'*'; 60]] {
        assert!(rules.iter().any(|(case, _)| has(&case.bytes, &run)));
    }
    let mut seen = [false; 256];
    for byte in rules.iter().flat_map(|(case, _)| &case.bytes) {
        seen[usize::from(*byte)] = true;
    }
    assert!(seen.iter().all(|&seen| seen));
}

#[test]
fn days_come_to_their_limits() {
    let all = many();
    let days: Vec<&(Case, String)> = all.iter().filter(|(case, _)| !case.is_rule()).collect();
    let lengths: Vec<usize> = days.iter().map(|(case, _)| case.bytes.len()).collect();
    for length in [0, 2_549, 2_550, 2_551] {
        assert!(lengths.contains(&length), "{length} bytes");
    }
    let counts: Vec<usize> = days.iter().map(|(case, _)| lines(case)).collect();
    for count in [19, 20, 253, 254, 255, 256] {
        assert!(counts.contains(&count), "{count} lines");
    }
    for second in [
        0, 9_999, 10_000, 86_399, 86_400, 89_998, 89_999, 90_000, 90_001,
    ] {
        let part = format!("\t{second}\t");
        let mut days = days.iter();
        let found = days.any(|(case, _)| has(&case.bytes, part.as_bytes()));
        assert!(found, "second {second}");
    }
    for n in ["0", "1", "10", "20", "255"] {
        let accepted = |line: &str| line.starts_with(&format!("day\t0\t0\t0\t0\t{n}\t"));
        assert!(days.iter().any(|(_, line)| accepted(line)), "n {n}");
    }
}

/// The seconds of a day, as far as its lines have such fields.
fn seconds(case: &Case) -> impl Iterator<Item = usize> + '_ {
    let lines = case.bytes.split(|&byte| byte == b'\n');
    let digits = lines.filter_map(|line| line.split(|&byte| byte == b'\t').nth(1));
    digits.filter_map(|digits| std::str::from_utf8(digits).ok()?.parse().ok())
}

#[test]
fn days_often_come_to_the_25th_hour_and_beyond() {
    let all = many();
    let count = |start: &str, meets: &dyn Fn(&Case) -> bool| {
        let begins = |line: &str| line.starts_with(start);
        all.iter()
            .filter(|(case, line)| begins(line) && meets(case))
            .count()
    };
    let days = all.iter().filter(|(case, _)| !case.is_rule()).count();
    let in_last = |second: usize| (86_400..=89_999).contains(&second);
    let accepted = count("day\t0\t", &|case| seconds(case).any(in_last));
    assert!(accepted > days / 10, "{accepted} of {days}");
    // Above the day's end, and not just beside it.
    let after = |second: usize| (90_002..=99_998).contains(&second);
    let refused = count("day\t13\t", &|case| seconds(case).any(after));
    assert!(refused > 3, "{refused}");
    // An hour less than in the line before, among others that fall.
    let put_back = |case: &Case| {
        let seconds: Vec<usize> = seconds(case).collect();
        seconds.windows(2).any(|two| two[0] == two[1] + 3_600)
    };
    assert!(count("day\t13\t", &put_back) > 3);
}

#[test]
fn days_are_damaged_in_every_way() {
    let all = many();
    let damages: [&[u8]; 22] = [
        b"\nF\t",
        b"\ne\t",
        b"\n E\t",
        b"\t\t",
        b"E\t\t",
        b"\t00\t",
        b"\t01\t",
        b"\t000000\t",
        b"\t123456\t",
        b"\t100000\t",
        b"\t+1\t",
        b"\t-1\t",
        b"\tx\t",
        b"\t@\n",
        b"\t[\n",
        b"\t_\n",
        b"\t`\n",
        b"\t{\n",
        b"\tab\n",
        b"\t\n",
        b"\r\n",
        b"\n\n",
    ];
    for damage in damages {
        let refused = |(case, line): &(Case, String)| {
            line.starts_with("day\t12\t") && has(&case.bytes, damage)
        };
        assert!(all.iter().any(refused), "{}", damage.escape_ascii());
    }
}

#[test]
fn every_letter_is_accepted_and_every_byte_between_the_cases_refused() {
    let all = many();
    let letters = (b'a'..=b'z').chain(b'A'..=b'Z');
    for letter in letters {
        let rule = |(case, line): &(Case, String)| {
            line.starts_with("rule\t0\t") && case.bytes.contains(&letter)
        };
        let day = |(case, line): &(Case, String)| {
            line.starts_with("day\t0\t") && has(&case.bytes, &[b'\t', letter, b'\n'])
        };
        assert!(all.iter().any(rule) && all.iter().any(day), "{letter}");
    }
    for byte in [64, 92, 94, 95, 96, 123] {
        let refused = |(case, line): &(Case, String)| {
            let place = line.split('\t').nth(2).unwrap().parse::<usize>().unwrap();
            line.starts_with("rule\t3\t") && case.bytes[place] == byte
        };
        assert!(all.iter().any(refused), "{byte}");
    }
}

#[test]
fn sets_come_good_and_bad() {
    let all = many();
    let rules = all.iter().filter(|(case, _)| case.is_rule());
    let rules: Vec<&(Case, String)> = rules.collect();
    let times = |start: &str, meets: &dyn Fn(&[u8]) -> bool| {
        let rules = rules.iter();
        rules
            .filter(|(case, line)| line.starts_with(start) && meets(&case.bytes))
            .count()
    };
    let brackets = times("rule\t0\t", &|text| text.contains(&b'['));
    let dots = times("rule\t0\t", &|text| text.contains(&b'.'));
    assert!(brackets > rules.len() / 10 && dots > rules.len() / 20);
    let fallen = times("rule\t20\t", &|_| true);
    assert!(fallen > rules.len() / 50, "{fallen} of {}", rules.len());
    for part in [&b"[]"[..], b"[a|", b"[.", b"[[", b"[(", b"[!"] {
        assert!(times("rule\t4\t", &|text| has(text, part)) > 0);
    }
    for part in [&b"[^"[..], b"[a-", b"[a "] {
        assert!(times("rule\t3\t", &|text| has(text, part)) > 0);
    }
}

#[test]
fn buffers_are_too_short_or_longer_or_unlike() {
    let all = many();
    let days: Vec<&Case> = all
        .iter()
        .map(|(case, _)| case)
        .filter(|case| !case.is_rule())
        .collect();
    let some = |meets: &dyn Fn((usize, usize), usize) -> bool| {
        days.iter().any(|case| meets(case.buffers(), lines(case)))
    };
    assert!(some(&|(letters, seconds), n| letters == 0
        && seconds > n
        && n > 3));
    assert!(some(&|(letters, seconds), n| letters > n
        && seconds == 0
        && n > 3));
    assert!(some(&|(letters, seconds), n| n > 0
        && letters == n - 1
        && seconds == n));
    assert!(some(&|(letters, seconds), n| n > 0
        && letters == n
        && seconds == n - 1));
    assert!(some(&|(letters, seconds), n| n > 9
        && letters == n
        && seconds == n));
    assert!(some(
        &|(letters, seconds), n| letters > n + 30 && seconds == n
    ));
}
