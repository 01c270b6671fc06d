//! The unproved judges on cases that are known: the days of document 01, letters in both cases, sets of letters, the edges of a row, and the
//! program's one whole case.

use bench::blocks::empty_table;
use bench::judge::Judge;
use bench::row::{flip_between, next_bit, NO_BITS};
use bench::rules::rules;
use bench::words::side_entrance;
use bench::{baseline, job, tuned};

const JUDGES: [(&str, Judge); 2] = [("baseline", baseline::judge), ("tuned", tuned::judge)];

/// Found and, where document 01 gives it, count of a rule on a word.
fn judged(judge: Judge, rule: &str, word: &str) -> (u64, u64) {
    let mut table = empty_table(word.len());
    let answer = judge(rule.as_bytes(), word.as_bytes(), &mut table);
    (answer.found, answer.count)
}

/// Both judges have to tell found and count of each rule and word.
fn tell(days: &[(&str, &str, u64, u64)]) {
    for (name, judge) in JUDGES {
        for &(rule, word, found, count) in days {
            let told = judged(judge, rule, word);
            assert_eq!(told, (found, count), "{name}: {rule} on {word}");
        }
    }
}

#[test]
fn known_days_with_a_count() {
    let days = [
        ("1", "", 1, 2),
        ("0", "a", 0, 2),
        ("a", "", 0, 1),
        ("!a", "a", 2, 7),
        ("!0", "ab", 6, 12),
        ("a*", "aa", 6, 18),
        ("a&a", "a", 1, 9),
        ("1*", "", 1, 4),
    ];
    tell(&days);
}

#[test]
fn known_days_without_a_count() {
    let days = [
        ("(a&ab)(bc|c)", "abc", 0),
        ("a(bc|c)&ab(bc|c)", "abc", 1),
        ("!ab", "ab", 1),
        ("!(ab)", "ab", 5),
        ("!a*", "aa", 0),
    ];
    for (name, judge) in JUDGES {
        for (rule, word, found) in days {
            let told = judged(judge, rule, word);
            assert_eq!(told.0, found, "{name}: {rule} on {word}");
        }
    }
}

#[test]
fn letters_in_both_cases() {
    for (name, judge) in JUDGES {
        for (rule, word, found) in [("!A", "A", 2), ("aA", "aAaa", 1), ("!a", "aA", 5)] {
            assert_eq!(
                judged(judge, rule, word).0,
                found,
                "{name}: {rule} on {word}"
            );
        }
    }
}

#[test]
fn sets_of_letters() {
    let days = [
        // As the letter alone.
        ("[a]", "a", 1, 3),
        (".", "", 0, 1),
        ("[ab]", "abc", 2, 6),
        ("[AZaz]", "AZazBYbyX", 4, 14),
        ("!.", "aZ", 4, 12),
        // One event at each place.
        ("[ab][bc]", "abc", 2, 16),
        ("a.z", "aaAzz", 1, 30),
        ("[ab]*&.", "abca", 3, 44),
    ];
    tell(&days);
}

#[test]
fn a_set_is_one_node() {
    for (name, judge) in JUDGES {
        for (rule, m) in [("[abc]", 1), (".", 1), (".[a]", 3), ("![Zz]*", 3)] {
            let answer = judge(rule.as_bytes(), b"", &mut empty_table(0));
            assert_eq!(answer.m, m, "{name}: {rule}");
        }
    }
}

#[test]
fn the_dot_has_all_letters() {
    let letters: String = ('A'..='Z').chain('a'..='z').collect();
    let brackets = format!("[{letters}]");
    for (name, judge) in JUDGES {
        assert_eq!(judged(judge, ".", &letters), (52, 105), "{name}");
        assert_eq!(judged(judge, &brackets, &letters), (52, 105), "{name}");
    }
}

#[test]
fn a_set_finds_what_the_union_finds() {
    let word = side_entrance(255);
    let table_of = |judge: Judge, rule: &str| {
        let mut table = empty_table(word.len());
        judge(rule.as_bytes(), &word, &mut table);
        table
    };
    for (name, judge) in JUDGES {
        for (set, union) in [
            ("o[bpt]*t[bpt]*t[bpt]*c", "o(b|p|t)*t(b|p|t)*t(b|p|t)*c"),
            ("!(![bo].)&.*c", "!(!(b|o)(b|o|p|t|c))&(b|o|p|t|c)*c"),
        ] {
            let same = table_of(judge, set) == table_of(judge, union);
            assert!(same, "{name}: {set}");
        }
    }
}

#[test]
fn edges_of_a_row() {
    let all = flip_between(&NO_BITS, 0, 255);
    assert_eq!(all, [u64::MAX; 4]);
    assert_eq!(flip_between(&all, 0, 255), NO_BITS);
    assert_eq!(flip_between(&NO_BITS, 64, 64), [0, 1, 0, 0]);
    assert_eq!(flip_between(&NO_BITS, 63, 64), [1 << 63, 1, 0, 0]);
    assert_eq!(next_bit(&all, 255), Some(255));
    assert_eq!(next_bit(&[1, 0, 0, 1 << 63], 1), Some(255));
    assert_eq!(next_bit(&[1, 0, 0, 0], 1), None);
}

#[test]
fn the_whole_case() {
    for (name, judge) in JUDGES {
        let listing = job::run(judge, b"R\t!a\nE\t0\ta\n");
        let whole = b"H\t1\t2\t1\t2\t7\nS\t0\t0\nS\t1\t1\n";
        assert_eq!(listing, whole, "{name}");
    }
}

#[test]
fn rules_are_within_the_limits() {
    for (name, judge) in JUDGES {
        for rule in rules() {
            let answer = judge(rule.text.as_bytes(), b"", &mut empty_table(0));
            let within = rule.text.len() <= 255 && answer.m <= 64 && answer.k <= 7;
            assert!(within, "{name}: {}", rule.name);
        }
    }
}
