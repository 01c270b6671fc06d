//! The command `draw` for the judge: its size, that a seed fixes it, and that it meets every limit.

use std::collections::BTreeSet;
use std::sync::OnceLock;

use second::rule::{read, Kind, Rule};

use crate::judge::{calls, check_answer, Answer, Call};
use crate::{answer_lines, cases, stream};

/// The seeds that the tests below draw from, so many that the rarest number, 1, comes a few times.
const SEEDS: [usize; 8] = [1, 2, 3, 4, 5, 6, 7, 8];

/// The command for a stream as long as the limit lets it be.
fn longest(seed: usize) -> String {
    format!("draw {seed} 1000000 judge")
}

/// All calls of the seeds with their answers, asked for once for all tests.
fn many() -> &'static [(Call, Answer)] {
    static MANY: OnceLock<Vec<(Call, Answer)>> = OnceLock::new();
    let all = || SEEDS.iter().flat_map(|&seed| calls(&longest(seed)));
    MANY.get_or_init(|| all().collect())
}

/// How many in a hundred meet a condition.
fn share(all: &[(Call, Answer)], meets: impl Fn(&Call, &Answer) -> bool) -> usize {
    let met = all.iter().filter(|(call, answer)| meets(call, answer));
    100 * met.count() / all.len()
}

#[test]
fn there_are_as_many_calls_as_asked_for() {
    assert!(stream("draw 3 0 judge").is_empty());
    for count in [1, 2, 17, 200] {
        let cases = cases(&stream(&format!("draw 3 {count} judge")));
        assert_eq!(cases.len(), count);
        assert!(cases.iter().all(|case| case.header[0] == "judge"));
    }
}

#[test]
fn the_stream_is_full_and_its_answers_stay_below_4_million_bytes() {
    for seed in SEEDS {
        let stream = stream(&longest(seed));
        assert!(stream.len() <= 65_536);
        // No call of these seeds takes more than 900 bytes.
        assert!(stream.len() > 65_536 - 900, "{} bytes", stream.len());
        let lines = answer_lines(&stream);
        assert!(lines.len() > 500, "{} calls", lines.len());
        let bytes: usize = lines.iter().map(|line| line.len() + 1).sum();
        assert!(bytes < 4_000_000, "{bytes} bytes of answers");
    }
}

#[test]
fn a_seed_fixes_the_stream() {
    assert_eq!(stream(&longest(1)), stream(&longest(1)));
    assert_ne!(stream(&longest(1)), stream(&longest(2)));
    let (short, long) = (stream("draw 9 40 judge"), stream("draw 9 80 judge"));
    assert!(long.starts_with(&short) && long.len() > short.len());
}

#[test]
fn every_answer_is_what_the_definitions_ask() {
    for (call, answer) in many() {
        check_answer(call, answer);
    }
}

#[test]
fn every_number_of_the_judge_occurs_and_most_calls_come_to_the_count() {
    let all = many();
    for number in (0..=10).chain([20]) {
        let times = all.iter().filter(|(_, answer)| answer.number == number);
        let times = times.count();
        assert!(times >= 2, "{number}: {times} times");
    }
    let accepted = share(all, |_, answer| answer.number == 0);
    assert!((45..=70).contains(&accepted), "{accepted} in a hundred");
    let stopped = share(all, |_, answer| answer.number == 10);
    assert!((15..=35).contains(&stopped), "{stopped} in a hundred");
}

#[test]
fn the_spans_found_are_not_often_none_or_all() {
    let all = many();
    let some = share(all, |call, answer| {
        let (n, found) = (call.n() as u64, answer.found);
        answer.number == 0 && found > 0 && found != n + 1 && found < (n + 1) * (n + 2) / 2
    });
    assert!(some >= 20, "{some} in a hundred");
}

#[test]
fn rules_words_and_tables_come_to_their_limits() {
    let all = many();
    let of_accepted = |value: &dyn Fn(&Call) -> usize| -> BTreeSet<usize> {
        let accepted = all.iter().filter(|(_, answer)| answer.number == 0);
        accepted.map(|(call, _)| value(call)).collect()
    };
    assert_eq!(of_accepted(&Call::k), (0..=7).collect());
    assert!(of_accepted(&Call::m).is_superset(&BTreeSet::from([1, 2, 62, 63, 64])));
    assert!(of_accepted(&Call::n).is_superset(&BTreeSet::from([0, 1, 39, 40, 253, 254, 255])));
    let beyond = of_accepted(&|call| call.table - call.need());
    assert_eq!(beyond, (0..=6).collect());
    let largest = |(call, answer): &(Call, Answer)| {
        answer.number == 0 && call.k() == 7 && call.n() > 200 && call.m() > 60
    };
    assert!(all.iter().any(largest));
    let long_words = share(all, |call, _| call.n() > 40);
    assert!((3..=15).contains(&long_words), "{long_words} in a hundred");
    let lengths: BTreeSet<usize> = all.iter().map(|(call, _)| call.n()).collect();
    assert!(lengths.contains(&256) && lengths.contains(&257));
}

#[test]
fn limits_are_about_the_count_and_at_both_ends() {
    let all = many();
    let times = |meets: &dyn Fn(&Call, &Answer) -> bool| {
        all.iter()
            .filter(|(call, answer)| meets(call, answer))
            .count()
    };
    let accepted = times(&|_, answer| answer.number == 0);
    let at = times(&|call, answer| answer.number == 0 && call.limit == answer.count);
    let above = times(&|call, answer| answer.number == 0 && call.limit == answer.count + 1);
    assert!(
        3 * at > accepted && 6 * above > accepted,
        "{at} {above} of {accepted}"
    );
    // Where the limit plus one would be enough, it is one below the count.
    let passes_with = |call: &Call, limit: u64| {
        let mut table = call.lent();
        second::judge::judge(&call.rule, &call.word, limit, &mut table).number == 0
    };
    let below = times(&|call, answer| answer.number == 10 && passes_with(call, call.limit + 1));
    assert!(below > 100, "{below}");
    for limit in [0, u64::MAX] {
        assert!(times(&|call, _| call.limit == limit) > 100, "limit {limit}");
    }
    assert!(times(&|call, _| call.limit > u64::from(u32::MAX) && call.limit < u64::MAX) > 20);
}

#[test]
fn faults_come_with_other_faults() {
    let all = many();
    let some = |number: usize, meets: &dyn Fn(&Call) -> bool| {
        let mut all = all.iter();
        all.any(|(call, answer)| answer.number == number && meets(call))
    };
    let has_bad_byte = |call: &Call| !call.word.iter().all(u8::is_ascii_alphabetic);
    assert!(some(4, &has_bad_byte) && some(7, &has_bad_byte));
    assert!(some(4, &|call| call.limit == 0 && call.table < 4));
    assert!(some(7, &|call| call.table >= call.need()));
    assert!(some(8, &|call| call.table == call.need() - 1));
    assert!(some(8, &|call| call.table >= call.need() && call.limit > 0));
    assert!(some(9, &|call| call.limit == 0));
    assert!(some(9, &|call| call.limit == u64::MAX));
    let bad_bytes = all.iter().filter(|(_, answer)| answer.number == 8);
    let bytes: BTreeSet<u8> = bad_bytes
        .map(|(call, answer)| call.word[answer.place])
        .collect();
    for byte in (91..=96).chain([64, 123, 0, 255]) {
        assert!(bytes.contains(&byte), "byte {byte}");
    }
}

#[test]
fn letters_of_both_cases_come_together_and_alone() {
    let all = many();
    let accepted = |meets: &dyn Fn(&Call) -> bool| {
        share(all, |call, answer| answer.number == 0 && meets(call))
    };
    let capital = |text: &[u8]| text.iter().any(u8::is_ascii_uppercase);
    let small = |text: &[u8]| text.iter().any(u8::is_ascii_lowercase);
    let in_rule = accepted(&|call| capital(&call.rule));
    let in_word = accepted(&|call| capital(&call.word));
    assert!(in_rule >= 15 && in_word >= 15, "{in_rule} {in_word}");
    let in_neither = accepted(&|call| !capital(&call.rule) && !capital(&call.word));
    assert!(in_neither >= 15, "{in_neither} in a hundred");
    // A letter of the rule stands in the word in the other case.
    let is_met = |letter: u8, call: &Call| call.word.iter().any(|&event| event ^ letter == 32);
    let met = |call: &Call| {
        let mut letters = call.rule.iter().filter(|byte| byte.is_ascii_alphabetic());
        letters.any(|&letter| is_met(letter, call))
    };
    let both = accepted(&met);
    assert!(both >= 15, "{both} in a hundred");
    // A complement is asked about a word with letters that the rule lacks in that case.
    let complement = |call: &Call| call.rule.contains(&b'!');
    let half = accepted(&|call| complement(call) && !capital(&call.rule) && capital(&call.word));
    let other_half = accepted(&|call| complement(call) && !small(&call.rule) && small(&call.word));
    assert!(half >= 1 && other_half >= 1, "{half} {other_half}");
}

#[test]
fn sets_come_in_many_rules_and_are_met_by_their_words() {
    let all = many();
    let accepted = |meets: &dyn Fn(&Call) -> bool| {
        share(all, |call, answer| answer.number == 0 && meets(call))
    };
    let brackets = accepted(&|call| call.rule.contains(&b'['));
    let dots = accepted(&|call| call.rule.contains(&b'.'));
    assert!(brackets >= 10 && dots >= 8, "{brackets} {dots}");
    let found = share(all, |call, answer| {
        answer.found > 0 && call.rule.iter().any(|byte| b"[.".contains(byte))
    });
    assert!(found >= 10, "{found} in a hundred");
}

/// The sides of a node.
fn sides(kind: Kind) -> Vec<usize> {
    match kind {
        Kind::NoWord | Kind::EmptyWord | Kind::OneOf(_) => vec![],
        Kind::Union(a, b) | Kind::Intersection(a, b) | Kind::Concatenation(a, b) => vec![a, b],
        Kind::Complement(a) | Kind::Star(a) => vec![a],
    }
}

/// How deeply special nodes lie in each other in the part that a node heads.
fn depth(rule: &Rule, node: usize) -> usize {
    let kind = rule.nodes[node].kind;
    let inner = sides(kind).into_iter().map(|side| depth(rule, side)).max();
    inner.unwrap_or(0) + usize::from(kind.is_special())
}

/// Whether the empty word obeys the part that a node heads.
fn has_empty_word(rule: &Rule, node: usize) -> bool {
    let obeys = |side: usize| has_empty_word(rule, side);
    match rule.nodes[node].kind {
        Kind::NoWord | Kind::OneOf(_) => false,
        Kind::EmptyWord | Kind::Star(_) => true,
        Kind::Union(a, b) => obeys(a) || obeys(b),
        Kind::Intersection(a, b) | Kind::Concatenation(a, b) => obeys(a) && obeys(b),
        Kind::Complement(a) => !obeys(a),
    }
}

#[test]
fn special_nodes_are_nested_and_stars_go_around_the_empty_word() {
    let all = many();
    let share_of_rules = |meets: &dyn Fn(&Rule) -> bool| {
        share(all, |call, _| {
            read(&call.rule).is_ok_and(|rule| meets(&rule))
        })
    };
    let nested = share_of_rules(&|rule| depth(rule, rule.head()) >= 2);
    assert!(nested >= 20, "{nested} in a hundred");
    let deep = share_of_rules(&|rule| depth(rule, rule.head()) >= 4);
    assert!(deep >= 3, "{deep} in a hundred");
    let around_empty = share_of_rules(&|rule| {
        let is_one = |node: &usize| match rule.nodes[*node].kind {
            Kind::Star(inner) => has_empty_word(rule, inner),
            _ => false,
        };
        (0..rule.m()).any(|node| is_one(&node))
    });
    assert!(around_empty >= 20, "{around_empty} in a hundred");
}
