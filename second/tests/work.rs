//! The work count: against a count made of languages alone, its owners, and its bound.

mod common;
#[path = "common/count.rs"]
mod count;

use count::count_by_languages;
use second::generate::{alphabet, sentence, word, Bounds};
use second::job::limit;
use second::judge::judge;
use second::language::spans_of_nodes;
use second::random::Random;
use second::rule::{read, Kind, Rule};
use second::work::{Automaton, End, Owner};

const WIDEST: Bounds = Bounds {
    bytes: 255,
    nodes: 64,
    special: 7,
};

/// The full work count of a rule and a word, by the search.
fn count_by_search(rule: &Rule, word: &[u8]) -> u64 {
    Automaton::new(rule, word, &spans_of_nodes(rule, word)).work_count()
}

/// The innermost special node that strictly contains a node, or the whole rule.
fn owner_of(rule: &Rule, node: usize) -> Owner {
    let sides = |kind: Kind| match kind {
        Kind::NoWord | Kind::EmptyWord | Kind::OneOf(_) => vec![],
        Kind::Union(a, b) | Kind::Intersection(a, b) | Kind::Concatenation(a, b) => vec![a, b],
        Kind::Complement(a) | Kind::Star(a) => vec![a],
    };
    match (0..rule.m()).find(|&above| sides(rule.nodes[above].kind).contains(&node)) {
        None => Owner::Whole,
        Some(above) if rule.nodes[above].kind.is_special() => Owner::Special(above),
        Some(above) => owner_of(rule, above),
    }
}

#[test]
fn the_count_is_what_the_languages_give() {
    let mut random = Random::new(5);
    for _ in 0..3_000 {
        let letters = alphabet(&mut random);
        let rule = read(&sentence(&mut random, letters, &WIDEST)).unwrap();
        let word = word(&mut random, letters, 9);
        assert_eq!(
            count_by_search(&rule, &word),
            count_by_languages(&rule, &word),
            "{rule:?} {word:?}"
        );
    }
}

#[test]
fn counts_worked_out_by_hand() {
    let cases = [
        // Entry at 0, exit at 1, entry at 1.
        ("a", "a", 3),
        // Start 0: three entries, the exits of b and of the union at 1. Start 1: three entries.
        ("a|b", "b", 8),
        // Start 0: two entries at 0, left exit and right entry at 1. Start 1: two entries.
        ("ab", "a", 6),
        // Whole: the outer entry. Outer !: the inner entry and exit. Inner !: the entry of 0.
        ("!!0", "", 4),
        // Whole: entry and exit. The & owner: both entries and both exits.
        ("1&1", "", 6),
        // Whole: entry only. The & owner: both entries and the exit of 1.
        ("1&0", "", 4),
    ];
    for (text, word, expected) in cases {
        let rule = read(text.as_bytes()).unwrap();
        assert_eq!(
            count_by_search(&rule, word.as_bytes()),
            expected,
            "{text} on {word}"
        );
    }
}

#[test]
fn every_position_belongs_to_its_owner() {
    let mut random = Random::new(6);
    for _ in 0..500 {
        let letters = alphabet(&mut random);
        let rule = read(&sentence(&mut random, letters, &WIDEST)).unwrap();
        let word = word(&mut random, letters, 8);
        let spans = spans_of_nodes(&rule, &word);
        let automaton = Automaton::new(&rule, &word, &spans);
        assert_eq!(automaton.owners().len(), rule.k() + 1);
        for owner in automaton.owners() {
            for start in 0..=word.len() {
                for position in automaton.reached(owner, start) {
                    assert_eq!(owner_of(&rule, position.state.node), owner);
                    assert!(start <= position.number && position.number <= word.len());
                    let own_exit = Owner::Special(position.state.node) == owner;
                    assert!(!(own_exit && position.state.end == End::Exit));
                }
            }
        }
    }
}

#[test]
fn the_count_never_passes_the_programs_limit() {
    let mut random = Random::new(7);
    let mut closest = 0.0f64;
    for _ in 0..6_000 {
        let letters = alphabet(&mut random);
        let text = sentence(&mut random, letters, &WIDEST);
        let word = word(&mut random, letters, 20);
        let rule = read(&text).unwrap();
        let (m, n) = (rule.m() as u64, word.len() as u64);
        let bound = m * (n + 1) * (n + 2);
        assert!(count_by_search(&rule, &word) <= bound);
        assert_eq!(limit(rule.m(), word.len()), bound);
        let mut table = vec![0; 8 * (word.len() + 1) * 4];
        let answer = judge(&text, &word, limit(rule.m(), word.len()), &mut table);
        assert_eq!(answer.number, 0);
        closest = closest.max(answer.count as f64 / bound as f64);
    }
    // The bound is met, by the rule 1 on the empty word among others, so the check above is sharp.
    assert_eq!(closest, 1.0);
}

#[test]
fn the_largest_rules_and_words_keep_the_bound() {
    let mut random = Random::new(8);
    for _ in 0..12 {
        let mut text = Vec::new();
        while read(&text).map_or(true, |rule| rule.m() < 60) {
            text = sentence(&mut random, b"ab", &WIDEST);
        }
        let rule = read(&text).unwrap();
        let word: Vec<u8> = (0..255).map(|_| random.pick(b"ab")).collect();
        assert!(count_by_search(&rule, &word) <= limit(rule.m(), 255));
    }
}

#[test]
fn the_limit_at_its_highest() {
    assert_eq!(limit(64, 255), 4_210_688);
    assert_eq!(limit(63, 255), 63 * 256 * 257);
    assert_eq!(limit(1, 0), 2);
}
