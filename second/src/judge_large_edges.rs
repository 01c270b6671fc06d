//! The judge calls on document 01's edges with long words, many nodes and many special nodes.

use crate::calls::Call;
use crate::judge_edges::{pairs, repeated, LENGTHS, LONG};
use crate::rule_edges::{example_1, run};
use crate::star_edges::nested_stars;
use crate::stream::Case;

/// 64 nodes, 7 of them special, nested in each other to the left and to the right.
const LARGEST: &str =
    "!((a|b)*a&!(b(a|b)*&(aa|b)*))(a|1)b*|((ab)*&((a|bb)*&(b*a|!ab)))(a|b)(ba|a)*a";

/// Rules with many special nodes; most spans disobey most parts, so their blocks are short.
const SPARSE: [&str; 3] = [
    "a&a&a&a&a&a&a&a",
    "(a|b)&((a|ba)&((b|ab)&(!!a|b)))",
    "((a&a)(b&b)&(ab&a*b))*",
];

/// All the calls, one group after another.
pub fn cases() -> Vec<Case> {
    let mut cases = Vec::new();
    cases.extend(about_nodes());
    cases.extend(one_below_everywhere());
    cases.extend(sparse());
    cases.extend(dense());
    cases.extend(about_the_highest_need());
    cases.extend(about_the_highest_count());
    cases
}

/// Rules of 63 and 64 nodes.
fn about_nodes() -> Vec<Case> {
    let rules = [
        run("a", 32),
        [run("a", 32), run("*", 1)].concat(),
        [run("a|", 31), run("b*", 1)].concat(),
        nested_stars("a", 63),
        [run("(a|", 31), run("b", 1), run(")", 31), run("*", 1)].concat(),
        [run("!", 7), run("a", 29)].concat(),
        [run("a&", 7), run("a", 23), run("(a*)*", 1)].concat(),
        [run("(", 79), run("(a)", 32), run(")", 79), run("*", 1)].concat(),
    ];
    let words = [
        run("a", 0),
        run("a", 1),
        run("a", 33),
        run("ab", 9),
        run("aab", 11),
    ];
    pairs(&rules, &words)
}

/// The lengths that are long.
fn lengths() -> impl Iterator<Item = usize> {
    LENGTHS.into_iter().filter(|&n| n >= LONG)
}

/// So many letters that never repeat a pattern: letter i tells whether i has an odd number of ones.
fn restless_word(n: usize) -> Vec<u8> {
    (0..n).map(|i| b"ab"[i.count_ones() as usize % 2]).collect()
}

/// Rules of 64 nodes with 7 special ones.
fn largest_rules() -> [Vec<u8>; 4] {
    [
        LARGEST.into(),
        [run("!", 7), run("a", 29)].concat(),
        [run("!(", 7), run("a*", 19), run(")", 7), run("*", 1)].concat(),
        [run("(a|b)&(", 7), run("a", 18), run("*", 1), run(")", 7)].concat(),
    ]
}

/// The words of a length: one letter only, two in turn, and two without a pattern.
fn words(n: usize) -> [Vec<u8>; 3] {
    [run("a", n), repeated("ab", n), restless_word(n)]
}

/// Limits one below the count, whose answers are short however long the word is.
fn one_below_everywhere() -> Vec<Case> {
    let mut rules = largest_rules().to_vec();
    rules.extend(SPARSE.map(Vec::from));
    rules.push(example_1());
    let mut cases = Vec::new();
    for n in lengths() {
        for (rule, word) in rules.iter().zip(words(n).iter().cycle()) {
            cases.push(Call::new(rule, word).one_below());
        }
    }
    cases
}

/// Rules whose blocks are short, where a row's last number has one bit, or all of them, or most.
fn sparse() -> Vec<Case> {
    let mut cases = Vec::new();
    for n in [127, 128, 191, 254] {
        for rule in SPARSE {
            cases.push(Call::new(rule.as_bytes(), &restless_word(n)).exact());
        }
    }
    cases
}

/// The largest rules on words of a few lengths, the greatest among them; one table is longer.
fn dense() -> Vec<Case> {
    let [mixed, complements, nested, intersections] = largest_rules();
    let with_more = Call::new(&intersections, &run("a", 255));
    vec![
        Call::new(&mixed, &restless_word(255)).exact(),
        Call::new(&mixed, &restless_word(128)).exact(),
        Call::new(&complements, &run("a", 129)).exact(),
        Call::new(&complements, &run("a", 255)).exact(),
        Call::new(&nested, &restless_word(127)).exact(),
        Call::new(&nested, &run("a", 193)).exact(),
        with_more.with(with_more.need + 3, u64::MAX),
    ]
}

/// Tables about the highest need: with it, one short of it whatever the limit is, and longer.
fn about_the_highest_need() -> Vec<Case> {
    let call = Call::new(SPARSE[0].as_bytes(), &run("a", 255));
    vec![
        call.exact(),
        call.with(call.need - 1, 0),
        call.with(call.need + 1, 0),
    ]
}

/// As many places as a rule and a word can be made to reach, and limits about that.
fn about_the_highest_count() -> Vec<Case> {
    let call = Call::new(&nested_stars("a", 63), &run("a", 255));
    let limits = [0, 1 << 16, call.bound];
    let mut cases: Vec<Case> = limits.map(|limit| call.with(call.need, limit)).into();
    cases.extend([call.exact(), call.one_below()]);
    cases
}
