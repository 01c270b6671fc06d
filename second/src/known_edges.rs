//! The judge calls that document 01 names, and the nearest beyond its bounds: a list to be read. Then
//! a few numbers to print.
//!
//! Document 01's numbers stand here as it writes them. Answers stay short: a refusal but 10 prints
//! the whole table as it is lent, so what is refused has the empty word where it can.

use crate::calls::{case, Call};
use crate::judge_edges::{repeated, KNOWN_DAYS};
use crate::rule_edges::{example_1, run};
use crate::stream::Case;
use crate::table;

/// Calls whose limits are named: the count, one below it, and the ends of what a limit can be.
const LIMITS: [(&str, &str, u64); 6] = [
    ("!a", "a", 7),
    ("!a", "a", 6),
    ("1*", "", 4),
    ("1*", "", 3),
    ("!a", "a", 0),
    ("!a", "a", u64::MAX),
];

/// The words of Example 1: the first obeys as a whole, the second does not.
const EXAMPLE_1_WORDS: [&str; 2] = ["aaaaaaaba", "ababaaaa"];

/// Seven special nodes. In the nested ones they all differ on their word, so their order shows.
const SEVEN: [(&str, &str); 4] = [
    ("!!!!!!!a", "ab"),
    // To the left: the innermost is first by offset, and the records have them in that order.
    (
        "(a|b)*&(a|b)*&(a*b*|b*a*)&a*b*&(ab|a|b|1)&(1|a|b)&(a|b)&a",
        "abba",
    ),
    // To the right: the innermost is last by offset, and the records have them the other way.
    (
        "a&((a|b)&((1|a|b)&((ab|a|b|1)&(a*b*&((a*b*|b*a*)&((a|b)*&(a|b)*))))))",
        "abba",
    ),
    // Both ways, and the whole rule differs from all of them.
    ("((!a&b*)a*&!(ab))b|!(b&!(ba))b", "aba"),
];

/// Document 01's traps, but for C8 and C9, which are known days, and `1*`, which has its limits; then
/// those of the letters.
const TRAPS: [(&str, &str); 7] = [
    // Bits below the diagonal.
    ("!a", "aba"),
    // Marks that are left over from another start.
    ("a*", "aaa"),
    // A star that is chased around the empty word.
    ("(1|a)*", ""),
    ("(1|a)*", "a"),
    // A capital is an event, a complement has words of all letters, and no letter is another one.
    ("A", "A"),
    ("!a", "aA"),
    ("Z", "zZ"),
];

/// Sets in brackets and the dot; the first is document 02's own.
const SETS: [(&str, &str); 4] = [
    ("[abc]", "adc"),
    ("[Za]", "aZz"),
    (".", "aZ"),
    ("!.*[bc]", "abac"),
];

/// Stars in each other, which may not follow each other directly.
const STARS: [(&str, &str); 2] = [("(a*)*", "aa"), ("!(a*)*b*", "ab")];

/// Numbers to print: the first ones, some where a digit is added, and the last ones of 64 bits.
const NUMBERS: [(u64, usize); 5] = [
    (0, 12),
    (98, 4),
    (998, 4),
    (9_999_999_999_999_999_999, 3),
    (18_446_744_073_709_551_613, 3),
];

/// All the cases, one group after another; the known days come first, in their order.
pub fn cases() -> Vec<Case> {
    let mut cases = Vec::new();
    cases.extend(passing(&KNOWN_DAYS));
    cases.extend(about_limits());
    cases.extend(EXAMPLE_1_WORDS.map(|word| Call::new(&example_1(), word.as_bytes()).passing()));
    cases.extend(about_special_nodes());
    cases.extend(about_nodes());
    cases.extend(about_lengths());
    cases.extend(about_tables());
    cases.extend(about_bytes());
    cases.extend(about_bad_rules());
    cases.extend(passing(&TRAPS));
    cases.extend(passing(&SETS));
    cases.extend(about_bad_sets());
    cases.extend(passing(&STARS));
    cases.extend(about_bad_stars());
    cases.extend(NUMBERS.map(|(first, count)| Case::Numbers { first, count }));
    cases
}

/// Each rule on its word, with just the table it takes and the program's limit.
fn passing(calls: &[(&str, &str)]) -> Vec<Case> {
    let case = |&(rule, word): &(&str, &str)| {
        let call = Call::new(rule.as_bytes(), word.as_bytes());
        call.passing()
    };
    calls.iter().map(case).collect()
}

/// The limits that document 01 names.
fn about_limits() -> [Case; 6] {
    LIMITS.map(|(rule, word, limit)| {
        let call = Call::new(rule.as_bytes(), word.as_bytes());
        call.with(call.need, limit)
    })
}

/// A complement so many times over, and a letter.
fn complements(times: usize) -> Vec<u8> {
    [run("!", times), run("a", 1)].concat()
}

/// Seven special nodes, and eight with nothing else to be refused for.
fn about_special_nodes() -> Vec<Case> {
    let mut cases = passing(&SEVEN);
    cases.push(case(table::need(8, 0), u64::MAX, &complements(8), b""));
    cases
}

/// A rule of 64 nodes, and one of 65 with nothing else to be refused for.
fn about_nodes() -> [Case; 2] {
    let rule = [run("a", 32), run("*", 1)].concat();
    [
        Call::new(&rule, &run("a", 33)).passing(),
        case(table::need(0, 0), u64::MAX, &run("a", 33), b""),
    ]
}

/// Words of 255 events, all of whose spans obey or few of them, and one of 256.
///
/// The last one's table is short as well, which is refused by a higher number.
fn about_lengths() -> [Case; 3] {
    [
        Call::new(b"a*", &run("a", 255)).passing(),
        Call::new(b"ab", &repeated("ab", 255)).passing(),
        case(table::need(0, 0), u64::MAX, b"ab", &repeated("ab", 256)),
    ]
}

/// Tables of just the need, one short of it, three longer, and empty.
fn about_tables() -> [Case; 4] {
    let call = Call::new(b"!a", b"b");
    let lengths = [call.need, call.need - 1, call.need + 3, 0];
    lengths.map(|length| call.with(length, call.bound))
}

/// Bytes that are no events; of two the first is named.
fn about_bytes() -> [Case; 3] {
    let words = [b"_ba", b"ab_", b"a{_"];
    words.map(|word| case(table::need(0, word.len()), u64::MAX, b"a", word))
}

/// Letters in brackets that do not rise, and brackets that make no sentence.
fn about_bad_sets() -> [Case; 4] {
    ["[ba]", "[aa]", "[]", "[ba]|"].map(refused)
}

/// Stars that directly follow stars, and what is refused before that.
fn about_bad_stars() -> [Case; 4] {
    ["a**", "(a*)**", "a**|", "[ba]**"].map(refused)
}

/// A rule that is refused, on the empty word.
fn refused(rule: &str) -> Case {
    case(0, 0, rule.as_bytes(), b"")
}

/// A rule text for each of 1 to 6, with a word and a table that would be refused too.
fn about_bad_rules() -> [Case; 6] {
    let rules = [
        run("a", 0),
        run("a", 256),
        run("a_", 1),
        run("(a", 1),
        run("a", 33),
        complements(8),
    ];
    rules.map(|rule| case(0, 0, &rule, b"a_"))
}
