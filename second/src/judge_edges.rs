//! The judge calls that walk document 01's edges, but for long words under many special nodes.

use std::collections::BTreeSet;

use crate::calls::{case, Call};
use crate::letter_edges::{self, ENDS};
use crate::limits::LETTERS;
use crate::rule_edges::{example_1, run, texts_of};
use crate::set_edges;
use crate::star_edges::nested_stars;
use crate::stream::Case;
use crate::{rule, table};

/// C1 to C12.
pub const KNOWN_DAYS: [(&str, &str); 12] = [
    ("1", ""),
    ("0", "a"),
    ("a", ""),
    ("!a", "a"),
    ("!0", "ab"),
    ("a*", "aa"),
    ("a&a", "a"),
    ("(a&ab)(bc|c)", "abc"),
    ("a(bc|c)&ab(bc|c)", "abc"),
    ("!ab", "ab"),
    ("!(ab)", "ab"),
    ("!a*", "aa"),
];

/// The words of Example 1, and words that have them as parts, one after another or among others.
const EXAMPLE_1_WORDS: [&str; 9] = [
    "aaaaaaaba",
    "ababaaaa",
    "aaaaaaab",
    "baaaaaaabab",
    "bababaaaaa",
    "aaaaaaabaababaaaa",
    "ababaaaaaaaaaaaba",
    "caaaaaaabac",
    "aaaaaaaaaaaaaaaaaaabaaaaaaaaaaab",
];

/// Limits for `!a` on a, whose count is 7 and whose bound is 12: some would be below if cut short.
const LIMITS: [u64; 21] = [
    0,
    1,
    2,
    5,
    6,
    7,
    8,
    11,
    12,
    13,
    255,
    256,
    65_536,
    65_542,
    u32::MAX as u64,
    1 << 32,
    (1 << 32) + 6,
    i64::MAX as u64,
    1 << 63,
    u64::MAX - 1,
    u64::MAX,
];

/// Stars whose inner part has the empty word, or has no word at all, and what is near to them.
const EMPTY_STARS: [&str; 22] = [
    "1*",
    "(1|a)*",
    "((a*)*)*",
    "(1*)*",
    "!(1*)",
    "(!a)*",
    "(a&a)*",
    "0*",
    "(0|1)*",
    "((1*)*)*",
    "(a*b*)*",
    "(a*|b*)*",
    "(1a*1)*",
    "(!1)*",
    "(!0)*",
    "(!!1)*",
    "(a*&b*)*",
    "(1&1)*",
    "((!a)*&(!b)*)*",
    "!(a*)*",
    "((1|a)*b)*",
    "(!(a*)|1)*",
];

/// Words for the stars.
const STAR_WORDS: [&str; 5] = ["", "a", "ab", "aab", "abab"];

/// Seven special nodes, side by side and in each other, to the left and to the right.
const SEVEN: [&str; 17] = [
    "!!!!!!!a",
    "!a!a!b!a!b!b!a",
    "!(a|!(b|!(ab|!(1|!(ba|!(aa|!b))))))",
    "(a|b)*&(a|b)*&(a|b)*&a*b*&(ab|a|b|1)&(1|a|b)&(a|b)&a",
    "a&((a|b)&((1|a|b)&((ab|a|b|1)&(a*b*&((a|b)*&((a|b)*&(a|b)*))))))",
    "a&a&a&a&a&a&a&a",
    "a&(a&(a&(a&(a&(a&(a&a))))))",
    "!(a&!(b&!(a|!(b&a))))",
    "!(!(!(!(a&b)|a)&b)&a)",
    "!a&!b&!(a&b)&1",
    "1&(!(b&a)&(!b&!a))",
    "((a&!b)*&!a)b&!!b|a",
    "a|!!b&b(!a&(!b&a)*)",
    "a*&(b*&(!a&(!b&!(ab))))",
    "!(ab)&!b&!a&b*&a*",
    "!(!(!(a&b)&a)&b)!b",
    "(!a)*(!b)*(a&b)*(!1&!0)!a",
];

/// Words for the seven.
const SEVEN_WORDS: [&str; 5] = ["", "a", "ab", "abba", "babaab"];

/// Tails behind special nodes, and special nodes within special ones that go on behind them.
const TAILS: [(&str, &str); 16] = [
    ("(a&ab)(bc|c)", "aabcabc"),
    ("a(bc|c)&ab(bc|c)", "aabcabc"),
    ("(a|ab)(bc|c)", "aabcabc"),
    ("(a*&aa)a*", "aaaaa"),
    ("(a*&aa)(a&a)", "aaaaa"),
    ("(!a)b", "aabb"),
    ("!ab", "aabb"),
    ("!(ab)", "aabb"),
    ("!(!ab)", "aabb"),
    ("!((a&a)b)", "aabb"),
    ("!((!a)(!b))", "aabb"),
    ("(!(a&ab)c&abc)c", "abcc"),
    ("((a&a*)b&ab*)b*", "abbab"),
    ("a!ba", "abaaba"),
    ("!a!b!a", "abaaba"),
    ("!(a!(b!a))", "abaaba"),
];

/// Complements and stars on words with several starts: bits below the diagonal, marks left over.
const STARTS: [(&str, &str); 14] = [
    ("!0", "aaaa"),
    ("!1", "aaaa"),
    ("!a", "aaaa"),
    ("!(a*)", "abaa"),
    ("!a*", "abaa"),
    ("!!a", "aaaa"),
    ("!(ab)|a", "abab"),
    ("a*", "aaaaa"),
    ("(aa)*", "aaaaa"),
    ("(ab)*", "ababab"),
    ("(a|b)*b", "abbabb"),
    ("a*a*a*", "aaaa"),
    ("!a*", "aaaa"),
    ("z|!(a|z)", "azbyz"),
];

/// Letters of both cases: no letter is another one, and a complement has words of all of them.
const BOTH_CASES: [(&str, &str); 20] = [
    ("a", "A"),
    ("A", "a"),
    ("A", "A"),
    ("Z", "zZ"),
    ("z", "Zz"),
    ("A*", "AaA"),
    ("aA", "aAaa"),
    ("(a|A)*", "aAbA"),
    ("a&A", "aA"),
    ("!a", "A"),
    ("!a", "aA"),
    ("!A", "a"),
    ("!A", "Aa"),
    ("!a*", "aAa"),
    ("!(A*)", "AaA"),
    ("!!A", "aA"),
    ("!a&!A", "aAb"),
    ("!a!A", "AaZ"),
    ("!(a|z)*", "zAZa"),
    ("!(A|Z)*", "ZazA"),
];

/// Lengths of words about the edges of a row's numbers, the highest ones included.
pub const LENGTHS: [usize; 15] = [
    0, 1, 62, 63, 64, 65, 126, 127, 128, 129, 191, 192, 193, 254, 255,
];

/// From so many events on a word is long; such words under many special nodes stand elsewhere.
pub const LONG: usize = 126;

/// Rules for the words that are not long.
const LENGTH_RULES: [&str; 4] = ["!!0", "(ba|ab*)*", "!(a!(b!a))", "(a*&!b)(b&!a)&!(b|!a)"];

/// Rules and words whose tables are varied.
const TABLE_CALLS: [(&str, &str); 5] = [
    ("1", ""),
    ("!a", "a"),
    ("!a&!b", ""),
    ("a&!a", "aba"),
    ("!!!!!!!a", "a"),
];

/// Bytes that are no events: those beside the letters, the ends, and a few of a day or a rule.
const NO_EVENTS: [u8; 12] = *b"`{\0\xff[@_1!\n\t\x80";

/// One text for each refusal of a rule text, and more for those that name a place.
pub const BAD_RULES: [&[u8]; 12] = [
    b"",
    &[b'a'; 256],
    b"_",
    b"a_",
    b"ab\n",
    b"a|",
    b")",
    b"(a",
    b"ba**",
    &[b'a'; 33],
    b"!!!!!!!!a",
    b"x[ba]",
];

/// The signs of the short sentences.
const SIGNS: &[u8] = b"ab01|&!*";

/// All the calls, one group after another.
pub fn cases() -> Vec<Case> {
    let mut cases = Vec::new();
    cases.extend(around_counts(&KNOWN_DAYS));
    cases.extend(about_example_1());
    cases.extend(about_limits());
    cases.extend(pairs(&EMPTY_STARS, &STAR_WORDS));
    cases.extend(pairs(&SEVEN, &SEVEN_WORDS));
    cases.extend(around_counts(&TAILS));
    cases.extend(around_counts(&STARTS));
    cases.extend(short_sentences());
    cases.extend(about_letters());
    cases.extend(about_sets());
    cases.extend(about_lengths());
    cases.extend(about_tables());
    cases.extend(about_bytes());
    cases.extend(about_order());
    cases.extend(about_bad_rules());
    cases
}

/// Each rule on its word, with a limit that passes, at the count, and one below.
fn around_counts(calls: &[(&str, &str)]) -> Vec<Case> {
    let cases = |&(rule, word): &(&str, &str)| {
        let call = Call::new(rule.as_bytes(), word.as_bytes());
        call.around_count()
    };
    calls.iter().flat_map(cases).collect()
}

/// Each of the rules on each of the words, with the limit at the count and one below.
pub fn pairs(rules: &[impl AsRef<[u8]>], words: &[impl AsRef<[u8]>]) -> Vec<Case> {
    let mut cases = Vec::new();
    for rule in rules {
        for word in words {
            let call = Call::new(rule.as_ref(), word.as_ref());
            cases.extend([call.exact(), call.one_below()]);
        }
    }
    cases
}

/// Example 1 of document 004.
fn about_example_1() -> Vec<Case> {
    let calls = EXAMPLE_1_WORDS.map(|word| Call::new(&example_1(), word.as_bytes()));
    calls.iter().flat_map(Call::around_count).collect()
}

/// Limits of every size, and calls whose count is the program's limit itself.
fn about_limits() -> Vec<Case> {
    let named = Call::new(b"!a", b"a");
    let mut cases: Vec<Case> = LIMITS.map(|limit| named.with(named.need, limit)).into();
    for (rule, word) in [("1", ""), ("1&1", ""), ("(1|1)*", ""), ("a*", "aa")] {
        let call = Call::new(rule.as_bytes(), word.as_bytes());
        let limits = [0, call.bound - 1, call.bound, call.bound + 1, u64::MAX];
        cases.extend(limits.map(|limit| call.with(call.need + 1, limit)));
    }
    // A count that 16 bits do not hold.
    let call = Call::new(&nested_stars("a", 20), &run("a", 64));
    let limits = [0, 65_535, 65_536, call.count % 65_536, call.bound];
    cases.extend(limits.map(|limit| call.with(call.need, limit)));
    cases.extend([call.exact(), call.one_below()]);
    cases
}

/// Every sentence of one to three signs.
fn short_sentences() -> Vec<Case> {
    let texts = (1..=3).flat_map(|length| texts_of(SIGNS, length));
    let sentences = texts.filter(|text| rule::read(text).is_ok());
    sentences
        .map(|text| Call::new(&text, b"aba").exact())
        .collect()
}

/// Every letter as a rule on itself in both cases, letters of both cases, and the alphabet as a word.
fn about_letters() -> Vec<Case> {
    let in_both_cases = |letter: u8| [letter.to_ascii_lowercase(), letter.to_ascii_uppercase()];
    let on_itself = LETTERS.map(|letter| Call::new(&[letter], &in_both_cases(letter)));
    let both_cases = BOTH_CASES.map(|(rule, word)| Call::new(rule.as_bytes(), word.as_bytes()));
    let halves = LETTERS.chunks(LETTERS.len() / 2);
    let rules = halves.chain([&b"!0"[..], b"!a*", b"!Z*", b"(x|y|z|A|B)*"]);
    let on_alphabet = rules.map(|rule| Call::new(rule, LETTERS));
    let calls = on_itself.into_iter().chain(both_cases).chain(on_alphabet);
    calls.map(|call| call.exact()).collect()
}

/// Rules with sets, and all letters in brackets on a word of them.
fn about_sets() -> Vec<Case> {
    let calls = set_edges::CALLS.map(|(rule, word)| Call::new(rule.as_bytes(), word.as_bytes()));
    let mut cases: Vec<Case> = calls.iter().map(Call::exact).collect();
    cases.push(Call::new(b"[NOPQRSTUVWXYZabcdefghijklm]", LETTERS).exact());
    cases.push(Call::new(b".", LETTERS).one_below());
    cases
}

/// Words whose rows end about the edges of their numbers; the long ones have one special node.
fn about_lengths() -> Vec<Case> {
    let mut cases = Vec::new();
    for n in LENGTHS {
        let (ones, twos) = (run("a", n), repeated("ab", n));
        let calls = [("a", &ones), ("a*", &ones), ("!b", &twos)];
        cases.extend(calls.map(|(rule, word)| Call::new(rule.as_bytes(), word).exact()));
    }
    let short = LENGTHS.into_iter().filter(|&n| n < LONG);
    let words: Vec<Vec<u8>> = short.map(|n| repeated("abb", n)).collect();
    cases.extend(pairs(&LENGTH_RULES, &words));
    cases
}

/// The first so many letters of a text that is repeated.
pub fn repeated(text: &str, n: usize) -> Vec<u8> {
    text.bytes().cycle().take(n).collect()
}

/// Tables of every length about the need, and long ones that are one short or more than enough.
fn about_tables() -> Vec<Case> {
    let mut cases = Vec::new();
    for (rule, word) in TABLE_CALLS {
        let call = Call::new(rule.as_bytes(), word.as_bytes());
        cases.extend(with_short_tables(&call));
        cases.extend(with_enough(&call));
    }
    for n in [63, 64, 65] {
        let call = Call::new(b"!a", &run("a", n));
        cases.push(call.with(call.need - 1, 0));
        cases.push(call.with(call.need + 5, call.count));
    }
    cases
}

/// A call with tables that are too short, such as a need that is worked out wrongly would take.
fn with_short_tables(call: &Call) -> Vec<Case> {
    let (need, row, block) = (call.need, 4, table::need(0, call.n()));
    let one_number_a_row = need / row;
    let one_block_less = need - block;
    let one_row_less_in_each = need - need / block * row;
    let lengths = BTreeSet::from([
        0,
        1,
        one_number_a_row,
        one_block_less,
        one_row_less_in_each,
        need - 1,
    ]);
    let limits = [0, call.count - 1, call.count, u64::MAX];
    let cases = |length: usize| limits.map(|limit| call.with(length, limit));
    lengths.into_iter().flat_map(cases).collect()
}

/// A call with tables that are long enough, and limits that are or are not.
fn with_enough(call: &Call) -> Vec<Case> {
    let lengths = [call.need, call.need + 1, call.need + 4, 2 * call.need];
    let limits = [call.count, call.count - 1, 0];
    let cases = |length: usize| limits.map(|limit| call.with(length, limit));
    lengths.into_iter().flat_map(cases).collect()
}

/// Bytes in the word that are no events.
fn about_bytes() -> Vec<Case> {
    let mut cases: Vec<Case> = (0..=255).map(|byte| case(8, 3, b"a", &[byte])).collect();
    for byte in NO_EVENTS {
        for place in 0..4 {
            let mut word = *b"abab";
            word[place] = byte;
            cases.push(case(20, u64::MAX, b"a*", &word));
        }
    }
    let words: [&[u8]; 6] = [b"aBaC", b"a_a@", b"a{a`", b"a`a{", b"\xff\0ab", b"aa\0\xff"];
    cases.extend(words.map(|word| case(20, u64::MAX, b"a*", word)));
    // With the table that the longest of these words needs, and a limit above all their counts.
    let words = ENDS.into_iter().flat_map(letter_edges::words);
    cases.extend(words.map(|word| case(16, 99, b"a", &word)));
    for place in [0, 63, 64, 127, 128, 254] {
        let mut word = run("a", 255);
        word[place] = b'_';
        cases.push(case(2, u64::MAX, b"a", &word));
    }
    cases
}

/// Calls with several faults of 7 to 10, of which the lowest wins.
fn about_order() -> Vec<Case> {
    let long = run("a", 256);
    let long_and_bad = [run("a", 256), run("_", 1)].concat();
    let mut cases = vec![
        // The only fault is the word's length.
        case(1_028, u64::MAX, b"a", &long),
        case(3, u64::MAX, b"a", &long),
        case(3, 0, b"a", &long),
        case(0, u64::MAX, b"a", &long),
        case(3, u64::MAX, b"!a", &run("a", 257)),
        case(3, u64::MAX, b"a", &run("a", 511)),
        case(3, u64::MAX, b"a", &run("a", 512)),
        case(3, u64::MAX, b"a", &long_and_bad),
        case(3, 0, b"a", &run("_", 256)),
        case(0, 0, b"a", &run("\0", 300)),
    ];
    for word in [b"a_", b"_a", b"a\xff"] {
        for table in [0, 3, 11, 12, 15] {
            cases.extend([0, 4, u64::MAX].map(|limit| case(table, limit, b"a", word)));
        }
    }
    cases
}

/// Bad rule texts with good calls, and with every fault that a call can have besides.
fn about_bad_rules() -> Vec<Case> {
    let mut cases = Vec::new();
    for rule in BAD_RULES {
        cases.extend([
            case(9, u64::MAX, rule, b"a"),
            case(9, u64::MAX, rule, b""),
            case(9, 0, rule, b"a"),
            case(0, u64::MAX, rule, b"a"),
            case(9, u64::MAX, rule, b"a_"),
            case(3, 0, rule, b"_a"),
            case(0, 0, rule, &run("_", 256)),
        ]);
    }
    cases
}
