//! The rule texts, judge calls and places in brackets that walk the edges of document 02 e).

use crate::letter_edges::{filled, ENDS};
use crate::limits::LETTERS;
use crate::rule_edges::{run, texts_of};

/// Sentences that tell what a set is, and every offset about one.
const SENTENCES: [&str; 40] = [
    "[ab]",
    "[a]",
    "[A]",
    "[z]",
    "[AZaz]",
    "[Za]",
    "[az]",
    "[AZ]",
    "[xyz]",
    ".",
    "..",
    ".*",
    "!.",
    "(.)",
    ".|a",
    "a|.",
    ".&[ab]",
    "a.b",
    ".a",
    "a.",
    "[ab]*",
    "![ab]",
    "!!([ab]*)*",
    "([ab])",
    "(([ab]))*",
    "[ab]c",
    "c[ab]",
    "c([ab])",
    "c![ab]",
    "[ab][cd]",
    "[ab][cd][ef]",
    "[ab]([cd])",
    "[ab].[cd]",
    "[ab]|[cd]",
    "[ab]&[cd]",
    "x|[ab]y&[cd]*",
    "a[a]a",
    "[a][a]",
    "![AB](0|1)[yz]",
    "[ERz]*",
];

/// Texts that are no sentences because of their brackets, or whatever their brackets hold.
const NO_SENTENCES: [&str; 52] = [
    "[",
    "]",
    "[]",
    "[a",
    "a]",
    "a[",
    "a[]",
    "[]a",
    "[a]]",
    "[[a]",
    "[[a]]",
    "[a[b]]",
    "[a[b",
    "[.]",
    "[a.]",
    "[.a]",
    "[0]",
    "[1]",
    "[a0]",
    "[a|b]",
    "[a&b]",
    "[!a]",
    "[a*]",
    "[(a)]",
    "[a(b]",
    "[a)b]",
    "([a)]",
    "[(a])",
    "(a[)]",
    "([ab]",
    "[ab])",
    "[ab]|",
    "|[ab]",
    "[ab]!",
    "*[ab]",
    ".)",
    "(.",
    ".|",
    "![",
    "a|[",
    "a|]",
    "[ab][",
    "[ab][cd",
    "[ab]cd]",
    "[ab]|[]",
    "[abcdefghij",
    "abcdefghij]",
    "][",
    "][a]",
    "[]]",
    "[]*",
    "[a]*]",
];

/// Texts whose brackets hold letters that do not rise, and that are no sentences besides.
const FALLEN_AND_NO_SENTENCES: [&str; 14] = [
    "[ba]|",
    "[ba](",
    "[ba])",
    "[ba]]",
    "[ba",
    "[ba[",
    "[aa",
    "[ba|c]",
    "[aa]|)",
    ")[ba]",
    "*[aa]",
    "[ba][]",
    "[][ba]",
    "[ba]||[dc]",
];

/// Sentences with letters in brackets that do not rise.
const FALLEN: [&str; 30] = [
    "[ba]",
    "[aa]",
    "[aZ]",
    "[az]Z[za]",
    "[Aa][aA]",
    "[zZ]",
    "[ZZ]",
    "[AA]",
    "[zz]",
    "[abb]",
    "[aab]",
    "[bab]",
    "[acb]",
    "[abca]",
    "[cba]",
    "[abcabc]",
    "[ABab]|[abAB]",
    "x[ab][ba]",
    "[ab][ba][ba]",
    "[ba][ab]",
    "([ba])*",
    "![ba]",
    "a|[ba]",
    "[ba]&a",
    ".[ba].",
    "[a][aa]",
    "[ab]ba[dc]",
    "[b]a[ba]",
    "ba[ab]|ca",
    "((([cd]))(([dc])))",
];

/// Foreign bytes in brackets and beside them; 3 comes before whatever else is wrong.
const FOREIGN: [&[u8]; 14] = [
    b"[a-c]", b"[^a]", b"[a^]", b"[a b]", b"[a,b]", b"[a_b]", b"[-]", b"[ba]_", b"[ba-]", b"[]2",
    b"[a\n]", b"[\0]", b"[a\xff", b"[<a>]",
];

/// What may stand in a rule for a set, and beside one; the question mark is any byte.
const PLACES: [&str; 9] = [
    "[?]", "[?b]", "[B?b]", "[B?]", "[B?", "[?", "?b]", "[b]?", "?[b]",
];

/// Rules with sets on words that tell which events they fit.
pub const CALLS: [(&str, &str); 33] = [
    ("[ab]", "abc"),
    ("[ac]", "abc"),
    ("[a]", "ab"),
    ("[bc]", "a"),
    ("[AZ]", "AaZz"),
    ("[az]", "AaZz"),
    ("[AZaz]", "BAZaz"),
    ("[Za]", "YZabz"),
    (".", ""),
    (".", "aA"),
    (".", "zZqQ"),
    ("..", "aAz"),
    (".*", "aAz"),
    ("!.", "aAb"),
    ("!(.*)", "aA"),
    (".&a", "ab"),
    ("a.b", "acbab"),
    (".*a", "bab"),
    ("[ab]*", "abcab"),
    ("[ab][bc]", "abbc"),
    ("[ab]*c", "abcc"),
    ("![ab]", "abc"),
    ("!![ab]", "abc"),
    ("!([ab]*)", "aca"),
    ("[ab]&[bc]", "abc"),
    ("[ab]|[cd]", "abcde"),
    ("[ab]&!a", "ab"),
    ("!([ab].)", "aab"),
    ("([ab]|c)*", "abcd"),
    ("(.[ab])*", "xayb"),
    ("[ab]([cd]|1)", "acbd"),
    ("[Aa]", "aAb"),
    ("[bcdefghijklmnopqrstuvwxy]", "abyz"),
];

/// All the texts, one group after another.
pub fn texts() -> Vec<Vec<u8>> {
    let mut texts: Vec<Vec<u8>> = Vec::new();
    for group in [
        &SENTENCES[..],
        &NO_SENTENCES,
        &FALLEN_AND_NO_SENTENCES,
        &FALLEN,
    ] {
        texts.extend(group.iter().map(|text| text.as_bytes().to_vec()));
    }
    texts.extend(FOREIGN.map(<[u8]>::to_vec));
    texts.extend(texts_of(b"[]ab", 4));
    texts.extend(texts_of(b"[].a|!*(", 3));
    texts.extend(ENDS.into_iter().flat_map(with_byte));
    texts.extend(
        ENDS.into_iter()
            .flat_map(|one| ENDS.map(|two| pair(one, two))),
    );
    texts.extend(about_the_alphabet());
    texts.extend(about_nodes());
    texts.extend(about_length());
    texts
}

/// Two bytes in brackets.
pub fn pair(one: u8, two: u8) -> Vec<u8> {
    vec![b'[', one, two, b']']
}

/// Rules with a byte at every place in brackets and beside them.
pub fn with_byte(byte: u8) -> [Vec<u8>; 9] {
    PLACES.map(|text| filled(text, byte))
}

/// The letters in byte order, in brackets.
fn alphabet() -> Vec<u8> {
    let mut letters = LETTERS.to_vec();
    letters.sort();
    [b"[", &letters[..], b"]"].concat()
}

/// All letters in brackets, and without one of them; then two neighbours in the wrong order.
fn about_the_alphabet() -> Vec<Vec<u8>> {
    let all = alphabet();
    let mut texts = vec![all.clone()];
    for at in [1, 26, 27, 52] {
        let mut others = all.clone();
        others.remove(at);
        texts.push(others);
    }
    for at in (1..LETTERS.len()).step_by(5) {
        let mut swapped = all.clone();
        swapped.swap(at, at + 1);
        texts.push(swapped);
    }
    let letters = &all[1..=LETTERS.len()];
    texts.push([b"[", letters, letters, b"]"].concat());
    texts.push([b"[", &LETTERS[..], b"]"].concat());
    texts
}

/// Sets that are about 64 nodes; 20 comes before 5 and 6 wherever it stands.
fn about_nodes() -> Vec<Vec<u8>> {
    let many = [
        [run("[ab]", 32), run("*", 1)],
        [run("[ab]", 31), run("([ab]*)*", 1)],
        [run("[ab]", 33), run("", 0)],
        [run(".", 32), run("*", 1)],
        [run(".", 33), run("", 0)],
        [run("[ab]|", 31), run("[ab]*", 1)],
        [run("!", 7), run("[ab]", 29)],
        [run("!", 8), run("[ab]", 1)],
        [run("[ab]&", 7), run("[ab]", 1)],
        [run("[ab]&", 8), run("[ab]", 1)],
    ];
    let fallen = [
        [run("[ba]", 33), run("", 0)],
        [run("a", 33), run("[ba]", 1)],
        [run("[aa]", 1), run("a", 33)],
        [run("!", 8), run("[ba]", 1)],
        [run("a&", 8), run("[aa]", 1)],
        [run("!", 64), run("[ba]", 1)],
        // 4 comes before all of them.
        [run("a", 33), run("[ba]|", 1)],
        [run("!", 8), run("[ba])", 1)],
    ];
    let texts = many.into_iter().chain(fallen);
    texts.map(|parts| parts.concat()).collect()
}

/// Brackets in texts of about 255 bytes.
fn about_length() -> Vec<Vec<u8>> {
    let nested =
        |inner: &str, depth: usize| [run("(", depth), inner.into(), run(")", depth)].concat();
    vec![
        [nested("[ab]", 125), run("*", 1)].concat(),
        nested("[ab]", 126),
        nested("[ba]", 125),
        nested("[ab", 126),
        [run("[", 1), run("a", 253), run("]", 1)].concat(),
        [run("[", 1), run("a", 254)].concat(),
        [run("[", 1), run("a", 255)].concat(),
        [run("a", 254), run("]", 1)].concat(),
        [run("a", 254), run("[", 1)].concat(),
        [run("a", 251), run("[ba]", 1)].concat(),
        [run("a", 251), run("[ab]", 1)].concat(),
        [run("a", 252), run("[ba]", 1)].concat(),
        [run("(", 251), run("[ba]", 1)].concat(),
        run("[", 255),
        run("]", 255),
        run(".", 255),
        run("[]", 128),
        run("[a]", 85),
    ]
}
