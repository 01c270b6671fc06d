//! The rule texts that walk document 01's edges, those of sets and those of stars in a row.

use crate::star_edges::nested_stars;
use crate::{letter_edges, set_edges, star_edges};

/// What document 01 writes down itself: C1 to C12, its Edges, and the rules in its prose.
const NAMED: [&str; 22] = [
    "1",
    "0",
    "a",
    "!a",
    "!0",
    "a*",
    "a&a",
    "(a&ab)(bc|c)",
    "a(bc|c)&ab(bc|c)",
    "!ab",
    "!(ab)",
    "!a*",
    ")",
    "(a",
    "a)",
    "()",
    "a|",
    "A",
    "1*",
    "!(a*)",
    "(!a)b",
    "(a|b)",
];

/// Sentences that tell the operators' tightness, their grouping and every offset apart.
const SHAPES: [&str; 66] = [
    "ab",
    "a(b)",
    "(a)b",
    "(a)(b)",
    "((a))((b))",
    "a((b))*",
    "(a)*b",
    "a!b",
    "a!!b",
    "a!(b)",
    "!(a)b",
    "!a!b",
    "!ab*",
    "!a(b)*",
    "a*b*",
    "a*!b*",
    "(a)*!!b",
    "(a*)*(b*)*",
    "!!(a*)*",
    "(!a)*",
    "!(!a)*",
    "((a)*)*",
    "!((!a))",
    "((((a))))",
    "(a|b)&!c*d",
    "abc",
    "(ab)c",
    "a(bc)",
    "(a)(b)(c)",
    "a(b)c",
    "a(b(c))",
    "((a)b)c",
    "a!b!c",
    "a*b*c*",
    "a|b|c",
    "(a|b)|c",
    "a|(b|c)",
    "a&b&c",
    "(a&b)&c",
    "a&(b&c)",
    "a|b&c",
    "a&b|c",
    "(a|b)&c",
    "a&(b|c)",
    "a|bc",
    "ab|c",
    "(a|b)c",
    "a(b|c)",
    "a&bc",
    "ab&c",
    "(a&b)c",
    "a(b&c)",
    "a|b&cd*",
    "!a|!b&!c",
    "!(a|b)*",
    "ab|cd&ef|gh",
    "01",
    "10*|!1",
    "z!0(1*)|!(y&x)w",
    "abcdefghijklmnopqrstuvwxyz",
    "ABCDEFGHIJKLMNOPQRSTUVWXYZ",
    "aA",
    "aBcD",
    "!A|a&!(A)*",
    "Z!0(1*)|!(y&X)W",
    "(E|R)*",
];

/// Texts that are no sentences, beyond the short ones that are all walked.
const NO_SENTENCES: [&str; 34] = [
    "a||b",
    "a|&b",
    "a&|b",
    "a&&b",
    "a|*b",
    "a&*b",
    "a!|b",
    "a!&b",
    "a!*b",
    "ab|)",
    "(a|)",
    "(a&)",
    "(a!)",
    "a(|b)",
    "a(*b)",
    "a()b",
    "(ab))",
    "(a)b)",
    "((ab)",
    "((a)b",
    "(a)(b",
    "(a))(b",
    "a)(b",
    "a|b&",
    "ab!!",
    "!(!(",
    "((((",
    "a(b)(",
    "(a|b))*",
    "!()a",
    "*a*b",
    "a|(b&(c*)",
    ")A",
    "A|B)Z",
];

/// Foreign bytes; where the text fails before them, 3 still comes first, at the first of them.
const FOREIGN: [&[u8]; 20] = [
    b"a_",
    b"a_c@",
    b"a b",
    b"a\tb",
    b"ab\0",
    b"\0ab",
    b"ab\n",
    b"ab\r\n",
    b"a\xff\xfe",
    b"a\x80",
    b"\xc3\xa4",
    b"a2",
    b"a|b;",
    b")_",
    b"()()`",
    b"a||b/c",
    b"**a*)~",
    b"(a|\x7f",
    b")a)^)@",
    b"!!!!!!!!_",
];

/// One byte for each that the grammar tells apart.
const SIGNS: [u8; 7] = *b"a|&!*()";

/// All the texts, one group after another.
pub fn texts() -> Vec<Vec<u8>> {
    let mut texts: Vec<Vec<u8>> = vec![Vec::new()];
    texts.extend(as_bytes(NAMED));
    texts.push(example_1());
    texts.extend(as_bytes(SHAPES));
    texts.extend(as_bytes(NO_SENTENCES));
    texts.extend(FOREIGN.map(<[u8]>::to_vec));
    texts.extend((0..=255).map(|byte| vec![byte]));
    texts.extend(letter_edges::ENDS.into_iter().flat_map(letter_edges::rules));
    texts.extend(texts_of(&SIGNS, 2));
    texts.extend(texts_of(&SIGNS, 3));
    texts.extend(about_nodes());
    texts.extend(about_special_nodes());
    texts.extend(about_order());
    texts.extend(about_places());
    texts.extend(about_length());
    texts.extend(set_edges::texts());
    texts.extend(star_edges::texts());
    texts
}

/// Document 004's Example 1 as document 01 writes it.
pub fn example_1() -> Vec<u8> {
    "((ttt)*t&(tttt)*ttt)bt*".replace('t', "(a|b)").into()
}

/// Every text of so many of the signs.
pub fn texts_of(signs: &[u8], length: usize) -> Vec<Vec<u8>> {
    let mut texts = vec![Vec::new()];
    for _ in 0..length {
        let longer = |text: Vec<u8>| signs.iter().map(move |&sign| [&text[..], &[sign]].concat());
        texts = texts.into_iter().flat_map(longer).collect();
    }
    texts
}

/// Sentences of about 64 nodes, by every operator that may be so many.
fn about_nodes() -> Vec<Vec<u8>> {
    let mut texts = Vec::new();
    for letters in [32, 33] {
        texts.push(run("a", letters));
        texts.push(run("(a)", letters));
        texts.push(vec!["a"; letters].join("|").into());
        texts.push([run("a", letters), run("*", 1)].concat());
        texts.push(nested_stars(&"a".repeat(letters), 2));
    }
    // 7 of the nodes are special, so that only m decides.
    texts.extend([28, 29, 30].map(|letters| [run("!", 7), run("a", letters)].concat()));
    texts
}

/// Sentences of 7 to 9 special nodes.
fn about_special_nodes() -> Vec<Vec<u8>> {
    let mut texts = Vec::new();
    for k in [7, 8, 9] {
        texts.push([run("!", k), run("a", 1)].concat());
        texts.push(run("!a", k));
        texts.push([run("!(", k), run("a", 1), run(")", k)].concat());
        texts.push(vec!["a"; k + 1].join("&").into());
        texts.push([run("(a&", k), run("a", 1), run(")", k)].concat());
        texts.push([run("a&", k - 3), run("!", 3), run("a", 1)].concat());
    }
    texts.push(b"!a&!a&!a&!a".to_vec());
    texts.push(b"!a&!a&!a&!!a".to_vec());
    // 64 nodes: 8 and 63 of them are special.
    texts.push([run("!", 8), run("a", 28), run("*", 1)].concat());
    texts.push([run("!", 63), run("a", 1)].concat());
    texts
}

/// Texts with several faults: 4 comes before 5 and 6, and 5 before 6.
fn about_order() -> Vec<Vec<u8>> {
    vec![
        [run("a", 33), run("|", 1)].concat(),
        [run("a", 33), run(")", 1)].concat(),
        [run("(", 1), run("a", 33)].concat(),
        [run("a", 100), run("|&", 1), run("a", 100)].concat(),
        [run("a", 1), run("*", 70), run("(", 1)].concat(),
        run("!", 8),
        [run("!", 8), run("a)", 1)].concat(),
        [run("a&", 8), run("a&", 1)].concat(),
        [run("!", 8), run("a", 33), run("(", 1)].concat(),
        [run("!", 8), run("a", 33)].concat(),
        [run("!", 8), run("a", 29)].concat(),
        [run("!", 64), run("a", 1)].concat(),
        [run("a&", 40), run("a", 1)].concat(),
        [run("a", 40), run("_)", 1)].concat(),
    ]
}

/// Texts that stop being the beginning of a sentence at many places.
fn about_places() -> Vec<Vec<u8>> {
    let places = [3, 7, 8, 15, 16, 31, 32, 63, 64, 65, 127, 128, 129];
    let failing = |place: usize| {
        [
            [run("a", place), run(")", 1)].concat(),
            [run("(", place), run(")a", 1)].concat(),
            [run("!", place), run("*a", 1)].concat(),
        ]
    };
    places.into_iter().flat_map(failing).collect()
}

/// Texts of about as many bytes as there may be.
fn about_length() -> Vec<Vec<u8>> {
    let nested = |depth: usize| [run("(", depth), run("a", 1), run(")", depth)].concat();
    let followed = |text: &str, times: usize, end: &str| [run(text, times), end.into()].concat();
    vec![
        nested(127),
        nested(128),
        [nested(127), run("*", 1)].concat(),
        // 64 nodes in 255 bytes.
        [run("(", 79), run("(a)", 32), run(")", 79), run("*", 1)].concat(),
        [run("(", 126), run("a", 1), run(")", 127)].concat(),
        [run("(", 128), run("a", 1), run(")", 126)].concat(),
        followed("(", 254, "a"),
        followed("(", 254, ")"),
        run("(", 255),
        run("!", 255),
        run("|", 255),
        run("*", 255),
        run(")", 255),
        run("a", 255),
        followed("!", 254, "a"),
        followed("a|", 127, "a"),
        followed("a&", 127, "a"),
        run("(a)", 85),
        followed("a", 254, "|"),
        followed("a", 254, ")"),
        followed("a", 254, "2"),
        followed("a|", 127, "_"),
        run("a", 256),
        run("a", 257),
        run("a", 300),
        run("(", 256),
        run(")", 256),
        run("_", 256),
        followed("a", 255, "_"),
    ]
}

/// A text so many times over.
pub fn run(text: &str, times: usize) -> Vec<u8> {
    text.repeat(times).into()
}

/// The bytes of each text.
fn as_bytes<const N: usize>(texts: [&str; N]) -> [Vec<u8>; N] {
    texts.map(Vec::from)
}
