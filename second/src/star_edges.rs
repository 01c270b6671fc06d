//! The rule texts that walk the edges of document 02 f).

use crate::rule_edges::{run, texts_of};

/// Sentences in which no star directly follows a star.
const SENTENCES: [&str; 20] = [
    "(a*)*",
    "((a*)*)*",
    "(((a*)))*",
    "(a*)*b",
    "b(a*)*",
    "a*b*",
    "a*b*c*",
    "a*(b*)*",
    "a*!b*",
    "a*|b*",
    "a*&b*",
    "!a*",
    "!(a*)*",
    "(!a*)*",
    "!!!!!!!(a*)*",
    "(a*b*)*",
    "0*1*",
    ".*.*",
    "[ab]*[bc]*",
    "([ab]*)*.",
];

/// Sentences in which stars directly follow stars, in runs of two and more.
const REPEATED: [&str; 36] = [
    "a**",
    "a***",
    "a****",
    "a*****",
    "(a*)**",
    "(a**)*",
    "(a**)**",
    "((a**)***)**",
    "(a)**",
    "((a))***",
    "(a)*b**",
    "a**b",
    "ba**",
    "a**b**",
    "a***b**c****d*",
    "a*b**",
    "a**b*",
    "ab**c",
    "a**(b)",
    "a**!b",
    "a**|b",
    "b|a**",
    "a**&b",
    "b&a**",
    "a**|b***&c**",
    "!a**",
    "!!a**",
    "!(a**)",
    "!(a)**b",
    "(a|b*)**c",
    "0**",
    "1***",
    ".**",
    "[ab]**",
    "![AZaz]***.**",
    "A**z**",
];

/// Texts with stars after stars that are no sentences: 4 comes first, at its own place.
const NO_SENTENCES: [&str; 27] = [
    "a**|", "**", "***", "**a", "(**)", "(**", "a|**", "a&**", "!**", "!!**", "a**)", "(a**",
    "a**&", "a**!", "a**(", "a**()", "()**", "a**||b", "(a**b", "a**|)", "a**[", "a**]", "[]**",
    "[a**]", "[**]", "[a**", "a**b)c**",
];

/// Sentences with a star after a star and letters in brackets that do not rise: 20 comes first.
const FALLEN: [&str; 7] = [
    "[ba]**",
    "a**[ba]",
    "[aa]***|b",
    "a**[ab][ba]**",
    "(a**)**[aZ]",
    "!a**[cba]",
    "[ba]*",
];

/// Foreign bytes beside stars and among them: 3 comes first.
const FOREIGN: [&[u8]; 10] = [
    b"a**_",
    b"_**",
    b"a*_*",
    b"a* *",
    b"a**<x>",
    b"<x>**",
    b"**\0",
    b"a**\xaa",
    b"a\xaa\xaa",
    b"a**[b-c]",
];

/// The signs of the short texts that are all tried, and how long these can be.
const SIGNS: &[u8; 6] = b"a*()|!";
const LONGEST: usize = 6;

/// All the texts but the short ones, one group after another.
pub fn texts() -> Vec<Vec<u8>> {
    let mut texts: Vec<Vec<u8>> = Vec::new();
    for group in [&SENTENCES[..], &REPEATED, &NO_SENTENCES, &FALLEN] {
        texts.extend(group.iter().map(|text| text.as_bytes().to_vec()));
    }
    texts.extend(FOREIGN.map(<[u8]>::to_vec));
    texts.extend(about_nodes());
    texts.extend(about_special_nodes());
    texts.extend(about_places());
    texts.extend(about_length());
    texts
}

/// Every text of 1 to 6 of a letter's sign and the others that tell where a star may stand.
pub fn short_texts() -> impl Iterator<Item = Vec<u8>> {
    (1..=LONGEST).flat_map(|length| texts_of(SIGNS, length))
}

/// A text with so many stars behind it, each around the one before.
pub fn nested_stars(text: &str, stars: usize) -> Vec<u8> {
    let around = stars.saturating_sub(1);
    let first = stars - around;
    [
        run("(", around),
        run(text, 1),
        run("*", first),
        run(")*", around),
    ]
    .concat()
}

/// Sentences of about 64 nodes: 21 comes before 5, and the rewriter counts the text as given.
fn about_nodes() -> Vec<Vec<u8>> {
    let with_stars = |text: &str, stars: usize| [run(text, 1), run("*", stars)].concat();
    let mut texts: Vec<Vec<u8>> = Vec::new();
    texts.extend([62, 63, 64, 65, 70].map(|stars| with_stars("a", stars)));
    texts.extend([62, 63, 64, 65].map(|stars| nested_stars("a", stars)));
    for letters in [31, 32, 33] {
        let letters = "a".repeat(letters);
        texts.extend([2, 3].map(|stars| with_stars(&letters, stars)));
        texts.push([run("b**", 1), letters.into()].concat());
    }
    // 64 and 65 nodes with runs at several places.
    texts.push(run("a**", 16));
    texts.push([run("a**", 16), run("*", 1)].concat());
    texts.push([run("a***", 13), run("*", 2)].concat());
    // 4 comes before all of them.
    texts.push([run("a", 33), run("**|", 1)].concat());
    texts.push([run("a", 1), run("*", 70), run(")", 1)].concat());
    texts
}

/// Sentences of 7 and 8 special nodes: 21 comes before 6.
fn about_special_nodes() -> Vec<Vec<u8>> {
    let mut texts = Vec::new();
    for k in [7, 8] {
        texts.push([run("!", k), run("a**", 1)].concat());
        texts.push([run("!", k), run("(a*)*", 1)].concat());
        texts.push([run("a**&", k), run("a", 1)].concat());
        texts.push(run("!a**", k));
        texts.push([run("!", k), run("a", 1), run("*", 70)].concat());
    }
    texts
}

/// The first star after a star at many places, alone and with others behind it.
fn about_places() -> Vec<Vec<u8>> {
    let places = [3, 7, 8, 15, 16, 31, 32, 63, 64, 65];
    let at = |place: usize| {
        let depth = place - 2;
        [")", ")**"].map(|end| [run("(", depth), run("a**", 1), run(end, depth)].concat())
    };
    places.into_iter().flat_map(at).collect()
}

/// Texts of about 255 bytes, with stars at their very ends and within them.
fn about_length() -> Vec<Vec<u8>> {
    let nested =
        |inner: &str, depth: usize| [run("(", depth), inner.into(), run(")", depth)].concat();
    vec![
        [nested("a", 126), run("**", 1)].concat(),
        [nested("a", 126), run("***", 1)].concat(),
        nested("a**", 126),
        nested("a**", 127),
        nested("a***", 126),
        [nested("a", 97), run("*", 60)].concat(),
        [nested("a*", 126), run("*", 1)].concat(),
        [nested("a", 127), run("*", 1)].concat(),
        [run("a", 1), run("*", 254)].concat(),
        [run("a", 1), run("*", 255)].concat(),
        [run("a", 253), run("**", 1)].concat(),
        [run("a", 254), run("**", 1)].concat(),
        [run("(", 253), run("**", 1)].concat(),
        run("*", 255),
        run("*", 256),
    ]
}
