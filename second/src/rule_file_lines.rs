//! Lines of rule files, good ones and ones with each fault, for the edges and the draws.

use crate::refusal::Reason;
use crate::rule_edges::run;
use crate::star_edges::nested_stars;

/// The refusals that a line can give, in the order in which they are looked for.
pub const LINE_REASONS: [Reason; 11] = [
    Reason::RuleLineForm,
    Reason::NameTaken,
    Reason::RuleEmpty,
    Reason::RuleTooLong,
    Reason::RuleByte,
    Reason::NotASentence,
    Reason::UnknownName,
    Reason::LetterNotAbove,
    Reason::StarAfterStar,
    Reason::TooManyNodes,
    Reason::TooManySpecialNodes,
];

/// The name of the first good line; every other line with it is refused.
pub const FIRST_NAME: &str = "la";

/// The name of a line with a fault, which no good line has.
const OWN_NAME: &str = "me";

/// Lines of another form, each complete with its newline.
const OTHER_FORMS: [&[u8]; 40] = [
    b"\n",
    b"R\n",
    b"R\t\n",
    b"R\tx\n",
    b"R\tx\n\ta\n",
    b"R\n\tx\ta\n",
    b"R\t\n\ta\n",
    b"R\t\t\n",
    b"R\t\ta\n",
    b"\tx\ta\n",
    b"x\ta\n",
    b"R x\ta\n",
    b"R\tx a\n",
    b"Rx\ta\n",
    b"R\txa\n",
    b"r\tx\ta\n",
    b"E\tx\ta\n",
    b"RR\tx\ta\n",
    b" R\tx\ta\n",
    b"\tR\tx\ta\n",
    b"R \tx\ta\n",
    b"R\t\tx\ta\n",
    b"R\t x\ta\n",
    b"R\tx \ta\n",
    b"R\tX\ta\n",
    b"R\txX\ta\n",
    b"R\tx1\ta\n",
    b"R\t0\ta\n",
    b"R\t<x>\ta\n",
    b"R\tx>\ta\n",
    b"R\tabcdefghijklm\ta\n",
    b"R\tabcdefghijkl \ta\n",
    b"R\tx\0\ta\n",
    b"\0\tx\ta\n",
    b"R\0x\ta\n",
    b"R\tx\0a\n",
    b"R\t\xe1\ta\n",
    b"R\tx\r\ta\n",
    b"\rR\tx\ta\n",
    b"\xef\xbb\xbfR\tx\ta\n",
];

/// Rules with a byte that may not stand in them; where they fail before it, 3 still comes first.
const FOREIGN: [&[u8]; 23] = [
    b"_", b"a\tb", b"\t", b"\ta", b"a\t", b"a\0", b"\0", b"a b", b"a\r", b"\xff", b"a2", b"<a2>",
    b"<a_>", b"<a\0>", b"<la\t>", b"<zz>_", b")_", b"><^", b"[a-c]", b"[^a]", b"[ba]_", b"[<la>-]",
    b"[a\t]",
];

/// Rules that are no sentences, whatever their names stand for; `la` and `me` may stand for a rule.
const NO_SENTENCES: [&str; 69] = [
    ")",
    "a|",
    "()",
    "(<la>",
    "<la>)",
    "<la>|",
    "<la>&",
    "<la>!",
    "|<la>",
    "*<la>",
    "<la>|*<la>",
    "(<la>))",
    "<",
    ">",
    "<>",
    "><",
    "a<",
    "a>",
    "<a",
    "<la",
    "la>",
    "<la>>",
    "<<la>",
    "<<la>>",
    "<la<la>>",
    "<la><",
    "<A>",
    "<La>",
    "<lA>",
    "<a1>",
    "<1>",
    "<(a)>",
    "<a|b>",
    "<a*>",
    "<!a>",
    "<la>a>",
    "<abcdefghijklm>",
    "<zz>|",
    "<zz",
    "<zz>)",
    "[",
    "]",
    "[]",
    "[a",
    "a]",
    "[.]",
    "[0]",
    "[a|b]",
    "[[a]]",
    "[<la>]",
    "[a<la>]",
    "[<zz>]",
    "[<la>",
    "<la>]",
    "<[la]>",
    "<la]>",
    "<l[a>]",
    "[la>]",
    "[<la]>",
    "[ba]|",
    "[ba]<",
    "[ba",
    "[aa]<zz>)",
    "[ba]<zz>[]",
    "a**|",
    "**",
    "<la>**)",
    "<la**>",
    "<zz>**<",
];

/// Rules with a name that no earlier line has; the last ones are next to the name `la`.
const UNKNOWN: [&str; 19] = [
    "<me>",
    "<zz>",
    "a<zz>b",
    "!<zz>*",
    "(<zz>)",
    "<la><zz>",
    "<zz>|<la>",
    "<abcdefghijkl>",
    "<l>",
    "<laa>",
    "<a>",
    "<al>",
    "[ab]<zz>",
    ".<zz>",
    "[ba]<zz>",
    "<zz>[ba]",
    "<zz>|[aa]",
    "<zz>**",
    "a**<zz>",
];

/// Rules with letters in brackets that do not rise.
const FALLEN: [&str; 11] = [
    "[ba]",
    "[aa]",
    "[aZ]",
    "[abb]",
    "x[ab][ba]",
    "[ba][ab]",
    "([ba])*|.",
    "![cba]",
    "la[la]",
    "[ba]**",
    "a**[ba]",
];

/// Such rules with the name of an earlier line, which has several nodes.
const FALLEN_BY_NAMES: [&str; 4] = ["<la>[ba]", "[aa]<la>", "([ba]|<la>)*", "<la>**[ba]"];

/// Rules in which a star directly follows a star.
const STARS: [&str; 10] = [
    "a**", "(a*)**", "(a**)*", "a***", "a*b**", "!a**|b", "a**&b**", "[ab]**", ".**", "la**",
];

/// Such rules with the name of an earlier line, which has several nodes.
const STARS_BY_NAMES: [&str; 4] = ["<la>**", "<la>***", "a*<la>**b", "(<la>*)**"];

/// A line of the form.
pub fn line(name: &str, rule: impl AsRef<[u8]>) -> Vec<u8> {
    [b"R\t", name.as_bytes(), b"\t", rule.as_ref(), b"\n"].concat()
}

/// The name of a good line, by its number from 1.
fn good_name(number: usize) -> String {
    let last = b'a' + (number - 1) as u8;
    format!("l{}", char::from(last))
}

/// So many good lines one after another, most of them with small rules, some with earlier names.
pub fn good_lines(count: usize) -> Vec<u8> {
    (1..=count).flat_map(good_line).collect()
}

/// A good line, by its number from 1.
pub fn good_line(number: usize) -> Vec<u8> {
    let rule = match number % 4 {
        1 => "a|b".to_string(),
        2 => format!("<{}>c", good_name(number - 1)),
        3 => "B".to_string(),
        _ => format!("!<{}>", good_name(number - 1)),
    };
    line(&good_name(number), rule)
}

/// Lines that are refused for a reason if so many good lines come before them; some have a fault
/// that is looked for later, too.
pub fn faulty_lines(reason: Reason, good: usize) -> Vec<Vec<u8>> {
    match reason {
        Reason::RuleLineForm => OTHER_FORMS.map(<[u8]>::to_vec).into(),
        Reason::NameTaken if good == 0 => Vec::new(),
        Reason::NameTaken => {
            let bad = LINE_REASONS[2..].iter();
            let bad = bad.map(|&reason| faulty_rules(reason).swap_remove(0));
            let rules = [b"a".to_vec(), b"<la>".to_vec()].into_iter().chain(bad);
            rules.map(|rule| line(FIRST_NAME, rule)).collect()
        }
        _ => {
            let mut rules = faulty_rules(reason);
            if good > 0 {
                rules.extend(faulty_by_names(reason));
            }
            rules.iter().map(|rule| line(OWN_NAME, rule)).collect()
        }
    }
}

/// Rules that are refused for a reason after `la`, whose rule has three nodes; with 16 such names
/// there would be 63 nodes.
fn faulty_by_names(reason: Reason) -> Vec<Vec<u8>> {
    match reason {
        Reason::LetterNotAbove => {
            let crowded = [run("<la>", 40), run("[ba]", 1)].concat();
            [FALLEN_BY_NAMES.map(Vec::from).to_vec(), vec![crowded]].concat()
        }
        Reason::StarAfterStar => {
            let crowded = [run("<la>", 40), run("**", 1)].concat();
            [STARS_BY_NAMES.map(Vec::from).to_vec(), vec![crowded]].concat()
        }
        Reason::TooManyNodes => vec![run("<la>", 17)],
        Reason::TooManySpecialNodes => vec![run("!<la>", 8)],
        _ => Vec::new(),
    }
}

/// Rules that are refused for a reason, of any line that comes after `la`.
fn faulty_rules(reason: Reason) -> Vec<Vec<u8>> {
    match reason {
        Reason::RuleEmpty => vec![Vec::new()],
        Reason::RuleTooLong => vec![
            run("a", 256),
            run("_", 256),
            run("\t", 256),
            run(")", 256),
            run("<", 256),
            run("!", 256),
            run("<zz>", 64),
            run("<la>", 64),
            run("a", 2_000),
        ],
        Reason::RuleByte => [FOREIGN.map(<[u8]>::to_vec).to_vec(), crowded("_")].concat(),
        Reason::NotASentence => [NO_SENTENCES.map(Vec::from).to_vec(), crowded("|")].concat(),
        Reason::UnknownName => [UNKNOWN.map(Vec::from).to_vec(), crowded("<zz>")].concat(),
        Reason::LetterNotAbove => {
            let crowded = [run("a", 33), run("!", 8)].map(|text| [text, run("[ba]", 1)].concat());
            [FALLEN.map(Vec::from).to_vec(), crowded.to_vec()].concat()
        }
        Reason::StarAfterStar => {
            let crowded = [run("a", 33), run("!", 8)].map(|text| [text, run("a**", 1)].concat());
            let many = [run("a", 1), run("*", 64)].concat();
            [STARS.map(Vec::from).to_vec(), crowded.to_vec(), vec![many]].concat()
        }
        Reason::TooManyNodes => vec![
            run("a", 33),
            run("[ab]", 33),
            nested_stars("a", 64),
            [run("!", 64), run("a", 1)].concat(),
            run("a", 255),
        ],
        _ => vec![
            [run("!", 8), run("a", 1)].concat(),
            [run("!", 8), run("[ab]", 1)].concat(),
            [run("a&", 8), run("a", 1)].concat(),
            run("!a", 8),
        ],
    }
}

/// Texts with too many nodes or special nodes, each with such an end.
fn crowded(end: &str) -> Vec<Vec<u8>> {
    let texts = [run("a", 33), run("!", 8), run("<la>", 40)];
    texts
        .map(|text| [&text[..], end.as_bytes()].concat())
        .into()
}
