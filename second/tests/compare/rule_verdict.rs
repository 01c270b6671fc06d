//! Number and place of a plain rule by a reading of its own, and with one mistake made about sets or
//! stars.

use second::rule::check_sentence;

use crate::file_verdict::count;

/// A mistake.
#[derive(Clone, Copy, Debug, PartialEq)]
pub enum Wrong {
    Nothing,
    /// A number is looked for before another one, and all those between.
    Before(u64, u64),
    /// The place of 20 is the letter before.
    PlaceBefore,
    /// The place of 20 is the opening bracket.
    PlaceOfBracket,
    /// The place of 20 is counted from the opening bracket.
    PlaceInBrackets,
    /// The place of 20 is the last such letter.
    LastFallen,
    EqualTaken,
    /// Only the first brackets have to rise.
    FirstBracketsAlone,
    /// The first letter in brackets has to be above the last one in those before.
    AcrossBrackets,
    /// Letters outside brackets have to rise, too.
    OutsideBrackets,
    /// A letter is as high in both cases.
    CasesAlike,
    SmallBelowCapitals,
    /// Brackets may be empty.
    EmptyTaken,
    /// Brackets that the text's end closes are a set.
    UnclosedTaken,
    BracketsForeign,
    DotForeign,
    /// 5 counts each letter in brackets.
    NodesByLetters,
    /// The place of 4 in brackets is the opening one.
    BrokenAtBracket,
    /// 21 never comes.
    RepeatedTaken,
    /// The place of 21 is the star before.
    PlaceOfStarBefore,
    /// The place of 21 is the last such star.
    LastRepeated,
    /// Two stars may follow each other, three may not.
    TwoTaken,
    /// Only stars at the end are looked at.
    AtEndAlone,
    /// A star behind parentheses that end in a star is 21, too.
    ThroughParentheses,
    /// A complement directly after a complement is 21, too.
    RepeatedComplements,
    /// 5 counts a run of stars as one node.
    NodesByRuns,
    /// The place of 4 is that in the text with single stars.
    BrokenInRewritten,
    /// The rewriter gives 21.
    RewriterRefuses,
}

/// The numbers in the order in which they are looked for.
const ORDER: [u64; 8] = [1, 2, 3, 4, 20, 21, 5, 6];

/// Number and place of a rule.
pub fn verdict(rule: &[u8], wrong: Wrong) -> (u64, u64) {
    numbers(rule, wrong).next().unwrap_or((0, 0))
}

/// Number and place of a rule that is rewritten, but for 15.
pub fn rewriter_verdict(rule: &[u8], wrong: Wrong) -> (u64, u64) {
    let asked = |(number, _): &(u64, u64)| *number != 21 || wrong == Wrong::RewriterRefuses;
    numbers(rule, wrong).find(asked).unwrap_or((0, 0))
}

/// All numbers that hold of a rule, in their order, with their places.
fn numbers(rule: &[u8], wrong: Wrong) -> impl Iterator<Item = (u64, u64)> + '_ {
    let mut order = ORDER;
    if let Wrong::Before(one, other) = wrong {
        let index = |number: u64| ORDER.iter().position(|&any| any == number).unwrap();
        order[index(other)..=index(one)].rotate_right(1);
    }
    order.into_iter().filter_map(move |number| {
        let place = place(number, rule, wrong)?;
        Some((number, place as u64))
    })
}

/// The place of a number, if it holds of a rule.
fn place(number: u64, rule: &[u8], wrong: Wrong) -> Option<usize> {
    let at_0 = |holds: bool| holds.then_some(0);
    match number {
        1 => at_0(rule.is_empty()),
        2 => at_0(rule.len() > 255),
        3 => rule.iter().position(|&byte| is_foreign(byte, wrong)),
        4 => broken(rule, wrong),
        20 => fallen_place(rule, wrong),
        21 => repeated_place(rule, wrong),
        5 if wrong == Wrong::NodesByRuns => at_0(count(&with_single(rule)).0 > 64),
        5 if wrong == Wrong::NodesByLetters => {
            let bare: Vec<u8> = rule
                .iter()
                .copied()
                .filter(|byte| !b"[]".contains(byte))
                .collect();
            at_0(count(&bare).0 > 64)
        }
        5 => at_0(count(rule).0 > 64),
        _ => at_0(count(rule).1 > 7),
    }
}

/// Whether a byte may not stand in a rule.
fn is_foreign(byte: u8, wrong: Wrong) -> bool {
    let listed: &[u8] = match wrong {
        Wrong::BracketsForeign => b"01|&!*().",
        Wrong::DotForeign => b"01|&!*()[]",
        _ => b"01|&!*()[].",
    };
    !byte.is_ascii_alphabetic() && !listed.contains(&byte)
}

/// Where a rule stops being the beginning of a sentence.
fn broken(rule: &[u8], wrong: Wrong) -> Option<usize> {
    let taken = match wrong {
        Wrong::EmptyTaken => String::from_utf8(rule.to_vec())
            .expect("no byte is foreign")
            .replace("[]", "xx")
            .into(),
        Wrong::UnclosedTaken if open_at_end(rule) => [rule, b"]"].concat(),
        _ => rule.to_vec(),
    };
    let place = check_sentence(&taken).err()?;
    if wrong == Wrong::BrokenInRewritten {
        return Some(with_single(&rule[..place]).len());
    }
    if wrong == Wrong::BrokenAtBracket {
        let inside = rule[..place]
            .iter()
            .rposition(|byte| !byte.is_ascii_alphabetic());
        return Some(inside.filter(|&at| rule[at] == b'[').unwrap_or(place));
    }
    Some(place)
}

/// Whether a rule ends in brackets that hold a letter and are not closed.
fn open_at_end(rule: &[u8]) -> bool {
    let before = rule.iter().rposition(|byte| !byte.is_ascii_alphabetic());
    before.is_some_and(|at| rule[at] == b'[' && at + 1 < rule.len())
}

/// The place of 20, if a letter does not rise.
fn fallen_place(rule: &[u8], wrong: Wrong) -> Option<usize> {
    let fallen = fallen(rule, wrong);
    let opening = |at: usize| rule[..at].iter().rposition(|&byte| byte == b'[').unwrap();
    let first = fallen.first().copied()?;
    match wrong {
        Wrong::PlaceBefore => Some(first - 1),
        Wrong::PlaceOfBracket => Some(opening(first)),
        Wrong::PlaceInBrackets => Some(first - opening(first) - 1),
        Wrong::LastFallen => fallen.last().copied(),
        _ => Some(first),
    }
}

/// The letters that do not rise, whether the rule is a sentence or not.
fn fallen(rule: &[u8], wrong: Wrong) -> Vec<usize> {
    let mut all = Vec::new();
    let mut is_open = wrong == Wrong::OutsideBrackets;
    let (mut before, mut opened) = (None, 0);
    for (at, &byte) in rule.iter().enumerate() {
        if byte.is_ascii_alphabetic() && is_open {
            let is_wanted = wrong != Wrong::FirstBracketsAlone || opened == 1;
            if is_wanted && before.is_some_and(|before| falls(before, byte, wrong)) {
                all.push(at);
            }
            before = Some(byte);
        } else {
            is_open = byte == b'[' || wrong == Wrong::OutsideBrackets;
            opened += usize::from(byte == b'[');
            before = before.filter(|_| wrong == Wrong::AcrossBrackets);
        }
    }
    all
}

/// Whether a letter is not above the one before it.
fn falls(before: u8, letter: u8, wrong: Wrong) -> bool {
    match wrong {
        Wrong::EqualTaken => letter < before,
        Wrong::CasesAlike => letter.to_ascii_lowercase() <= before.to_ascii_lowercase(),
        Wrong::SmallBelowCapitals => letter ^ 32 <= before ^ 32,
        _ => letter <= before,
    }
}

/// The place of 21, if a star follows a star.
fn repeated_place(rule: &[u8], wrong: Wrong) -> Option<usize> {
    let mut repeated = (1..rule.len()).filter(|&at| repeats(rule, at, wrong));
    match wrong {
        Wrong::RepeatedTaken => None,
        Wrong::PlaceOfStarBefore => Some(repeated.next()? - 1),
        Wrong::LastRepeated => repeated.next_back(),
        Wrong::AtEndAlone => repeated.find(|&at| rule[at..].iter().all(|&byte| byte == b'*')),
        _ => repeated.next(),
    }
}

/// Whether the byte at a place is a star after a star.
fn repeats(rule: &[u8], at: usize, wrong: Wrong) -> bool {
    let before = match wrong {
        Wrong::ThroughParentheses => rule[..at].iter().rfind(|&&byte| byte != b')'),
        _ => Some(&rule[at - 1]),
    };
    let is_pair = (before, rule[at]) == (Some(&b'*'), b'*');
    let is_complement = rule[at - 1..=at] == *b"!!";
    match wrong {
        Wrong::TwoTaken => at > 1 && rule[at - 2..=at] == *b"***",
        Wrong::RepeatedComplements => is_pair || is_complement,
        _ => is_pair,
    }
}

/// A text in which each run of stars is one star.
pub fn with_single(text: &[u8]) -> Vec<u8> {
    let kept = (0..text.len()).filter(|&at| text[at] != b'*' || !text[..at].ends_with(b"*"));
    kept.map(|at| text[at]).collect()
}
