//! Number and place of a rule file by a reading of its own, and with one mistake made in it.

use second::rule::check_sentence;

/// The numbers of a line in the order in which they are looked for.
pub const ORDER: [u64; 11] = [16, 18, 1, 2, 3, 4, 17, 20, 21, 5, 6];

/// A mistake.
#[derive(Debug, PartialEq)]
pub enum Wrong {
    Nothing,
    /// A line may use its own name.
    OwnName,
    /// A line may use the name of a later line.
    LaterName,
    /// A name is known if an earlier one begins with it.
    NameByBeginning,
    /// 5 counts a name as one node.
    NodesAsWritten,
    /// 6 counts a name as no special node.
    SpecialAsWritten,
    /// 2 counts the bytes after replacement.
    BytesAfterReplacement,
    /// The place of 3 is the byte's offset.
    PlaceOfRuleFault,
    /// Lines are counted from 0.
    PlaceFromZero,
    /// 19 comes only if a 17th line is of the form.
    SeventeenthLineRead,
    /// 19 comes before all other lines.
    SeventeenthLineFirst,
    FifteenLines,
    LastNewlineMissing,
    EmptyFileAccepted,
    EmptyFileAtZero,
    /// Only the last line's rule and what it uses is judged.
    UnusedLinesUnread,
    CapitalNames,
    /// The most letters of a line's name.
    NamesOf(usize),
    /// The most letters of a name that is used.
    UsedNamesOf(usize),
    /// A tab in a rule is 16.
    TabEndsRule,
    /// Of all the bad lines that with the lowest number wins.
    LowestNumberFirst,
    /// The number at this index of the order is looked for before the one in front of it.
    Swapped(usize),
    /// A number is looked for before another one, and all those between.
    Before(u64, u64),
    /// 20 comes only for a letter below the one before it.
    EqualLettersTaken,
    /// The place of 20 is the letter's offset.
    PlaceOfFallenLetter,
    /// A name may stand in brackets.
    NamesInBrackets,
    /// 21 never comes.
    RepeatedStarsTaken,
    /// The place of 21 is the star's offset.
    PlaceOfStar,
    /// 21 comes for a star behind a name whose rule ends in a star.
    StarsThroughNames,
}

/// A line in its parts, as far as it has them.
struct Parts<'a> {
    is_of_form: bool,
    name: &'a [u8],
    rule: &'a [u8],
}

/// A part of a rule.
enum Piece<'a> {
    Byte(u8),
    Name(&'a [u8]),
}

/// A line that was read: its name, and its text after replacement.
type Known<'a> = (&'a [u8], Vec<u8>);

/// Number and place of a file.
pub fn verdict(file: &[u8], wrong: &Wrong) -> (u64, u64) {
    if file.is_empty() {
        return match wrong {
            Wrong::EmptyFileAccepted => (0, 0),
            Wrong::EmptyFileAtZero | Wrong::PlaceFromZero => (16, 0),
            _ => (16, 1),
        };
    }
    let most = if *wrong == Wrong::FifteenLines {
        15
    } else {
        16
    };
    let lines: Vec<&[u8]> = file.split_inclusive(|&byte| byte == b'\n').collect();
    if *wrong == Wrong::SeventeenthLineFirst && lines.len() > most {
        return (19, 17);
    }
    let lines: Vec<Parts> = lines
        .iter()
        .take(most + 1)
        .map(|line| parts(line, wrong))
        .collect();
    let mut known: Vec<Known> = Vec::new();
    const NONE: (u64, u64) = (u64::MAX, 0);
    let mut lowest = NONE;
    for (index, line) in lines.iter().enumerate() {
        let is_beyond = index == most && (*wrong != Wrong::SeventeenthLineRead || line.is_of_form);
        let number = if is_beyond {
            19
        } else {
            number(line, &lines[index..], &known, wrong)
        };
        let place = place(number, index, line, wrong);
        match number {
            0 => known.push((line.name, replaced(line.rule, &known, wrong))),
            _ if *wrong != Wrong::LowestNumberFirst => return (number, place),
            _ => lowest = lowest.min((number, place)),
        }
    }
    if lowest == NONE {
        (0, 0)
    } else {
        lowest
    }
}

/// The place of a refusal in a line, given by its index.
fn place(number: u64, index: usize, line: &Parts, wrong: &Wrong) -> u64 {
    let place = match wrong {
        Wrong::PlaceOfRuleFault if number == 3 => {
            line.rule.iter().position(|&byte| is_foreign(byte)).unwrap()
        }
        Wrong::PlaceOfFallenLetter if number == 20 => fallen(line.rule, u8::le).unwrap(),
        Wrong::PlaceOfStar if number == 21 => repeated_star(line.rule).unwrap(),
        Wrong::PlaceFromZero => index,
        _ => index + 1,
    };
    place as u64
}

/// The number of a line, with the lines from it on and those before it.
fn number(line: &Parts, from_here: &[Parts], known: &[Known], wrong: &Wrong) -> u64 {
    let mut order = ORDER;
    match *wrong {
        Wrong::Swapped(at) => order.swap(at - 1, at),
        Wrong::Before(one, other) => {
            let index = |number: u64| ORDER.iter().position(|&any| any == number).unwrap();
            order[index(other)..=index(one)].rotate_right(1);
        }
        _ => {}
    }
    let holds = |&number: &u64| holds(number, line, from_here, known, wrong);
    let number = order.into_iter().find(holds).unwrap_or(0);
    let is_unread = *wrong == Wrong::UnusedLinesUnread && !is_used(from_here, wrong);
    if is_unread && number != 16 && number != 18 {
        return 0;
    }
    number
}

/// Whether a number holds of a line.
fn holds(number: u64, line: &Parts, from_here: &[Parts], known: &[Known], wrong: &Wrong) -> bool {
    let form = || replaced(line.rule, &[], wrong);
    let text = || replaced(line.rule, known, wrong);
    match number {
        16 => !line.is_of_form,
        18 => known.iter().any(|(name, _)| *name == line.name),
        1 => line.rule.is_empty(),
        2 if *wrong == Wrong::BytesAfterReplacement => text().len() > 255,
        2 => line.rule.len() > 255,
        3 => line.rule.iter().any(|&byte| is_foreign(byte)),
        4 if *wrong == Wrong::NamesInBrackets => {
            let form = replaced_with(line.rule, &[], b'x', wrong);
            check_sentence(&form).is_err()
        }
        4 => check_sentence(&form()).is_err(),
        20 if *wrong == Wrong::EqualLettersTaken => fallen(line.rule, u8::lt).is_some(),
        20 => fallen(line.rule, u8::le).is_some(),
        21 if *wrong == Wrong::RepeatedStarsTaken => false,
        21 if *wrong == Wrong::StarsThroughNames => {
            let bare: Vec<u8> = text().into_iter().filter(|&byte| byte != b')').collect();
            repeated_star(&bare).is_some()
        }
        21 => repeated_star(line.rule).is_some(),
        17 => names(line.rule, wrong).any(|name| !is_known(name, from_here, known, wrong)),
        5 if *wrong == Wrong::NodesAsWritten => count(&form()).0 > 64,
        5 => count(&text()).0 > 64,
        6 if *wrong == Wrong::SpecialAsWritten => count(&form()).1 > 7,
        _ => count(&text()).1 > 7,
    }
}

/// Whether a line may use a name.
fn is_known(name: &[u8], from_here: &[Parts], known: &[Known], wrong: &Wrong) -> bool {
    let here = match wrong {
        Wrong::OwnName => &from_here[..1],
        Wrong::LaterName => &from_here[1..],
        _ => &[],
    };
    let begins = |earlier: &[u8]| *wrong == Wrong::NameByBeginning && earlier.starts_with(name);
    let is_earlier = known
        .iter()
        .any(|(earlier, _)| *earlier == name || begins(earlier));
    is_earlier || here.iter().any(|line| line.name == name)
}

/// Whether the first of some lines is the last one, or is used by the last one or for it.
fn is_used(lines: &[Parts], wrong: &Wrong) -> bool {
    let (first, rest) = (&lines[0], &lines[1..]);
    let uses = |at: usize| names(rest[at].rule, wrong).any(|name| name == first.name);
    rest.is_empty() || (0..rest.len()).any(|at| uses(at) && is_used(&rest[at..], wrong))
}

/// The parts of a line.
fn parts<'a>(line: &'a [u8], wrong: &Wrong) -> Parts<'a> {
    let ended = line.strip_suffix(b"\n");
    let mut fields = ended.unwrap_or(line).splitn(3, |&byte| byte == b'\t');
    let (tag, name, rule) = (fields.next(), fields.next(), fields.next());
    let most = match wrong {
        Wrong::NamesOf(most) => *most,
        _ => 12,
    };
    let is_ended = ended.is_some() || *wrong == Wrong::LastNewlineMissing;
    let is_torn = *wrong == Wrong::TabEndsRule && rule.is_some_and(|rule| rule.contains(&b'\t'));
    let name = name.unwrap_or_default();
    let is_named = is_name(name, most, wrong) && rule.is_some();
    Parts {
        is_of_form: tag == Some(b"R") && is_named && is_ended && !is_torn,
        name,
        rule: rule.unwrap_or_default(),
    }
}

/// Whether some bytes are a name of at most so many letters.
fn is_name(bytes: &[u8], most: usize, wrong: &Wrong) -> bool {
    let is_letter = |byte: &u8| match wrong {
        Wrong::CapitalNames => byte.is_ascii_alphabetic(),
        _ => byte.is_ascii_lowercase(),
    };
    !bytes.is_empty() && bytes.len() <= most && bytes.iter().all(is_letter)
}

/// The pieces of a rule; a bracket that belongs to no name is a byte.
fn pieces<'a>(rule: &'a [u8], wrong: &Wrong) -> Vec<Piece<'a>> {
    let most = match wrong {
        Wrong::UsedNamesOf(most) => *most,
        _ => 12,
    };
    let mut pieces = Vec::new();
    let mut at = 0;
    while at < rule.len() {
        let inner = &rule[at + 1..];
        let length = inner.iter().take(most + 1).position(|&byte| byte == b'>');
        let name = length.map(|length| &inner[..length]);
        match name.filter(|name| rule[at] == b'<' && is_name(name, most, wrong)) {
            Some(name) => {
                pieces.push(Piece::Name(name));
                at += name.len() + 2;
            }
            None => {
                pieces.push(Piece::Byte(rule[at]));
                at += 1;
            }
        }
    }
    pieces
}

/// The names that a rule uses.
fn names<'a>(rule: &'a [u8], wrong: &Wrong) -> impl Iterator<Item = &'a [u8]> {
    pieces(rule, wrong)
        .into_iter()
        .filter_map(|piece| match piece {
            Piece::Name(name) => Some(name),
            Piece::Byte(_) => None,
        })
}

/// A rule's text after replacement, where an operand stands for a name that is not known.
fn replaced(rule: &[u8], known: &[Known], wrong: &Wrong) -> Vec<u8> {
    replaced_with(rule, known, b'1', wrong)
}

/// A rule's text after replacement, where such an operand stands for a name that is not known.
fn replaced_with(rule: &[u8], known: &[Known], operand: u8, wrong: &Wrong) -> Vec<u8> {
    let mut text = Vec::new();
    for piece in pieces(rule, wrong) {
        match piece {
            Piece::Byte(byte) => text.push(byte),
            Piece::Name(name) => match known.iter().find(|(earlier, _)| *earlier == name) {
                Some((_, put_in)) => text.extend([b"(", &put_in[..], b")"].concat()),
                None => text.push(operand),
            },
        }
    }
    text
}

/// For each line of an accepted file, which bytes after replacement are a name's own parentheses.
pub fn own_parentheses(file: &[u8]) -> Vec<Vec<bool>> {
    let mut names: Vec<&[u8]> = Vec::new();
    let mut all: Vec<Vec<bool>> = Vec::new();
    for line in file.split_inclusive(|&byte| byte == b'\n') {
        let line = parts(line, &Wrong::Nothing);
        let mut own = Vec::new();
        for piece in pieces(line.rule, &Wrong::Nothing) {
            match piece {
                Piece::Byte(_) => own.push(false),
                Piece::Name(name) => {
                    let at = names.iter().position(|earlier| *earlier == name).unwrap();
                    own.extend([&[true], &all[at][..], &[true]].concat());
                }
            }
        }
        names.push(line.name);
        all.push(own);
    }
    all
}

/// Whether a byte may not stand in a rule.
fn is_foreign(byte: u8) -> bool {
    !byte.is_ascii_alphabetic() && !b"01|&!*()[].<>".contains(&byte)
}

/// The first letter in brackets that falls from the one before it, whether the rule is a sentence
/// or not.
fn fallen(rule: &[u8], falls: fn(&u8, &u8) -> bool) -> Option<usize> {
    let mut is_open = false;
    for (at, byte) in rule.iter().enumerate() {
        match byte {
            b'[' => is_open = true,
            b'a'..=b'z' | b'A'..=b'Z' if is_open => {
                let before = &rule[at - 1];
                if before.is_ascii_alphabetic() && falls(byte, before) {
                    return Some(at);
                }
            }
            _ => is_open = false,
        }
    }
    None
}

/// The first star after a star.
fn repeated_star(rule: &[u8]) -> Option<usize> {
    (1..rule.len()).find(|&at| rule[..=at].ends_with(b"**"))
}

/// The nodes and the special nodes of a text, whether it is a sentence or not.
pub fn count(text: &[u8]) -> (usize, usize) {
    let (mut nodes, mut special) = (0, 0);
    let (mut after_operand, mut is_open) = (false, false);
    for &byte in text {
        if is_open {
            // The brackets were counted where they began.
            is_open = byte != b']';
            continue;
        }
        is_open = byte == b'[';
        let begins = !b"|&*)".contains(&byte);
        nodes += usize::from(after_operand && begins) + usize::from(!b"()".contains(&byte));
        special += usize::from(b"&!".contains(&byte));
        after_operand = !b"|&!(".contains(&byte);
    }
    (nodes, special)
}
