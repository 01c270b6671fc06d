//! A rule with names, as a line of a rule file has it: refusals 1 to 6, 17, 20 and 21, and its
//! reading.
//!
//! The text after replacement is really made, and then read like any other sentence.

use crate::limits::{MAX_NODES, MAX_RULE_BYTES};
use crate::refusal::Reason;
use crate::rule::{check_sentence, is_listed, read_sentence, Rule};
use crate::rule_file::{is_name, Line};
use crate::shape::first_fallen;
use crate::stars::first_repeated;

/// What stands for any name while only the form of a rule is checked.
const ANY_OPERAND: u8 = b'1';

/// A part of a written rule: a byte that stands for itself, or what stands between `<` and `>`.
#[derive(Clone, Copy, Debug, PartialEq, Eq)]
pub enum Part<'a> {
    Sign(u8),
    Name(&'a [u8]),
}

/// Reads a written rule after the earlier lines: its text after replacement, and its nodes.
pub fn read(written: &[u8], earlier: &[Line]) -> Result<(Vec<u8>, Rule), Reason> {
    if written.is_empty() {
        return Err(Reason::RuleEmpty);
    }
    if written.len() > MAX_RULE_BYTES {
        return Err(Reason::RuleTooLong);
    }
    if first_foreign(written).is_some() {
        return Err(Reason::RuleByte);
    }
    let parts = parts(written).ok_or(Reason::NotASentence)?;
    check_form(&parts)?;
    check_names(&parts, earlier)?;
    // Brackets hold no names, so they are judged as they are written.
    if first_fallen(written).is_some() {
        return Err(Reason::LetterNotAbove);
    }
    // So are stars: a name stands for a rule in parentheses.
    if first_repeated(written).is_some() {
        return Err(Reason::StarAfterStar);
    }
    let text = replaced(&parts, earlier)?;
    let rule = read_sentence(&text)?;
    Ok((text, rule))
}

/// The offset of the first byte that may not stand in a rule with names.
pub fn first_foreign(written: &[u8]) -> Option<usize> {
    let is_foreign = |&byte: &u8| !is_listed(byte) && byte != b'<' && byte != b'>';
    written.iter().position(is_foreign)
}

/// The parts of a written rule, unless a `<` or `>` belongs to no well-formed name.
pub fn parts(written: &[u8]) -> Option<Vec<Part<'_>>> {
    let mut parts = Vec::new();
    let mut rest = written;
    while let Some((&byte, after)) = rest.split_first() {
        rest = after;
        parts.push(match byte {
            b'<' => {
                let end = after.iter().position(|&byte| byte == b'>')?;
                rest = &after[end + 1..];
                Part::Name(Some(&after[..end]).filter(|name| is_name(name))?)
            }
            b'>' => return None,
            _ => Part::Sign(byte),
        });
    }
    Some(parts)
}

/// Checks that a rule would be a sentence if every name were some operand.
fn check_form(parts: &[Part]) -> Result<(), Reason> {
    check_sentence(&form(parts)).map_err(|_| Reason::NotASentence)
}

/// A rule with some operand for every name.
pub fn form(parts: &[Part]) -> Vec<u8> {
    let byte = |part: &Part| match *part {
        Part::Sign(byte) => byte,
        Part::Name(_) => ANY_OPERAND,
    };
    parts.iter().map(byte).collect()
}

/// Checks that an earlier line has each name.
fn check_names(parts: &[Part], earlier: &[Line]) -> Result<(), Reason> {
    let is_known = |part: &Part| match *part {
        Part::Sign(_) => true,
        Part::Name(name) => find(name, earlier).is_some(),
    };
    let all_known = parts.iter().all(is_known);
    all_known.then_some(()).ok_or(Reason::UnknownName)
}

/// The text in which each name has become its line's text after replacement, in parentheses.
fn replaced(parts: &[Part], earlier: &[Line]) -> Result<Vec<u8>, Reason> {
    let mut text = Vec::new();
    let mut nodes_put_in = 0;
    for part in parts {
        match *part {
            Part::Sign(byte) => text.push(byte),
            Part::Name(name) => {
                let line = find(name, earlier).expect("each name is checked before");
                nodes_put_in += line.rule.m();
                if nodes_put_in > MAX_NODES {
                    // Refused anyway, so its ten million bytes are not wanted.
                    return Err(Reason::TooManyNodes);
                }
                text.push(b'(');
                text.extend_from_slice(&line.text);
                text.push(b')');
            }
        }
    }
    Ok(text)
}

/// The earlier line that has a name.
fn find<'a>(name: &[u8], earlier: &'a [Line]) -> Option<&'a Line> {
    earlier.iter().find(|line| line.name == name)
}
