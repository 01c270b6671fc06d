//! The reader of rule texts: refusals 1 to 6, 20 and 21, and the tree with its byte offsets.
//!
//! A sentence is read by splitting it at its loosest operator, over and over;
//! whether a text is a sentence at all, and how many nodes it has, is settled before, by passes
//! over its signs, of which a set is one. What is read from a sentence does not depend on a rule's
//! 255 bytes: a text in which names were replaced is longer, and has far more parentheses than
//! nodes.

use std::ops::Range;

use crate::limits::{MAX_NODES, MAX_RULE_BYTES, MAX_SPECIAL};
use crate::refusal::{Reason, Refusal};
use crate::set::Set;
use crate::shape::{first_fallen, is_leaf, Shape};
use crate::stars::first_repeated;

/// What a node is; each side is given by its index in the list of nodes.
#[derive(Clone, Copy, Debug, PartialEq, Eq)]
pub enum Kind {
    NoWord,
    EmptyWord,
    /// An event that is one of these letters.
    OneOf(Set),
    Union(usize, usize),
    Intersection(usize, usize),
    Concatenation(usize, usize),
    Complement(usize),
    Star(usize),
}

impl Kind {
    /// Whether the node is one of the special ones.
    pub fn is_special(self) -> bool {
        matches!(self, Kind::Intersection(..) | Kind::Complement(_))
    }
}

/// One node: its kind and its byte offset in the rule text.
#[derive(Clone, Copy, Debug, PartialEq, Eq)]
pub struct Node {
    pub offset: usize,
    pub kind: Kind,
}

/// A rule that was read: its nodes, each after its left and its right side, so the head is last.
#[derive(Clone, Debug, PartialEq, Eq)]
pub struct Rule {
    pub nodes: Vec<Node>,
}

impl Rule {
    /// The number of nodes.
    pub fn m(&self) -> usize {
        self.nodes.len()
    }

    /// The number of special nodes.
    pub fn k(&self) -> usize {
        self.special_nodes().count()
    }

    /// The index of the node that heads the whole rule.
    pub fn head(&self) -> usize {
        self.nodes.len() - 1
    }

    /// The indices of the special nodes, in the order of the list of nodes.
    pub fn special_nodes(&self) -> impl Iterator<Item = usize> + '_ {
        (0..self.nodes.len()).filter(|&node| self.nodes[node].kind.is_special())
    }
}

/// Reads a rule text, or says why it is refused.
pub fn read(text: &[u8]) -> Result<Rule, Refusal> {
    check_text(text)?;
    if let Some(offset) = first_repeated(text) {
        return Err(Refusal::at(Reason::StarAfterStar, offset));
    }
    read_sentence(text).map_err(Refusal::without_place)
}

/// Reads a rule text in which stars may directly follow each other.
pub fn read_with_repeated_stars(text: &[u8]) -> Result<Rule, Refusal> {
    check_text(text)?;
    read_sentence(text).map_err(Refusal::without_place)
}

/// Refuses what is refused before any star is looked at: 1 to 4 and 20.
fn check_text(text: &[u8]) -> Result<(), Refusal> {
    if text.is_empty() {
        return Err(Refusal::without_place(Reason::RuleEmpty));
    }
    if text.len() > MAX_RULE_BYTES {
        return Err(Refusal::without_place(Reason::RuleTooLong));
    }
    if let Some(offset) = text.iter().position(|&byte| !is_listed(byte)) {
        return Err(Refusal::at(Reason::RuleByte, offset));
    }
    check_sentence(text).map_err(|length| Refusal::at(Reason::NotASentence, length))?;
    if let Some(offset) = first_fallen(text) {
        return Err(Refusal::at(Reason::LetterNotAbove, offset));
    }
    Ok(())
}

/// Reads a sentence of any length, unless it has too many nodes or special nodes.
pub fn read_sentence(text: &[u8]) -> Result<Rule, Reason> {
    let shape = Shape::of(text);
    // Counted before they are split, so that splitting never goes deeper than 64 nodes.
    let (nodes, special) = count_nodes(&shape.signs);
    if nodes > MAX_NODES {
        return Err(Reason::TooManyNodes);
    }
    if special > MAX_SPECIAL {
        return Err(Reason::TooManySpecialNodes);
    }
    Ok(split_sentence(&shape))
}

/// Whether a byte may stand in a rule text.
pub fn is_listed(byte: u8) -> bool {
    is_leaf(byte) || b"|&!*()[]".contains(&byte)
}

/// Checks that a text is a sentence; if not, the error is the longest beginning's length.
pub fn check_sentence(text: &[u8]) -> Result<(), usize> {
    let shape = Shape::of(text);
    check_signs(&shape.signs).map_err(|index| shape.longest_beginning(index))
}

/// Checks that signs are those of a sentence; if not, the error is the index of the first that
/// stands in no sentence there, or their number if more are due.
///
/// All signs before that can be completed: by a letter if an operand is due,
/// and then by a closing parenthesis for each one still open.
fn check_signs(signs: &[u8]) -> Result<(), usize> {
    let mut open = 0;
    let mut operand_due = true;
    for (index, &sign) in signs.iter().enumerate() {
        match sign {
            b'(' => {
                open += 1;
                operand_due = true;
            }
            b'!' => operand_due = true,
            b'|' | b'&' if !operand_due => operand_due = true,
            b'*' if !operand_due => {}
            b')' if !operand_due && open > 0 => open -= 1,
            _ if is_leaf(sign) => operand_due = false,
            _ => return Err(index),
        }
    }
    if operand_due || open > 0 {
        return Err(signs.len());
    }
    Ok(())
}

/// How many nodes the signs of a sentence are, and how many of them are special.
fn count_nodes(signs: &[u8]) -> (usize, usize) {
    let written = signs.iter().filter(|sign| !b"()".contains(sign)).count();
    let special = signs.iter().filter(|sign| b"&!".contains(sign)).count();
    let ends_operand = |sign: u8| is_leaf(sign) || sign == b')' || sign == b'*';
    let meeting = |pair: &&[u8]| ends_operand(pair[0]) && begins_operand(pair[1]);
    // Concatenations have no sign: they stand wherever two operands meet.
    let concatenations = signs.windows(2).filter(meeting).count();
    (written + concatenations, special)
}

/// Whether an operand may begin with a sign.
fn begins_operand(sign: u8) -> bool {
    is_leaf(sign) || sign == b'(' || sign == b'!'
}

/// Reads a shape that is known to be a sentence's.
fn split_sentence(shape: &Shape) -> Rule {
    let mut splitter = Splitter {
        shape,
        partners: partners(&shape.signs),
        nodes: Vec::new(),
    };
    splitter.read_part(0..shape.signs.len());
    Rule {
        nodes: splitter.nodes,
    }
}

/// For each opening parenthesis of a sentence, by its index, the index of the closing one.
fn partners(signs: &[u8]) -> Vec<usize> {
    let mut partners = vec![0; signs.len()];
    let mut open = Vec::new();
    for (at, &sign) in signs.iter().enumerate() {
        match sign {
            b'(' => open.push(at),
            b')' => partners[open.pop().expect("a sentence opens what it closes")] = at,
            _ => {}
        }
    }
    partners
}

/// The shape that is split, its parentheses' partners and the nodes read so far.
struct Splitter<'a> {
    shape: &'a Shape<'a>,
    partners: Vec<usize>,
    nodes: Vec<Node>,
}

impl Splitter<'_> {
    /// Reads a part of the signs; gives the index of the node that heads it.
    fn read_part(&mut self, part: Range<usize>) -> usize {
        let Range { start, end } = self.without_parentheses(part);
        let outside = self.outside_parentheses(start, end);
        let outside = || outside.iter().copied();
        // Grouping from the left makes the last of the loosest operators the head.
        let last = |sign: u8| outside().rfind(|&at| self.sign(at) == sign);
        let last_side = || outside().rfind(|&at| self.begins_side(start, at));
        if let Some(at) = last(b'|') {
            self.read_two_sides(start..at, at + 1..end, at, Kind::Union)
        } else if let Some(at) = last(b'&') {
            self.read_two_sides(start..at, at + 1..end, at, Kind::Intersection)
        } else if let Some(at) = last_side() {
            self.read_two_sides(start..at, at..end, at, Kind::Concatenation)
        } else if self.sign(start) == b'!' {
            self.read_one_side(start + 1..end, start, Kind::Complement)
        } else if self.sign(end - 1) == b'*' {
            self.read_one_side(start..end - 1, end - 1, Kind::Star)
        } else {
            self.push(start, self.leaf_kind(start))
        }
    }

    /// The sign at an index.
    fn sign(&self, at: usize) -> u8 {
        self.shape.signs[at]
    }

    /// A part without the parentheses that stand around all of it, however many they are.
    fn without_parentheses(&self, part: Range<usize>) -> Range<usize> {
        let Range { mut start, mut end } = part;
        while self.sign(start) == b'(' && self.partners[start] == end - 1 {
            start += 1;
            end -= 1;
        }
        start..end
    }

    /// The indices that lie in no parentheses of a part; an opening one itself lies outside.
    fn outside_parentheses(&self, start: usize, end: usize) -> Vec<usize> {
        let mut outside = Vec::new();
        let mut at = start;
        while at < end {
            outside.push(at);
            at = match self.sign(at) {
                b'(' => self.partners[at] + 1,
                _ => at + 1,
            };
        }
        outside
    }

    /// Whether a concatenation's right side begins at an index, in a part with nothing looser.
    fn begins_side(&self, start: usize, at: usize) -> bool {
        // What follows a complement sign is that sign's own side.
        at > start && begins_operand(self.sign(at)) && self.sign(at - 1) != b'!'
    }

    /// Reads both sides and then adds the node that joins them.
    fn read_two_sides(
        &mut self,
        left: Range<usize>,
        right: Range<usize>,
        at: usize,
        kind: fn(usize, usize) -> Kind,
    ) -> usize {
        let left = self.read_part(left);
        let right = self.read_part(right);
        self.push(at, kind(left, right))
    }

    /// Reads the inner part and then adds the node around it.
    fn read_one_side(&mut self, inner: Range<usize>, at: usize, kind: fn(usize) -> Kind) -> usize {
        let inner = self.read_part(inner);
        self.push(at, kind(inner))
    }

    /// The kind of the node without sides that a sign is.
    fn leaf_kind(&self, at: usize) -> Kind {
        match self.sign(at) {
            b'0' => Kind::NoWord,
            b'1' => Kind::EmptyWord,
            _ => Kind::OneOf(self.shape.set(at)),
        }
    }

    /// Adds the node of a sign after its sides; gives the node's index.
    fn push(&mut self, at: usize, kind: Kind) -> usize {
        let offset = self.shape.offset(at);
        self.nodes.push(Node { offset, kind });
        self.nodes.len() - 1
    }
}
