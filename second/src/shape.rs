//! The shape of a rule text: each set has become one sign, so that it is a leaf like a letter.

use std::ops::Range;

use crate::limits::is_event;
use crate::set::Set;

/// The sign of a set, whether a dot or letters in brackets stand in the text.
const SET: u8 = b'.';

/// The signs of a text, and where each of them begins there.
pub struct Shape<'a> {
    text: &'a [u8],
    pub signs: Vec<u8>,
    offsets: Vec<usize>,
}

impl<'a> Shape<'a> {
    /// The shape of any text; brackets that hold no set stay as they are.
    pub fn of(text: &'a [u8]) -> Self {
        let (mut signs, mut offsets) = (Vec::new(), Vec::new());
        let mut at = 0;
        while at < text.len() {
            let set = set_length(&text[at..]);
            signs.push(set.map_or(text[at], |_| SET));
            offsets.push(at);
            at += set.unwrap_or(1);
        }
        Shape {
            text,
            signs,
            offsets,
        }
    }

    /// Where a sign begins in the text; behind the last sign the text ends.
    pub fn offset(&self, index: usize) -> usize {
        self.offsets.get(index).copied().unwrap_or(self.text.len())
    }

    /// Where a sign stands in the text.
    fn range(&self, index: usize) -> Range<usize> {
        self.offset(index)..self.offset(index + 1)
    }

    /// Where the leaves stand in the text.
    pub fn leaves(&self) -> impl Iterator<Item = Range<usize>> + '_ {
        let leaves = (0..self.signs.len()).filter(|&index| is_leaf(self.signs[index]));
        leaves.map(|index| self.range(index))
    }

    /// How long the longest beginning of a sentence is, if no sentence has this sign where it is.
    pub fn longest_beginning(&self, index: usize) -> usize {
        let offset = self.offset(index);
        match self.text.get(offset) {
            // In brackets that hold no set some letters may still be good.
            Some(b'[') => offset + 1 + run_of_letters(&self.text[offset + 1..]),
            _ => offset,
        }
    }

    /// The set for which a sign stands.
    pub fn set(&self, index: usize) -> Set {
        match &self.text[self.range(index)] {
            b"." => Set::all(),
            [b'[', letters @ .., b']'] => Set::of(letters),
            letter => Set::of(letter),
        }
    }
}

/// Whether a sign is a node without sides.
pub fn is_leaf(sign: u8) -> bool {
    is_event(sign) || b"01".contains(&sign) || sign == SET
}

/// How many bytes the set has with which a text begins, if it begins with one in brackets.
fn set_length(text: &[u8]) -> Option<usize> {
    let inner = text.strip_prefix(b"[")?;
    let letters = run_of_letters(inner);
    let is_closed = inner.get(letters) == Some(&b']');
    (letters > 0 && is_closed).then_some(letters + 2)
}

/// How many letters stand at the beginning of a text.
fn run_of_letters(text: &[u8]) -> usize {
    text.iter().take_while(|&&byte| is_event(byte)).count()
}

/// The first letter in the brackets of a sentence that is not above the one before it.
pub fn first_fallen(text: &[u8]) -> Option<usize> {
    let opening = (0..text.len()).filter(|&at| text[at] == b'[');
    let mut later = opening.flat_map(|at| {
        let letters = run_of_letters(&text[at + 1..]);
        at + 2..at + 1 + letters
    });
    later.find(|&at| text[at] <= text[at - 1])
}
