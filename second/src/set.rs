//! Sets of letters: what a node without sides fits that is no `0` and no `1`.

use std::fmt;

use crate::limits::LETTERS;

/// A set of letters; a single letter is a set of one.
#[derive(Clone, Copy, PartialEq, Eq)]
pub struct Set {
    /// The bit worth 2 to the power of a byte tells whether that byte belongs.
    members: u128,
}

impl Set {
    /// The set of these letters, in any order and however often each comes.
    pub fn of(letters: &[u8]) -> Self {
        let with = |members: u128, &letter: &u8| members | 1 << letter;
        Set {
            members: letters.iter().fold(0, with),
        }
    }

    /// The set of all letters.
    pub fn all() -> Self {
        Set::of(LETTERS)
    }

    /// Whether a byte belongs.
    pub fn has(self, byte: u8) -> bool {
        let bit = 1u128.checked_shl(byte.into()).unwrap_or(0);
        self.members & bit != 0
    }

    /// The letters in byte order.
    pub fn letters(self) -> impl Iterator<Item = u8> {
        (0..=u8::MAX).filter(move |&byte| self.has(byte))
    }
}

impl fmt::Display for Set {
    fn fmt(&self, formatter: &mut fmt::Formatter) -> fmt::Result {
        let letters: String = self.letters().map(char::from).collect();
        formatter.write_str(&letters)
    }
}

impl fmt::Debug for Set {
    fn fmt(&self, formatter: &mut fmt::Formatter) -> fmt::Result {
        write!(formatter, "[{self}]")
    }
}
