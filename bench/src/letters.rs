//! Sets of letters, and the columns that letters have in the automata.

/// The columns.
pub const COLUMNS: usize = 64;

/// A letter's column: the low six bits of its byte, which no two letters share.
pub const fn column(letter: u8) -> usize {
    (letter & 63) as usize
}

/// A set of letters: a letter's bit is that of its column.
#[derive(Clone, Copy)]
pub struct Letters(u64);

/// The bits of 26 letters, where the first one has the lowest bit.
const ALPHABET: u64 = (1 << 26) - 1;

impl Letters {
    pub const NONE: Letters = Letters(0);
    pub const EVERY: Letters = Letters(ALPHABET << column(b'A') | ALPHABET << column(b'a'));

    pub fn single(letter: u8) -> Letters {
        Letters(1 << column(letter))
    }

    pub fn with(self, letter: u8) -> Letters {
        Letters(self.0 | 1 << column(letter))
    }

    /// The columns of the letters, in as many steps as there are letters.
    pub fn columns(self) -> impl Iterator<Item = usize> {
        let mut left = self.0;
        std::iter::from_fn(move || {
            let next = (left != 0).then(|| left.trailing_zeros() as usize);
            left &= left.wrapping_sub(1);
            next
        })
    }
}
