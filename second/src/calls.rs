//! Judge calls for the edges and the draws: a sentence and a word, and what the judge needs.

use crate::judge::judge;
use crate::stream::Case;
use crate::{job, rule, table};

/// How many numbers a table has that is longer than it must be.
const BEYOND: usize = 3;

/// A rule and a word that only the table's length and the limit can get refused.
pub struct Call {
    rule: Vec<u8>,
    word: Vec<u8>,
    /// How many numbers the judge needs.
    pub need: usize,
    /// The full work count.
    pub count: u64,
    /// The limit that the program would lend, m × (n + 1) × (n + 2).
    pub bound: u64,
}

impl Call {
    /// A call with a sentence within the limits and a word of events.
    pub fn new(rule: &[u8], word: &[u8]) -> Self {
        let reading = rule::read(rule).expect("a call has a sentence within the limits");
        let need = table::need(reading.k(), word.len());
        Call {
            rule: rule.to_vec(),
            word: word.to_vec(),
            need,
            count: judge(rule, word, u64::MAX, &mut vec![0; need]).count,
            bound: job::limit(reading.m(), word.len()),
        }
    }

    /// The length of the word.
    pub fn n(&self) -> usize {
        self.word.len()
    }

    /// The call with such a table and limit.
    pub fn with(&self, table: usize, limit: u64) -> Case {
        case(table, limit, &self.rule, &self.word)
    }

    /// The call with just the table and the limit it takes.
    pub fn exact(&self) -> Case {
        self.with(self.need, self.count)
    }

    /// The call with just the table it takes, and with the program's limit, which always passes.
    pub fn passing(&self) -> Case {
        self.with(self.need, self.bound)
    }

    /// The call with a limit one below the count; the table has numbers that are not needed.
    pub fn one_below(&self) -> Case {
        self.with(self.need + BEYOND, self.count - 1)
    }

    /// The call with the program's limit, which always passes, with its count, and with one below.
    pub fn around_count(&self) -> [Case; 3] {
        let passing = self.with(self.need + BEYOND, self.bound);
        [passing, self.exact(), self.one_below()]
    }
}

/// Any judge call.
pub fn case(table: usize, limit: u64, rule: &[u8], word: &[u8]) -> Case {
    Case::Judge {
        table,
        limit,
        rule: rule.to_vec(),
        word: word.to_vec(),
    }
}
