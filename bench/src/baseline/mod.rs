//! The baseline: the plain bit-parallel method in unproved Rust, the speed that a user could have without proofs.
//!
//! State sets are numbers of 128 bits, free moves are masks that are closed once, a letter's exit is its entry shifted by one, and the
//! rows of special nodes are joined into exits to come. A walk goes level by level to the end of the word, or until nothing is carried
//! and no special node was entered. It takes acceptable rules and words only.

mod automaton;
mod walk;

use crate::blocks::Blocks;
use crate::judge::{fill_rows, judge_by, Answer, Method, Owner};
use crate::parse::Node;
use crate::row::Row;

use automaton::Automaton;
use walk::Walk;

/// The baseline `Judge`.
pub fn judge(rule: &[u8], word: &[u8], table: &mut [Row]) -> Answer {
    judge_by::<Automaton>(rule, word, table)
}

impl Method for Automaton {
    fn set_up(nodes: &[Node], blocks: &Blocks) -> Automaton {
        Automaton::of(nodes, blocks)
    }

    fn fill(&self, word: &[u8], table: &mut [Row], block: usize, owner: &Owner) -> u64 {
        let filled = self.filled_before(owner);
        fill_rows(word.len(), table, block, owner, |table, start| {
            Walk::new(self, word, table, &filled).run(&owner.sides, start)
        })
    }
}
