//! The tuned judge: unproved, bit-parallel Rust that was tuned by hand as far as it went.
//!
//! As the baseline, but entries and exits are the halves of a state set, so that a walk goes on from exits alone, each closed by one
//! mask; and exits to come are also joined in one row, so that a walk passes over numbers that nothing comes to, and ends where nothing
//! is to come. It takes acceptable rules and words only.

mod automaton;
mod walk;

use crate::blocks::Blocks;
use crate::judge::{fill_rows, judge_by, Answer, Method, Owner};
use crate::parse::Node;
use crate::row::Row;

use automaton::{exit, Automaton};
use walk::{walk, Coming, Goal};

/// The tuned `Judge`.
pub fn judge(rule: &[u8], word: &[u8], table: &mut [Row]) -> Answer {
    judge_by::<Automaton>(rule, word, table)
}

impl Method for Automaton {
    fn set_up(nodes: &[Node], blocks: &Blocks) -> Automaton {
        Automaton::of(nodes, blocks)
    }

    fn fill(&self, word: &[u8], table: &mut [Row], block: usize, owner: &Owner) -> u64 {
        let [left, right] = owner.sides;
        let goal = Goal {
            begins: self.reached_from_entry(left) | self.reached_from_entry(right),
            ends: exit(left) | exit(right),
        };
        let mut coming = Coming::nothing();
        fill_rows(word.len(), table, block, owner, |table, start| {
            walk(self, word, table, &mut coming, &goal, start)
        })
    }
}
