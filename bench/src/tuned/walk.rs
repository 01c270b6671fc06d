//! One walk of the automaton over a word from one start, by whole sets of states.

use crate::blocks::MOST_SPECIALS;
use crate::letters::column;
use crate::row::{bit, join, next_bit, set_if, Row, NO_BITS};

use super::automaton::{Automaton, States};

/// Where the walks of an owner begin, free moves included, and the exits that a span has to reach together to obey.
pub struct Goal {
    pub begins: States,
    pub ends: States,
}

/// The numbers at which the special nodes that a walk has entered come to their exits.
pub struct Coming {
    /// By special node, in the order of their blocks.
    rows: [Row; MOST_SPECIALS],
    /// All of them joined, so that numbers without any exit are passed at once.
    any: Row,
    /// The special nodes that were entered, as bits in the same order.
    entered: u64,
}

impl Coming {
    pub fn nothing() -> Coming {
        Coming {
            rows: [NO_BITS; MOST_SPECIALS],
            any: NO_BITS,
            entered: 0,
        }
    }

    /// Forgets the last walk.
    fn clear(&mut self) {
        if self.entered != 0 {
            *self = Coming::nothing();
        }
    }

    fn add(&mut self, special: usize, row: &Row) {
        join(&mut self.rows[special], row);
        join(&mut self.any, row);
        self.entered |= 1 << special;
    }

    /// The special nodes whose exits are reached at number j.
    fn at(&self, j: usize, special_nodes: &[usize; MOST_SPECIALS]) -> u64 {
        if bit(&self.any, j) == 0 {
            return 0;
        }
        let mut nodes = 0;
        let mut entered = self.entered;
        while entered != 0 {
            let special = entered.trailing_zeros() as usize;
            nodes |= bit(&self.rows[special], j) << special_nodes[special];
            entered &= entered - 1;
        }
        nodes
    }
}

/// Walks from number `start`; answers the row of the ends that the owner asks for, and the number of places reached.
///
/// The table has the blocks of all special nodes that the owner contains.
pub fn walk(
    automaton: &Automaton,
    word: &[u8],
    table: &[Row],
    coming: &mut Coming,
    goal: &Goal,
    start: usize,
) -> (Row, u64) {
    coming.clear();
    let mut ends = NO_BITS;
    let mut count = 0;
    let mut states = goal.begins;
    let mut j = start;
    loop {
        if states as u64 & automaton.specials != 0 {
            states = enter_specials(automaton, word.len() + 1, table, coming, states, j);
        }
        count += u64::from(states.count_ones());
        set_if(&mut ends, j, states & goal.ends == goal.ends);
        if j == word.len() {
            return (ends, count);
        }
        let mut nodes = states as u64 & automaton.letters[column(word[j])];
        j += 1;
        nodes |= coming.at(j, &automaton.blocks.special_nodes);
        if nodes == 0 {
            match next_bit(&coming.any, j) {
                Some(later) => j = later,
                None => return (ends, count),
            }
            nodes = coming.at(j, &automaton.blocks.special_nodes);
        }
        states = automaton.reached_from_exits(nodes);
    }
}

/// The states reached at number j once every special node that is entered there is passed as its block says.
fn enter_specials(
    automaton: &Automaton,
    rows: usize,
    table: &[Row],
    coming: &mut Coming,
    mut states: States,
    j: usize,
) -> States {
    let mut left = automaton.specials;
    let mut entered = states as u64 & left;
    while entered != 0 {
        let node = entered.trailing_zeros() as usize;
        left &= !(1 << node);
        let special = automaton.blocks.special_of[node];
        let row = &table[rows * (special + 1) + j];
        coming.add(special, row);
        if bit(row, j) == 1 {
            states |= automaton.reached_from_exits(1 << node);
        }
        entered = states as u64 & left;
    }
    states
}
