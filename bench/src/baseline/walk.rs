//! One walk of the automaton over a word from one start, level by level, by whole sets of states.

use crate::blocks::MOST_SPECIALS;
use crate::letters::column;
use crate::row::{bit, join, set_if, Row, NO_BITS};

use super::automaton::{entry, exit, Automaton, States};

pub struct Walk<'a> {
    automaton: &'a Automaton,
    word: &'a [u8],
    table: &'a [Row],
    /// The special nodes that may be entered, by the places of their blocks.
    filled: &'a [usize],
    /// The numbers at which the special nodes that were entered come to their exits, by the places of their blocks.
    coming: [Row; MOST_SPECIALS],
    /// Whether any special node was entered.
    entered: bool,
}

impl<'a> Walk<'a> {
    pub fn new(
        automaton: &'a Automaton,
        word: &'a [u8],
        table: &'a [Row],
        filled: &'a [usize],
    ) -> Walk<'a> {
        Walk {
            automaton,
            word,
            table,
            filled,
            coming: [NO_BITS; MOST_SPECIALS],
            entered: false,
        }
    }

    /// Walks from number `start`; answers the row of the ends at which both sides obey, and the number of places reached.
    pub fn run(mut self, sides: &[usize; 2], start: usize) -> (Row, u64) {
        let goal = exit(sides[0]) | exit(sides[1]);
        let mut ends = NO_BITS;
        let mut count = 0;
        let mut carried = entry(sides[0]) | entry(sides[1]);
        for j in start..=self.word.len() {
            let states = self.level(carried | self.exits_at(j), j);
            count += u64::from(states.count_ones());
            set_if(&mut ends, j, states & goal == goal);
            carried = self.carried(states, j);
            if carried == 0 && !self.entered {
                break;
            }
        }
        (ends, count)
    }

    /// The exits of the letters that the event after number j takes.
    fn carried(&self, states: States, j: usize) -> States {
        match self.word.get(j) {
            Some(&letter) => (states & self.automaton.letters[column(letter)]) << 1,
            None => 0,
        }
    }

    /// The exits that come to number j.
    fn exits_at(&self, j: usize) -> States {
        let mut exits = 0;
        for &special in self.filled {
            if bit(&self.coming[special], j) == 1 {
                exits |= exit(self.automaton.blocks.special_nodes[special]);
            }
        }
        exits
    }

    /// All states of number j, from those that are there at first: what free moves and special nodes that are passed there lead to.
    fn level(&mut self, mut todo: States, j: usize) -> States {
        let mut states = 0;
        while todo != 0 {
            let state = todo.trailing_zeros() as usize;
            todo &= todo - 1;
            if states >> state & 1 == 1 {
                continue;
            }
            let closed = self.automaton.closed[state];
            let entries = closed & !states & self.automaton.specials;
            states |= closed;
            if entries != 0 {
                todo |= self.enter(entries, j) & !states;
            }
        }
        states
    }

    /// Enters special nodes at number j, and answers the exits that are reached there already.
    fn enter(&mut self, mut entries: States, j: usize) -> States {
        self.entered = true;
        let mut exits = 0;
        while entries != 0 {
            let node = entries.trailing_zeros() as usize / 2;
            entries &= entries - 1;
            let special = self.automaton.blocks.special_of[node];
            let row = &self.table[(self.word.len() + 1) * (special + 1) + j];
            join(&mut self.coming[special], row);
            if bit(row, j) == 1 {
                exits |= exit(node);
            }
        }
        exits
    }
}
