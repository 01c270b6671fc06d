//! The automaton of a regular expression: its states, its free moves, closed, and where its letters and special nodes are entered.

use crate::blocks::Blocks;
use crate::judge::Owner;
use crate::letters::COLUMNS;
use crate::parse::{Kind, Node, MOST_NODES};

/// A set of states: bit 2x is the entry of node x, and bit 2x + 1 its exit.
pub type States = u128;

const MOST_STATES: usize = 2 * MOST_NODES;

pub struct Automaton {
    /// For each state the states that free moves lead to from it, itself included.
    pub closed: [States; MOST_STATES],
    /// The entries of the nodes that each letter's event takes, by the letter's column.
    pub letters: [States; COLUMNS],
    /// The entries of the special nodes.
    pub specials: States,
    pub blocks: Blocks,
}

pub fn entry(node: usize) -> States {
    1 << (2 * node)
}

pub fn exit(node: usize) -> States {
    2 << (2 * node)
}

impl Automaton {
    pub fn of(nodes: &[Node], blocks: &Blocks) -> Automaton {
        let mut letters = [0; COLUMNS];
        let mut specials = 0;
        for (x, node) in nodes.iter().enumerate() {
            match node.kind {
                Kind::Letter(set) => set.columns().for_each(|column| letters[column] |= entry(x)),
                Kind::Intersection | Kind::Complement => specials |= entry(x),
                _ => {}
            }
        }
        Automaton {
            closed: close(&free_moves(nodes), nodes.len()),
            letters,
            specials,
            blocks: *blocks,
        }
    }

    /// The special nodes whose blocks are filled before an owner's, by the places of their blocks.
    pub fn filled_before(&self, owner: &Owner) -> Vec<usize> {
        let last = owner.sides[1];
        (0..self.blocks.k)
            .filter(|&special| self.blocks.special_nodes[special] <= last)
            .collect()
    }
}

/// For each state itself and where one free move leads from it.
fn free_moves(nodes: &[Node]) -> [States; MOST_STATES] {
    let mut moves = std::array::from_fn(|state| 1 << state);
    for (x, node) in nodes.iter().enumerate() {
        let (l, r) = (node.left, node.right);
        match node.kind {
            Kind::Empty | Kind::Letter(_) | Kind::Intersection | Kind::Complement => {}
            Kind::Epsilon => moves[2 * x] |= exit(x),
            Kind::Union => {
                moves[2 * x] |= entry(l) | entry(r);
                moves[2 * l + 1] |= exit(x);
                moves[2 * r + 1] |= exit(x);
            }
            Kind::Concatenation => {
                moves[2 * x] |= entry(l);
                moves[2 * l + 1] |= entry(r);
                moves[2 * r + 1] |= exit(x);
            }
            Kind::Star => {
                moves[2 * x] |= entry(l) | exit(x);
                moves[2 * l + 1] |= entry(l) | exit(x);
            }
        }
    }
    moves
}

/// Closes free moves: adds what each state's moves lead to until nothing is new.
///
/// Exits are taken from the root down and then entries from the leaves up, which is how most moves lead, so that few rounds are needed.
fn close(moves: &[States; MOST_STATES], m: usize) -> [States; MOST_STATES] {
    let mut closed = *moves;
    loop {
        let mut changed = false;
        let exits = (0..m).rev().map(|x| 2 * x + 1);
        for state in exits.chain((0..m).map(|x| 2 * x)) {
            let more = joined(&closed, moves[state]);
            changed |= more & !closed[state] != 0;
            closed[state] |= more;
        }
        if !changed {
            return closed;
        }
    }
}

/// All that the states of a set lead to.
fn joined(closed: &[States; MOST_STATES], mut states: States) -> States {
    let mut all = 0;
    while states != 0 {
        all |= closed[states.trailing_zeros() as usize];
        states &= states - 1;
    }
    all
}
