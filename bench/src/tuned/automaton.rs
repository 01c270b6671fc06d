//! The automaton of a regular expression: its states, its free moves, closed, and the nodes of its letters and special nodes.

use crate::blocks::Blocks;
use crate::letters::COLUMNS;
use crate::parse::{Kind, Node, MOST_NODES};

/// A set of states: bit x is the entry of node x, and bit 64 + x its exit.
///
/// A letter's exit is thus its entry shifted by 64, and the nodes at whose exits a walk goes on fit one u64.
pub type States = u128;

pub struct Automaton {
    /// For each node the states that free moves lead to from its entry, as far as its exit, both included.
    within: [States; MOST_NODES],
    /// For each node the states that free moves lead to from its exit, itself included.
    after: [States; MOST_NODES],
    /// The nodes that each letter's event takes, by the letter's column.
    pub letters: [u64; COLUMNS],
    /// The special nodes.
    pub specials: u64,
    pub blocks: Blocks,
}

pub fn entry(node: usize) -> States {
    1 << node
}

pub fn exit(node: usize) -> States {
    1 << (64 + node)
}

impl Automaton {
    pub fn of(nodes: &[Node], blocks: &Blocks) -> Automaton {
        let within = within(nodes);
        let mut letters = [0; COLUMNS];
        let mut specials = 0;
        for (x, node) in nodes.iter().enumerate() {
            match node.kind {
                Kind::Letter(set) => set.columns().for_each(|column| letters[column] |= 1 << x),
                Kind::Intersection | Kind::Complement => specials |= 1 << x,
                _ => {}
            }
        }
        Automaton {
            after: after(nodes, &within),
            within,
            letters,
            specials,
            blocks: *blocks,
        }
    }

    /// Where free moves lead from the entry of the whole rule or of a special node's side, whose exit they do not leave.
    pub fn reached_from_entry(&self, node: usize) -> States {
        self.within[node]
    }

    /// Where free moves lead from the exits of nodes.
    pub fn reached_from_exits(&self, mut nodes: u64) -> States {
        let mut states = 0;
        while nodes != 0 {
            states |= self.after[nodes.trailing_zeros() as usize];
            nodes &= nodes - 1;
        }
        states
    }
}

/// `Automaton::within`, from the sides up.
fn within(nodes: &[Node]) -> [States; MOST_NODES] {
    let mut within = [0; MOST_NODES];
    for (x, node) in nodes.iter().enumerate() {
        let (l, r) = (node.left, node.right);
        let moves = match node.kind {
            Kind::Empty | Kind::Letter(_) | Kind::Intersection | Kind::Complement => 0,
            Kind::Epsilon => exit(x),
            Kind::Union => {
                let sides = within[l] | within[r];
                sides | exit_if(x, sides & (exit(l) | exit(r)) != 0)
            }
            Kind::Concatenation if within[l] & exit(l) == 0 => within[l],
            Kind::Concatenation => within[l] | within[r] | exit_if(x, within[r] & exit(r) != 0),
            Kind::Star => within[l] | exit(x),
        };
        within[x] = entry(x) | moves;
    }
    within
}

fn exit_if(node: usize, reached: bool) -> States {
    States::from(reached) << (64 + node)
}

/// `Automaton::after`, from the root down: what follows a side is said by the node above it. Nothing follows a special node's side.
fn after(nodes: &[Node], within: &[States; MOST_NODES]) -> [States; MOST_NODES] {
    let mut after: [States; MOST_NODES] = std::array::from_fn(exit);
    for (x, node) in nodes.iter().enumerate().rev() {
        let (l, r) = (node.left, node.right);
        match node.kind {
            Kind::Union => {
                after[l] |= after[x];
                after[r] |= after[x];
            }
            Kind::Concatenation => {
                after[r] |= after[x];
                after[l] |= within[r];
                if within[r] & exit(r) != 0 {
                    after[l] |= after[r];
                }
            }
            Kind::Star => after[l] |= within[l] | after[x],
            _ => {}
        }
    }
    after
}
