//! The blocks of rows that a span table is made of: one for the whole rule, and then one for each special node by rising byte offset.

use crate::parse::{Node, MOST_NODES};
use crate::row::{Row, NO_BITS};

/// The most special nodes that an acceptable rule has.
pub const MOST_SPECIALS: usize = 7;

/// The most blocks of a table.
pub const MOST_BLOCKS: usize = MOST_SPECIALS + 1;

/// A table that is long enough for any rule on n events.
pub fn empty_table(n: usize) -> Vec<Row> {
    vec![NO_BITS; MOST_BLOCKS * (n + 1)]
}

/// The special nodes in the order of their blocks.
#[derive(Clone, Copy)]
pub struct Blocks {
    /// The number of special nodes.
    pub k: usize,
    /// The special nodes by rising byte offset.
    pub special_nodes: [usize; MOST_SPECIALS],
    /// The place of each special node in that order.
    pub special_of: [usize; MOST_NODES],
}

impl Blocks {
    pub fn of(nodes: &[Node]) -> Blocks {
        let mut special_nodes = [0; MOST_SPECIALS];
        let mut special_of = [0; MOST_NODES];
        let mut order: Vec<usize> = (0..nodes.len())
            .filter(|&x| nodes[x].is_special())
            .collect();
        order.sort_unstable_by_key(|&x| nodes[x].offset);
        for (place, &x) in order.iter().enumerate() {
            special_nodes[place] = x;
            special_of[x] = place;
        }
        Blocks {
            k: order.len(),
            special_nodes,
            special_of,
        }
    }
}
