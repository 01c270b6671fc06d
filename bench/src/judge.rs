//! What the unproved judges have in common: all but the automaton of a rule and the walks over it.

use crate::blocks::Blocks;
use crate::parse::{parse, Kind, Node};
use crate::row::{flip_between, ones, Row};

/// What a judgement says, beside its table: the rule's nodes, the special ones, the spans found, and the work count.
#[derive(Clone, Copy, Debug, PartialEq)]
pub struct Answer {
    pub m: usize,
    pub k: usize,
    pub found: u64,
    pub count: u64,
}

/// An unproved judge: judges every span of a word by a rule, into the first rows of a table.
pub type Judge = fn(rule: &[u8], word: &[u8], table: &mut [Row]) -> Answer;

/// Whose rows a block has: the whole rule's or a special node's.
pub struct Owner {
    /// The nodes that a span has to obey both; the same node twice where there is one only.
    pub sides: [usize; 2],
    /// Whether the spans asked for are those that do not obey them.
    pub flip: bool,
}

impl Owner {
    fn special(node: &Node) -> Owner {
        Owner {
            sides: [node.left, node.right],
            flip: matches!(node.kind, Kind::Complement),
        }
    }

    fn whole(root: usize) -> Owner {
        Owner {
            sides: [root, root],
            flip: false,
        }
    }
}

/// What the unproved judges differ in: the automaton of a rule, and the walks over it.
pub trait Method {
    fn set_up(nodes: &[Node], blocks: &Blocks) -> Self;

    /// Fills the owner's block, which begins at row `block` of the table, by `fill_rows`, and answers the number of places reached.
    ///
    /// The table has the blocks of all special nodes that the owner contains.
    fn fill(&self, word: &[u8], table: &mut [Row], block: usize, owner: &Owner) -> u64;
}

/// Walks from every start, writes the rows of the ends that the walks answer, flipped for a complement, and adds up the places reached.
pub fn fill_rows(
    n: usize,
    table: &mut [Row],
    block: usize,
    owner: &Owner,
    mut walk: impl FnMut(&[Row], usize) -> (Row, u64),
) -> u64 {
    let mut count = 0;
    for start in 0..=n {
        let (row, places) = walk(table, start);
        count += places;
        table[block + start] = if owner.flip {
            flip_between(&row, start, n)
        } else {
            row
        };
    }
    count
}

/// A `Judge`, by a method.
pub fn judge_by<M: Method>(rule: &[u8], word: &[u8], table: &mut [Row]) -> Answer {
    let nodes = parse(rule);
    let blocks = Blocks::of(&nodes);
    let method = M::set_up(&nodes, &blocks);
    let rows = word.len() + 1;
    let mut count = 0;
    // Sides stand before their node, so the blocks that a block needs are filled before it.
    for (x, node) in nodes.iter().enumerate() {
        if node.is_special() {
            let block = rows * (blocks.special_of[x] + 1);
            count += method.fill(word, table, block, &Owner::special(node));
        }
    }
    count += method.fill(word, table, 0, &Owner::whole(nodes.len() - 1));
    Answer {
        m: nodes.len(),
        k: blocks.k,
        found: ones(&table[..rows]),
        count,
    }
}
