//! Random rule texts for the command `draw`: sentences of all sizes, and what is near to them.

use std::ops::Range;

use crate::generate::{any_byte, change_byte, grow_tree, random_byte};
use crate::generate::{random_leaf, spoil_leaf, write_tree};
use crate::limits::{LETTERS, MAX_NODES, MAX_RULE_BYTES, MAX_SPECIAL};
use crate::random::Random;
use crate::random_stars::repeat_stars;

/// Lengths of texts without a plan: the shortest, and those about the longest.
const LENGTHS: [usize; 9] = [0, 1, 2, 3, 254, 255, 256, 257, 300];

/// A random text, a sentence more often than not; in some of them stars directly follow stars.
pub fn text(random: &mut Random) -> Vec<u8> {
    match random.below(13) {
        0 => without_plan(random, random_byte),
        1 => without_plan(random, any_byte),
        2 | 3 => changed_sentence(random),
        4 => {
            let mut text = any_sentence(random);
            spoil_leaf(random, &mut text, MAX_RULE_BYTES + 2);
            text
        }
        5 => {
            let mut text = any_sentence(random);
            repeat_stars(random, &mut text, MAX_RULE_BYTES + 2);
            text
        }
        _ => any_sentence(random),
    }
}

/// Random bytes, a few or about as many as there may be.
fn without_plan(random: &mut Random, byte: fn(&mut Random) -> u8) -> Vec<u8> {
    let length = if random.one_in(3) {
        random.pick(&LENGTHS)
    } else {
        random.below(40)
    };
    (0..length).map(|_| byte(random)).collect()
}

/// A sentence with a few bytes changed, mostly to listed ones.
fn changed_sentence(random: &mut Random) -> Vec<u8> {
    let mut text = any_sentence(random);
    if random.one_in(8) {
        repeat_stars(random, &mut text, MAX_RULE_BYTES);
    }
    for _ in 0..=random.below(3) {
        let byte = if random.one_in(8) {
            any_byte(random)
        } else {
            random_byte(random)
        };
        change_byte(random, &mut text, byte, MAX_RULE_BYTES + 2);
    }
    text
}

/// A sentence of any size, or one that is near to a limit.
fn any_sentence(random: &mut Random) -> Vec<u8> {
    match random.below(7) {
        0 => {
            let nodes = MAX_NODES - 1 + random.below(4);
            tree_text(random, nodes, MAX_SPECIAL)
        }
        1 => {
            // So many nodes that nearly all of the special ones come.
            let nodes = 25 + random.below(40);
            let special = MAX_SPECIAL - 1 + random.below(4);
            tree_text(random, nodes, special)
        }
        2 => sentence_with_run(random),
        3 => sentence_of_many_bytes(random),
        4 => tree_of_at_most(random, MAX_NODES),
        _ => tree_of_at_most(random, 12),
    }
}

/// The text of a random tree of so many nodes, with at most so many special ones; of all letters,
/// for nothing but the reading is asked of these rules.
fn tree_text(random: &mut Random, nodes: usize, special: usize) -> Vec<u8> {
    let tree = grow_tree(random, LETTERS, nodes, special);
    write_tree(random, &tree)
}

/// The text of a random tree of at most so many nodes.
fn tree_of_at_most(random: &mut Random, nodes: usize) -> Vec<u8> {
    let nodes = 1 + random.below(nodes);
    tree_text(random, nodes, MAX_SPECIAL)
}

/// A small sentence with a long run at a leaf: of `!`, of `*` or of parentheses.
fn sentence_with_run(random: &mut Random) -> Vec<u8> {
    let mut text = tree_of_at_most(random, 8);
    let leaf = sentence_leaf(random, &text);
    let longest = random.pick(&[10, 66, MAX_RULE_BYTES]);
    let run = 1 + random.below(longest);
    match random.below(3) {
        0 => insert_run(&mut text, leaf.start, b'!', run),
        1 => insert_run(&mut text, leaf.end, b'*', run),
        _ => enclose(&mut text, leaf, run.div_ceil(2)),
    }
    text
}

/// A sentence of about as many bytes as there may be; the most of them are parentheses.
fn sentence_of_many_bytes(random: &mut Random) -> Vec<u8> {
    let mut text = tree_of_at_most(random, MAX_NODES);
    let length = MAX_RULE_BYTES - 3 + random.below(5);
    while text.len() < length {
        let leaf = sentence_leaf(random, &text);
        enclose(&mut text, leaf, 1);
    }
    text
}

/// Where one of a sentence's leaves stands.
fn sentence_leaf(random: &mut Random, text: &[u8]) -> Range<usize> {
    random_leaf(random, text).expect("a sentence has a leaf")
}

/// Puts so many parentheses around a leaf.
fn enclose(text: &mut Vec<u8>, leaf: Range<usize>, depth: usize) {
    insert_run(text, leaf.end, b')', depth);
    insert_run(text, leaf.start, b'(', depth);
}

/// Puts a sign in, so many times over.
fn insert_run(text: &mut Vec<u8>, at: usize, sign: u8, run: usize) {
    text.splice(at..at, vec![sign; run]);
}
