//! Random runs of stars, put in where a star may stand.

use crate::random::Random;
use crate::shape::Shape;

/// Puts one to three runs of stars behind operands, so that stars directly follow stars; stays
/// within so many bytes.
pub fn repeat_stars(random: &mut Random, text: &mut Vec<u8>, most_bytes: usize) {
    for _ in 0..random.pick(&[1, 1, 1, 2, 3]) {
        let ends = operand_ends(text);
        let run = run_length(random);
        if !ends.is_empty() && text.len() + run <= most_bytes {
            let at = random.pick(&ends);
            text.splice(at..at, vec![b'*'; run]);
        }
    }
}

/// Where a star may stand in a sentence: behind a leaf, a closing parenthesis or a star.
fn operand_ends(text: &[u8]) -> Vec<usize> {
    let ends = (1..=text.len()).filter(|&at| b")*".contains(&text[at - 1]));
    let leaves = Shape::of(text).leaves().map(|leaf| leaf.end).collect();
    [leaves, ends.collect::<Vec<_>>()].concat()
}

/// How many stars a run has: mostly two or three, seldom about as many as there may be nodes.
fn run_length(random: &mut Random) -> usize {
    match random.below(12) {
        0 => 2 + random.below(70),
        1 | 2 => 2 + random.below(9),
        3..=5 => 3,
        _ => 2,
    }
}
