//! Rewritings as calls of the library, and the lengths of buffers for any text.

use super::request::Asked;
use crate::{rewrite, rule_edges};

/// How many bytes a buffer has beyond those it must have.
const BEYOND: usize = 5;

/// Every edge of the rule reader to be rewritten, with buffers of every kind.
pub fn calls() -> impl Iterator<Item = Asked> {
    rule_edges::texts().into_iter().flat_map(|text| {
        let outs = outs(rewritten_length(&text)).into_iter();
        outs.map(move |out| {
            let text = text.clone();
            Asked::Rewriting { text, out }
        })
    })
}

/// Lengths of buffers for a text of such a length: none, one too few, enough and more.
pub fn outs(length: usize) -> Vec<usize> {
    let mut outs = vec![0, length.saturating_sub(1), length, length + BEYOND];
    outs.dedup();
    outs
}

/// A text to be rewritten into a buffer that is just long enough.
pub fn exact(text: &[u8]) -> Asked {
    Asked::Rewriting {
        text: text.to_vec(),
        out: rewritten_length(text),
    }
}

/// A text to be rewritten into a buffer that is longer than it must be.
pub fn with_room(text: &[u8]) -> Asked {
    Asked::Rewriting {
        text: text.to_vec(),
        out: rewritten_length(text) + BEYOND,
    }
}

/// How long a rule text is when it is rewritten; a refused one has no length.
pub fn rewritten_length(text: &[u8]) -> usize {
    rewrite::rewritten(text).map_or(0, |rewritten| rewritten.len())
}
