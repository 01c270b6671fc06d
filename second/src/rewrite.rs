//! The rewriter of rule texts: all refusals of a rule text but 21, then 15, and the text in which
//! every run of stars is one star.

use crate::refusal::{Reason, Refusal};
use crate::rule::read_with_repeated_stars;
use crate::stars::with_single;

/// Rewrites a rule text into a buffer; gives the length of what is written.
pub fn rewrite(text: &[u8], out: &mut [u8]) -> Result<usize, Refusal> {
    let rewritten = rewritten(text)?;
    let n = rewritten.len();
    let written = out.get_mut(..n);
    let written = written.ok_or(Refusal::without_place(Reason::BufferTooShort))?;
    written.copy_from_slice(&rewritten);
    Ok(n)
}

/// A rule text with single stars, or why it is refused.
pub fn rewritten(text: &[u8]) -> Result<Vec<u8>, Refusal> {
    read_with_repeated_stars(text)?;
    Ok(with_single(text))
}
