//! What a case shows of stars in a row, besides the number that should come.

use std::fmt;

use super::call::Callee;
use super::request::Asked;
use crate::refusal::Reason;
use crate::{rewrite, rule};

/// What an accepted rewriting may show.
#[derive(Clone, Copy, Debug, PartialEq, Eq, PartialOrd, Ord)]
pub enum Stars {
    /// The text becomes shorter.
    Shorter,
    /// The text comes back as it is.
    Unchanged,
    /// The reader refuses the text by 21.
    RefusedByReader,
    /// The buffer has room beyond the text.
    RoomToSpare,
}

impl Stars {
    /// What the cases of a callee have to show.
    pub fn of(callee: Callee) -> &'static [Stars] {
        use Stars::*;
        match callee {
            Callee::RewriteRule => &[Shorter, Unchanged, RefusedByReader, RoomToSpare],
            _ => &[],
        }
    }
}

impl fmt::Display for Stars {
    fn fmt(&self, formatter: &mut fmt::Formatter) -> fmt::Result {
        formatter.pad(match self {
            Stars::Shorter => "accepted, made shorter",
            Stars::Unchanged => "accepted, left as it is",
            Stars::RefusedByReader => "accepted, 21 by the reader",
            Stars::RoomToSpare => "accepted, room to spare",
        })
    }
}

/// What a call shows if such a number should come.
pub fn shown(asked: &Asked, number: u32) -> Vec<Stars> {
    match asked {
        Asked::Rewriting { text, out } if number == 0 => shown_by_rewriting(text, *out),
        _ => Vec::new(),
    }
}

/// What an accepted text shows that is rewritten into a buffer of such a length.
fn shown_by_rewriting(text: &[u8], out: usize) -> Vec<Stars> {
    let rewritten = rewrite::rewritten(text).expect("the text is accepted");
    let by_reader = rule::read(text).map_err(|refusal| refusal.reason);
    let all = [
        (rewritten.len() < text.len(), Stars::Shorter),
        (rewritten == text, Stars::Unchanged),
        (
            by_reader == Err(Reason::StarAfterStar),
            Stars::RefusedByReader,
        ),
        (out > rewritten.len(), Stars::RoomToSpare),
    ];
    let met = all.into_iter().filter(|&(is_met, _)| is_met);
    met.map(|(_, shown)| shown).collect()
}
