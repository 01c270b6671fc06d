//! The cases that the command `edges` prints.

use crate::stream::Case;
use crate::{day_edges, judge_edges, judge_large_edges, known_edges, number_edges, rule_edges};

/// The edges by the name of their stream, if there is one of that name.
pub fn named(name: &str) -> Option<Vec<Case>> {
    match name {
        "rules" => Some(rule_edges::texts().into_iter().map(Case::Rule).collect()),
        "days" => Some(day_edges::cases()),
        "judge" => Some(judge_edges::cases()),
        "judge-large" => Some(judge_large_edges::cases()),
        "known" => Some(known_edges::cases()),
        "numbers" => Some(number_edges::cases()),
        _ => None,
    }
}
