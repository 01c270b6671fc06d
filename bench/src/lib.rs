//! The speed bench's library: the two unproved judges, the proved one, and the rules and words that all are measured on.

pub mod baseline;
pub mod blocks;
pub mod job;
pub mod judge;
pub mod letters;
pub mod parse;
pub mod proved;
pub mod row;
pub mod rules;
pub mod tuned;
pub mod words;
