//! The second program: an independent reference implementation of document 01 and of the first
//! requests of document 02, which shares no code with the program that is proved, to be compared
//! with it.

#![deny(unsafe_code)]

pub mod answers;
pub mod calls;
pub mod cases;
pub mod compare;
pub mod day;
pub mod day_edges;
pub mod draw;
pub mod edges;
pub mod generate;
pub mod hour_edges;
pub mod job;
pub mod judge;
pub mod judge_edges;
pub mod judge_large_edges;
pub mod known_edges;
pub mod language;
pub mod letter_edges;
pub mod limits;
pub mod lines;
pub mod merge;
pub mod merge_edges;
pub mod named_rule;
pub mod number_edges;
pub mod printed;
pub mod random;
pub mod random_calls;
pub mod random_days;
pub mod random_merges;
pub mod random_numbers;
pub mod random_rules;
pub mod random_stars;
pub mod refusal;
pub mod rewrite;
pub mod rule;
pub mod rule_edges;
pub mod rule_file;
pub mod rule_file_chains;
pub mod rule_file_edges;
pub mod rule_file_lines;
pub mod set;
pub mod set_edges;
pub mod shape;
pub mod star_edges;
pub mod stars;
pub mod stream;
pub mod table;
pub mod work;
