//! The comparison of the proved library and the proved program with this program's own answers.
//!
//! All but `proved`, which links the library, can be used and tested without the proved code.

pub mod call;
pub mod check;
pub mod commands;
pub mod edge_requests;
pub mod hours;
pub mod job_edges;
pub mod lent;
pub mod letters;
pub mod merges;
pub mod mergings;
pub mod names;
pub mod program;
pub mod progress;
#[cfg(feature = "proved")]
#[allow(unsafe_code)]
pub mod proved;
pub mod random_jobs;
pub mod random_requests;
pub mod random_rule_files;
pub mod reference;
pub mod request;
pub mod rewritings;
pub mod rule_file_requests;
pub mod run;
pub mod running;
pub mod sets;
pub mod stars;
pub mod tally;
pub mod trouble;
pub mod troubled_input;
pub mod troubled_output;
