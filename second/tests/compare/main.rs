//! The machinery of the binary `compare`, without the proved library: what it draws, and what it
//! finds where a library or a program does something wrong.

mod check;
mod commands;
mod draws;
mod edges;
mod file_verdict;
mod hours;
mod jobs;
mod lent;
mod letters;
mod merges;
mod names;
mod program;
mod reference;
mod rule_verdict;
mod scripts;
mod sets;
mod stars;
mod trouble;
mod wrong;
mod wrong_files;
mod wrong_letters;
mod wrong_mergers;
mod wrong_rewriters;
mod wrong_seconds;
mod wrong_sets;
mod wrong_stars;
