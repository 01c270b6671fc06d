//! How readings, tables, numbers and lists look in the lines that the commands print.

use crate::rule::{self, Kind, Rule};

/// A rule text's reading in two pieces: number and place, then m, k and the records.
pub fn reading(text: &[u8]) -> (String, String) {
    match rule::read(text) {
        Ok(rule) => (
            "0\t0".to_string(),
            format!("{}\t{}\t{}", rule.m(), rule.k(), records(&rule)),
        ),
        Err(refusal) => (
            format!("{}\t{}", refusal.number(), refusal.place),
            format!("0\t0\t{}", list(std::iter::empty(), ";")),
        ),
    }
}

/// Items with a separator between, or a dash where there are none.
pub fn list(items: impl Iterator<Item = String>, separator: &str) -> String {
    let items: Vec<String> = items.collect();
    if items.is_empty() {
        "-".to_string()
    } else {
        items.join(separator)
    }
}

/// The numbers of a table, where a run of equal neighbours is one item with its length.
pub fn runs(table: &[u64]) -> impl Iterator<Item = String> + '_ {
    let item = |run: &[u64]| match run.len() {
        1 => run[0].to_string(),
        length => format!("{}*{length}", run[0]),
    };
    table.chunk_by(|one, next| one == next).map(item)
}

/// A number as `digits:width`: its decimal digits, and how many there are.
pub fn number(number: u64) -> String {
    let digits = number.to_string();
    format!("{digits}:{}", digits.len())
}

/// The records of a rule as `offset:kind`.
fn records(rule: &Rule) -> String {
    let record = |node: &rule::Node| format!("{}:{}", node.offset, kind_sign(node.kind));
    list(rule.nodes.iter().map(record), ";")
}

/// The sign of a kind; a set has its letters in byte order, and a dot stands for concatenation,
/// which has no sign of its own.
fn kind_sign(kind: Kind) -> String {
    let sign = match kind {
        Kind::NoWord => "0",
        Kind::EmptyWord => "1",
        Kind::OneOf(set) => return set.to_string(),
        Kind::Union(..) => "|",
        Kind::Intersection(..) => "&",
        Kind::Concatenation(..) => ".",
        Kind::Complement(_) => "!",
        Kind::Star(_) => "*",
    };
    sign.to_string()
}
