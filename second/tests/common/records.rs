//! The records of a rule as text, for tests of the readers.

use second::rule::{Kind, Node, Rule};

/// The records as sign and offset, a dot for concatenation.
pub fn records_of(rule: &Rule) -> String {
    let sign = |kind: Kind| match kind {
        Kind::NoWord => "0".to_string(),
        Kind::EmptyWord => "1".to_string(),
        Kind::OneOf(set) => set.to_string(),
        Kind::Union(..) => "|".to_string(),
        Kind::Intersection(..) => "&".to_string(),
        Kind::Concatenation(..) => ".".to_string(),
        Kind::Complement(_) => "!".to_string(),
        Kind::Star(_) => "*".to_string(),
    };
    let record = |node: &Node| format!("{}{}", sign(node.kind), node.offset);
    rule.nodes.iter().map(record).collect::<Vec<_>>().join(" ")
}
