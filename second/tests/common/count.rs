//! The full work count by languages alone, shared by the tests of the count and of the streams.

use crate::common::{join, literal_spans, relation, Relation};
use second::rule::{Kind, Rule};

/// The count without any search.
///
/// The entry of a node is reached from i at j exactly if the span (i, j) can stand before the node,
/// and its exit if the span can stand before the node and through it.
pub fn count_by_languages(rule: &Rule, word: &[u8]) -> u64 {
    let n = word.len();
    let spans = literal_spans(rule, word);
    let nothing = relation(n, |i, j| i == j);
    let mut before: Vec<Relation> = vec![nothing.clone(); rule.m()];
    // Sides come earlier in the list, so from the back each node is met before its sides.
    for node in (0..rule.m()).rev() {
        let own = before[node].clone();
        match rule.nodes[node].kind {
            Kind::Union(left, right) => {
                before[left] = own.clone();
                before[right] = own;
            }
            Kind::Concatenation(left, right) => {
                before[right] = join(&own, &spans[left]);
                before[left] = own;
            }
            Kind::Star(inner) => before[inner] = join(&own, &spans[node]),
            // A special node's sides are searched for themselves, with nothing before them.
            Kind::Intersection(..) | Kind::Complement(_) => {}
            Kind::NoWord | Kind::EmptyWord | Kind::OneOf(_) => {}
        }
    }
    let exits = before
        .iter()
        .zip(&spans)
        .map(|(before, through)| join(before, through));
    before.iter().map(ones).sum::<u64>() + exits.map(|exit| ones(&exit)).sum::<u64>()
}

/// How many spans a relation has.
fn ones(relation: &Relation) -> u64 {
    relation
        .iter()
        .flatten()
        .filter(|&&belongs| belongs)
        .count() as u64
}
