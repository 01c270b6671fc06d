//! What several tests share: section 2.1 of document 004, worked out slowly and to the letter.

use second::rule::{Kind, Rule};

/// Row i says for each j whether the span (i, j) belongs.
pub type Relation = Vec<Vec<bool>>;

/// The spans of a word of length n that meet a condition.
pub fn relation(n: usize, condition: impl Fn(usize, usize) -> bool) -> Relation {
    let row = |i: usize| (0..=n).map(|j| i <= j && condition(i, j)).collect();
    (0..=n).map(row).collect()
}

/// The spans made of one of the first relation and then one of the second.
pub fn join(first: &Relation, second: &Relation) -> Relation {
    let has_split = |i: usize, j: usize| (i..=j).any(|s| first[i][s] && second[s][j]);
    relation(first.len() - 1, has_split)
}

/// For each node of a rule, the spans of the word that obey it.
pub fn literal_spans(rule: &Rule, word: &[u8]) -> Vec<Relation> {
    let n = word.len();
    let mut all: Vec<Relation> = Vec::new();
    for node in &rule.nodes {
        all.push(match node.kind {
            Kind::NoWord => relation(n, |_, _| false),
            Kind::EmptyWord => relation(n, |i, j| word[i..j].is_empty()),
            Kind::OneOf(set) => {
                let letters: Vec<u8> = set.letters().collect();
                relation(n, |i, j| {
                    letters.iter().any(|&letter| word[i..j] == [letter])
                })
            }
            Kind::Union(a, b) => relation(n, |i, j| all[a][i][j] | all[b][i][j]),
            Kind::Intersection(a, b) => relation(n, |i, j| all[a][i][j] & all[b][i][j]),
            Kind::Complement(a) => relation(n, |i, j| !all[a][i][j]),
            Kind::Concatenation(a, b) => join(&all[a], &all[b]),
            Kind::Star(a) => union_of_powers(&all[a]),
        });
    }
    all
}

/// The powers 0 to n + 1 together; a word of n events has at most n factors that are not empty.
///
/// A power that adds nothing ends it: what the next one adds would be added to the powers before.
fn union_of_powers(inner: &Relation) -> Relation {
    let n = inner.len() - 1;
    let mut power = relation(n, |i, j| i == j);
    let mut all = power.clone();
    for _ in 0..=n {
        power = join(&power, inner);
        let more = relation(n, |i, j| all[i][j] | power[i][j]);
        if more == all {
            break;
        }
        all = more;
    }
    all
}
