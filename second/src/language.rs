//! The meaning of a rule: which spans of a word obey each node, by document 004, section 2.1.
//!
//! One table for each node holds the answer for every span, so each is worked out once.

use crate::rule::{Kind, Rule};

/// Which spans (i, j) of a word obey one node.
#[derive(Clone, Debug, PartialEq, Eq)]
pub struct Spans {
    /// Row i holds an answer for each j from 0 to n; below i it is always no.
    rows: Vec<Vec<bool>>,
}

impl Spans {
    /// The spans of a word of length n that meet a condition.
    fn that(n: usize, condition: impl Fn(usize, usize) -> bool) -> Self {
        let row = |i: usize| (0..=n).map(|j| i <= j && condition(i, j)).collect();
        Spans {
            rows: (0..=n).map(row).collect(),
        }
    }

    /// The length of the word.
    fn n(&self) -> usize {
        self.rows.len() - 1
    }

    /// Whether the span (i, j) obeys.
    pub fn obeys(&self, i: usize, j: usize) -> bool {
        self.rows[i][j]
    }
}

/// For each node of a rule, in the order of its nodes, the spans of the word that obey it.
pub fn spans_of_nodes(rule: &Rule, word: &[u8]) -> Vec<Spans> {
    let mut done = Vec::with_capacity(rule.m());
    for node in &rule.nodes {
        let spans = spans_of_node(node.kind, &done, word);
        done.push(spans);
    }
    done
}

/// The spans that obey one node, from those of its sides.
fn spans_of_node(kind: Kind, sides: &[Spans], word: &[u8]) -> Spans {
    let n = word.len();
    match kind {
        Kind::NoWord => Spans::that(n, |_, _| false),
        Kind::EmptyWord => Spans::that(n, |i, j| i == j),
        Kind::OneOf(set) => Spans::that(n, |i, j| matches!(word[i..j], [event] if set.has(event))),
        Kind::Union(left, right) => Spans::that(n, |i, j| {
            sides[left].obeys(i, j) || sides[right].obeys(i, j)
        }),
        Kind::Intersection(left, right) => Spans::that(n, |i, j| {
            sides[left].obeys(i, j) && sides[right].obeys(i, j)
        }),
        Kind::Complement(inner) => Spans::that(n, |i, j| !sides[inner].obeys(i, j)),
        Kind::Concatenation(left, right) => concatenation(&sides[left], &sides[right]),
        Kind::Star(inner) => star(&sides[inner]),
    }
}

/// A span obeys if some split of it has a first part for the left and a rest for the right side.
fn concatenation(left: &Spans, right: &Spans) -> Spans {
    let n = left.n();
    let mut joined = Spans::that(n, |_, _| false);
    for i in 0..=n {
        for split in i..=n {
            if left.obeys(i, split) {
                add_row(&mut joined.rows[i], &right.rows[split]);
            }
        }
    }
    joined
}

/// The union of all powers of the inner part.
///
/// Empty factors of a power change no word, so a span that is not empty obeys
/// if a first factor that is not empty leaves a rest that obeys.
fn star(inner: &Spans) -> Spans {
    let n = inner.n();
    let mut powers = Spans::that(n, |i, j| i == j);
    // From the last row up, so that every rest is finished before it is used.
    for i in (0..n).rev() {
        let (first, rests) = powers.rows.split_at_mut(i + 1);
        for split in i + 1..=n {
            if inner.obeys(i, split) {
                add_row(&mut first[i], &rests[split - i - 1]);
            }
        }
    }
    powers
}

/// Adds every span that one row has to another row.
fn add_row(target: &mut [bool], source: &[bool]) {
    for (to, from) in target.iter_mut().zip(source) {
        *to |= from;
    }
}
