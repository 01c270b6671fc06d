//! The meaning of rules: the span tables of the nodes against two slower ways.

mod common;

use std::rc::Rc;

use common::literal_spans;
use second::generate::{sentence, word, Bounds};
use second::language::spans_of_nodes;
use second::random::Random;
use second::rule::{read, Kind, Rule};

/// A regular expression that can be differentiated.
enum Expression {
    NoWord,
    EmptyWord,
    Letter(u8),
    Union(Rc<Expression>, Rc<Expression>),
    Intersection(Rc<Expression>, Rc<Expression>),
    Concatenation(Rc<Expression>, Rc<Expression>),
    Complement(Rc<Expression>),
    Star(Rc<Expression>),
}

use Expression as E;

/// The expression a node heads.
fn expression(rule: &Rule, node: usize) -> Rc<Expression> {
    let side = |index: usize| expression(rule, index);
    Rc::new(match rule.nodes[node].kind {
        Kind::NoWord => E::NoWord,
        Kind::EmptyWord => E::EmptyWord,
        Kind::OneOf(set) => return union_of_letters(set.letters()),
        Kind::Union(a, b) => E::Union(side(a), side(b)),
        Kind::Intersection(a, b) => E::Intersection(side(a), side(b)),
        Kind::Concatenation(a, b) => E::Concatenation(side(a), side(b)),
        Kind::Complement(a) => E::Complement(side(a)),
        Kind::Star(a) => E::Star(side(a)),
    })
}

/// The union of the rules that letters are, one after another.
fn union_of_letters(mut letters: impl Iterator<Item = u8>) -> Rc<Expression> {
    let first = letters.next().expect("a set has a letter");
    letters.fold(Rc::new(E::Letter(first)), |union, letter| {
        Rc::new(E::Union(union, Rc::new(E::Letter(letter))))
    })
}

/// Whether the empty word belongs.
fn has_empty_word(expression: &Expression) -> bool {
    match expression {
        E::NoWord | E::Letter(_) => false,
        E::EmptyWord | E::Star(_) => true,
        E::Union(a, b) => has_empty_word(a) || has_empty_word(b),
        E::Intersection(a, b) | E::Concatenation(a, b) => has_empty_word(a) && has_empty_word(b),
        E::Complement(a) => !has_empty_word(a),
    }
}

/// Brzozowski's derivative: what may follow a first letter.
fn derivative(expression: &Rc<Expression>, letter: u8) -> Rc<Expression> {
    let after = |side: &Rc<Expression>| derivative(side, letter);
    Rc::new(match expression.as_ref() {
        E::NoWord | E::EmptyWord => E::NoWord,
        E::Letter(own) if *own == letter => E::EmptyWord,
        E::Letter(_) => E::NoWord,
        E::Union(a, b) => E::Union(after(a), after(b)),
        E::Intersection(a, b) => E::Intersection(after(a), after(b)),
        E::Concatenation(a, b) => {
            let first = Rc::new(E::Concatenation(after(a), b.clone()));
            let second = if has_empty_word(a) {
                after(b)
            } else {
                Rc::new(E::NoWord)
            };
            E::Union(first, second)
        }
        E::Complement(a) => E::Complement(after(a)),
        E::Star(a) => E::Concatenation(after(a), expression.clone()),
    })
}

/// Whether a word belongs: all its letters taken off, the empty word must be left.
fn matches(expression: &Rc<Expression>, word: &[u8]) -> bool {
    let rest = word.iter().fold(expression.clone(), |rest, &letter| {
        derivative(&rest, letter)
    });
    has_empty_word(&rest)
}

#[test]
fn every_span_is_as_the_definition_says() {
    let mut random = Random::new(3);
    let bounds = Bounds {
        bytes: 255,
        nodes: 64,
        special: 7,
    };
    let mut seen = [0, 0];
    for _ in 0..3_000 {
        let rule = read(&sentence(&mut random, b"aA", &bounds)).unwrap();
        let word = word(&mut random, b"aA", 9);
        let literal = literal_spans(&rule, &word);
        let spans = spans_of_nodes(&rule, &word);
        assert_eq!(spans.len(), rule.m());
        for (node, literal) in literal.iter().enumerate() {
            for (i, row) in literal.iter().enumerate() {
                for (j, &belongs) in row.iter().enumerate() {
                    assert_eq!(spans[node].obeys(i, j), belongs, "{rule:?} {word:?}");
                    seen[usize::from(belongs)] += 1;
                }
            }
        }
    }
    assert!(seen[0] > 100_000 && seen[1] > 100_000);
}

#[test]
fn every_span_is_as_the_derivatives_say() {
    let mut random = Random::new(4);
    let bounds = Bounds {
        bytes: 20,
        nodes: 12,
        special: 4,
    };
    let mut seen = [0, 0];
    for _ in 0..4_000 {
        let rule = read(&sentence(&mut random, b"aB", &bounds)).unwrap();
        let word = word(&mut random, b"aBb", 5);
        let spans = spans_of_nodes(&rule, &word);
        for (node, spans) in spans.iter().enumerate() {
            let expression = expression(&rule, node);
            for i in 0..=word.len() {
                for j in i..=word.len() {
                    let belongs = matches(&expression, &word[i..j]);
                    assert_eq!(spans.obeys(i, j), belongs, "{rule:?} {word:?}");
                    seen[usize::from(belongs)] += 1;
                }
            }
        }
    }
    assert!(seen[0] > 50_000 && seen[1] > 50_000);
}

#[test]
fn the_longest_word_and_the_most_nodes() {
    // 31 letters a in a row with a star: spans whose length is a multiple of 31.
    let text = format!("({})*", "a".repeat(31));
    let rule = read(text.as_bytes()).unwrap();
    let word = [b'a'; 255];
    let spans = spans_of_nodes(&rule, &word);
    for i in 0..=255 {
        for j in i..=255 {
            assert_eq!(spans[rule.head()].obeys(i, j), (j - i) % 31 == 0);
        }
    }
}
