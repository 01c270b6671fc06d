//! Reads a regular expression into its nodes. The text is taken to be an acceptable rule.

use crate::letters::Letters;

/// The most nodes that an acceptable rule has.
pub const MOST_NODES: usize = 64;

#[derive(Clone, Copy)]
pub enum Kind {
    Empty,
    Epsilon,
    /// A letter, which is a set of one, a set in brackets, or the dot, which is the set of all.
    Letter(Letters),
    Union,
    Intersection,
    Concatenation,
    Complement,
    Star,
}

/// A node, with the numbers of its sides; a node with one side has it twice, one without sides has 0.
#[derive(Clone, Copy)]
pub struct Node {
    pub offset: usize,
    pub kind: Kind,
    pub left: usize,
    pub right: usize,
}

impl Node {
    /// Whether walks pass the node by the span table instead of by free moves.
    pub fn is_special(&self) -> bool {
        matches!(self.kind, Kind::Intersection | Kind::Complement)
    }
}

/// The nodes of a rule: left side, right side, then the node itself, so that the root is the last.
pub fn parse(rule: &[u8]) -> Vec<Node> {
    let mut parser = Parser {
        rule,
        at: 0,
        nodes: Vec::with_capacity(MOST_NODES),
    };
    parser.union();
    parser.nodes
}

/// A recursive reader with one function for each precedence; each answers the number of the node it has read.
struct Parser<'a> {
    rule: &'a [u8],
    at: usize,
    nodes: Vec<Node>,
}

impl Parser<'_> {
    fn union(&mut self) -> usize {
        let mut left = self.intersection();
        while self.peek() == b'|' {
            let offset = self.take();
            let right = self.intersection();
            left = self.add(offset, Kind::Union, left, right);
        }
        left
    }

    fn intersection(&mut self) -> usize {
        let mut left = self.concatenation();
        while self.peek() == b'&' {
            let offset = self.take();
            let right = self.concatenation();
            left = self.add(offset, Kind::Intersection, left, right);
        }
        left
    }

    fn concatenation(&mut self) -> usize {
        let mut left = self.complement();
        // Whatever else can follow begins one more side.
        while !matches!(self.peek(), b'|' | b'&' | b')' | 0) {
            let offset = self.at;
            let right = self.complement();
            left = self.add(offset, Kind::Concatenation, left, right);
        }
        left
    }

    fn complement(&mut self) -> usize {
        if self.peek() != b'!' {
            return self.star();
        }
        let offset = self.take();
        let inner = self.complement();
        self.add(offset, Kind::Complement, inner, inner)
    }

    fn star(&mut self) -> usize {
        let mut inner = self.atom();
        while self.peek() == b'*' {
            let offset = self.take();
            inner = self.add(offset, Kind::Star, inner, inner);
        }
        inner
    }

    fn atom(&mut self) -> usize {
        let byte = self.peek();
        let offset = self.take();
        match byte {
            b'(' => {
                let inner = self.union();
                self.take();
                inner
            }
            b'0' => self.add(offset, Kind::Empty, 0, 0),
            b'1' => self.add(offset, Kind::Epsilon, 0, 0),
            b'[' => {
                let letters = self.bracketed();
                self.add(offset, Kind::Letter(letters), 0, 0)
            }
            b'.' => self.add(offset, Kind::Letter(Letters::EVERY), 0, 0),
            letter => self.add(offset, Kind::Letter(Letters::single(letter)), 0, 0),
        }
    }

    /// The letters up to a closing bracket, which is passed too.
    fn bracketed(&mut self) -> Letters {
        let mut letters = Letters::NONE;
        while self.peek() != b']' {
            letters = letters.with(self.peek());
            self.take();
        }
        self.take();
        letters
    }

    /// The next byte, or 0 at the end, which no rule has.
    fn peek(&self) -> u8 {
        self.rule.get(self.at).copied().unwrap_or(0)
    }

    /// Goes past the next byte, and answers its offset.
    fn take(&mut self) -> usize {
        self.at += 1;
        self.at - 1
    }

    fn add(&mut self, offset: usize, kind: Kind, left: usize, right: usize) -> usize {
        self.nodes.push(Node {
            offset,
            kind,
            left,
            right,
        });
        self.nodes.len() - 1
    }
}
