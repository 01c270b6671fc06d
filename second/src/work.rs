//! The work count: a breadth-first search of the positions each owner reaches from each start.
//!
//! The states and the moves are those of document 01, "The walk that is counted";
//! a position, as document 004 calls it, is a place there.

use crate::language::Spans;
use crate::rule::{Kind, Rule};
use crate::set::Set;

/// For whom is searched: the whole rule, or a special node given by its index.
#[derive(Clone, Copy, Debug, PartialEq, Eq)]
pub enum Owner {
    Whole,
    Special(usize),
}

/// Which of a node's two states is meant.
#[derive(Clone, Copy, Debug, PartialEq, Eq)]
pub enum End {
    Entry,
    Exit,
}

/// The entry or the exit of a node.
#[derive(Clone, Copy, Debug, PartialEq, Eq)]
pub struct State {
    pub node: usize,
    pub end: End,
}

impl State {
    /// The state's number among the 2 × m states.
    fn index(self) -> usize {
        2 * self.node + self.end as usize
    }
}

/// A state with the number of events used so far.
#[derive(Clone, Copy, Debug, PartialEq, Eq)]
pub struct Position {
    pub state: State,
    pub number: usize,
}

/// How a search may go on from a state.
#[derive(Clone, Copy)]
enum Move {
    /// To a state, without an event.
    Free(State),
    /// To a state, if the next event is one of the letters.
    Event(Set, State),
    /// To the exit of the special node, over each span that obeys it.
    Span(usize),
}

/// The states and moves of a rule, and the word they are followed on.
pub struct Automaton<'a> {
    rule: &'a Rule,
    word: &'a [u8],
    spans: &'a [Spans],
    /// The moves from each state, by the state's index.
    moves: Vec<Vec<Move>>,
}

impl<'a> Automaton<'a> {
    /// The automaton of a rule on a word, given the spans that obey each node.
    pub fn new(rule: &'a Rule, word: &'a [u8], spans: &'a [Spans]) -> Self {
        Automaton {
            rule,
            word,
            spans,
            moves: all_moves(rule),
        }
    }

    /// The number of positions reached, each once for its owner and start.
    pub fn work_count(&self) -> u64 {
        let mut count = 0;
        for owner in self.owners() {
            for start in 0..=self.word.len() {
                count += self.reached(owner, start).len() as u64;
            }
        }
        count
    }

    /// The whole rule and each special node.
    pub fn owners(&self) -> Vec<Owner> {
        let special = self.rule.special_nodes().map(Owner::Special);
        std::iter::once(Owner::Whole).chain(special).collect()
    }

    /// The positions one owner reaches from one start, in the order of a breadth-first search.
    pub fn reached(&self, owner: Owner, start: usize) -> Vec<Position> {
        let mut search = Search::new(self.moves.len(), self.word.len());
        for state in self.first_states(owner) {
            search.add(Position {
                state,
                number: start,
            });
        }
        let mut next = 0;
        while next < search.reached.len() {
            let position = search.reached[next];
            for &way in &self.moves[position.state.index()] {
                self.follow(way, position.number, &mut search);
            }
            next += 1;
        }
        search.reached
    }

    /// The states at which the search for an owner begins.
    fn first_states(&self, owner: Owner) -> Vec<State> {
        match owner {
            Owner::Whole => vec![entry(self.rule.head())],
            Owner::Special(node) => match self.rule.nodes[node].kind {
                Kind::Intersection(left, right) => vec![entry(left), entry(right)],
                Kind::Complement(inner) => vec![entry(inner)],
                _ => unreachable!("only special nodes are owners"),
            },
        }
    }

    /// Adds every position to which one move leads after so many events.
    fn follow(&self, way: Move, number: usize, search: &mut Search) {
        match way {
            Move::Free(state) => search.add(Position { state, number }),
            Move::Event(set, state) => {
                if self.word.get(number).is_some_and(|&event| set.has(event)) {
                    search.add(Position {
                        state,
                        number: number + 1,
                    });
                }
            }
            Move::Span(node) => {
                for later in number..=self.word.len() {
                    if self.spans[node].obeys(number, later) {
                        search.add(Position {
                            state: exit(node),
                            number: later,
                        });
                    }
                }
            }
        }
    }
}

/// The positions found by one search; each is at once a result and a position to go on from.
struct Search {
    reached: Vec<Position>,
    seen: Vec<bool>,
    numbers: usize,
}

impl Search {
    /// A search that has found nothing, over so many states and words of length n.
    fn new(states: usize, n: usize) -> Self {
        let numbers = n + 1;
        Search {
            reached: Vec::new(),
            seen: vec![false; states * numbers],
            numbers,
        }
    }

    /// Adds a position unless it is there.
    fn add(&mut self, position: Position) {
        let seen = &mut self.seen[position.state.index() * self.numbers + position.number];
        if !*seen {
            *seen = true;
            self.reached.push(position);
        }
    }
}

/// The entry of a node.
fn entry(node: usize) -> State {
    State {
        node,
        end: End::Entry,
    }
}

/// The exit of a node.
fn exit(node: usize) -> State {
    State {
        node,
        end: End::Exit,
    }
}

/// The moves from every state of a rule, by the state's index.
fn all_moves(rule: &Rule) -> Vec<Vec<Move>> {
    let mut moves = vec![Vec::new(); 2 * rule.m()];
    for (node, record) in rule.nodes.iter().enumerate() {
        for (from, way) in moves_of_node(node, record.kind) {
            moves[from.index()].push(way);
        }
    }
    moves
}

/// The moves document 01 lists for one node.
fn moves_of_node(node: usize, kind: Kind) -> Vec<(State, Move)> {
    let free = |from: State, to: State| (from, Move::Free(to));
    match kind {
        Kind::NoWord => vec![],
        Kind::EmptyWord => vec![free(entry(node), exit(node))],
        Kind::OneOf(set) => vec![(entry(node), Move::Event(set, exit(node)))],
        Kind::Union(left, right) => vec![
            free(entry(node), entry(left)),
            free(entry(node), entry(right)),
            free(exit(left), exit(node)),
            free(exit(right), exit(node)),
        ],
        Kind::Concatenation(left, right) => vec![
            free(entry(node), entry(left)),
            free(exit(left), entry(right)),
            free(exit(right), exit(node)),
        ],
        Kind::Star(inner) => vec![
            free(entry(node), entry(inner)),
            free(entry(node), exit(node)),
            free(exit(inner), entry(inner)),
            free(exit(inner), exit(node)),
        ],
        Kind::Intersection(..) | Kind::Complement(_) => vec![(entry(node), Move::Span(node))],
    }
}
