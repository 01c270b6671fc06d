//! What the tests of judge streams share: a call, its answer, and what the definitions ask of both.

use second::rule::{read, Kind, Rule};

use crate::blocks::expected_table;
use crate::count::count_by_languages;
use crate::{answered, stream, Case};

/// The longest word for which the definitions are worked out slowly and to the letter.
const LONGEST_BY_DEFINITION: usize = 40;

/// A judge call as a stream holds it.
pub struct Call {
    pub table: usize,
    pub limit: u64,
    pub rule: Vec<u8>,
    pub word: Vec<u8>,
}

/// An answer to a judge call; the table is written out.
#[derive(Debug, PartialEq, Eq)]
pub struct Answer {
    pub number: usize,
    pub place: usize,
    pub found: u64,
    pub count: u64,
    pub table: Vec<u64>,
}

impl Call {
    fn new(case: &Case) -> Self {
        assert_eq!((case.header[0].as_str(), case.header.len()), ("judge", 4));
        let (rule, word) = case.bytes.split_at(case.header[3].parse().unwrap());
        Call {
            table: case.header[1].parse().unwrap(),
            limit: case.header[2].parse().unwrap(),
            rule: rule.to_vec(),
            word: word.to_vec(),
        }
    }

    pub fn n(&self) -> usize {
        self.word.len()
    }

    /// The number of `&` and `!`.
    pub fn k(&self) -> usize {
        self.rule.iter().filter(|byte| b"&!".contains(byte)).count()
    }

    /// The number of nodes of a sentence.
    pub fn m(&self) -> usize {
        read(&self.rule).unwrap().m()
    }

    /// How many numbers the judge needs.
    pub fn need(&self) -> usize {
        (self.k() + 1) * (self.n() + 1) * 4
    }

    /// The table as it is lent.
    pub fn lent(&self) -> Vec<u64> {
        (0..self.table as u64).map(|i| u64::MAX - i).collect()
    }

    /// The answer of a refusal that leaves the table as it is lent.
    pub fn refused(&self, number: usize, place: usize) -> Answer {
        Answer {
            number,
            place,
            found: 0,
            count: 0,
            table: self.lent(),
        }
    }

    /// The answer where the count is above the limit.
    pub fn stopped(&self) -> Answer {
        let mut table = self.lent();
        table[..self.need()].fill(0);
        Answer {
            number: 10,
            place: 0,
            found: 0,
            count: self.limit,
            table,
        }
    }

    /// The answer to a call that is accepted, from its count and the needed numbers.
    pub fn accepted(&self, count: u64, needed: &[u64]) -> Answer {
        let mut table = self.lent();
        table[..self.need()].copy_from_slice(needed);
        Answer {
            number: 0,
            place: 0,
            found: ones(&needed[..4 * (self.n() + 1)]),
            count,
            table,
        }
    }

    /// The refusal of 1 to 9 that document 01's rows give, if there is one.
    fn refusal(&self) -> Option<Answer> {
        if let Err(refusal) = read(&self.rule) {
            Some(self.refused(refusal.number() as usize, refusal.place))
        } else if self.n() > 255 {
            Some(self.refused(7, 0))
        } else if let Some(place) = self.word.iter().position(|b| !b.is_ascii_alphabetic()) {
            Some(self.refused(8, place))
        } else if self.table < self.need() {
            Some(self.refused(9, 0))
        } else {
            None
        }
    }

    /// The answer by the definitions of the language and of the count, without a search.
    fn answer_by_definition(&self) -> Answer {
        let rule = read(&self.rule).unwrap();
        let count = count_by_languages(&rule, &self.word);
        if count > self.limit {
            self.stopped()
        } else {
            self.accepted(count, &expected_table(&self.rule, &self.word))
        }
    }
}

impl Answer {
    pub fn new(line: &str) -> Self {
        let fields: Vec<&str> = line.split('\t').collect();
        let [kind, number, place, found, count, table] = fields[..] else {
            panic!("{line}")
        };
        assert_eq!(kind, "judge");
        Answer {
            number: number.parse().unwrap(),
            place: place.parse().unwrap(),
            found: found.parse().unwrap(),
            count: count.parse().unwrap(),
            table: written_out(table),
        }
    }

    /// The numbers of one block.
    fn block(&self, n: usize, block: usize) -> &[u64] {
        let numbers = 4 * (n + 1);
        &self.table[block * numbers..(block + 1) * numbers]
    }
}

/// The numbers of a printed table; every run must be as long as it can be.
fn written_out(table: &str) -> Vec<u64> {
    if table == "-" {
        return Vec::new();
    }
    let mut runs: Vec<(u64, usize)> = Vec::new();
    for item in table.split(',') {
        let (number, times) = match item.split_once('*') {
            Some((number, times)) => (number.parse().unwrap(), times.parse().unwrap()),
            None => (item.parse().unwrap(), 1),
        };
        assert!(times > 1 || !item.contains('*'), "{item}");
        assert!(runs.last().is_none_or(|&(last, _)| last != number));
        runs.push((number, times));
    }
    let numbers = runs
        .into_iter()
        .flat_map(|(number, times)| vec![number; times]);
    numbers.collect()
}

/// The number of ones in a few numbers.
fn ones(numbers: &[u64]) -> u64 {
    numbers.iter().map(|n| u64::from(n.count_ones())).sum()
}

/// The calls of a stream that a command prints, with their answers.
pub fn calls(arguments: &str) -> Vec<(Call, Answer)> {
    calls_of(&answered(&stream(arguments)))
}

/// The calls that cases are, with their answers.
pub fn calls_of(answered: &[(Case, String)]) -> Vec<(Call, Answer)> {
    let call = |(case, line): &(Case, String)| (Call::new(case), Answer::new(line));
    answered.iter().map(call).collect()
}

/// Checks an answer against the definitions, as far as the word's length allows.
pub fn check_answer(call: &Call, answer: &Answer) {
    let shown = call.rule.escape_ascii();
    if let Some(expected) = call.refusal() {
        assert_eq!(*answer, expected, "{shown}");
    } else if call.n() <= LONGEST_BY_DEFINITION {
        let expected = call.answer_by_definition();
        assert_eq!(*answer, expected, "{shown} on {}", call.word.escape_ascii());
    } else if answer.number == 10 {
        assert_eq!(*answer, call.stopped(), "{shown}");
    } else {
        check_accepted(call, answer);
    }
}

/// What holds of every accepted call, whatever the spans are.
fn check_accepted(call: &Call, answer: &Answer) {
    let rule = read(&call.rule).unwrap();
    let (m, n) = (rule.m() as u64, call.n() as u64);
    assert!(answer.count <= call.limit && answer.count <= m * (n + 1) * (n + 2));
    // The accepted answer with this count and these numbers is this one.
    let needed = &answer.table[..call.need()];
    assert_eq!(*answer, call.accepted(answer.count, needed));
    for row in 0..needed.len() / 4 {
        let i = row % (call.n() + 1);
        let beyond = (0..256).filter(|&j| j < i || j > call.n());
        let numbers = &needed[4 * row..4 * row + 4];
        assert!(beyond
            .into_iter()
            .all(|j| numbers[j / 64] >> (j % 64) & 1 == 0));
    }
    check_special_blocks(call, &rule, answer);
}

/// Blocks that are each other's: a special head's and the first, a complement's and its side's.
fn check_special_blocks(call: &Call, rule: &Rule, answer: &Answer) {
    let n = call.n();
    let block_of = |node: usize| {
        let offset = rule.nodes[node].offset;
        let before = call.rule[..offset]
            .iter()
            .filter(|byte| b"&!".contains(byte));
        answer.block(n, 1 + before.count())
    };
    if rule.nodes[rule.head()].kind.is_special() {
        assert_eq!(answer.block(n, 0), block_of(rule.head()));
    }
    for node in rule.special_nodes() {
        match rule.nodes[node].kind {
            Kind::Complement(side) if rule.nodes[side].kind.is_special() => {
                let (own, other) = (block_of(node), block_of(side));
                let all = (n + 1) * (n + 2) / 2;
                assert!(own.iter().zip(other).all(|(own, other)| own & other == 0));
                assert_eq!(ones(own) + ones(other), all as u64);
            }
            Kind::Intersection(left, right) => {
                let sides = [left, right].into_iter();
                for side in sides.filter(|&side| rule.nodes[side].kind.is_special()) {
                    let (own, other) = (block_of(node), block_of(side));
                    assert!(own.iter().zip(other).all(|(own, other)| own & !other == 0));
                }
            }
            _ => {}
        }
    }
}
