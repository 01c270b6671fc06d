//! The judge calls: from a rule text or a rule file, a word and a limit to an answer and a span
//! table.

use crate::language::spans_of_nodes;
use crate::limits::{is_event, MAX_WORD};
use crate::refusal::{Reason, Refusal};
use crate::rule::{self, Rule};
use crate::work::Automaton;
use crate::{rule_file, table};

/// What a judge call reports; number 0 means accepted.
#[derive(Clone, Copy, Debug, PartialEq, Eq)]
pub struct Answer {
    pub number: u32,
    pub place: usize,
    pub found: u64,
    pub count: u64,
}

impl Answer {
    /// The answer to a refused call; only a count above the limit reports a count.
    fn refused(refusal: Refusal, count: u64) -> Self {
        Answer {
            number: refusal.number(),
            place: refusal.place,
            found: 0,
            count,
        }
    }
}

/// Judges every span of the word by a rule text and writes the table.
pub fn judge(rule_text: &[u8], word: &[u8], limit: u64, table: &mut [u64]) -> Answer {
    judge_by(rule::read(rule_text), word, limit, table)
}

/// Judges every span of the word by the last line of a rule file and writes the table.
pub fn judge_file(file: &[u8], word: &[u8], limit: u64, table: &mut [u64]) -> Answer {
    judge_by(rule_file::read_last(file), word, limit, table)
}

/// Judges by a rule, if reading it has given one.
fn judge_by(reading: Result<Rule, Refusal>, word: &[u8], limit: u64, table: &mut [u64]) -> Answer {
    let checked = reading.and_then(|rule| check(&rule, word, table.len()).map(|()| rule));
    let rule = match checked {
        Ok(rule) => rule,
        Err(refusal) => return Answer::refused(refusal, 0),
    };
    let n = word.len();
    let spans = spans_of_nodes(&rule, word);
    let count = Automaton::new(&rule, word, &spans).work_count();
    if count > limit {
        table[..table::need(rule.k(), n)].fill(0);
        return Answer::refused(Refusal::without_place(Reason::CountAboveLimit), limit);
    }
    table::fill(table, &rule, &spans, n);
    Answer {
        number: 0,
        place: 0,
        found: table::found(table, n),
        count,
    }
}

/// Refuses what can be refused after the reading and before any work.
fn check(rule: &Rule, word: &[u8], table_length: usize) -> Result<(), Refusal> {
    if word.len() > MAX_WORD {
        return Err(Refusal::without_place(Reason::WordTooLong));
    }
    if let Some(offset) = word.iter().position(|&byte| !is_event(byte)) {
        return Err(Refusal::at(Reason::WordByte, offset));
    }
    if table_length < table::need(rule.k(), word.len()) {
        return Err(Refusal::without_place(Reason::TableTooShort));
    }
    Ok(())
}
