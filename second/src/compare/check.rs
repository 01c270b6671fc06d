//! One call of the library, compared with the second program's: the number that it returns, and all
//! that it is lent to the last element.

use super::call::{Call, Callee, Kind, Library, UNANSWERED};
use super::lent::{Difference, Dirt, Lent, Side};
use super::reference;
use super::request::{Asked, Request};
use super::{hours, letters, merges, names, sets, stars};

/// What came of one comparison.
pub struct Checked {
    pub callee: Callee,
    pub kind: Kind,
    /// What it is counted as besides.
    pub shown: Vec<Kind>,
    pub difference: Option<Difference>,
}

/// Asks the library and the second program the same, and compares all that was lent and returned.
pub fn check(library: &Library, case: &str, request: &Request) -> Checked {
    let mut buffers = Buffers::new(request);
    let returned = library(case, buffers.call(request, Side::Library));
    let number = reference::run(buffers.call(request, Side::Second));
    let shown = number.map(|number| shown(&request.asked, number, buffers.place()));
    // The answer is looked at first, because it says the most.
    let difference = buffers.answer.difference();
    let expected = reference::returned(number);
    let difference = difference.or_else(|| returned_difference(expected, returned));
    Checked {
        callee: request.asked.callee(),
        kind: Kind::of(number),
        shown: shown.unwrap_or_default(),
        difference: difference.or_else(|| buffers.difference()),
    }
}

/// What a case shows if such a number and place should come.
fn shown(asked: &Asked, number: u32, place: usize) -> Vec<Kind> {
    let letters = letters::shown(asked, number, place);
    let letters = letters.into_iter().map(Kind::Shown);
    let names = names::shown(asked, number, place);
    let hours = hours::shown(asked, number, place).map(Kind::ShownHours);
    let sets = sets::shown(asked, number, place);
    let sets = sets.into_iter().map(Kind::ShownSets);
    let stars = stars::shown(asked, number);
    let stars = stars.into_iter().map(Kind::ShownStars);
    let merges = merges::shown(asked, number);
    let merges = merges.into_iter().map(Kind::ShownMerges);
    let shown = letters.chain(names).chain(hours).chain(sets);
    shown.chain(stars).chain(merges).collect()
}

/// What is wrong with the number that a call returned.
fn returned_difference(expected: u64, came: u64) -> Option<Difference> {
    (came != expected).then(|| Difference {
        place: "the number returned".to_string(),
        expected: shown_returned(expected),
        came: shown_returned(came),
    })
}

/// A returned number as text.
fn shown_returned(number: u64) -> String {
    match number {
        UNANSWERED => format!("{number}, WUZ_UNANSWERED"),
        _ => number.to_string(),
    }
}

/// The buffers of any call; those that a call does not have are empty.
struct Buffers {
    /// What is read first: a rule text, a day file, a job or a rule file.
    first: Lent<u8>,
    /// What is read besides: a word, or the second of two day files.
    second: Lent<u8>,
    /// The letters of a day, the text of a job or a rewritten rule.
    bytes: Lent<u8>,
    seconds: Lent<u32>,
    /// The two numbers of each line of a rule file.
    lines: Lent<u64>,
    /// The nodes of a rule or of a rule file, or the table of a judgement.
    numbers: Lent<u64>,
    answer: Lent<u64>,
}

impl Buffers {
    /// The buffers that a request asks for, full of its dirt.
    fn new(request: &Request) -> Self {
        let dirt = request.dirt;
        let mut buffers = Buffers::none();
        buffers.answer = Lent::dirty("answer", request.answer, dirt);
        match &request.asked {
            Asked::Rule { text, nodes } => {
                buffers.first = Lent::holding("text", text, dirt);
                buffers.numbers = Lent::dirty("nodes", *nodes, dirt);
            }
            Asked::Day {
                file,
                letters,
                seconds,
            } => {
                buffers.first = Lent::holding("file", file, dirt);
                buffers.bytes = Lent::dirty("letters", *letters, dirt);
                buffers.seconds = Lent::dirty("seconds", *seconds, dirt);
            }
            Asked::Judge {
                rule, word, table, ..
            } => {
                buffers.first = Lent::holding("rule", rule, dirt);
                buffers.second = Lent::holding("word", word, dirt);
                buffers.numbers = Lent::dirty("table", *table, dirt);
            }
            Asked::Job { job, out } => {
                buffers.first = Lent::holding("job", job, dirt);
                buffers.bytes = Lent::dirty("out", *out, dirt);
            }
            Asked::RuleFile { file, lines, nodes } => {
                buffers.first = Lent::holding("file", file, dirt);
                buffers.lines = Lent::dirty("lines", *lines, dirt);
                buffers.numbers = Lent::dirty("nodes", *nodes, dirt);
            }
            Asked::JudgeFile {
                file, word, table, ..
            } => {
                buffers.first = Lent::holding("file", file, dirt);
                buffers.second = Lent::holding("word", word, dirt);
                buffers.numbers = Lent::dirty("table", *table, dirt);
            }
            Asked::Rewriting { text, out } => {
                buffers.first = Lent::holding("text", text, dirt);
                buffers.bytes = Lent::dirty("out", *out, dirt);
            }
            Asked::Merging {
                files: [first, second],
                letters,
                seconds,
            } => {
                buffers.first = Lent::holding("first", first, dirt);
                buffers.second = Lent::holding("second", second, dirt);
                buffers.bytes = Lent::dirty("letters", *letters, dirt);
                buffers.seconds = Lent::dirty("seconds", *seconds, dirt);
            }
        }
        buffers
    }

    /// No buffer at all.
    fn none() -> Self {
        const NONE: &str = "a buffer that is not lent";
        // The dirt that is made the fastest.
        let dirt = Dirt::Ones;
        Buffers {
            first: Lent::dirty(NONE, 0, dirt),
            second: Lent::dirty(NONE, 0, dirt),
            bytes: Lent::dirty(NONE, 0, dirt),
            seconds: Lent::dirty(NONE, 0, dirt),
            lines: Lent::dirty(NONE, 0, dirt),
            numbers: Lent::dirty(NONE, 0, dirt),
            answer: Lent::dirty(NONE, 0, dirt),
        }
    }

    /// The call with one side's buffers.
    fn call(&mut self, request: &Request, side: Side) -> Call<'_> {
        let first = self.first.side(side);
        let answer = self.answer.side(side);
        match request.asked {
            Asked::Rule { .. } => Call::ReadRule {
                text: first,
                answer,
                nodes: self.numbers.side(side),
            },
            Asked::Day { .. } => Call::ReadDay {
                file: first,
                letters: self.bytes.side(side),
                seconds: self.seconds.side(side),
                answer,
            },
            Asked::Judge { limit, .. } => Call::Judge {
                rule: first,
                word: self.second.side(side),
                limit,
                table: self.numbers.side(side),
                answer,
            },
            Asked::Job { .. } => Call::RunJob {
                job: first,
                out: self.bytes.side(side),
                answer,
            },
            Asked::RuleFile { .. } => Call::ReadRuleFile {
                file: first,
                answer,
                lines: self.lines.side(side),
                nodes: self.numbers.side(side),
            },
            Asked::JudgeFile { limit, .. } => Call::JudgeRuleFile {
                file: first,
                word: self.second.side(side),
                limit,
                table: self.numbers.side(side),
                answer,
            },
            Asked::Rewriting { .. } => Call::RewriteRule {
                text: first,
                out: self.bytes.side(side),
                answer,
            },
            Asked::Merging { .. } => Call::MergeDays {
                first,
                second: self.second.side(side),
                letters: self.bytes.side(side),
                seconds: self.seconds.side(side),
                answer,
            },
        }
    }

    /// The place that should come in an answer.
    fn place(&mut self) -> usize {
        self.answer.side(Side::Second)[1] as usize
    }

    /// The first difference outside the answer.
    fn difference(&self) -> Option<Difference> {
        let lines = self.lines.difference();
        lines
            .or_else(|| self.numbers.difference())
            .or_else(|| self.bytes.difference())
            .or_else(|| self.seconds.difference())
            .or_else(|| self.first.difference())
            .or_else(|| self.second.difference())
    }
}
