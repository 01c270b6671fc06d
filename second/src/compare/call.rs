//! The eight calls of the C interface, with every buffer as a slice.

use std::fmt;

use super::hours::Hours;
use super::letters::Letters;
use super::merges::Merges;
use super::names::{self, Names};
use super::sets::Sets;
use super::stars::Stars;
use super::trouble::Trouble;
use crate::limits::MAX_RULE_LINES;

/// How many numbers the nodes' buffer must have, however few of them a rule takes.
pub const NODES: usize = 128;

/// How many numbers the nodes' buffer of a rule file must have: so many for each line.
pub const FILE_NODES: usize = NODES * MAX_RULE_LINES;

/// How many numbers the lines' buffer of a rule file must have: two for each line.
pub const FILE_LINES: usize = 2 * MAX_RULE_LINES;

/// What a call returns that has no room for its answer.
pub const UNANSWERED: u64 = u64::MAX;

/// A call with all that is lent to it.
pub enum Call<'a> {
    ReadRule {
        text: &'a [u8],
        answer: &'a mut [u64],
        nodes: &'a mut [u64],
    },
    ReadDay {
        file: &'a [u8],
        letters: &'a mut [u8],
        seconds: &'a mut [u32],
        answer: &'a mut [u64],
    },
    Judge {
        rule: &'a [u8],
        word: &'a [u8],
        limit: u64,
        table: &'a mut [u64],
        answer: &'a mut [u64],
    },
    RunJob {
        job: &'a [u8],
        out: &'a mut [u8],
        answer: &'a mut [u64],
    },
    ReadRuleFile {
        file: &'a [u8],
        answer: &'a mut [u64],
        lines: &'a mut [u64],
        nodes: &'a mut [u64],
    },
    JudgeRuleFile {
        file: &'a [u8],
        word: &'a [u8],
        limit: u64,
        table: &'a mut [u64],
        answer: &'a mut [u64],
    },
    RewriteRule {
        text: &'a [u8],
        out: &'a mut [u8],
        answer: &'a mut [u64],
    },
    MergeDays {
        first: &'a [u8],
        second: &'a [u8],
        letters: &'a mut [u8],
        seconds: &'a mut [u32],
        answer: &'a mut [u64],
    },
}

/// A library that does the calls and gives what each returns; the text names the case, for messages
/// of a call that dies.
pub type Library<'a> = dyn Fn(&str, Call<'_>) -> u64 + 'a;

/// Whose answers are compared.
#[derive(Clone, Copy, Debug, PartialEq, Eq, PartialOrd, Ord)]
pub enum Callee {
    ReadRule,
    ReadDay,
    Judge,
    RunJob,
    ReadRuleFile,
    JudgeRuleFile,
    RewriteRule,
    MergeDays,
    Program,
    /// The program while something happens to its standard input or output.
    Troubled,
}

/// A callee with the kinds of its cases that have to come.
pub type Required = (Callee, Vec<Kind>);

/// What a case is counted as.
#[derive(Clone, Copy, Debug, PartialEq, Eq, PartialOrd, Ord)]
pub enum Kind {
    /// A buffer is too short for any answer.
    Unanswered,
    /// This number should come.
    Number(u32),
    /// A rule file should be refused by this number at this line.
    AtLine(u32, usize),
    /// Besides its number it shows this of the letters.
    Shown(Letters),
    /// Besides its number it shows this of a rule file's names.
    ShownNames(Names),
    /// Besides its number it shows this of the 25th hour.
    ShownHours(Hours),
    /// Besides its number it shows this of sets of letters.
    ShownSets(Sets),
    /// Besides its number it shows this of stars in a row.
    ShownStars(Stars),
    /// Besides its number it shows this of the merging of two days.
    ShownMerges(Merges),
    /// This happens to the program.
    Trouble(Trouble),
}

impl Kind {
    /// The kind of a call that should give such a number, or none where it cannot answer.
    pub fn of(number: Option<u32>) -> Self {
        number.map_or(Kind::Unanswered, Kind::Number)
    }
}

impl fmt::Display for Kind {
    fn fmt(&self, formatter: &mut fmt::Formatter) -> fmt::Result {
        match self {
            Kind::Unanswered => formatter.pad("a buffer too short to answer"),
            Kind::Number(0) => formatter.pad("accepted"),
            Kind::Number(number) => formatter.pad(&format!("refusal {number}")),
            Kind::AtLine(number, line) => {
                formatter.pad(&format!("refusal {number} at line {line}"))
            }
            Kind::Shown(letters) => letters.fmt(formatter),
            Kind::ShownNames(names) => names.fmt(formatter),
            Kind::ShownHours(hours) => hours.fmt(formatter),
            Kind::ShownSets(sets) => sets.fmt(formatter),
            Kind::ShownStars(stars) => stars.fmt(formatter),
            Kind::ShownMerges(merges) => merges.fmt(formatter),
            Kind::Trouble(trouble) => trouble.fmt(formatter),
        }
    }
}

impl Callee {
    /// The calls of the library.
    pub const LIBRARY: [Callee; 8] = [
        Callee::ReadRule,
        Callee::ReadDay,
        Callee::Judge,
        Callee::RunJob,
        Callee::ReadRuleFile,
        Callee::JudgeRuleFile,
        Callee::RewriteRule,
        Callee::MergeDays,
    ];

    /// How many elements of its answer a call writes; the program has no such buffer.
    pub fn answer_length(self) -> usize {
        match self {
            Callee::ReadRule => 6,
            Callee::ReadDay
            | Callee::RunJob
            | Callee::ReadRuleFile
            | Callee::RewriteRule
            | Callee::MergeDays => 5,
            Callee::Judge | Callee::JudgeRuleFile => 4,
            Callee::Program | Callee::Troubled => 0,
        }
    }

    /// Every kind of case there can be, but for the lines at which a rule file is refused.
    pub fn kinds(self) -> Vec<Kind> {
        let numbers: Vec<u32> = match self {
            Callee::ReadRule => (0..=6).chain([20, 21]).collect(),
            Callee::ReadDay => [0].into_iter().chain(11..=15).collect(),
            Callee::Judge => (0..=10).chain([20, 21]).collect(),
            Callee::RunJob => (0..=6).chain(11..=16).chain([20, 21]).collect(),
            Callee::ReadRuleFile => (0..=6).chain(16..=21).collect(),
            Callee::JudgeRuleFile => (0..=10).chain(16..=21).collect(),
            Callee::RewriteRule => (0..=6).chain([15, 20]).collect(),
            Callee::MergeDays => [0].into_iter().chain(11..=15).chain([22]).collect(),
            // The program's own buffer takes every text, so it never gives 15.
            Callee::Program => (0..=6).chain(11..=14).chain([16, 20, 21]).collect(),
            Callee::Troubled => return Trouble::ALL.map(Kind::Trouble).to_vec(),
        };
        let unanswered = (self != Callee::Program).then_some(Kind::Unanswered);
        let numbers = numbers.into_iter().map(Kind::Number);
        let letters = Letters::of(self).iter().copied().map(Kind::Shown);
        let names = Names::of(self).iter().copied().map(Kind::ShownNames);
        let hours = Hours::of(self).iter().copied().map(Kind::ShownHours);
        let sets = Sets::of(self).iter().copied().map(Kind::ShownSets);
        let stars = Stars::of(self).iter().copied().map(Kind::ShownStars);
        let merges = Merges::of(self).iter().copied().map(Kind::ShownMerges);
        let shown = letters.chain(names).chain(hours).chain(sets);
        let shown = shown.chain(stars).chain(merges);
        numbers.chain(unanswered).chain(shown).collect()
    }

    /// What a run with many cases must have.
    pub fn required(self) -> Required {
        (self, self.kinds())
    }

    /// What a run with all the edges must have: each refusal at each line of a rule file, too.
    pub fn required_of_edges(self) -> Required {
        let lines = match self {
            Callee::ReadRuleFile | Callee::JudgeRuleFile => names::refusals_at_lines(),
            _ => Vec::new(),
        };
        (self, [self.kinds(), lines].concat())
    }
}

impl fmt::Display for Callee {
    fn fmt(&self, formatter: &mut fmt::Formatter) -> fmt::Result {
        formatter.write_str(match self {
            Callee::ReadRule => "wuz_read_rule",
            Callee::ReadDay => "wuz_read_day",
            Callee::Judge => "wuz_judge",
            Callee::RunJob => "wuz_run_job",
            Callee::ReadRuleFile => "wuz_read_rule_file",
            Callee::JudgeRuleFile => "wuz_judge_rule_file",
            Callee::RewriteRule => "wuz_rewrite_rule",
            Callee::MergeDays => "wuz_merge_days",
            Callee::Program => "the program",
            Callee::Troubled => "the program in trouble",
        })
    }
}
