//! What is asked of the library: a call with its bytes, and how long its buffers are.

use std::fmt;

use super::call::Callee;
use super::lent::Dirt;
use crate::merge_edges::Pair;
use crate::stream::Case;

/// A call with the lengths of the buffers it is lent.
#[derive(Clone, Debug, PartialEq, Eq)]
pub struct Request {
    pub asked: Asked,
    /// The length of the lent answer.
    pub answer: usize,
    pub dirt: Dirt,
}

/// The bytes of a call, and the lengths of its own buffers.
#[derive(Clone, Debug, PartialEq, Eq)]
pub enum Asked {
    Rule {
        text: Vec<u8>,
        nodes: usize,
    },
    Day {
        file: Vec<u8>,
        letters: usize,
        seconds: usize,
    },
    Judge {
        rule: Vec<u8>,
        word: Vec<u8>,
        limit: u64,
        table: usize,
    },
    Job {
        job: Vec<u8>,
        out: usize,
    },
    RuleFile {
        file: Vec<u8>,
        lines: usize,
        nodes: usize,
    },
    JudgeFile {
        file: Vec<u8>,
        word: Vec<u8>,
        limit: u64,
        table: usize,
    },
    Rewriting {
        text: Vec<u8>,
        out: usize,
    },
    Merging {
        files: Pair,
        letters: usize,
        seconds: usize,
    },
}

impl Asked {
    /// A case of a stream, if there is a call for it; a rule's nodes get such a buffer.
    pub fn case(case: Case, nodes: usize) -> Option<Self> {
        let asked = match case {
            Case::Rule(text) => Asked::Rule { text, nodes },
            Case::Day {
                letters,
                seconds,
                bytes,
            } => Asked::Day {
                file: bytes,
                letters,
                seconds,
            },
            Case::Judge {
                table,
                limit,
                rule,
                word,
            } => Asked::Judge {
                rule,
                word,
                limit,
                table,
            },
            // No call prints a number alone.
            Case::Numbers { .. } => return None,
        };
        Some(asked)
    }

    /// Which call it is.
    pub fn callee(&self) -> Callee {
        match self {
            Asked::Rule { .. } => Callee::ReadRule,
            Asked::Day { .. } => Callee::ReadDay,
            Asked::Judge { .. } => Callee::Judge,
            Asked::Job { .. } => Callee::RunJob,
            Asked::RuleFile { .. } => Callee::ReadRuleFile,
            Asked::JudgeFile { .. } => Callee::JudgeRuleFile,
            Asked::Rewriting { .. } => Callee::RewriteRule,
            Asked::Merging { .. } => Callee::MergeDays,
        }
    }
}

/// The most bytes that are shown; only a file that is refused has more.
const MOST_SHOWN: usize = 10_000;

/// Bytes with their number, escaped.
pub fn shown_bytes(bytes: &[u8]) -> String {
    let shown = &bytes[..bytes.len().min(MOST_SHOWN)];
    let cut = if shown.len() < bytes.len() { ".." } else { "" };
    format!("\"{}\"{cut} ({} bytes)", shown.escape_ascii(), bytes.len())
}

impl fmt::Display for Asked {
    fn fmt(&self, formatter: &mut fmt::Formatter) -> fmt::Result {
        match self {
            Asked::Rule { text, nodes } => {
                write!(formatter, "text {}, nodes of {nodes}", shown_bytes(text))
            }
            Asked::Day {
                file,
                letters,
                seconds,
            } => {
                write!(formatter, "file {}, ", shown_bytes(file))?;
                write!(formatter, "letters of {letters}, seconds of {seconds}")
            }
            Asked::Judge {
                rule,
                word,
                limit,
                table,
            } => {
                let (rule, word) = (shown_bytes(rule), shown_bytes(word));
                write!(formatter, "rule {rule}, word {word}, ")?;
                write!(formatter, "limit {limit}, table of {table}")
            }
            Asked::Job { job, out } => write!(formatter, "job {}, out of {out}", shown_bytes(job)),
            Asked::RuleFile { file, lines, nodes } => {
                write!(formatter, "file {}, ", shown_bytes(file))?;
                write!(formatter, "lines of {lines}, nodes of {nodes}")
            }
            Asked::JudgeFile {
                file,
                word,
                limit,
                table,
            } => {
                let (file, word) = (shown_bytes(file), shown_bytes(word));
                write!(formatter, "file {file}, word {word}, ")?;
                write!(formatter, "limit {limit}, table of {table}")
            }
            Asked::Rewriting { text, out } => {
                write!(formatter, "text {}, out of {out}", shown_bytes(text))
            }
            Asked::Merging {
                files,
                letters,
                seconds,
            } => {
                let [first, second] = files.each_ref().map(|file| shown_bytes(file));
                write!(formatter, "first {first}, second {second}, ")?;
                write!(formatter, "letters of {letters}, seconds of {seconds}")
            }
        }
    }
}

impl fmt::Display for Request {
    fn fmt(&self, formatter: &mut fmt::Formatter) -> fmt::Result {
        let (asked, answer) = (&self.asked, self.answer);
        write!(
            formatter,
            "{}: {asked}, answer of {answer}, ",
            asked.callee()
        )?;
        match self.dirt {
            Dirt::Ones => write!(formatter, "all lent full of ones"),
            Dirt::Noise(seed) => write!(formatter, "all lent full of noise from seed {seed}"),
        }
    }
}
