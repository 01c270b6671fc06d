//! What a case shows of a rule file: the line of its refusal, or how its names are used.

use std::fmt;

use super::call::{Callee, Kind};
use super::request::Asked;
use crate::limits::MAX_RULE_LINES;
use crate::named_rule::{parts, Part};
use crate::rule_file;

/// The refusals that can come at any line, but for 18, which cannot at the first one.
const OF_ANY_LINE: [u32; 11] = [1, 2, 3, 4, 5, 6, 16, 17, 18, 20, 21];

/// The number of a name that is taken.
const TAKEN: u32 = 18;

/// The last offset that 16 bits hold.
const LAST_SHORT_OFFSET: usize = 65_535;

/// What an accepted file may show.
#[derive(Clone, Copy, Debug, PartialEq, Eq, PartialOrd, Ord)]
pub enum Names {
    /// A line uses a name whose line uses a name.
    Nested,
    /// A node's offset is over 65,535; for the judge, a special node's of the last line.
    LongOffset,
}

impl Names {
    /// What the cases of a callee have to show.
    pub fn of(callee: Callee) -> &'static [Names] {
        match callee {
            Callee::ReadRuleFile | Callee::JudgeRuleFile => &[Names::Nested, Names::LongOffset],
            _ => &[],
        }
    }
}

impl fmt::Display for Names {
    fn fmt(&self, formatter: &mut fmt::Formatter) -> fmt::Result {
        formatter.pad(match self {
            Names::Nested => "accepted, name within name",
            Names::LongOffset => "accepted, offset over 65535",
        })
    }
}

/// Every refusal at every line at which it can come.
pub fn refusals_at_lines() -> Vec<Kind> {
    let lines = |number: u32| (1..=MAX_RULE_LINES).map(move |line| (number, line));
    let all = OF_ANY_LINE.into_iter().flat_map(lines);
    let can_come = all.filter(|&at| at != (TAKEN, 1));
    can_come
        .map(|(number, line)| Kind::AtLine(number, line))
        .collect()
}

/// What a call shows if such a number and place should come.
pub fn shown(asked: &Asked, number: u32, place: usize) -> Vec<Kind> {
    let (file, judged) = match asked {
        Asked::RuleFile { file, .. } => (file, false),
        Asked::JudgeFile { file, .. } => (file, true),
        _ => return Vec::new(),
    };
    if number == 0 {
        let nested = has_nested_name(file).then_some(Names::Nested);
        let long = has_long_offset(file, judged).then_some(Names::LongOffset);
        let shown = nested.into_iter().chain(long);
        shown.map(Kind::ShownNames).collect()
    } else if OF_ANY_LINE.contains(&number) {
        vec![Kind::AtLine(number, place)]
    } else {
        Vec::new()
    }
}

/// Whether a line of an accepted file uses a name whose line uses a name.
fn has_nested_name(file: &[u8]) -> bool {
    let mut naming: Vec<&[u8]> = Vec::new();
    for line in rule_file::written_lines(file) {
        let parts = parts(line.rule).expect("the file is accepted");
        let used = parts.iter().filter_map(|part| match part {
            Part::Name(name) => Some(*name),
            Part::Sign(_) => None,
        });
        let used: Vec<&[u8]> = used.collect();
        if used.iter().any(|name| naming.contains(name)) {
            return true;
        }
        if !used.is_empty() {
            naming.push(line.name);
        }
    }
    false
}

/// Whether 16 bits are too few for an offset in an accepted file; where it is judged, for one that
/// decides the order of the blocks.
fn has_long_offset(file: &[u8], judged: bool) -> bool {
    let lines = rule_file::read(file).expect("the file is accepted");
    let first = if judged { lines.len() - 1 } else { 0 };
    let mut nodes = lines[first..].iter().flat_map(|line| &line.rule.nodes);
    nodes.any(|node| {
        let counts = !judged || node.kind.is_special();
        counts && node.offset > LAST_SHORT_OFFSET
    })
}
