//! How many cases of each kind came, for each callee.

use std::collections::BTreeMap;
use std::fmt;

use super::call::{Callee, Kind, Required};
use crate::limits::MAX_RULE_LINES;

/// How many cases of each kind came.
type Kinds = BTreeMap<Kind, u64>;

/// The cases counted by callee, and by callee and kind.
#[derive(Default)]
pub struct Tally {
    all: BTreeMap<Callee, u64>,
    cases: BTreeMap<Callee, Kinds>,
}

impl Tally {
    /// Counts a case of a kind, and all that it shows besides.
    pub fn add(&mut self, callee: Callee, kind: Kind, shown: &[Kind]) {
        *self.all.entry(callee).or_default() += 1;
        let kinds = self.cases.entry(callee).or_default();
        for &kind in shown.iter().chain([&kind]) {
            *kinds.entry(kind).or_default() += 1;
        }
    }

    /// The required kinds that never came.
    pub fn missing(&self, required: &[Required]) -> Vec<String> {
        let mut missing = Vec::new();
        for (callee, kinds) in required {
            let came = self.cases.get(callee);
            for kind in kinds {
                if !came.is_some_and(|came| came.contains_key(kind)) {
                    missing.push(format!("{callee} never had {kind}"));
                }
            }
        }
        missing
    }
}

impl fmt::Display for Tally {
    fn fmt(&self, formatter: &mut fmt::Formatter) -> fmt::Result {
        for (callee, kinds) in &self.cases {
            writeln!(formatter, "{callee}: {} cases", self.all[callee])?;
            for (kind, count) in kinds {
                // The lines of a number stand together, in the row of the first that came.
                match *kind {
                    Kind::AtLine(number, line) if is_first_line(kinds, number, line) => {
                        let name = format!("refusal {number} by its line");
                        writeln!(formatter, "  {name:28} {}", by_line(kinds, number))?;
                    }
                    Kind::AtLine(..) => {}
                    kind => writeln!(formatter, "  {kind:28} {count:8}")?,
                }
            }
        }
        Ok(())
    }
}

/// Whether no case of a number came at a line before this one.
fn is_first_line(kinds: &Kinds, number: u32, line: usize) -> bool {
    (1..line).all(|line| !kinds.contains_key(&Kind::AtLine(number, line)))
}

/// How many cases of a number came at each line of a rule file.
fn by_line(kinds: &Kinds, number: u32) -> String {
    let count = |line| kinds.get(&Kind::AtLine(number, line)).copied();
    let counts = (1..=MAX_RULE_LINES).map(|line| count(line).unwrap_or(0).to_string());
    counts.collect::<Vec<_>>().join(" ")
}
