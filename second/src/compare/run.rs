//! A run of comparisons: what passed, what differed, and the summary.

use std::fmt::Display;
use std::io::{self, Write};

use super::call::Required;
use super::check::Checked;
use super::tally::Tally;

/// So many differences end a run.
const MOST_DIFFERENCES: u64 = 10;

/// What a case is called, and the command that shows it again.
pub struct Label {
    pub name: String,
    pub again: String,
}

/// The state of a run that writes its findings somewhere.
pub struct Run<'a> {
    output: &'a mut dyn Write,
    tally: Tally,
    passed: u64,
    failed: u64,
}

impl<'a> Run<'a> {
    /// A run that has compared nothing.
    pub fn new(output: &'a mut dyn Write) -> Self {
        Run {
            output,
            tally: Tally::default(),
            passed: 0,
            failed: 0,
        }
    }

    /// Whether there were so many differences that more would tell nothing.
    pub fn is_over(&self) -> bool {
        self.failed >= MOST_DIFFERENCES
    }

    /// Counts a case with its comparisons, each with what was asked; prints what differed.
    pub fn add(&mut self, label: &Label, checks: &[(Checked, &dyn Display)]) -> io::Result<()> {
        let mut differs = false;
        for (checked, asked) in checks {
            self.tally.add(checked.callee, checked.kind, &checked.shown);
            if let Some(difference) = &checked.difference {
                differs = true;
                writeln!(self.output, "DIFFERENCE in {}", label.name)?;
                writeln!(self.output, "  called:   {asked}")?;
                write!(self.output, "{difference}")?;
                writeln!(self.output, "  again:    {}", label.again)?;
                self.output.flush()?;
            }
        }
        if differs {
            self.failed += 1;
        } else {
            self.passed += 1;
        }
        Ok(())
    }

    /// Prints the summary, where each required kind that never came is a failure; tells whether all
    /// is well.
    pub fn finish(mut self, required: &[Required]) -> io::Result<bool> {
        write!(self.output, "{}", self.tally)?;
        if self.is_over() {
            // What did not come might still have come.
            writeln!(self.output, "stopped after {} differences", self.failed)?;
        } else {
            self.add_missing(required)?;
        }
        let (passed, failed) = (self.passed, self.failed);
        writeln!(self.output, "{passed} passed, {failed} failed")?;
        self.output.flush()?;
        Ok(failed == 0 && passed > 0)
    }

    /// Counts each required kind that never came.
    fn add_missing(&mut self, required: &[Required]) -> io::Result<()> {
        for kind in self.tally.missing(required) {
            writeln!(self.output, "MISSING: {kind}")?;
            self.failed += 1;
        }
        Ok(())
    }
}
