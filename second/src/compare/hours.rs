//! What a case shows of the 25th hour, besides the number that should come.

use std::fmt;
use std::ops::RangeInclusive;

use super::call::Callee;
use super::mergings::decisive;
use super::request::Asked;
use crate::job;
use crate::limits::LAST_SECOND;
use crate::refusal::Reason;

/// The seconds of the 25th hour.
const LAST_HOUR: RangeInclusive<u32> = 86_400..=LAST_SECOND;

/// What a case may show.
#[derive(Clone, Copy, Debug, PartialEq, Eq, PartialOrd, Ord)]
pub enum Hours {
    /// An accepted day has a second in the 25th hour.
    InLast,
    /// A second is refused because it comes after the 25th hour.
    AfterLast,
}

impl Hours {
    /// What the cases of a callee have to show.
    pub fn of(callee: Callee) -> &'static [Hours] {
        match callee {
            Callee::ReadDay | Callee::RunJob | Callee::MergeDays | Callee::Program => {
                &[Hours::InLast, Hours::AfterLast]
            }
            _ => &[],
        }
    }
}

impl fmt::Display for Hours {
    fn fmt(&self, formatter: &mut fmt::Formatter) -> fmt::Result {
        formatter.pad(match self {
            Hours::InLast => "accepted, day with 25th hour",
            Hours::AfterLast => "refusal 13 for 90000 or more",
        })
    }
}

/// What a call shows if such a number and place should come.
pub fn shown(asked: &Asked, number: u32, place: usize) -> Option<Hours> {
    match asked {
        Asked::Day { file, .. } => shown_by_day(file, number, place),
        Asked::Job { job, .. } => shown_by_job(job, number, place),
        Asked::Merging { files, .. } => shown_by_day(&decisive(files), number, place),
        _ => None,
    }
}

/// What a job shows if such a number and place should come.
pub fn shown_by_job(job: &[u8], number: u32, place: usize) -> Option<Hours> {
    let (_, day) = job::split_job(job).ok()?;
    shown_by_day(day, number, place)
}

/// What a day shows if such a number and place should come.
fn shown_by_day(day: &[u8], number: u32, place: usize) -> Option<Hours> {
    const ACCEPTED: u32 = 0;
    const LINE_SECOND: u32 = Reason::LineSecond as u32;
    // In both cases all lines that are looked at are of the form.
    let mut seconds = day.split_inclusive(|&byte| byte == b'\n').map(second);
    match number {
        ACCEPTED => {
            let is_met = seconds.any(|second| LAST_HOUR.contains(&second));
            is_met.then_some(Hours::InLast)
        }
        LINE_SECOND => {
            let second = seconds.nth(place - 1).expect("a bad line has its place");
            (second > LAST_SECOND).then_some(Hours::AfterLast)
        }
        _ => None,
    }
}

/// The second of a line that is of the form.
fn second(line: &[u8]) -> u32 {
    let digits = line.split(|&byte| byte == b'\t').nth(1);
    let digits = digits.and_then(|digits| std::str::from_utf8(digits).ok());
    let second = digits.and_then(|digits| digits.parse().ok());
    second.expect("a line of the form has a second")
}
