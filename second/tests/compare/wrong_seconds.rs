//! Libraries with wrong seconds: the edges find each in all calls that read a day, and those of
//! jobs would find the same mistakes in a program.

use std::ops::RangeInclusive;

use second::compare::call::{Call, Callee};
use second::compare::job_edges::jobs;
use second::compare::reference;
use second::compare::request::Request;
use second::job::output;

use crate::check::borrowed;
use crate::wrong::{found, found_with, short_edges, taken_job, Part};

/// The calls that read a day.
const ALL: [Callee; 3] = [Callee::ReadDay, Callee::RunJob, Callee::MergeDays];

/// What a library does wrongly.
#[derive(Debug)]
enum Wrong {
    /// The last second of a day is this one.
    Last(u32),
    /// A second may be so much below the one before.
    FallsBy(RangeInclusive<u32>),
    /// A second may be below the one before, if that is this one or later.
    FallsFrom(u32),
}

const WRONGS: [Wrong; 10] = [
    Wrong::Last(86_399),
    Wrong::Last(86_400),
    Wrong::Last(89_998),
    Wrong::Last(90_000),
    Wrong::Last(99_999),
    Wrong::FallsBy(1..=1),
    Wrong::FallsBy(3_599..=3_599),
    Wrong::FallsBy(3_600..=3_600),
    Wrong::FallsBy(1..=3_600),
    Wrong::FallsFrom(86_400),
];

impl Wrong {
    /// A second that the right reader judges as the library judges this one.
    fn taken(&self, before: u32, second: u32) -> u32 {
        let (last, too_late) = (89_999, 90_000);
        let falls = second < before;
        match self {
            Wrong::Last(wrong) if (wrong + 1..=last).contains(&second) => too_late,
            Wrong::Last(wrong) if (too_late..=*wrong).contains(&second) => last,
            Wrong::FallsBy(by) if falls && by.contains(&(before - second)) => before,
            Wrong::FallsFrom(first) if falls && before >= *first => before,
            _ => second,
        }
    }

    /// The bytes of a part as the library takes them.
    fn taken_part(&self, part: Part, bytes: &[u8]) -> Vec<u8> {
        match part {
            Part::Day => self.taken_day(bytes),
            _ => bytes.to_vec(),
        }
    }

    /// The bytes of a day as the library takes them: only seconds that are of the form are changed.
    fn taken_day(&self, file: &[u8]) -> Vec<u8> {
        let mut before = 0;
        let mut taken = Vec::new();
        for line in file.split_inclusive(|&byte| byte == b'\n') {
            let fields = line.split(|&byte| byte == b'\t');
            let mut fields: Vec<Vec<u8>> = fields.map(<[u8]>::to_vec).collect();
            if let Some(second) = fields.get(1).and_then(|field| second_of(field)) {
                before = self.taken(before, second);
                fields[1] = before.to_string().into();
            }
            taken.extend(fields.join(&b'\t'));
        }
        taken
    }
}

/// The second that a field is, if it is of the form.
fn second_of(field: &[u8]) -> Option<u32> {
    let text = std::str::from_utf8(field).ok()?;
    let second: u32 = text.parse().ok()?;
    (second <= 99_999 && second.to_string() == text).then_some(second)
}

/// The short edges of these calls.
fn edges() -> Vec<Request> {
    let mut edges = short_edges();
    edges.retain(|edge| ALL.contains(&edge.asked.callee()));
    edges
}

#[test]
fn the_edges_find_a_library_with_wrong_seconds() {
    let edges = edges();
    let found = |wrong: &Wrong| found_with(&edges, &|part, bytes| wrong.taken_part(part, bytes));
    for wrong in WRONGS {
        assert_eq!(found(&wrong), ALL, "{wrong:?}");
    }
    assert_eq!(found(&Wrong::Last(89_999)), []);
}

#[test]
fn the_edges_of_jobs_alone_find_wrong_seconds() {
    let jobs = jobs();
    let found = |wrong: &Wrong| {
        jobs.iter().any(|job| {
            let taken = taken_job(job, &|part, bytes| wrong.taken_part(part, bytes));
            taken != *job && output(&taken) != output(job)
        })
    };
    for wrong in WRONGS {
        assert!(found(&wrong), "{wrong:?}");
    }
    assert!(!found(&Wrong::Last(89_999)));
}

#[test]
fn the_edges_find_a_reader_that_counts_anew_after_24_hours() {
    let library = |_: &str, mut call: Call| {
        let number = reference::run(borrowed(&mut call));
        if let (
            Some(0),
            Call::ReadDay {
                seconds, answer, ..
            }
            | Call::MergeDays {
                seconds, answer, ..
            },
        ) = (number, &mut call)
        {
            let n = answer[4] as usize;
            seconds[..n].iter_mut().for_each(|second| *second %= 86_400);
        }
        reference::returned(number)
    };
    let both = [Callee::ReadDay, Callee::MergeDays];
    assert_eq!(found(&edges(), &library), both);
}
