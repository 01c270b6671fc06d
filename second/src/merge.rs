//! The merger of two day files: all refusals of the first and then of the second but 15, then 22
//! and 15, and the events of both by rising second.

use crate::day::{self, Record};
use crate::limits::MAX_MERGED;
use crate::refusal::{Reason, Refusal};

/// An event of a merged day.
#[derive(Clone, Copy, Debug, PartialEq, Eq)]
pub struct Event {
    pub record: Record,
    /// The file it comes from: 0 for the first, 1 for the second.
    pub file: usize,
    /// Its place in that file, from 0.
    place: usize,
}

/// Merges two day files into the two buffers and gives n; on a refusal neither changes.
pub fn merge(files: [&[u8]; 2], letters: &mut [u8], seconds: &mut [u32]) -> Result<usize, Refusal> {
    let events = merged(files)?;
    let records: Vec<Record> = events.iter().map(|event| event.record).collect();
    day::write(&records, letters, seconds)
}

/// The events of two day files as one day, or why there is none; no buffer is judged.
pub fn merged([first, second]: [&[u8]; 2]) -> Result<Vec<Event>, Refusal> {
    let (first, second) = (day::records(first)?, day::records(second)?);
    if first.len() + second.len() > MAX_MERGED {
        return Err(Refusal::without_place(Reason::TooManyEvents));
    }
    let mut events: Vec<Event> = events_of(0, &first).chain(events_of(1, &second)).collect();
    // No two events are alike in all three, so nothing is left to the way of sorting.
    events.sort_unstable_by_key(|event| (event.record.second, event.file, event.place));
    Ok(events)
}

/// The events of one of the files.
fn events_of(file: usize, records: &[Record]) -> impl Iterator<Item = Event> + '_ {
    let records = records.iter().enumerate();
    records.map(move |(place, &record)| Event {
        record,
        file,
        place,
    })
}
