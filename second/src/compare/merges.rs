//! What a case shows of the merging of two days, besides the number that should come.

use std::fmt;

use super::call::Callee;
use super::mergings::lines;
use super::request::Asked;
use crate::day;
use crate::limits::MAX_MERGED;
use crate::merge::{merged, Event};
use crate::merge_edges::Pair;
use crate::refusal::Reason;

/// What a merging may show.
#[derive(Clone, Copy, Debug, PartialEq, Eq, PartialOrd, Ord)]
pub enum Merges {
    /// Both files of an accepted merging have an event at one second.
    Tie,
    /// The events of an accepted merging go from one file to the other and back.
    Turns,
    /// One file of an accepted merging is empty, and the other is not.
    OneEmpty,
    /// An accepted merging has as many events as there may be.
    Full,
    /// The second file is refused, and the first is good.
    SecondRefused,
    /// Both files are bad, but not alike: another number or another place.
    BothBad,
    /// There are too many events, and a buffer is too short for them as well.
    ShortBesides,
}

impl Merges {
    /// What the cases of a callee have to show.
    pub fn of(callee: Callee) -> &'static [Merges] {
        use Merges::*;
        match callee {
            Callee::MergeDays => &[
                Tie,
                Turns,
                OneEmpty,
                Full,
                SecondRefused,
                BothBad,
                ShortBesides,
            ],
            _ => &[],
        }
    }
}

impl fmt::Display for Merges {
    fn fmt(&self, formatter: &mut fmt::Formatter) -> fmt::Result {
        formatter.pad(match self {
            Merges::Tie => "accepted, a second in both",
            Merges::Turns => "accepted, files by turns",
            Merges::OneEmpty => "accepted, one file empty",
            Merges::Full => "accepted, 255 together",
            Merges::SecondRefused => "refusal of the second file",
            Merges::BothBad => "refusal, both files bad",
            Merges::ShortBesides => "refusal 22, short buffer too",
        })
    }
}

/// What a call shows if such a number should come.
pub fn shown(asked: &Asked, number: u32) -> Vec<Merges> {
    const ACCEPTED: u32 = 0;
    const TOO_SHORT: u32 = Reason::BufferTooShort as u32;
    const TOO_MANY: u32 = Reason::TooManyEvents as u32;
    let Asked::Merging {
        files,
        letters,
        seconds,
    } = asked
    else {
        return Vec::new();
    };
    let all = match number {
        ACCEPTED => shown_by_accepted(files),
        TOO_SHORT => Vec::new(),
        TOO_MANY => {
            let is_short = *letters.min(seconds) < lines(files);
            vec![(is_short, Merges::ShortBesides)]
        }
        _ => shown_by_refused(files),
    };
    let met = all.into_iter().filter(|&(is_met, _)| is_met);
    met.map(|(_, shown)| shown).collect()
}

/// What accepted files may show, and whether they do.
fn shown_by_accepted(files: &Pair) -> Vec<(bool, Merges)> {
    let events = merged(files.each_ref().map(Vec::as_slice)).expect("the files are accepted");
    let changes_file = |pair: &&[Event]| pair[0].file != pair[1].file;
    // Where a second is in both files, the first one's last event and the second one's first event
    // at that second are neighbours.
    let is_tie = |pair: &[Event]| {
        pair[0].file != pair[1].file && pair[0].record.second == pair[1].record.second
    };
    let empty = files.iter().filter(|file| file.is_empty()).count();
    vec![
        (events.windows(2).any(is_tie), Merges::Tie),
        (
            events.windows(2).filter(changes_file).count() >= 2,
            Merges::Turns,
        ),
        (empty == 1, Merges::OneEmpty),
        (events.len() == MAX_MERGED, Merges::Full),
    ]
}

/// What refused files may show, and whether they do.
fn shown_by_refused(files: &Pair) -> Vec<(bool, Merges)> {
    let [first, second] = files.each_ref().map(|file| day::records(file).err());
    vec![
        (first.is_none(), Merges::SecondRefused),
        (
            first.is_some() && second.is_some() && first != second,
            Merges::BothBad,
        ),
    ]
}
