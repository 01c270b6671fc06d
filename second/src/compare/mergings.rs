//! Mergings of two days as calls of the library, with buffers of every length about the need.

use super::request::Asked;
use crate::day;
use crate::limits::MAX_DAY_LINES;
use crate::merge_edges::{self, Pair};

/// How many letters and how many seconds a buffer has beyond those it must have.
const BEYOND: (usize, usize) = (5, 3);

/// More than two files can need.
const ALWAYS_ENOUGH: usize = 2 * MAX_DAY_LINES + 2;

/// Ties, turns and full days, each with buffers that are just long enough and with longer ones.
pub fn calls() -> impl Iterator<Item = Asked> {
    let pairs = merge_edges::short().chain(merge_edges::small());
    let pairs = pairs.chain(merge_edges::full());
    pairs.flat_map(|files| [exact(files.clone()), with_room(files)])
}

/// Files good and bad, and too many events, each with room for all and with none; and a few files
/// with buffers of every kind.
pub fn refusals() -> impl Iterator<Item = Asked> {
    let pairs = merge_edges::good_and_bad().chain(merge_edges::over_full());
    let with_and_without = |files: Pair| {
        [ALWAYS_ENOUGH, 0].map(|length| with_buffers(files.clone(), (length, length)))
    };
    let refused = pairs.flat_map(with_and_without);
    refused.chain(merge_edges::sizes().flat_map(with_all_buffers))
}

/// A day merged with a good one, as the first file and as the second.
pub fn in_either_file(day: &[u8]) -> [Asked; 2] {
    merge_edges::beside_good(day).map(with_room)
}

/// A byte at every place of a line, in either file.
pub fn with_byte(byte: u8) -> impl Iterator<Item = Asked> {
    merge_edges::with_byte(byte).into_iter().map(with_room)
}

/// Two files with buffers that are just long enough.
fn exact(files: Pair) -> Asked {
    let need = lines(&files);
    with_buffers(files, (need, need))
}

/// Two files with buffers that are longer than they must be, each by another length.
pub fn with_room(files: Pair) -> Asked {
    let need = lines(&files);
    with_buffers(files, (need + BEYOND.0, need + BEYOND.1))
}

/// Two files with buffers of all lengths that could be taken for the need, and beside them.
fn with_all_buffers(files: Pair) -> Vec<Asked> {
    let need = lines(&files);
    let [first, second] = files.each_ref().map(|file| line_count(file));
    let below = need.saturating_sub(1);
    let mut lengths = vec![0, 1, first, second, below, need, need + 1, need + BEYOND.0];
    lengths.sort_unstable();
    lengths.dedup();
    let of_letters = |letters: usize| {
        let both = lengths.iter().map(move |&seconds| (letters, seconds));
        both.map(|both| with_buffers(files.clone(), both))
            .collect::<Vec<_>>()
    };
    lengths.iter().copied().flat_map(of_letters).collect()
}

/// Two files with buffers for so many letters and so many seconds.
fn with_buffers(files: Pair, (letters, seconds): (usize, usize)) -> Asked {
    Asked::Merging {
        files,
        letters,
        seconds,
    }
}

/// How many lines two files have together; if both are good, so many events.
pub fn lines(files: &Pair) -> usize {
    files.iter().map(|file| line_count(file)).sum()
}

/// How many lines a file has.
pub fn line_count(file: &[u8]) -> usize {
    file.iter().filter(|&&byte| byte == b'\n').count()
}

/// The file that decides what comes: the one that is refused, or both together if none is.
pub fn decisive([first, second]: &Pair) -> Vec<u8> {
    if day::records(first).is_err() {
        first.clone()
    } else if day::records(second).is_err() {
        second.clone()
    } else {
        [&first[..], second].concat()
    }
}
