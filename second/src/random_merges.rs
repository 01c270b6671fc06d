//! Random pairs of days to be merged, with few different seconds in both, so that ties are common.

use std::ops::Range;

use crate::generate::alphabet;
use crate::limits::{LAST_SECOND, LETTERS, MAX_DAY_LINES, MAX_MERGED};
use crate::lines::{good_line, joined, Line};
use crate::merge_edges::Pair;
use crate::random::Random;
use crate::random_days::damage;

/// The most events of a file where there are only a few.
const FEW_EVENTS: usize = 6;

/// How many seconds a day has.
const DAY: usize = LAST_SECOND as usize + 1;

/// The first second of the 25th hour.
const LAST_HOUR_BEGIN: usize = 86_400;

/// What both days of a pair are drawn from.
struct Source {
    seconds: Range<usize>,
    letters: &'static [u8],
}

impl Source {
    /// So many good lines.
    fn good_lines(&self, random: &mut Random, count: usize) -> Vec<Line> {
        let mut seconds: Vec<usize> = (0..count).map(|_| self.second(random)).collect();
        seconds.sort_unstable();
        let line = |second| good_line(second, random.pick(self.letters));
        seconds.into_iter().map(line).collect()
    }

    /// One of the seconds.
    fn second(&self, random: &mut Random) -> usize {
        self.seconds.start + random.below(self.seconds.len())
    }

    /// Damages a line of a day, or makes it a day of too many lines, which may be too many bytes.
    fn damage_day(&self, random: &mut Random, lines: &mut Vec<Line>) {
        if random.one_in(5) {
            let count = MAX_DAY_LINES + 1 + random.below(3);
            *lines = self.good_lines(random, count);
        } else {
            damage(random, lines);
        }
    }
}

/// Two good days of a few events at very few seconds, and with few letters.
pub fn few(random: &mut Random) -> Pair {
    let width = 1 + random.below(4);
    let source = Source {
        seconds: seconds_of_both(random, width),
        letters: alphabet(random),
    };
    [(); 2].map(|()| {
        let count = random.below(FEW_EVENTS + 1);
        joined(&source.good_lines(random, count))
    })
}

/// Two days of all sizes, a good part of them damaged.
pub fn pair(random: &mut Random) -> Pair {
    let width = random.pick(&[1, 2, 3, 5, 10, 40, 300, DAY]);
    let source = Source {
        seconds: seconds_of_both(random, width),
        letters: LETTERS,
    };
    let mut days = counts(random).map(|count| source.good_lines(random, count));
    for file in damaged_files(random) {
        source.damage_day(random, &mut days[file]);
    }
    days.map(|lines| joined(&lines))
}

/// So many seconds in a row, which both days have theirs from; often at an end of the day or about
/// the 24th hour's.
fn seconds_of_both(random: &mut Random, width: usize) -> Range<usize> {
    let last_first = DAY - width;
    let first = match random.below(4) {
        0 => 0,
        1 => last_first,
        2 => last_first.min(LAST_HOUR_BEGIN - 1),
        _ => random.below(last_first + 1),
    };
    first..first + width
}

/// How many events each of the two days has: often none, or about as many as there may be together.
fn counts(random: &mut Random) -> [usize; 2] {
    let few = |random: &mut Random| random.below(12);
    match random.below(16) {
        0..=2 => {
            let total = MAX_MERGED - 1 + random.below(4);
            let first = random.below(total + 1);
            [first, total - first]
        }
        3 => [(); 2].map(|()| random.below(MAX_DAY_LINES + 1)),
        4 => [random.below(MAX_DAY_LINES + 1), few(random)],
        5 => [few(random), random.below(MAX_DAY_LINES + 1)],
        6 => [few(random), 0],
        7 => [0, few(random)],
        _ => [(); 2].map(|()| few(random)),
    }
}

/// Which files are damaged: mostly none, else one of them or both.
fn damaged_files(random: &mut Random) -> Range<usize> {
    match random.below(8) {
        0 => 0..1,
        1 => 1..2,
        2 => 0..2,
        _ => 0..0,
    }
}
