//! Pairs of days on the edges of merging: ties and turns, full days split every way, and files that
//! are bad in every way.

use crate::limits::{LETTERS, MAX_DAY_BYTES, MAX_DAY_LINES, MAX_MERGED};
use crate::lines::{good_line, joined};

/// Two day files, the first one first.
pub type Pair = [Vec<u8>; 2];

/// Pairs of a few lines.
const SHORT: [[&str; 2]; 24] = [
    ["", ""],
    ["E\t0\ta\n", ""],
    ["", "E\t0\ta\n"],
    ["E\t0\ta\nE\t7\tb\nE\t89999\tc\n", ""],
    ["", "E\t0\ta\nE\t7\tb\nE\t89999\tc\n"],
    // One second in both files: the first file's comes first, whatever the letters are.
    ["E\t5\ta\n", "E\t5\tb\n"],
    ["E\t5\tb\n", "E\t5\ta\n"],
    ["E\t5\ta\n", "E\t5\tA\n"],
    ["E\t5\tz\nE\t5\ta\nE\t5\tm\n", "E\t5\ty\nE\t5\tb\n"],
    ["E\t5\tz\nE\t6\ta\n", "E\t5\ty\nE\t6\tb\n"],
    ["E\t4\ta\nE\t5\tb\n", "E\t5\tc\nE\t6\td\n"],
    ["E\t5\ta\nE\t6\tb\n", "E\t4\tc\nE\t5\td\n"],
    // The same events in both, none of which is lost.
    ["E\t5\ta\n", "E\t5\ta\n"],
    ["E\t5\ta\nE\t5\ta\n", "E\t5\ta\nE\t5\ta\n"],
    ["E\t1\ta\nE\t2\tb\nE\t2\tc\n", "E\t1\ta\nE\t2\tb\nE\t2\tc\n"],
    // One file is over when the other begins, or lies within it.
    ["E\t1\ta\nE\t2\tb\n", "E\t3\tc\nE\t4\td\n"],
    ["E\t3\ta\nE\t4\tb\n", "E\t1\tc\nE\t2\td\n"],
    ["E\t1\ta\nE\t9\tb\n", "E\t4\tc\nE\t5\td\n"],
    ["E\t4\ta\nE\t5\tb\n", "E\t1\tc\nE\t9\td\n"],
    // Seconds are numbers, not texts.
    ["E\t9\ta\nE\t100\tb\n", "E\t10\tc\nE\t99\td\n"],
    ["E\t10000\ta\nE\t70000\tb\n", "E\t9999\tc\nE\t65536\td\n"],
    // Through the 24th hour's end, and at both ends of the day.
    [
        "E\t86399\ta\nE\t86400\tb\nE\t89999\tc\n",
        "E\t86399\td\nE\t86400\te\nE\t89999\tf\n",
    ],
    ["E\t0\ta\nE\t89999\tb\n", "E\t0\tc\nE\t89999\td\n"],
    ["E\t86400\ta\n", "E\t0\tb\nE\t86399\tc\nE\t89999\td\n"],
];

/// The second of a file's event, by its place in the file.
type SecondAt = fn(usize) -> usize;

/// How the seconds of two long days lie to each other.
const LONG: [[SecondAt; 2]; 10] = [
    // All at one second, in the shortest lines and in the longest ones.
    [|_| 7, |_| 7],
    [|_| 89_999, |_| 89_999],
    // By turns.
    [|place| 2 * place, |place| 2 * place + 1],
    [|place| 2 * place + 1, |place| 2 * place],
    [|place| place, |place| place],
    // Long runs that begin and end within each other.
    [|place| place / 16, |place| place / 10],
    [|place| (place + 20) / 40, |place| place / 40],
    // One after the other.
    [|_| 3, |_| 4],
    [|_| 4, |_| 3],
    // Through the 24th hour's end.
    [|place| 86_300 + place, |place| 86_390 + place / 8],
];

/// A day that is good beside any other.
const GOOD: &[u8] = b"E\t5\tM\n";

/// The most events of a small day, and how many seconds it has.
const SMALL_EVENTS: usize = 4;
const SMALL_SECONDS: usize = 3;

/// Pairs of a few lines.
pub fn short() -> impl Iterator<Item = Pair> {
    SHORT.into_iter().map(|pair| pair.map(Vec::from))
}

/// Every two small days; their letters fall where their seconds are equal.
pub fn small() -> impl Iterator<Item = Pair> {
    let all = small_seconds();
    let days = |letters| {
        all.iter()
            .map(|seconds| small_day(seconds, letters))
            .collect()
    };
    every_two(days(b"zyxw"), days(b"ZYXW"))
}

/// The seconds of every small day.
fn small_seconds() -> Vec<Vec<usize>> {
    let mut all = vec![Vec::new()];
    let mut longest = all.clone();
    for _ in 0..SMALL_EVENTS {
        longest = longest
            .iter()
            .flat_map(|seconds| one_more(seconds))
            .collect();
        all.extend(longest.clone());
    }
    all
}

/// Seconds with each one more behind them that does not fall.
fn one_more(seconds: &[usize]) -> Vec<Vec<usize>> {
    let least = seconds.last().copied().unwrap_or(0);
    let with = |next: usize| [seconds, &[next]].concat();
    (least..SMALL_SECONDS).map(with).collect()
}

/// A day of such seconds, with a letter for each.
fn small_day(seconds: &[usize], letters: &[u8; SMALL_EVENTS]) -> Vec<u8> {
    let events = seconds.iter().zip(letters);
    let lines: Vec<_> = events
        .map(|(&second, &letter)| good_line(second, letter))
        .collect();
    joined(&lines)
}

/// As many events as there may be together, split every way, however their seconds lie.
pub fn full() -> impl Iterator<Item = Pair> {
    let splits = |seconds| (0..=MAX_MERGED).map(move |first| split(seconds, first, MAX_MERGED));
    LONG.into_iter().flat_map(splits)
}

/// One event too many together, split every way that leaves each file good.
pub fn over_full() -> impl Iterator<Item = Pair> {
    let total = MAX_MERGED + 1;
    let splits = move |seconds| (1..total).map(move |first| split(seconds, first, total));
    LONG.into_iter().take(3).flat_map(splits)
}

/// So many events, so many of them in the first file.
fn split([first, second]: [SecondAt; 2], count: usize, total: usize) -> Pair {
    [
        long_day(0, count, first),
        long_day(1, total - count, second),
    ]
}

/// So many lines of a file; the first file's letters are small and the second's are capitals.
fn long_day(file: usize, count: usize, second: SecondAt) -> Vec<u8> {
    let letters = &LETTERS[26 * file..][..26];
    let line = |place: usize| good_line(second(place), letters[place % 26]);
    let lines: Vec<_> = (0..count).map(line).collect();
    joined(&lines)
}

/// Pairs of good days of so many lines, about which the lengths of the buffers matter.
pub fn sizes() -> impl Iterator<Item = Pair> {
    let counts = [
        (0, 0),
        (1, 0),
        (0, 1),
        (1, 1),
        (2, 1),
        (1, 2),
        (3, 2),
        (MAX_MERGED, 0),
        (0, MAX_MERGED),
        (MAX_MERGED - 127, 127),
        (MAX_MERGED, 1),
        (1, MAX_MERGED),
        (MAX_MERGED - 127, 128),
        (MAX_MERGED, MAX_MERGED),
    ];
    let pair = |(first, second)| split(LONG[0], first, first + second);
    counts.into_iter().map(pair)
}

/// Every two of the days that are good or bad, each at one line or another.
pub fn good_and_bad() -> impl Iterator<Item = Pair> {
    every_two(good_and_bad_days(), good_and_bad_days())
}

/// Each of some days with each of others.
fn every_two(firsts: Vec<Vec<u8>>, seconds: Vec<Vec<u8>>) -> impl Iterator<Item = Pair> {
    firsts.into_iter().flat_map(move |first| {
        let with_first = |second: &Vec<u8>| [first.clone(), second.clone()];
        seconds.iter().map(with_first).collect::<Vec<Pair>>()
    })
}

/// Good days, and days with each refusal at several lines.
fn good_and_bad_days() -> Vec<Vec<u8>> {
    let full = long_day(0, MAX_DAY_LINES, |_| 7);
    let longest = long_day(0, MAX_DAY_LINES, |_| 89_999);
    let all_but_one = long_day(0, MAX_DAY_LINES - 1, |_| 7);
    let then = |day: &[u8], rest: &[u8]| [day, rest].concat();
    vec![
        // Good.
        Vec::new(),
        b"E\t5\ta\n".to_vec(),
        b"E\t5\ta\nE\t6\tb\nE\t6\tc\n".to_vec(),
        all_but_one.clone(),
        full.clone(),
        longest.clone(),
        // 11.
        vec![b'x'; MAX_DAY_BYTES + 1],
        then(&longest, b"E"),
        // 12.
        b"E\t5\t_\nE\t6\ta\n".to_vec(),
        b"E\t5\ta\nE\t05\tb\nE\t6\tc\n".to_vec(),
        b"E\t5\ta\nE\t6\tb\nE\t7\tc".to_vec(),
        then(&all_but_one, b"E\t7\n"),
        vec![b'x'; MAX_DAY_BYTES],
        // 13.
        b"E\t90000\ta\nE\t6\tb\n".to_vec(),
        b"E\t5\ta\nE\t4\tb\nE\t6\tc\n".to_vec(),
        b"E\t5\ta\nE\t6\tb\nE\t99999\tc\n".to_vec(),
        then(&all_but_one, b"E\t6\tz\n"),
        // 14.
        then(&full, b"E\t7\tz\n"),
        then(&full, b"\n"),
    ]
}

/// A day as the first file and as the second, beside a good one.
pub fn beside_good(day: &[u8]) -> [Pair; 2] {
    [[day, GOOD], [GOOD, day]].map(|pair| pair.map(<[u8]>::to_vec))
}

/// A byte at every place of a line, in the first file and in the second.
pub fn with_byte(byte: u8) -> Vec<Pair> {
    let with_byte_at = |at: usize| {
        let mut line = b"E\t6\tb\n".to_vec();
        line[at] = byte;
        line
    };
    (0..6)
        .flat_map(|at| beside_good(&with_byte_at(at)))
        .collect()
}
