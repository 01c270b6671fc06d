//! The merger of two days, sentence by sentence of document 02 g): its order, its numbers, and what
//! it writes.

use second::day;
use second::merge::{merge, merged};
use second::merge_edges::{full, over_full, small};
use second::random::Random;
use second::random_merges::{few, pair};

const LETTER_DIRT: u8 = b'#';
const SECOND_DIRT: u32 = 4_000_000_000;

/// An event as the tests see it: file, second and letter.
type Event = (usize, u32, char);

/// Merges into buffers of such lengths: number, place and n, and both buffers afterwards.
fn merge_into(
    files: [&[u8]; 2],
    lengths: (usize, usize),
) -> ((u32, usize, usize), Vec<u8>, Vec<u32>) {
    let mut letters = vec![LETTER_DIRT; lengths.0];
    let mut seconds = vec![SECOND_DIRT; lengths.1];
    let answer = match merge(files, &mut letters, &mut seconds) {
        Ok(n) => (0, 0, n),
        Err(refusal) => (refusal.number(), refusal.place, 0),
    };
    if answer.0 != 0 {
        assert_eq!(letters, vec![LETTER_DIRT; lengths.0]);
        assert_eq!(seconds, vec![SECOND_DIRT; lengths.1]);
    }
    (answer, letters, seconds)
}

/// Number, place and n, with buffers that are long enough for any two files.
fn verdict(first: &[u8], second: &[u8]) -> (u32, usize, usize) {
    merge_into([first, second], (600, 600)).0
}

/// A day of events as `5a 5b 7c`.
fn day_of(events: &str) -> Vec<u8> {
    let line = |event: &str| {
        let (second, letter) = event.split_at(event.len() - 1);
        format!("E\t{second}\t{letter}\n")
    };
    let lines: String = events.split_whitespace().map(line).collect();
    lines.into_bytes()
}

/// What two such days become, in the same writing.
fn made(first: &str, second: &str) -> String {
    let (first, second) = (day_of(first), day_of(second));
    let (answer, letters, seconds) = merge_into([&first, &second], (255, 255));
    assert_eq!((answer.0, answer.1), (0, 0));
    let events = seconds.iter().zip(&letters).take(answer.2);
    let event = |(second, &letter): (&u32, &u8)| format!("{second}{}", char::from(letter));
    let events: Vec<String> = events.map(event).collect();
    events.join(" ")
}

/// So many good lines, all alike.
fn lines(count: usize) -> Vec<u8> {
    b"E\t7\ta\n".repeat(count)
}

/// So many lines, of which one is bad.
fn with_bad(count: usize, at: usize, bad: &[u8]) -> Vec<u8> {
    let mut all = vec![&b"E\t7\ta\n"[..]; count];
    all[at - 1] = bad;
    all.concat()
}

#[test]
fn two_days_become_one_by_rising_second() {
    for (first, second, expected) in [
        ("1a 3b 5c", "2d 4e", "1a 2d 3b 4e 5c"),
        ("2d 4e", "1a 3b 5c", "1a 2d 3b 4e 5c"),
        ("1a 2b", "3c 4d", "1a 2b 3c 4d"),
        ("3c 4d", "1a 2b", "1a 2b 3c 4d"),
        ("1a 9b", "4c 5d", "1a 4c 5d 9b"),
        ("9a 100b", "10c 99d", "9a 10c 99d 100b"),
        ("0a 89999b", "86399c 86400d", "0a 86399c 86400d 89999b"),
    ] {
        assert_eq!(made(first, second), expected);
    }
}

#[test]
fn at_equal_seconds_the_first_file_s_events_come_first() {
    for (first, second, expected) in [
        ("5a", "5b", "5a 5b"),
        ("5b", "5a", "5b 5a"),
        ("5a", "5A", "5a 5A"),
        ("5A", "5a", "5A 5a"),
        ("5a 5b", "5c 5d", "5a 5b 5c 5d"),
        ("4a 5b", "5c 6d", "4a 5b 5c 6d"),
        ("5c 6d", "4a 5b", "4a 5c 5b 6d"),
        ("5a 6b", "5c 6d", "5a 5c 6b 6d"),
        ("0a 89999b", "0c 89999d", "0a 0c 89999b 89999d"),
    ] {
        assert_eq!(made(first, second), expected);
    }
}

#[test]
fn each_file_s_own_order_is_kept() {
    assert_eq!(made("5z 5a 5m", ""), "5z 5a 5m");
    assert_eq!(made("", "5z 5a 5m"), "5z 5a 5m");
    assert_eq!(made("5z 5a 5m", "5y 5B 5x"), "5z 5a 5m 5y 5B 5x");
    assert_eq!(made("5z 5a 6m 6b", "5y 6x 6c"), "5z 5a 5y 6m 6b 6x 6c");
}

#[test]
fn nothing_is_lost_and_nothing_is_added() {
    assert_eq!(made("", ""), "");
    assert_eq!(made("5a", ""), "5a");
    assert_eq!(made("", "5a"), "5a");
    // What is the same in both files, or twice in one, comes as often.
    assert_eq!(made("5a", "5a"), "5a 5a");
    assert_eq!(made("5a 5a", "5a"), "5a 5a 5a");
    assert_eq!(made("1a 2b", "1a 2b"), "1a 1a 2b 2b");
}

#[test]
fn the_result_goes_to_its_buffers_and_nothing_beyond_changes() {
    let (first, second) = (day_of("1a 3b"), day_of("2c"));
    let files = [&first[..], &second];
    let (answer, letters, seconds) = merge_into(files, (5, 4));
    assert_eq!(answer, (0, 0, 3));
    assert_eq!(letters, b"acb##");
    assert_eq!(seconds, [1, 2, 3, SECOND_DIRT]);
    let (answer, letters, seconds) = merge_into(files, (3, 3));
    assert_eq!((answer, &letters[..]), ((0, 0, 3), &b"acb"[..]));
    assert_eq!(seconds, [1, 2, 3]);
}

#[test]
fn two_days_without_events_need_no_buffers() {
    assert_eq!(merge_into([b"", b""], (0, 0)).0, (0, 0, 0));
    let (answer, letters, seconds) = merge_into([b"", b""], (2, 1));
    assert_eq!(answer, (0, 0, 0));
    assert_eq!(
        (&letters[..], &seconds[..]),
        (&b"##"[..], &[SECOND_DIRT][..])
    );
}

#[test]
fn a_bad_file_is_refused_as_the_day_reader_refuses_it() {
    let full = lines(255);
    for (bad, number, place) in [
        (vec![b'x'; 2_551], 11, 0),
        (b"E\t89999\ta\n".repeat(256), 11, 0),
        (b"x".to_vec(), 12, 1),
        (with_bad(9, 4, b"E\t07\ta\n"), 12, 4),
        (with_bad(255, 255, b"E\t7\ta"), 12, 255),
        (b"E\t90000\ta\n".to_vec(), 13, 1),
        (with_bad(9, 5, b"E\t6\ta\n"), 13, 5),
        (with_bad(300, 255, b"E\t6\ta\n"), 13, 255),
        (lines(256), 14, 256),
        ([&full[..], b"\n"].concat(), 14, 256),
        // In one line 12 comes before 13.
        (b"E\t90000\t_\n".to_vec(), 12, 1),
    ] {
        let by_reader = day::read(&bad, &mut [0; 300], &mut [0; 300]).unwrap_err();
        assert_eq!((by_reader.number(), by_reader.place), (number, place));
        for good in [&b""[..], b"E\t5\tb\nE\t6\tb\n", &full] {
            // The place is the line of the file that is refused, whatever the other has.
            assert_eq!(verdict(&bad, good), (number, place, 0));
            assert_eq!(verdict(good, &bad), (number, place, 0));
        }
    }
}

#[test]
fn a_refusal_of_the_first_file_is_given_before_one_of_the_second() {
    let bad = [
        (vec![b'x'; 2_551], (11, 0, 0)),
        (with_bad(3, 1, b"\n"), (12, 1, 0)),
        (with_bad(3, 3, b"\n"), (12, 3, 0)),
        (with_bad(3, 2, b"E\t6\ta\n"), (13, 2, 0)),
        (with_bad(255, 255, b"E\t6\ta\n"), (13, 255, 0)),
        (lines(256), (14, 256, 0)),
    ];
    for (first, expected) in &bad {
        for (second, _) in &bad {
            assert_eq!(verdict(first, second), *expected);
        }
    }
}

#[test]
fn over_255_events_together_are_22() {
    for first in 0..=255 {
        let second = 255 - first;
        assert_eq!(verdict(&lines(first), &lines(second)), (0, 0, 255));
        if first > 0 {
            assert_eq!(verdict(&lines(first), &lines(second + 1)), (22, 0, 0));
        }
    }
    assert_eq!(verdict(&lines(255), &lines(255)), (22, 0, 0));
    // The longest files that there can be.
    let longest = b"E\t89999\tz\n".repeat(255);
    assert_eq!(longest.len(), 2_550);
    assert_eq!(verdict(&longest, &longest), (22, 0, 0));
    assert_eq!(verdict(&longest, b""), (0, 0, 255));
    assert_eq!(verdict(b"", &longest), (0, 0, 255));
}

#[test]
fn more_bytes_together_than_one_file_may_have_are_no_fault() {
    // Two good files can only have them with over 255 events, which are 22 and not 11.
    let (first, second) = (b"E\t89999\tz\n".repeat(128), b"E\t89999\tz\n".repeat(127));
    assert_eq!(verdict(&first, &second), (0, 0, 255));
    let second = b"E\t89999\tz\n".repeat(128);
    assert_eq!(first.len() + second.len(), 2_560);
    assert_eq!(verdict(&first, &second), (22, 0, 0));
}

#[test]
fn number_22_comes_after_both_files_and_before_15() {
    let full = lines(255);
    let bad = [
        (b"x".repeat(2_551), (11, 0, 0)),
        (with_bad(255, 255, b"\n"), (12, 255, 0)),
        (with_bad(255, 254, b"E\t6\ta\n"), (13, 254, 0)),
        (lines(256), (14, 256, 0)),
    ];
    for (bad, expected) in &bad {
        assert_eq!(verdict(&full, bad), *expected);
        assert_eq!(verdict(bad, &full), *expected);
    }
    let one = lines(1);
    for lengths in [(0, 0), (255, 255), (256, 255), (255, 256), (256, 256)] {
        assert_eq!(merge_into([&full, &one], lengths).0, (22, 0, 0));
        assert_eq!(merge_into([&one, &full], lengths).0, (22, 0, 0));
    }
}

#[test]
fn a_buffer_shorter_than_all_events_is_15() {
    for (first, second) in [(1, 0), (0, 1), (1, 1), (3, 2), (2, 3), (255, 0), (100, 155)] {
        let files = [lines(first), lines(second)];
        let files = files.each_ref().map(Vec::as_slice);
        let n = first + second;
        for short in [0, first, second, n - 1] {
            if short < n {
                for lengths in [(short, n), (n, short), (short, short), (short, 600)] {
                    assert_eq!(merge_into(files, lengths).0, (15, 0, 0));
                }
            }
        }
        assert_eq!(merge_into(files, (n, n)).0, (0, 0, n));
        assert_eq!(merge_into(files, (n, n + 1)).0, (0, 0, n));
    }
}

#[test]
fn number_15_comes_last() {
    let (good, bad) = (b"E\t5\ta\n", b"E\t5\ta\nE\t4\ta\n");
    assert_eq!(merge_into([good, good], (0, 0)).0, (15, 0, 0));
    assert_eq!(merge_into([bad, good], (0, 0)).0, (13, 2, 0));
    assert_eq!(merge_into([good, bad], (0, 0)).0, (13, 2, 0));
    assert_eq!(merge_into([b"x", bad], (0, 0)).0, (12, 1, 0));
    assert_eq!(
        merge_into([&lines(255), &lines(256)], (0, 0)).0,
        (14, 256, 0)
    );
}

/// The events of two good days, each file's in its order.
fn events_of(files: [&[u8]; 2]) -> [Vec<Event>; 2] {
    [0, 1].map(|file| {
        let records = day::records(files[file]).unwrap();
        let event = |record: &day::Record| (file, record.second, record.letter.into());
        records.iter().map(event).collect()
    })
}

/// The events of a merged day.
fn merged_events(files: [&[u8]; 2]) -> Vec<Event> {
    let event = |event: &second::merge::Event| {
        let record = event.record;
        (event.file, record.second, record.letter.into())
    };
    merged(files).unwrap().iter().map(event).collect()
}

/// Whether events stand by rising second, and at equal seconds the first file's first.
fn is_in_order(events: &[Event]) -> bool {
    let is_rising = |at: usize, later: usize| events[at].1 <= events[later].1;
    let first_is_first = |at: usize, later: usize| {
        events[at].1 != events[later].1 || events[at].0 <= events[later].0
    };
    let mut pairs = (0..events.len()).flat_map(|later| (0..later).map(move |at| (at, later)));
    pairs.all(|(at, later)| is_rising(at, later) && first_is_first(at, later))
}

/// Every way to put two rows into one that keeps the order of both.
fn interleavings(first: &[Event], second: &[Event]) -> Vec<Vec<Event>> {
    let (Some((head, rest)), Some((other_head, other_rest))) =
        (first.split_first(), second.split_first())
    else {
        return vec![[first, second].concat()];
    };
    let behind = |head: &Event, all: Vec<Vec<Event>>| {
        let with_head = |tail: Vec<Event>| [&[*head][..], &tail].concat();
        all.into_iter().map(with_head).collect::<Vec<_>>()
    };
    let mut all = behind(head, interleavings(rest, second));
    all.extend(behind(other_head, interleavings(first, other_rest)));
    all
}

/// Checks that of all rows that lose and add nothing and keep each file's order just one is in
/// order, and that it is the merged day; gives how many rows there are.
fn check_only_one(files: [&[u8]; 2]) -> usize {
    let [first, second] = events_of(files);
    let all = interleavings(&first, &second);
    let ordered: Vec<&Vec<Event>> = all.iter().filter(|events| is_in_order(events)).collect();
    assert_eq!(ordered, [&merged_events(files)]);
    all.len()
}

#[test]
fn one_interleaving_alone_keeps_every_sentence() {
    let (mut pairs, mut rows) = (0, 0);
    for files in small() {
        pairs += 1;
        rows += check_only_one(files.each_ref().map(Vec::as_slice));
    }
    assert_eq!(pairs, 35 * 35);
    // For 4 and 4 events there are 70 rows each, for 15 times 15 pairs.
    assert!(rows > 15 * 15 * 70, "{rows}");
    let mut random = Random::new(22);
    for _ in 0..400 {
        check_only_one(few(&mut random).each_ref().map(Vec::as_slice));
    }
}

/// Merges by taking, again and again, the least event that is left: the first file's wherever its
/// second is not above the other's.
fn by_two_fingers([mut first, mut second]: [Vec<Event>; 2]) -> Vec<Event> {
    let mut events = Vec::new();
    while !first.is_empty() || !second.is_empty() {
        let from_first = match (first.first(), second.first()) {
            (Some(one), Some(other)) => one.1 <= other.1,
            (one, _) => one.is_some(),
        };
        events.push(if from_first { &mut first } else { &mut second }.remove(0));
    }
    events
}

#[test]
fn full_days_split_every_way_are_merged_as_by_two_fingers() {
    let mut count = 0;
    for files in full() {
        let files = files.each_ref().map(Vec::as_slice);
        let events = merged_events(files);
        assert_eq!(events.len(), 255);
        assert_eq!(events, by_two_fingers(events_of(files)));
        count += 1;
    }
    assert_eq!(count, 10 * 256);
    for files in over_full() {
        assert_eq!(verdict(&files[0], &files[1]), (22, 0, 0));
    }
}

#[test]
fn random_days_are_merged_as_by_two_fingers() {
    let mut random = Random::new(5);
    let (mut accepted, mut refused) = (0, [0; 23]);
    for _ in 0..3_000 {
        let files = pair(&mut random);
        let files = files.each_ref().map(Vec::as_slice);
        let [first, second] = files.map(|file| day::records(file).map(|records| records.len()));
        // What comes by the sentences about the numbers alone.
        let expected = match (first, second) {
            (Err(refusal), _) | (_, Err(refusal)) => (refusal.number(), refusal.place, 0),
            (Ok(first), Ok(second)) if first + second > 255 => (22, 0, 0),
            (Ok(first), Ok(second)) => (0, 0, first + second),
        };
        assert_eq!(verdict(files[0], files[1]), expected);
        if expected.0 == 0 {
            assert_eq!(merged_events(files), by_two_fingers(events_of(files)));
            accepted += 1;
        } else {
            refused[expected.0 as usize] += 1;
        }
    }
    assert!(accepted > 1_000, "{accepted}");
    for number in [11, 12, 13, 14, 22] {
        assert!(refused[number] > 20, "{refused:?}");
    }
}
