//! What cases show of the merging of two days, that what never came is a failure, and what the
//! edges ask.

use std::collections::{BTreeSet, HashSet};

use second::compare::call::{Callee, Kind};
use second::compare::check::check;
use second::compare::edge_requests::requests;
use second::compare::lent::Dirt;
use second::compare::merges::{shown, Merges};
use second::compare::request::{Asked, Request};
use second::compare::run::Run;
use second::day;
use second::merge_edges::Pair;

/// So many lines at a second.
fn lines(count: usize, second: u32) -> String {
    format!("E\t{second}\ta\n").repeat(count)
}

/// Two days to merge, with buffers of one length.
fn merging(first: &str, second: &str, length: usize) -> Asked {
    Asked::Merging {
        files: [first, second].map(Vec::from),
        letters: length,
        seconds: length,
    }
}

/// What a merging with enough room shows.
fn of(first: &str, second: &str, number: u32) -> Vec<Merges> {
    shown(&merging(first, second, 600), number)
}

#[test]
fn what_an_accepted_merging_does_is_seen() {
    use Merges::*;
    let at =
        |seconds: &[u32]| -> String { seconds.iter().map(|&second| lines(1, second)).collect() };
    assert_eq!(of("", "", 0), []);
    assert_eq!(of(&at(&[5]), "", 0), [OneEmpty]);
    assert_eq!(of("", &at(&[5]), 0), [OneEmpty]);
    assert_eq!(of(&at(&[5]), &at(&[6]), 0), []);
    assert_eq!(of(&at(&[6]), &at(&[5]), 0), []);
    assert_eq!(of(&at(&[5]), &at(&[5]), 0), [Tie]);
    assert_eq!(of(&at(&[4, 5, 5]), &at(&[5, 5, 6]), 0), [Tie]);
    assert_eq!(of(&at(&[5, 5]), &at(&[6, 6]), 0), []);
    assert_eq!(of(&at(&[5, 7]), &at(&[6]), 0), [Turns]);
    assert_eq!(of(&at(&[6]), &at(&[5, 7]), 0), [Turns]);
    assert_eq!(of(&at(&[5, 7]), &at(&[5]), 0), [Tie, Turns]);
    assert_eq!(of(&lines(255, 5), "", 0), [OneEmpty, Full]);
    assert_eq!(of(&lines(254, 5), &lines(1, 5), 0), [Tie, Full]);
    assert_eq!(of(&lines(254, 5), "", 0), [OneEmpty]);
}

#[test]
fn what_a_refused_merging_does_is_seen() {
    use Merges::*;
    let (good, bad) = ("E\t5\ta\n", "E\t5\ta\nE\t4\ta\n");
    assert_eq!(of(bad, good, 13), []);
    assert_eq!(of(good, bad, 13), [SecondRefused]);
    assert_eq!(of("", "x", 12), [SecondRefused]);
    assert_eq!(of("x", bad, 12), [BothBad]);
    assert_eq!(of(bad, "x", 13), [BothBad]);
    assert_eq!(of("x", "E\t5\ta\nx", 12), [BothBad]);
    // The same number at the same line tells the files not apart.
    assert_eq!(of("x", "E\n", 12), []);
    assert_eq!(of(bad, bad, 13), []);
    let too_many = |length| shown(&merging(&lines(255, 5), &lines(2, 5), length), 22);
    assert_eq!(too_many(257), []);
    assert_eq!(too_many(256), [ShortBesides]);
    assert_eq!(too_many(0), [ShortBesides]);
    assert_eq!(shown(&merging(good, good, 1), 15), []);
    let (text, nodes) = (b"a".to_vec(), 128);
    assert_eq!(shown(&Asked::Rule { text, nodes }, 0), []);
}

#[test]
fn what_is_shown_is_counted() {
    use Merges::*;
    let counted = |first: &str, second: &str| {
        let request = Request {
            asked: merging(first, second, 9),
            answer: 5,
            dirt: Dirt::Ones,
        };
        let checked = check(&|_, _| 0, "a case", &request);
        (checked.kind, checked.shown)
    };
    let tie = vec![Kind::ShownMerges(Tie)];
    assert_eq!(counted("E\t5\ta\n", "E\t5\tb\n"), (Kind::Number(0), tie));
    let second = vec![Kind::ShownMerges(SecondRefused)];
    assert_eq!(counted("E\t5\ta\n", "E\t5\t"), (Kind::Number(12), second));
    let short = vec![Kind::ShownMerges(ShortBesides)];
    let (full, one) = (lines(255, 5), lines(1, 5));
    assert_eq!(counted(&full, &one), (Kind::Number(22), short));
    assert_eq!(counted(&full, ""), (Kind::Number(15), vec![]));
}

#[test]
fn what_is_never_shown_is_a_failure() {
    let mut output = Vec::new();
    let run = Run::new(&mut output);
    assert!(!run.finish(&[Callee::MergeDays.required()]).unwrap());
    let text = String::from_utf8(output).unwrap();
    let missing = [
        "accepted",
        "refusal 11",
        "refusal 12",
        "refusal 13",
        "refusal 14",
        "refusal 15",
        "refusal 22",
        "a buffer too short to answer",
        "accepted, day with capital",
        "refusal 12 for byte 91 to 96",
        "accepted, day with 25th hour",
        "refusal 13 for 90000 or more",
        "accepted, a second in both",
        "accepted, files by turns",
        "accepted, one file empty",
        "accepted, 255 together",
        "refusal of the second file",
        "refusal, both files bad",
        "refusal 22, short buffer too",
    ];
    for kind in missing {
        let line = format!("MISSING: wuz_merge_days never had {kind}\n");
        assert!(text.contains(&line), "{line}");
    }
    assert_eq!(text.matches("MISSING").count(), missing.len());
    let has_22 = |callee: &Callee| callee.kinds().contains(&Kind::Number(22));
    let with_22: Vec<Callee> = Callee::LIBRARY.into_iter().filter(has_22).collect();
    assert_eq!(with_22, [Callee::MergeDays]);
}

/// A merging of the edges: the files and the lengths of letters, seconds and answer.
struct Edge {
    files: Pair,
    letters: usize,
    seconds: usize,
    answer: usize,
}

/// All mergings of the edges.
fn edges() -> Vec<Edge> {
    let edge = |request: Request| match request.asked {
        Asked::Merging {
            files,
            letters,
            seconds,
        } => Some(Edge {
            files,
            letters,
            seconds,
            answer: request.answer,
        }),
        _ => None,
    };
    requests().into_iter().filter_map(edge).collect()
}

/// Number and place of a file, without any buffer; 0 and n if it is good.
fn verdict(file: &[u8]) -> (u32, usize) {
    day::records(file).map_or_else(
        |refusal| (refusal.number(), refusal.place),
        |records| (0, records.len()),
    )
}

#[test]
fn full_days_are_split_every_way() {
    let edges = edges();
    let mut splits = HashSet::new();
    for edge in &edges {
        if let [(0, first), (0, second)] = edge.files.each_ref().map(|file| verdict(file)) {
            let one_second = |file: &Vec<u8>| {
                let records = day::records(file).unwrap();
                records.iter().all(|record| record.second == 7)
            };
            let at_one_second = edge.files.iter().all(one_second);
            let is_exact = edge.letters == first + second;
            splits.insert((first, second, at_one_second, is_exact));
        }
    }
    for first in 0..=255 {
        for is_exact in [true, false] {
            // All at one second, and with other seconds too.
            assert!(splits.contains(&(first, 255 - first, true, is_exact)));
        }
        assert!(splits.contains(&(first, 255 - first, false, true)));
        assert!(first == 0 || splits.contains(&(first, 256 - first, true, false)));
    }
    assert!(splits.contains(&(255, 255, true, true)));
}

#[test]
fn both_files_are_bad_in_every_way() {
    let verdicts: BTreeSet<_> = edges()
        .iter()
        .map(|edge| edge.files.each_ref().map(|file| verdict(file)))
        .collect();
    let ways = [
        (0, 0),
        (0, 1),
        (0, 3),
        (0, 254),
        (0, 255),
        (11, 0),
        (12, 1),
        (12, 2),
        (12, 3),
        (12, 255),
        (13, 1),
        (13, 2),
        (13, 3),
        (13, 255),
        (14, 256),
    ];
    for first in ways {
        for second in ways {
            assert!(verdicts.contains(&[first, second]), "{first:?} {second:?}");
        }
    }
}

#[test]
fn buffers_of_every_kind_are_asked() {
    let edges = edges();
    let counts = |edge: &Edge| edge.files.each_ref().map(|file| verdict(file).1);
    let is_asked = |events: [usize; 2], letters: usize, seconds: usize| {
        let met = |edge: &&Edge| {
            counts(edge) == events && (edge.letters, edge.seconds) == (letters, seconds)
        };
        edges.iter().any(|edge| met(&edge))
    };
    for [first, second] in [
        [1, 0],
        [0, 1],
        [1, 1],
        [3, 2],
        [255, 0],
        [0, 255],
        [128, 127],
    ] {
        let n = first + second;
        for (letters, seconds) in [
            (n, n),
            (n - 1, n),
            (n, n - 1),
            (n - 1, n - 1),
            (0, 0),
            (0, n),
            (n, 0),
            (first, first),
            (second, second),
            (n + 1, n),
            (n + 5, n + 5),
        ] {
            let asked = is_asked([first, second], letters, seconds);
            assert!(asked, "{first} {second}, {letters} {seconds}");
        }
    }
    assert!(is_asked([0, 0], 0, 0));
    for events in [[255, 1], [1, 255], [255, 255]] {
        assert!(is_asked(events, 0, 0));
        assert!(is_asked(events, 255, 255));
    }
    // The answer is too short, just long enough and longer.
    let answers: BTreeSet<usize> = edges.iter().map(|edge| edge.answer).collect();
    assert_eq!(
        answers.into_iter().collect::<Vec<_>>(),
        [0, 1, 2, 3, 4, 5, 10]
    );
}

#[test]
fn every_byte_is_asked_at_every_place_of_a_line() {
    let asked: HashSet<Pair> = edges().into_iter().map(|edge| edge.files).collect();
    for byte in 0..=255 {
        for at in 0..6 {
            let mut line = b"E\t6\tb\n".to_vec();
            line[at] = byte;
            let good = b"E\t5\tM\n".to_vec();
            assert!(asked.contains(&[line.clone(), good.clone()]), "{byte}");
            assert!(asked.contains(&[good, line]), "{byte}");
        }
    }
}
