//! What cases show of the 25th hour, and that what never came is a failure.

use second::compare::call::{Callee, Kind};
use second::compare::check::check;
use second::compare::hours::{shown, Hours};
use second::compare::lent::Dirt;
use second::compare::program::{self, Input};
use second::compare::random_requests::source;
use second::compare::request::{Asked, Request};
use second::compare::run::Run;

use crate::scripts::SECOND;

/// A day to read.
fn day(file: &[u8]) -> Asked {
    Asked::Day {
        file: file.to_vec(),
        letters: 9,
        seconds: 9,
    }
}

/// A job with that day.
fn job(day: &[u8]) -> Asked {
    Asked::Job {
        job: [b"R\ta\n", day].concat(),
        out: 99,
    }
}

/// That day merged with another, as the first file and as the second.
fn mergings(day: &[u8]) -> [Asked; 2] {
    let other = b"E\t86399\ta\n";
    [[day, other], [other, day]].map(|files| Asked::Merging {
        files: files.map(<[u8]>::to_vec),
        letters: 9,
        seconds: 9,
    })
}

/// What a day shows, alone, in a job and merged.
fn of_day(file: &[u8], number: u32, place: usize) -> Option<Hours> {
    let [first, second] = mergings(file);
    let all = [day(file), job(file), first, second];
    let [alone, others @ ..] = all.map(|asked| shown(&asked, number, place));
    assert_eq!(others, [alone; 3]);
    alone
}

#[test]
fn the_25th_hour_is_seen_in_what_is_accepted() {
    for second in [0, 7_200, 86_399] {
        let day = format!("E\t0\ta\nE\t{second}\ta\n");
        assert_eq!(of_day(day.as_bytes(), 0, 0), None, "{second}");
    }
    for second in [86_400, 86_401, 88_000, 89_999] {
        let day = format!("E\t5\ta\nE\t{second}\ta\n");
        assert_eq!(
            of_day(day.as_bytes(), 0, 0),
            Some(Hours::InLast),
            "{second}"
        );
        // It is not accepted: a buffer is too short, or there is a bad line.
        assert_eq!(of_day(day.as_bytes(), 15, 0), None);
        let day = format!("E\t{second}\ta\nE\n");
        assert_eq!(of_day(day.as_bytes(), 12, 2), None);
    }
    assert_eq!(of_day(b"", 0, 0), None);
}

#[test]
fn seconds_after_the_25th_hour_are_seen_where_they_are_refused() {
    for second in [90_000, 90_001, 99_999] {
        let day = format!("E\t5\ta\nE\t{second}\ta\nE\n");
        assert_eq!(of_day(day.as_bytes(), 13, 2), Some(Hours::AfterLast));
    }
    // The second falls, and something later is never looked at.
    assert_eq!(of_day(b"E\t5\ta\nE\t4\ta\nE\t90000\ta\n", 13, 2), None);
    assert_eq!(of_day(b"E\t89999\ta\nE\t86400\ta\n", 13, 2), None);
    assert_eq!(of_day(b"E\t90000\t_\n", 12, 1), None);
}

#[test]
fn other_calls_show_nothing() {
    let (text, nodes) = (b"a".to_vec(), 128);
    assert_eq!(shown(&Asked::Rule { text, nodes }, 0, 0), None);
    let job = b"R\t)\nE\t89999\ta\n".to_vec();
    assert_eq!(shown(&Asked::Job { job, out: 9 }, 4, 0), None);
    let job = b"r\ta\nE\t89999\ta\n".to_vec();
    assert_eq!(shown(&Asked::Job { job, out: 9 }, 16, 0), None);
}

/// The kinds that a compared day is counted as besides its number: alone, in a job, and by the
/// program.
fn counted(file: &[u8]) -> [Vec<Kind>; 3] {
    let [alone, in_job] = [day(file), job(file)].map(|asked| {
        let request = Request {
            asked,
            answer: 5,
            dirt: Dirt::Ones,
        };
        check(&|_, _| 0, "a case", &request).shown
    });
    let job = [b"R\ta\n", file].concat();
    let input = Input::drawn(&mut source(1, 1), job);
    [alone, in_job, program::check(SECOND.as_ref(), &input).shown]
}

#[test]
fn what_is_shown_is_counted() {
    let [in_last, after_last] = [Hours::InLast, Hours::AfterLast].map(Kind::ShownHours);
    for (day, kinds) in [
        (&b"E\t86400\ta\n"[..], vec![in_last]),
        (b"E\t86399\ta\n", vec![]),
        (b"E\t90000\ta\n", vec![after_last]),
        (b"E\t5\ta\nE\t4\ta\n", vec![]),
    ] {
        for counted in counted(day) {
            assert_eq!(counted, kinds, "{}", day.escape_ascii());
        }
    }
}

#[test]
fn what_is_never_shown_is_a_failure() {
    let with_days = [
        Callee::ReadDay,
        Callee::RunJob,
        Callee::MergeDays,
        Callee::Program,
    ];
    let mut output = Vec::new();
    let run = Run::new(&mut output);
    assert!(!run.finish(&with_days.map(Callee::required)).unwrap());
    let text = String::from_utf8(output).unwrap();
    for callee in with_days {
        for missing in [
            "accepted, day with 25th hour",
            "refusal 13 for 90000 or more",
        ] {
            let line = format!("MISSING: {callee} never had {missing}\n");
            assert!(text.contains(&line), "{line}");
        }
    }
    let shown = |kind: &Kind| matches!(kind, Kind::ShownHours(_));
    let count = |callee: Callee| callee.kinds().iter().filter(|kind| shown(kind)).count();
    assert_eq!(Callee::LIBRARY.map(count), [0, 2, 0, 2, 0, 0, 0, 2]);
}
