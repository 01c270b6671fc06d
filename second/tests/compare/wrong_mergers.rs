//! Libraries that merge wrongly: the edges find each mistake, and so do random requests.

use second::compare::call::{Call, Callee};
use second::compare::edge_requests::requests;
use second::compare::random_requests::{source, Draws};
use second::compare::reference;
use second::compare::request::Request;

use crate::wrong::found;

/// A letter with its second.
type Event = (u32, u8);

/// Number and place.
type Verdict = (u64, u64);

/// A file as the library reads it: its own verdict, and its events.
struct Day {
    verdict: Verdict,
    events: Vec<Event>,
}

/// What a library knows when it judges.
struct Known<'a> {
    days: &'a [Day; 2],
    letters: usize,
    seconds: usize,
}

impl Known<'_> {
    /// How many events each file has.
    fn counts(&self) -> [usize; 2] {
        self.days.each_ref().map(|day| day.events.len())
    }

    /// How many events there are together.
    fn together(&self) -> usize {
        self.counts().iter().sum()
    }

    /// The verdicts on both files.
    fn of_files(&self) -> [Verdict; 2] {
        self.days.each_ref().map(|day| day.verdict)
    }

    /// 22 if there are over so many events.
    fn too_many(&self, most: usize) -> Verdict {
        (if self.together() > most { 22 } else { 0 }, 0)
    }

    /// 15 if a buffer has fewer elements than these.
    fn too_short(&self, need: usize) -> Verdict {
        (
            if self.letters.min(self.seconds) < need {
                15
            } else {
                0
            },
            0,
        )
    }

    /// All verdicts in the right order.
    fn all(&self) -> [Verdict; 4] {
        let [first, second] = self.of_files();
        [
            first,
            second,
            self.too_many(255),
            self.too_short(self.together()),
        ]
    }
}

/// The first verdict that is a refusal, if there is one.
fn first_refusal(verdicts: &[Verdict]) -> Verdict {
    let refusal = verdicts.iter().find(|verdict| verdict.0 != 0);
    refusal.copied().unwrap_or((0, 0))
}

/// How a library merges.
struct Merger {
    /// The number and the place.
    verdict: fn(&Known) -> Verdict,
    /// The events of both files as one day.
    made: fn(&[Event], &[Event]) -> Vec<Event>,
    /// Writes the letters and the seconds of an accepted merging.
    write: fn(&[Event], &mut [u8], &mut [u32]),
    /// Writes on such a refusal.
    write_refused: fn(u64, &[Event], &mut [u8], &mut [u32]),
    /// Changes an answer, given what is known.
    values: fn(&mut [u64], &Known),
}

/// A merger that makes no mistake.
const RIGHT: Merger = Merger {
    verdict: |known| first_refusal(&known.all()),
    made: |first, second| by_fingers(first, second, |one, other| one.0 <= other.0),
    write,
    write_refused: |_, _, _, _| {},
    values: |_, _| {},
};

/// Writes as many events as there are.
fn write(events: &[Event], letters: &mut [u8], seconds: &mut [u32]) {
    write_letters(events, letters);
    write_seconds(events, seconds);
}

/// Writes the letters that have room.
fn write_letters(events: &[Event], letters: &mut [u8]) {
    letters
        .iter_mut()
        .zip(events)
        .for_each(|(to, event)| *to = event.1);
}

/// Writes the seconds that have room.
fn write_seconds(events: &[Event], seconds: &mut [u32]) {
    seconds
        .iter_mut()
        .zip(events)
        .for_each(|(to, event)| *to = event.0);
}

/// Takes from both rows in turn, from the first wherever that is said of the next two.
fn by_fingers(
    first: &[Event],
    second: &[Event],
    from_first: fn(Event, Event) -> bool,
) -> Vec<Event> {
    let (mut one, mut other) = (first, second);
    let mut events = Vec::new();
    while let ([event, ..], [other_event, ..]) = (one, other) {
        let taken = if from_first(*event, *other_event) {
            &mut one
        } else {
            &mut other
        };
        events.push(taken[0]);
        *taken = &taken[1..];
    }
    [&events[..], one, other].concat()
}

/// Merges and loses what is left of one row when the other has ended.
fn with_tail_lost(first: &[Event], second: &[Event], lost: usize) -> Vec<Event> {
    let mut events = (RIGHT.made)(first, second);
    let ends = [first, second].map(|row| row.last().map_or(0, |event| event.0 + 1));
    // At equal seconds the first row has ended earlier.
    let after_other = if lost == 0 {
        first.iter().filter(|event| event.0 >= ends[1]).count()
    } else {
        second.iter().filter(|event| event.0 + 1 >= ends[0]).count()
    };
    events.truncate(events.len() - after_other);
    events
}

/// Merges and sorts by second and letter.
fn by_letter(first: &[Event], second: &[Event]) -> Vec<Event> {
    let mut events = [first, second].concat();
    events.sort_unstable();
    events
}

/// Merges so that at equal seconds the files take turns.
fn by_turns(first: &[Event], second: &[Event]) -> Vec<Event> {
    let place_of = |row: &[Event], at: usize| row[..at].iter().filter(|e| e.0 == row[at].0).count();
    let keyed = |row: &[Event], file: usize| {
        let key = |at: usize| (row[at].0, place_of(row, at), file, row[at]);
        (0..row.len()).map(key).collect::<Vec<_>>()
    };
    let mut all = [keyed(first, 0), keyed(second, 1)].concat();
    all.sort_unstable();
    all.into_iter().map(|keyed| keyed.3).collect()
}

/// Merges and turns each run of equal seconds around.
fn with_runs_turned(first: &[Event], second: &[Event]) -> Vec<Event> {
    let events = (RIGHT.made)(first, second);
    let runs = events.chunk_by(|one, next| one.0 == next.0);
    runs.flat_map(|run| run.iter().rev().copied()).collect()
}

/// Merges what is in both files only once.
fn without_doubles(first: &[Event], second: &[Event]) -> Vec<Event> {
    let new: Vec<Event> = second
        .iter()
        .filter(|event| !first.contains(event))
        .copied()
        .collect();
    (RIGHT.made)(first, &new)
}

/// The mistakes of a merger.
const MERGERS: [(&str, Merger); 40] = [
    (
        "< for <= at equal seconds",
        Merger {
            made: |first, second| by_fingers(first, second, |one, other| one.0 < other.0),
            ..RIGHT
        },
    ),
    (
        "the second file's tail is dropped",
        Merger {
            made: |first, second| with_tail_lost(first, second, 1),
            ..RIGHT
        },
    ),
    (
        "the first file's tail is dropped",
        Merger {
            made: |first, second| with_tail_lost(first, second, 0),
            ..RIGHT
        },
    ),
    (
        "only the first file's tail after an empty second file is dropped",
        Merger {
            made: |first, second| match second {
                [] => Vec::new(),
                _ => (RIGHT.made)(first, second),
            },
            ..RIGHT
        },
    ),
    (
        "only the second file's events after an empty first file are dropped",
        Merger {
            made: |first, second| match first {
                [] => Vec::new(),
                _ => (RIGHT.made)(first, second),
            },
            ..RIGHT
        },
    ),
    (
        "the files are exchanged",
        Merger {
            made: |first, second| (RIGHT.made)(second, first),
            ..RIGHT
        },
    ),
    (
        "one file behind the other",
        Merger {
            made: |first, second| [first, second].concat(),
            ..RIGHT
        },
    ),
    (
        "the order is by second and letter",
        Merger {
            made: by_letter,
            ..RIGHT
        },
    ),
    (
        "at equal seconds the order is by letter between the files",
        Merger {
            made: |first, second| by_fingers(first, second, |one, other| one <= other),
            ..RIGHT
        },
    ),
    (
        "at equal seconds the files take turns",
        Merger {
            made: by_turns,
            ..RIGHT
        },
    ),
    (
        "equal seconds are turned around",
        Merger {
            made: with_runs_turned,
            ..RIGHT
        },
    ),
    (
        "what is in both files comes once",
        Merger {
            made: without_doubles,
            ..RIGHT
        },
    ),
    (
        "seconds are compared as 16 bits",
        Merger {
            made: |first, second| {
                by_fingers(first, second, |one, other| one.0 as u16 <= other.0 as u16)
            },
            ..RIGHT
        },
    ),
    (
        "22 comes before the second file's refusal",
        Merger {
            verdict: |known| {
                let [first, second, many, short] = known.all();
                first_refusal(&[first, many, second, short])
            },
            ..RIGHT
        },
    ),
    (
        "22 comes first",
        Merger {
            verdict: |known| {
                let [first, second, many, short] = known.all();
                first_refusal(&[many, first, second, short])
            },
            ..RIGHT
        },
    ),
    (
        "22 comes at 255",
        Merger {
            verdict: |known| {
                let [first, second, _, short] = known.all();
                first_refusal(&[first, second, known.too_many(254), short])
            },
            ..RIGHT
        },
    ),
    (
        "22 comes from 257 on",
        Merger {
            verdict: |known| {
                let [first, second, _, short] = known.all();
                first_refusal(&[first, second, known.too_many(256), short])
            },
            ..RIGHT
        },
    ),
    (
        "22 comes after 15",
        Merger {
            verdict: |known| {
                let [first, second, many, short] = known.all();
                first_refusal(&[first, second, short, many])
            },
            ..RIGHT
        },
    ),
    (
        "22 never comes",
        Merger {
            verdict: |known| {
                let [first, second, _, short] = known.all();
                first_refusal(&[first, second, short])
            },
            ..RIGHT
        },
    ),
    (
        "22 has a place",
        Merger {
            verdict: |known| match (RIGHT.verdict)(known) {
                (22, _) => (22, 256),
                other => other,
            },
            ..RIGHT
        },
    ),
    (
        "too many events together are 14",
        Merger {
            verdict: |known| match (RIGHT.verdict)(known) {
                (22, _) => (14, 256),
                other => other,
            },
            ..RIGHT
        },
    ),
    (
        "15 comes before the second file's refusal",
        Merger {
            verdict: |known| {
                let [first, second, many, short] = known.all();
                first_refusal(&[first, short, second, many])
            },
            ..RIGHT
        },
    ),
    (
        "the second file's refusal comes first",
        Merger {
            verdict: |known| {
                let [first, second, many, short] = known.all();
                first_refusal(&[second, first, many, short])
            },
            ..RIGHT
        },
    ),
    (
        "of both files' refusals the lower number comes",
        Merger {
            verdict: |known| {
                let [first, second, many, short] = known.all();
                let lower_second = second.0 != 0 && second.0 < first.0;
                let of_files = if lower_second { second } else { first };
                first_refusal(&[of_files, second, many, short])
            },
            ..RIGHT
        },
    ),
    (
        "the second file's place is told for the first's",
        Merger {
            verdict: |known| {
                let [first, second] = known.of_files();
                let both = first.0 != 0 && second.0 != 0;
                let right = (RIGHT.verdict)(known);
                (right.0, if both { second.1 } else { right.1 })
            },
            ..RIGHT
        },
    ),
    (
        "the lines are counted on over both files",
        Merger {
            verdict: |known| {
                let [first, second] = known.of_files();
                let (number, place) = (RIGHT.verdict)(known);
                let in_second = first.0 == 0 && second.1 != 0;
                let before = if in_second { known.counts()[0] } else { 0 };
                (number, place + before as u64)
            },
            ..RIGHT
        },
    ),
    (
        "the second file may not begin below the first one's end",
        Merger {
            verdict: |known| {
                let [first, second, many, short] = known.all();
                let [one, other] = known.days.each_ref().map(|day| &day.events);
                let falls = matches!((one.last(), other.first()),
                    (Some(last), Some(next)) if next.0 < last.0);
                let fallen = if falls { (13, 1) } else { (0, 0) };
                first_refusal(&[first, second, fallen, many, short])
            },
            ..RIGHT
        },
    ),
    (
        "15 is judged by the first file's events",
        Merger {
            verdict: |known| judged_with_need(known, known.counts()[0]),
            ..RIGHT
        },
    ),
    (
        "15 is judged by the second file's events",
        Merger {
            verdict: |known| judged_with_need(known, known.counts()[1]),
            ..RIGHT
        },
    ),
    (
        "15 is judged by the longer file's events",
        Merger {
            verdict: |known| {
                let [first, second] = known.counts();
                judged_with_need(known, first.max(second))
            },
            ..RIGHT
        },
    ),
    (
        "15 comes where the buffers are just long enough",
        Merger {
            verdict: |known| judged_with_need(known, known.together() + 1),
            ..RIGHT
        },
    ),
    (
        "15 is judged by the letters alone",
        Merger {
            verdict: |known| {
                let seconds = known.letters;
                (RIGHT.verdict)(&Known { seconds, ..*known })
            },
            ..RIGHT
        },
    ),
    (
        "15 is judged by the seconds alone",
        Merger {
            verdict: |known| {
                let letters = known.seconds;
                (RIGHT.verdict)(&Known { letters, ..*known })
            },
            ..RIGHT
        },
    ),
    (
        "letters are written before 22 is known",
        Merger {
            write_refused: |number, events, letters, _| {
                if number == 22 {
                    write_letters(events, letters);
                }
            },
            ..RIGHT
        },
    ),
    (
        "seconds are written before 22 is known",
        Merger {
            write_refused: |number, events, _, seconds| {
                if number == 22 {
                    write_seconds(events, seconds);
                }
            },
            ..RIGHT
        },
    ),
    (
        "letters are written before 15 is known",
        Merger {
            write_refused: |number, events, letters, _| {
                if number == 15 {
                    write_letters(events, letters);
                }
            },
            ..RIGHT
        },
    ),
    (
        "seconds are written before 15 is known",
        Merger {
            write_refused: |number, events, _, seconds| {
                if number == 15 {
                    write_seconds(events, seconds);
                }
            },
            ..RIGHT
        },
    ),
    (
        "the letter behind the last is touched",
        Merger {
            write: |events, letters, seconds| {
                write(events, letters, seconds);
                letters
                    .iter_mut()
                    .skip(events.len())
                    .take(1)
                    .for_each(|next| *next = 0);
            },
            ..RIGHT
        },
    ),
    (
        "the second behind the last is touched",
        Merger {
            write: |events, letters, seconds| {
                write(events, letters, seconds);
                seconds
                    .iter_mut()
                    .skip(events.len())
                    .take(1)
                    .for_each(|next| *next = 0);
            },
            ..RIGHT
        },
    ),
    (
        "n is told on 15 and on 22",
        Merger {
            values: |answer, known| {
                if [15, 22].contains(&answer[0]) {
                    answer[4] = known.together() as u64;
                }
            },
            ..RIGHT
        },
    ),
];

/// The verdict where 15 is judged by such a need.
fn judged_with_need(known: &Known, need: usize) -> Verdict {
    let [first, second, many, _] = known.all();
    first_refusal(&[first, second, many, known.too_short(need)])
}

/// Reads a file as the call that reads a day does, with buffers for any day; of a refused one the
/// events before the bad line.
fn day(file: &[u8]) -> Day {
    let (number, place, events) = read(file);
    let lines = file.split_inclusive(|&byte| byte == b'\n');
    let good: Vec<u8> = lines
        .take((place as usize).saturating_sub(1))
        .flatten()
        .copied()
        .collect();
    let events = if number == 0 { events } else { read(&good).2 };
    Day {
        verdict: (number, place),
        events,
    }
}

/// Number, place and events of a file.
fn read(file: &[u8]) -> (u64, u64, Vec<Event>) {
    let (mut letters, mut seconds, mut answer) = ([0; 255], [0; 255], [0; 5]);
    reference::run(Call::ReadDay {
        file,
        letters: &mut letters,
        seconds: &mut seconds,
        answer: &mut answer,
    });
    let events = seconds.into_iter().zip(letters);
    (
        answer[0],
        answer[1],
        events.take(answer[4] as usize).collect(),
    )
}

/// What a library does that merges so.
fn with_merger(call: Call, merger: &Merger) -> u64 {
    let Call::MergeDays {
        first,
        second,
        letters,
        seconds,
        answer,
    } = call
    else {
        unreachable!("only mergings are asked");
    };
    let Some(answer) = answer.get_mut(..5) else {
        return u64::MAX;
    };
    let days = [first, second].map(day);
    let known = Known {
        days: &days,
        letters: letters.len(),
        seconds: seconds.len(),
    };
    let events = (merger.made)(&days[0].events, &days[1].events);
    let (number, place) = (merger.verdict)(&known);
    answer.fill(0);
    (answer[0], answer[1]) = (number, place);
    if number == 0 {
        (merger.write)(&events, letters, seconds);
        answer[4] = events.len() as u64;
    } else {
        (merger.write_refused)(number, &events, letters, seconds);
    }
    (merger.values)(answer, &known);
    answer[0]
}

/// Checks that each mistake is found by some requests, and that there is none without a mistake.
fn check_found(requests: &[Request]) {
    let found = |merger: &Merger| {
        let library = |_: &str, call: Call| with_merger(call, merger);
        found(requests, &library)
    };
    for (name, merger) in MERGERS {
        assert_eq!(found(&merger), [Callee::MergeDays], "{name}");
    }
    assert_eq!(found(&RIGHT), []);
}

/// Whether a request is a merging.
fn is_merging(request: &Request) -> bool {
    request.asked.callee() == Callee::MergeDays
}

#[test]
fn the_edges_find_a_library_that_merges_wrongly() {
    let edges: Vec<Request> = requests().into_iter().filter(is_merging).collect();
    check_found(&edges);
}

#[test]
fn random_requests_find_a_library_that_merges_wrongly() {
    let draws = Draws::new();
    let drawn = (1..=6_000).map(|number| draws.request(&mut source(9, number)));
    let drawn: Vec<Request> = drawn.filter(is_merging).collect();
    assert!(drawn.len() > 500);
    check_found(&drawn);
}
