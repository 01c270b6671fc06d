//! The reader of day files: what it writes, and refusals 11 to 15 with their order and places.

use second::day::read;
use second::random::Random;

const LETTER_DIRT: u8 = b'#';
const SECOND_DIRT: u32 = 4_000_000_000;

/// Reads into buffers of such lengths: number, place and n, and both buffers afterwards.
fn read_into(day: &[u8], lengths: (usize, usize)) -> ((u32, usize, usize), Vec<u8>, Vec<u32>) {
    let mut letters = vec![LETTER_DIRT; lengths.0];
    let mut seconds = vec![SECOND_DIRT; lengths.1];
    let answer = match read(day, &mut letters, &mut seconds) {
        Ok(n) => (0, 0, n),
        Err(refusal) => (refusal.number(), refusal.place, 0),
    };
    (answer, letters, seconds)
}

/// Number, place and n with buffers that are long enough; a refusal must leave them as they were.
fn verdict(day: &[u8]) -> (u32, usize, usize) {
    let (answer, letters, seconds) = read_into(day, (300, 300));
    if answer.0 != 0 {
        assert_eq!(letters, vec![LETTER_DIRT; 300]);
        assert_eq!(seconds, vec![SECOND_DIRT; 300]);
    }
    answer
}

/// A good day of so many lines, all alike.
fn lines(count: usize, line: &str) -> Vec<u8> {
    line.repeat(count).into_bytes()
}

#[test]
fn letters_and_seconds_are_written_in_line_order() {
    let day = b"E\t0\ta\nE\t7\tz\nE\t7\tM\nE\t89999\tb\n";
    let (answer, letters, seconds) = read_into(day, (6, 5));
    assert_eq!(answer, (0, 0, 4));
    assert_eq!(letters, b"azMb##");
    assert_eq!(seconds, [0, 7, 7, 89_999, SECOND_DIRT]);
}

#[test]
fn no_bytes_is_a_day_without_events() {
    assert_eq!(verdict(b""), (0, 0, 0));
    assert_eq!(read_into(b"", (0, 0)).0, (0, 0, 0));
    let (_, letters, seconds) = read_into(b"", (2, 2));
    assert_eq!(
        (letters, seconds),
        (vec![LETTER_DIRT; 2], vec![SECOND_DIRT; 2])
    );
}

#[test]
fn seconds_of_every_length_pass() {
    for second in [
        "0", "9", "10", "99", "100", "999", "1000", "9999", "10000", "89999",
    ] {
        let day = format!("E\t{second}\tq\n");
        let (answer, letters, seconds) = read_into(day.as_bytes(), (1, 1));
        assert_eq!(answer, (0, 0, 1), "{second}");
        assert_eq!(
            (letters, seconds),
            (vec![b'q'], vec![second.parse().unwrap()])
        );
    }
}

/// Lines that are not of the form, whatever stands before them.
const BAD_LINES: [&[u8]; 36] = [
    b"\n",
    b"E",
    b"E\n",
    b"E\t\n",
    b"E\t0\n",
    b"E\t0\t\n",
    b"E\t0\ta",
    b"E\t0\ta\r\n",
    b"E\t0\ta \n",
    b"E\t0\ta\t\n",
    b"E\t0\tab\n",
    b"E\t0\ta\ta\n",
    b"E\t0a\n",
    b"E\t0 a\n",
    b"E 0\ta\n",
    b"E\t\t0\ta\n",
    b"E\t0\t\ta\n",
    b" E\t0\ta\n",
    b"e\t0\ta\n",
    b"F\t0\ta\n",
    b"EE\t0\ta\n",
    b"\t0\ta\n",
    b"E\t\ta\n",
    b"E\t00\ta\n",
    b"E\t01\ta\n",
    b"E\t000000\ta\n",
    b"E\t+1\ta\n",
    b"E\t-1\ta\n",
    b"E\t1.\ta\n",
    b"E\t1x\ta\n",
    b"E\t 1\ta\n",
    b"E\t100000\ta\n",
    b"E\t1\xff\ta\n",
    b"E\t0\taA\n",
    b"E\tE\tE\n",
    b"A\t0\tE\n",
];

#[test]
fn a_line_not_of_the_form_is_12() {
    for line in BAD_LINES {
        assert_eq!(verdict(line), (12, 1, 0), "{}", line.escape_ascii());
        let second_line = [b"E\t0\ta\n", line].concat();
        assert_eq!(verdict(&second_line), (12, 2, 0), "{}", line.escape_ascii());
    }
}

#[test]
fn a_byte_that_is_no_letter_is_12() {
    for byte in 0..=255u8 {
        let day = [b"E\t5\t", &[byte][..], b"\n"].concat();
        let expected = if byte.is_ascii_alphabetic() {
            (0, 0, 1)
        } else {
            (12, 1, 0)
        };
        assert_eq!(verdict(&day), expected, "byte {byte}");
    }
}

#[test]
fn a_second_too_late_is_13_up_to_five_digits() {
    assert_eq!(verdict(b"E\t89999\ta\n"), (0, 0, 1));
    assert_eq!(verdict(b"E\t90000\ta\n"), (13, 1, 0));
    assert_eq!(verdict(b"E\t99999\ta\n"), (13, 1, 0));
    assert_eq!(verdict(b"E\t100000\ta\n"), (12, 1, 0));
    assert_eq!(verdict(b"E\t99999999999999999999\ta\n"), (12, 1, 0));
    for second in 0..=100_010 {
        let day = format!("E\t0\ta\nE\t{second}\ta\n");
        let expected = match second {
            0..=89_999 => (0, 0, 2),
            90_000..=99_999 => (13, 2, 0),
            _ => (12, 2, 0),
        };
        assert_eq!(verdict(day.as_bytes()), expected, "{second}");
    }
}

#[test]
fn the_25th_hour_is_a_part_of_the_day() {
    let day = b"E\t86399\ta\nE\t86400\tb\nE\t86400\tc\nE\t89999\td\nE\t89999\te\n";
    let (answer, letters, seconds) = read_into(day, (5, 6));
    assert_eq!((answer, &letters[..]), ((0, 0, 5), &b"abcde"[..]));
    let expected = [86_399, 86_400, 86_400, 89_999, 89_999, SECOND_DIRT];
    assert_eq!(seconds, expected);
}

#[test]
fn a_second_below_the_line_before_is_13() {
    assert_eq!(verdict(b"E\t9\ta\nE\t9\ta\n"), (0, 0, 2));
    assert_eq!(verdict(b"E\t9\ta\nE\t10\ta\n"), (0, 0, 2));
    assert_eq!(verdict(b"E\t10\ta\nE\t9\ta\n"), (13, 2, 0));
    assert_eq!(verdict(b"E\t1\ta\nE\t5\ta\nE\t4\ta\n"), (13, 3, 0));
    assert_eq!(verdict(b"E\t86399\ta\nE\t0\ta\n"), (13, 2, 0));
    // It may not fall within the 25th hour either, nor out of it.
    assert_eq!(verdict(b"E\t86401\ta\nE\t86400\ta\n"), (13, 2, 0));
    assert_eq!(verdict(b"E\t86400\ta\nE\t86399\ta\n"), (13, 2, 0));
    assert_eq!(verdict(b"E\t5\ta\nE\t89999\ta\nE\t89998\ta\n"), (13, 3, 0));
    assert_eq!(verdict(b"E\t89999\ta\nE\t0\ta\n"), (13, 2, 0));
}

#[test]
fn a_clock_that_is_put_back_is_13() {
    for before in [3_600, 10_799, 10_800, 86_399, 86_400, 89_999] {
        for fall in [3_599, 3_600] {
            let day = format!("E\t{before}\ta\nE\t{}\ta\n", before - fall);
            assert_eq!(verdict(day.as_bytes()), (13, 2, 0), "{before} by {fall}");
        }
    }
}

#[test]
fn within_a_line_12_comes_before_13() {
    assert_eq!(verdict(b"E\t99999\t_\n"), (12, 1, 0));
    assert_eq!(verdict(b"E\t99999\tA\n"), (13, 1, 0));
    assert_eq!(verdict(b"E\t90000\t_\n"), (12, 1, 0));
    assert_eq!(verdict(b"E\t90000\ta"), (12, 1, 0));
    assert_eq!(verdict(b"E\t5\ta\nE\t4\ta"), (12, 2, 0));
    assert_eq!(verdict(b"E\t5\ta\nE\t4\taa\n"), (12, 2, 0));
}

#[test]
fn the_first_bad_line_wins() {
    assert_eq!(verdict(b"E\t90000\ta\nE\n"), (13, 1, 0));
    assert_eq!(verdict(b"E\nE\t90000\ta\n"), (12, 1, 0));
    assert_eq!(verdict(b"E\t90000\ta\nE\t100000\ta\n"), (13, 1, 0));
    assert_eq!(verdict(b"E\t100000\ta\nE\t90000\ta\n"), (12, 1, 0));
    assert_eq!(verdict(b"E\t5\ta\nE\t4\ta\nE\n"), (13, 2, 0));
    assert_eq!(verdict(b"E\t5\ta\n\nE\t4\ta\n"), (12, 2, 0));
    // A bad line is not the line before: only line 1 is judged.
    assert_eq!(verdict(b"E\t90000\ta\nE\t0\ta\n"), (13, 1, 0));
}

#[test]
fn over_2550_bytes_is_11_before_all_else() {
    let longest = lines(255, "E\t89999\tx\n");
    assert_eq!(longest.len(), 2_550);
    assert_eq!(verdict(&longest), (0, 0, 255));
    assert_eq!(verdict(&[&longest[..], b"E"].concat()), (11, 0, 0));
    assert_eq!(verdict(&[b'x'; 2_550]), (12, 1, 0));
    assert_eq!(verdict(&[b'x'; 2_551]), (11, 0, 0));
    assert_eq!(verdict(&lines(426, "E\t0\ta\n")), (11, 0, 0));
    assert_eq!(read_into(&[b'\n'; 2_551], (0, 0)).0, (11, 0, 0));
}

#[test]
fn a_256th_line_is_14_whatever_its_form() {
    let full = lines(255, "E\t7\ta\n");
    assert_eq!(verdict(&full), (0, 0, 255));
    let rests: [&[u8]; 6] = [
        b"E\t7\ta\n",
        b"x",
        b"\n",
        b"E\t6\ta\n",
        b"E\t90000\ta\n",
        b"\0\n\n\n",
    ];
    for rest in rests {
        assert_eq!(verdict(&[&full[..], rest].concat()), (14, 256, 0));
    }
    assert_eq!(verdict(&lines(425, "E\t0\ta\n")), (14, 256, 0));
}

#[test]
fn a_bad_line_before_the_256th_wins() {
    let with_line = |at: usize, line: &str| {
        let mut all = vec!["E\t7\ta\n"; 300];
        all[at - 1] = line;
        all.concat().into_bytes()
    };
    assert_eq!(verdict(&with_line(255, "E\t7\t_\n")), (12, 255, 0));
    assert_eq!(verdict(&with_line(255, "E\t6\ta\n")), (13, 255, 0));
    assert_eq!(verdict(&with_line(1, "\n")), (12, 1, 0));
    assert_eq!(verdict(&with_line(256, "\n")), (14, 256, 0));
    // Line 255 without its newline runs on into what follows and is no line of the form.
    assert_eq!(verdict(&with_line(255, "E\t7\ta")), (12, 255, 0));
}

#[test]
fn a_buffer_shorter_than_n_is_15_after_all_lines() {
    let day = b"E\t1\ta\nE\t2\tb\nE\t3\tc\n";
    assert_eq!(read_into(day, (3, 3)).0, (0, 0, 3));
    for lengths in [(2, 3), (3, 2), (2, 2), (0, 9), (9, 0)] {
        let (answer, letters, seconds) = read_into(day, lengths);
        assert_eq!(answer, (15, 0, 0));
        assert_eq!(letters, vec![LETTER_DIRT; lengths.0]);
        assert_eq!(seconds, vec![SECOND_DIRT; lengths.1]);
    }
    assert_eq!(read_into(b"E\t1\ta\nE\t2\tb\nE\n", (0, 0)).0, (12, 3, 0));
    assert_eq!(read_into(b"E\t1\ta\nE\t0\tb\n", (0, 0)).0, (13, 2, 0));
    assert_eq!(read_into(&lines(256, "E\t1\ta\n"), (0, 0)).0, (14, 256, 0));
    assert_eq!(
        read_into(&lines(255, "E\t1\ta\n"), (255, 254)).0,
        (15, 0, 0)
    );
}

/// A line's second and letter, if writing them out again gives the same line.
fn rewritten(line: &[u8]) -> Option<(u32, u8)> {
    let text = String::from_utf8(line.to_vec()).ok()?;
    let digits: String = text.chars().filter(char::is_ascii_digit).collect();
    let second: u32 = digits.parse().ok()?;
    let letter = text.chars().rfind(char::is_ascii_alphabetic)?;
    let same = second <= 99_999 && text == format!("E\t{second}\t{letter}\n");
    same.then_some((second, letter as u8))
}

/// Number, place and records of a day, found by rewriting its lines.
fn judged_by_rewriting(day: &[u8]) -> (u32, usize, Vec<(u32, u8)>) {
    let mut records: Vec<(u32, u8)> = Vec::new();
    let mut rest = day;
    while !rest.is_empty() {
        let place = records.len() + 1;
        let end = rest
            .iter()
            .position(|&byte| byte == b'\n')
            .map_or(rest.len(), |at| at + 1);
        let Some(record) = rewritten(&rest[..end]) else {
            return (12, place, vec![]);
        };
        let before = records.last().map_or(0, |last| last.0);
        if record.0 > 89_999 || record.0 < before {
            return (13, place, vec![]);
        }
        records.push(record);
        rest = &rest[end..];
    }
    (0, 0, records)
}

/// A good day of a few lines with seconds of all lengths.
fn random_day(random: &mut Random) -> Vec<u8> {
    let mut second = 0;
    let mut day = String::new();
    for _ in 0..random.below(6) {
        let step = random.pick(&[0, 1, 9, 90, 900, 9_000, 40_000]);
        second = (second + random.below(step + 1)).min(89_999);
        day += &format!("E\t{second}\t{}\n", random.pick(b"abyzABEZ") as char);
    }
    day.into_bytes()
}

/// Puts in, takes out, replaces or swaps bytes of a day.
fn damage(random: &mut Random, day: &mut Vec<u8>) {
    let byte = random.pick(b"E\t\n0123456789abzARZ@[\\]^_`{ -\0");
    let at = random.below(day.len() + 1);
    match random.below(4) {
        0 => day.insert(at, byte),
        1 if at < day.len() => drop(day.remove(at)),
        2 if at < day.len() => day[at] = byte,
        3 if at + 1 < day.len() => day.swap(at, at + 1),
        _ => {}
    }
}

#[test]
fn damaged_days_are_judged_as_rewriting_says() {
    let mut random = Random::new(12);
    let mut seen = [0; 14];
    for _ in 0..100_000 {
        let mut day = random_day(&mut random);
        for _ in 0..random.below(3) {
            damage(&mut random, &mut day);
        }
        let (number, place, records) = judged_by_rewriting(&day);
        let n = records.len();
        let (answer, letters, seconds) = read_into(&day, (n + 2, n + 1));
        assert_eq!(answer, (number, place, n), "{}", day.escape_ascii());
        let mut expected_letters: Vec<u8> = records.iter().map(|record| record.1).collect();
        let mut expected_seconds: Vec<u32> = records.iter().map(|record| record.0).collect();
        expected_letters.extend([LETTER_DIRT; 2]);
        expected_seconds.push(SECOND_DIRT);
        assert_eq!((letters, seconds), (expected_letters, expected_seconds));
        seen[number as usize] += 1;
    }
    assert!(
        seen[0] > 5_000 && seen[12] > 5_000 && seen[13] > 1_000,
        "{seen:?}"
    );
}
