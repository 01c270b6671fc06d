//! What the tests of printed numbers share: a row of them, and what its answer must be.

use crate::odometer::Odometer;
use crate::{answered, stream, Case};

/// A row of numbers as a stream holds it.
pub struct Row {
    /// The digits of the first number as they stand in the header.
    digits: String,
    pub first: u64,
    pub count: u64,
}

impl Row {
    fn new(case: &Case) -> Self {
        let [kind, first, count] = &case.header[..] else {
            panic!("{:?}", case.header)
        };
        assert_eq!((kind.as_str(), &case.bytes[..]), ("numbers", &b""[..]));
        Row {
            digits: first.clone(),
            first: first.parse().unwrap(),
            count: count.parse().unwrap(),
        }
    }

    /// The numbers of the row.
    pub fn numbers(&self) -> impl Iterator<Item = u64> + '_ {
        (0..self.count).map(|after| self.first + after)
    }
}

/// The rows of a stream that a command prints, with their answers.
pub fn rows(arguments: &str) -> Vec<(Row, String)> {
    let rows = answered(&stream(arguments)).into_iter();
    rows.map(|(case, line)| (Row::new(&case), line)).collect()
}

/// The items of an answer.
pub fn items(line: &str) -> Vec<&str> {
    match line.strip_prefix("numbers\t").expect("a row's answer") {
        "-" => Vec::new(),
        list => list.split(',').collect(),
    }
}

/// The digits of an item, the first one first, and its width.
pub fn digits_and_width(item: &str) -> (&str, usize) {
    let (digits, width) = item.split_once(':').unwrap();
    (digits, width.parse().unwrap())
}

/// Checks that an answer is what an odometer shows, and that each number is read back from it.
pub fn check_answer(row: &Row, line: &str) {
    let items = items(line);
    assert_eq!(items.len() as u64, row.count, "{line}");
    let mut odometer = Odometer::at(&row.digits);
    for (item, number) in items.into_iter().zip(row.numbers()) {
        assert_eq!(item, odometer.shown());
        let (digits, width) = digits_and_width(item);
        assert_eq!(digits.parse(), Ok(number), "{item}");
        assert_eq!(digits.len(), width, "{item}");
        odometer.step();
    }
}
