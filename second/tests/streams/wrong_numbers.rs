//! Printing steps that subtract powers of ten, as the request asks for, and do one thing wrong: the
//! edges find each, and draws most.

use std::sync::OnceLock;

use crate::number_draw::longest;
use crate::number_edges::edges;
use crate::printing::{rows, Row};

/// What a printing step does wrongly.
#[derive(Clone, Copy, Debug)]
enum Wrong {
    /// Nothing.
    Nothing,
    /// The table has this number at this place.
    Power(usize, u64),
    /// So it has, and widths are found by that table too.
    PowerAndWidth(usize, u64),
    /// A digit at this place that should be this one is left one subtraction early.
    Early(usize, u8),
    /// At this place no subtraction leaves nothing: the last one is left out then.
    EarlyAtPower(usize),
    /// The same at all places.
    EarlyAtPowers,
    /// No digit comes to 9, at any place.
    EarlyAtNine,
    /// Numbers of this width get a zero in front.
    LeadingZero(usize),
    /// 0 has no digits.
    NothingForZero,
    /// This number is written with one digit more than it has.
    OneMore(u64),
    /// This number is written with one digit less than it has.
    OneLess(u64),
    /// This number is written rightly, and its width is said to be one more.
    SaidOneMore(u64),
    /// This number is written rightly, and its width is said to be one less.
    SaidOneLess(u64),
}

impl Wrong {
    /// What is subtracted at a place.
    fn power(self, place: usize) -> u64 {
        match self {
            Wrong::Power(at, wrong) | Wrong::PowerAndWidth(at, wrong) if at == place => wrong,
            _ => power(place),
        }
    }

    /// The first number that is taken to have a digit at a place.
    fn bound(self, place: usize) -> u64 {
        match self {
            Wrong::PowerAndWidth(..) => self.power(place),
            _ => power(place),
        }
    }

    /// How many digits are written without zeros in front.
    fn width(self, number: u64) -> usize {
        let width = (0..20).filter(|&place| number >= self.bound(place)).count();
        match self {
            Wrong::NothingForZero => width,
            Wrong::OneLess(at) if at == number => width.max(1) - 1,
            _ => width.max(1),
        }
    }

    /// The digit at a place, and what is left then.
    fn digit(self, place: usize, mut rest: u64) -> (u8, u64) {
        let power = self.power(place);
        let mut digit = 0;
        while digit < 9 && rest >= power {
            rest -= power;
            digit += 1;
        }
        let early = match self {
            Wrong::Early(at, wrong) => at == place && wrong == digit,
            Wrong::EarlyAtPower(at) => at == place && rest == 0,
            Wrong::EarlyAtPowers => rest == 0,
            Wrong::EarlyAtNine => digit == 9,
            _ => false,
        };
        if early && digit > 0 {
            (digit - 1, rest + power)
        } else {
            (digit, rest)
        }
    }

    /// A number as an answer shows it.
    fn printed(self, number: u64) -> String {
        let mut rest = number;
        let mut digits = String::new();
        for place in (0..self.width(number)).rev() {
            let (digit, left) = self.digit(place, rest);
            digits.push(char::from(b'0' + digit));
            rest = left;
        }
        let zero = match self {
            Wrong::LeadingZero(width) => digits.len() == width,
            Wrong::OneMore(at) => at == number,
            _ => false,
        };
        if zero {
            digits.insert(0, '0');
        }
        let said = match self {
            Wrong::SaidOneMore(at) if at == number => digits.len() + 1,
            Wrong::SaidOneLess(at) if at == number => digits.len() - 1,
            _ => digits.len(),
        };
        format!("{digits}:{said}")
    }

    /// The line that answers a row.
    fn line(self, row: &Row) -> String {
        let items: Vec<String> = row.numbers().map(|number| self.printed(number)).collect();
        let list = if items.is_empty() {
            "-".into()
        } else {
            items.join(",")
        };
        format!("numbers\t{list}")
    }

    /// Whether an answer to one of the rows is another one.
    fn is_found(self, rows: &[&(Row, String)]) -> bool {
        rows.iter().any(|(row, line)| self.line(row) != *line)
    }
}

/// A power of ten.
fn power(place: usize) -> u64 {
    10u64.pow(place as u32)
}

/// The edges, those rows first that are soon printed.
fn short_first() -> &'static [&'static (Row, String)] {
    static ROWS: OnceLock<Vec<&'static (Row, String)>> = OnceLock::new();
    ROWS.get_or_init(|| {
        let mut rows: Vec<_> = edges().iter().collect();
        rows.sort_by_key(|(row, _)| row.count);
        rows
    })
}

/// Checks that the edges find each of these.
fn check_found(wrongs: impl IntoIterator<Item = Wrong>) {
    for wrong in wrongs {
        assert!(wrong.is_found(short_first()), "{wrong:?}");
    }
}

/// Numbers that may stand in the table for the power at a place: one more or less, one bit or one
/// decimal digit changed, twice as much, a zero too many or too few, and none.
fn wrong_powers(place: usize) -> Vec<u64> {
    let right = power(place);
    let mut wrongs = vec![right + 1, right - 1, right / 10, 0];
    wrongs.extend(right.checked_mul(2));
    wrongs.extend(right.checked_mul(10));
    wrongs.extend((0..64).map(|bit| right ^ 1 << bit));
    for low in 0..place {
        wrongs.extend((1..10).flat_map(|digit| right.checked_add(digit * power(low))));
    }
    wrongs
}

/// Every digit at every place, as far as it has 64 bits.
fn digits() -> impl Iterator<Item = (usize, u8)> {
    let digits = |place| (1..=9).map(move |digit| (place, digit));
    (0..19).flat_map(digits).chain([(19, 1)])
}

#[test]
fn a_right_printing_step_is_not_found() {
    assert!(!Wrong::Nothing.is_found(short_first()));
}

#[test]
fn a_wrong_power_at_any_place_is_found() {
    for place in 0..20 {
        let wrongs = wrong_powers(place);
        check_found(wrongs.iter().map(|&wrong| Wrong::Power(place, wrong)));
        let by_table = |&wrong: &u64| Wrong::PowerAndWidth(place, wrong);
        check_found(wrongs.iter().map(by_table));
    }
}

#[test]
fn a_digit_that_is_left_one_subtraction_early_is_found() {
    check_found(digits().map(|(place, digit)| Wrong::Early(place, digit)));
    check_found((0..20).map(Wrong::EarlyAtPower));
    check_found([Wrong::EarlyAtPowers, Wrong::EarlyAtNine]);
}

#[test]
fn a_zero_in_front_and_a_zero_that_is_nothing_are_found() {
    check_found((1..=20).map(Wrong::LeadingZero));
    check_found([Wrong::NothingForZero]);
}

#[test]
fn a_wrong_width_beside_any_power_is_found() {
    let powers = (0..20).flat_map(|place| [power(place) - 1, power(place)]);
    for number in powers.chain([u64::MAX]) {
        check_found([Wrong::OneMore(number), Wrong::OneLess(number)]);
        check_found([Wrong::SaidOneMore(number), Wrong::SaidOneLess(number)]);
    }
}

#[test]
fn a_draw_finds_wrong_powers_and_early_digits() {
    let drawn = rows(&longest(1));
    let drawn: Vec<&(Row, String)> = drawn.iter().collect();
    for place in 0..20 {
        for wrong in wrong_powers(place) {
            assert!(
                Wrong::Power(place, wrong).is_found(&drawn),
                "{place} {wrong}"
            );
        }
    }
    for (place, digit) in digits() {
        assert!(
            Wrong::Early(place, digit).is_found(&drawn),
            "{place} {digit}"
        );
    }
    assert!(!Wrong::Nothing.is_found(&drawn));
}
