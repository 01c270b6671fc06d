//! Random numbers to print, for the command `draw`: of every width and every pattern of bits.

use crate::number_edges::MAX_WIDTH;
use crate::random::Random;
use crate::stream::Case;

/// The most numbers in a row.
const FEW: usize = 8;

/// What the digits after the first are taken from: any of them, or those about a carry. Each has a 0,
/// since without one 20 digits may be more than 64 bits whatever is drawn.
const DIGITS: [&[u64]; 3] = [&[0, 1, 2, 3, 4, 5, 6, 7, 8, 9], &[0, 9], &[0, 9, 9, 9]];

/// A few numbers in a row, the drawn one somewhere among them.
pub fn case(random: &mut Random) -> Case {
    let number = if random.one_in(2) {
        of_width(random)
    } else {
        of_bits(random)
    };
    let count = 1 + random.below(FEW);
    let first = number.saturating_sub(random.below(count) as u64);
    let last_first = u64::MAX - (count as u64 - 1);
    Case::Numbers {
        first: first.min(last_first),
        count,
    }
}

/// A number of any width, each as often as every other.
fn of_width(random: &mut Random) -> u64 {
    let (width, digits) = (1 + random.below(MAX_WIDTH), random.pick(&DIGITS));
    loop {
        // Of 20 digits most have too many bits.
        if let Some(number) = of_digits(random, width, digits) {
            return number;
        }
    }
}

/// A number of so many digits, those after the first from the given ones; none if it has more than
/// 64 bits.
fn of_digits(random: &mut Random, width: usize, digits: &[u64]) -> Option<u64> {
    let first = 1 + random.below(9) as u64;
    (1..width).try_fold(first, |number, _| {
        number.checked_mul(10)?.checked_add(random.pick(digits))
    })
}

/// A number of any bits, of any bits after zeros, of few ones, or of nothing but ones.
fn of_bits(random: &mut Random) -> u64 {
    match random.below(4) {
        0 => random.bits(),
        1 => random.bits() >> random.below(64),
        2 => random.bits() & random.bits() & random.bits(),
        _ => u64::MAX >> random.below(64),
    }
}
