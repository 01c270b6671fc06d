//! The stream that the command `draw` prints.

use crate::random::Random;
use crate::stream::{Case, MAX_STREAM_BYTES};
use crate::{random_calls, random_days, random_numbers, random_rules};

/// What draws one random case.
type Draw = fn(&mut Random) -> Case;

/// What draws the cases of a kind, if there is one of that name.
pub fn kind(name: &str) -> Option<Draw> {
    match name {
        "readers" => Some(reader_case),
        "judge" => Some(random_calls::case),
        "numbers" => Some(random_numbers::case),
        _ => None,
    }
}

/// A stream of so many random cases, or of fewer if one more would pass the limit on its bytes.
pub fn stream(seed: u64, count: usize, draw: Draw) -> Vec<u8> {
    let mut random = Random::new(seed);
    let mut stream = Vec::new();
    for _ in 0..count {
        let case = draw(&mut random).written();
        if stream.len() + case.len() > MAX_STREAM_BYTES {
            break;
        }
        stream.extend(case);
    }
    stream
}

/// A rule or a day, each as often as the other.
fn reader_case(random: &mut Random) -> Case {
    if random.one_in(2) {
        Case::Rule(random_rules::text(random))
    } else {
        random_days::case(random)
    }
}
