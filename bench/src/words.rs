//! The words that rules are measured on: each the beginning, of a given length, of one fixed sequence of events.

/// A word of n events.
pub type Word = fn(usize) -> Vec<u8>;

/// Only a: what a rule of stars never comes to an end of.
pub fn all_a(n: usize) -> Vec<u8> {
    vec![b'a'; n]
}

/// Letters a and b, drawn by a fixed generator (Knuth's MMIX), of which the highest bit is taken.
pub fn drawn(n: usize) -> Vec<u8> {
    let mut state: u64 = 1;
    let draw = || {
        state = state
            .wrapping_mul(6364136223846793005)
            .wrapping_add(1442695040888963407);
        if state >> 63 == 0 {
            b'a'
        } else {
            b'b'
        }
    };
    std::iter::repeat_with(draw).take(n).collect()
}

/// A side entrance: badge, opening, people, minutes open, closing; now and then something that the everyday rules look for.
pub fn side_entrance(n: usize) -> Vec<u8> {
    let hour = "bopc bopc boppc bopttc bopc botc bopc b bopc bopttttc opc bopc bopt bopc";
    let events = hour.bytes().filter(|&byte| byte != b' ').cycle();
    events.take(n).collect()
}
