//! Digits that are counted up by one, for the tests of printed numbers: no arithmetic makes them.

/// The digits of a number, those of the lowest place first.
pub struct Odometer {
    places: Vec<u8>,
}

impl Odometer {
    /// Set to these decimal digits.
    pub fn at(digits: &str) -> Self {
        let places = digits.bytes().rev().map(|digit| digit - b'0').collect();
        Odometer { places }
    }

    /// One more: nines at the lowest places turn to zeros, and a new place begins where all did.
    pub fn step(&mut self) {
        for place in &mut self.places {
            if *place < 9 {
                *place += 1;
                return;
            }
            *place = 0;
        }
        self.places.push(1);
    }

    /// What stands there, as an answer shows it: digits, colon, width.
    pub fn shown(&self) -> String {
        let digits = self.places.iter().rev();
        let digits: String = digits.map(|digit| char::from(b'0' + digit)).collect();
        format!("{digits}:{}", self.places.len())
    }
}
