//! A row of the span table: bit j stands for the span from the row's start to j.

/// Four words of 64 bits, the lowest first.
pub type Row = [u64; 4];

/// The row with no bits.
pub const NO_BITS: Row = [0; 4];

/// Bit j of a row, as 0 or 1, so that it can be used without a branch.
pub fn bit(row: &Row, j: usize) -> u64 {
    row[(j >> 6) & 3] >> (j & 63) & 1
}

/// Sets bit j of a row if told so.
pub fn set_if(row: &mut Row, j: usize, told: bool) {
    row[(j >> 6) & 3] |= u64::from(told) << (j & 63);
}

/// Adds the bits of another row.
pub fn join(row: &mut Row, other: &Row) {
    for (word, more) in row.iter_mut().zip(other) {
        *word |= more;
    }
}

/// The bits from `first` to `last`, both included, that a row has not.
pub fn flip_between(row: &Row, first: usize, last: usize) -> Row {
    let mut flipped = NO_BITS;
    for (q, word) in row.iter().enumerate() {
        flipped[q] = !word & from(first, q) & !from(last + 1, q);
    }
    flipped
}

/// The bits of word q at or above bit j of the row.
fn from(j: usize, q: usize) -> u64 {
    match j.saturating_sub(64 * q) {
        low if low < 64 => u64::MAX << low,
        _ => 0,
    }
}

/// The lowest bit of a row that is not below j.
pub fn next_bit(row: &Row, j: usize) -> Option<usize> {
    (j / 64..4).find_map(|q| {
        let word = row[q] & from(j, q);
        (word != 0).then(|| 64 * q + word.trailing_zeros() as usize)
    })
}

/// The number of ones in rows.
pub fn ones(rows: &[Row]) -> u64 {
    rows.iter()
        .flatten()
        .map(|word| u64::from(word.count_ones()))
        .sum()
}
