//! The span table: blocks of rows of four 64-bit numbers, one bit for each span.

use crate::language::Spans;
use crate::rule::Rule;

/// The numbers in a row.
const ROW_NUMBERS: usize = 4;

/// How many numbers a table needs for k special nodes and n events.
pub fn need(k: usize, n: usize) -> usize {
    (k + 1) * block_numbers(n)
}

/// The numbers in a block.
fn block_numbers(n: usize) -> usize {
    (n + 1) * ROW_NUMBERS
}

/// Where a span's bit stands: its number in the table, and what the bit is worth in it.
fn bit_of_span(n: usize, block: usize, i: usize, j: usize) -> (usize, u64) {
    let row = block * block_numbers(n) + i * ROW_NUMBERS;
    (row + j / 64, 1 << (j % 64))
}

/// Writes the needed numbers of a table: 1 for each span that obeys, 0 for every other bit.
pub fn fill(table: &mut [u64], rule: &Rule, spans: &[Spans], n: usize) {
    table[..need(rule.k(), n)].fill(0);
    for (block, node) in block_nodes(rule).into_iter().enumerate() {
        for i in 0..=n {
            for j in i..=n {
                if spans[node].obeys(i, j) {
                    let (number, bit) = bit_of_span(n, block, i, j);
                    table[number] |= bit;
                }
            }
        }
    }
}

/// The node of each block: the head of the whole rule, then the special nodes by rising offset.
fn block_nodes(rule: &Rule) -> Vec<usize> {
    let mut special: Vec<usize> = rule.special_nodes().collect();
    // No two share an offset: each has its own sign's, and only concatenations borrow one.
    special.sort_by_key(|&node| rule.nodes[node].offset);
    std::iter::once(rule.head()).chain(special).collect()
}

/// The number of ones in the first block.
pub fn found(table: &[u64], n: usize) -> u64 {
    let ones = |number: &u64| u64::from(number.count_ones());
    table[..block_numbers(n)].iter().map(ones).sum()
}

/// The spans whose bit is 1 in the first block, by rising i and then rising j.
pub fn found_spans(table: &[u64], n: usize) -> Vec<(usize, usize)> {
    let every = (0..=n).flat_map(|i| (i..=n).map(move |j| (i, j)));
    let is_one = |&(i, j): &(usize, usize)| {
        let (number, bit) = bit_of_span(n, 0, i, j);
        table[number] & bit != 0
    };
    every.filter(is_one).collect()
}
