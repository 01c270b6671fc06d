//! The needed numbers of a table by the definition, for the tests of the judge and of the streams.

use crate::common::literal_spans;
use second::rule::read;

/// The needed numbers as document 01 words them, from the definition of the language.
pub fn expected_table(text: &[u8], word: &[u8]) -> Vec<u64> {
    let rule = read(text).unwrap();
    let spans = literal_spans(&rule, word);
    let signs = (0..text.len()).filter(|&offset| matches!(text[offset], b'&' | b'!'));
    let at = |offset: usize| {
        let mut nodes = rule.nodes.iter();
        nodes
            .position(|node| node.offset == offset && node.kind.is_special())
            .unwrap()
    };
    let heads: Vec<usize> = std::iter::once(rule.m() - 1).chain(signs.map(at)).collect();
    let mut table = Vec::new();
    for head in heads {
        for row in &spans[head] {
            let mut numbers = [0u64; 4];
            for (j, _) in row.iter().enumerate().filter(|(_, &obeys)| obeys) {
                numbers[j / 64] += 2u64.pow(j as u32 % 64);
            }
            table.extend(numbers);
        }
    }
    table
}
