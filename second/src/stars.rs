//! Stars that directly follow stars: where the first of them is, and a text without them.

/// The first star that stands directly after a star.
pub fn first_repeated(text: &[u8]) -> Option<usize> {
    let pair = text.windows(2).position(|pair| pair == b"**")?;
    Some(pair + 1)
}

/// A text in which every run of stars has become one star.
///
/// It is parted where stars begin and where they end, and put together again.
pub fn with_single(text: &[u8]) -> Vec<u8> {
    let is_star = |byte: &u8| *byte == b'*';
    let runs = text.chunk_by(|one, next| is_star(one) == is_star(next));
    let kept = |run: &'_ [u8]| match run {
        [b'*', ..] => b"*".to_vec(),
        _ => run.to_vec(),
    };
    runs.flat_map(kept).collect()
}
