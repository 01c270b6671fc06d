//! Streams of cases for the readers, the judge and the printing of numbers: how a case is written,
//! and how it is read back.

/// The most bytes of a stream that a command prints.
pub const MAX_STREAM_BYTES: usize = 65_536;

/// The highest number in a header, a judge's limit and the first number to print excepted.
const MAX_NUMBER: usize = 99_999;

/// One call of a reader or of the judge, or a row of numbers to print.
#[derive(Clone, Debug, PartialEq, Eq)]
pub enum Case {
    /// A rule text.
    Rule(Vec<u8>),
    /// A day file, and how long the two lent buffers are.
    Day {
        letters: usize,
        seconds: usize,
        bytes: Vec<u8>,
    },
    /// A rule text and a word to judge, how long the lent table is, and the work limit.
    Judge {
        table: usize,
        limit: u64,
        rule: Vec<u8>,
        word: Vec<u8>,
    },
    /// So many numbers to print, from the first on; the last one has at most 64 bits too.
    Numbers { first: u64, count: usize },
}

impl Case {
    /// The case as it stands in a stream: header line, bytes, newline.
    pub fn written(&self) -> Vec<u8> {
        match self {
            Case::Rule(text) => with_header(format!("rule {}", text.len()), &[text]),
            Case::Day {
                letters,
                seconds,
                bytes,
            } => {
                let header = format!("day {letters} {seconds} {}", bytes.len());
                with_header(header, &[bytes])
            }
            Case::Judge {
                table,
                limit,
                rule,
                word,
            } => {
                let header = format!("judge {table} {limit} {} {}", rule.len(), word.len());
                with_header(header, &[rule, word])
            }
            Case::Numbers { first, count } => with_header(format!("numbers {first} {count}"), &[]),
        }
    }
}

/// The header line, the parts without anything between, and the newline behind them.
fn with_header(header: String, parts: &[&[u8]]) -> Vec<u8> {
    [header.as_bytes(), b"\n", &parts.concat(), b"\n"].concat()
}

/// Reads the cases up to the first that is malformed or cut off; what is left over comes second.
pub fn read(mut stream: &[u8]) -> (Vec<Case>, &[u8]) {
    let mut cases = Vec::new();
    while let Some((case, rest)) = read_case(stream) {
        cases.push(case);
        stream = rest;
    }
    (cases, stream)
}

/// Reads the first case, and gives the stream behind it too.
fn read_case(stream: &[u8]) -> Option<(Case, &[u8])> {
    let end = stream.iter().position(|&byte| byte == b'\n')?;
    let fields: Vec<&[u8]> = stream[..end].split(|&byte| byte == b' ').collect();
    let stream = &stream[end + 1..];
    let (case, rest) = match fields[..] {
        [b"rule", length] => {
            let (text, rest) = read_bytes(stream, length)?;
            (Case::Rule(text), rest)
        }
        [b"day", letters, seconds, length] => {
            let (letters, seconds) = (read_length(letters)?, read_length(seconds)?);
            let (bytes, rest) = read_bytes(stream, length)?;
            let case = Case::Day {
                letters,
                seconds,
                bytes,
            };
            (case, rest)
        }
        [b"judge", table, limit, rule_length, word_length] => {
            let (table, limit) = (read_length(table)?, read_number(limit)?);
            let (rule, rest) = read_bytes(stream, rule_length)?;
            let (word, rest) = read_bytes(rest, word_length)?;
            let case = Case::Judge {
                table,
                limit,
                rule,
                word,
            };
            (case, rest)
        }
        [b"numbers", first, count] => {
            let (first, count) = (read_number(first)?, read_length(count)?);
            // The last number, if there is one, must not be beyond 64 bits.
            first.checked_add(count.saturating_sub(1) as u64)?;
            (Case::Numbers { first, count }, stream)
        }
        _ => return None,
    };
    Some((case, rest.strip_prefix(b"\n")?))
}

/// Reads as many bytes as a header's field says.
fn read_bytes<'a>(stream: &'a [u8], length: &[u8]) -> Option<(Vec<u8>, &'a [u8])> {
    let (bytes, rest) = stream.split_at_checked(read_length(length)?)?;
    Some((bytes.to_vec(), rest))
}

/// Reads the length of a text, of a lent buffer or of a row of numbers from a header.
fn read_length(digits: &[u8]) -> Option<usize> {
    let length = usize::try_from(read_number(digits)?).ok()?;
    (length <= MAX_NUMBER).then_some(length)
}

/// Reads a number of a header; it must be written as it would be here.
fn read_number(digits: &[u8]) -> Option<u64> {
    let text = std::str::from_utf8(digits).ok()?;
    let number: u64 = text.parse().ok()?;
    (number.to_string() == text).then_some(number)
}
