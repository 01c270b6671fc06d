//! Day lines in parts, and what may wrongly stand in the place of each part.

/// A line in six parts: tag, tab, second, tab, letter and newline.
pub type Line = [Vec<u8>; 6];

/// Which part is the second.
pub const SECOND: usize = 2;

/// For each part, what makes the day bad if it stands there instead.
///
/// Seconds of five digits beyond the day are refused as 13, all else as 12.
pub const WRONG: [&[&[u8]]; 6] = [
    &[
        b"", b"e", b"F", b"R", b"EE", b" E", b"E ", b"\t", b"\tE", b"\0", b"\nE",
    ],
    &[b"", b"\t\t", b" ", b" \t", b"\t ", b",", b"\n"],
    &[
        b"",
        b"00",
        b"01",
        b"000",
        b"00000",
        b"000000",
        b"089999",
        b"100000",
        b"123456",
        b"4294967296",
        b"18446744073709551616",
        b"+1",
        b"-1",
        b"-0",
        b"1-",
        b"1.",
        b"1 ",
        b" 1",
        b"x",
        b"1x",
        b"x1",
        b"1\xff",
        b"1\t2",
        b":",
        b"/",
        b"90000",
        b"99999",
    ],
    &[b"", b"\t\t", b" ", b" \t", b"\t ", b",", b"\n"],
    &[
        b"",
        b"0",
        b"@",
        b"[",
        b"\\",
        b"]",
        b"^",
        b"_",
        b"`",
        b"{",
        b" ",
        b"ab",
        b"aa",
        b"EE",
        b"a ",
        b" a",
        b"\xc3\xa4",
        b"\xe1",
        b"\n",
    ],
    &[
        b"", b"\r\n", b"\r", b"\t\n", b"\ta\n", b" \n", b"\0\n", b"\0", b"\n\n", b"\n\t", b"\n\0",
    ],
];

/// A line of the form.
pub fn good_line(second: usize, letter: u8) -> Line {
    let digits = second.to_string().into_bytes();
    let tab = b"\t".to_vec();
    [
        b"E".to_vec(),
        tab.clone(),
        digits,
        tab,
        vec![letter],
        b"\n".to_vec(),
    ]
}

/// A line that is nothing but its newline.
pub fn empty_line() -> Line {
    let mut line = Line::default();
    line[5].push(b'\n');
    line
}

/// The bytes of lines one after another.
pub fn joined(lines: &[Line]) -> Vec<u8> {
    lines.concat().concat()
}
