//! The rule files that walk the edges of document 02 b), e) and f), and of how their issues read
//! them.

use crate::limits::MAX_RULE_LINES;
use crate::refusal::Reason;
use crate::rule_edges::run;
use crate::rule_file_chains::{growing, letter_at, longest, special_at_long_offsets};
use crate::rule_file_lines::{faulty_lines, good_line, good_lines, line, LINE_REASONS};
use crate::set_edges;

/// What the issues write down themselves.
const NAMED: [&[u8]; 7] = [
    b"R\tx\ta|b\nR\ty\t<x>c\n",
    b"R\tx\ta\nR\ty\t!<x>&<x><x>*\n",
    b"R\tx\taaaaaaaa\nR\ty\t<x><x><x><x>\nR\tz\t<y><y>\n",
    b"R\tx\ta\nR\tx\t)\n",
    b"R\tx\ta\nR\ty\t<x>\nR\tz\t<y>\n",
    b"R\tx\ta*\nR\ty\t<x>*\n",
    b"R\tx\ta*\nR\ty\t<x>**\n",
];

/// Rules to be put in, of every kind of head.
const INNER: [&str; 15] = [
    "a", "0", "1", "A", "a|b", "a&b", "ab", "!a", "a*", "(a)", "((a|b))", "a|b&cd*", "[ab]", ".",
    "[b][Aa]",
];

/// Rules around a name, which is written as a question mark.
const AROUND: [&str; 27] = [
    "?", "(?)", "?*", "!?", "!?*", "?a", "a?", "a?b", "?|a", "a|?", "?&a", "a&?", "??", "???",
    "?|?", "?&?", "(?)(?)", "!?!?", "?*?*", "(?|a)?", "a(?)b", "?(a?)", "!(?)&?|?", "((?))*?",
    "[ab]?", "?[ab]", ".?|?.",
];

/// Names that are easily taken for each other, with rules by which they are told apart.
const ALIKE: [&[u8]; 12] = [
    b"R\ta\tb\nR\taa\tc\nR\taaa\t<a><aa>\n",
    b"R\taa\tb\nR\ta\tc\nR\tb\t<a><aa>\n",
    b"R\tab\tx\nR\tabc\ty\nR\tb\t<ab><abc>\n",
    b"R\tabc\tx\nR\tab\ty\nR\tbc\tz\nR\tc\t<ab><abc><bc>\n",
    b"R\tabcdefghijkl\tx\nR\tabcdefghijk\ty\nR\tz\t<abcdefghijk><abcdefghijkl>\n",
    b"R\tabcdefghijkl\tx\nR\tabcdefghijkm\ty\nR\tz\t<abcdefghijkm><abcdefghijkl>\n",
    b"R\ta\tb\nR\tb\ta\nR\tc\ta<a>b<b>\n",
    b"R\tr\tR\nR\te\tE\nR\tz\tR<r>E<e>\n",
    b"R\ta\tA\nR\tz\tZ\nR\taz\t<a><z>\nR\tza\t<z><a><az>\n",
    b"R\tab\ta\nR\tba\tb\nR\tx\t<ba><ab>\n",
    b"R\tx\ta\nR\ty\tb\nR\tz\t<y><x><y>\n",
    b"R\tx\t<y>\nR\ty\ta\n",
];

/// Files whose end is not as it should be; some would be good with a newline.
const ENDS: [&[u8]; 16] = [
    b"",
    b"R",
    b"R\t",
    b"R\tx",
    b"R\tx\t",
    b"R\tx\ta",
    b"R\tx\t_",
    b"R\tx\ta\r",
    b"R\tx\ta\r\n",
    b"R\tx\ta\n\n",
    b"R\tx\ta\n\nR\ty\tb\n",
    b"R\tx\ta\nR\ty\tb",
    b"R\tx\ta\nR\tx\tb",
    b"R\tx\ta\nR\ty\t)",
    b"R\tx\ta\nR",
    b"R\tx\ta\n\0",
];

/// Files with lines that the last one does not use, good and bad ones.
const UNUSED: [&[u8]; 7] = [
    b"R\tx\ta\nR\ty\tb\n",
    b"R\tx\ta\nR\ty\t)\nR\tz\t<x>\n",
    b"R\tx\t_\nR\ty\tb\n",
    b"R\tx\ta\nR\ty\t<z>\nR\tz\t<x>\n",
    b"R\tx\ta\nR\ty\t!!!!!!!!a\nR\tz\t<x>\n",
    b"R\tx\ta\nR\ty\t\nR\tz\t<x>\n",
    b"R\tx\ta\nR\ty\tb\nR\ty\tc\nR\tz\t<x>\n",
];

/// The places of a line at which every byte is tried, written as a question mark.
const BYTE_PLACES: [&str; 24] = [
    "?\tx\ta\n",
    "?R\tx\ta\n",
    "R?x\ta\n",
    "R\t?\ta\n",
    "R\t?x\ta\n",
    "R\tx?y\ta\n",
    "R\tx?\ta\n",
    "R\tx?a\n",
    "R\tx\t?\n",
    "R\tx\t?b\n",
    "R\tx\ta?b\n",
    "R\tx\ta?\n",
    "R\tx\ta?",
    "R\tx\ta\n?",
    "R\tx\ta\nR\tx?\ta\n",
    "R\tx\ta\nR\ty\t<?>\n",
    "R\tx\ta\nR\ty\t<?x>\n",
    "R\tx\ta\nR\ty\t<x?>\n",
    "R\tx\ta\nR\ty\t?x>\n",
    "R\tx\ta\nR\ty\t<x?\n",
    "R\tx\ta\nR\ty\t<x>?\n",
    "R\tx\ta\nR\ty\t?<x>\n",
    "R\tx\ta\nR\ty\t<x>?<x>\n",
    "R\tx\ta\nR\ty\t<x>?R\tz\tb\n",
];

/// How long the longest files are.
const MILLION: usize = 1_000_000;

/// All the files but those with every byte, one group after another.
pub fn files() -> Vec<Vec<u8>> {
    let mut files = Vec::new();
    for group in [&NAMED[..], &ALIKE, &ENDS, &UNUSED] {
        files.extend(group.iter().map(|file| file.to_vec()));
    }
    files.extend(about_replacement());
    files.extend(about_names());
    files.extend((0..MAX_RULE_LINES).flat_map(with_fault_after));
    files.extend(about_order());
    files.extend(about_number_of_lines());
    files.extend(about_length());
    files.extend(about_written_bytes());
    files.extend(growing());
    files.extend(about_long_texts());
    files
}

/// Every rule around a name, which stands for every rule to be put in.
pub fn about_replacement() -> Vec<Vec<u8>> {
    let mut files = Vec::new();
    for inner in INNER {
        let around = AROUND.map(|rule| line("y", rule.replace('?', "<x>")));
        files.extend(around.map(|last| [line("x", inner), last].concat()));
    }
    files
}

/// Names of each length, as a line's own and as one that is used.
fn about_names() -> Vec<Vec<u8>> {
    let mut files = Vec::new();
    for length in [0, 1, 2, 11, 12, 13, 14, 255] {
        let name = "abcdefghijklmnopqrstuvwxyz".repeat(10)[..length].to_string();
        files.push(line(&name, "a"));
        files.push([line(&name, "a"), line("zz", format!("b<{name}>"))].concat());
        // The name after an earlier line, used before it is there and by its own line.
        files.push([line("zz", format!("<{name}>")), line(&name, "a")].concat());
        files.push([line("zz", "a"), line(&name, format!("<{name}>"))].concat());
    }
    files
}

/// So many good lines and then each faulty one, alone and with lines after it.
fn with_fault_after(good: usize) -> Vec<Vec<u8>> {
    let mut files = Vec::new();
    for reason in LINE_REASONS {
        for (index, faulty) in faulty_lines(reason, good).into_iter().enumerate() {
            let after: &[u8] = match index % 3 {
                0 => b"",
                1 => b"R\tafter\ta\n",
                _ => b"R\tafter\t",
            };
            files.push([&good_lines(good), &faulty[..], after].concat());
        }
    }
    let unended = good_lines(good + 1);
    files.push(unended[..unended.len() - 1].to_vec());
    files
}

/// Two faults: in a line of another form, and in lines after each other.
fn about_order() -> Vec<Vec<u8>> {
    let first = |reason: Reason| faulty_lines(reason, 1).swap_remove(0);
    let mut files = Vec::new();
    for reason in LINE_REASONS {
        let faulty = first(reason);
        // A wrong tag, and no newline.
        files.push([&good_line(1)[..], b"r", &faulty].concat());
        files.push([&good_line(1)[..], &faulty[..faulty.len() - 1]].concat());
        for later in LINE_REASONS {
            files.push([good_line(1), faulty.clone(), first(later)].concat());
        }
    }
    files
}

/// Files of about 16 lines, and what may begin a 17th.
fn about_number_of_lines() -> Vec<Vec<u8>> {
    let full = good_lines(MAX_RULE_LINES);
    let seventeenth: [&[u8]; 10] = [
        b"",
        b"R",
        b"\n",
        b"\0",
        b"x",
        b"R\tx\ta\n",
        b"R\tla\t)\n",
        b"R\tx\t_",
        b"r\n\n",
        b"R\tx\ta\nR\ty\ta\n",
    ];
    let mut files: Vec<Vec<u8>> = (1..=MAX_RULE_LINES).map(good_lines).collect();
    files.extend(seventeenth.map(|begun| [&full[..], begun].concat()));
    // The sixteenth line is refused first.
    for reason in LINE_REASONS {
        let faulty = faulty_lines(reason, MAX_RULE_LINES - 1).swap_remove(0);
        files.push([&good_lines(MAX_RULE_LINES - 1), &faulty[..], b"R"].concat());
    }
    files
}

/// Files of a million bytes.
fn about_length() -> Vec<Vec<u8>> {
    let long = |text: &str| run(text, MILLION / text.len());
    let full = good_lines(MAX_RULE_LINES);
    vec![
        long("\n"),
        long("R"),
        long("R\tx\ta\n"),
        [b"R\t", &long("x")[..]].concat(),
        [b"R\t", &long("x")[..], b"\ta\n"].concat(),
        line("x", long("a")),
        line("x", long("<x>")),
        [line("x", "a"), line("y", long("<x>"))].concat(),
        [full, long("R\tx\ta\n")].concat(),
    ]
}

/// Rules of about 255 written bytes, with names that stand for more bytes or for fewer.
fn about_written_bytes() -> Vec<Vec<u8>> {
    const NAME: &str = "abcdefghijkl";
    let mut files = Vec::new();
    for bytes in [254, 255, 256, 257] {
        files.push(line("x", enclosed("a", bytes)));
        files.push([line("x", "a"), line("y", enclosed("<x>", bytes))].concat());
        files.push([line("x", enclosed("a", bytes)), line("y", "<x><x>")].concat());
        let used = enclosed(&format!("<{NAME}>"), bytes);
        files.push([line(NAME, "a"), line("y", used)].concat());
    }
    // 252 and 266 bytes, of which 54 and 57 are left.
    for times in [18, 19] {
        let used = format!("<{NAME}>").repeat(times);
        files.push([line(NAME, "a"), line("y", used)].concat());
    }
    files
}

/// A rule of so many bytes: one in parentheses, and with a star if that leaves a byte over.
fn enclosed(inner: &str, bytes: usize) -> String {
    let rest = bytes - inner.len();
    let (open, close) = ("(".repeat(rest / 2), ")".repeat(rest / 2));
    [&open, inner, &close, &"*".repeat(rest % 2)].concat()
}

/// Files whose texts after replacement are long.
fn about_long_texts() -> Vec<Vec<u8>> {
    let offsets = [32_767, 32_768, 65_534, 65_535, 65_536, 65_537, 69_999];
    let mut files: Vec<Vec<u8>> = offsets.map(letter_at).into();
    files.push(special_at_long_offsets());
    files.extend(longest());
    files
}

/// A byte at every place of a line.
pub fn files_with_byte(byte: u8) -> Vec<Vec<u8>> {
    let filled = |text: &str| {
        let with_byte = |other: u8| if other == b'?' { byte } else { other };
        text.bytes().map(with_byte).collect()
    };
    let mut files: Vec<Vec<u8>> = BYTE_PLACES.map(filled).into();
    files.push([&good_lines(MAX_RULE_LINES)[..], &[byte]].concat());
    files.extend(set_edges::with_byte(byte).map(|rule| line("x", rule)));
    files
}
