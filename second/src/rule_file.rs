//! The reader of rule files: refusals 16, 18 and 19 of each line, then those of its rule.
//!
//! Lines are taken one after another, and the place of any refusal is the line, from 1.

use crate::limits::{is_name_byte, MAX_NAME_BYTES, MAX_RULE_LINES};
use crate::named_rule;
use crate::refusal::{Reason, Refusal};
use crate::rule::Rule;

/// A line that was read.
#[derive(Clone, Debug, PartialEq, Eq)]
pub struct Line {
    pub name: Vec<u8>,
    /// The rule's text after replacement, to which the rule's offsets belong.
    pub text: Vec<u8>,
    pub rule: Rule,
}

/// A line that is of the form, as it is written.
pub struct WrittenLine<'a> {
    pub name: &'a [u8],
    pub rule: &'a [u8],
}

/// Reads all lines of a rule file, or says why it is refused.
pub fn read(file: &[u8]) -> Result<Vec<Line>, Refusal> {
    let mut lines = Vec::new();
    let mut rest = file;
    // An empty file has a first line too: one of another form.
    while lines.is_empty() || !rest.is_empty() {
        let place = lines.len() + 1;
        let line = read_line(&mut rest, &lines);
        lines.push(line.map_err(|reason| Refusal::at(reason, place))?);
    }
    Ok(lines)
}

/// Reads all lines of a rule file, of which only the last one's rule is wanted.
pub fn read_last(file: &[u8]) -> Result<Rule, Refusal> {
    let last = read(file)?.pop();
    Ok(last.expect("a file that is read has a line").rule)
}

/// Takes a line off the front of the rest of a file, and reads it after the earlier ones.
fn read_line(rest: &mut &[u8], earlier: &[Line]) -> Result<Line, Reason> {
    if earlier.len() == MAX_RULE_LINES {
        return Err(Reason::TooManyRuleLines);
    }
    let WrittenLine { name, rule } = take_line(rest).ok_or(Reason::RuleLineForm)?;
    if earlier.iter().any(|line| line.name == name) {
        return Err(Reason::NameTaken);
    }
    let (text, rule) = named_rule::read(rule, earlier)?;
    Ok(Line {
        name: name.to_vec(),
        text,
        rule,
    })
}

/// The lines of a file as they are written, up to the first one that is not of the form.
pub fn written_lines(file: &[u8]) -> impl Iterator<Item = WrittenLine<'_>> {
    let mut rest = file;
    std::iter::from_fn(move || take_line(&mut rest))
}

/// Takes a line off the front of the rest of a file, if it is of the form.
fn take_line<'a>(rest: &mut &'a [u8]) -> Option<WrittenLine<'a>> {
    let end = rest.iter().position(|&byte| byte == b'\n')?;
    let (line, after) = (&rest[..end], &rest[end + 1..]);
    let fields = line.strip_prefix(b"R\t")?;
    let tab = fields.iter().position(|&byte| byte == b'\t')?;
    let (name, rule) = (&fields[..tab], &fields[tab + 1..]);
    *rest = after;
    is_name(name).then_some(WrittenLine { name, rule })
}

/// Whether some bytes are a name.
pub fn is_name(bytes: &[u8]) -> bool {
    let fits = (1..=MAX_NAME_BYTES).contains(&bytes.len());
    fits && bytes.iter().all(|&byte| is_name_byte(byte))
}
