//! What is at fault on a line: the place in it, what is wanted there and what was found.
use super::lines::{quoted, told, Line, Word};
use std::ops::Range;

#[derive(Debug, PartialEq)]
pub struct Fault {
    pub span: Range<usize>,
    pub wanted: String,
    pub found: String,
}

impl Fault {
    pub fn at(word: &Word, wanted: impl Into<String>) -> Fault {
        Fault { span: word.span.clone(), wanted: wanted.into(), found: told(word.bytes) }
    }

    pub fn of(span: Range<usize>, wanted: impl Into<String>, found: impl Into<String>) -> Fault {
        Fault { span, wanted: wanted.into(), found: found.into() }
    }

    /// The line quoted with its place marked, and what is wanted and found there.
    pub fn printed(&self, label: &str, line: &Line) -> String {
        let [quote, marks] = quoted(line.bytes, &self.span);
        let title = format!("  {label}: ");
        let marks = format!("{}{marks}", " ".repeat(title.len()));
        let mut printed = format!("{title}{quote}\n{marks}\n  wanted: {}\n  found: {}\n", self.wanted, self.found);
        if let Some(oddity) = oddity(line) {
            printed += &format!("  note: {oddity}\n");
        }
        printed
    }
}

/// What an editor or another system leaves in a file, unseen.
pub fn oddity(line: &Line) -> Option<&'static str> {
    if line.bytes.starts_with(b"\xef\xbb\xbf") {
        return Some("the file begins with a byte order mark (EF BB BF); save it as plain ASCII, without one");
    }
    if line.bytes.starts_with(b"\xff\xfe") || line.bytes.starts_with(b"\xfe\xff") {
        return Some("the file begins with a byte order mark of UTF-16; save it as plain ASCII");
    }
    if line.bytes.ends_with(b"\r") {
        return Some(
            "the line ends in a carriage return (CR) before its line feed; sed 's/\\r$//' takes them out of a file",
        );
    }
    if line.bytes.contains(&b'\r') {
        return Some("there is a carriage return (CR) in the line; lines end in a line feed alone");
    }
    if line.bytes.contains(&b'\t') {
        return Some("there is a tab in the line; one space stands between two words");
    }
    None
}
