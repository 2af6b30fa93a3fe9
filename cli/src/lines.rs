//! The lines of a text that people write: card files, cells files and routine files. What is wrong is said with the file and the line.
use crate::failure::Failure;

/// What is wrong on a line of a file.
pub fn at(file: &str, line: usize, what: impl AsRef<str>) -> Failure {
    Failure(format!("{file}: line {line}: {}", what.as_ref()))
}

/// A word as it is quoted in a message: printable, and cut off where it is long.
pub fn quoted(word: &str) -> String {
    let shown: String = word.chars().take(40).flat_map(char::escape_default).collect();
    let rest = if word.chars().nth(40).is_some() { ".." } else { "" };
    format!("`{shown}{rest}`")
}

/// What is wrong with the bytes of one line, if anything is.
fn fault(line: &[u8]) -> Option<&'static str> {
    let spaced =
        |line: &[u8]| line.starts_with(b" ") || line.ends_with(b" ") || line.windows(2).any(|two| two == b"  ");
    if line.starts_with(b"\xef\xbb\xbf") {
        Some("the file begins with a byte order mark: save it as plain ASCII text")
    } else if line.ends_with(b"\r") {
        Some("the line ends in a carriage return (CRLF): save the file with line feeds alone")
    } else if line.contains(&b'\t') {
        Some("a tab stands here: put one space between two words")
    } else if line.iter().any(|byte| !byte.is_ascii_graphic() && *byte != b' ') {
        Some("a byte stands here that is no printable ASCII character: remove it")
    } else if line.is_empty() {
        Some("the line is empty: remove it")
    } else if spaced(line) {
        Some("put one space between two words, and none before the first or after the last")
    } else {
        None
    }
}

/// The lines of a text, each of words of printable ASCII with one space between them, and each with its line feed.
pub fn read<'a>(file: &str, bytes: &'a [u8]) -> Result<Vec<&'a str>, Failure> {
    let mut lines = Vec::new();
    let mut rest = bytes;
    while !rest.is_empty() {
        let number = lines.len() + 1;
        let end = rest.iter().position(|byte| *byte == b'\n');
        let line = &rest[..end.unwrap_or(rest.len())];
        if let Some(what) = fault(line) {
            return Err(at(file, number, what));
        }
        let Some(end) = end else {
            return Err(at(file, number, "the last line does not end in a line feed: add one"));
        };
        lines.push(std::str::from_utf8(line).map_err(|_| at(file, number, "this is no text"))?);
        rest = &rest[end + 1..];
    }
    Ok(lines)
}

#[cfg(test)]
pub mod tests {
    use super::*;

    /// The message of what must fail.
    pub fn said<T>(result: Result<T, Failure>) -> String {
        match result {
            Ok(_) => panic!("this must fail"),
            Err(failure) => failure.0,
        }
    }

    #[test]
    fn lines_of_a_text() {
        assert!(read("f", b"a b\nc\n").is_ok_and(|lines| lines == ["a b", "c"]));
        assert!(read("f", b"").is_ok_and(|lines| lines.is_empty()));
    }

    #[test]
    fn every_fault_names_the_file_and_the_line() {
        for (text, line, word) in [
            (&b"a\r\nb\r\n"[..], 1, "CRLF"),
            (b"a\nb\r\n", 2, "CRLF"),
            (b"\xef\xbb\xbfa\n", 1, "byte order mark"),
            (b"a\n\nb\n", 2, "empty"),
            (b"a\nb", 2, "line feed"),
            (b"a  b\n", 1, "one space"),
            (b" a\n", 1, "one space"),
            (b"a \n", 1, "one space"),
            (b"a\tb\n", 1, "tab"),
            (b"a\n\xc3\xa4\n", 2, "printable"),
            (b"a\nb\0\n", 2, "printable"),
        ] {
            let message = said(read("some file", text));
            assert!(message.starts_with(&format!("some file: line {line}: ")) && message.contains(word), "{message}");
        }
    }

    #[test]
    fn quotes_are_short_and_printable() {
        assert_eq!(quoted("a\x1bb"), "`a\\u{1b}b`");
        assert_eq!(quoted(&"x".repeat(50)), format!("`{}..`", "x".repeat(40)));
    }
}
