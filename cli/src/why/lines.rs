//! A text as lines and words, and a line quoted with a place in it marked.
use std::ops::Range;

/// A line without its line feed.
#[derive(Clone, Copy)]
pub struct Line<'a> {
    pub bytes: &'a [u8],
    pub is_ended: bool,
}

pub struct Word<'a> {
    pub span: Range<usize>,
    pub bytes: &'a [u8],
}

/// The lines of a text, the first at index 0.
pub fn lines(text: &[u8]) -> Vec<Line<'_>> {
    let line = |bytes: &'_ [u8]| -> (usize, bool) {
        match bytes.last() {
            Some(b'\n') => (bytes.len() - 1, true),
            _ => (bytes.len(), false),
        }
    };
    let of = |bytes| {
        let (length, is_ended) = line(bytes);
        Line { bytes: &bytes[..length], is_ended }
    };
    text.split_inclusive(|byte| *byte == b'\n').map(of).collect()
}

impl<'a> Line<'a> {
    /// The words, separated by one space each; one of them is empty where a space is too many.
    pub fn words(&self) -> Vec<Word<'a>> {
        let mut start = 0;
        let word = |bytes: &'a [u8]| {
            let span = start..start + bytes.len();
            start = span.end + 1;
            Word { span, bytes }
        };
        self.bytes.split(|byte| *byte == b' ').map(word).collect()
    }

    /// The place after the last byte.
    pub fn end(&self) -> Range<usize> {
        self.bytes.len()..self.bytes.len()
    }
}

/// Bytes as they can be shown: what is no printable ASCII as an escape.
pub fn shown(bytes: &[u8]) -> String {
    let byte = |byte: &u8| match byte {
        b' '..=b'~' => char::from(*byte).to_string(),
        _ => byte.escape_ascii().to_string(),
    };
    bytes.iter().map(byte).collect()
}

/// A word for a message, cut where it is long.
pub fn told(bytes: &[u8]) -> String {
    const LONGEST: usize = 30;
    match bytes.len() {
        0 => "nothing".into(),
        length if length > LONGEST => format!("{}..., {length} bytes", shown(&bytes[..LONGEST])),
        _ => shown(bytes),
    }
}

/// How many of the bytes, in their order, can be shown within a width.
fn within<'a>(bytes: impl Iterator<Item = &'a u8>, width: usize) -> usize {
    let ends = bytes.scan(0, |end, byte| {
        *end += shown(&[*byte]).len();
        Some(*end)
    });
    ends.take_while(|end| *end <= width).count()
}

/// A line, and under it the marks of a place. Of a long line the part around the place.
pub fn quoted(bytes: &[u8], span: &Range<usize>) -> [String; 2] {
    const WIDTH: usize = 100;
    let is_far = within(bytes[..span.start].iter(), WIDTH / 2) < span.start;
    let from = if is_far { span.start - within(bytes[..span.start].iter().rev(), WIDTH / 3) } else { 0 };
    let to = from + within(bytes[from..].iter(), WIDTH);
    let cut = |is_cut: bool| if is_cut { "..." } else { "" };
    let head = format!("{}{}", cut(from > 0), shown(&bytes[from..span.start]));
    let marked = shown(&bytes[span.start..span.end.min(to)]);
    let rest = shown(&bytes[span.end.min(to)..to]);
    let marks = format!("{}{}", " ".repeat(head.len()), "^".repeat(marked.len().max(1)));
    [format!("{head}{marked}{rest}{}", cut(to < bytes.len())), marks]
}

#[cfg(test)]
mod tests {
    use super::*;

    #[test]
    fn a_text_is_lines_and_words() {
        let text = lines(b"AT OP\n\n1  2");
        assert_eq!(text.iter().map(|line| line.is_ended).collect::<Vec<_>>(), [true, true, false]);
        let spans: Vec<_> = text[2].words().into_iter().map(|word| word.span).collect();
        assert_eq!(spans, [0..1, 2..2, 3..4]);
        assert!(lines(b"").is_empty());
    }

    #[test]
    fn a_quoted_line_has_its_place_marked() {
        assert_eq!(quoted(b"0 #1", &(2..4)), ["0 #1", "  ^^"]);
        assert_eq!(quoted(b"a\r", &(1..2)), ["a\\r", " ^^"]);
        assert_eq!(quoted(b"ab", &(2..2)), ["ab", "  ^"]);
        let long = [b'x'; 300];
        let [line, marks] = quoted(&long, &(200..203));
        assert!(line.starts_with("...x") && line.ends_with("x...") && line.len() < 120);
        assert_eq!(marks.trim_start(), "^^^");
        for bytes in [[b'x'; 300], [b'\r'; 300], [0xff; 300]] {
            for span in [0..300, 0..0, 120..180, 299..300, 300..300] {
                let [line, marks] = quoted(&bytes, &span);
                assert!(line.len() <= 106 && marks.len() <= 106, "{line}");
            }
        }
    }
}
