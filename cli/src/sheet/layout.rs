//! A sheet as rows and pages, for both forms: rows of a width, pages of a height, listings in columns that break over pages.
use super::content::{words, Line, Sheet};
use std::ops::Range;

/// A row of a line of the sheet.
#[derive(Debug)]
pub struct Row<'a> {
    pub title: &'a str,
    pub part: &'a str,
    pub text: String,
    pub warns: bool,
    pub opens_line: bool,
    pub opens_part: bool,
}

/// What stays together on a page.
#[derive(Debug)]
pub enum Unit<'a> {
    Decision(Vec<String>),
    Printed(&'a [String]),
    Row(Row<'a>),
    Signature,
    Intro(Vec<String>),
}

/// How wide a row is: of the decision and of an introduction, of a line, and of a named part of a line; and how wide a character is.
pub struct Widths {
    pub full: f64,
    pub line: f64,
    pub part: f64,
    pub character: fn(char) -> f64,
}

/// What takes the rows of one width.
#[derive(Clone, Copy)]
struct Measure {
    width: f64,
    character: fn(char) -> f64,
}

impl Measure {
    fn of(&self, text: &str) -> f64 {
        text.chars().map(self.character).sum()
    }

    /// The pieces of a text: itself where it fits in a row, or else its words, each cut where it is too long itself.
    fn pieces(&self, text: &str) -> Vec<String> {
        if self.of(text) <= self.width {
            return vec![text.to_string()];
        }
        text.split(' ').flat_map(|word| self.cut(word)).collect()
    }

    fn cut(&self, word: &str) -> Vec<String> {
        let mut pieces = vec![String::new()];
        for character in word.chars() {
            let last = pieces.last_mut().expect("there is a piece");
            match last.is_empty() || self.of(last) + (self.character)(character) <= self.width {
                true => last.push(character),
                false => pieces.push(character.to_string()),
            }
        }
        pieces
    }

    /// Items as rows; an item is broken only if it is longer than a row, and then it begins a row.
    fn rows(&self, items: &[String]) -> Vec<String> {
        let mut rows: Vec<String> = Vec::new();
        for item in items {
            let pieces = self.pieces(item);
            let is_long = pieces.len() > 1;
            for (index, piece) in pieces.into_iter().enumerate() {
                self.append(&mut rows, &piece, is_long && index == 0);
            }
        }
        rows
    }

    /// Appends a piece to the last row, or begins another one.
    fn append(&self, rows: &mut Vec<String>, piece: &str, begins: bool) {
        match rows.last_mut() {
            Some(row) if !begins && self.of(row) + (self.character)(' ') + self.of(piece) <= self.width => {
                row.push(' ');
                row.push_str(piece);
            }
            _ => rows.push(piece.to_string()),
        }
    }

    /// Sentences as rows.
    fn prose(&self, text: &str) -> Vec<String> {
        self.rows(&words(text))
    }
}

impl Widths {
    fn measure(&self, width: f64) -> Measure {
        Measure { width, character: self.character }
    }
}

fn line_rows<'a>(line: &'a Line, widths: &Widths) -> Vec<Unit<'a>> {
    let mut units = Vec::new();
    for part in &line.parts {
        let width = if part.name.is_empty() { widths.line } else { widths.part };
        for (index, text) in widths.measure(width).rows(&part.items).into_iter().enumerate() {
            units.push(Unit::Row(Row {
                title: line.title,
                part: part.name,
                text,
                warns: part.warns,
                opens_line: units.is_empty(),
                opens_part: index == 0,
            }));
        }
    }
    units
}

/// What a sheet has before its listing, in its order.
pub fn units<'a>(sheet: &'a Sheet, widths: &Widths) -> Vec<Unit<'a>> {
    let full = widths.measure(widths.full);
    let mut units = vec![Unit::Decision(full.prose(&sheet.decision.sentences))];
    if !sheet.printed.is_empty() {
        units.push(Unit::Printed(&sheet.printed));
    }
    units.extend(sheet.lines.iter().flat_map(|line| line_rows(line, widths)));
    units.push(Unit::Signature);
    if !sheet.intro.is_empty() {
        units.push(Unit::Intro(full.prose(&sheet.intro)));
    }
    units
}

/// The units of each page, of which each has so much room; and what the last page has left.
pub fn pages(heights: &[f64], room: f64) -> (Vec<Range<usize>>, f64) {
    let mut pages = Vec::new();
    let (mut start, mut left) = (0, room);
    for (index, height) in heights.iter().enumerate() {
        if *height > left && index > start {
            pages.push(start..index);
            (start, left) = (index, room);
        }
        left -= height;
    }
    pages.push(start..heights.len());
    (pages, left.max(0.0))
}

/// A part of a listing on one page: its lines, column after column.
#[derive(Clone, Debug, PartialEq)]
pub struct Chunk {
    pub lines: Range<usize>,
    pub columns: usize,
    pub rows: usize,
}

/// A listing of so many lines over pages: the first has `first` rows of room, where 0 means that it begins on the next page, each further
/// one `further`. It has as few columns as put it on the first page, and otherwise as many as fit.
pub fn chunks(count: usize, first: usize, further: usize, most: usize) -> Vec<Chunk> {
    if count <= first * most {
        let columns = count.div_ceil(first.max(1)).max(1);
        return vec![Chunk { lines: 0..count, columns, rows: count.div_ceil(columns) }];
    }
    let mut chunks = vec![Chunk { lines: 0..first * most, columns: most, rows: first }];
    let mut start = first * most;
    while start < count {
        let taken = (count - start).min(further.max(1) * most);
        chunks.push(Chunk { lines: start..start + taken, columns: most, rows: taken.div_ceil(most) });
        start += taken;
    }
    chunks
}

impl Chunk {
    /// The lines of each column.
    pub fn each(&self) -> impl Iterator<Item = Range<usize>> + '_ {
        let start = |column: usize| (self.lines.start + column * self.rows).min(self.lines.end);
        (0..self.columns).map(move |column| start(column)..start(column + 1)).filter(|lines| !lines.is_empty())
    }
}

#[cfg(test)]
mod tests {
    use super::*;

    #[test]
    fn rows_are_never_too_wide() {
        let rows = |items: &[String], width| Measure { width, character: |_| 1.0 }.rows(items);
        assert_eq!(rows(&words("one two three"), 7.0), ["one two", "three"]);
        assert_eq!(rows(&["S2 = 1000;".into(), "B0 = 7.".into()], 12.0), ["S2 = 1000;", "B0 = 7."]);
        assert_eq!(rows(&["a long item".into()], 6.0), ["a long", "item"]);
        assert_eq!(rows(&["x;".into(), "a long item".into(), "y".into()], 6.0), ["x;", "a long", "item y"]);
        assert_eq!(rows(&["abcdefgh".into()], 3.0), ["abc", "def", "gh"]);
        let wide = |character| if character == 'M' { 2.0 } else { 1.0 };
        assert_eq!(Measure { width: 5.0, character: wide }.rows(&words("ab cd MM M")), ["ab cd", "MM", "M"]);
    }

    #[test]
    fn pages_hold_what_fits() {
        let (pages, left) = pages(&[3.0, 3.0, 3.0, 5.0, 12.0], 10.0);
        assert_eq!(pages, [0..3, 3..4, 4..5]);
        assert_eq!(left, 0.0);
    }

    #[test]
    fn a_listing_that_fits_has_few_columns() {
        assert_eq!(chunks(10, 10, 50, 3), [Chunk { lines: 0..10, columns: 1, rows: 10 }]);
        assert_eq!(chunks(11, 10, 50, 3), [Chunk { lines: 0..11, columns: 2, rows: 6 }]);
    }

    #[test]
    fn a_listing_that_does_not_fit_breaks_over_pages() {
        let chunks = chunks(1024, 20, 70, 3);
        assert_eq!(chunks.iter().map(|chunk| chunk.lines.len()).collect::<Vec<_>>(), [60, 210, 210, 210, 210, 124]);
        let all: Vec<usize> = chunks.iter().flat_map(|chunk| chunk.each().flatten().collect::<Vec<_>>()).collect();
        assert_eq!(all, (0..1024).collect::<Vec<_>>());
        assert!(chunks.iter().all(|chunk| chunk.each().all(|lines| lines.len() <= 70)));
    }

    #[test]
    fn a_listing_without_room_begins_on_the_next_page() {
        let chunks = chunks(5, 0, 50, 2);
        assert!(chunks[0].lines.is_empty());
        assert_eq!(chunks[1].lines, 0..5);
    }
}
