//! The parts of a sheet, before it has a form.

/// A space at which a text is not broken into rows.
pub const FIXED: char = '\u{a0}';

/// The words of a text, each of which stays on one row.
pub fn words(text: &str) -> Vec<String> {
    text.split(' ').map(|word| word.replace(FIXED, " ")).collect()
}

/// A part of a line of the sheet: its name, if the line has several, and what flows in it; an item is broken only if it is too long.
#[derive(Debug)]
pub struct Part {
    pub name: &'static str,
    pub items: Vec<String>,
    /// whether it warns of something
    pub warns: bool,
}

impl Part {
    /// Sentences, which are broken at any space.
    pub fn prose(text: impl AsRef<str>) -> Part {
        Part { name: "", items: words(text.as_ref()), warns: false }
    }

    /// A list of items with semicolons between them and a full stop at the end.
    pub fn list(items: Vec<String>) -> Part {
        let last = items.len().saturating_sub(1);
        let ended = |(index, item): (usize, String)| item + if index == last { "." } else { ";" };
        Part { name: "", items: items.into_iter().enumerate().map(ended).collect(), warns: false }
    }

    pub fn named(self, name: &'static str) -> Part {
        Part { name, ..self }
    }

    pub fn warning(self) -> Part {
        Part { warns: true, ..self }
    }
}

/// A line of the sheet.
#[derive(Debug)]
pub struct Line {
    pub title: &'static str,
    pub parts: Vec<Part>,
}

impl Line {
    pub fn prose(title: &'static str, text: impl AsRef<str>) -> Line {
        Line { title, parts: vec![Part::prose(text)] }
    }
}

/// The thousandths of the pulse that are used, and its cycles, both as printed.
#[derive(Debug, PartialEq)]
pub struct Scale {
    pub share: String,
    pub tick: String,
}

/// What stands first on the sheet.
#[derive(Debug, PartialEq)]
pub struct Decision {
    /// the word that is seen at a glance
    pub word: &'static str,
    /// whether the routine may be loaded
    pub fits: bool,
    pub sentences: String,
    /// none where there is no figure
    pub scale: Option<Scale>,
    pub status: u8,
}

/// A line of a listing.
#[derive(Clone, Debug, PartialEq)]
pub struct Step {
    pub text: String,
    /// whether it is on the worst path, or on the costliest way that is shown
    pub is_worst: bool,
}

/// Lines of code or of a path, under their names.
#[derive(Debug)]
pub struct Listing {
    pub names: String,
    pub steps: Vec<Step>,
}

/// What stands on every page.
#[derive(Debug)]
pub struct Heading {
    pub file: String,
    pub digest: String,
    pub version: &'static str,
}

/// A sheet.
#[derive(Debug)]
pub struct Sheet {
    pub heading: Heading,
    pub decision: Decision,
    /// the lines of the decision and of the report, as the analyser printed them
    pub printed: Vec<String>,
    pub lines: Vec<Line>,
    /// what is said of the listings
    pub intro: String,
    /// the steps of the worst path or of a costliest way, for plain text; none where none is known
    pub path: Option<Listing>,
    /// all of the code, with the worst path marked where one is known
    pub code: Option<Listing>,
}

/// A number with the word for one thing or for more.
pub fn counted(number: &str, one: &str, more: &str) -> String {
    format!("{number} {}", if number == "1" { one } else { more })
}

/// The name of a file without the folders it is in.
pub fn last_name(file: &str) -> String {
    let name = file.rsplit('/').next().filter(|name| !name.is_empty()).unwrap_or(file);
    name.to_string()
}
