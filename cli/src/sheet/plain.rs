//! A sheet as plain text: pages of at most 60 lines of 80 characters, each with the heading; a form feed stands between two pages.
use super::content::{Decision, Heading, Listing, Sheet};
use super::layout::{chunks, pages, units, Chunk, Row, Unit, Widths};

const WIDTH: usize = 80;
const TITLE: usize = 16;
const PART: usize = 12;
const PAGE: usize = 60;
const HEADING: usize = 4;
const GAP: usize = 4;
const WIDTHS: Widths = Widths {
    full: (WIDTH - 6) as f64,
    line: (WIDTH - TITLE) as f64,
    part: (WIDTH - TITLE - PART) as f64,
    character: |_| 1.0,
};
/// The fewest rows for which a listing begins on a page.
const LEAST: usize = 6;
const SIGNATURE: &str = "Card ____________________  Date ______________  Signed ____________________";

/// A frame of thin lines where the routine fits, and a heavy one around everything else.
fn decision(decision: &Decision, sentences: &[String]) -> Vec<String> {
    let (edge, side) = match decision.fits {
        true => (format!("+{}+", "-".repeat(WIDTH - 2)), "| "),
        false => ("#".repeat(WIDTH), "##"),
    };
    let other: String = side.chars().rev().collect();
    let inside = |text: &str| format!("{side} {text:<0$} {other}", WIDTH - 6);
    let word = match decision.fits {
        true => decision.word.to_string(),
        false => format!("{}: DO NOT LOAD THIS ROUTINE", decision.word),
    };
    let mut lines = vec![edge.clone(), inside(&word)];
    lines.extend(sentences.iter().map(|sentence| inside(sentence)));
    lines.extend([edge, String::new()]);
    lines
}

fn row(row: &Row, is_first: bool) -> String {
    let title = if row.opens_line || is_first { row.title } else { "" };
    let part = if row.opens_part || is_first { row.part } else { "" };
    match row.part.is_empty() {
        true => format!("{title:<TITLE$}{}", row.text),
        false => format!("{title:<TITLE$}{part:<PART$}{}", row.text),
    }
}

/// The lines of a unit, which may be the first on its page.
fn lines(sheet: &Sheet, unit: &Unit, is_first: bool) -> Vec<String> {
    let with_space = |texts: &[String]| texts.iter().cloned().chain([String::new()]).collect();
    match unit {
        Unit::Decision(sentences) => decision(&sheet.decision, sentences),
        Unit::Printed(texts) => with_space(texts),
        Unit::Row(line) => vec![row(line, is_first)],
        Unit::Signature => vec![String::new(), SIGNATURE.into(), String::new()],
        Unit::Intro(texts) => with_space(texts),
    }
}

fn heading(heading: &Heading, page: usize, pages: usize) -> Vec<String> {
    vec![
        format!("FIELD SHEET  {}", heading.file),
        format!("SHA-256 {}", heading.digest),
        format!("tickbound {}, page {page} of {pages}", heading.version),
        String::new(),
    ]
}

/// A part of a listing, its columns side by side, each under the names.
fn listed(listing: &Listing, chunk: &Chunk) -> Vec<String> {
    let width = width(listing);
    let columns: Vec<_> = chunk.each().collect();
    let side_by_side = |cells: Vec<&str>| {
        let cells: Vec<String> = cells.iter().map(|cell| format!("{cell:<width$}")).collect();
        cells.join(&" ".repeat(GAP)).trim_end().to_string()
    };
    let mut lines = vec![side_by_side(vec![&listing.names; columns.len()])];
    for index in 0..chunk.rows {
        let cells = columns.iter().filter_map(|lines| lines.clone().nth(index));
        lines.push(side_by_side(cells.map(|line| listing.steps[line].text.as_str()).collect()));
    }
    lines
}

fn width(listing: &Listing) -> usize {
    listing.steps.iter().map(|step| step.text.len()).chain([listing.names.len()]).max().unwrap_or(1)
}

/// The parts of the listing, one for each page from the last one of the units on; an empty one has no lines there.
fn listing_chunks(listing: &Listing, left: usize) -> Vec<Chunk> {
    let most = ((WIDTH + GAP) / (width(listing) + GAP)).max(1);
    let first = if left > LEAST { left - 1 } else { 0 };
    chunks(listing.steps.len(), first, PAGE - HEADING - 1, most)
}

pub fn text(sheet: &Sheet) -> String {
    let units = units(sheet, &WIDTHS);
    let heights: Vec<f64> = units.iter().map(|unit| lines(sheet, unit, false).len() as f64).collect();
    let (ranges, left) = pages(&heights, (PAGE - HEADING) as f64);
    let mut bodies: Vec<Vec<String>> = Vec::new();
    for range in ranges {
        let first = range.start;
        bodies.push(range.flat_map(|index| lines(sheet, &units[index], index == first)).collect());
    }
    if let Some(listing) = sheet.path.as_ref().or(sheet.code.as_ref()) {
        for (index, chunk) in listing_chunks(listing, left as usize).iter().enumerate() {
            if index > 0 {
                bodies.push(Vec::new());
            }
            if !chunk.lines.is_empty() {
                bodies.last_mut().expect("the units have a page").extend(listed(listing, chunk));
            }
        }
    }
    let count = bodies.len();
    let page = |(index, body): (usize, Vec<String>)| {
        let all: Vec<String> = heading(&sheet.heading, index + 1, count).into_iter().chain(body).collect();
        all.join("\n").trim_end().to_string() + "\n"
    };
    bodies.into_iter().enumerate().map(page).collect::<Vec<_>>().join("\u{c}")
}
