//! A sheet as a page of HTML for a browser and for paper. Its pages are laid out here, so that each has the heading with its number on A4
//! and on Letter alike, in every browser: heights and widths are in points, and `style.css` has the same ones.
use super::content::{Decision, Heading, Listing, Sheet, Step};
use super::layout::{chunks, pages, units, Chunk, Row, Unit, Widths};

/// What a page has room for, on A4 and on Letter, with margins of 12 mm: the width of the one and the height of the other.
const WIDTH: f64 = 527.0;
const HEIGHT: f64 = 712.0;
const HEADING: f64 = 36.0;
const HEADING_ROW: f64 = 11.0;
/// The widths of rows, with a tenth to spare for a font that is wider than Arial.
const WIDTHS: Widths = Widths { full: 450.0, line: 395.0, part: 338.0, character: character_width };
const GAP: f64 = 14.0;
/// How wide a character of a listing is, and how high a line, in its size.
const CHARACTER: f64 = 0.61;
const LEADING: f64 = 1.2;
/// The dot and the space before a line of a listing.
const MARK: usize = 2;
/// The sizes of a listing that fits on the page, and of one that breaks over pages, in points.
const ONE_PAGE: [f64; 5] = [9.0, 8.5, 8.0, 7.5, 7.0];
const SEVERAL_PAGES: [f64; 3] = [8.0, 7.5, 7.0];
/// The fewest rows for which a listing begins on a page.
const LEAST: usize = 8;
const STYLE: &str = include_str!("style.css");

/// How wide a character of Arial is at 9 points, or a little less wide than this.
fn character_width(character: char) -> f64 {
    let share = match character {
        'M' | 'W' | 'm' | 'w' | '%' | '@' => 0.9,
        'A'..='Z' => 0.7,
        ' ' | '.' | ',' | ';' | ':' | '\'' | '|' | 'i' | 'j' | 'l' | 'f' | 't' | '(' | ')' | '/' | '-' | '!' => 0.32,
        _ => 0.56,
    };
    9.0 * share
}

fn escaped(text: &str) -> String {
    text.replace('&', "&amp;").replace('<', "&lt;").replace('>', "&gt;").replace('"', "&quot;")
}

fn height(sheet: &Sheet, unit: &Unit) -> f64 {
    match unit {
        Unit::Decision(rows) => {
            let bar = if sheet.decision.scale.is_some() { 20.0 } else { 0.0 };
            66.0 + 13.0 * rows.len() as f64 + bar
        }
        Unit::Printed(rows) => 8.0 + 10.0 * rows.len() as f64,
        Unit::Row(row) => 12.0 + if row.opens_line { 5.0 } else { 0.0 },
        Unit::Signature => 56.0,
        Unit::Intro(rows) => 6.0 + 12.0 * rows.len() as f64,
    }
}

/// The used part of the pulse as a bar, whose border is printed where backgrounds are not.
fn bar(decision: &Decision) -> String {
    let Some(scale) = &decision.scale else {
        return String::new();
    };
    let share: u64 = scale.share.parse().unwrap_or(1000);
    let [whole, tenth] = if decision.fits { [share / 10, share % 10] } else { [100, 0] };
    let class = if decision.fits { "bar" } else { "bar over" };
    let used = format!("<div class=\"{class}\"><div style=\"width:{whole}.{tenth}%\"></div></div>");
    format!("<div class=\"scale\">{used}<span>TICK {}</span></div>\n", escaped(&scale.tick))
}

fn decision(decision: &Decision, rows: &[String]) -> String {
    let (class, order) = match decision.fits {
        true => ("fits", ""),
        false => ("not", "<span>DO NOT LOAD</span>"),
    };
    let rows: Vec<String> = rows.iter().map(|row| escaped(row)).collect();
    let word = decision.word;
    let sentences = rows.join("<br>");
    format!("<div class=\"decision {class}\"><h1>{word}{order}</h1><p>{sentences}</p></div>\n{}", bar(decision))
}

/// The rows of one line of the sheet on one page.
fn table_line(rows: &[&Row]) -> String {
    let mut cell = String::new();
    for (index, row) in rows.iter().enumerate() {
        let text = if row.warns { format!("<b>{}</b>", escaped(&row.text)) } else { escaped(&row.text) };
        let part = if row.opens_part || index == 0 { row.part } else { "" };
        let name = if row.part.is_empty() { String::new() } else { format!("<span>{part}</span>") };
        cell += &format!("<div>{name}{text}</div>");
    }
    format!("<tr><th>{}</th><td>{cell}</td></tr>\n", rows[0].title)
}

/// The units of a page; rows that follow each other are a table.
fn body(sheet: &Sheet, units: &[Unit]) -> String {
    let mut text = String::new();
    let mut index = 0;
    while index < units.len() {
        let rows: Vec<&Row> =
            units[index..].iter().map_while(|unit| if let Unit::Row(row) = unit { Some(row) } else { None }).collect();
        if rows.is_empty() {
            text += &single(sheet, &units[index]);
            index += 1;
            continue;
        }
        index += rows.len();
        let lines = rows.chunk_by(|one, other| one.title == other.title).map(table_line);
        text += &format!("<table>\n{}</table>\n", lines.collect::<String>());
    }
    text
}

fn single(sheet: &Sheet, unit: &Unit) -> String {
    let joined = |rows: &[String], with: &str| rows.iter().map(|row| escaped(row)).collect::<Vec<_>>().join(with);
    match unit {
        Unit::Decision(rows) => decision(&sheet.decision, rows),
        Unit::Printed(rows) => format!("<pre class=\"printed\">{}</pre>\n", joined(rows, "\n")),
        Unit::Signature => "<p class=\"signed\"><span>Card</span><span>Date</span><span>Signed</span></p>\n".into(),
        Unit::Intro(rows) => format!("<p class=\"intro\">{}</p>\n", joined(rows, "<br>")),
        Unit::Row(_) => String::new(),
    }
}

fn heading(heading: &Heading, page: usize, pages: usize) -> String {
    let Heading { file, digest, version } = heading;
    let file = escaped(file);
    format!(
        "<header><p><b>Field sheet</b> <code>{file}</code><span>tickbound {version} &middot; page {page} of {pages}</span></p>\
         <p>SHA-256 <code>{digest}</code></p></header>\n"
    )
}

/// How a listing is set: its size in points, and how many columns fit.
#[derive(Clone, Copy, Debug, PartialEq)]
struct Setting {
    size: f64,
    columns: usize,
}

fn setting(listing: &Listing, size: f64) -> Setting {
    let longest = listing.steps.iter().map(|step| step.text.len()).chain([listing.names.len()]).max().unwrap_or(1);
    let width = (longest + MARK) as f64 * CHARACTER * size;
    Setting { size, columns: (((WIDTH + GAP) / (width + GAP)) as usize).max(1) }
}

/// The rows of a listing that fit into a height, without that of the names; none where they are too few to begin with.
fn rows_in(height: f64, size: f64) -> usize {
    let rows = (height / (size * LEADING)) as usize;
    if rows > LEAST {
        rows - 1
    } else {
        0
    }
}

/// The largest size in which the listing is on the page, or else the one that takes the fewest pages.
fn chosen(listing: &Listing, left: f64, room: f64) -> (Setting, Vec<Chunk>) {
    let set = |size: &f64| {
        let setting = setting(listing, *size);
        let [first, further] = [rows_in(left, *size), rows_in(room, *size)];
        (setting, chunks(listing.steps.len(), first, further, setting.columns))
    };
    let one = ONE_PAGE.iter().map(set).find(|(_, chunks)| chunks.len() == 1);
    one.unwrap_or_else(|| {
        SEVERAL_PAGES.iter().map(set).min_by_key(|(_, chunks)| chunks.len()).expect("there are sizes")
    })
}

fn step(step: &Step) -> String {
    let text = escaped(&step.text);
    match step.is_worst {
        true => format!("<b>&#9679; {text}</b>\n"),
        false => format!("  {text}\n"),
    }
}

fn listed(listing: &Listing, setting: Setting, chunk: &Chunk) -> String {
    let column = |lines: std::ops::Range<usize>| {
        let steps: String = listing.steps[lines].iter().map(step).collect();
        format!("<pre><u>  {}</u>\n{steps}</pre>\n", escaped(&listing.names))
    };
    let columns: String = chunk.each().map(column).collect();
    let count = setting.columns.max(1);
    let wide = (WIDTH - GAP * (count - 1) as f64) / count as f64;
    let [size, wide] = [format!("{:.1}", setting.size), format!("{wide:.1}")];
    let class = if listing.steps.iter().any(|step| step.is_worst) { "code marked" } else { "code" };
    format!("<div class=\"{class}\" style=\"font-size:{size}pt;--column:{wide}pt\">\n{columns}</div>\n")
}

pub fn html(sheet: &Sheet) -> String {
    let units = units(sheet, &WIDTHS);
    let heights: Vec<f64> = units.iter().map(|unit| height(sheet, unit)).collect();
    let room = HEIGHT - HEADING - HEADING_ROW * (sheet.heading.file.chars().count() / 50) as f64;
    let (ranges, left) = pages(&heights, room);
    let mut bodies: Vec<String> = ranges.into_iter().map(|range| body(sheet, &units[range])).collect();
    if let Some(listing) = &sheet.code {
        let (setting, chunks) = chosen(listing, left, room);
        for (index, chunk) in chunks.iter().enumerate() {
            if index > 0 {
                bodies.push(String::new());
            }
            if !chunk.lines.is_empty() {
                *bodies.last_mut().expect("the units have a page") += &listed(listing, setting, chunk);
            }
        }
    }
    let count = bodies.len();
    let page = |(index, body): (usize, String)| {
        format!("<section>\n{}{body}</section>\n", heading(&sheet.heading, index + 1, count))
    };
    let pages: String = bodies.into_iter().enumerate().map(page).collect();
    let [word, file] = [sheet.decision.word, &escaped(&sheet.heading.file)];
    format!(
        "<!DOCTYPE html>\n<html lang=\"en\">\n<head>\n<meta charset=\"utf-8\">\n<title>{word}: field sheet of {file}</title>\n\
         <style>\n{STYLE}</style>\n</head>\n<body>\n{pages}</body>\n</html>\n"
    )
}
