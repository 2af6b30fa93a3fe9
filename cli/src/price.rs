//! `tickbound price [--cells CELLS] CARD FILE`: a routine file with the nine lines of a card in the place of its own, and with the cells
//! of a cells file filled in.
use crate::arguments::{self, Options};
use crate::card::{self, Card};
use crate::cells::{Cell, Cells, OPEN};
use crate::failure::{wrong_call, Failure};
use crate::input::{self, ROUTINE_LIMIT};
use crate::lines::at;
use crate::output;
use crate::routine_text::RoutineText;

/// What a routine file is filled in with.
#[derive(Default)]
pub struct Filling {
    pub card: Option<Card>,
    pub cells: Option<Cells>,
}

impl Filling {
    /// The card and the cells of two files, each of which is read if it is named.
    pub fn read(card: Option<&str>, cells: Option<&str>) -> Result<Filling, Failure> {
        let card = card.map(|file| Card::read(&shown(file), &input::read(file, ROUTINE_LIMIT)?)).transpose()?;
        let cells = cells.map(|file| Cells::read(&shown(file), &input::read(file, ROUTINE_LIMIT)?)).transpose()?;
        Ok(Filling { card, cells })
    }

    /// The text of a routine file with this filled in; `file` is its name.
    pub fn fill(&self, file: &str, text: &str) -> Result<String, Failure> {
        let routine = RoutineText::read(file, text.as_bytes())?;
        let mut lines: Vec<String> = routine.lines.iter().map(|line| line.to_string()).collect();
        if let Some(card) = &self.card {
            card.prices(&routine.kinds(), &routine.primitives())?;
            lines.splice(..card::LINES, card.text.lines().map(str::to_string));
        }
        if let Some(cells) = &self.cells {
            let filled = filled(cells, file, &routine.cells)?;
            lines.splice(card::LINES..card::LINES + 4, cell_lines(&filled));
        }
        let text: String = lines.iter().flat_map(|line| [line, "\n"]).collect();
        if text.len() > ROUTINE_LIMIT {
            let most = "a routine file has 32,768 at most: leave out kinds that the code does not use";
            return Err(Failure(format!("{file}: filled in, it has {} bytes, and {most}", text.len())));
        }
        Ok(text)
    }
}

/// A file's name in messages and on a sheet.
pub fn shown(file: &str) -> String {
    if file == "-" {
        "standard input".into()
    } else {
        arguments::shown(file)
    }
}

/// The cells of a routine file with those of a cells file filled in: its stack is as high as before, and the fields of blocks are
/// taken from the cells file where the routine file has none.
fn filled(cells: &Cells, file: &str, routine: &[(Cell, &str)]) -> Result<Vec<(Cell, String)>, Failure> {
    let has_blocks = routine.iter().any(|(cell, _)| matches!(cell, Cell::Field(..)));
    check_names(cells, file, routine, has_blocks)?;
    let mut all: Vec<(Cell, String)> = Vec::new();
    for (cell, value) in routine {
        let value = cells.of(*cell).map_or(*value, |entry| &entry.value);
        all.push((*cell, value.to_string()));
    }
    let fields = cells.entries.iter().filter(|entry| !has_blocks && matches!(entry.cell, Cell::Field(..)));
    for entry in fields {
        if !entry.cell.follows(all.last().map(|(cell, _)| *cell)) {
            let wanted = "a cell before it is missing: the fields of a block are numbered from 0, and the blocks too";
            return Err(at(&cells.file, entry.line, format!("{}: {wanted}", entry.cell)));
        }
        all.push((entry.cell, entry.value.clone()));
    }
    let Some((open, _)) = all.iter().find(|(_, value)| value == OPEN) else {
        return Ok(all);
    };
    let line = cells.line_of(*open);
    Err(match cells.of(*open) {
        Some(_) => {
            at(&cells.file, line, format!("{open} is not decided (`_`): write a number, a range, ? or a handle"))
        }
        None => at(&cells.file, line, format!("the line of {open} is missing, which {file} leaves open (`_`): add it")),
    })
}

/// That every cell of the cells file is one of the routine file, or may be added to it.
pub fn check_names(cells: &Cells, file: &str, routine: &[(Cell, &str)], has_blocks: bool) -> Result<(), Failure> {
    let added = |cell: Cell| !has_blocks && matches!(cell, Cell::Field(..));
    let strange =
        cells.entries.iter().find(|entry| !added(entry.cell) && !routine.iter().any(|(cell, _)| *cell == entry.cell));
    match strange {
        Some(entry) => {
            Err(at(&cells.file, entry.line, format!("{} is no cell of {file}: remove the line", entry.cell)))
        }
        None => Ok(()),
    }
}

/// The lines 10 to 13 of a routine file.
fn cell_lines(cells: &[(Cell, String)]) -> [String; 4] {
    let line = |fields: bool, value: bool| -> String {
        let chosen = cells.iter().filter(|(cell, _)| matches!(cell, Cell::Field(..)) == fields);
        let words: Vec<String> =
            chosen.map(|(cell, word)| if value { word.clone() } else { cell.to_string() }).collect();
        if words.is_empty() {
            "-".to_string()
        } else {
            words.join(" ")
        }
    };
    [line(false, false), line(false, true), line(true, false), line(true, true)]
}

pub fn command(arguments: &[String]) -> Result<u8, Failure> {
    let given = arguments::read("price", arguments, &Options { flags: &[], valued: &["--cells"] })?;
    let [card, file] = given.words.as_slice() else {
        return Err(wrong_call("price", "give CARD and FILE, in this order"));
    };
    let mut files = given.words.clone();
    files.extend(given.value("--cells").map(str::to_string));
    arguments::check_input_once("price", &files)?;
    let filling = Filling::read(Some(card), given.value("--cells"))?;
    let bytes = input::read(file, ROUTINE_LIMIT)?;
    if bytes.len() > ROUTINE_LIMIT {
        return Err(Failure(format!("{}: it has more than 32,768 bytes, and is no routine file", shown(file))));
    }
    let text = String::from_utf8_lossy(&bytes);
    output::print(filling.fill(&shown(file), &text)?.as_bytes())?;
    Ok(0)
}

#[cfg(test)]
mod tests {
    use super::*;
    use crate::card::tests::CARD;
    use crate::lines::tests::said;
    use crate::routine_text::tests::ROUTINE;

    fn filling(card: Option<&str>, cells: Option<&str>) -> Filling {
        Filling {
            card: card.map(|text| Card::read("card", text.as_bytes()).unwrap()),
            cells: cells.map(|text| Cells::read("cells", text.as_bytes()).unwrap()),
        }
    }

    #[test]
    fn the_nine_lines_of_the_card_stand_in_the_place_of_the_nine() {
        let text = filling(Some(CARD), None).fill("f", ROUTINE).unwrap();
        let rest: String = ROUTINE.lines().skip(9).flat_map(|line| [line, "\n"]).collect();
        assert_eq!(text, format!("{CARD}{rest}"));
    }

    #[test]
    fn cells_are_filled_in() {
        let cells = "S0 #0 the state\nB0.0 ? count\nB0.1 1008 limit\nB1.0 0..1\n";
        let text = filling(Some(CARD), Some(cells)).fill("f", ROUTINE).unwrap();
        let lines: Vec<&str> = text.lines().collect();
        assert_eq!(lines[9..14], ["ACCU S0", "0 #0", "B0.0 B0.1 B1.0", "? 1008 0..1", "AT OP ARG"]);
        let again = filling(None, Some("B0.1 5 limit\n")).fill("f", &text).unwrap();
        assert_eq!(again.lines().nth(12), Some("? 5 0..1"));
    }

    #[test]
    fn what_cannot_be_filled_in() {
        for (cells, line, word) in [
            ("S0 1\nS1 2\n", 2, "S1 is no cell of f"),
            ("S0 _ argument 1\n", 1, "S0 is not decided"),
            ("ACCU 0\n", 2, "line of S0 is missing"),
            ("ACCU 0\nB0.0 1\n", 2, "line of S0 is missing"),
            ("S0 #0\nB0.0 1\nB0.2 1\n", 3, "B0.2: a cell before it is missing"),
            ("S0 #0\nB1.0 1\n", 2, "B1.0: a cell before it is missing"),
            ("S0 #0\nB0.0 _\n", 2, "B0.0 is not decided"),
        ] {
            let message = said(filling(Some(CARD), Some(cells)).fill("f", ROUTINE));
            assert!(message.starts_with(&format!("cells: line {line}: ")) && message.contains(word), "{message}");
        }
        let text = filling(Some(CARD), Some("S0 #0\nB0.0 1\n")).fill("f", ROUTINE).unwrap();
        let message = said(filling(None, Some("B0.1 1\n")).fill("f", &text));
        assert_eq!(message, "cells: line 1: B0.1 is no cell of f: remove the line");
    }

    #[test]
    fn what_is_not_priced() {
        let card = CARD.replace("READ LOG", "LOOK LOG");
        let message = said(filling(Some(&card), None).fill("f", ROUTINE));
        assert!(message.contains("READ") && message.starts_with("card: "), "{message}");
    }
}
