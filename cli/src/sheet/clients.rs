//! The line of the client count: for which numbers the figures hold, and which numbers they assume.
use super::content::{words, Line, Part};
use crate::cells::{Cell, Cells, OPEN};
use crate::routine_text::RoutineText;

/// What a cell of an accepted file holds.
#[derive(Debug, PartialEq)]
pub enum Held<'a> {
    Any,
    Range(&'a str),
    Number(&'a str),
    Handle(&'a str),
}

/// What the word of a cell says. A range of one number is that number.
pub fn held(word: &str) -> Held<'_> {
    if let Some(block) = word.strip_prefix('#') {
        return Held::Handle(block);
    }
    match word.split_once("..") {
        Some((low, high)) if low == high => Held::Number(low),
        Some(_) => Held::Range(word),
        None if word == "?" => Held::Any,
        None => Held::Number(word),
    }
}

/// The label of a cell in brackets, and what the cells file says of it where that is something else.
fn remark(cells: Option<&Cells>, cell: Cell, word: &str) -> String {
    let Some(entry) = cells.and_then(|cells| cells.of(cell)) else {
        return String::new();
    };
    let mut remarks = Vec::new();
    if !entry.label.is_empty() {
        remarks.push(entry.label.clone());
    }
    if entry.value != word && entry.value != OPEN {
        remarks.push(format!("the cells file says {}", entry.value));
    }
    if remarks.is_empty() {
        String::new()
    } else {
        format!(" ({})", remarks.join("; "))
    }
}

/// Cells without a remark that follow each other and hold any number, told by the first and the last.
struct Run {
    first: Cell,
    last: Cell,
}

impl Run {
    fn told(&self) -> String {
        match (self.first == self.last, self.last.follows(Some(self.first))) {
            (true, _) => format!("{} any number", self.first),
            (_, true) => format!("{} and {} any number", self.first, self.last),
            _ => format!("{} to {} any number", self.first, self.last),
        }
    }
}

/// Whether a cell is the next one of the same block, or the next entry of the stack.
fn continues(cell: Cell, last: Cell) -> bool {
    match (last, cell) {
        (Cell::Field(block, _), Cell::Field(other, _)) => block == other && cell.follows(Some(last)),
        (Cell::Entry(_), Cell::Entry(_)) => cell.follows(Some(last)),
        _ => false,
    }
}

/// Every cell that holds more than one number, with its range and its label.
fn open(routine: &RoutineText, cells: Option<&Cells>) -> Vec<String> {
    let mut told = Vec::new();
    let mut run: Option<Run> = None;
    for (cell, word) in &routine.cells {
        let remark = remark(cells, *cell, word);
        let text = match held(word) {
            Held::Any => format!("{cell} any number{remark}"),
            Held::Range(range) => format!("{cell} in {range}{remark}"),
            _ => continue,
        };
        let is_plain = held(word) == Held::Any && remark.is_empty();
        match &mut run {
            Some(run) if is_plain && continues(*cell, run.last) => run.last = *cell,
            _ => {
                told.extend(run.take().map(|run| run.told()));
                if is_plain {
                    run = Some(Run { first: *cell, last: *cell });
                } else {
                    told.push(text);
                }
            }
        }
    }
    told.extend(run.map(|run| run.told()));
    told
}

/// Every cell that holds one number, with it and its label.
fn assumed(routine: &RoutineText, cells: Option<&Cells>) -> Vec<String> {
    let each = routine.cells.iter().filter_map(|(cell, word)| match held(word) {
        Held::Number(number) => Some(format!("{cell} = {number}{}", remark(cells, *cell, word))),
        _ => None,
    });
    each.collect()
}

/// The names of the cells that hold more than one number.
pub fn open_names(routine: &RoutineText) -> Vec<String> {
    let open = routine.cells.iter().filter(|(_, word)| matches!(held(word), Held::Any | Held::Range(_)));
    open.map(|(cell, _)| cell.to_string()).collect()
}

pub fn line(routine: &RoutineText, cells: Option<&Cells>) -> Line {
    let mut holds = open(routine, cells);
    if holds.is_empty() {
        holds.push("the numbers under Assumed alone".into());
    }
    if !routine.primitives().is_empty() {
        holds.push("every answer of a primitive".into());
    }
    let assumed = assumed(routine, cells);
    let assumed = match assumed.is_empty() {
        true => Part::prose("no number: every cell is open or a handle."),
        false => {
            let mut part = Part::list(assumed);
            part.items.extend(words("Another number needs a sheet of its own."));
            part
        }
    };
    Line { title: "Client count", parts: vec![Part::list(holds).named("Holds for"), assumed.named("Assumed")] }
}

/// The cells that are handles, which the figures assume too.
pub fn blocks(routine: &RoutineText, cells: Option<&Cells>) -> Option<Line> {
    let handles = routine.cells.iter().filter_map(|(cell, word)| match held(word) {
        Held::Handle(block) => Some(format!("{cell} is block {block}{}", remark(cells, *cell, word))),
        _ => None,
    });
    let handles: Vec<String> = handles.collect();
    (!handles.is_empty()).then(|| Line { title: "State blocks", parts: vec![Part::list(handles)] })
}

#[cfg(test)]
mod tests {
    use super::*;

    fn text(cells: &str, values: &str, fields: &str, held: &str) -> String {
        format!(
            "BUDGET TICK\n10 10\nSTOP\n1\n0\n0\n-\n-\n-\n{cells}\n{values}\n{fields}\n{held}\nAT OP ARG\n0 STOP -\n"
        )
    }

    fn told(line: &Line) -> Vec<String> {
        line.parts.iter().map(|part| format!("{}: {}", part.name, part.items.join(" "))).collect()
    }

    #[test]
    fn every_cell_stands_under_one_of_the_two() {
        let text = text("ACCU S0 S1 S2", "0 #0 ? 1000", "B0.0 B0.1 B0.2 B1.0 B1.1", "? ? ? 0..5 7..7");
        let routine = RoutineText::read("f", text.as_bytes()).unwrap();
        assert_eq!(
            told(&line(&routine, None)),
            [
                "Holds for: S1 any number; B0.0 to B0.2 any number; B1.0 in 0..5.",
                "Assumed: ACCU = 0; S2 = 1000; B1.1 = 7. Another number needs a sheet of its own."
            ]
        );
        assert_eq!(told(&blocks(&routine, None).unwrap()), [": S0 is block 0."]);
    }

    #[test]
    fn labels_and_what_the_cells_file_says_otherwise() {
        let text = text("ACCU S0 S1 S2", "0 ? ? 1000", "-", "-");
        let routine = RoutineText::read("f", text.as_bytes()).unwrap();
        let cells = b"ACCU 0\nS0 _ frame\nS1 ? offset\nS2 0..1008 client count\n";
        let cells = Cells::read("c", cells).unwrap();
        assert_eq!(
            told(&line(&routine, Some(&cells))),
            [
                "Holds for: S0 any number (frame); S1 any number (offset).",
                "Assumed: ACCU = 0; S2 = 1000 (client count; the cells file says 0..1008). Another number needs a sheet of its own."
            ]
        );
        assert!(blocks(&routine, None).is_none());
    }

    #[test]
    fn nothing_open() {
        let text = text("ACCU", "0", "-", "-");
        let routine = RoutineText::read("f", text.as_bytes()).unwrap();
        assert!(told(&line(&routine, None))[0].contains("the numbers under Assumed alone."));
        assert!(open_names(&routine).is_empty());
    }
}
