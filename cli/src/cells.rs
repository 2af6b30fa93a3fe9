//! A cells file: a line `CELL VALUE LABEL` for each start cell and block field that is filled in, in the order of a routine file.
use crate::failure::Failure;
use crate::lines::{self, at, quoted};
use crate::numbers::number;
use std::fmt;

/// The place of a cell: the order is that of a routine file.
#[derive(Clone, Copy, Debug, PartialEq, Eq, PartialOrd, Ord)]
pub enum Cell {
    Accumulator,
    Entry(usize),
    Field(usize, usize),
}

const ENTRIES: usize = 32;
const BLOCKS: usize = 8;
const FIELDS: usize = 16;
const NUMBERS: std::ops::RangeInclusive<i64> = -1_073_741_824..=1_073_741_823;
const LABEL: usize = 60;

/// What stands for a value that is not decided yet.
pub const OPEN: &str = "_";

/// An index as a name has it: below the limit, no leading zero.
fn index(word: &str, limit: usize) -> Option<usize> {
    number(word).and_then(|value| usize::try_from(value).ok()).filter(|value| *value < limit)
}

impl Cell {
    /// The cell of a name, as `ACCU`, `S2` or `B0.1`.
    pub fn named(name: &str) -> Option<Cell> {
        if name == "ACCU" {
            Some(Cell::Accumulator)
        } else if let Some(entry) = name.strip_prefix('S') {
            index(entry, ENTRIES).map(Cell::Entry)
        } else {
            let (block, field) = name.strip_prefix('B')?.split_once('.')?;
            Some(Cell::Field(index(block, BLOCKS)?, index(field, FIELDS)?))
        }
    }

    /// Whether this cell can stand right after another one in a routine file, or first.
    pub fn follows(self, before: Option<Cell>) -> bool {
        match (before, self) {
            (None, Cell::Accumulator) => true,
            (Some(Cell::Accumulator), Cell::Entry(entry)) => entry == 0,
            (Some(Cell::Entry(before)), Cell::Entry(entry)) => entry == before + 1,
            (Some(Cell::Accumulator | Cell::Entry(_)), field) => field == Cell::Field(0, 0),
            (Some(Cell::Field(before, last)), Cell::Field(block, field)) => {
                (block, field) == (before, last + 1) || (block, field) == (before + 1, 0)
            }
            _ => false,
        }
    }
}

impl fmt::Display for Cell {
    fn fmt(&self, to: &mut fmt::Formatter) -> fmt::Result {
        match self {
            Cell::Accumulator => write!(to, "ACCU"),
            Cell::Entry(entry) => write!(to, "S{entry}"),
            Cell::Field(block, field) => write!(to, "B{block}.{field}"),
        }
    }
}

/// A line of a cells file.
#[derive(Clone, Debug)]
pub struct Entry {
    pub cell: Cell,
    pub value: String,
    pub label: String,
    pub line: usize,
}

pub struct Cells {
    /// the file's name, for messages
    pub file: String,
    pub entries: Vec<Entry>,
}

fn in_range(word: &str) -> Option<i64> {
    number(word).filter(|value| NUMBERS.contains(value))
}

/// Whether a word is a value of a cell: a number, a range, `?` or a handle, or `_` for one that is open.
fn is_value(word: &str) -> bool {
    match word.split_once("..") {
        _ if word == "?" || word == OPEN => true,
        Some((low, high)) => in_range(low).zip(in_range(high)).is_some_and(|(low, high)| low <= high),
        None => match word.strip_prefix('#') {
            Some(block) => index(block, BLOCKS).is_some(),
            None => in_range(word).is_some(),
        },
    }
}

/// What is wrong with a label, if anything is.
fn label_fault(label: &str) -> Option<String> {
    let mark = label.chars().find(|character| "<>&\"\\`".contains(*character));
    if let Some(mark) = mark {
        return Some(format!(
            "the label has a {mark}: a label has letters, digits, spaces and other marks than < > & \" \\ `"
        ));
    }
    (label.len() > LABEL).then(|| format!("the label has {} characters: {LABEL} are the most", label.len()))
}

fn entry(file: &str, line: usize, text: &str) -> Result<Entry, Failure> {
    let mut words = text.splitn(3, ' ');
    let [name, value, label] = [words.next(), words.next(), words.next()].map(|word| word.unwrap_or_default());
    let Some(cell) = Cell::named(name) else {
        return Err(at(
            file,
            line,
            format!("{} is no cell: a line begins with ACCU, S0 to S31 or B0.0 to B7.15", quoted(name)),
        ));
    };
    if value.is_empty() {
        return Err(at(
            file,
            line,
            format!("{name} has no value: write {name} VALUE LABEL, as {name} 0..1008 client count"),
        ));
    }
    if !is_value(value) {
        let wanted = "a value is a number, -1073741824 to 1073741823, a range as 0..1008, ? or a handle, #0 to #7";
        return Err(at(file, line, format!("{} is no value of {name}: {wanted}", quoted(value))));
    }
    if let Some(fault) = label_fault(label) {
        return Err(at(file, line, fault));
    }
    Ok(Entry { cell, value: value.to_string(), label: label.to_string(), line })
}

impl Cells {
    pub fn read(file: &str, bytes: &[u8]) -> Result<Cells, Failure> {
        let mut entries: Vec<Entry> = Vec::new();
        for (index, text) in lines::read(file, bytes)?.into_iter().enumerate() {
            let next = entry(file, index + 1, text)?;
            let cell = next.cell;
            if let Some(first) = entries.iter().find(|other| other.cell == cell) {
                return Err(at(file, index + 1, format!("{cell} stands on line {} already: keep one", first.line)));
            }
            if let Some(last) = entries.last().filter(|last| last.cell > cell) {
                let wanted =
                    format!("{cell} stands after {}: the order is ACCU, S0, S1 and on, B0.0 and on", last.cell);
                return Err(at(file, index + 1, wanted));
            }
            entries.push(next);
        }
        if entries.is_empty() {
            return Err(at(
                file,
                1,
                "the line is missing: a cells file has a line for each cell, as S1 0..1008 client count",
            ));
        }
        Ok(Cells { file: file.to_string(), entries })
    }

    pub fn of(&self, cell: Cell) -> Option<&Entry> {
        self.entries.iter().find(|entry| entry.cell == cell)
    }

    /// The line on which a cell would stand.
    pub fn line_of(&self, cell: Cell) -> usize {
        let after = self.entries.iter().find(|entry| entry.cell >= cell);
        after.map_or(self.entries.len() + 1, |entry| entry.line)
    }
}

/// The text of a cells file for a function of so many arguments: the accumulator is 0, and the author decides all else.
pub fn template(arguments: usize) -> String {
    let entries = (0..arguments).map(|entry| format!("S{entry} {OPEN} argument {}\n", entry + 1));
    std::iter::once("ACCU 0 accumulator\n".to_string()).chain(entries).collect()
}

#[cfg(test)]
mod tests {
    use super::*;
    use crate::lines::tests::said;

    #[test]
    fn names_of_cells() {
        for name in ["ACCU", "S0", "S31", "B0.0", "B7.15"] {
            assert_eq!(Cell::named(name).map(|cell| cell.to_string()), Some(name.to_string()));
        }
        for name in ["", "A", "S", "S32", "S01", "S-1", "B0", "B8.0", "B0.16", "B0.", "B.0", "B0.0.0", "accu"] {
            assert_eq!(Cell::named(name), None, "{name}");
        }
    }

    #[test]
    fn sequence_of_a_routine_file() {
        let cells = ["ACCU", "S0", "S1", "B0.0", "B0.1", "B1.0"].map(|name| Cell::named(name).unwrap());
        let mut before = None;
        for cell in cells {
            assert!(cell.follows(before), "{cell}");
            before = Some(cell);
        }
        for (before, cell) in
            [("ACCU", "S1"), ("S0", "S2"), ("S0", "B0.1"), ("B0.0", "B0.2"), ("B0.0", "B2.0"), ("B0.0", "S0")]
        {
            assert!(!Cell::named(cell).unwrap().follows(Cell::named(before)), "{before} {cell}");
        }
    }

    #[test]
    fn lines_of_cells() {
        let cells = Cells::read("c", b"ACCU 0\nS1 0..1008 client count\nB0.0 #1 the lamp's block\nB0.1 _\n").unwrap();
        let told: Vec<String> =
            cells.entries.iter().map(|entry| format!("{}|{}|{}", entry.cell, entry.value, entry.label)).collect();
        assert_eq!(told, ["ACCU|0|", "S1|0..1008|client count", "B0.0|#1|the lamp's block", "B0.1|_|"]);
        assert_eq!(cells.line_of(Cell::Entry(0)), 2);
        assert_eq!(cells.line_of(Cell::Field(0, 2)), 5);
    }

    #[test]
    fn damaged_cells_name_the_line() {
        for (text, line, word) in [
            ("", 1, "missing"),
            ("ACCU 0\nS0\n", 2, "no value"),
            ("ACCU 0\nT0 1\n", 2, "T0"),
            ("ACCU 0\nS0 1..0 x\n", 2, "1..0"),
            ("S0 1073741824\n", 1, "1073741824"),
            ("S0 #8\n", 1, "#8"),
            ("S0 01\n", 1, "01"),
            ("S0 0...5\n", 1, "0...5"),
            ("S0 1\nS0 2\n", 2, "already"),
            ("S1 1\nS0 2\n", 2, "order"),
            ("ACCU 0\nS0 1 a<b\n", 2, "label has a <"),
            ("S0 1 a&b\n", 1, "label has a &"),
            ("ACCU 0\r\nS0 1\r\n", 1, "CRLF"),
            ("ACCU 0\nS0 1 count", 2, "line feed"),
            ("ACCU 0\n\nS0 1\n", 2, "empty"),
        ] {
            let message = said(Cells::read("my cells", text.as_bytes()));
            assert!(message.starts_with(&format!("my cells: line {line}: ")) && message.contains(word), "{message}");
        }
        let long = format!("S0 1 {}\n", "x".repeat(61));
        assert!(said(Cells::read("c", long.as_bytes())).contains("61 characters"));
    }

    #[test]
    fn a_template_is_a_cells_file() {
        assert_eq!(template(2), "ACCU 0 accumulator\nS0 _ argument 1\nS1 _ argument 2\n");
        assert!(Cells::read("c", template(32).as_bytes()).is_ok_and(|cells| cells.entries.len() == 33));
    }
}
