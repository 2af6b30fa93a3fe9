//! What stands on the lines of a routine file, read for a sheet and for filling in; the proved reader alone says whether it passes.
use crate::card::{self, listed};
use crate::cells::Cell;
use crate::failure::Failure;
use crate::lines::{self, at, quoted};

/// The lines of a routine file before its code.
const HEAD: usize = 14;

/// The words of a line of code.
pub struct CodeLine<'a> {
    pub at: &'a str,
    pub op: &'a str,
    pub arg: &'a str,
}

pub struct RoutineText<'a> {
    pub lines: Vec<&'a str>,
    /// the start cells and the block fields with their values, in the order of the file
    pub cells: Vec<(Cell, &'a str)>,
    pub code: Vec<CodeLine<'a>>,
}

/// The cells of a line of names and a line of values, after those before them.
fn cells<'a>(
    file: &str,
    lines: &[&'a str],
    names: usize,
    before: Option<Cell>,
) -> Result<Vec<(Cell, &'a str)>, Failure> {
    let values = listed(lines[names]);
    let mut cells: Vec<(Cell, &str)> = Vec::new();
    for name in listed(lines[names - 1]) {
        let last = cells.last().map(|(cell, _)| *cell).or(before);
        let cell = Cell::named(name).filter(|cell| cell.follows(last));
        let Some(cell) = cell else {
            return Err(at(file, names, format!("{} is no cell that can stand there", quoted(name))));
        };
        let Some(value) = values.get(cells.len()) else {
            return Err(at(file, names + 1, format!("{cell} has no value")));
        };
        cells.push((cell, value));
    }
    if values.len() > cells.len() {
        return Err(at(file, names + 1, format!("{} values stand here for {} cells", values.len(), cells.len())));
    }
    Ok(cells)
}

fn code_line<'a>(file: &str, line: usize, text: &'a str) -> Result<CodeLine<'a>, Failure> {
    let words: Vec<&str> = text.split(' ').collect();
    let [address, op, arg] = words[..] else {
        return Err(at(file, line, format!("{} is no line of code, which has three words: AT OP ARG", quoted(text))));
    };
    if !card::KINDS.contains(&op) {
        return Err(at(file, line, format!("{} is no kind of instruction", quoted(op))));
    }
    Ok(CodeLine { at: address, op, arg })
}

impl<'a> RoutineText<'a> {
    pub fn read(file: &str, bytes: &'a [u8]) -> Result<RoutineText<'a>, Failure> {
        let lines = lines::read(file, bytes)?;
        if lines.len() <= HEAD {
            return Err(at(file, lines.len() + 1, "the line is missing: a routine file has 14 lines before its code"));
        }
        if lines[HEAD - 1] != "AT OP ARG" {
            let wanted = format!("`AT OP ARG` is wanted here, and {} stands here", quoted(lines[HEAD - 1]));
            return Err(at(file, HEAD, wanted));
        }
        if lines[9] == "-" {
            return Err(at(file, 10, "`ACCU` is wanted here, and `-` stands here"));
        }
        let mut all = cells(file, &lines, 10, None)?;
        let last = all.last().map(|(cell, _)| *cell);
        all.extend(cells(file, &lines, 12, last)?);
        let code = lines[HEAD..].iter().take_while(|line| **line != "ANSWER").enumerate();
        let code = code.map(|(index, line)| code_line(file, HEAD + 1 + index, line)).collect::<Result<Vec<_>, _>>()?;
        Ok(RoutineText { lines, cells: all, code })
    }

    /// The kinds in the code, each once, in the order of their first use.
    pub fn kinds(&self) -> Vec<&'a str> {
        once(self.code.iter().map(|line| line.op))
    }

    /// The primitives that the code calls, each once, in the order of their first call.
    pub fn primitives(&self) -> Vec<&'a str> {
        once(self.code.iter().filter(|line| line.op.starts_with("C_CALL")).map(|line| line.arg))
    }

    /// The names of a line with the values of another, both counted from 1.
    pub fn values(&self, names: usize, values: usize) -> Vec<(&'a str, &'a str)> {
        listed(self.lines[names - 1]).into_iter().zip(listed(self.lines[values - 1])).collect()
    }
}

fn once<'a>(names: impl Iterator<Item = &'a str>) -> Vec<&'a str> {
    let mut each: Vec<&str> = Vec::new();
    for name in names {
        if !each.contains(&name) {
            each.push(name);
        }
    }
    each
}

#[cfg(test)]
pub mod tests {
    use super::*;
    use crate::lines::tests::said;

    pub const ROUTINE: &str =
        "BUDGET TICK\n1000000 _\nC_CALL1 BRANCHIF STOP\n_ _ _\n_ _ _\n0 _ 0\nREAD\n_\n_\nACCU S0\n0 _\n-\n-\n\
        AT OP ARG\n0 C_CALL1 READ\n1 BRANCHIF 3\n2 C_CALL1 READ\n3 STOP -\nANSWER\n7\n";

    #[test]
    fn a_template_is_read() {
        let text = RoutineText::read("f", ROUTINE.as_bytes()).unwrap();
        assert_eq!(text.kinds(), ["C_CALL1", "BRANCHIF", "STOP"]);
        assert_eq!(text.primitives(), ["READ"]);
        assert_eq!(text.cells, [(Cell::Accumulator, "0"), (Cell::Entry(0), "_")]);
        assert_eq!(text.code.len(), 4);
        assert_eq!(text.values(3, 6), [("C_CALL1", "0"), ("BRANCHIF", "_"), ("STOP", "0")]);
    }

    #[test]
    fn what_cannot_be_filled_in_names_the_line() {
        for (from, to, line) in [
            ("AT OP ARG", "AT OP", 14),
            ("ACCU S0", "ACCU S1", 10),
            ("ACCU S0", "-", 10),
            ("0 _\n-", "0\n-", 11),
            ("0 _\n-", "0 _ 1\n-", 11),
            ("-\n-\nAT", "B0.1\n-\nAT", 12),
            ("-\n-\nAT", "B0.0\n-\nAT", 13),
            ("0 C_CALL1 READ", "0 C_CALL1", 15),
            ("3 STOP -", "3 HALT -", 18),
            ("\n", "\r\n", 1),
        ] {
            let message = said(RoutineText::read("f", ROUTINE.replace(from, to).as_bytes()));
            assert!(message.starts_with(&format!("f: line {line}: ")), "{message}");
        }
        assert!(said(RoutineText::read("f", b"BUDGET TICK\n")).starts_with("f: line 2: "));
    }
}
