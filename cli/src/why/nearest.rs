//! The reason of a search: what the bound becomes with the change that it names.
use super::routine::Routine;
use crate::library::{self, Answer};

/// The change, and CYCLES or the refusal after and before it.
pub fn reason(text: &[u8], report: &[u8]) -> String {
    let before = told(&library::bound(text));
    let report = String::from_utf8_lossy(report);
    let Some((name, value)) = report.trim_end().split_once(' ') else {
        let none = "no change of 1 to 64 to one number";
        return format!("tickbound: NONE: {none} alters {before} or makes the routine refused by 7, 8 or 9\n");
    };
    match changed(text, name, value) {
        Some((copy, was)) => {
            let after = told(&library::bound(&copy));
            format!("tickbound: {name} {value} in the place of {was}: {after}, in the place of {before}\n")
        }
        None => format!("tickbound: {name} {value}: the bound is {before} before this change\n"),
    }
}

/// CYCLES of a bound, or its refusal.
pub fn told(answer: &Answer) -> String {
    match answer {
        Answer::Refused { number, place } => format!("REFUSED {number} {place}"),
        Answer::Report(report) => {
            let report = String::from_utf8_lossy(report);
            let cycles = report.lines().nth(1).and_then(|line| line.split(' ').next()).unwrap_or_default();
            format!("CYCLES {cycles}")
        }
    }
}

/// The text with another value in a cell, and the value that stood there.
fn changed(text: &[u8], name: &str, value: &str) -> Option<(Vec<u8>, String)> {
    let routine = Routine::of(text);
    let of_line =
        |names: usize| Some((names + 1, routine.names(names).iter().position(|word| word.bytes == name.as_bytes())?));
    let (number, index) = of_line(10).or_else(|| of_line(super::routine::FIELDS_LINE))?;
    let words = routine.names(number);
    let cell = words.get(index)?;
    let start: usize = (1..number).filter_map(|number| routine.line(number)).map(|line| line.bytes.len() + 1).sum();
    let span = start + cell.span.start..start + cell.span.end;
    let copy = [&text[..span.start], value.as_bytes(), &text[span.end..]].concat();
    Some((copy, String::from_utf8_lossy(cell.bytes).into_owned()))
}

#[cfg(test)]
mod tests {
    use super::*;

    #[test]
    fn one_cell_is_changed() {
        let text = include_bytes!("../../../examples/door-counter-41.txt");
        let (copy, was) = changed(text, "B0.0", "-7").unwrap();
        assert_eq!(was, "41");
        let lines: Vec<_> = copy.split(|byte| *byte == b'\n').collect();
        assert_eq!((lines[10], lines[12]), (&b"0 #0"[..], &b"-7"[..]));
        assert_eq!(copy.len(), text.len());
        assert!(changed(text, "B1.0", "1").is_none());
    }
}
