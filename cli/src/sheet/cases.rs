//! Cuts on a sheet: the file that names them, and the line that has them.
use super::content::{counted, Line, Part};
use crate::cuts::{self, place_of, Place, Start};
use crate::failure::Failure;
use crate::library::{self, Answer};
use crate::price::shown;
use crate::routine_text::RoutineText;

/// The cuts of a file, for a routine. A fault in them is said with the file and the line, as one of a card or of cells is.
pub fn read(text: &[u8], file: &str) -> Result<Vec<u8>, Failure> {
    let cuts = cuts::given("sheet", Some(file), &[])?;
    if let Answer::Refused { number, place } = library::split(text, &cuts) {
        if place_of(text, number) == Place::Cuts {
            let wanted = match number {
                1 => "it has more than 4096 bytes",
                2 => "`CELL FROM`, and then at most 16 lines of a cell and a number are wanted",
                3 => "the number is outside the range of a cell, -1073741824 to 1073741823",
                _ => "the routine has no such cell",
            };
            let line = if place == 0 { String::new() } else { format!("line {place}: ") };
            return Err(Failure(format!("{}: {line}{wanted}", shown(file))));
        }
    }
    Ok(cuts)
}

/// The line of the cuts: the numbers at which each cell is cut, in the order of the file, and how many cases that makes.
pub fn line(routine: &RoutineText, cuts: &[u8]) -> Line {
    let start = Start::of(routine);
    let cuts = start.cuts(cuts);
    let numbers = |place: usize| {
        let mut numbers: Vec<i64> = cuts.iter().filter(|cut| cut.0 == place).map(|cut| cut.1).collect();
        numbers.sort_unstable();
        numbers.dedup();
        numbers.iter().map(i64::to_string).collect::<Vec<_>>().join(", ")
    };
    let each = |place: usize| format!("{} at {}", start.name(place), numbers(place));
    let cells: Vec<String> =
        (0..start.ranges.len()).filter(|place| cuts.iter().any(|cut| cut.0 == *place)).map(each).collect();
    let count = start.count(&cuts);
    let told = counted(&count.to_string(), "case", "cases");
    let cells = if cells.is_empty() { Part::prose("No cell is cut.") } else { Part::list(cells) };
    let whole = format!("{told}, of which each is merged by itself; the largest of each figure is reported.");
    Line { title: "Cases", parts: vec![cells.named("Cut"), Part::prose(whole).named("Together")] }
}

#[cfg(test)]
mod tests {
    use super::*;

    #[test]
    fn the_cuts_of_each_cell() {
        let text = "BUDGET TICK\n10 10\nSTOP\n1\n0\n0\n-\n-\n-\nACCU S0 S1\n? 5 0..9\n-\n-\nAT OP ARG\n0 STOP -\n";
        let routine = RoutineText::read("f", text.as_bytes()).unwrap();
        let told = |cuts: &[u8]| -> Vec<String> {
            line(&routine, cuts).parts.iter().map(|part| format!("{}: {}", part.name, part.items.join(" "))).collect()
        };
        let cases = told(b"CELL FROM\nS1 7\nACCU 0\nS1 3\nS1 7\nS0 5\n");
        assert_eq!(cases[0], "Cut: ACCU at 0; S0 at 5; S1 at 3, 7.");
        assert!(cases[1].starts_with("Together: 6 cases, of which each"), "{cases:?}");
        assert_eq!(told(b"CELL FROM\n")[0], "Cut: No cell is cut.");
    }
}
