//! The reasons of a refusal of cuts.
use super::fault::Fault;
use super::layout::{fixed, spacing, unended};
use super::lines::{lines, told, Line};
use super::routine::{number, Routine};
use crate::cuts::{MOST, NAMES};

const NUMBERS: std::ops::RangeInclusive<i64> = -1_073_741_824..=1_073_741_823;

/// Refusals 1 to 4 of cuts for a routine file.
pub fn refusal(routine: &Routine, cuts: &[u8], refusal: u16, place: usize) -> String {
    if refusal == 1 {
        return "  wanted: cuts of at most 4096 bytes\n  found: more\n".into();
    }
    let label = format!("line {place} of the cuts");
    let lines = lines(cuts);
    let Some(line) = place.checked_sub(1).and_then(|index| lines.get(index)) else {
        return format!("  {label}\n  wanted: {NAMES}\n  found: the end of the file\n");
    };
    let fault = match refusal {
        2 => layout(place, line),
        3 => range(line),
        _ => name(routine, line),
    };
    fault.unwrap_or_else(|| Fault::of(0..0, "a cell and a number", told(line.bytes))).printed(&label, line)
}

fn layout(place: usize, line: &Line) -> Option<Fault> {
    let content = || match place {
        1 => fixed(line, NAMES),
        _ if place > MOST + 1 => {
            Some(Fault::of(0..line.bytes.len(), format!("at most {MOST} lines under {NAMES}"), "one more"))
        }
        _ => cut(line),
    };
    spacing(line).or_else(content).or_else(|| unended(line))
}

fn cut(line: &Line) -> Option<Fault> {
    let words = line.words();
    if words.len() != 2 {
        let span = words.get(2).map_or(line.end(), |word| word.span.clone());
        return Some(Fault::of(span, "a cell and a number, CELL and FROM", format!("{} words", words.len())));
    }
    let word = words.get(1).filter(|word| number(word.bytes).is_none())?;
    Some(Fault::at(word, "a number, decimal, without leading zeros"))
}

fn range(line: &Line) -> Option<Fault> {
    let words = line.words();
    let word = words.get(1).filter(|word| number(word.bytes).is_none_or(|value| !NUMBERS.contains(&value)))?;
    Some(Fault::at(word, format!("a number of a cell, {} to {}", NUMBERS.start(), NUMBERS.end())))
}

fn name(routine: &Routine, line: &Line) -> Option<Fault> {
    let names: Vec<String> =
        [10, 12].into_iter().flat_map(|number| routine.names(number)).map(|word| told(word.bytes)).collect();
    let all = match names.as_slice() {
        [first, .., last] if names.len() > 12 => format!("{first} to {last}"),
        names => names.join(" "),
    };
    let words = line.words();
    Some(Fault::at(words.first()?, format!("a cell that lines 10 and 12 of the routine file name: {all}")))
}
