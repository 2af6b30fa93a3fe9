//! Refusal 2: a line that is laid out otherwise than the sections of a routine file are.
use super::fault::Fault;
use super::kinds::{argument, Argument};
use super::lines::{told, Line, Word};
use super::routine::{number, Price, Role, Routine};

const NUMBER: &str = "a number, decimal, without leading zeros";

/// What a line that is not there would hold.
pub fn missing(routine: &Routine, number: usize) -> String {
    match routine.role(number) {
        Role::Title(title) => format!("the line {title}"),
        Role::Limits => "two numbers, BUDGET and TICK".into(),
        Role::Kinds => "the kinds of instructions that have a price, or -".into(),
        Role::KindPrices(price) => format!("{} for each kind of line 3", told_price(price)),
        Role::Primitives => "the primitives, or - for none".into(),
        Role::PrimitivePrices(price) => format!("{} for each primitive of line 7", told_price(price)),
        Role::Start => "ACCU S0 S1 and on, the accumulator and the stack".into(),
        Role::StartCells => "a cell for each name of line 10".into(),
        Role::Fields => "the fields of the blocks, B0.0 and on, or - for none".into(),
        Role::FieldCells => "a cell for each name of line 12".into(),
        Role::Code | Role::AnswerTitle => "a line of code: an address, a kind, and its argument or -".into(),
        Role::Answer => "an answer under ANSWER, one number".into(),
    }
}

fn told_price(price: Price) -> &'static str {
    match price {
        Price::Cycles => "the cycles",
        Price::Words => "the words",
        Price::Extra => "the extra cycles of a jump",
    }
}

/// The fault of a line that is there.
pub fn fault(routine: &Routine, number: usize, line: &Line) -> Option<Fault> {
    spacing(line).or_else(|| content(routine, number, line)).or_else(|| unended(line))
}

/// What is wrong between the words, in any line.
pub fn spacing(line: &Line) -> Option<Fault> {
    if line.bytes.is_empty() && line.is_ended {
        return Some(Fault::of(0..0, "a line of words", "an empty line"));
    }
    let words = line.words();
    let index = words.iter().position(|word| word.bytes.is_empty())?;
    let at = words[index].span.start;
    let found = match index {
        0 => "a space before the first word",
        _ if index + 1 == words.len() => "a space after the last word",
        _ => "two spaces",
    };
    let span = if index == 0 { 0..1 } else { at - 1..at };
    Some(Fault::of(span, "one space between two words, and none at the ends of the line", found))
}

pub fn unended(line: &Line) -> Option<Fault> {
    let fault = Fault::of(
        line.end(),
        "a line feed at the end of the line",
        "the end of the file: its last line feed is missing",
    );
    (!line.is_ended).then_some(fault)
}

fn content(routine: &Routine, number: usize, line: &Line) -> Option<Fault> {
    match routine.role(number) {
        Role::Title(title) => fixed(line, title),
        Role::Limits => values(routine, number, line, NUMBER, is_number),
        Role::Kinds | Role::Fields | Role::AnswerTitle => None,
        Role::Primitives => too_many(line, 32, "primitives"),
        Role::KindPrices(_) | Role::PrimitivePrices(_) => values(routine, number, line, NUMBER, is_number),
        Role::Start => fixed_not_empty(line),
        Role::StartCells | Role::FieldCells => {
            values(routine, number, line, "a cell: a number, a range as 0..1008, ? or a handle as #0", is_cell)
        }
        Role::Code => code(routine, number, line),
        Role::Answer => answer(routine, number, line),
    }
}

pub fn fixed(line: &Line, title: &str) -> Option<Fault> {
    (line.bytes != title.as_bytes()).then(|| Fault::of(0..line.bytes.len(), title, told(line.bytes)))
}

fn fixed_not_empty(line: &Line) -> Option<Fault> {
    (line.bytes == b"-").then(|| Fault::of(0..1, "ACCU, and the entries of the stack after it", "-"))
}

fn too_many(line: &Line, most: usize, what: &str) -> Option<Fault> {
    let words = line.words();
    words.get(most).map(|word| Fault::at(word, format!("at most {most} {what}")))
}

fn is_number(word: &[u8]) -> bool {
    number(word).is_some()
}

/// Whether a word is spelt as a cell.
pub fn is_cell(word: &[u8]) -> bool {
    match word {
        b"?" => true,
        [b'#', block @ ..] => is_number(block),
        _ => is_number(word) || range(word).is_some(),
    }
}

/// The two ends of a range.
pub fn range(word: &[u8]) -> Option<(i64, i64)> {
    let at = word.windows(2).position(|pair| pair == b"..")?;
    Some((number(&word[..at])?, number(&word[at + 2..])?))
}

/// A line of values: as many as there are names over it, each spelt as it must be.
fn values(routine: &Routine, number: usize, line: &Line, wanted: &str, is_spelt: fn(&[u8]) -> bool) -> Option<Fault> {
    let names = routine.names_over(number);
    let words = line.words();
    if names.is_empty() {
        let fault = Fault::of(0..line.bytes.len(), "-, since the line of names is - too", told(line.bytes));
        return (line.bytes != b"-").then_some(fault);
    }
    let name = |index: usize| told(names[index].bytes);
    let misspelt = |(index, word): (usize, &Word)| Fault::at(word, format!("{wanted}, for {}", name(index)));
    let spelling = words.iter().take(names.len()).enumerate().find(|(_, word)| !is_spelt(word.bytes)).map(misspelt);
    spelling.or_else(|| count(line, &words, &names))
}

fn count(line: &Line, words: &[Word], names: &[Word]) -> Option<Fault> {
    let wanted = format!("{} values, one for each name over them", names.len());
    let found = format!("{} values", words.len());
    match words.get(names.len()) {
        Some(word) => Some(Fault::of(word.span.clone(), wanted, found)),
        None if words.len() < names.len() => {
            let missing = told(names[words.len()].bytes);
            Some(Fault::of(line.end(), format!("{wanted}; that of {missing} is missing"), found))
        }
        None => None,
    }
}

fn code(routine: &Routine, number: usize, line: &Line) -> Option<Fault> {
    const MOST: usize = 1024;
    if number - routine.code_lines().start >= MOST {
        return Some(Fault::of(0..line.bytes.len(), format!("at most {MOST} lines of code"), "one more"));
    }
    let words = line.words();
    let [at, kind, given] = words.as_slice() else {
        let found = format!("{} words", words.len());
        let span = words.get(3).map_or(line.end(), |word| word.span.clone());
        return Some(Fault::of(span, "three words: an address, a kind, and its argument or -", found));
    };
    if !is_number(at.bytes) {
        return Some(Fault::at(at, format!("the address, {NUMBER}")));
    }
    let wanted = match argument(kind.bytes)? {
        Argument::Missing if given.bytes != b"-" => "-, since this kind has no argument",
        Argument::Number(..) if !is_number(given.bytes) => "the argument of this kind, a number",
        Argument::Address if !is_number(given.bytes) => "the address to jump to, a number",
        Argument::Primitive if given.bytes == b"-" => "the name of a primitive of line 7",
        _ => return None,
    };
    Some(Fault::at(given, wanted))
}

fn answer(routine: &Routine, number: usize, line: &Line) -> Option<Fault> {
    const MOST: usize = 64;
    if number >= routine.code_lines().end + 1 + MOST {
        return Some(Fault::of(0..line.bytes.len(), format!("at most {MOST} answers"), "one more"));
    }
    let words = line.words();
    match words.as_slice() {
        [word] if is_number(word.bytes) => None,
        [word] => Some(Fault::at(word, format!("one answer of a primitive, {NUMBER}"))),
        [_, second, ..] => Some(Fault::at(second, "one answer on a line")),
        [] => None,
    }
}
