//! Refusals 4, 5, 6, 13 and 11: a name, a kind without a price, a branch, a cell that is not one number.
use super::fault::Fault;
use super::kinds::{argument, Argument};
use super::layout::range;
use super::lines::{told, Line, Word};
use super::routine::{field_after, number, Role, Routine, KINDS_LINE, PRIMITIVES_LINE};

/// Refusal 4.
pub fn fault(routine: &Routine, number: usize, line: &Line) -> Option<Fault> {
    let words = routine.names(number);
    match routine.role(number) {
        Role::Kinds => words.iter().enumerate().find_map(|(index, word)| kind(word, &words[..index])),
        Role::Primitives => words.iter().enumerate().find_map(|(index, word)| primitive(word, &words[..index])),
        Role::Start => words.iter().enumerate().find_map(|(index, word)| start(word, index)),
        Role::Fields => field(routine, &words),
        Role::StartCells | Role::FieldCells => words.iter().find_map(|word| handle(routine, word)),
        Role::Code => code(routine, number, line),
        _ => None,
    }
}

fn repeated(word: &Word, before: &[Word]) -> Option<Fault> {
    before
        .iter()
        .any(|other| other.bytes == word.bytes)
        .then(|| Fault { found: format!("{} a second time", told(word.bytes)), ..Fault::at(word, "each name once") })
}

fn kind(word: &Word, before: &[Word]) -> Option<Fault> {
    let unknown = argument(word.bytes).is_none();
    unknown.then(|| Fault::at(word, "one of the 61 kinds of instructions")).or_else(|| repeated(word, before))
}

/// Checks a name of a primitive, as on line 7.
pub fn primitive(word: &Word, before: &[Word]) -> Option<Fault> {
    let is_letter = |byte: &u8| byte.is_ascii_uppercase();
    let is_spelt = word.bytes.len() <= 8
        && word.bytes.first().is_some_and(is_letter)
        && word.bytes.iter().all(|byte| is_letter(byte) || byte.is_ascii_digit() || *byte == b'_');
    let wanted = "a primitive's name: 1 to 8 capital letters, digits and _, a capital letter first";
    (!is_spelt).then(|| Fault::at(word, wanted)).or_else(|| repeated(word, before))
}

fn start(word: &Word, index: usize) -> Option<Fault> {
    let name = match index {
        0 => "ACCU".into(),
        33.. => return Some(Fault::at(word, "no name after S31: the stack has at most 32 entries at the start")),
        _ => format!("S{}", index - 1),
    };
    (word.bytes != name.as_bytes()).then(|| Fault::at(word, format!("{name}, the next name of ACCU S0 S1 and on")))
}

fn field(routine: &Routine, words: &[Word]) -> Option<Fault> {
    let blocks = routine.blocks();
    let word = words.get(blocks.iter().sum::<usize>())?;
    let wanted = match field_after(&blocks) {
        (Some(same), Some(next)) => format!("{same} or {next}, the next field of a block"),
        (Some(name), None) | (None, Some(name)) => format!("{name}, the next field of a block"),
        (None, None) => "no name: there are at most 8 blocks of 16 fields".into(),
    };
    Some(Fault::at(word, wanted))
}

fn handle(routine: &Routine, word: &Word) -> Option<Fault> {
    let [b'#', block @ ..] = word.bytes else {
        return None;
    };
    let count = routine.blocks().len();
    let is_there = number(block).is_some_and(|block| usize::try_from(block).is_ok_and(|block| block < count));
    let wanted = match count {
        0 => "no handle, since line 12 names no block".into(),
        1 => "a handle to a block that line 12 names: #0".into(),
        _ => format!("a handle to a block that line 12 names: #0 to #{}", count - 1),
    };
    (!is_there).then(|| Fault::at(word, wanted))
}

fn code(routine: &Routine, line_number: usize, line: &Line) -> Option<Fault> {
    let words = line.words();
    let [at, kind, given] = words.as_slice() else {
        return None;
    };
    let wanted = routine.first_address()? + (line_number - routine.code_lines().start) as i64;
    if number(at.bytes) != Some(wanted) {
        return Some(Fault::at(at, format!("{wanted}, the address after that of the line before")));
    }
    let Some(argument) = argument(kind.bytes) else {
        return Some(Fault::at(kind, "one of the 61 kinds of instructions"));
    };
    let names = routine.names(PRIMITIVES_LINE);
    let is_unknown = argument == Argument::Primitive && !names.iter().any(|name| name.bytes == given.bytes);
    let listed = names.iter().map(|name| told(name.bytes)).collect::<Vec<_>>().join(" ");
    let listed = if listed.is_empty() { "none".into() } else { listed };
    is_unknown.then(|| Fault::at(given, format!("a primitive of line {PRIMITIVES_LINE}, which has {listed}")))
}

/// Refusal 5.
pub fn unpriced(line: &Line) -> Option<Fault> {
    let words = line.words();
    let kind = words.get(1)?;
    let found = format!("{}, which line {KINDS_LINE} does not name", told(kind.bytes));
    Some(Fault { found, ..Fault::at(kind, format!("a kind that has its prices on lines {KINDS_LINE} to 6")) })
}

/// Refusals 6 and 13.
pub fn branch(routine: &Routine, line: &Line, backward: bool) -> Option<Fault> {
    let words = line.words();
    let (at, target) = (words.first()?, words.get(2)?);
    let first = routine.first_address()?;
    let last = first + routine.code_lines().len() as i64 - 1;
    Some(Fault::at(
        target,
        match backward {
            true => format!("an address above {}, its own: a branch leads forward", told(at.bytes)),
            false => format!("an address of the code, {first} to {last}"),
        },
    ))
}

/// Refusal 11.
pub fn unknown_cell(line: &Line) -> Option<Fault> {
    let is_wide = |word: &[u8]| word == b"?" || range(word).is_some_and(|(low, high)| low < high);
    let words = line.words();
    let word = words.iter().find(|word| is_wide(word.bytes))?;
    Some(Fault::at(word, "one number or a handle: a run has no unknown cell"))
}
