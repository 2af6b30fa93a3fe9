//! `--why`: the reason of a refusal, of a trace that differs and of a search, in words. It is not proved; that a text is refused, by which
//! number and at which place, is the proved answer, and a reason is looked for at that place alone.
mod cuts;
#[cfg(test)]
mod damaged;
mod fault;
mod kinds;
mod layout;
mod lines;
mod names;
mod nearest;
mod ranges;
mod routine;
mod steps;
mod trace;
mod words;

use crate::cuts::{place_of, refused_case, Place};
use crate::library::{self, Answer};
use fault::Fault;
use routine::Routine;

/// What a refusal says by its number.
fn meaning(number: u16) -> &'static str {
    match number {
        1 => "the text is too long",
        2 => "the layout is wrong, a line is missing, or a number is misspelt",
        3 => "a number is outside its range",
        4 => "a name is unknown, repeated, misspelt or out of sequence",
        5 => "a kind in the code has no price",
        6 => "a branch leads to no address of the code",
        7 => "stuck: some input leads to a step that cannot be made",
        8 => "one path has more than 32 unknown branches",
        9 => "there are more than BUDGET steps",
        11 => "a run needs one number or a handle in every cell",
        12 => "the words are no code of the 61 kinds",
        13 => "a branch leads to its own address or a lower one",
        14 => "ways that meet cannot be merged",
        _ => "too little memory is lent",
    }
}

fn title(number: u16, place: u32) -> String {
    title_of("", number, place)
}

/// A refusal in words, of the bound that is named before it.
fn title_of(bound: &str, number: u16, place: u32) -> String {
    format!("tickbound: {bound}REFUSED {number} {place}: {}\n", meaning(number))
}

/// The reason of a refusal of a routine file.
pub fn of_refusal(text: &[u8], number: u16, place: u32) -> String {
    title(number, place) + &detail(&Routine::of(text), number, place)
}

fn detail(routine: &Routine, number: u16, place: u32) -> String {
    match number {
        1 => "  wanted: a routine file of at most 32768 bytes\n  found: more\n".into(),
        7 | 8 | 9 | 14 => steps::reason(routine, number, place),
        _ => at_a_line(routine, number, place as usize),
    }
}

fn at_a_line(routine: &Routine, refusal: u16, place: usize) -> String {
    let Some(line) = routine.line(place) else {
        let found = if routine.count() == 0 { "an empty file" } else { "the end of the file" };
        return format!("  line {place}\n  wanted: {}\n  found: {found}\n", layout::missing(routine, place));
    };
    let fault = match refusal {
        2 => layout::fault(routine, place, &line),
        3 => ranges::fault(routine, place, &line),
        4 => names::fault(routine, place, &line),
        5 => names::unpriced(&line),
        6 => names::branch(routine, &line, false),
        13 => names::branch(routine, &line, true),
        11 => names::unknown_cell(&line),
        _ => None,
    };
    let whole = || Fault::of(0..line.bytes.len(), "a line as ROUTINE-FILE.md has it", lines::told(line.bytes));
    fault.unwrap_or_else(whole).printed(&format!("line {place}"), &line)
}

/// The reason of what a command with one routine file answered; empty where there is nothing to give a reason for.
pub fn of_question(name: &str, text: &[u8], answer: &Answer) -> String {
    match answer {
        Answer::Refused { number: 8 | 9, .. } if name == "decide" => of_both_bounds(text),
        Answer::Refused { number, place } => of_refusal(text, *number, *place),
        Answer::Report(report) if name == "nearest" => nearest::reason(text, report),
        Answer::Report(report) if name == "decide" && report.windows(11).any(|word| word == b"\nUNDECIDED ") => {
            of_both_bounds(text)
        }
        Answer::Report(_) => String::new(),
    }
}

/// The refusals of both bounds, each with its reason: for a decision and a sheet.
pub fn of_both_bounds(text: &[u8]) -> String {
    let of = |bound: &str, answer: Answer| match answer {
        Answer::Refused { number, place } => {
            title_of(bound, number, place) + &detail(&Routine::of(text), number, place)
        }
        report => format!("tickbound: {bound}{}\n", nearest::told(&report)),
    };
    of("first bound: ", library::bound(text)) + &of("merging bound: ", library::merge(text))
}

/// The reason of a refused import.
pub fn of_import(bytes: &[u8], primitives: &[u8], answer: &Answer) -> String {
    match answer {
        Answer::Refused { number: 12, place } => title(12, *place) + &words::reason(bytes, primitives, *place as usize),
        Answer::Refused { number, place } => title(*number, *place) + &words::primitives(primitives),
        Answer::Report(_) => String::new(),
    }
}

/// Whether a refused replay is refused for its routine file: as its run is, but for 7 and 9.
pub fn is_of_routine(text: &[u8]) -> bool {
    matches!(library::run(text), Answer::Refused { number, .. } if number != 7 && number != 9)
}

/// The reason of a replay that is refused or differs.
pub fn of_replay(text: &[u8], trace: &[u8], answer: &Answer) -> String {
    match answer {
        Answer::Refused { number, place } if is_of_routine(text) => of_refusal(text, *number, *place),
        Answer::Refused { number, place } => title(*number, *place) + &trace::refusal(trace, *number, *place as usize),
        Answer::Report(report) => match differing_line(report) {
            Some(line) => format!("tickbound: DIFFERS {line}\n{}", trace::differs(text, trace, line)),
            None => String::new(),
        },
    }
}

fn differing_line(report: &[u8]) -> Option<usize> {
    std::str::from_utf8(report).ok()?.strip_prefix("DIFFERS ")?.trim_end().parse().ok()
}

/// The reason of a refused bound by cases.
pub fn of_split(text: &[u8], cuts: &[u8], answer: &Answer) -> String {
    let Answer::Refused { number, place } = *answer else {
        return String::new();
    };
    match place_of(text, number) {
        Place::Routine => of_refusal(text, number, place),
        Place::Cuts => title(number, place) + &cuts::refusal(&Routine::of(text), cuts, number, place as usize),
        Place::Case => {
            let case = refused_case(text, cuts, answer).map_or(String::new(), |case| format!("  case: {case}\n"));
            of_refusal(text, number, place) + &case
        }
    }
}

/// Where the place of a refused preview is.
#[derive(Clone, Copy, PartialEq)]
pub enum PreviewPlace {
    File,
    Address,
    CopyLine,
    CopyAddress,
}

impl PreviewPlace {
    pub fn told(self) -> &'static str {
        match self {
            PreviewPlace::File => "in the routine file",
            PreviewPlace::Address => "the address, which is outside the code",
            PreviewPlace::CopyLine => "a line of the copy",
            PreviewPlace::CopyAddress => "an address of the copy",
        }
    }
}

/// The file's refusals come first, and are those of its bound but 7, 8 and 9; then that of an address outside the code, which an
/// instruction `-`, refused by 2, has too; then the copy's.
pub fn place_of_preview(text: &[u8], address: u32, number: u16) -> PreviewPlace {
    let of_file = matches!(library::bound(text), Answer::Refused { number, .. } if !matches!(number, 7..=9));
    if of_file {
        return PreviewPlace::File;
    }
    match (library::preview(text, address, b"-"), number) {
        (Answer::Refused { number: 4, .. }, _) => PreviewPlace::Address,
        (_, 7..=9) => PreviewPlace::CopyAddress,
        _ => PreviewPlace::CopyLine,
    }
}

/// The reason of a refused preview.
pub fn of_preview(text: &[u8], address: u32, instruction: &[u8], answer: &Answer) -> String {
    let Answer::Refused { number, place } = *answer else {
        return String::new();
    };
    let routine = Routine::of(text);
    match place_of_preview(text, address, number) {
        PreviewPlace::File => of_refusal(text, number, place),
        PreviewPlace::Address => {
            let first = routine.first_address().unwrap_or_default();
            let last = first + routine.code_lines().len() as i64 - 1;
            format!("{}  wanted: an address of the code, {first} to {last}\n  found: {address}\n", title(number, place))
        }
        PreviewPlace::CopyLine | PreviewPlace::CopyAddress => {
            let copy = copy(&routine, address, instruction);
            of_refusal(&copy, number, place)
        }
    }
}

/// The file with an instruction in the place of that of an address.
fn copy(routine: &Routine, address: u32, instruction: &[u8]) -> Vec<u8> {
    let line = routine.line_of_address(i64::from(address));
    let patched = [format!("{address} ").as_bytes(), instruction].concat();
    let mut text = Vec::new();
    for number in 1..=routine.count() {
        let bytes = routine.line(number).map_or(&b""[..], |line| line.bytes);
        text.extend(if Some(number) == line { &patched } else { bytes });
        text.push(b'\n');
    }
    text
}

/// The reason of a refused seed.
pub fn of_seed(answer: &Answer) -> String {
    match answer {
        Answer::Refused { number, place } => title(*number, *place) + "  wanted: a seed, 1 to 4294967295\n  found: 0\n",
        Answer::Report(_) => String::new(),
    }
}
