//! A routine: the words of its code as `import` takes them, the line of its primitives, and the file up to the code.
use super::lines::{Argument, Line};
use super::told;
use crate::card::JUMPS;
use crate::cells::{self, OPEN};

/// Limits of a routine file.
pub const LONGEST: usize = 32_768;
pub const ENTRIES: usize = 32;
pub const PRIMITIVES: usize = 32;
pub const LINES: usize = 1024;
/// The line of a routine file that has the primitives.
const PRIMITIVES_LINE: usize = 7;

/// Any number of steps that the bound may explore, and a TICK that is to be filled in: until then the file is refused by 2.
const BUDGET_TICK: &str = "BUDGET TICK\n1000000 _\n";

pub struct Routine {
    pub words: Vec<u8>,
    pub primitives: String,
    /// the lines of the file before `AT OP ARG`
    pub head: String,
    /// a cells file with every cell of the function
    pub cells: String,
}

/// The primitives that lines call, in the order of their first use.
pub fn called(lines: &[Line]) -> Vec<&Vec<u8>> {
    let mut called: Vec<&Vec<u8>> = Vec::new();
    for line in lines {
        if let Argument::Primitive(name) = &line.argument {
            if !called.contains(&name) {
                called.push(name);
            }
        }
    }
    called
}

/// The words of lines: a primitive is its place among those that are given, and a target an offset from its own word.
fn words(lines: &[Line], primitives: &[&[u8]]) -> Vec<u8> {
    let mut places = Vec::new();
    let mut next = 0;
    for line in lines {
        places.push(next);
        next += if line.argument == Argument::None { 1 } else { 2 };
    }
    let mut words = Vec::new();
    for (line, place) in lines.iter().zip(&places) {
        words.push(line.opcode as i32);
        match &line.argument {
            Argument::None => {}
            Argument::Number(number) => words.push(*number),
            Argument::Target(target) => words.push(places[*target] - (place + 1)),
            Argument::Primitive(name) => {
                words.push(primitives.iter().position(|other| other == name).unwrap_or(0) as i32);
            }
        }
    }
    words.iter().flat_map(|word: &i32| word.to_le_bytes()).collect()
}

impl Routine {
    pub fn of(lines: &[Line], arguments: usize) -> Routine {
        let mut kinds: Vec<&str> = Vec::new();
        for line in lines {
            if !kinds.contains(&line.name()) {
                kinds.push(line.name());
            }
        }
        let names: Vec<&[u8]> = called(lines).into_iter().map(|name| name.as_slice()).collect();
        let primitives: Vec<String> = names.iter().map(|name| told(name)).collect();
        Routine {
            words: words(lines, &names),
            primitives: line(&primitives),
            head: head(&kinds, &primitives, arguments),
            cells: cells::template(arguments),
        }
    }
}

impl Routine {
    /// With the primitives of a routine file that it was filled in by, in their order there, so that the words are those of that file.
    pub fn numbered_as_in(self, lines: &[Line], file: &str) -> Routine {
        let Some(primitives) = file.lines().nth(PRIMITIVES_LINE - 1) else { return self };
        let names: Vec<&[u8]> = primitives.split(' ').map(str::as_bytes).collect();
        match called(lines).iter().all(|name| names.contains(&name.as_slice())) {
            true => Routine { words: words(lines, &names), primitives: primitives.into(), ..self },
            false => self,
        }
    }
}

fn line<T: AsRef<str>>(words: &[T]) -> String {
    let words: Vec<&str> = words.iter().map(|word| word.as_ref()).collect();
    if words.is_empty() {
        "-".into()
    } else {
        words.join(" ")
    }
}

/// The lines before the code, with `_` in the place of every price and every argument, which are to be filled in.
fn head(kinds: &[&str], primitives: &[String], arguments: usize) -> String {
    let open = |count| line(&vec![OPEN; count]);
    let extra: Vec<&str> = kinds.iter().map(|kind| if JUMPS.contains(kind) { OPEN } else { "0" }).collect();
    let cells = (0..arguments).map(|entry| format!("S{entry}"));
    let lines = [
        line(kinds),
        open(kinds.len()),
        open(kinds.len()),
        line(&extra),
        line(primitives),
        open(primitives.len()),
        open(primitives.len()),
        line(&std::iter::once("ACCU".to_string()).chain(cells).collect::<Vec<String>>()),
        format!("0{}", format!(" {OPEN}").repeat(arguments)),
        "-".into(),
        "-".into(),
    ];
    format!("{BUDGET_TICK}{}\n", lines.join("\n"))
}
