//! `tickbound extract`: lists the functions of an object file of OCaml 4.13, or writes one as a routine, the code by the proved import.
//! Exit status 0 for what is listed or written, 2 for anything else. It is not proved: what it writes goes through `import`, `bound` and
//! the others, which are.
mod accumulator;
mod body;
mod check;
mod closure;
mod code;
mod events;
mod faults;
mod files;
mod lines;
mod lower;
mod make;
mod marshal;
mod notes;
mod object;
mod opcodes;
mod routine;
mod source;
#[cfg(test)]
mod tests;
mod thread;
mod unroll;

use crate::arguments::{self, shown, Given, Options};
use crate::failure::{wrong_call, Failure};
use crate::library::{self, Answer};
use crate::price::Filling;
use crate::{input, output};
use closure::Kept;
use code::Code;
use faults::{Fault, Found};
use lines::Line;
use make::{made, Made, Wanted};
use notes::{Done, Note};
use object::Unit;
use routine::Routine;
use source::{Compiled, Lines, Source};
use std::path::Path;

const OPTIONS: Options = Options { flags: &["--lower", "--unroll"], valued: &["--names", "--card", "--cells"] };

/// A name from the file as one word of text.
pub fn told(name: &[u8]) -> String {
    let byte = |byte: &u8| match byte {
        b' ' | b',' | b'\\' => format!("\\x{byte:02x}"),
        _ => byte.escape_ascii().to_string(),
    };
    if name.is_empty() {
        "''".into()
    } else {
        name.iter().map(byte).collect()
    }
}

/// A failure of a file, with its name before it.
fn of_file(file: &str) -> impl Fn(Failure) -> Failure + '_ {
    move |failure| Failure(format!("{}: {}", shown(file), failure.0))
}

fn unit(file: &str) -> Result<Unit, Failure> {
    let bytes = input::read(file, object::LONGEST)?;
    let read = match bytes.len() > object::LONGEST {
        true => Err(Failure(format!("longer than {} bytes", object::LONGEST))),
        false => object::read(&bytes),
    };
    read.map_err(of_file(file))
}

/// What `extract` knows of a file.
struct Extraction<'a> {
    compiled: &'a Compiled<'a>,
    source: Source<'a>,
    kept: Kept,
    wanted: Wanted,
}

/// A routine with its file, and what was done to it.
struct Written {
    routine: Routine,
    lines: Vec<Line>,
    file: String,
    notes: Vec<Note>,
}

impl Extraction<'_> {
    /// The routine of a function, or its faults.
    fn routine(&self, index: usize, lines: &Lines, wanted: Wanted) -> Result<Result<Written, Vec<Found>>, Failure> {
        let function = &self.compiled.functions[index];
        let Made { lines, notes } = match made(self.compiled, index, &self.kept, lines, wanted) {
            Ok(made) => made,
            Err(faults) => return Ok(Err(faults)),
        };
        let routine = Routine::of(&lines, function.arguments);
        let file = routine.head.clone() + &imported(&routine)?;
        Ok(match file.len() > routine::LONGEST {
            true => Err(vec![(function.address, Fault::LongFile(routine::LONGEST))]),
            false => Ok(Written { routine, lines, file, notes }),
        })
    }

    /// `yes` where a function is extracted as it stands, `lowered` where `--lower` is needed, or else how many faults it has.
    fn kinds(&self, index: usize) -> Result<String, Failure> {
        let lines = self.source.lines(index);
        let plain = Wanted { lowers: false, unrolls: false };
        if self.routine(index, &lines, plain)?.is_ok() {
            return Ok("yes".into());
        }
        let lowered = Wanted { lowers: true, ..self.wanted };
        Ok(match self.routine(index, &lines, lowered)? {
            Ok(_) => "lowered".into(),
            Err(faults) => faults.len().to_string(),
        })
    }

    fn listing(&self) -> Result<String, Failure> {
        let mut text = "NUMBER NAME ADDRESS LENGTH ARGUMENTS PRIMITIVES KINDS\n".to_string();
        for (index, function) in self.compiled.functions.iter().enumerate() {
            let primitives: Vec<String> = function.primitives.iter().map(|name| told(name)).collect();
            text += &format!(
                "{} {} {} {} {} {} {}\n",
                index + 1,
                self.source.name(index).map_or("-".into(), told),
                function.address,
                function.words.len(),
                function.arguments,
                if primitives.is_empty() { "-".into() } else { primitives.join(",") },
                self.kinds(index)?,
            );
        }
        Ok(text)
    }

    /// The function of a number as it is listed, or of a name, with or without the unit's before it.
    fn chosen(&self, word: &str) -> Result<usize, Failure> {
        let count = self.compiled.functions.len();
        let is_number = !word.is_empty() && word.bytes().all(|byte| byte.is_ascii_digit()) && !word.starts_with('0');
        let number = word.parse::<usize>().ok().filter(|number| is_number && (1..=count).contains(number));
        if let Some(number) = number {
            return Ok(number - 1);
        }
        let is_named = |index: &usize| self.source.name(*index).is_some_and(|name| is_name(name, word.as_bytes()));
        let named: Vec<usize> = (0..count).filter(is_named).collect();
        match named.as_slice() {
            [index] => Ok(*index),
            [first, second, ..] => Err(Failure(format!(
                "{} is the name of several functions, as of {} and {}: give the NUMBER of one",
                told(word.as_bytes()),
                first + 1,
                second + 1
            ))),
            [] if count == 0 => Err(Failure("it defines no function".into())),
            [] if self.source.is_known() => Err(Failure(format!(
                "{} is no function in it: give a NUMBER from 1 to {count}, or a NAME as they are listed without one",
                told(word.as_bytes())
            ))),
            [] => Err(Failure(format!(
                "{} is no number of a function in it, which are 1 to {count}, and it has no names: for a NAME compile it by \
                 ocamlc -g -c too, and give that file by --names",
                told(word.as_bytes())
            ))),
        }
    }

    /// Writes the files of a function, and says what was done or every fault.
    fn write(&self, filling: &Filling, stem: &str, word: &str) -> Result<String, Failure> {
        let index = self.chosen(word)?;
        let lines = self.source.lines(index);
        let written = match self.routine(index, &lines, self.wanted)? {
            Ok(written) => written,
            Err(faults) => return Err(self.refused(word, &lines, &faults)),
        };
        let is_plain = |byte: u8| byte.is_ascii_alphanumeric() || byte == b'_';
        let last = word.rsplit('.').next().unwrap_or(word);
        let name = if last.bytes().all(is_plain) { last.to_string() } else { (index + 1).to_string() };
        let name = format!("{stem}-{name}");
        let file = filling.fill(&format!("{name}.txt"), &written.file)?;
        let routine = written.routine.numbered_as_in(&written.lines, &file);
        let names = files::write(&routine, &file, filling.cells.is_none(), &name)?;
        said(&written.notes, &lines).iter().for_each(|line| output::say(line));
        Ok(names)
    }

    /// Says the faults, one a line.
    fn refused(&self, word: &str, lines: &Lines, faults: &[Found]) -> Failure {
        for (at, fault) in faults {
            output::say(&format!("{}: {fault}", lines.place(*at)));
        }
        let count = match faults.len() {
            1 => "1 fault".to_string(),
            count => format!("{count} faults"),
        };
        let more = match self.source.is_known() {
            true => "",
            false => "; for lines of the source compile it by ocamlc -g -c too, and give that file by --names",
        };
        Failure(format!("function {} has {count}, and nothing is written{more}", told(word.as_bytes())))
    }
}

/// Whether a word is a name, or what stands behind the unit's name in it.
fn is_name(name: &[u8], word: &[u8]) -> bool {
    let behind = name.iter().position(|byte| *byte == b'.').map(|dot| &name[dot + 1..]);
    name == word || behind == Some(word)
}

/// What was done, in the order of the source, the same on the same line once.
fn said(notes: &[Note], lines: &Lines) -> Vec<String> {
    let mut notes = notes.to_vec();
    notes.sort();
    let mut said: Vec<(String, usize)> = Vec::new();
    for (at, done) in &notes {
        let name = match done {
            Done::Kept(place, _) => {
                lines.kept(*at, *place).map_or(String::new(), |name| format!("`{}`, ", told(&name)))
            }
            _ => String::new(),
        };
        let line = format!("{}: {name}{done}", lines.place(*at));
        match said.iter_mut().find(|(other, _)| *other == line) {
            Some((_, count)) => *count += 1,
            None => said.push((line, 1)),
        }
    }
    let told = |(line, count): (String, usize)| if count > 1 { format!("{line}, {count} times") } else { line };
    said.into_iter().map(told).collect()
}

/// The lines that the proved import makes of the words.
fn imported(routine: &Routine) -> Result<String, Failure> {
    match library::import(&routine.words, routine.primitives.as_bytes()) {
        Answer::Report(lines) => String::from_utf8(lines).map_err(|_| Failure("the import's lines are no text".into())),
        Answer::Refused { number, place } => {
            Err(Failure(format!("the import refuses the words: REFUSED {number} {place}")))
        }
    }
}

/// What is printed.
fn extract(given: &Given, file: &str, word: Option<&String>) -> Result<String, Failure> {
    let unit_of_file = unit(file)?;
    let code = Code::read(&unit_of_file).map_err(of_file(file))?;
    let compiled = Compiled { code: &code, functions: &code.functions().map_err(of_file(file))? };
    let names_of = given.value("--names").map(|names| unit(names).map(|unit| (names, unit))).transpose()?;
    let names_code = match &names_of {
        Some((names, unit)) => Some((*names, Code::read(unit).map_err(of_file(names))?)),
        None => None,
    };
    let names = match &names_code {
        Some((names, code)) => Some((*names, code, code.functions().map_err(of_file(names))?)),
        None => None,
    };
    let other = names.as_ref().map(|(_, code, functions)| Compiled { code, functions });
    let source = match (&other, &names) {
        (Some(other), Some((names, ..))) => Source::with_names(&compiled, other).map_err(of_file(names))?,
        _ => Source::of(&compiled),
    };
    let wanted = Wanted { lowers: given.has("--lower") || given.has("--unroll"), unrolls: given.has("--unroll") };
    let extraction = Extraction { compiled: &compiled, source, kept: Kept::of(&code), wanted };
    let stem = Path::new(file).file_stem().map(|stem| stem.to_string_lossy().to_string()).unwrap_or_default();
    let filling = Filling::read(given.value("--card"), given.value("--cells"))?;
    match word {
        None => extraction.listing(),
        Some(word) => extraction.write(&filling, &stem, word),
    }
    .map_err(of_file(file))
}

pub fn command(arguments: &[String]) -> Result<u8, Failure> {
    let given = arguments::read("extract", arguments, &OPTIONS)?;
    let (file, word) = match given.words.as_slice() {
        [file] => (file, None),
        [file, word] => (file, Some(word)),
        _ => return Err(wrong_call("extract", "give FILE.cmo and at most one NUMBER or NAME")),
    };
    let text = extract(&given, file, word)?;
    output::print(text.as_bytes()).map_err(of_file(file))?;
    Ok(0)
}
