//! What is compared of an import and of an export.
use crate::compare::{compare, differs, program, shown};
use independent::analyser;
use independent::compiled;
use independent::draft::Draft;
use independent::machine::Cell;
use independent::random::Random;
use independent::report::{told, Answer, MEMORY as REPORT_MEMORY};
use independent::routine::{line, read, Refusal};
use independent::run::run;
use independent::word_draft::{completed, priced, Import};
use independent::words::{export_answer, import_answer, primitives_line, MEMORY};
use std::ffi::OsStr;
use std::os::unix::ffi::OsStrExt;
use std::path::Path;

/// The most memory lent.
const LENT: usize = MEMORY + 100;

/// Compares a function with enough memory and with too little; gives the answer wanted.
pub fn compare_lent(
    random: &mut Random,
    call: &dyn Fn(&mut [u8]) -> u64,
    own: &dyn Fn(usize) -> Answer,
) -> Result<Answer, String> {
    let wanted = own(LENT);
    let pattern = random.next() as u8;
    let enough = if random.one_in(2) { MEMORY } else { random.within(MEMORY, LENT) };
    let short = if random.one_in(2) { MEMORY - 1 } else { random.below(MEMORY) };
    let found = differs(call, LENT, enough, pattern, &wanted)
        .or_else(|| differs(call, LENT, short, pattern, &own(short)))
        .map(|what| format!("{what}\nwanted: {}", shown(&wanted)));
    found.map_or(Ok(wanted), Err)
}

/// Compares the import of words; gives the answer wanted.
pub fn compare_import(random: &mut Random, import: &Import) -> Result<Answer, String> {
    let (words, primitives) = (import.words.clone(), import.primitives.clone());
    let call = |memory: &mut [u8]| analyser::import(&words, &primitives, memory);
    let own = |lent| import_answer(&import.words, &import.primitives, lent);
    let found = compare_lent(random, &call, &own).map_err(|what| format!("{}: {what}", described(import)))?;
    if words != import.words || primitives != import.primitives {
        return Err(format!("{}: what is read was written", described(import)));
    }
    Ok(found)
}

/// Compares the export of a text; gives the answer wanted.
pub fn compare_export(random: &mut Random, text: &[u8]) -> Result<Answer, String> {
    let copy = text.to_vec();
    let call = |memory: &mut [u8]| analyser::export(&copy, memory);
    let found =
        compare_lent(random, &call, &|lent| export_answer(text, lent)).map_err(|what| format!("export {what}"))?;
    if copy != text {
        return Err("export wrote the text".to_string());
    }
    Ok(found)
}

fn refusal(refusal: &Refusal) -> String {
    format!("refused by {} at {}", refusal.number, refusal.place)
}

/// An import as it is shown.
fn described(import: &Import) -> String {
    let words: Vec<String> = import
        .words
        .chunks(4)
        .map(|word| word.try_into().map_or(format!("{word:?}"), |word| i32::from_le_bytes(word).to_string()))
        .collect();
    format!("import of the words {} with the primitives \"{}\"", words.join(" "), import.primitives.escape_ascii())
}

/// The import of words. A file made of its lines has the same bound and run on both sides, and gives the words back where it passes.
/// Gives the answer wanted, and whether the words came back.
pub fn imported(random: &mut Random, import: &Import) -> Result<(Answer, bool), String> {
    let answer = compare_import(random, import)?;
    let Ok(lines) = &answer else {
        return Ok((answer, false));
    };
    let file = completed(random, &primitives_line(&import.primitives).unwrap(), lines);
    let back = compare(random, &file)
        .and_then(|_| compare_export(random, &file))
        .map_err(|what| format!("of a file with the lines of the {}: {what}", described(import)))?;
    if back.as_ref().is_ok_and(|words| *words != import.words) {
        return Err(format!("import, then export: other words than those of the {}", described(import)));
    }
    Ok((answer, back.is_ok()))
}

/// A text that passes in three parts: up to the code, `AT OP ARG` with the lines of code, and what follows.
fn parts(text: &[u8]) -> [&[u8]; 3] {
    let lines: Vec<&[u8]> = text.split_inclusive(|b| *b == b'\n').collect();
    let answers = lines[line::CODE..].iter().position(|l| *l == b"ANSWER\n").map_or(lines.len(), |n| n + line::CODE);
    let length = |lines: &[&[u8]]| lines.iter().map(|l| l.len()).sum();
    let (head, rest) = text.split_at(length(&lines[..line::CODE_NAMES - 1]));
    let (code, answers) = rest.split_at(length(&lines[line::CODE_NAMES - 1..answers]));
    [head, code, answers]
}

/// A refusal at an address, where the code begins at 0 and not at `first`.
fn lowered(answer: &Answer, first: u32) -> Answer {
    answer.clone().map_err(|r| match r.number {
        7..=9 => Refusal { place: r.place - first, ..r },
        _ => r,
    })
}

/// The export of a file, and the import of its words: the file's own lines where it begins at 0, and otherwise a file with the same
/// bound. Gives the answer wanted of the export.
pub fn exported(random: &mut Random, text: &[u8], bound: &Answer) -> Result<Answer, String> {
    let answer = compare_export(random, text)?;
    let Ok(words) = &answer else {
        return Ok(answer);
    };
    let mut primitives = text.split_inclusive(|b| *b == b'\n').nth(line::PRIMITIVES - 1).unwrap().to_vec();
    if random.one_in(2) {
        primitives.pop();
    }
    let import = Import { words: words.clone(), primitives };
    let lines =
        compare_import(random, &import)?.map_err(|r| format!("the {} is {}", described(&import), refusal(&r)))?;
    let [head, code, answers] = parts(text);
    let first = read(text, false).unwrap().first;
    if first == 0 && lines != code {
        return Err("export, then import: other lines than the file's".to_string());
    }
    let mut memory = [0; REPORT_MEMORY];
    let wanted = lowered(bound, first);
    let number = analyser::bound(&[head, &lines, answers].concat(), &mut memory);
    if number != told(&wanted) || wanted.is_ok_and(|report| !memory.starts_with(&report)) {
        return Err("export, then import, then bound: not the bound of the file".to_string());
    }
    Ok(answer)
}

/// The bytes of the longest primitives line that is not refused.
const LINE: usize = 32 * 9;

/// What the program prints for an import. A line longer than any that passes, or with a zero byte, is no argument for it.
pub fn import_by_program(programs: &Path, import: &Import, answer: &Answer) -> Result<(), String> {
    if import.primitives.len() > LINE || import.primitives.contains(&0) {
        return Ok(());
    }
    let file = std::env::temp_dir().join(format!("tickbound-words-{}", std::process::id()));
    std::fs::write(&file, &import.words).map_err(|e| format!("{}: {e}", file.display()))?;
    let arguments = [file.as_os_str(), OsStr::from_bytes(&import.primitives)];
    let found = program(&programs.join("import"), &arguments, &[], answer);
    let _ = std::fs::remove_file(&file);
    found.map_err(|what| format!("{}: {what}", described(import)))
}

pub fn export_by_program(programs: &Path, text: &[u8], answer: &Answer) -> Result<(), String> {
    program(&programs.join("export"), &[], text, answer)
}

/// The routine file of a run of a compiled function, or that of its bound: any numbers in its arguments and fields.
fn file_of(draft: &mut Draft, lines: &[u8], run: &compiled::Run, unknown: bool) -> Vec<u8> {
    let cells = |text: &str| -> Vec<String> {
        text.split_whitespace()
            .map(|cell| if unknown && !cell.starts_with('#') { "?" } else { cell }.to_string())
            .collect()
    };
    draft.cells = cells(&format!("0 {}", run.arguments));
    draft.blocks = if run.fields.is_empty() { Vec::new() } else { vec![cells(run.fields)] };
    draft.answers = if unknown { Vec::new() } else { run.answers.to_vec() };
    draft.with_code(std::str::from_utf8(lines).unwrap()).into_bytes()
}

/// Whether a run of a compiled function ends as its source says, on the independent side.
fn ends_as_it_must(file: &[u8], wanted: &compiled::Run) -> Result<(), String> {
    let end = read(file, true).and_then(|routine| run(&routine)).map_err(|r| refusal(&r))?;
    let fields = wanted.fields_after.split_whitespace().map(|n| Cell::number(n.parse().unwrap())).collect::<Vec<_>>();
    if end.state.accumulator == Cell::number(wanted.result) && end.state.fields.starts_with(&fields) {
        return Ok(());
    }
    Err(format!("with {} it ends with {:?} and other fields", wanted.arguments, end.state.accumulator))
}

/// A function compiled by OCaml: imported, bounded and run.
pub fn compiled(programs: &Path, random: &mut Random, function: &compiled::Function) -> Result<(), String> {
    let import = function.import();
    let answer = compare_import(random, &import)?;
    import_by_program(programs, &import, &answer)?;
    let lines = answer.map_err(|r| refusal(&r))?;
    let mut draft = priced(random, &primitives_line(&import.primitives).unwrap());
    for run in &function.runs {
        let file = file_of(&mut draft, &lines, run, true);
        let bound = compare(random, &file)?.bound;
        bound.as_ref().map_err(refusal)?;
        if exported(random, &file, &bound)?.as_ref() != Ok(&import.words) {
            return Err("its file does not give its words back".to_string());
        }
        let file = file_of(&mut draft, &lines, run, false);
        compare(random, &file)?.run.map_err(|r| refusal(&r))?;
        ends_as_it_must(&file, run)?;
    }
    Ok(())
}
