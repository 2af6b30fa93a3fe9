//! Lowered functions held against OCaml's own machine. Functions as authors write them are compiled, `tickbound extract --unroll` lowers
//! them, and the lowered bodies are put into the linked program in the place of those that were compiled. Both programs make the same
//! calls with the same answers: what each call says, the primitives with their arguments in their order, the result and the fields, must
//! be the same. The steps of the lowered ones, as `ocamlrund -t` prints them, are held against the routine file (`hold`).
use crate::lowered_machine::{compile, link, put_in, said, steps, Call, Lowered};
use crate::machine_traces::Step;
use crate::{filled, hold, tickbound, trace_text, want, Files, Folder, Prices, Start, Tally, RUNS};
use independent::machine::{Cell, Instruction};
use independent::natural::{unit, Function, Type, Unit};
use independent::random::Random;
use independent::routine;
use independent::run::Run;
use std::collections::BTreeSet;
use std::fs;
use std::ops::Range;
use std::path::{Path, PathBuf};

/// The stored functions: where they are, the seed that they are made from, and how many there are.
pub const STORE: &str = "tests/lowered";
pub const SEED: u64 = 39;
pub const COUNT: usize = 20;

/// The files that `extract` writes of a function.
struct Extracted {
    words: Vec<u8>,
    primitives: String,
    text: String,
}

fn extracted(root: &Path, object: &Path, number: usize) -> Result<Extracted, String> {
    let folder = Folder::new("lowered");
    let name = format!("{}-{number}", object.file_stem().unwrap().to_string_lossy());
    let names = ["words", "primitives", "txt", "cells"].map(|ending| format!("{name}.{ending}"));
    let found = tickbound(root, &folder.0, &["extract", "--unroll", object.to_str().unwrap(), &number.to_string()]);
    want("extract --unroll", found, 0, &names.join("\n"))?;
    let read = |name: &str| fs::read(folder.0.join(name)).map_err(|error| format!("{name}: {error}"));
    let text = |name: &str| read(name).map(|bytes| String::from_utf8_lossy(&bytes).to_string());
    Ok(Extracted { words: read(&names[0])?, primitives: text(&names[1])?, text: text(&names[2])? })
}

fn start(random: &mut Random, unit: &Unit, arguments: &[Type]) -> Start {
    let number = |random: &mut Random| match random.below(3) {
        0 => random.below(2000) as i64 - 1000,
        _ => random.below(9) as i64 - 3,
    };
    let argument = |random: &mut Random, argument: &Type| match argument {
        Type::Int => number(random),
        Type::Bool => random.below(2) as i64,
        Type::Choice => random.below(unit.constructors) as i64,
        Type::Record => 0,
    };
    Start {
        arguments: arguments.iter().map(|of| argument(random, of)).collect(),
        fields: (0..unit.fields).map(|_| number(random)).collect(),
        answers: (0..random.below(12)).map(|_| number(random)).collect(),
    }
}

fn records(function: &Function) -> Vec<bool> {
    function.arguments.iter().map(|argument| *argument == Type::Record).collect()
}

/// What a run of the routine file says on the independent machine, in the words of the program in C.
fn says(text: &str) -> Result<String, String> {
    let routine = routine::read(text.as_bytes(), true).map_err(|refusal| format!("{refusal:?} of\n{text}"))?;
    let code: Vec<&str> = text.lines().skip(14).collect();
    let number = |cell: Cell| match cell {
        Cell::Number(number) => number.number().to_string(),
        _ => "?".into(),
    };
    let mut run = Run::new(routine.start.clone(), &routine.answers);
    let mut said = String::new();
    while !run.stopped {
        let at = run.state.at as usize;
        if let Some(Instruction::Call(popped)) = routine.code.get(at).map(|line| line.instruction) {
            let entries = (0..popped).map(|entry| run.state.stack[run.state.height - 1 - entry]);
            let arguments: Vec<String> = std::iter::once(run.state.accumulator).chain(entries).map(number).collect();
            let name = code[at].rsplit(' ').next().unwrap_or("");
            said += &format!("CALL {name} {}\n", arguments.join(" "));
        }
        run.step(&routine).ok_or_else(|| format!("stuck at {at} of\n{text}"))?;
    }
    said += &format!("RESULT {}\n", number(run.state.accumulator));
    for field in 0..usize::from(run.state.sizes[0]) {
        said += &format!("FIELD {}\n", number(run.state.fields[field]));
    }
    Ok(said)
}

fn same(what: &str, found: &str, wanted: &str) -> Result<(), String> {
    match found == wanted {
        true => Ok(()),
        false => Err(format!("{what} says\n{found}and not, as the compiled function,\n{wanted}")),
    }
}

fn units(random: &mut Random, count: usize) -> Vec<Unit> {
    let mut units: Vec<Unit> = Vec::new();
    let mut left = count;
    while left > 0 {
        let unit = unit(random, format!("u{:02}", units.len() + 1), left);
        left -= unit.functions.len();
        units.push(unit);
    }
    units
}

/// The functions of the units, lowered: by the rows of the list, which go by the addresses, the last function of the source first unless
/// they are defined together.
fn lower(
    root: &Path,
    folder: &Path,
    units: &[Unit],
    tally: &mut Tally,
) -> Result<Vec<(Lowered, Extracted, usize)>, String> {
    let mut lowered = Vec::new();
    for (index, unit) in units.iter().enumerate() {
        let object = folder.join(&unit.name).with_extension("cmo");
        let (_, listing) = tickbound(root, folder, &["extract", "--unroll", object.to_str().unwrap()]);
        let mut rows: Vec<Vec<&str>> = listing.lines().skip(1).map(|line| line.split(' ').collect()).collect();
        if !unit.together {
            rows.reverse();
        }
        if rows.len() != unit.functions.len() {
            return Err(format!("{} functions are listed, not {}", rows.len(), unit.functions.len()));
        }
        for (row, function) in rows.iter().zip(&unit.functions) {
            let arguments = function.arguments.len();
            let [number, address] = [row[0], row[2]].map(|word| word.parse().unwrap_or(0));
            tally.kinds.entry(row[6].to_string()).and_modify(|count| *count += 1).or_insert(1);
            if row[4] != arguments.to_string() || !["yes", "lowered"].contains(&row[6]) {
                return Err(format!("{row:?} of {}\n{}", function.name, unit.text));
            }
            let made = extracted(root, &object, number).map_err(|what| format!("{what} of\n{}", unit.text))?;
            let (words, primitives) = (made.words.clone(), made.primitives.clone());
            lowered.push((Lowered { unit: index, address, arguments, words, primitives }, made, number));
        }
    }
    Ok(lowered)
}

/// What the two programs say of each call, and the steps of the lowered functions.
struct Outcome {
    wanted: Vec<String>,
    found: Vec<String>,
    steps: Vec<Vec<Step>>,
}

/// Both programs on all calls.
fn outcome(folder: &Path, units: &[Unit], calls: &[Call], lowered: &[Lowered]) -> Result<Outcome, String> {
    let places = put_in(folder, units, lowered)?;
    let [wanted, found] = [said(folder, "program")?, said(folder, "lowered")?];
    let steps = steps(folder, &places)?;
    match [wanted.len(), found.len(), steps.len()] == [calls.len(); 3] {
        true => Ok(Outcome { wanted, found, steps }),
        false => Err(format!("{} and {} calls were made, not {}", wanted.len(), found.len(), calls.len())),
    }
}

/// Functions from a seed: compiled, lowered, run on both programs, and handed on to be stored.
pub fn made(root: &Path, tally: &mut Tally, seed: u64, count: usize) -> Result<Files, String> {
    let mut random = Random::new(seed);
    let units = units(&mut random, count);
    let mut calls: Vec<Call> = Vec::new();
    for (n, unit) in units.iter().enumerate() {
        for (f, function) in unit.functions.iter().enumerate() {
            calls.extend((0..RUNS).map(|_| (n, f, start(&mut random, unit, &function.arguments))));
        }
    }
    let folder = Folder::new("natural");
    compile(&folder.0, &units)?;
    link(&folder.0, &units, &calls)?;
    let functions = lower(root, &folder.0, &units, tally)?;
    let (lowered, made): (Vec<Lowered>, Vec<(Extracted, usize)>) =
        functions.into_iter().map(|(lowered, made, number)| (lowered, (made, number))).unzip();
    let outcome = outcome(&folder.0, &units, &calls, &lowered)?;
    let mut files = Files::new();
    for unit in &units {
        let object = fs::read(folder.0.join(&unit.name).with_extension("cmo")).unwrap();
        files.insert(format!("{}.ml", unit.name), unit.text.clone().into_bytes());
        files.insert(format!("{}.cmo", unit.name), object);
    }
    let each = units.iter().flat_map(|unit| unit.functions.iter().map(move |function| (unit, function)));
    for (n, ((unit, function), (made, number))) in each.zip(&made).enumerate() {
        let runs = runs(&Prices::new(&mut random), function, made, (&calls, &outcome), n * RUNS..(n + 1) * RUNS);
        let name = format!("{}-{number}", unit.name);
        files.insert(format!("{name}.txt"), runs[0].0.clone().into_bytes());
        files.insert(format!("{name}.trace"), trace_text(&runs[0].1).into_bytes());
        files.insert(format!("{name}.says"), runs[0].2[0].clone().into_bytes());
        let steps = outcome.steps[n * RUNS..(n + 1) * RUNS].iter().flatten();
        tally.made.extend(steps.map(|step| step.kind.clone()));
        tally.written.extend(made.text.lines().nth(2).unwrap().split(' ').map(str::to_string));
        let found = held(root, tally, &made.text, &runs);
        tally.count(&name, found.map_err(|what| format!("{what}\nin {}\n{}", function.name, unit.text)));
    }
    Ok(files)
}

/// The runs of a function that some of the calls are.
fn runs<'a>(
    prices: &Prices,
    function: &Function,
    made: &Extracted,
    (calls, outcome): (&[Call], &'a Outcome),
    which: Range<usize>,
) -> Vec<Made<'a>> {
    let run = |call: usize| {
        let text = filled(&made.text, prices, &records(function), &calls[call].2);
        let trace = outcome.steps[call].iter().map(|step| (step.at, prices.cycles(step))).collect();
        (text, trace, [&outcome.wanted[call], &outcome.found[call]])
    };
    which.map(run).collect()
}

/// A run: the routine file of its start, the trace of the lowered function, and what the compiled and the lowered function say.
type Made<'a> = (String, Vec<(usize, u64)>, [&'a String; 2]);

fn held(root: &Path, tally: &mut Tally, text: &str, runs: &[Made]) -> Result<(), String> {
    for (known, _, [wanted, found]) in runs {
        same("the lowered function", found, wanted)?;
        same("the routine file on the independent machine", &says(known)?, wanted)?;
    }
    let traced: Vec<(String, Vec<(usize, u64)>)> =
        runs.iter().map(|(known, trace, _)| (known.clone(), trace.clone())).collect();
    hold(root, tally, text, &traced)
}

/// The stored functions, without OCaml: lowered again, run on the independent machine, and held against what OCaml's said.
pub fn stored(root: &Path, tally: &mut Tally, store: &Path) {
    let entries = fs::read_dir(store).map(|entries| entries.map(|entry| entry.unwrap().path()).collect::<Vec<_>>());
    let entries = entries.unwrap_or_default().into_iter();
    let traces: BTreeSet<PathBuf> = entries.filter(|path| path.extension().is_some_and(|e| e == "trace")).collect();
    for path in &traces {
        let name = path.file_stem().unwrap().to_string_lossy().to_string();
        let found = (|| {
            let (unit, number) = name.split_once('-').ok_or("no number in the name")?;
            let number = number.parse().map_err(|_| "no number in the name")?;
            let made = extracted(root, &store.join(unit).with_extension("cmo"), number)?;
            let read = |ending: &str| {
                fs::read_to_string(path.with_extension(ending)).map_err(|error| format!("{name}.{ending}: {error}"))
            };
            let (known, said) = (read("txt")?, read("says")?);
            let trace = crate::trace_of(&read("trace")?).ok_or("no trace")?;
            held(root, tally, &made.text, &[(known, trace, [&said, &said])])
        })();
        tally.count(&format!("lowered {name}"), found);
    }
    let all = if traces.len() == COUNT { Ok(()) } else { Err(format!("{} are stored", traces.len())) };
    tally.count("the stored lowered functions", all);
}
