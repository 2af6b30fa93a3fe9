//! `tickbound extract` held against OCaml's own machine. Functions from a seed are compiled by `ocamlc`, linked, and run by
//! `ocamlrund -t`, which prints each instruction that it makes. Of that a trace is made, with addresses as the routine counts them and
//! the price of each step, and `tickbound replay` holds it against the extracted routine; `tickbound run` must end with the same cycles
//! and steps, and `tickbound bound` and `merge` with all arguments unknown must not be below.
//!
//! extracts ROOT: the stored functions, by their object files, routine files and traces; where OCaml 4.13 is installed, the same made
//! again from their seed; and object files that are damaged.
//! extracts ROOT SEED COUNT: functions from another seed.
//! extracts ROOT store: stores the functions.
//! extracts ROOT lowered [SEED COUNT | store]: the same of lowered functions alone (`lowered.rs`); `extracts ROOT` has them too.
//! The last line is `N passed, M failed`; the exit status is 0 only if nothing failed.
mod bytecode;
mod damaged_objects;
mod lowered;
mod lowered_machine;
mod machine_traces;

use damaged_objects::damaged;
use independent::functions::{unit, Function, Type, Unit};
use independent::random::Random;
use independent::routine::KINDS;
use machine_traces::{machine, Step, Trace};
use std::collections::{BTreeMap, BTreeSet};
use std::fs;
use std::path::{Path, PathBuf};
use std::process::Command;

/// The stored functions: where they are, the seed that they are made from, and how many there are.
const STORE: &str = "tests/extracted";
const SEED: u64 = 34;
const COUNT: usize = 20;
/// Object files that are damaged, without and with names.
const OBJECTS: [&str; 5] = [
    "examples/ocaml/panel.cmo",
    "examples/ocaml/smear.cmo",
    "examples/ocaml/inputs.cmo",
    "examples/ocaml/holdover.cmo",
    "tests/outside/outside.cmo",
];
/// How often a function is run.
pub const RUNS: usize = 3;

/// A folder for the time of a test.
pub struct Folder(pub PathBuf);

impl Folder {
    pub fn new(name: &str) -> Folder {
        let path = std::env::temp_dir().join(format!("tickbound-{name}-{}", std::process::id()));
        fs::create_dir_all(&path).unwrap();
        Folder(path)
    }
}

impl Drop for Folder {
    fn drop(&mut self) {
        let _ = fs::remove_dir_all(&self.0);
    }
}

/// What a start has for each argument, and what the primitives answer.
pub struct Start {
    pub arguments: Vec<i64>,
    pub fields: Vec<i64>,
    pub answers: Vec<i64>,
}

pub struct Prices {
    /// cycles, words and extra cycles of a jump
    kinds: BTreeMap<String, [u64; 3]>,
    primitives: BTreeMap<String, [u64; 2]>,
}

impl Prices {
    pub fn new(random: &mut Random) -> Prices {
        let mut kinds = BTreeMap::new();
        for (kind, _) in KINDS {
            let extra = if ["BRANCHIF", "BRANCHIFNOT"].contains(&kind) { random.below(20) } else { 0 };
            kinds.insert(kind.to_string(), [random.below(60), random.below(3), extra].map(|n| n as u64));
        }
        let price = |random: &mut Random| [random.below(900), random.below(20)].map(|n| n as u64);
        let names = independent::functions::PRIMITIVES.iter();
        Prices { kinds, primitives: names.map(|(name, _)| (name.to_string(), price(random))).collect() }
    }

    pub fn cycles(&self, step: &Step) -> u64 {
        let [cycles, _, extra] = self.kinds[&step.kind];
        cycles
            + if step.jumped { extra } else { 0 }
            + step.primitive.as_ref().map_or(0, |name| self.primitives[name][0])
    }
}

#[derive(Default)]
pub struct Tally {
    passed: u64,
    failed: u64,
    functions: u64,
    runs: u64,
    steps: u64,
    pub made: BTreeSet<String>,
    pub written: BTreeSet<String>,
    /// how often each word stands under KINDS
    pub kinds: BTreeMap<String, u64>,
    /// accepted by the bound, refused by it for its size, accepted by the merging bound
    bounds: [u64; 3],
    /// where the largest run costs exactly what the bound says
    reached: u64,
}

impl Tally {
    pub fn count(&mut self, name: &str, found: Result<(), String>) {
        match found {
            Ok(()) => self.passed += 1,
            Err(what) => {
                self.failed += 1;
                println!("extracts: {name}: {what}");
            }
        }
    }

    fn tell(&self) {
        let [accepted, large, merged] = self.bounds;
        println!("extracts: {} functions, {} runs of {} steps", self.functions, self.runs, self.steps);
        println!(
            "extracts: bound: {accepted} accepted, {} reached by a run, {large} too large; merge: {merged} accepted",
            self.reached
        );
        if !self.kinds.is_empty() {
            println!("extracts: lowered: KINDS {:?}", self.kinds);
        }
        if !self.written.is_empty() {
            let missing: Vec<&str> =
                KINDS.iter().map(|kind| kind.0).filter(|kind| !self.made.contains(*kind)).collect();
            println!("extracts: {} kinds in the code, {} made, not {missing:?}", self.written.len(), self.made.len());
        }
        println!("{} passed, {} failed", self.passed, self.failed);
    }
}

/// What `tickbound` prints, without the last line feed, and its status. What it says on standard error is shown where it fails.
pub fn tickbound(root: &Path, folder: &Path, arguments: &[&str]) -> (i32, String) {
    let command = root.join("target/cli/release/tickbound");
    let output = Command::new(command).args(arguments).current_dir(folder).output().unwrap();
    if !output.status.success() {
        print!("{}", String::from_utf8_lossy(&output.stderr));
    }
    (output.status.code().unwrap_or(-1), String::from_utf8_lossy(&output.stdout).trim_end().to_string())
}

pub fn want(what: &str, found: (i32, String), status: i32, text: &str) -> Result<(), String> {
    match found == (status, text.to_string()) {
        true => Ok(()),
        false => Err(format!("{what}: status {}, printed {:?}, not status {status} and {text:?}", found.0, found.1)),
    }
}

/// The figures that are printed under their names.
fn figures(text: &str) -> Option<Vec<u64>> {
    let line = text.strip_prefix("CYCLES ")?.lines().nth(1)?;
    line.split(' ').take(4).map(|word| word.parse().ok()).collect()
}

pub fn trace_text(trace: &[(usize, u64)]) -> String {
    let lines = trace.iter().map(|(at, cycles)| format!("{at} {cycles}\n"));
    format!("AT CYCLES\n{}", lines.collect::<String>())
}

/// The steps of a trace.
pub fn trace_of(text: &str) -> Option<Vec<(usize, u64)>> {
    let step = |line: &str| {
        let (at, cycles) = line.split_once(' ')?;
        Some((at.parse().ok()?, cycles.parse().ok()?))
    };
    text.lines().skip(1).map(step).collect()
}

/// The routine file with the numbers of its stack and its fields unknown.
fn unknown(text: &str) -> String {
    let line = |(index, line): (usize, &str)| {
        let cell = |(n, word): (usize, &str)| match word.starts_with('#') || word == "-" || (index == 10 && n == 0) {
            true => word.to_string(),
            false => "?".into(),
        };
        match index {
            10 | 12 => line.split(' ').enumerate().map(cell).collect::<Vec<_>>().join(" ") + "\n",
            _ => line.to_string() + "\n",
        }
    };
    text.lines().enumerate().map(line).collect()
}

/// The lines of a routine file that are not for the integrator to fill in.
fn fixed(text: &str) -> Vec<&str> {
    let lines: Vec<&str> = text.lines().take_while(|line| *line != "ANSWER").collect();
    [2, 6, 9].iter().map(|index| lines[*index]).chain(lines[13..].iter().copied()).collect()
}

/// The routine file that `extract` writes for a function, with what `import` makes of the words beside it.
fn extracted(root: &Path, object: &Path, number: usize) -> Result<String, String> {
    let folder = Folder::new("extracted");
    let name = format!("{}-{number}", object.file_stem().unwrap().to_string_lossy());
    let names = ["words", "primitives", "txt", "cells"].map(|ending| format!("{name}.{ending}"));
    let path = object.to_str().unwrap();
    let found = tickbound(root, &folder.0, &["extract", path, &number.to_string()]);
    want("extract", found, 0, &names.join("\n"))?;
    let read = |name: &str| fs::read_to_string(folder.0.join(name)).map_err(|error| format!("{name}: {error}"));
    let [primitives, text] = [read(&names[1])?, read(&names[2])?];
    let code = &text[text.find("AT OP ARG\n").ok_or("no code")?..];
    want("import", tickbound(root, &folder.0, &["import", &names[0], primitives.trim_end()]), 0, code.trim_end())?;
    Ok(text)
}

/// Holds traces of the machine, and the routine files of their starts, against the extracted routine.
pub fn hold(root: &Path, tally: &mut Tally, text: &str, runs: &[(String, Vec<(usize, u64)>)]) -> Result<(), String> {
    let folder = Folder::new("held");
    let mut most = [0, 0];
    for (known, trace) in runs {
        if fixed(known) != fixed(text) {
            return Err(format!("the extracted routine is another:\n{text}not that of\n{known}"));
        }
        let run = hold_run(root, &folder.0, known, trace)?;
        most = [most[0].max(run[0]), most[1].max(run[1])];
        tally.runs += 1;
        tally.steps += trace.len() as u64;
    }
    fs::write(folder.0.join("unknown"), unknown(&runs[0].0)).unwrap();
    for (n, verb) in ["bound", "merge"].iter().enumerate() {
        let (status, printed) = tickbound(root, &folder.0, &[verb, "unknown"]);
        // a path of more than 32 openings, or more steps than BUDGET
        if *verb == "bound" && status == 1 && (printed.starts_with("REFUSED 8 ") || printed.starts_with("REFUSED 9 ")) {
            tally.bounds[1] += 1;
            continue;
        }
        let bound = figures(&printed).ok_or_else(|| format!("{verb}: {printed} of\n{}", unknown(&runs[0].0)))?;
        if bound[0] < most[0] || bound[1] < most[1] {
            return Err(format!("{verb}: {printed}, and a run has {most:?}"));
        }
        tally.bounds[2 * n] += 1;
        tally.reached += u64::from(n == 0 && bound[0] == most[0]);
    }
    tally.functions += 1;
    Ok(())
}

/// Holds one trace of the machine against the routine file of its start, and hands back the figures of the run.
fn hold_run(root: &Path, folder: &Path, known: &str, trace: &[(usize, u64)]) -> Result<Vec<u64>, String> {
    let write = |name: &str, text: &str| fs::write(folder.join(name), text).unwrap();
    write("known", known);
    write("trace", &trace_text(trace));
    want("replay", tickbound(root, folder, &["replay", "known", "trace"]), 0, "AGREES")?;
    let mut slow = trace.to_vec();
    let line = trace.len() / 2;
    slow[line].1 += 1;
    write("trace", &trace_text(&slow));
    let differs = format!("DIFFERS {}", line + 2);
    want("replay with a cycle more", tickbound(root, folder, &["replay", "known", "trace"]), 3, &differs)?;
    let (_, printed) = tickbound(root, folder, &["run", "known"]);
    let cycles = trace.iter().map(|step| step.1).sum();
    let run = figures(&printed).ok_or_else(|| format!("run: {printed} of\n{known}"))?;
    match [run[0], run[3]] == [cycles, trace.len() as u64] {
        true => Ok(run),
        false => Err(format!("run: {printed}, and the machine spent {cycles} in {} steps", trace.len())),
    }
}

/// The extracted routine file filled in for a start.
pub fn filled(text: &str, prices: &Prices, records: &[bool], start: &Start) -> String {
    let mut lines: Vec<String> = text.lines().map(str::to_string).collect();
    let words = |line: &str| -> Vec<String> { line.split(' ').filter(|w| *w != "-").map(str::to_string).collect() };
    let joined = |list: Vec<String>| if list.is_empty() { "-".into() } else { list.join(" ") };
    lines[1] = "1000000 100000".into();
    let (kinds, primitives) = (words(&lines[2]), words(&lines[6]));
    for n in 0..3 {
        lines[3 + n] = joined(kinds.iter().map(|kind| prices.kinds[kind][n].to_string()).collect());
    }
    for n in 0..2 {
        lines[7 + n] = joined(primitives.iter().map(|name| prices.primitives[name][n].to_string()).collect());
    }
    let cell = |(is_record, number): (&bool, &i64)| match is_record {
        true => " #0".into(),
        false => format!(" {number}"),
    };
    lines[10] = format!("0{}", records.iter().zip(&start.arguments).map(cell).collect::<String>());
    if records.contains(&true) {
        lines[11] = joined((0..start.fields.len()).map(|n| format!("B0.{n}")).collect());
        lines[12] = joined(start.fields.iter().map(|field| field.to_string()).collect());
    }
    if !start.answers.is_empty() {
        lines.push("ANSWER".into());
        lines.extend(start.answers.iter().map(|answer| answer.to_string()));
    }
    lines.iter().map(|line| format!("{line}\n")).collect()
}

fn start(random: &mut Random, unit: &Unit, arguments: &[Type]) -> Start {
    let number = |random: &mut Random| match random.below(3) {
        0 => random.below(2000) as i64 - 1000,
        _ => random.below(9) as i64 - 3,
    };
    let argument = |random: &mut Random, argument: &Type| match argument {
        Type::Int => number(random),
        Type::Bool => random.below(2) as i64,
        _ => 0,
    };
    Start {
        arguments: arguments.iter().map(|of| argument(random, of)).collect(),
        fields: (0..unit.fields).map(|_| number(random)).collect(),
        answers: (0..random.below(7)).map(|_| number(random)).collect(),
    }
}

/// Functions from a seed. They are held against the extracted routines, and handed on: the name of the unit with its source, its object
/// file, and each function's number with the routine file and the trace of its first start.
pub type Files = BTreeMap<String, Vec<u8>>;

fn made(root: &Path, tally: &mut Tally, seed: u64, count: usize) -> Result<Files, String> {
    let mut random = Random::new(seed);
    let mut units: Vec<Unit> = Vec::new();
    let mut left = count;
    while left > 0 {
        let unit = unit(&mut random, format!("u{:02}", units.len() + 1), left);
        left -= unit.functions.len();
        units.push(unit);
    }
    let mut calls = Vec::new();
    for (n, unit) in units.iter().enumerate() {
        for (f, function) in unit.functions.iter().enumerate() {
            calls.extend((0..RUNS).map(|_| (n, f, start(&mut random, unit, &function.arguments))));
        }
    }
    let folder = Folder::new("machine");
    let traces = machine(&folder.0, &units, &calls)?;
    let mut files = Files::new();
    let mut calls = calls.iter().map(|(_, _, start)| start).zip(&traces);
    for unit in &units {
        let object = folder.0.join(&unit.name).with_extension("cmo");
        files.insert(format!("{}.ml", unit.name), unit.text.clone().into_bytes());
        files.insert(format!("{}.cmo", unit.name), fs::read(&object).unwrap());
        for function in &unit.functions {
            let runs: Vec<(&Start, &Trace)> = calls.by_ref().take(RUNS).collect();
            let prices = Prices::new(&mut random);
            let found = as_it_ran(root, tally, &object, (unit, function), &prices, &runs);
            let found = found.map(|made| files.extend(made)).map_err(|what| format!("{what}\nin\n{}", unit.text));
            tally.count(&format!("{}.{}", unit.name, function.name), found);
        }
    }
    Ok(files)
}

/// The number of the function that begins at an address, and its primitives, in the list of its unit.
fn listed(listing: &str, unit: &Unit, function: &Function, entry: usize) -> Result<(usize, String), String> {
    let rows: Vec<Vec<&str>> = listing.lines().skip(1).map(|line| line.split(' ').collect()).collect();
    let entry = entry.to_string();
    let row = rows.iter().find(|row| row.get(2) == Some(&&*entry));
    let row = row.ok_or_else(|| format!("no function at {entry} in\n{listing}"))?;
    let called = if unit.debug { format!("U{}.{}", &unit.name[1..], function.name) } else { "-".into() };
    if row[1] != called || row[4] != function.arguments.len().to_string() || row[6] != "yes" {
        return Err(format!("{row:?} in\n{listing}"));
    }
    if rows.len() != unit.functions.len() {
        return Err(format!("{} functions are listed, not {}", rows.len(), unit.functions.len()));
    }
    Ok((row[0].parse().map_err(|_| format!("{row:?}"))?, row[5].replace(',', " ")))
}

/// A function held against its runs on the machine, with the files to store.
fn as_it_ran(
    root: &Path,
    tally: &mut Tally,
    object: &Path,
    (unit, function): (&Unit, &Function),
    prices: &Prices,
    runs: &[(&Start, &Trace)],
) -> Result<Files, String> {
    let (_, listing) = tickbound(root, object.parent().unwrap(), &["extract", object.to_str().unwrap()]);
    let (number, primitives) = listed(&listing, unit, function, runs[0].1.entry)?;
    let text = extracted(root, object, number)?;
    if primitives != text.lines().nth(6).unwrap() {
        return Err(format!("the primitives {primitives} are not those of\n{text}"));
    }
    let records: Vec<bool> = function.arguments.iter().map(|of| *of == Type::Record).collect();
    let of_run = |(start, trace): &(&Start, &Trace)| {
        let priced = trace.steps.iter().map(|step| (step.at, prices.cycles(step))).collect();
        (filled(&text, prices, &records, start), priced)
    };
    let held: Vec<(String, Vec<(usize, u64)>)> = runs.iter().map(of_run).collect();
    hold(root, tally, &text, &held)?;
    tally.written.extend(text.lines().nth(2).unwrap().split(' ').map(str::to_string));
    tally.made.extend(runs.iter().flat_map(|(_, trace)| trace.steps.iter().map(|step| step.kind.clone())));
    let mut files = Files::new();
    files.insert(format!("{}-{number}.txt", unit.name), held[0].0.clone().into_bytes());
    files.insert(format!("{}-{number}.trace", unit.name), trace_text(&held[0].1).into_bytes());
    Ok(files)
}

/// The stored routine files and traces, held against what is extracted from the stored object files.
fn stored(root: &Path, tally: &mut Tally, store: &Path) {
    let entries = fs::read_dir(store).unwrap().map(|entry| entry.unwrap().path());
    let traces: BTreeSet<PathBuf> = entries.filter(|path| path.extension().is_some_and(|e| e == "trace")).collect();
    for path in &traces {
        let name = path.file_stem().unwrap().to_string_lossy().to_string();
        let found = (|| {
            let (unit, number) = name.split_once('-').ok_or("no number in the name")?;
            let object = store.join(unit).with_extension("cmo");
            let text = extracted(root, &object, number.parse().map_err(|_| "no number in the name")?)?;
            let read = |path: &Path| fs::read_to_string(path).map_err(|error| format!("{}: {error}", path.display()));
            let run = (read(&path.with_extension("txt"))?, trace_of(&read(path)?).ok_or("no trace")?);
            hold(root, tally, &text, &[run])
        })();
        tally.count(&name, found);
    }
    let all = if tally.functions == COUNT as u64 { Ok(()) } else { Err(format!("{} are stored", tally.functions)) };
    tally.count("the stored functions", all);
}

/// The stored sources, routine files and traces against those made again. Object files hold more than the code, and are not compared.
fn same(tally: &mut Tally, files: &Files, store: &Path) {
    for (name, bytes) in files.iter().filter(|(name, _)| !name.ends_with(".cmo")) {
        let found = match fs::read(store.join(name)) {
            Ok(found) if found == *bytes => Ok(()),
            _ => Err("what is stored is another".into()),
        };
        tally.count(name, found);
    }
}

fn store(files: &Files, store: &Path) {
    let _ = fs::remove_dir_all(store);
    fs::create_dir_all(store).unwrap();
    for (name, bytes) in files {
        fs::write(store.join(name), bytes).unwrap();
    }
}

/// Whether the compiler and the machine that prints its steps are there, of version 4.13.
fn ocaml_is_installed() -> bool {
    ["ocamlc", "ocamlrund"].iter().all(|command| {
        let output = Command::new(command).arg("-version").output();
        output.is_ok_and(|output| String::from_utf8_lossy(&output.stdout).contains("4.13."))
    })
}

/// Lowered functions alone, by what stands behind `lowered`.
fn lowered_alone(root: &Path, tally: &mut Tally, arguments: &[&str]) {
    let place = root.join(lowered::STORE);
    let found = match arguments {
        [] => {
            lowered::stored(root, tally, &place);
            return;
        }
        ["store"] => {
            let files = lowered::made(root, tally, lowered::SEED, lowered::COUNT);
            files.map(|files| store(&files, &place))
        }
        [seed, count] => {
            let (seed, count) = (seed.parse().expect("a seed"), count.parse().expect("a count"));
            lowered::made(root, tally, seed, count).map(|_| ())
        }
        _ => panic!("extracts: no such arguments: {arguments:?}"),
    };
    tally.count("compiled, lowered and run", found);
}

/// The stored functions and the damaged files, and where OCaml is installed the functions made again.
fn all(root: &Path, tally: &mut Tally) {
    let [place, lowered_place] = [STORE, lowered::STORE].map(|store| root.join(store));
    stored(root, tally, &place);
    lowered::stored(root, tally, &lowered_place);
    for (name, found) in damaged(root, &OBJECTS) {
        tally.count(&name, found);
    }
    if !ocaml_is_installed() {
        println!("extracts: OCaml 4.13 is not installed: the stored functions are not compiled and run again");
        return;
    }
    match made(root, tally, SEED, COUNT) {
        Ok(files) => same(tally, &files, &place),
        Err(what) => tally.count("compiled and run", Err(what)),
    }
    match lowered::made(root, tally, lowered::SEED, lowered::COUNT) {
        Ok(files) => same(tally, &files, &lowered_place),
        Err(what) => tally.count("compiled, lowered and run", Err(what)),
    }
}

fn main() {
    let arguments: Vec<String> = std::env::args().skip(1).collect();
    let arguments: Vec<&str> = arguments.iter().map(String::as_str).collect();
    let root = fs::canonicalize(arguments[0]).unwrap();
    let mut tally = Tally::default();
    match arguments[1..] {
        [] => all(&root, &mut tally),
        ["store"] => match made(&root, &mut tally, SEED, COUNT) {
            Ok(files) => store(&files, &root.join(STORE)),
            Err(what) => tally.count("compiled and run", Err(what)),
        },
        ["lowered", ref rest @ ..] => lowered_alone(&root, &mut tally, rest),
        [seed, count] => {
            let (seed, count) = (seed.parse().expect("a seed"), count.parse().expect("a count"));
            let found = made(&root, &mut tally, seed, count).map(|_| ());
            tally.count("compiled and run", found);
        }
        _ => panic!("extracts: no such arguments: {arguments:?}"),
    }
    tally.tell();
    std::process::exit(i32::from(tally.failed > 0));
}
