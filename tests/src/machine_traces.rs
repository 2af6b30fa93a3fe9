//! The traces that OCaml's own machine, `ocamlrund -t`, prints of calls of functions.
use crate::Start;
use independent::functions::{Type, Unit, PRIMITIVES};
use independent::words::OPCODES;
use std::collections::BTreeMap;
use std::fs;
use std::path::Path;
use std::process::{Command, Output};

/// A step of a function, RETURN as STOP.
pub struct Step {
    /// the number of the instruction, from 0 after GRAB
    pub at: usize,
    pub kind: String,
    /// a conditional branch that was taken
    pub jumped: bool,
    pub primitive: Option<String>,
}

pub struct Trace {
    /// where the function is in the code of its unit
    pub entry: usize,
    pub steps: Vec<Step>,
}

const RETURN: i32 = 40;

pub fn run(folder: &Path, command: &str, arguments: &[&str]) -> Result<Output, String> {
    let output = Command::new(command)
        .args(arguments)
        .current_dir(folder)
        // with -g the compiler writes the path of its working folder, which is another each time
        .env("BUILD_PATH_PREFIX_MAP", format!(".={}", folder.display()))
        .output()
        .map_err(|error| format!("{command}: {error}"))?;
    if !output.status.success() {
        return Err(format!("{command} {arguments:?}: {}", String::from_utf8_lossy(&output.stderr)));
    }
    Ok(output)
}

/// The primitives in C: each takes the next answer. A number n of OCaml is 2n + 1.
fn primitives() -> String {
    let mut text = "typedef long value;\nstatic value answers[64];\nstatic int given, taken;\n".to_string();
    text += "static value next(void) { return taken < given ? answers[taken++] : 1; }\n";
    text += "value TEST_GIVE(value answer) { answers[given++] = answer; return 1; }\n";
    text += "value TEST_BEGIN(value unit) { (void)unit; given = taken = 0; return 1; }\n";
    for (name, count) in PRIMITIVES {
        let arguments: Vec<String> = (0..count).map(|n| format!("value a{n}")).collect();
        let unused: String = (0..count).map(|n| format!("(void)a{n}; ")).collect();
        text += &format!("value {name}({}) {{ {unused}return next(); }}\n", arguments.join(", "));
    }
    text
}

/// A program that makes the calls.
fn program(units: &[Unit], calls: &[(usize, usize, Start)]) -> String {
    let mut text =
        "external give : int -> unit = \"TEST_GIVE\"\nexternal begin_ : unit -> unit = \"TEST_BEGIN\"\n".to_string();
    text += "let () =\n";
    for (unit, function, start) in calls {
        let unit = &units[*unit];
        let function = &unit.functions[*function];
        let module = format!("U{}", &unit.name[1..]);
        text += "  begin_ ();\n";
        for answer in &start.answers {
            text += &format!("  give ({answer});\n");
        }
        text += &format!("  ignore ({module}.{}", function.name);
        for (argument, number) in function.arguments.iter().zip(&start.arguments) {
            let fields = || -> Vec<String> {
                let fields = start.fields.iter().enumerate();
                fields.map(|(n, field)| format!("{module}.f{n} = ({field})")).collect()
            };
            text += &match argument {
                Type::Unit => " ()".into(),
                Type::Int => format!(" ({number})"),
                Type::Bool => format!(" {}", *number == 1),
                Type::Record => format!(" {{ {} }}", fields().join("; ")),
            };
        }
        text += ");\n";
    }
    text + "  ()\n"
}

/// The code of a linked program: at its end are the names and lengths of its sections, their count and 12 bytes of version.
fn code(file: &[u8]) -> Option<Vec<i32>> {
    let number = |at: usize| Some(u32::from_be_bytes(file.get(at..at + 4)?.try_into().ok()?) as usize);
    let trailer = file.len().checked_sub(16)?;
    let count = number(trailer)?;
    let mut end = trailer.checked_sub(8 * count)?;
    for entry in (0..count).rev().map(|n| trailer - 8 * (count - n)) {
        let from = end.checked_sub(number(entry + 4)?)?;
        if file.get(entry..entry + 4)? == b"CODE" {
            return Some(file[from..end].chunks(4).map(|word| i32::from_le_bytes(word.try_into().unwrap())).collect());
        }
        end = from;
    }
    None
}

/// The numbers of the instructions from an address on, as long as they are of the 61 kinds or RETURN, and the address after each.
fn numbered(code: &[i32], from: usize) -> BTreeMap<usize, (usize, usize)> {
    let mut numbers = BTreeMap::new();
    let mut at = from;
    while let Some(opcode) = code.get(at) {
        let kind = OPCODES.iter().find(|kind| kind.1 == *opcode).map(|kind| kind.0);
        let argument = |kind: &str| independent::routine::KINDS.iter().find(|k| k.0 == kind).map(|k| k.1);
        let length = match kind.and_then(argument) {
            Some(independent::routine::Argument::Nothing) => 1,
            Some(_) => 2,
            None if *opcode == RETURN => 2,
            None => break,
        };
        numbers.insert(at, (numbers.len(), at + length));
        at += length;
    }
    numbers
}

/// A line of the trace: the address, the name and the arguments.
pub fn line(text: &str) -> Option<(usize, &str, &str)> {
    let (address, rest) = text.trim_start().split_once("  ")?;
    let (name, arguments) = rest.split_once(' ').unwrap_or((rest, ""));
    Some((address.parse().ok()?, name, arguments))
}

/// Compiles the units, and runs the calls one after another.
pub fn machine(folder: &Path, units: &[Unit], calls: &[(usize, usize, Start)]) -> Result<Vec<Trace>, String> {
    let write = |name: &str, text: &str| fs::write(folder.join(name), text).unwrap();
    for unit in units {
        write(&format!("{}.ml", unit.name), &unit.text);
    }
    for debug in [false, true] {
        let options: &[&str] = if debug { &["-w", "-a", "-g", "-c"] } else { &["-w", "-a", "-c"] };
        let sources = units.iter().filter(|unit| unit.debug == debug).map(|unit| format!("{}.ml", unit.name));
        let sources: Vec<String> = sources.collect();
        if !sources.is_empty() {
            let arguments: Vec<&str> = options.iter().copied().chain(sources.iter().map(String::as_str)).collect();
            run(folder, "ocamlc", &arguments)?;
        }
    }
    write("primitives.c", &primitives());
    run(folder, "cc", &["-shared", "-fPIC", "-o", "dllprimitives.so", "primitives.c"])?;
    write("main.ml", &program(units, calls));
    run(folder, "ocamlc", &["-w", "-a", "-c", "main.ml"])?;
    let objects: Vec<String> = units.iter().map(|unit| format!("{}.cmo", unit.name)).collect();
    let mut link = vec!["-nopervasives", "-dllib", "-lprimitives", "-dllpath", ".", "-o", "program"];
    link.extend(objects.iter().map(String::as_str).chain(["main.cmo"]));
    run(folder, "ocamlc", &link)?;
    let printed = run(folder, "ocamlrund", &["-t", "-I", ".", "program"])?.stdout;
    let code = code(&fs::read(folder.join("program")).unwrap()).ok_or("the program has no code")?;
    traces(&String::from_utf8_lossy(&printed), &code, calls)
}

/// The traces of the calls in what the machine printed. A unit's code ends with the SETGLOBAL of its beginning; each APPLY is a call.
fn traces(printed: &str, code: &[i32], calls: &[(usize, usize, Start)]) -> Result<Vec<Trace>, String> {
    let lines: Vec<(usize, &str, &str)> = printed.lines().filter_map(line).collect();
    let mut bases = vec![0];
    let mut traces: Vec<Trace> = Vec::new();
    let mut next = 0;
    while next < lines.len() {
        let (at, name, _) = lines[next];
        next += 1;
        if name == "SETGLOBAL" {
            bases.push(at + 2);
        }
        if !name.starts_with("APPLY") {
            continue;
        }
        let (unit, ..) = calls.get(traces.len()).ok_or("more calls than were written")?;
        let entry = lines.get(next).ok_or("a call goes nowhere")?.0;
        next += usize::from(lines[next].1 == "GRAB");
        let numbers = numbered(code, lines[next].0);
        let mut steps = Vec::new();
        loop {
            let (at, name, arguments) = *lines.get(next).ok_or("a call does not return")?;
            let (number, end) = *numbers.get(&at).ok_or_else(|| format!("{name} at {at} is outside its function"))?;
            next += 1;
            let kind = if name == "RETURN" { "STOP" } else { name };
            let conditional = ["BRANCHIF", "BRANCHIFNOT"].contains(&name);
            steps.push(Step {
                at: number,
                kind: kind.to_string(),
                jumped: conditional && lines.get(next).is_some_and(|line| line.0 != end),
                primitive: name.starts_with("C_CALL").then(|| arguments.trim().to_string()),
            });
            if name == "RETURN" {
                break;
            }
        }
        let base = bases.get(*unit).ok_or("a unit has not begun")?;
        traces.push(Trace { entry: entry - base, steps });
    }
    match traces.len() == calls.len() {
        true => Ok(traces),
        false => Err(format!("{} calls were made, not {}", traces.len(), calls.len())),
    }
}
