//! Functions as they were compiled and as they were lowered, on OCaml's own machine: what each call says, and the steps of the lowered
//! ones.
use crate::bytecode::{code_length, with_bodies, Body, Places};
use crate::machine_traces::{line, run, Step};
use crate::Start;
use independent::functions::PRIMITIVES;
use independent::natural::{Type, Unit};
use std::fs;
use std::path::Path;

/// A call: the unit, the function, and what it starts with.
pub type Call = (usize, usize, Start);

/// A lowered function.
pub struct Lowered {
    pub unit: usize,
    /// its place in the code of its unit
    pub address: usize,
    pub arguments: usize,
    pub words: Vec<u8>,
    pub primitives: String,
}

/// The primitives in C: each says its arguments and takes the next answer. A number n of OCaml is 2n + 1.
fn primitives() -> String {
    let mut text =
        "#include <stdio.h>\ntypedef long value;\nstatic value answers[64];\nstatic int given, taken;\n".to_string();
    text += "static value next(void) { return taken < given ? answers[taken++] : 1; }\n";
    text += "value TEST_GIVE(value answer) { answers[given++] = answer; return 1; }\n";
    text += "value TEST_BEGIN(value unit) { (void)unit; given = taken = 0; printf(\"BEGIN\\n\"); return 1; }\n";
    text += "value TEST_RESULT(value result) { printf(\"RESULT %ld\\n\", result >> 1); return 1; }\n";
    text += "value TEST_FIELD(value field) { printf(\"FIELD %ld\\n\", field >> 1); return 1; }\n";
    for (name, count) in PRIMITIVES {
        let arguments: Vec<String> = (0..count).map(|n| format!("value a{n}")).collect();
        let said: Vec<String> = (0..count).map(|n| format!("a{n} >> 1")).collect();
        let form = " %ld".repeat(count);
        text += &format!("value {name}({}) {{ printf(\"CALL {name}{form}\\n\", ", arguments.join(", "));
        text += &format!("{}); return next(); }}\n", said.join(", "));
    }
    text
}

/// A program that makes the calls, and says each result and the fields behind it.
fn program(units: &[Unit], calls: &[Call]) -> String {
    let mut text =
        "external give : int -> unit = \"TEST_GIVE\"\nexternal begin_ : int -> unit = \"TEST_BEGIN\"\n".to_string();
    text += "external result : 'a -> unit = \"TEST_RESULT\"\nexternal field : int -> unit = \"TEST_FIELD\"\n";
    for (n, (unit, function, start)) in calls.iter().enumerate() {
        let unit = &units[*unit];
        let function = &unit.functions[*function];
        let module = format!("U{}", &unit.name[1..]);
        let answers: String = start.answers.iter().map(|answer| format!("  give ({answer});\n")).collect();
        text += &format!("let () =\n  begin_ {n};\n{answers}");
        let fields = start.fields.iter().enumerate();
        let fields: Vec<String> = fields.map(|(n, field)| format!("{module}.f{n} = ({field})")).collect();
        text += &format!("  let r = {{ {} }} in\n  result ({module}.{}", fields.join("; "), function.name);
        for (argument, number) in function.arguments.iter().zip(&start.arguments) {
            text += &match argument {
                Type::Int => format!(" ({number})"),
                Type::Bool => format!(" {}", *number == 1),
                Type::Choice => format!(" {module}.C{number}"),
                Type::Record => " r".into(),
            };
        }
        text += ");\n";
        if function.arguments.contains(&Type::Record) {
            text += &(0..start.fields.len()).map(|n| format!("  field r.{module}.f{n};\n")).collect::<String>();
        }
        text += "  ()\n";
    }
    text
}

/// Compiles the units in a folder.
pub fn compile(folder: &Path, units: &[Unit]) -> Result<(), String> {
    for unit in units {
        fs::write(folder.join(format!("{}.ml", unit.name)), &unit.text).unwrap();
    }
    for debug in [false, true] {
        let options: &[&str] = if debug { &["-w", "-a", "-g", "-c"] } else { &["-w", "-a", "-c"] };
        let sources = units.iter().filter(|unit| unit.debug == debug).map(|unit| format!("{}.ml", unit.name));
        let sources: Vec<String> = sources.collect();
        if !sources.is_empty() {
            let arguments: Vec<&str> = options.iter().copied().chain(sources.iter().map(String::as_str)).collect();
            run(folder, "ocamlc", &arguments)?;
        }
    }
    Ok(())
}

/// Links a program of the calls.
pub fn link(folder: &Path, units: &[Unit], calls: &[Call]) -> Result<(), String> {
    fs::write(folder.join("primitives.c"), primitives()).unwrap();
    run(folder, "cc", &["-shared", "-fPIC", "-o", "dllprimitives.so", "primitives.c"])?;
    fs::write(folder.join("main.ml"), program(units, calls)).unwrap();
    run(folder, "ocamlc", &["-w", "-a", "-c", "main.ml"])?;
    let objects: Vec<String> = units.iter().map(|unit| format!("{}.cmo", unit.name)).collect();
    let mut link = vec!["-nopervasives", "-dllib", "-lprimitives", "-dllpath", ".", "-o", "program"];
    link.extend(objects.iter().map(String::as_str).chain(["main.cmo"]));
    run(folder, "ocamlc", &link).map(|_| ())
}

/// What each call says: the primitives that it calls with their arguments, its result, and the fields behind it.
pub fn said(folder: &Path, program: &str) -> Result<Vec<String>, String> {
    let printed = run(folder, "ocamlrun", &["-I", ".", program])?.stdout;
    let printed = String::from_utf8_lossy(&printed).to_string();
    Ok(printed.split("BEGIN\n").skip(1).map(str::to_string).collect())
}

/// Puts the lowered functions into the program in the place of those that were compiled, as another program.
pub fn put_in(folder: &Path, units: &[Unit], lowered: &[Lowered]) -> Result<Places, String> {
    let mut bases = vec![0];
    for unit in units {
        let object = fs::read(folder.join(&unit.name).with_extension("cmo")).unwrap();
        bases.push(bases[bases.len() - 1] + code_length(&object).ok_or("an object file has no code")?);
    }
    let body = |function: &Lowered| {
        // behind GRAB, which functions of one argument do not have
        let at = bases[function.unit] + function.address + if function.arguments > 1 { 2 } else { 0 };
        (at, function.primitives.split_whitespace().filter(|name| *name != "-").map(str::to_string).collect::<Vec<_>>())
    };
    let found: Vec<(usize, Vec<String>)> = lowered.iter().map(body).collect();
    let bodies: Vec<Body> = lowered
        .iter()
        .zip(&found)
        .map(|(function, (at, primitives))| Body {
            at: *at,
            arguments: function.arguments,
            words: &function.words,
            primitives: primitives.iter().map(String::as_str).collect(),
        })
        .collect();
    let (file, places) = with_bodies(&fs::read(folder.join("program")).unwrap(), &bodies)?;
    fs::write(folder.join("lowered"), file).unwrap();
    Ok(places)
}

/// The steps of each call of the lowered functions.
pub fn steps(folder: &Path, places: &Places) -> Result<Vec<Vec<Step>>, String> {
    let printed = run(folder, "ocamlrund", &["-t", "-I", ".", "lowered"])?.stdout;
    let printed = String::from_utf8_lossy(&printed);
    let lines: Vec<(usize, &str, &str)> = printed.lines().filter_map(line).collect();
    let mut calls: Vec<Vec<Step>> = Vec::new();
    for (index, (at, name, arguments)) in lines.iter().enumerate() {
        if name.starts_with("APPLY") {
            calls.push(Vec::new());
        }
        let Some((number, end)) = places.get(at) else { continue };
        let conditional = ["BRANCHIF", "BRANCHIFNOT"].contains(name);
        calls.last_mut().ok_or("a step before the first call")?.push(Step {
            at: *number,
            kind: if *name == "RETURN" { "STOP".into() } else { name.to_string() },
            jumped: conditional && lines.get(index + 1).is_some_and(|line| line.0 != *end),
            primitive: name.starts_with("C_CALL").then(|| arguments.trim().to_string()),
        });
    }
    Ok(calls)
}
