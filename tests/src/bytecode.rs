//! A linked program of OCaml's bytecode: its sections, and functions in it whose bodies are put in the place of others.
use independent::routine::Argument;
use independent::words::{bytes, instructions, target, Instruction};
use std::collections::BTreeMap;
use std::ops::Range;

const BRANCH: i32 = 84;
const RETURN: i32 = 40;
const STOP: &str = "STOP";

/// The sections of a program by their names: at its end are their names and lengths, their count and 12 bytes of version.
fn sections(file: &[u8]) -> Option<Vec<(String, Range<usize>)>> {
    let number = |at: usize| Some(u32::from_be_bytes(file.get(at..at + 4)?.try_into().ok()?) as usize);
    let trailer = file.len().checked_sub(16)?;
    let count = number(trailer)?;
    let mut end = trailer.checked_sub(8 * count)?;
    let mut sections = Vec::new();
    for entry in (0..count).rev().map(|n| trailer - 8 * (count - n)) {
        let from = end.checked_sub(number(entry + 4)?)?;
        sections.push((String::from_utf8_lossy(file.get(entry..entry + 4)?).to_string(), from..end));
        end = from;
    }
    sections.reverse();
    Some(sections)
}

fn words(bytes: &[u8]) -> Vec<i32> {
    bytes.chunks_exact(4).map(|word| i32::from_le_bytes(word.try_into().unwrap())).collect()
}

/// How many words of code an object file has: behind its head and the head of its description, in a block of ten fields, the third.
pub fn code_length(object: &[u8]) -> Option<usize> {
    let place = u32::from_be_bytes(object.get(12..16)?.try_into().ok()?) as usize;
    let fields = object.get(place + 20 + 5..)?;
    let name = 1 + usize::from(fields.first()? & 0x1f);
    let (length, _) = integer(&fields[name + integer(fields.get(name..)?)?.1..])?;
    usize::try_from(length / 4).ok()
}

/// A marshalled integer and how many bytes it has.
fn integer(bytes: &[u8]) -> Option<(i64, usize)> {
    let number =
        |count: usize| bytes.get(1..1 + count).map(|bytes| bytes.iter().fold(0, |n, b| n << 8 | i64::from(*b)));
    match *bytes.first()? {
        code @ 0x40..=0x7f => Some((i64::from(code & 0x3f), 1)),
        0x00 => Some((number(1)?, 2)),
        0x01 => Some((number(2)?, 3)),
        0x02 => Some((number(4)?, 5)),
        _ => None,
    }
}

/// A body that is put into a program.
pub struct Body<'a> {
    /// where the body that it replaces begins in the code of the program
    pub at: usize,
    pub arguments: usize,
    pub words: &'a [u8],
    pub primitives: Vec<&'a str>,
}

/// Of the instructions that are put in: by their place in the code, the number of the line and the place behind it.
pub type Places = BTreeMap<usize, (usize, usize)>;

/// The program with other bodies. Each begins with a branch to its new one, behind all code.
pub fn with_bodies(program: &[u8], bodies: &[Body]) -> Result<(Vec<u8>, Places), String> {
    let sections = sections(program).ok_or("no program")?;
    let find = |name: &str| sections.iter().find(|section| section.0 == name).map(|section| section.1.clone());
    let place = find("CODE").ok_or("no code")?;
    let names = &program[find("PRIM").ok_or("no primitives")?];
    let names: Vec<&[u8]> = names.split(|byte| *byte == 0).collect();
    let mut code = words(&program[place.clone()]);
    let mut places = Places::new();
    for body in bodies {
        let from = code.len();
        code[body.at] = BRANCH;
        code[body.at + 1] = (from - (body.at + 1)) as i32;
        let (made, of_body) = placed(body, &names)?;
        places.extend(of_body.into_iter().map(|(at, (line, end))| (from + at, (line, from + end))));
        code.extend(made);
    }
    let code = bytes(&code);
    let head = sections.first().map_or(0, |section| section.1.start);
    let mut file = program[..head].to_vec();
    let mut table = Vec::new();
    for (name, section) in &sections {
        let part = if name == "CODE" { &code[..] } else { &program[section.clone()] };
        file.extend_from_slice(part);
        table.extend_from_slice(name.as_bytes());
        table.extend((part.len() as u32).to_be_bytes());
    }
    file.extend(table);
    file.extend_from_slice(&program[program.len() - 16..]);
    Ok((file, places))
}

/// The height of the stack before each instruction; all branches lead forwards.
fn heights(code: &[Instruction], words: usize, arguments: usize) -> Result<Vec<usize>, String> {
    let mut heights = vec![None; code.len()];
    heights[0] = Some(arguments);
    for (number, instruction) in code.iter().enumerate() {
        let height = heights[number].ok_or("an instruction is not reached")?;
        let (more, fewer) = match (instruction.kind, instruction.word) {
            ("POP", count) => (0, count as usize),
            (kind, _) if kind.starts_with("PUSH") => (1, 0),
            (kind, _) if kind.starts_with("SETFIELD") => (0, 1),
            (kind, _) if kind.starts_with("C_CALL") => (0, usize::from(kind.as_bytes()[6] - b'1')),
            ("ADDINT" | "SUBINT" | "EQ" | "NEQ" | "LTINT" | "LEINT" | "GTINT" | "GEINT", _) => (0, 1),
            _ => (0, 0),
        };
        let after = (height + more).checked_sub(fewer).ok_or("more is popped than there is")?;
        let mut next = Vec::new();
        if instruction.called_for == Argument::Target {
            next.push(target(code, words, instruction).map_err(|fault| format!("{fault:?}"))?);
        }
        if !["BRANCH", STOP].contains(&instruction.kind) {
            next.push(number + 1);
        }
        for place in next {
            match heights.get(place).ok_or("it runs off its end")? {
                Some(known) if *known != after => return Err(format!("ways meet with unlike stacks at {place}")),
                _ => heights[place] = Some(after),
            }
        }
    }
    Ok(heights.into_iter().flatten().collect())
}

/// The words of a body in a program, STOP as RETURN of the whole stack, with the places of its instructions.
fn placed(body: &Body, names: &[&[u8]]) -> Result<(Vec<i32>, Places), String> {
    let (code, fault) = instructions(body.words, body.primitives.len());
    if let Some(fault) = fault {
        return Err(format!("{fault:?}"));
    }
    let count = body.words.len() / 4;
    let heights = heights(&code, count, body.arguments)?;
    let mut starts = Vec::new();
    let mut next = 0;
    for instruction in &code {
        starts.push(next);
        next += if instruction.kind == STOP { 2 } else { instruction.end() - instruction.at };
    }
    let mut words = Vec::new();
    let mut places = Places::new();
    for (number, instruction) in code.iter().enumerate() {
        let opcode = i32::from_le_bytes(body.words[4 * instruction.at..4 * instruction.at + 4].try_into().unwrap());
        let made = match instruction.called_for {
            _ if instruction.kind == STOP => vec![RETURN, heights[number] as i32],
            Argument::Nothing => vec![opcode],
            Argument::Number(..) => vec![opcode, instruction.word],
            Argument::Target => {
                let to = target(&code, count, instruction).map_err(|fault| format!("{fault:?}"))?;
                vec![opcode, starts[to] as i32 - (starts[number] as i32 + 1)]
            }
            Argument::Primitive => {
                let name = body.primitives[instruction.word as usize].as_bytes();
                let found = names.iter().position(|other| *other == name);
                vec![opcode, found.ok_or("the program lacks a primitive")? as i32]
            }
        };
        words.extend(made);
        places.insert(starts[number], (number, words.len()));
    }
    Ok((words, places))
}
