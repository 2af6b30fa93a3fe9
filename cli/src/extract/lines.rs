//! The lines of a routine: the instructions of a function as they stand, or the steps that it was lowered to.
use super::body::{Item, Step};
use super::code::{Code, Function};
use super::opcodes::{opcode, Words, OPCODES};
use super::thread::landings;

#[derive(Clone, Debug, PartialEq)]
pub enum Argument {
    None,
    Number(i32),
    /// the index of a line
    Target(usize),
    Primitive(Vec<u8>),
}

#[derive(Clone, Debug, PartialEq)]
pub struct Line {
    pub opcode: usize,
    pub argument: Argument,
}

impl Line {
    pub fn name(&self) -> &'static str {
        OPCODES[self.opcode].0
    }
}

/// The instructions of a function that has no fault, RETURN as STOP.
pub fn as_they_stand(code: &Code, function: &Function) -> Vec<Line> {
    let target = |at: usize| code.number(at).map_or(0, |number| number - function.body.start);
    let mut lines = Vec::new();
    for instruction in &code.instructions[function.body.clone()] {
        if instruction.name() == "RETURN" {
            lines.push(Line { opcode: opcode("STOP"), argument: Argument::None });
            continue;
        }
        let argument = match instruction.words() {
            Words::Upto(_) | Words::Number => Argument::Number(instruction.word),
            Words::Offset => Argument::Target(target(instruction.targets[0])),
            Words::Primitive => match code.primitive(instruction) {
                Ok(Some(name)) => Argument::Primitive(name.clone()),
                _ => Argument::None,
            },
            _ => Argument::None,
        };
        lines.push(Line { opcode: instruction.opcode, argument });
    }
    lines
}

/// The kind of a step with a number: its short form, where it has one.
fn numbered(name: &str, number: i32) -> Line {
    let short = format!("{name}{number}");
    match OPCODES.iter().position(|opcode| opcode.0 == short) {
        Some(opcode) => Line { opcode, argument: Argument::None },
        None if name.ends_with("CONST") => {
            Line { opcode: opcode(&format!("{name}INT")), argument: Argument::Number(number) }
        }
        None => Line { opcode: opcode(name), argument: Argument::Number(number) },
    }
}

fn line(step: &Step) -> Option<Line> {
    Some(match step {
        Step::Push => Line { opcode: opcode("PUSH"), argument: Argument::None },
        Step::Acc(number) => numbered("ACC", *number),
        Step::Const(number) => numbered("CONST", *number),
        Step::Numbered(name, number) => numbered(name, *number),
        Step::Plain(name) => Line { opcode: opcode(name), argument: Argument::None },
        Step::Branch(name, target) => Line { opcode: opcode(name), argument: Argument::Target(*target) },
        Step::Call(name, primitive) => Line { opcode: opcode(name), argument: Argument::Primitive(primitive.clone()) },
        Step::Stop => Line { opcode: opcode("STOP"), argument: Argument::None },
        _ => return None,
    })
}

/// The lines of steps: a PUSH and the ACC or CONST behind it are one, unless a branch lands between. None where a step is of no kind.
pub fn joined(items: &[Item]) -> Option<Vec<Line>> {
    let landings = landings(items);
    let mut lines = Vec::new();
    let mut places = Vec::new();
    let mut index = 0;
    while index < items.len() {
        places.push(lines.len());
        let behind = items.get(index + 1).filter(|_| items[index].step == Step::Push && !landings[index + 1]);
        let joined = match behind.map(|item| &item.step) {
            Some(Step::Acc(number)) => Some(numbered("PUSHACC", *number)),
            Some(Step::Const(number)) => Some(numbered("PUSHCONST", *number)),
            _ => None,
        };
        if let Some(joined) = joined {
            places.push(lines.len());
            lines.push(joined);
            index += 2;
        } else {
            lines.push(line(&items[index].step)?);
            index += 1;
        }
    }
    for line in &mut lines {
        if let Argument::Target(target) = &mut line.argument {
            *target = places[*target];
        }
    }
    Some(lines)
}
