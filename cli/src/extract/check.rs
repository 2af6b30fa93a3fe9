//! The faults of a function's instructions, one by one.
use super::code::{Code, Function, Instruction};
use super::faults::{Callee, Fault, Found};
use super::object::{Literal, Relocation};
use super::opcodes::{without_number, without_push, Words, NUMBERS};
use std::collections::BTreeSet;

/// The longest name of a primitive.
const NAME: usize = 8;

/// How a function is looked at.
pub struct Check<'a> {
    pub code: &'a Code<'a>,
    pub function: &'a Function,
    /// whether it is to be lowered
    pub lowers: bool,
    /// the number at a place of its closure, where it is known
    pub kept: &'a dyn Fn(i32) -> Option<i32>,
    /// the name of the value that the instruction at a word reads there, where it is known
    pub named: &'a dyn Fn(usize, i32) -> Option<Vec<u8>>,
}

pub fn is_spelt(name: &[u8]) -> bool {
    let letter = |byte: &u8| byte.is_ascii_uppercase();
    name.len() <= NAME
        && name.first().is_some_and(letter)
        && name.iter().all(|byte| letter(byte) || byte.is_ascii_digit() || *byte == b'_')
}

impl Check<'_> {
    /// The faults in the order of the code.
    pub fn faults(&self) -> Vec<Found> {
        let numbers = self.function.body.clone();
        let looked_at = |number: &usize| !self.lowers || self.function.reached.contains(number);
        let mut parts = BTreeSet::new();
        let mut faults = Vec::new();
        for number in numbers.rev().filter(looked_at) {
            let instruction = &self.code.instructions[number];
            parts.extend(self.parts(number));
            if !parts.contains(&number) {
                faults.extend(self.of_instruction(number).map(|fault| (instruction.at, fault)));
            }
        }
        faults.reverse();
        faults
    }

    fn instruction(&self, number: usize) -> Option<&Instruction> {
        self.function.body.contains(&number).then(|| &self.code.instructions[number])
    }

    fn base(&self, number: usize) -> &'static str {
        self.instruction(number).map_or("", |instruction| without_number(without_push(instruction.name()).1).0)
    }

    /// The instructions before a call or an exception that belong to it, and are no faults of their own.
    fn parts(&self, number: usize) -> Vec<usize> {
        let before = number.wrapping_sub(1);
        match (self.base(number), self.base(before)) {
            ("APPLY" | "APPTERM", "ENVACC" | "OFFSETCLOSURE" | "GETGLOBALFIELD") => vec![before],
            ("APPLY" | "APPTERM", "GETFIELD") if self.base(before.wrapping_sub(1)) == "GETGLOBAL" => vec![before - 1],
            ("RAISE" | "RERAISE" | "RAISE_NOTRACE", "GETGLOBAL" | "GETGLOBALFIELD") => vec![before],
            _ => Vec::new(),
        }
    }

    fn of_instruction(&self, number: usize) -> Option<Fault> {
        let instruction = self.instruction(number)?;
        let name = instruction.name();
        let (base, digit) = without_number(without_push(name).1);
        match base {
            "ENVACC" => {
                let place = digit.unwrap_or(instruction.word);
                match (self.kept)(place) {
                    None => Some(Fault::Computed(place, (self.named)(instruction.at, place))),
                    Some(_) => (!self.lowers).then_some(Fault::NotLowered(name)),
                }
            }
            "APPLY" | "APPTERM" => Some(Fault::Call(self.callee(number), name)),
            "PUSH_RETADDR" => self.without_call(instruction),
            "GETGLOBAL" | "GETGLOBALFIELD" => Some(self.global(instruction)),
            "C_CALL" => self.primitive(instruction),
            "SWITCH" if instruction.word >> 16 != 0 || instruction.targets.is_empty() => Some(Fault::Tags(name)),
            "BRANCH" | "BRANCHIF" | "BRANCHIFNOT" => self.branch(instruction),
            _ if is_lowered(base) => self.lowered(instruction),
            _ => of_name(name, base, !self.code.unit.events.is_empty()).or_else(|| limit(instruction)),
        }
    }

    /// A PUSH_RETADDR belongs to the call before its target.
    fn without_call(&self, instruction: &Instruction) -> Option<Fault> {
        let behind = instruction.targets.first().and_then(|target| self.code.number(*target));
        let call = behind.and_then(|number| number.checked_sub(1));
        let is_alone = call.is_none_or(|call| self.base(call) != "APPLY");
        is_alone.then_some(Fault::Call(Callee::Unknown, "PUSH_RETADDR"))
    }

    fn branch(&self, instruction: &Instruction) -> Option<Fault> {
        let inside =
            |target: &usize| self.code.number(*target).is_some_and(|number| self.function.body.contains(&number));
        if !instruction.targets.iter().all(inside) {
            return Some(Fault::Outside(instruction.name()));
        }
        // a loop that begins with CHECK_SIGNALS is told there
        let is_told =
            |target: &usize| self.code.number(*target).is_some_and(|number| self.base(number) == "CHECK_SIGNALS");
        let back = instruction.targets.iter().any(|target| *target <= instruction.at && !is_told(target));
        (back && !self.lowers).then(|| Fault::Backwards(instruction.name()))
    }

    fn lowered(&self, instruction: &Instruction) -> Option<Fault> {
        self.branch(instruction).or_else(|| (!self.lowers).then(|| Fault::NotLowered(instruction.name())))
    }

    fn callee(&self, number: usize) -> Callee {
        let before = number.wrapping_sub(1);
        let Some(instruction) = self.instruction(before) else { return Callee::Unknown };
        match self.base(before) {
            "OFFSETCLOSURE" => Callee::Itself,
            "ENVACC" => {
                let place = without_number(instruction.name()).1.unwrap_or(instruction.word);
                (self.named)(instruction.at, place).map_or(Callee::Unknown, Callee::Named)
            }
            "GETGLOBALFIELD" => self.field(instruction, self.code.unit.words.get(instruction.at + 2).copied()),
            "GETFIELD" => match self.instruction(before.wrapping_sub(1)) {
                Some(global) if self.base(before - 1) == "GETGLOBAL" => {
                    self.field(global, without_number(instruction.name()).1.or(Some(instruction.word)))
                }
                _ => Callee::Unknown,
            },
            _ => Callee::Unknown,
        }
    }

    /// A function at a field of a unit.
    fn field(&self, global: &Instruction, field: Option<i32>) -> Callee {
        match self.code.unit.relocations.get(&(global.at + 1)) {
            Some(Relocation::Global(unit)) if unit == b"Stdlib" => {
                field.and_then(|field| usize::try_from(field).ok()).map_or(Callee::Unknown, Callee::Standard)
            }
            Some(Relocation::Global(unit)) => Callee::Of(unit.clone()),
            _ => Callee::Unknown,
        }
    }

    fn global(&self, instruction: &Instruction) -> Fault {
        match self.code.unit.relocations.get(&(instruction.at + 1)) {
            Some(Relocation::Literal(Literal::Number(number))) => Fault::Large(*number),
            Some(Relocation::Literal(Literal::Float)) => Fault::Float(instruction.name().into()),
            Some(Relocation::Literal(Literal::Text)) => Fault::Text(instruction.name().into()),
            Some(Relocation::Literal(Literal::Other)) => Fault::Constant,
            Some(Relocation::Global(unit)) => Fault::Elsewhere(unit.clone(), instruction.name()),
            _ => Fault::Odd(instruction.name()),
        }
    }

    /// A call of a primitive whose name is none of the card's: of what the compiler makes such calls, or an external.
    fn primitive(&self, instruction: &Instruction) -> Option<Fault> {
        let name = self.code.primitive(instruction).ok().flatten()?;
        if is_spelt(name) {
            return None;
        }
        let text = String::from_utf8_lossy(name).to_string();
        let of = |parts: &[&str]| parts.iter().any(|part| text.starts_with(&format!("caml_{part}")));
        let compared = ["equal", "notequal", "lessthan", "lessequal", "greaterthan", "greaterequal", "compare"];
        Some(match text.as_str() {
            "caml_int_compare" => Fault::Compare,
            _ if compared.iter().any(|part| text == format!("caml_{part}")) => Fault::Untyped(text),
            _ if of(&["array", "make_vect", "floatarray"]) => Fault::Array(text),
            _ if of(&["int32", "int64", "nativeint"]) => Fault::Boxed(text),
            _ if of(&[""]) && text.contains("float") => Fault::Float(text),
            _ if of(&[""]) && ["string", "bytes"].iter().any(|part| text.contains(part)) => Fault::Text(text),
            _ if of(&[""]) => Fault::Library(text),
            _ => Fault::Name(name.clone()),
        })
    }
}

/// Whether `--lower` takes an instruction.
fn is_lowered(base: &str) -> bool {
    let fused = ["BEQ", "BNEQ", "BLTINT", "BLEINT", "BGTINT", "BGEINT", "BULTINT", "BUGEINT"];
    fused.contains(&base) || ["ULTINT", "UGEINT", "SWITCH", "CHECK_SIGNALS"].contains(&base)
}

/// The fault of an instruction that its name decides.
fn of_name(name: &'static str, base: &str, debug: bool) -> Option<Fault> {
    Some(match base {
        "MULINT" => Fault::Arithmetic("*", name),
        "ANDINT" => Fault::Arithmetic("land", name),
        "ORINT" => Fault::Arithmetic("lor", name),
        "XORINT" => Fault::Arithmetic("lxor", name),
        "LSLINT" => Fault::Arithmetic("lsl", name),
        "LSRINT" => Fault::Arithmetic("lsr", name),
        "ASRINT" => Fault::Arithmetic("asr", name),
        "DIVINT" => Fault::Division("/", name),
        "MODINT" => Fault::Division("mod", name),
        "VECTLENGTH" | "GETVECTITEM" | "SETVECTITEM" => Fault::Array(name.into()),
        "GETBYTESCHAR" | "SETBYTESCHAR" | "GETSTRINGCHAR" => Fault::Text(name.into()),
        "MAKEBLOCK" | "ATOM" | "OFFSETREF" => Fault::Allocation(name, debug),
        "OFFSETCLOSURE" | "RESTART" | "GRAB" | "CLOSURE" | "CLOSUREREC" => Fault::Closure(name),
        "MAKEFLOATBLOCK" | "GETFLOATFIELD" | "SETFLOATFIELD" => Fault::Float(name.into()),
        "PUSHTRAP" | "POPTRAP" | "RAISE" | "RERAISE" | "RAISE_NOTRACE" => Fault::Exception(name),
        "ISINT" => Fault::Tags(name),
        "GETMETHOD" | "GETPUBMET" | "GETDYNMET" => Fault::Method(name),
        "C_CALLN" => Fault::ManyArguments,
        "SETGLOBAL" | "EVENT" | "BREAK" => Fault::Odd(name),
        _ => return None,
    })
}

/// The fault of an argument that is past its limit.
fn limit(instruction: &Instruction) -> Option<Fault> {
    match instruction.words() {
        Words::Upto(limit) if !(0..=limit).contains(&instruction.word) => {
            Some(Fault::Limit(instruction.name(), instruction.word, limit))
        }
        Words::Number if !NUMBERS.contains(&instruction.word) => Some(Fault::Large(i64::from(instruction.word))),
        _ => None,
    }
}
