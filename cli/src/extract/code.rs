//! The instructions of a unit, and the functions in them.
use super::object::{Relocation, Unit};
use super::opcodes::{Words, OPCODES};
use crate::failure::Failure;
use std::collections::BTreeSet;
use std::ops::Range;

pub struct Instruction {
    /// the index of its opcode in the words of the unit
    pub at: usize,
    /// the index after its last word
    pub end: usize,
    pub opcode: usize,
    /// its first argument word; 0 where it has none
    pub word: i32,
    /// where it may go other than to the next one, or the functions that it names
    pub targets: Vec<usize>,
}

impl Instruction {
    pub fn name(&self) -> &'static str {
        OPCODES[self.opcode].0
    }

    pub fn words(&self) -> Words {
        OPCODES[self.opcode].1
    }

    /// Whether the instruction after it may follow it.
    pub fn goes_on(&self) -> bool {
        let ends = ["BRANCH", "SWITCH", "RETURN", "STOP", "RAISE", "RERAISE", "RAISE_NOTRACE"];
        !(ends.contains(&self.name()) || self.name().starts_with("APPTERM"))
    }

    /// Whether it is a CLOSURE or a CLOSUREREC, whose targets are functions.
    pub fn makes_functions(&self) -> bool {
        matches!(self.words(), Words::Closure | Words::Closures)
    }
}

pub struct Function {
    /// the name where the file has it
    pub name: Option<Vec<u8>>,
    /// where its closure points to
    pub address: usize,
    pub arguments: usize,
    /// its instructions after GRAB, up to the last one that can be reached, as numbers of instructions of the unit
    pub body: Range<usize>,
    /// those of them that can be reached
    pub reached: BTreeSet<usize>,
    /// its words in the code of the unit
    pub words: Range<usize>,
    /// the primitives that it calls, in the order of their first use
    pub primitives: Vec<Vec<u8>>,
}

pub struct Code<'a> {
    pub unit: &'a Unit,
    pub instructions: Vec<Instruction>,
}

impl<'a> Code<'a> {
    pub fn read(unit: &'a Unit) -> Result<Code<'a>, Failure> {
        let mut code = Code { unit, instructions: Vec::new() };
        let mut at = 0;
        while at < unit.words.len() {
            let instruction = code.instruction(at)?;
            at = instruction.end;
            code.instructions.push(instruction);
        }
        Ok(code)
    }

    fn instruction(&self, at: usize) -> Result<Instruction, Failure> {
        let cut = || Failure(format!("damaged: its code ends within the instruction at {at}"));
        let word = |index: usize| self.unit.words.get(index).copied().ok_or_else(cut);
        let count = |index: usize| Ok::<usize, Failure>(word(index)? as u32 as usize);
        let opcode = usize::try_from(word(at)?).unwrap_or(usize::MAX);
        let Some((_, words)) = OPCODES.get(opcode) else {
            return Err(Failure(format!("damaged: the word at {at} of its code is no opcode")));
        };
        // how many words, and the indices of the offsets with the index that they are counted from
        let (length, offsets, from) = match words {
            Words::Plain(length) => (*length, 0..0, None),
            Words::Upto(_) | Words::Number | Words::Primitive => (1, 0..0, None),
            Words::Offset => (1, at + 1..at + 2, None),
            Words::NumberOffset | Words::Closure => (2, at + 2..at + 3, None),
            Words::Closures => {
                let functions = count(at + 1)?;
                (functions.saturating_add(2), at + 3..functions.saturating_add(at + 3), Some(at + 3))
            }
            Words::Cases => {
                // the cases of constants in the lower half of the word, those of blocks in the upper one
                let cases = (count(at + 1)? & 0xffff) + (count(at + 1)? >> 16);
                (cases + 1, at + 2..at + 2 + cases, Some(at + 2))
            }
        };
        let end = length.saturating_add(at + 1);
        if end > self.unit.words.len() {
            return Err(cut());
        }
        let mut targets = Vec::new();
        for index in offsets {
            let target = from.unwrap_or(index) as i64 + i64::from(word(index)?);
            targets.push(usize::try_from(target).unwrap_or(usize::MAX));
        }
        Ok(Instruction { at, end, opcode, word: if length > 0 { word(at + 1)? } else { 0 }, targets })
    }

    /// The number of the instruction at an index.
    pub fn number(&self, at: usize) -> Option<usize> {
        self.instructions.binary_search_by_key(&at, |instruction| instruction.at).ok()
    }

    /// The primitive that an instruction calls.
    pub fn primitive(&self, instruction: &Instruction) -> Result<Option<&Vec<u8>>, Failure> {
        if instruction.words() != Words::Primitive && instruction.name() != "C_CALLN" {
            return Ok(None);
        }
        match self.unit.relocations.get(&(instruction.end - 1)) {
            Some(Relocation::Primitive(name)) => Ok(Some(name)),
            _ => Err(Failure(format!("damaged: no relocation names the primitive called at {}", instruction.at))),
        }
    }

    /// The functions in the order of their addresses.
    pub fn functions(&self) -> Result<Vec<Function>, Failure> {
        let makers = self.instructions.iter().filter(|instruction| instruction.makes_functions());
        let addresses: BTreeSet<usize> = makers.flat_map(|maker| maker.targets.iter().copied()).collect();
        let entry = |address: usize| {
            let nowhere = || Failure(format!("damaged: a function at {address}, where no instruction of its code is"));
            self.number(address).ok_or_else(nowhere)
        };
        let entries = addresses.into_iter().map(entry).collect::<Result<Vec<usize>, Failure>>()?;
        let ends = entries.iter().skip(1).copied().chain([self.instructions.len()]);
        entries.iter().zip(ends).map(|(entry, end)| self.function(*entry..end)).collect()
    }

    /// The function at the first of the instructions, which has none of those behind them.
    fn function(&self, within: Range<usize>) -> Result<Function, Failure> {
        let entry = within.start;
        let address = self.instructions[entry].at;
        let (first, arguments) = match &self.instructions[entry] {
            grab if grab.name() == "GRAB" => (entry + 1, (grab.word as u32 as usize).saturating_add(1)),
            _ => (entry, 1),
        };
        let reached = self.reached(address, first..within.end)?;
        let body = first..reached.last().map_or(first, |last| last + 1);
        let mut primitives: Vec<Vec<u8>> = Vec::new();
        let mut called = BTreeSet::new();
        for instruction in &self.instructions[body.clone()] {
            if let Some(name) = self.primitive(instruction)? {
                if called.insert(name) {
                    primitives.push(name.clone());
                }
            }
        }
        let words = address..self.instructions[body.end - 1].end;
        let name = self.unit.events.definition(words.clone()).map(<[u8]>::to_vec);
        Ok(Function { name, address, arguments, body, reached, words, primitives })
    }

    /// The instructions of a function that can be reached from its first one.
    fn reached(&self, address: usize, within: Range<usize>) -> Result<BTreeSet<usize>, Failure> {
        let outside = |what: &str| Failure(format!("damaged: {what} of the function at {address} is outside it"));
        let mut reached = BTreeSet::new();
        let mut next = vec![within.start];
        while let Some(number) = next.pop() {
            if !within.contains(&number) {
                return Err(outside("an instruction"));
            }
            if !reached.insert(number) {
                continue;
            }
            let instruction = &self.instructions[number];
            if instruction.goes_on() {
                next.push(number + 1);
            }
            if !instruction.makes_functions() {
                for target in &instruction.targets {
                    next.push(self.number(*target).ok_or_else(|| outside("the target of a branch"))?);
                }
            }
        }
        Ok(reached)
    }
}
