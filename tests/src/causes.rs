//! What the words and the files compared have in them, of change request 2; and of 7, arguments that an import writes and a bound refuses.
use independent::report::Answer;
use independent::routine::{Argument, Refusal};
use independent::tagged::is_number;
use independent::word_draft::Import;
use independent::words::{instructions, lines, primitives_line, target, Cause, Instruction};
use std::collections::{BTreeMap, BTreeSet};

#[derive(Default)]
pub struct Causes {
    counts: BTreeMap<&'static str, u64>,
    /// kinds in the words of accepted imports
    kinds: BTreeSet<&'static str>,
}

/// What is counted.
const COUNTED: [&str; 25] = [
    "imports accepted",
    "imports whose words came back",
    "exports accepted",
    "exports from another address than 0",
    "imports refused by 2",
    "imports refused by 4",
    "no word",
    "an opcode of no kind",
    "a cut-off word",
    "an argument of which nothing is left",
    "an argument of 1 to 3 bytes",
    "a place that is not on the line",
    "a 1,025th instruction",
    "an offset inside an instruction",
    "an offset outside the words",
    "a fault that hides an offset's before it",
    "an instruction without an argument",
    "a number",
    "a number below 0",
    "a number that has more than 31 bits",
    "a forward offset",
    "a backward offset",
    "a primitive",
    "a primitives line with a line feed",
    "a primitives line without one",
];

fn of_cause(cause: Cause, bytes: usize) -> &'static str {
    match cause {
        Cause::NoWord => "no word",
        Cause::Opcode => "an opcode of no kind",
        Cause::CutWord => "a cut-off word",
        Cause::CutArgument if bytes % 4 == 0 => "an argument of which nothing is left",
        Cause::CutArgument => "an argument of 1 to 3 bytes",
        Cause::Primitive => "a place that is not on the line",
        Cause::TooMany => "a 1,025th instruction",
        Cause::Inside => "an offset inside an instruction",
        Cause::Outside => "an offset outside the words",
    }
}

/// Whether the offset of a branch is wrong, whatever follows these instructions.
fn wrong_offset(code: &[Instruction], words: usize, branch: &Instruction) -> bool {
    let read = code.last().map_or(0, Instruction::end) as i64;
    branch.called_for == Argument::Target
        && target(code, words, branch).is_err_and(|fault| {
            let to = fault.place as i64 + branch.word as i64;
            fault.cause == Cause::Outside || to < read
        })
}

impl Causes {
    fn add(&mut self, what: &'static str) {
        assert!(COUNTED.contains(&what), "{what} is not counted");
        *self.counts.entry(what).or_default() += 1;
    }

    pub fn note_import(&mut self, import: &Import, answer: &Answer, came_back: bool) {
        let primitives = match primitives_line(&import.primitives) {
            Ok(primitives) => primitives,
            Err(Refusal { number: 2, .. }) => return self.add("imports refused by 2"),
            Err(_) => return self.add("imports refused by 4"),
        };
        let (code, fault) = instructions(&import.words, primitives.len());
        if let Err(fault) = lines(&import.words, &primitives) {
            self.add(of_cause(fault.cause, import.words.len()));
        }
        if fault.is_some() && code.iter().any(|i| wrong_offset(&code, import.words.len() / 4, i)) {
            self.add("a fault that hides an offset's before it");
        }
        if answer.is_err() {
            return;
        }
        self.add("imports accepted");
        if came_back {
            self.add("imports whose words came back");
        }
        let fed = import.primitives.ends_with(b"\n");
        self.add(if fed { "a primitives line with a line feed" } else { "a primitives line without one" });
        let of_argument = |i: &Instruction| match i.called_for {
            Argument::Nothing => "an instruction without an argument",
            Argument::Number(..) if i.word < 0 => "a number below 0",
            Argument::Number(..) => "a number",
            Argument::Target if i.word < 0 => "a backward offset",
            Argument::Target => "a forward offset",
            Argument::Primitive => "a primitive",
        };
        let arguments: BTreeSet<&str> = code.iter().map(of_argument).collect();
        arguments.into_iter().for_each(|what| self.add(what));
        if code.iter().any(|i| ["CONSTINT", "PUSHCONSTINT", "OFFSETINT"].contains(&i.kind) && !is_number(i.word as i64))
        {
            self.add("a number that has more than 31 bits");
        }
        self.kinds.extend(code.iter().map(|i| i.kind));
    }

    pub fn note_export(&mut self, first: u32) {
        self.add("exports accepted");
        if first > 0 {
            self.add("exports from another address than 0");
        }
    }

    pub fn counts(&self) -> [(&'static str, u64); 25] {
        COUNTED.map(|what| (what, self.counts.get(what).copied().unwrap_or(0)))
    }

    /// How many kinds came up in the words of accepted imports.
    pub fn kinds(&self) -> usize {
        self.kinds.len()
    }
}
