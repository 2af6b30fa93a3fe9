//! The body of a function as steps: PUSH stands apart from what the compiler joins it with, a branch goes to a label, and RETURN is STOP.
use super::code::{Code, Function, Instruction};
use super::opcodes::{without_number, without_push};
use std::collections::{BTreeMap, BTreeSet};

pub type Label = usize;

#[derive(Clone, Debug, PartialEq)]
pub enum Step {
    /// where branches land
    Label(Label),
    Push,
    Acc(i32),
    Const(i32),
    /// POP, ASSIGN, OFFSETINT, GETFIELD or SETFIELD with its number
    Numbered(&'static str, i32),
    /// a kind without an argument
    Plain(&'static str),
    /// BRANCH, BRANCHIF or BRANCHIFNOT
    Branch(&'static str, Label),
    /// a C_CALL of a primitive
    Call(&'static str, Vec<u8>),
    Stop,
    /// a comparison with a number, joined with its branch
    Fused(&'static str, i32, Label),
    /// ULTINT or UGEINT
    Unsigned(&'static str),
    /// a SWITCH over constants
    Switch(Vec<Label>),
    /// ENVACC with its place
    Kept(i32),
    /// CHECK_SIGNALS
    Signals,
    /// what has a fault
    Other,
}

#[derive(Clone, Debug)]
pub struct Item {
    /// the word of the unit's code that it comes from
    pub at: usize,
    pub step: Step,
}

pub struct Body {
    pub items: Vec<Item>,
    /// labels from here on are free
    pub free: Label,
}

impl Body {
    /// The steps of the instructions that can be reached. A label is the number of its instruction.
    pub fn of(code: &Code, function: &Function) -> Body {
        let mut items = Vec::new();
        for number in &function.reached {
            let instruction = &code.instructions[*number];
            let (push, _) = without_push(instruction.name());
            let steps = [Some(Step::Label(*number)), push.then_some(Step::Push), Some(step(code, instruction))];
            items.extend(steps.into_iter().flatten().map(|step| Item { at: instruction.at, step }));
        }
        let mut body = Body { items, free: code.instructions.len() };
        body.tidy();
        body
    }

    pub fn label(&mut self) -> Label {
        self.free += 1;
        self.free - 1
    }

    /// Where each label stands.
    pub fn places(&self) -> BTreeMap<Label, usize> {
        let place = |(index, item): (usize, &Item)| match item.step {
            Step::Label(label) => Some((label, index)),
            _ => None,
        };
        self.items.iter().enumerate().filter_map(place).collect()
    }

    /// Leaves out labels on which no branch lands, and all but the last of those that stand side by side.
    pub fn tidy(&mut self) {
        let mut same = BTreeMap::new();
        for pair in self.items.windows(2).rev() {
            if let (Step::Label(first), Step::Label(second)) = (&pair[0].step, &pair[1].step) {
                let last = same.get(second).copied().unwrap_or(*second);
                same.insert(*first, last);
            }
        }
        let mut used = BTreeSet::new();
        for item in &mut self.items {
            for label in item.step.targets_mut() {
                *label = same.get(label).copied().unwrap_or(*label);
                used.insert(*label);
            }
        }
        self.items.retain(|item| !matches!(item.step, Step::Label(label) if !used.contains(&label)));
    }

    /// How many steps there are, labels aside.
    pub fn length(&self) -> usize {
        self.items.iter().filter(|item| !matches!(item.step, Step::Label(_))).count()
    }
}

impl Step {
    pub fn targets(&self) -> &[Label] {
        match self {
            Step::Branch(_, label) | Step::Fused(_, _, label) => std::slice::from_ref(label),
            Step::Switch(labels) => labels,
            _ => &[],
        }
    }

    pub fn targets_mut(&mut self) -> &mut [Label] {
        match self {
            Step::Branch(_, label) | Step::Fused(_, _, label) => std::slice::from_mut(label),
            Step::Switch(labels) => labels,
            _ => &mut [],
        }
    }

    /// Whether the step after it may follow it.
    pub fn goes_on(&self) -> bool {
        !matches!(self, Step::Branch("BRANCH", _) | Step::Stop | Step::Switch(_))
    }
}

/// The step of an instruction, without the PUSH before it.
fn step(code: &Code, instruction: &Instruction) -> Step {
    let (_, name) = without_push(instruction.name());
    let (base, digit) = without_number(name);
    let number = digit.unwrap_or(instruction.word);
    let label = |index: usize| instruction.targets.get(index).and_then(|target| code.number(*target));
    match base {
        "PUSH" => Step::Push,
        "ACC" => Step::Acc(number),
        "CONST" | "CONSTINT" => Step::Const(number),
        "POP" | "ASSIGN" | "OFFSETINT" | "GETFIELD" | "SETFIELD" => Step::Numbered(base, number),
        "RETURN" | "STOP" => Step::Stop,
        "ENVACC" => Step::Kept(number),
        "CHECK_SIGNALS" => Step::Signals,
        "ULTINT" | "UGEINT" => Step::Unsigned(base),
        "BRANCH" | "BRANCHIF" | "BRANCHIFNOT" => label(0).map_or(Step::Other, |label| Step::Branch(base, label)),
        "BEQ" | "BNEQ" | "BLTINT" | "BLEINT" | "BGTINT" | "BGEINT" | "BULTINT" | "BUGEINT" => {
            label(0).map_or(Step::Other, |label| Step::Fused(base, instruction.word, label))
        }
        "SWITCH" if instruction.word >> 16 == 0 && !instruction.targets.is_empty() => {
            let labels = (0..instruction.targets.len()).map(label).collect::<Option<Vec<Label>>>();
            labels.map_or(Step::Other, Step::Switch)
        }
        "NEGINT" | "BOOLNOT" | "ADDINT" | "SUBINT" | "EQ" | "NEQ" | "LTINT" | "LEINT" | "GTINT" | "GEINT" => {
            Step::Plain(base)
        }
        "C_CALL" => match code.primitive(instruction) {
            Ok(Some(primitive)) => Step::Call(name, primitive.clone()),
            _ => Step::Other,
        },
        _ => Step::Other,
    }
}
