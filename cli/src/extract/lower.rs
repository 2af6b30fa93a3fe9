//! Steps of the 61 kinds for those that are none: comparisons joined with a branch, comparisons without sign, a SWITCH over constants,
//! values that the unit's beginning sets to a literal, and CHECK_SIGNALS. What the compiler had before it joined them comes back.
use super::accumulator::Accumulator;
use super::body::{Body, Item, Label, Step};
use super::faults::{Fault, Found};
use super::notes::{Done, Note};
use super::opcodes::NUMBERS;

/// What is made of a body.
pub struct Lowering<'a> {
    /// the number that each place of the closure holds, where it is known
    pub kept: &'a dyn Fn(i32) -> Option<i32>,
    pub notes: Vec<Note>,
    pub faults: Vec<Found>,
}

impl Lowering<'_> {
    pub fn lower(&mut self, body: &mut Body) {
        self.check_accumulator(body);
        let items = std::mem::take(&mut body.items);
        let mut made = Vec::with_capacity(items.len());
        for (index, item) in items.iter().enumerate() {
            let following = match items.get(index + 1).map(|item| &item.step) {
                Some(Step::Label(label)) => Some(*label),
                _ => None,
            };
            self.item(body, item, following, &mut made);
        }
        body.items = made;
        body.tidy();
    }

    /// A joined comparison and a SWITCH leave what they compare in the accumulator, and what is made of them does not.
    fn check_accumulator(&mut self, body: &Body) {
        let accumulator = Accumulator::of(body);
        for (index, item) in body.items.iter().enumerate() {
            let changes = matches!(item.step, Step::Fused(..) | Step::Switch(_));
            let next = !matches!(item.step, Step::Fused(..)) || accumulator.is_set_at(index + 1);
            if changes && !(next && item.step.targets().iter().all(|label| accumulator.is_set_from(*label))) {
                self.faults.push((item.at, Fault::Accumulator));
            }
        }
    }

    fn item(&mut self, body: &mut Body, item: &Item, following: Option<Label>, made: &mut Vec<Item>) {
        let at = item.at;
        let steps = match &item.step {
            Step::Fused(name @ ("BULTINT" | "BUGEINT"), number, label) => {
                self.unsigned_branch(at, name, *number, *label)
            }
            Step::Fused(name, number, label) => self.branch(at, name, *number, *label),
            Step::Unsigned(name) => self.unsigned(at, name, made),
            Step::Switch(labels) => {
                self.notes.push((at, Done::Switch(labels.len())));
                switch(body, labels, following)
            }
            Step::Kept(place) => match (self.kept)(*place) {
                Some(number) => {
                    self.notes.push((at, Done::Kept(*place, number)));
                    vec![Step::Const(number)]
                }
                None => vec![Step::Other],
            },
            Step::Signals => {
                self.notes.push((at, Done::Signals));
                // CHECK_SIGNALS tells a loop, and is left out at the end
                vec![Step::Signals]
            }
            step => vec![step.clone()],
        };
        made.extend(steps.into_iter().map(|step| Item { at, step }));
    }

    fn branch(&mut self, at: usize, name: &'static str, number: i32, label: Label) -> Vec<Step> {
        if !NUMBERS.contains(&number) {
            self.faults.push((at, Fault::Large(i64::from(number))));
        }
        self.notes.push((at, Done::Fused(name, number)));
        let compared = Step::Plain(&name[1..]);
        vec![Step::Push, Step::Const(number), compared, Step::Branch("BRANCHIF", label)]
    }

    fn unsigned_branch(&mut self, at: usize, name: &'static str, number: i32, label: Label) -> Vec<Step> {
        if !(0..=*NUMBERS.end()).contains(&number) {
            self.faults.push((at, Fault::Unsigned(name, number)));
        }
        self.notes.push((at, Done::Fused(name, number)));
        let kind = if name == "BULTINT" { "BRANCHIF" } else { "BRANCHIFNOT" };
        let mut steps = outside(number);
        steps.push(Step::Branch(kind, label));
        steps
    }

    /// ULTINT and UGEINT of a number that stands before it.
    fn unsigned(&mut self, at: usize, name: &'static str, made: &mut Vec<Item>) -> Vec<Step> {
        let number = match made.as_slice() {
            [.., Item { step: Step::Push, .. }, Item { step: Step::Const(number), .. }] => *number,
            _ => {
                self.faults.push((at, Fault::UnsignedUnknown(name)));
                return vec![Step::Other];
            }
        };
        if number < 0 {
            self.faults.push((at, Fault::Unsigned(name, number)));
        }
        made.truncate(made.len() - 2);
        self.notes.push((at, Done::Fused(name, number)));
        let mut steps = outside(number);
        if name == "UGEINT" {
            steps.push(Step::Plain("BOOLNOT"));
        }
        steps
    }
}

/// 1 where the accumulator is below 0 or above the number, which is not negative, and 0 otherwise.
fn outside(number: i32) -> Vec<Step> {
    vec![
        Step::Push,
        Step::Push,
        Step::Const(0),
        Step::Plain("GTINT"),
        Step::Push,
        Step::Acc(1),
        Step::Push,
        Step::Const(number),
        Step::Plain("LTINT"),
        Step::Plain("ADDINT"),
        Step::Numbered("POP", 1),
    ]
}

/// The accumulator compared with the number of each case in their order. A case that leads where the last one leads needs no test, and
/// the last has none. The accumulator is saved; the last comparison takes the saved entry, and a POP on every other way.
fn switch(body: &mut Body, labels: &[Label], following: Option<Label>) -> Vec<Step> {
    let last = labels[labels.len() - 1];
    let tests: Vec<(i32, Label)> = (0..).zip(labels.iter().copied()).filter(|(_, label)| *label != last).collect();
    let Some(((number, label), others)) = tests.split_last() else {
        return vec![Step::Branch("BRANCH", last)];
    };
    let mut steps = vec![Step::Push];
    let mut stubs: Vec<(Label, Label)> = Vec::new();
    for (index, (number, label)) in others.iter().enumerate() {
        let stub = match stubs.iter().find(|(target, _)| target == label) {
            Some((_, stub)) => *stub,
            None => {
                stubs.push((*label, body.label()));
                stubs[stubs.len() - 1].1
            }
        };
        if index > 0 {
            steps.push(Step::Acc(0));
        }
        steps.extend([Step::Push, Step::Const(*number), Step::Plain("EQ"), Step::Branch("BRANCHIF", stub)]);
    }
    steps.extend([Step::Const(*number), Step::Plain("EQ"), Step::Branch("BRANCHIF", *label)]);
    if following != Some(last) || !stubs.is_empty() {
        steps.push(Step::Branch("BRANCH", last));
    }
    // the one that leads to the step behind the SWITCH goes last, and needs no branch
    stubs.sort_by_key(|(target, _)| Some(*target) == following);
    for (target, stub) in stubs {
        steps.extend([Step::Label(stub), Step::Numbered("POP", 1)]);
        if Some(target) != following {
            steps.push(Step::Branch("BRANCH", target));
        }
    }
    steps
}
