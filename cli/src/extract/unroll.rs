//! A counted `for` whose ends are constants, written out: its turns one after another, the counter set before each. Any other jump
//! backwards is a fault.
use super::accumulator::Accumulator;
use super::body::{Body, Item, Label, Step};
use super::faults::{Fault, Found};
use super::notes::{Done, Note};
use std::collections::{BTreeMap, BTreeSet};
use std::ops::Range;

/// More steps than 1,024 lines can be made of.
const LONGEST: usize = 4096;

/// A counted loop among the items of a body.
struct For {
    from: i32,
    end: i32,
    down: bool,
    /// the comparison and the branch before the first turn
    test: Range<usize>,
    /// the items of a turn
    turn: Range<usize>,
    /// the items that count and jump back
    count: Range<usize>,
}

impl For {
    fn counters(&self) -> Vec<i32> {
        let range = if self.down { self.end..=self.from } else { self.from..=self.end };
        if self.down {
            range.rev().collect()
        } else {
            range.collect()
        }
    }

    /// How many steps there are at most when it is written out.
    fn length(&self, body: &Body) -> usize {
        self.turns().saturating_mul(self.turn.len() + 2).saturating_add(body.length())
    }

    fn turns(&self) -> usize {
        let (low, high) = if self.down { (self.end, self.from) } else { (self.from, self.end) };
        usize::try_from(i64::from(high) - i64::from(low) + 1).unwrap_or(0)
    }
}

/// Writes out every loop, the inner ones first, or finds what is wrong with them.
pub fn unroll(body: &mut Body, wanted: bool, notes: &mut Vec<Note>) -> Vec<Found> {
    let mut faults = Vec::new();
    let mut known = BTreeSet::new();
    while let Some(back) = first_back(body, &known) {
        let found = find(body, back);
        // where the loop begins
        let at = body.items[found.as_ref().map_or(head(body, back), |found| found.test.start)].at;
        match found {
            Some(found) if found.length(body) > LONGEST => faults.push((at, Fault::LongLoop(found.from, found.end))),
            Some(found) if !wanted => faults.push((at, Fault::NotUnrolled(found.from, found.end))),
            Some(found) if faults.is_empty() => {
                notes.push((at, Done::Unrolled(found.from, found.end, found.turns())));
                write_out(body, &found);
                continue;
            }
            Some(_) => {}
            None => faults.push((at, Fault::Loop)),
        }
        known.insert(body.items[back].at);
    }
    faults
}

/// The first branch to a label before it, of those that are not known yet: that of an innermost loop.
fn first_back(body: &Body, known: &BTreeSet<usize>) -> Option<usize> {
    let mut passed = BTreeSet::new();
    for (index, item) in body.items.iter().enumerate() {
        if let Step::Label(label) = item.step {
            passed.insert(label);
        }
        if !known.contains(&item.at) && item.step.targets().iter().any(|label| passed.contains(label)) {
            return Some(index);
        }
    }
    None
}

/// The first item before a branch that it leads back to.
fn head(body: &Body, back: usize) -> usize {
    let targets = body.items[back].step.targets();
    let is_head = |item: &Item| matches!(item.step, Step::Label(label) if targets.contains(&label));
    body.items[..back].iter().position(is_head).unwrap_or(back)
}

/// The loop that ends with the branch of that index, if it is one that the compiler makes of a `for` between constants.
fn find(body: &Body, back: usize) -> Option<For> {
    let items = &body.items;
    let Step::Branch("BRANCHIF", again) = items[back].step else { return None };
    let head = items.iter().position(|item| item.step == Step::Label(again))?;
    let count = back.checked_sub(6)?..back + 1;
    let step = |index: usize| items.get(index).map(|item| &item.step);
    let counts = [Step::Acc(1), Step::Push, Step::Numbered("OFFSETINT", 1), Step::Numbered("ASSIGN", 2), Step::Acc(1)];
    let down = step(count.start + 2) == Some(&Step::Numbered("OFFSETINT", -1));
    let same = |(index, wanted): (usize, &Step)| step(count.start + index) == Some(wanted) || (index == 2 && down);
    if !counts.iter().enumerate().all(same) || step(back - 1) != Some(&Step::Plain("NEQ")) {
        return None;
    }
    let Some(Step::Label(exit)) = step(back + 1) else { return None };
    let test = head.checked_sub(4)?..head;
    let compared = Step::Plain(if down { "LTINT" } else { "GTINT" });
    let tests = [Step::Push, Step::Acc(2), compared, Step::Branch("BRANCHIF", *exit)];
    if !tests.iter().enumerate().all(|(index, wanted)| step(test.start + index) == Some(wanted)) {
        return None;
    }
    let (end, before) = constant(items, test.start.checked_sub(1)?)?;
    let (from, _) = constant(items, before)?;
    let turn = head + 2..count.start;
    let found = For { from, end, down, test, turn, count };
    (step(head + 1) == Some(&Step::Signals) && is_closed(body, &found, again, *exit)).then_some(found)
}

/// The constant that the PUSH of that index pushes, and the index before it.
fn constant(items: &[Item], push: usize) -> Option<(i32, usize)> {
    if items[push].step != Step::Push {
        return None;
    }
    let mut more: i32 = 0;
    for index in (0..push).rev() {
        match items[index].step {
            Step::Numbered("OFFSETINT", number) => more = more.checked_add(number)?,
            Step::Const(number) => return Some((number.checked_add(more)?, index.saturating_sub(1))),
            _ => return None,
        }
    }
    None
}

/// How many entries a step leaves more on the stack.
fn growth(step: &Step) -> i32 {
    match step {
        Step::Push => 1,
        Step::Numbered("POP", count) => count.saturating_neg(),
        Step::Numbered("SETFIELD", _) => -1,
        Step::Plain("NEGINT" | "BOOLNOT") => 0,
        Step::Plain(_) => -1,
        Step::Call(name, _) => i32::from(b'1') - i32::from(name.as_bytes()[name.len() - 1]),
        _ => 0,
    }
}

/// Whether a turn leaves the stack as high as it was and sets neither the end nor the counter, which are on top before it.
fn keeps_counter(turn: &[Item]) -> bool {
    if turn.iter().any(|item| item.step == Step::Other) {
        // what has a fault is told by itself
        return true;
    }
    let mut heights: BTreeMap<Label, i32> = BTreeMap::new();
    let mut height = Some(0);
    for Item { step, .. } in turn {
        if let Step::Label(label) = step {
            let known = *heights.entry(*label).or_insert(height.unwrap_or(0));
            if height.is_some_and(|height| height != known) {
                return false;
            }
            height = Some(known);
        }
        let Some(before) = height else { continue };
        let after = before.saturating_add(growth(step));
        let sets =
            matches!(step, Step::Numbered("ASSIGN", entry) if (before..=before.saturating_add(1)).contains(entry));
        let unlike = |label: &Label| *heights.entry(*label).or_insert(after) != after;
        if sets || after < 0 || step.targets().iter().any(unlike) {
            return false;
        }
        height = step.goes_on().then_some(after);
    }
    height == Some(0)
}

/// Whether the loop is left and entered at its ends alone, and the accumulator is set before it is read in a turn and behind the loop.
fn is_closed(body: &Body, found: &For, again: Label, exit: Label) -> bool {
    let places = body.places();
    let within = |label: &Label| places.get(label).is_some_and(|place| found.turn.contains(place));
    let stays = |(index, item): (usize, &Item)| match found.turn.contains(&index) {
        true => item.step.targets().iter().all(within),
        false => !item.step.targets().iter().any(within),
    };
    let jumps = |label: Label| body.items.iter().filter(|item| item.step.targets().contains(&label)).count();
    let accumulator = Accumulator::of(body);
    body.items.iter().enumerate().all(stays)
        && jumps(again) == 1
        && keeps_counter(&body.items[found.turn.clone()])
        && accumulator.is_set_at(found.turn.start)
        && accumulator.is_set_from(exit)
}

fn write_out(body: &mut Body, found: &For) {
    let items = std::mem::take(&mut body.items);
    let at = items[found.count.start].at;
    let mut made = items[..found.test.start].to_vec();
    for (turn, counter) in found.counters().into_iter().enumerate() {
        if turn > 0 {
            made.extend([Step::Const(counter), Step::Numbered("ASSIGN", 1)].map(|step| Item { at, step }));
        }
        copy(body, &items[found.turn.clone()], &mut made);
    }
    made.extend_from_slice(&items[found.count.end..]);
    body.items = made;
    body.tidy();
}

/// A copy of items with labels of its own.
fn copy(body: &mut Body, items: &[Item], made: &mut Vec<Item>) {
    let mut labels = BTreeMap::new();
    for item in items {
        if let Step::Label(label) = item.step {
            labels.insert(label, body.label());
        }
    }
    for item in items {
        let mut item = item.clone();
        if let Step::Label(label) = &mut item.step {
            *label = labels[label];
        }
        for target in item.step.targets_mut() {
            *target = labels.get(target).copied().unwrap_or(*target);
        }
        made.push(item);
    }
}
