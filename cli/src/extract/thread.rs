//! Branches that land on a branch which the same condition decides go on to where that one leads, and what can no longer be reached is
//! left out. Targets alone change and no kind is exchanged, so no way costs more than before.
use super::body::{Body, Item, Step};
use super::notes::{Done, Note};

/// Steps without labels: the label of a branch is the index of the step that it leads to. None where a label leads nowhere.
pub fn resolved(body: &Body) -> Option<Vec<Item>> {
    let mut lines: Vec<Item> = Vec::new();
    let mut places = std::collections::BTreeMap::new();
    for item in &body.items {
        match item.step {
            Step::Label(label) => {
                places.insert(label, lines.len());
            }
            Step::Signals => {}
            _ => lines.push(item.clone()),
        }
    }
    let count = lines.len();
    for target in lines.iter_mut().flat_map(|line| line.step.targets_mut()) {
        *target = *places.get(target).filter(|place| **place < count)?;
    }
    Some(lines)
}

/// Where a branch of a kind goes on to from a branch that it lands on.
fn onward(kind: &str, place: usize, onto: &Step) -> Option<usize> {
    match (kind, onto) {
        (_, Step::Branch("BRANCH", target)) => Some(*target),
        ("BRANCHIF", Step::Branch("BRANCHIF", target)) => Some(*target),
        ("BRANCHIFNOT", Step::Branch("BRANCHIFNOT", target)) => Some(*target),
        ("BRANCHIF", Step::Branch("BRANCHIFNOT", _)) => Some(place + 1),
        ("BRANCHIFNOT", Step::Branch("BRANCHIF", _)) => Some(place + 1),
        _ => None,
    }
}

/// Threads the branches, all of which lead forwards.
pub fn thread(lines: &mut Vec<Item>, notes: &mut Vec<Note>) {
    for index in (0..lines.len()).rev() {
        let Step::Branch(kind, mut target) = lines[index].step else { continue };
        while let Some(further) = onward(kind, target, &lines[target].step).filter(|further| *further < lines.len()) {
            if let Step::Branch(onto, _) = lines[target].step {
                notes.push((lines[index].at, Done::Threaded(kind, onto)));
            }
            target = further;
        }
        lines[index].step = Step::Branch(kind, target);
    }
    leave_out_unreached(lines, notes);
}

fn leave_out_unreached(lines: &mut Vec<Item>, notes: &mut Vec<Note>) {
    let mut reached = vec![false; lines.len()];
    let mut next = vec![0];
    while let Some(index) = next.pop() {
        if index >= lines.len() || std::mem::replace(&mut reached[index], true) {
            continue;
        }
        next.extend(lines[index].step.targets());
        if lines[index].step.goes_on() {
            next.push(index + 1);
        }
    }
    let mut places = Vec::with_capacity(lines.len());
    let mut count = 0;
    for (line, reached) in lines.iter().zip(&reached) {
        places.push(count);
        count += usize::from(*reached);
        if !reached {
            notes.push((line.at, Done::Unreached));
        }
    }
    let mut kept = reached.iter();
    lines.retain(|_| *kept.next().unwrap_or(&false));
    for target in lines.iter_mut().flat_map(|line| line.step.targets_mut()) {
        *target = places[*target];
    }
}

/// Whether a branch lands on each line.
pub fn landings(lines: &[Item]) -> Vec<bool> {
    let mut landings = vec![false; lines.len()];
    for target in lines.iter().flat_map(|line| line.step.targets()) {
        landings[*target] = true;
    }
    landings
}
