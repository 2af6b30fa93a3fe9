//! Whether the accumulator is set before it is read. Lowering leaves another number in it than the compiler's own instruction does, and
//! a routine begins with 0 in it, where a function has its closure there.
use super::body::{Body, Label, Step};
use std::collections::{BTreeMap, BTreeSet};

pub struct Accumulator<'a> {
    body: &'a Body,
    places: BTreeMap<Label, usize>,
}

impl<'a> Accumulator<'a> {
    pub fn of(body: &'a Body) -> Accumulator<'a> {
        Accumulator { body, places: body.places() }
    }

    /// Whether every way from the label sets it before it reads it.
    pub fn is_set_from(&self, label: Label) -> bool {
        self.places.get(&label).is_some_and(|place| self.is_set_at(*place))
    }

    /// The same from the item of that index on.
    pub fn is_set_at(&self, index: usize) -> bool {
        let mut next = vec![index];
        let mut seen = BTreeSet::new();
        while let Some(index) = next.pop() {
            if !seen.insert(index) {
                continue;
            }
            let Some(item) = self.body.items.get(index) else { return false };
            match &item.step {
                // what has a fault is told by itself
                Step::Acc(_) | Step::Const(_) | Step::Kept(_) | Step::Other => {}
                Step::Branch("BRANCH", label) => match self.places.get(label) {
                    Some(place) => next.push(*place),
                    None => return false,
                },
                Step::Label(_) | Step::Signals | Step::Numbered("POP", _) => next.push(index + 1),
                _ => return false,
            }
        }
        true
    }
}
