//! Where ways meet in the files compared, of change request 9.
use crate::compare::{figures, number, Answers};
use independent::bound::{explored, Event as Step};
use independent::machine::{Cell, State};
use independent::merge::{cell, passed, Clash, Event};
use independent::routine::read;
use std::collections::BTreeSet;

const CLASHES: [(Clash, &str); 5] = [
    (Clash::Heights, "a 14 by unlike heights"),
    (Clash::UnlikeHandles, "a 14 by unlike handles"),
    (Clash::HandleBesideNumber, "a 14 by a handle beside a number"),
    (Clash::HandleBesideRange, "a 14 by a handle beside a range"),
    (Clash::HandleBesideUnknown, "a 14 by a handle beside an unknown"),
];

/// Numbers of files.
#[derive(Default)]
pub struct Merges {
    accepted: u64,
    /// where the first bound is refused by 8, by 9
    openings: u64,
    budget: u64,
    /// refused by 14, by what clashes: of one cause alone
    clashes: [u64; 5],
    /// that clash in the accumulator, in an entry, in a field
    places: [u64; 3],
    /// refused by 14, where the first bound accepts
    only_here: u64,
    /// refused by 14 where each state alone is stuck
    before_stuck: u64,
    /// refused by 7: inside the code, after its last address
    stuck: u64,
    fallen: u64,
    /// by 7, where the first bound accepts: a way that only the merge opens
    stuck_only_here: u64,
    /// accepted by both: a branch that opens here and in no state of the first bound
    opened: u64,
    /// the report is greater: in cycles, in words, in depth
    greater: [u64; 3],
    /// accepted by both, with a meeting of two states or more
    met: u64,
}

/// The causes for which states do not meet, and where: in the accumulator, an entry, a field.
fn clashes(states: &[State]) -> (Vec<Clash>, [bool; 3]) {
    let height = states[0].height;
    if states.iter().any(|state| state.height != height) {
        return (vec![Clash::Heights], [false; 3]);
    }
    let mut causes = Vec::new();
    let mut places = [false; 3];
    let mut look = |place: usize, of: &dyn Fn(&State) -> Cell| {
        if let Err(clash) = cell(of(&states[0]), states[1..].iter().map(of)) {
            places[place] = true;
            if !causes.contains(&clash) {
                causes.push(clash);
            }
        }
    };
    look(0, &|state| state.accumulator);
    (0..height).for_each(|entry| look(1, &|state| state.stack[entry]));
    (0..states[0].fields.len()).for_each(|field| look(2, &|state| state.fields[field]));
    (causes, places)
}

impl Merges {
    pub fn note(&mut self, text: &[u8], Answers { bound, merge, .. }: &Answers) {
        let Ok(routine) = read(text, false) else {
            return;
        };
        let mut last: Vec<State> = Vec::new();
        let (mut opens, mut met) = (BTreeSet::new(), false);
        let _ = passed(&routine, routine.start.clone(), |event| match event {
            Event::Came { states, .. } => {
                last = states.to_vec();
                met |= states.len() > 1;
            }
            Event::Opens { at } => {
                opens.insert(at);
            }
        });
        match merge {
            Ok(report) => {
                self.accepted += 1;
                self.openings += (number(bound) == 8) as u64;
                self.budget += (number(bound) == 9) as u64;
                if let Ok(first) = bound {
                    self.met += met as u64;
                    for (i, (a, b)) in figures(first).iter().zip(figures(report)).take(3).enumerate() {
                        self.greater[i] += (*a < b) as u64;
                    }
                    let _ = explored(&routine, routine.start.clone(), |event| {
                        if let Step::Opened { at, .. } = event {
                            opens.remove(&at);
                        }
                    });
                    self.opened += !opens.is_empty() as u64;
                }
            }
            Err(refusal) if refusal.number == 14 => {
                let (causes, places) = clashes(&last);
                if let [cause] = causes[..] {
                    self.clashes[CLASHES.iter().position(|c| c.0 == cause).unwrap()] += 1;
                }
                // of one place alone
                if places.iter().filter(|here| **here).count() == 1 {
                    (0..3).for_each(|i| self.places[i] += places[i] as u64);
                }
                self.only_here += bound.is_ok() as u64;
                let line = routine.code.get((refusal.place - routine.first) as usize);
                let stuck = |state: &State| line.is_none_or(|l| state.clone().step(l, || Cell::UNKNOWN).is_none());
                self.before_stuck += last.iter().all(stuck) as u64;
            }
            Err(refusal) => {
                let inside = ((refusal.place - routine.first) as usize) < routine.code.len();
                self.stuck += inside as u64;
                self.fallen += !inside as u64;
                self.stuck_only_here += bound.is_ok() as u64;
            }
        }
    }

    pub fn counts(&self) -> Vec<(&'static str, u64)> {
        let mut counts = vec![
            ("a report of the merging bound", self.accepted),
            ("a report of both bounds where ways meet", self.met),
            ("a report of the merging bound, the first refused by 8", self.openings),
            ("a report of the merging bound, the first refused by 9", self.budget),
            ("a 14 in the accumulator alone", self.places[0]),
            ("a 14 in entries alone", self.places[1]),
            ("a 14 in fields alone", self.places[2]),
            ("a 14 where the first bound accepts", self.only_here),
            ("a 14 where each way is stuck", self.before_stuck),
            ("a 7 of the merging bound inside the code", self.stuck),
            ("a 7 of the merging bound after the last address", self.fallen),
            ("a 7 of the merging bound where the first accepts", self.stuck_only_here),
            ("a branch that only the merge opens", self.opened),
            ("more cycles by the merging bound", self.greater[0]),
            ("more words by the merging bound", self.greater[1]),
            ("more depth by the merging bound", self.greater[2]),
        ];
        counts.extend(CLASHES.into_iter().zip(self.clashes).map(|((_, name), count)| (name, count)));
        counts
    }
}
