//! The bound: the tree of steps explored, with refusals 7, 8 and 9.
use crate::machine::{Cell, Handles, Next, State};
use crate::routine::{refused, Line, Refusal, Routine};

pub const OPENINGS: u32 = 32;

/// The decisions at unknown branches, the first in the lowest bit; 1 is taken.
#[derive(Clone, Copy, PartialEq, Debug)]
pub struct Path {
    pub taken: u64,
    pub length: u32,
}

/// The figures of a tree, or of the part of it under a state.
#[derive(Clone, Copy, PartialEq, Debug)]
pub struct Figures {
    pub cycles: u64,
    pub words: u64,
    pub depth: usize,
    pub steps: u64,
    pub path: Path,
}

/// What is noted of a step in the bound.
pub enum Event<'a> {
    /// a step is about to be made
    Steps { state: &'a State, line: &'a Line },
    /// a conditional branch jumps on a known condition
    Jumped { extra: u64 },
    /// it opens two ways on an unknown one, with the cycles of both, the extra not counted
    Opened { at: u32, extra: u64, not_taken: u64, taken: u64 },
    /// an operation on two cells meets a handle
    Met { handles: Handles, stuck: bool },
}

struct Explorer<'a, F> {
    routine: &'a Routine,
    steps: u64,
    note: F,
}

/// The bound from a state, with all of BUDGET and all openings to use.
pub fn bound(routine: &Routine, state: State) -> Result<Figures, Refusal> {
    explored(routine, state, |_| ()).0
}

/// The bound, and how many steps were looked at, also where it is refused; `note` is told of each event.
pub fn explored(routine: &Routine, state: State, note: impl FnMut(Event<'_>)) -> (Result<Figures, Refusal>, u64) {
    let mut explorer = Explorer { routine, steps: 0, note };
    let mut answer = explorer.walk(state, OPENINGS);
    if let Ok(figures) = &mut answer {
        figures.steps = explorer.steps;
    }
    (answer, explorer.steps)
}

impl<F: FnMut(Event<'_>)> Explorer<'_, F> {
    fn walk(&mut self, mut state: State, openings: u32) -> Result<Figures, Refusal> {
        let (mut cycles, mut words, mut depth) = (0, 0, state.height);
        loop {
            let at = state.at;
            if self.steps == self.routine.budget {
                return refused(9, at as usize);
            }
            self.steps += 1;
            let Some(line) = self.routine.code.get(at.wrapping_sub(self.routine.first) as usize) else {
                return refused(7, at as usize);
            };
            cycles += line.cycles;
            words += line.words;
            (self.note)(Event::Steps { state: &state, line });
            let handles = state.handles(line);
            let next = state.step(line, || Cell::UNKNOWN);
            if let Some(handles) = handles {
                (self.note)(Event::Met { handles, stuck: next.is_none() });
            }
            match next {
                None => return refused(7, at as usize),
                Some(Next::Goes) => depth = depth.max(state.height),
                Some(Next::Jumps) => {
                    cycles += line.extra;
                    (self.note)(Event::Jumped { extra: line.extra });
                }
                Some(Next::Stops) => {
                    return Ok(Figures { cycles, words, depth, steps: 0, path: Path { taken: 0, length: 0 } });
                }
                Some(Next::Opens(target)) => {
                    if openings == 0 {
                        return refused(8, at as usize);
                    }
                    let mut taken = state.clone();
                    taken.at = target;
                    let n = self.walk(state, openings - 1)?;
                    let t = self.walk(taken, openings - 1)?;
                    (self.note)(Event::Opened { at, extra: line.extra, not_taken: n.cycles, taken: t.cycles });
                    let jump = line.extra + t.cycles;
                    let worst = if n.cycles > jump { &n } else { &t };
                    return Ok(Figures {
                        cycles: cycles + n.cycles.max(jump),
                        words: words + n.words.max(t.words),
                        depth: depth.max(n.depth).max(t.depth),
                        steps: 0,
                        path: Path {
                            taken: worst.path.taken << 1 | (n.cycles <= jump) as u64,
                            length: worst.path.length + 1,
                        },
                    });
                }
            }
        }
    }
}
