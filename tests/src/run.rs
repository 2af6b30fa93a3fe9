//! A run of the plain machine, step by step.
use crate::machine::{Cell, Next, State};
use crate::routine::{refused, Refusal, Routine};

#[derive(Clone)]
pub struct Run {
    pub state: State,
    pub answers: std::collections::VecDeque<i32>,
    pub cycles: u64,
    pub words: u64,
    pub depth: usize,
    pub steps: u64,
    pub stopped: bool,
}

impl Run {
    pub fn new(state: State, answers: &[i32]) -> Run {
        let depth = state.height;
        Run { state, answers: answers.iter().copied().collect(), cycles: 0, words: 0, depth, steps: 0, stopped: false }
    }

    /// One step; none follows STOP. None is stuck.
    pub fn step(&mut self, routine: &Routine) -> Option<()> {
        if self.stopped {
            return Some(());
        }
        let line = routine.code.get(self.state.at.wrapping_sub(routine.first) as usize)?;
        let answers = &mut self.answers;
        match self.state.step(line, || Cell::number(answers.pop_front().unwrap_or(0)))? {
            Next::Goes => self.depth = self.depth.max(self.state.height),
            Next::Jumps => self.cycles += line.extra,
            Next::Stops => self.stopped = true,
            Next::Opens(_) => unreachable!("a cell of a run is one number or a handle"),
        }
        self.cycles += line.cycles;
        self.words += line.words;
        self.steps += 1;
        Some(())
    }
}

/// The run that a file gives whose cells are single numbers and handles, made to its end.
pub fn run(routine: &Routine) -> Result<Run, Refusal> {
    let mut run = Run::new(routine.start.clone(), &routine.answers);
    while !run.stopped {
        let at = run.state.at as usize;
        if run.steps == routine.budget {
            return refused(9, at);
        }
        if run.step(routine).is_none() {
            return refused(7, at);
        }
    }
    Ok(run)
}
