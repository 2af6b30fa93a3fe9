//! The merging bound of change requests 9 and 12: first the states that come to each address, in rising order, merged where ways meet;
//! then, from the last address back to the first, what can still be spent.
use crate::bound::{Figures, Path};
use crate::machine::{Cell, Next, State};
use crate::range::Range;
use crate::routine::{refused, Line, Refusal, Routine};

/// Why states that meet are not merged.
#[derive(Clone, Copy, PartialEq, Debug)]
pub enum Clash {
    Heights,
    UnlikeHandles,
    HandleBesideNumber,
    HandleBesideRange,
    HandleBesideUnknown,
}

/// What is noted in the pass.
pub enum Event<'a> {
    /// these states have come to an address, all that will
    Came { at: u32, states: &'a [State] },
    /// a branch opens two ways
    Opens { at: u32 },
}

/// An address that is reached: its line, the height of its merged state, and the places in the code where its ways go on, of which STOP
/// has none and a branch that opens has both.
pub struct Reached<'a> {
    pub line: &'a Line,
    pub height: usize,
    pub next: Option<usize>,
    /// after a conditional branch that has jumped
    pub jump: Option<usize>,
}

/// "equal cells stay"; of numbers and ranges "A merge takes the smallest range that covers both"; "a cell is a handle on one way and anything
/// else on the other" is a clash.
pub fn cell(first: Cell, others: impl Iterator<Item = Cell> + Clone) -> Result<Cell, Clash> {
    if others.clone().all(|cell| cell == first) {
        return Ok(first);
    }
    let all = std::iter::once(first).chain(others);
    if all.clone().all(|cell| cell.range().is_some()) {
        let covering = all.filter_map(Cell::range).reduce(Range::covering);
        return Ok(Cell::of(covering.unwrap()));
    }
    let some = |is: fn(&Cell) -> bool| all.clone().any(|cell| is(&cell));
    if some(|cell| *cell == Cell::UNKNOWN) {
        Err(Clash::HandleBesideUnknown)
    } else if some(|cell| matches!(cell, Cell::Within(_))) {
        Err(Clash::HandleBesideRange)
    } else if some(|cell| matches!(cell, Cell::Number(_))) {
        Err(Clash::HandleBesideNumber)
    } else {
        Err(Clash::UnlikeHandles)
    }
}

/// The merge of all states that have come to an address, of which there is one at least.
pub fn merged(mut states: Vec<State>) -> Result<State, Clash> {
    let mut state = states.pop().unwrap();
    if states.iter().any(|other| other.height != state.height) {
        return Err(Clash::Heights);
    }
    if states.is_empty() {
        return Ok(state);
    }
    state.accumulator = cell(state.accumulator, states.iter().map(|s| s.accumulator))?;
    for entry in 0..state.height {
        state.stack[entry] = cell(state.stack[entry], states.iter().map(|s| s.stack[entry]))?;
    }
    for field in 0..state.fields.len() {
        state.fields[field] = cell(state.fields[field], states.iter().map(|s| s.fields[field]))?;
    }
    Ok(state)
}

/// The merging bound from a state.
pub fn merge(routine: &Routine, start: State) -> Result<Figures, Refusal> {
    passed(routine, start, |_| ())
}

/// The same; `note` is told of each event.
pub fn passed(routine: &Routine, start: State, note: impl FnMut(Event<'_>)) -> Result<Figures, Refusal> {
    let begin = (start.at - routine.first) as usize;
    let reached = reached(routine, start, note)?;
    let [cycles, words] = spent(&reached)[begin];
    let depth = reached.iter().flatten().map(|ways| ways.height).max().unwrap();
    let steps = reached.iter().flatten().count() as u64;
    Ok(Figures { cycles, words, depth, steps, path: Path { taken: 0, length: 0 } })
}

/// What is reached at each place of the code, and after it, from a state.
pub fn reached<'a>(
    routine: &'a Routine,
    start: State,
    mut note: impl FnMut(Event<'_>),
) -> Result<Vec<Option<Reached<'a>>>, Refusal> {
    let place = |at: u32| (at - routine.first) as usize;
    // one place more than there is code: after the last address
    let mut coming: Vec<Vec<State>> = vec![Vec::new(); routine.code.len() + 1];
    let mut reached: Vec<Option<Reached>> = Vec::new();
    coming[place(start.at)].push(start);
    for n in 0..coming.len() {
        reached.push(None);
        let at = routine.first + n as u32;
        let states = std::mem::take(&mut coming[n]);
        if states.is_empty() {
            continue;
        }
        note(Event::Came { at, states: &states });
        let Ok(mut state) = merged(states) else {
            return refused(14, at as usize);
        };
        let height = state.height;
        let Some(line) = routine.code.get(n) else {
            return refused(7, at as usize);
        };
        let Some(next) = state.step(line, || Cell::UNKNOWN) else {
            return refused(7, at as usize);
        };
        let mut ways = Reached { line, height, next: None, jump: None };
        match next {
            Next::Stops => {}
            Next::Goes => ways.next = Some(place(state.at)),
            Next::Jumps => ways.jump = Some(place(state.at)),
            Next::Opens(target) => {
                note(Event::Opens { at });
                (ways.next, ways.jump) = (Some(place(state.at)), Some(place(target)));
                coming[place(target)].push(State { at: target, ..state.clone() });
            }
        }
        if let Some(to) = ways.next.or(ways.jump) {
            coming[to].push(state);
        }
        reached[n] = Some(ways);
    }
    Ok(reached)
}

/// The most cycles and the most words from each place to any STOP; 0 where nothing comes.
pub fn spent(reached: &[Option<Reached>]) -> Vec<[u64; 2]> {
    let mut most = vec![[0, 0]; reached.len()];
    for (n, ways) in reached.iter().enumerate().rev() {
        let Some(Reached { line, next, jump, .. }) = ways else {
            continue;
        };
        let next = next.map_or([0, 0], |to| most[to]);
        let jump = jump.map_or([0, 0], |to| [line.extra + most[to][0], most[to][1]]);
        most[n] = [line.cycles + next[0].max(jump[0]), line.words + next[1].max(jump[1])];
    }
    most
}
