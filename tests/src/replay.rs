//! The replay of a card's trace (change request 4): the reader of a trace, with its refusals 1, 2 and 3, and the first line that differs.
use crate::report::{Answer, MEMORY};
use crate::routine::{number, read, refused, Refusal, Routine};
use crate::run::Run;

pub const TRACE_LIMIT: usize = 131_072;
/// The most lines after the names line.
pub const TRACE_LINES: usize = 4096;
pub const NAMES: &str = "AT CYCLES";
pub const LAST_AT: u64 = 62_000;
pub const MOST_CYCLES: u64 = 4_000_000_000;

/// A step as the card records it.
#[derive(Clone, Copy, PartialEq, Debug)]
pub struct Recorded {
    pub at: u64,
    pub cycles: u64,
}

/// Why a line differs from the step that it is held against.
#[derive(Clone, Copy, PartialEq, Debug)]
pub enum Difference {
    AfterStop,
    Stuck,
    Address,
    Cycles,
}

/// Row 2: the numbers of the lines after the names line.
fn layout(trace: &[u8]) -> Result<Vec<[i64; 2]>, Refusal> {
    if trace.is_empty() {
        return refused(2, 1);
    }
    let mut lines = Vec::new();
    for (i, line) in trace.split_inclusive(|b| *b == b'\n').enumerate() {
        let n = i + 1;
        let Some(line) = line.strip_suffix(b"\n") else {
            return refused(2, n);
        };
        if n == 1 {
            if line != NAMES.as_bytes() {
                return refused(2, n);
            }
            continue;
        }
        let mut words = line.split(|b| *b == b' ').map(number);
        match (words.next(), words.next(), words.next()) {
            (Some(Some(at)), Some(Some(cycles)), None) if n <= 1 + TRACE_LINES => lines.push([at, cycles]),
            _ => return refused(2, n),
        }
    }
    Ok(lines)
}

/// The steps that a trace records, or its refusal.
pub fn recorded(trace: &[u8]) -> Result<Vec<Recorded>, Refusal> {
    if trace.len() > TRACE_LIMIT {
        return refused(1, 0);
    }
    let within = |number: i64, most: u64| u64::try_from(number).ok().filter(|n| *n <= most);
    let mut steps = Vec::new();
    for (i, [at, cycles]) in layout(trace)?.into_iter().enumerate() {
        let (Some(at), Some(cycles)) = (within(at, LAST_AT), within(cycles, MOST_CYCLES)) else {
            return refused(3, i + 2);
        };
        steps.push(Recorded { at, cycles });
    }
    Ok(steps)
}

/// The number of the first line that differs from the run of a routine, and why it does. The names line is line 1, and BUDGET plays no
/// part.
pub fn difference(routine: &Routine, trace: &[Recorded]) -> Option<(usize, Difference)> {
    let mut run = Run::new(routine.start.clone(), &routine.answers);
    trace.iter().enumerate().find_map(|(i, line)| {
        let (at, spent) = (run.state.at as u64, run.cycles);
        let why = if run.stopped {
            Difference::AfterStop
        } else if run.step(routine).is_none() {
            Difference::Stuck
        } else if line.at != at {
            Difference::Address
        } else if line.cycles > run.cycles - spent {
            Difference::Cycles
        } else {
            return None;
        };
        Some((i + 2, why))
    })
}

pub fn agrees() -> Answer {
    Ok(b"AGREES\n".to_vec())
}

pub fn differs(line: usize) -> Answer {
    Ok(format!("DIFFERS {line}\n").into_bytes())
}

/// The answer of the replay for a text, a trace and a length of lent memory.
pub fn replay_answer(text: &[u8], trace: &[u8], lent: usize) -> Answer {
    if lent < MEMORY {
        return refused(10, 0);
    }
    let routine = read(text, true)?;
    let steps = recorded(trace)?;
    difference(&routine, &steps).map_or_else(agrees, |(line, _)| differs(line))
}
