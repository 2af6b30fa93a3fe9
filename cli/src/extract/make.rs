//! The lines of a function: as it stands, or lowered. Where there are faults, all of them.
use super::accumulator::Accumulator;
use super::body::Body;
use super::check::Check;
use super::closure::Kept;
use super::faults::{Fault, Found};
use super::lines::{as_they_stand, joined, Line};
use super::lower::Lowering;
use super::notes::Note;
use super::routine::{called, ENTRIES, LINES, PRIMITIVES};
use super::source::{Compiled, Lines};
use super::thread::{resolved, thread};
use super::unroll::unroll;

/// What is asked for.
#[derive(Clone, Copy)]
pub struct Wanted {
    pub lowers: bool,
    pub unrolls: bool,
}

pub struct Made {
    pub lines: Vec<Line>,
    pub notes: Vec<Note>,
}

/// Functions of more instructions are not lowered: no routine has so many lines.
const LONGEST: usize = 1 << 14;

/// The lines of a function. Of one that is not extracted as it stands, the faults are told that lowering would leave, too.
pub fn made(compiled: &Compiled, index: usize, kept: &Kept, lines: &Lines, wanted: Wanted) -> Result<Made, Vec<Found>> {
    let found = attempted(compiled, index, kept, lines, wanted);
    let lowered = Wanted { lowers: true, unrolls: true };
    match found {
        Err(faults) if !wanted.lowers => match attempted(compiled, index, kept, lines, lowered) {
            Ok(_) => Err(faults),
            Err(left) => Err(with_left(faults, left)),
        },
        found => found,
    }
}

/// Faults, and those that lowering would leave. That a loop could be written out is not said of one that cannot.
fn with_left(mut faults: Vec<Found>, left: Vec<Found>) -> Vec<Found> {
    if left.iter().any(|(_, fault)| matches!(fault, Fault::Loop | Fault::LongLoop(..))) {
        faults.retain(|(_, fault)| !matches!(fault, Fault::NotLowered("CHECK_SIGNALS") | Fault::Backwards(_)));
    }
    let more: Vec<Found> = left.into_iter().filter(|fault| !faults.contains(fault)).collect();
    faults.extend(more);
    faults.sort_by_key(|(at, _)| *at);
    faults
}

fn attempted(
    compiled: &Compiled,
    index: usize,
    kept: &Kept,
    lines: &Lines,
    wanted: Wanted,
) -> Result<Made, Vec<Found>> {
    let function = &compiled.functions[index];
    let kept = |place: i32| kept.number(function.address, place);
    let named = |at: usize, place: i32| lines.kept(at, place);
    let lowers = wanted.lowers;
    let mut faults = Check { code: compiled.code, function, lowers, kept: &kept, named: &named }.faults();
    if function.arguments > ENTRIES {
        faults.push((function.address, Fault::Many("arguments", function.arguments, ENTRIES)));
    }
    if function.body.len() > LONGEST {
        faults.push((function.address, Fault::Many("instructions", function.body.len(), LINES)));
        return Err(faults);
    }
    let mut body = Body::of(compiled.code, function);
    let mut notes = Vec::new();
    let begins_set = Accumulator::of(&body).is_set_at(0);
    if wanted.lowers {
        let mut lowering = Lowering { kept: &kept, notes: Vec::new(), faults: Vec::new() };
        lowering.lower(&mut body);
        (faults, notes) = ([faults, lowering.faults].concat(), lowering.notes);
        faults.extend(unroll(&mut body, wanted.unrolls, &mut notes));
    }
    if faults.is_empty() && !begins_set {
        faults.push((function.address, Fault::Accumulator));
    }
    if !faults.is_empty() {
        faults.sort_by_key(|(at, _)| *at);
        return Err(faults);
    }
    let lines = match wanted.lowers {
        true => threaded(&body, &mut notes).ok_or_else(|| vec![(function.address, Fault::Odd("a label"))])?,
        false => as_they_stand(compiled.code, function),
    };
    within_limits(function.address, &lines)?;
    Ok(Made { lines, notes })
}

fn threaded(body: &Body, notes: &mut Vec<Note>) -> Option<Vec<Line>> {
    let mut items = resolved(body)?;
    thread(&mut items, notes);
    joined(&items)
}

fn within_limits(address: usize, lines: &[Line]) -> Result<(), Vec<Found>> {
    let counts = [("primitives", called(lines).len(), PRIMITIVES), ("instructions", lines.len(), LINES)];
    let over = counts.into_iter().filter(|(_, count, most)| count > most);
    let faults: Vec<Found> = over.map(|(what, count, most)| (address, Fault::Many(what, count, most))).collect();
    match faults.is_empty() {
        true => Ok(()),
        false => Err(faults),
    }
}
