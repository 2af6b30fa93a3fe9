//! What is answered: a report's bytes, or a refusal.
use crate::bound::{bound, Figures};
use crate::merge::merge;
use crate::routine::{read, refused, Refusal};
use crate::run::run;

pub const MEMORY: usize = 128;

pub type Answer = Result<Vec<u8>, Refusal>;

/// The answer of the bound for a text and a length of report memory.
pub fn bound_answer(text: &[u8], lent: usize) -> Answer {
    if lent < MEMORY {
        return refused(10, 0);
    }
    let routine = read(text, false)?;
    let figures = bound(&routine, routine.start.clone())?;
    Ok(bound_report(&figures, routine.tick).into_bytes())
}

/// The answer of the merging bound for a text and a length of report memory.
pub fn merge_answer(text: &[u8], lent: usize) -> Answer {
    if lent < MEMORY {
        return refused(10, 0);
    }
    let routine = read(text, false)?;
    let figures = merge(&routine, routine.start.clone())?;
    Ok(bound_report(&figures, routine.tick).into_bytes())
}

/// The answer of the run for a text and a length of report memory.
pub fn run_answer(text: &[u8], lent: usize) -> Answer {
    if lent < MEMORY {
        return refused(10, 0);
    }
    let routine = read(text, true)?;
    let run = run(&routine)?;
    Ok(format!("CYCLES WORDS DEPTH STEPS\n{} {} {} {}\n", run.cycles, run.words, run.depth, run.steps).into_bytes())
}

/// Whether CYCLES × 1000 / TICK is a whole number and a half.
pub fn at_a_half(cycles: u64, tick: u64) -> bool {
    cycles * 2000 % tick == 0 && cycles * 2000 / tick % 2 == 1
}

/// CYCLES × 1000 / TICK to the nearest whole number, and at a half to the even one.
fn share(cycles: u64, tick: u64) -> u64 {
    let half_up = (cycles * 2000 + tick) / (2 * tick);
    if at_a_half(cycles, tick) && half_up % 2 == 1 {
        half_up - 1
    } else {
        half_up
    }
}

pub fn bound_report(figures: &Figures, tick: u64) -> String {
    let path: String =
        (0..figures.path.length).map(|i| if figures.path.taken >> i & 1 == 1 { 'T' } else { 'N' }).collect();
    format!(
        "CYCLES WORDS DEPTH STEPS SHARE PATH\n{} {} {} {} {} {}\n",
        figures.cycles,
        figures.words,
        figures.depth,
        figures.steps,
        share(figures.cycles, tick),
        if path.is_empty() { "-" } else { &path }
    )
}

/// The number by which the C functions tell an answer.
pub fn told(answer: &Answer) -> u64 {
    match answer {
        Ok(report) => report.len() as u64,
        Err(refusal) => 1 << 63 | (refusal.number as u64) << 32 | refusal.place as u64,
    }
}

/// What a program prints for an answer.
pub fn printed(answer: &Answer) -> Vec<u8> {
    match answer {
        Ok(report) => report.clone(),
        Err(refusal) => format!("REFUSED {} {}\n", refusal.number, refusal.place).into_bytes(),
    }
}
