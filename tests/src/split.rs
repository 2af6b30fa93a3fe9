//! The bound by cases: the reader of cuts, with its refusals 1 to 4; the cases, which are all choices of one part of each cell; and the
//! largest figures of their merging bounds, or the refusal of the first that is refused.
use crate::bound::{Figures, Path};
use crate::decide::NAMES as DECISION_NAMES;
use crate::machine::{Cell, State, BLOCKS, FIELDS};
use crate::merge::merge;
use crate::range::Range;
use crate::report::{bound_report, Answer, MEMORY};
use crate::routine::{checked, line, number, read, refused, Refusal, Routine};
use crate::tagged::is_number;

pub const CUTS_LIMIT: usize = 4096;
/// The most lines after the names line.
pub const CUTS: usize = 16;
pub const NAMES: &str = "CELL FROM";

/// A cell of the start, by its place among the file's names, and the number from which its upper part begins.
#[derive(Clone, Copy, PartialEq, Debug)]
pub struct Cut {
    pub cell: usize,
    pub from: i32,
}

/// Row 2: the name and the number of each line after the names line.
fn layout(cuts: &[u8]) -> Result<Vec<(&[u8], i64)>, Refusal> {
    let mut lines = Vec::new();
    let mut rest = cuts;
    for n in 1.. {
        let Some(end) = rest.iter().position(|b| *b == b'\n') else {
            // the text has ended, or its last line has no end; the names line is there always
            return if rest.is_empty() && n > 1 { Ok(lines) } else { refused(2, n) };
        };
        let held = &rest[..end];
        rest = &rest[end + 1..];
        if n == 1 {
            if held != NAMES.as_bytes() {
                return refused(2, 1);
            }
            continue;
        }
        let words: Vec<&[u8]> = held.split(|b| *b == b' ').collect();
        match words[..] {
            [name, value] if !name.is_empty() && lines.len() < CUTS => match number(value) {
                Some(value) => lines.push((name, value)),
                None => return refused(2, n),
            },
            _ => return refused(2, n),
        }
    }
    unreachable!("a text has an end")
}

/// The names of a file's cells, in its order, of a text that passes.
pub fn names(text: &[u8]) -> Result<Vec<Vec<u8>>, Refusal> {
    let file = checked(text)?;
    let names = [line::CELL_NAMES, line::FIELD_NAMES].map(|n| file.list(n).to_vec()).concat();
    Ok(names.into_iter().map(<[u8]>::to_vec).collect())
}

/// The cuts of a text for a file with these names, or its refusal.
pub fn cuts_of(names: &[Vec<u8>], cuts: &[u8]) -> Result<Vec<Cut>, Refusal> {
    if cuts.len() > CUTS_LIMIT {
        return refused(1, 0);
    }
    let lines = layout(cuts)?;
    if let Some(i) = lines.iter().position(|(_, value)| !is_number(*value)) {
        return refused(3, i + 2);
    }
    let mut read = Vec::new();
    for (i, (name, value)) in lines.into_iter().enumerate() {
        let Some(cell) = names.iter().position(|n| n == name) else {
            return refused(4, i + 2);
        };
        read.push(Cut { cell, from: value as i32 });
    }
    Ok(read)
}

/// The cells of a start in the file's order: the accumulator, the stack from the top, the fields block after block.
fn cells_mut(state: &mut State) -> Vec<&mut Cell> {
    let entries = state.stack[..state.height].iter_mut().rev();
    let sizes = state.sizes;
    let fields = state.fields.chunks_mut(FIELDS).zip(sizes).take(BLOCKS);
    let fields = fields.flat_map(|(block, size)| &mut block[..size as usize]);
    std::iter::once(&mut state.accumulator).chain(entries).chain(fields).collect()
}

pub fn cells(state: &State) -> Vec<Cell> {
    let mut state = state.clone();
    cells_mut(&mut state).into_iter().map(|cell| *cell).collect()
}

/// Whether a number divides a cell: "a cell whose range has numbers below n and numbers from n on". A handle has no numbers.
pub fn divides(cell: Cell, n: i32) -> bool {
    cell.range().is_some_and(|range| range.contains(n) && range.low != n)
}

/// The parts of a cell between the numbers that divide it, the lowest first.
fn parts(cell: Cell, cuts: impl Iterator<Item = i32>) -> Vec<Cell> {
    let Some(Range { low, high }) = cell.range() else {
        return vec![cell];
    };
    let mut begins: Vec<i32> = cuts.filter(|n| divides(cell, *n)).chain([low]).collect();
    begins.sort();
    begins.dedup();
    let ends = begins[1..].iter().map(|n| n - 1).chain([high]);
    begins.iter().zip(ends).map(|(low, high)| Cell::of(Range { low: *low, high })).collect()
}

/// The cases of a start, in their order: by the first cut those below it come before those from it on, then by the second, and so on.
pub fn cases(start: &State, cuts: &[Cut]) -> Vec<State> {
    let mut cases = vec![start.clone()];
    for (place, cell) in cells(start).into_iter().enumerate() {
        let parts = parts(cell, cuts.iter().filter(|cut| cut.cell == place).map(|cut| cut.from));
        if parts.len() == 1 {
            continue;
        }
        let with = |case: &State, part: Cell| {
            let mut case = case.clone();
            *cells_mut(&mut case)[place] = part;
            case
        };
        cases = cases.iter().flat_map(|case| parts.iter().map(move |part| with(case, *part))).collect();
    }
    let sides = |case: &State| -> Vec<bool> {
        let cells = cells(case);
        cuts.iter().map(|cut| cells[cut.cell].range().is_some_and(|range| range.low >= cut.from)).collect()
    };
    cases.sort_by_cached_key(sides);
    cases
}

/// "the larger of the two in each figure, or the refusal of the first that is refused"
pub fn split(routine: &Routine, cuts: &[Cut], start: &State) -> Result<Figures, Refusal> {
    let mut largest = Figures { cycles: 0, words: 0, depth: 0, steps: 0, path: Path { taken: 0, length: 0 } };
    for case in cases(start, cuts) {
        let figures = merge(routine, case)?;
        largest.cycles = largest.cycles.max(figures.cycles);
        largest.words = largest.words.max(figures.words);
        largest.depth = largest.depth.max(figures.depth);
        largest.steps = largest.steps.max(figures.steps);
    }
    Ok(largest)
}

/// The figures of a text and its cuts for a length of report memory, with TICK.
fn figures(text: &[u8], cuts: &[u8], lent: usize) -> Result<(Figures, u64), Refusal> {
    if lent < MEMORY {
        return refused(10, 0);
    }
    let routine = read(text, false)?;
    let cuts = cuts_of(&names(text)?, cuts)?;
    Ok((split(&routine, &cuts, &routine.start)?, routine.tick))
}

/// The answer of the bound by cases.
pub fn split_answer(text: &[u8], cuts: &[u8], lent: usize) -> Answer {
    let (figures, tick) = figures(text, cuts, lent)?;
    Ok(bound_report(&figures, tick).into_bytes())
}

/// The answer of the decision over it: "BOUND `SPLIT`; FITS, or UNDECIDED above TICK".
pub fn decide_split_answer(text: &[u8], cuts: &[u8], lent: usize) -> Answer {
    let (figures, tick) = figures(text, cuts, lent)?;
    let decided = if figures.cycles > tick { "UNDECIDED" } else { "FITS" };
    let Figures { cycles, words, depth, steps, .. } = figures;
    Ok(format!("{DECISION_NAMES}{decided} SPLIT {cycles} {tick} {words} {depth} {steps}\n").into_bytes())
}
