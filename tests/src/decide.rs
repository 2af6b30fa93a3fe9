//! The decision whether a routine fits in its tick: by the bound, or by the merging bound where the first is refused for its size.
use crate::bound::bound;
use crate::merge::merge;
use crate::report::{Answer, MEMORY};
use crate::routine::{read, refused};

pub const NAMES: &str = "DECISION BOUND CYCLES TICK WORDS DEPTH STEPS\n";

/// The answer of the decision for a text and a length of report memory.
pub fn decide_answer(text: &[u8], lent: usize) -> Answer {
    if lent < MEMORY {
        return refused(10, 0);
    }
    let routine = read(text, false)?;
    let (figures, words) = match bound(&routine, routine.start.clone()) {
        Ok(figures) => (figures, ["FITS FIRST", "OVER FIRST"]),
        Err(refusal) => {
            let merged =
                if matches!(refusal.number, 8 | 9) { merge(&routine, routine.start.clone()) } else { Err(refusal) };
            // "otherwise: the first bound's refusal"
            (merged.map_err(|_| refusal)?, ["FITS MERGING", "UNDECIDED MERGING"])
        }
    };
    let decided = words[(figures.cycles > routine.tick) as usize];
    let values = [figures.cycles, routine.tick, figures.words, figures.depth as u64, figures.steps];
    let values: Vec<String> = values.iter().map(u64::to_string).collect();
    Ok(format!("{NAMES}{decided} {}\n", values.join(" ")).into_bytes())
}
