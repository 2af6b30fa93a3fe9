//! The trace of a run: the lines that a card would record of it.
use crate::replay::NAMES;
use crate::report::Answer;
use crate::routine::{read, refused};
use crate::run::Run;

pub const MEMORY: usize = 32_768;

/// The answer of the trace for a text and a length of lent memory.
pub fn trace_answer(text: &[u8], lent: usize) -> Answer {
    if lent < MEMORY {
        return refused(10, 0);
    }
    let routine = read(text, true)?;
    let mut run = Run::new(routine.start.clone(), &routine.answers);
    let mut lines = format!("{NAMES}\n");
    while !run.stopped {
        let (at, spent) = (run.state.at as usize, run.cycles);
        if run.steps == routine.budget {
            return refused(9, at);
        }
        if run.step(&routine).is_none() {
            return refused(7, at);
        }
        lines += &format!("{at} {}\n", run.cycles - spent);
    }
    Ok(lines.into_bytes())
}

/// Texts with their traces, read from the request: a primitive in the cost of its call, the extra of a taken jump in that of the branch, and
/// STOP the last; and the run's refusals by 11, 9 and 7.
pub fn pinned() -> Vec<(String, &'static str)> {
    let plain = "BUDGET TICK\n1000 1000\nC_CALL1 BRANCHIF CONST2 ADDINT STOP\n10 5 2 7 1\n0 0 0 0 0\n0 9 0 0 0\nREAD\n40\n4\nACCU S0\n0 0\n-\n-\nAT OP ARG\n0 C_CALL1 READ\n1 BRANCHIF 4\n2 CONST2 -\n3 ADDINT -\n4 STOP -\nANSWER\n7\n";
    vec![
        (plain.to_string(), "AT CYCLES\n0 50\n1 14\n4 1\n"),
        (plain.replace("ANSWER\n7", "ANSWER\n0"), "AT CYCLES\n0 50\n1 5\n2 2\n3 7\n4 1\n"),
        (plain.replace("\n0 0\n-\n", "\n0 ?\n-\n"), "REFUSED 11 11\n"),
        (plain.replace("\n1000 1000", "\n2 1000"), "REFUSED 9 4\n"),
        (plain.replace("ACCU S0\n0 0", "ACCU\n0").replace("ANSWER\n7", "ANSWER\n0"), "REFUSED 7 3\n"),
    ]
}
