//! The explanation: the steps of the worst path, found by bounding both ways of each unknown branch.
use crate::bound::bound;
use crate::machine::{Cell, Next};
use crate::report::{bound_report, Answer};
use crate::routine::{line, read, refused};

pub const MEMORY: usize = 65_536;
pub const NAMES: &str = "AT OP ARG CYCLES WORDS DEPTH WAY\n";

/// The answer of the explanation for a text and a length of lent memory.
pub fn explain_answer(text: &[u8], lent: usize) -> Answer {
    if lent < MEMORY {
        return refused(10, 0);
    }
    let routine = read(text, false)?;
    let figures = bound(&routine, routine.start.clone())?;
    let code: Vec<&str> = std::str::from_utf8(text).unwrap().lines().skip(line::CODE - 1).collect();
    let mut lines = bound_report(&figures, routine.tick) + NAMES;
    let mut state = routine.start.clone();
    let (mut cycles, mut words) = (0, 0);
    loop {
        let (at, depth) = (state.at, state.height);
        let place = (at - routine.first) as usize;
        let instruction = &routine.code[place];
        cycles += instruction.cycles;
        words += instruction.words;
        let next = state.step(instruction, || Cell::UNKNOWN).expect("a step of an accepted routine is stuck");
        let mut way = '-';
        match next {
            Next::Goes | Next::Stops => (),
            Next::Jumps => cycles += instruction.extra,
            Next::Opens(target) => {
                let mut taken = state.clone();
                taken.at = target;
                let of_not_taken = bound(&routine, state.clone())?.cycles;
                let of_taken = instruction.extra + bound(&routine, taken.clone())?.cycles;
                way = 'N';
                if of_taken >= of_not_taken {
                    way = 'T';
                    cycles += instruction.extra;
                    state = taken;
                }
            }
        }
        let mut held = code[place].split(' ').skip(1);
        let (op, arg) = (held.next().unwrap(), held.next().unwrap());
        lines += &format!("{at} {op} {arg} {cycles} {words} {depth} {way}\n");
        if matches!(next, Next::Stops) {
            return Ok(lines.into_bytes());
        }
    }
}

/// Texts with their explanations, read from the request: the extra of a taken jump in the sums, entries at the start, and the lines of the
/// published file.
pub fn pinned() -> Vec<(Vec<u8>, &'static str)> {
    let published = "BUDGET TICK\n1000 1000\nC_CALL1 BRANCHIF CONST2 ADDINT STOP\n10 5 2 7 1\n0 0 0 0 0\n0 0 0 0 0\nREAD\n40\n4\nACCU S0\n0 ?\n-\n-\nAT OP ARG\n0 C_CALL1 READ\n1 BRANCHIF 4\n2 CONST2 -\n3 ADDINT -\n4 STOP -\n";
    let jumping = published.replace("\n0 0 0 0 0\nREAD", "\n0 9 0 0 0\nREAD");
    vec![
        (
            published.into(),
            "CYCLES WORDS DEPTH STEPS SHARE PATH\n65 4 1 6 65 N\nAT OP ARG CYCLES WORDS DEPTH WAY\n0 C_CALL1 READ 50 4 1 -\n1 BRANCHIF 4 55 4 1 N\n2 CONST2 - 57 4 1 -\n3 ADDINT - 64 4 1 -\n4 STOP - 65 4 0 -\n",
        ),
        (
            jumping.into(),
            "CYCLES WORDS DEPTH STEPS SHARE PATH\n65 4 1 6 65 T\nAT OP ARG CYCLES WORDS DEPTH WAY\n0 C_CALL1 READ 50 4 1 -\n1 BRANCHIF 4 64 4 1 T\n4 STOP - 65 4 1 -\n",
        ),
    ]
}
