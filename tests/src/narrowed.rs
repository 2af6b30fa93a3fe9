//! Files that know more than others, and files that know all, of change request 14.
use crate::compare::{figures, filled, number, rewritten, shown, Answers};
use independent::analyser;
use independent::machine::Instruction;
use independent::random::Random;
use independent::report::{bound_answer, merge_answer, run_answer, told, Answer, MEMORY};
use independent::routine::{cell, read, Refusal, Spelt, TEXT_LIMIT};
use independent::run::Run;
use independent::tagged::{HIGHEST, LOWEST};

/// How often a file is narrowed, while a run would refuse it by 11.
const TIMES: usize = 6;

/// Numbers of comparisons.
#[derive(Default)]
pub struct Narrowed {
    /// both accepted by the bound, by the merging bound
    accepted: [u64; 2],
    /// and the file that knows more has fewer cycles, fewer words, less depth, fewer steps
    fewer: [[u64; 4]; 2],
    /// accepted only where more is known
    only_narrowed: [u64; 2],
    /// every cell known and no call made: the run is accepted, refused by 7, by 9
    accepted_runs: u64,
    stuck_runs: u64,
    spent_runs: u64,
    /// accepted, with a call in the code
    calls_elsewhere: u64,
}

/// A cell that allows only values that this one allows: a number or a range of its numbers, or the same.
fn narrower(random: &mut Random, word: &str) -> String {
    let within = match cell(word.as_bytes()).unwrap() {
        Spelt::Unknown => [LOWEST, HIGHEST],
        Spelt::Range(low, high) if low < high => [low as i32, high as i32],
        _ => return word.to_string(),
    };
    let mut number = || if within == [LOWEST, HIGHEST] { random.number() } else { random.in_range(within) };
    let (a, b) = (number(), number());
    match random.below(4) {
        0 => a.to_string(),
        1 => format!("{}..{}", a.min(b), a.max(b)),
        _ => word.to_string(),
    }
}

/// A file that passes, with another TICK.
fn with_another_tick(random: &mut Random, text: &[u8]) -> Vec<u8> {
    let lines: Vec<&[u8]> = text.splitn(3, |b| *b == b'\n').collect();
    let budget = lines[1].split(|b| *b == b' ').next().unwrap();
    let limits = [budget, b" ", random.within(1, 4_000_000).to_string().as_bytes()].concat();
    [lines[0], &limits, lines[2]].join(&b'\n')
}

/// What the C function says of a file; or that the independent implementation says something else.
fn answer(name: &str, text: &[u8], wanted: Answer) -> Result<Answer, String> {
    let function = match name {
        "bound" => analyser::bound,
        "merge" => analyser::merge,
        _ => analyser::run,
    };
    let mut memory = [0; MEMORY];
    let found = function(text, &mut memory);
    if found == told(&wanted) && wanted.as_ref().map_or(true, |bytes| memory.starts_with(bytes)) {
        Ok(wanted)
    } else {
        Err(format!(
            "{name} tells {found:#x}, and not {}; its file:\n{}",
            shown(&wanted),
            String::from_utf8_lossy(text)
        ))
    }
}

/// What both bounds say of a file.
fn bounds(text: &[u8]) -> Result<[Answer; 2], String> {
    let bound = answer("bound", text, bound_answer(text, MEMORY))?;
    let merge = answer("merge", text, merge_answer(text, MEMORY))?;
    Ok([bound, merge])
}

/// Whether the run of a file, under its BUDGET, comes to no call.
fn calls_nothing(text: &[u8]) -> bool {
    let Ok(routine) = read(text, true) else {
        return false;
    };
    let mut run = Run::new(routine.start.clone(), &routine.answers);
    while !run.stopped && run.steps < routine.budget {
        let Some(line) = routine.code.get((run.state.at - routine.first) as usize) else {
            return true;
        };
        if matches!(line.instruction, Instruction::Call(_)) {
            return false;
        }
        if run.step(&routine).is_none() {
            return true;
        }
    }
    true
}

impl Narrowed {
    /// A file that passes is narrowed several times, each time from the last; then every cell is known.
    pub fn compare(&mut self, random: &mut Random, text: &[u8], answers: &Answers) -> Result<(), String> {
        if read(text, false).is_err() {
            return Ok(());
        }
        let mut before = [answers.bound.clone(), answers.merge.clone()];
        let mut file = text.to_vec();
        for _ in 0..TIMES {
            if read(&file, true).is_ok() {
                break;
            }
            file = rewritten(random, &file, narrower);
            file = with_another_tick(random, &file);
            if file.len() > TEXT_LIMIT {
                return Ok(());
            }
            let after = bounds(&file)?;
            for i in 0..2 {
                self.pair(i, &before[i], &after[i])
                    .map_err(|what| format!("{what}\n{}", String::from_utf8_lossy(&file)))?;
            }
            before = after;
        }
        let known = filled(random, &file);
        if known.len() <= TEXT_LIMIT && calls_nothing(&known) {
            self.known(&known).map_err(|what| format!("{what}; its file:\n{}", String::from_utf8_lossy(&known)))?;
        }
        Ok(())
    }

    /// What one bound says of a file, and of one that knows more.
    fn pair(&mut self, i: usize, before: &Answer, after: &Answer) -> Result<(), String> {
        match (before, after) {
            (Ok(less), Ok(more)) => {
                self.accepted[i] += 1;
                let (less, more) = (figures(less), figures(more));
                if more.iter().zip(&less).any(|(a, b)| a > b) {
                    return Err(format!("{less:?}, and {more:?} where more is known, by this file:"));
                }
                for k in 0..4 {
                    self.fewer[i][k] += (more[k] < less[k]) as u64;
                }
            }
            (Ok(_), Err(refusal)) => {
                return Err(format!("accepted, and refused by {} where more is known, by this file:", refusal.number));
            }
            (Err(_), Ok(_)) => self.only_narrowed[i] += 1,
            (Err(_), Err(_)) => {}
        }
        Ok(())
    }

    /// Every cell is known and no call is made: both bounds say what the run says, but that the merging bound takes no BUDGET.
    fn known(&mut self, text: &[u8]) -> Result<(), String> {
        let [bound, merge] = bounds(text)?;
        let run = answer("run", text, run_answer(text, MEMORY))?;
        let alike = |bound: &Answer| match (bound, &run) {
            (Ok(bound), Ok(run)) => figures(bound) == figures(run) && bound.ends_with(b" -\n"),
            (Err(bound), Err(run)) => bound == run,
            _ => false,
        };
        let spent = matches!(run, Err(Refusal { number: 9, .. }));
        if !alike(&bound) || !spent && !alike(&merge) {
            return Err(format!(
                "the bound says {}, the merging bound {}, the run {}",
                shown(&bound),
                shown(&merge),
                shown(&run)
            ));
        }
        match number(&run) {
            0 => {
                self.accepted_runs += 1;
                let routine = read(text, true).unwrap();
                let calls = routine.code.iter().any(|line| matches!(line.instruction, Instruction::Call(_)));
                self.calls_elsewhere += calls as u64;
            }
            7 => self.stuck_runs += 1,
            _ => self.spent_runs += 1,
        }
        Ok(())
    }

    pub fn counts(&self) -> Vec<(&'static str, u64)> {
        let [first, merging] = self.fewer;
        vec![
            ("a report of the bound, narrowed", self.accepted[0]),
            ("a report of the merging bound, narrowed", self.accepted[1]),
            ("fewer cycles where more is known", first[0]),
            ("fewer words where more is known", first[1]),
            ("less depth where more is known", first[2]),
            ("fewer steps where more is known", first[3]),
            ("fewer cycles by the merging bound where more is known", merging[0]),
            ("fewer words by the merging bound where more is known", merging[1]),
            ("less depth by the merging bound where more is known", merging[2]),
            ("fewer steps by the merging bound where more is known", merging[3]),
            ("a report of the bound only where more is known", self.only_narrowed[0]),
            ("a report of the merging bound only where more is known", self.only_narrowed[1]),
            ("every cell known and no call made, accepted", self.accepted_runs),
            ("every cell known and no call made, with a call elsewhere", self.calls_elsewhere),
            ("every cell known and no call made, stuck", self.stuck_runs),
            ("every cell known and no call made, the BUDGET spent", self.spent_runs),
        ]
    }
}
