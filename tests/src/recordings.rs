//! What is compared of the trace of a run.
use crate::compare::{differs, figures, program, shown};
use independent::analyser;
use independent::random::Random;
use independent::replay::{agrees, differs as differs_at, recorded};
use independent::report::{run_answer, Answer, MEMORY as REPORT};
use independent::routine::read;
use independent::trace::{trace_answer, MEMORY};
use std::path::Path;

/// The most memory lent.
const LENT: usize = MEMORY + 100;

/// What came up in the traces of runs.
#[derive(Default)]
pub struct Recordings {
    several: u64,
    extras: u64,
    unlike: u64,
    refused: u64,
}

impl Recordings {
    fn note(&mut self, text: &[u8], traced: &Answer) {
        let Ok(lines) = traced else {
            self.refused += 1;
            return;
        };
        let (routine, steps) = (read(text, true).unwrap(), recorded(lines).unwrap());
        let price = |at: u64| routine.code[(at - u64::from(routine.first)) as usize].cycles;
        self.several += (steps.len() > 1) as u64;
        self.extras += steps.iter().any(|step| step.cycles > price(step.at)) as u64;
        self.unlike += steps.windows(2).any(|pair| pair[0].cycles != pair[1].cycles) as u64;
    }

    pub fn counts(&self) -> [(&'static str, u64); 4] {
        [
            ("traces of runs of several steps", self.several),
            ("traces of runs with a jump's extra", self.extras),
            ("traces of runs with steps of unlike costs", self.unlike),
            ("runs refused in the place of their traces", self.refused),
        ]
    }
}

/// A trace beside the report of the run: its refusals, or as many steps as STEPS, whose cycles add up to CYCLES.
fn beside(run: &Answer, traced: &Answer) -> Result<(), String> {
    let fits = match (run, traced) {
        (Ok(report), Ok(lines)) => {
            let (figures, steps) = (figures(report), recorded(lines).map_err(|_| "a trace that is refused")?);
            steps.iter().map(|step| step.cycles).sum::<u64>() == figures[0] && steps.len() as u64 == figures[3]
        }
        (first, second) => first == second,
    };
    if fits {
        Ok(())
    } else {
        Err(format!("the run says {}\nand its trace {}", shown(run), shown(traced)))
    }
}

/// The analyser's replay of a trace says what is wanted.
fn replays(text: &[u8], trace: &[u8], wanted: &Answer) -> Result<(), String> {
    let call = |memory: &mut [u8]| analyser::replay(text, trace, memory);
    let found = differs(&call, REPORT, REPORT, 0x5a, wanted);
    found.map_or(Ok(()), |what| Err(format!("the replay of the trace, {what}\nwanted: {}", shown(wanted))))
}

/// A trace with one cycle more on the line with a number.
fn with_one_more(trace: &[u8], number: usize) -> Vec<u8> {
    let changed = |(i, line): (usize, &str)| match line.split_once(' ') {
        Some((at, cycles)) if i + 1 == number => format!("{at} {}\n", cycles.parse::<u64>().unwrap() + 1),
        _ => format!("{line}\n"),
    };
    std::str::from_utf8(trace).unwrap().lines().enumerate().map(changed).collect::<String>().into_bytes()
}

/// Compares the trace of a text's run, with enough memory and with too little; it is replayed, and replayed with one cycle more in a line.
pub fn traced(
    random: &mut Random,
    text: &[u8],
    programs: Option<&Path>,
    counts: &mut Recordings,
) -> Result<(), String> {
    let copy = text.to_vec();
    let call = |memory: &mut [u8]| analyser::trace(&copy, memory);
    let wanted = trace_answer(text, MEMORY);
    let pattern = random.next() as u8;
    let enough = if random.one_in(2) { MEMORY } else { random.within(MEMORY, LENT) };
    let short = if random.one_in(2) { MEMORY - 1 } else { random.below(MEMORY) };
    let found = differs(&call, LENT, enough, pattern, &wanted)
        .or_else(|| differs(&call, LENT, short, pattern, &trace_answer(text, short)));
    if let Some(what) = found {
        return Err(format!("trace {what}\nwanted: {}", shown(&wanted)));
    }
    if copy != text {
        return Err("trace wrote the text".to_string());
    }
    beside(&run_answer(text, REPORT), &wanted)?;
    if let Ok(lines) = &wanted {
        replays(text, lines, &agrees())?;
        let line = random.within(2, recorded(lines).unwrap().len() + 1);
        replays(text, &with_one_more(lines, line), &differs_at(line))?;
    }
    counts.note(text, &wanted);
    programs.map_or(Ok(()), |programs| program(&programs.join("trace"), &[], text, &wanted))
}
