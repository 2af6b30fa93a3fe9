//! Where numbers wrap in the files compared, and where one is just outside their range.
use independent::bound::{explored, Event};
use independent::machine::Wrap;
use independent::report::Answer;
use independent::routine::{line, read};
use independent::run::Run;
use independent::tagged::{HIGHEST, LOWEST};

const OPERATIONS: [(Wrap, &str); 5] = [
    (Wrap::Add, "ADDINT that wraps"),
    (Wrap::Subtract, "SUBINT that wraps"),
    (Wrap::Offset, "OFFSETINT that wraps"),
    (Wrap::Negate, "NEGINT that wraps"),
    (Wrap::Not, "BOOLNOT that wraps"),
];

const PLACES: [&str; 4] = [
    "refusal 3 at a cell just outside",
    "refusal 3 at a field just outside",
    "refusal 3 at an argument just outside",
    "refusal 3 at an answer just outside",
];

/// Numbers of files.
#[derive(Default)]
pub struct Wraps {
    /// accepted by the bound
    operations: [u64; 5],
    /// accepted by the run, which has one of them
    runs: u64,
    /// refused by the bound
    places: [u64; 4],
}

fn place_of(wrap: Wrap) -> usize {
    OPERATIONS.iter().position(|o| o.0 == wrap).unwrap()
}

/// Whether the run of a file has an operation that wraps.
fn run_wraps(text: &[u8]) -> bool {
    let routine = read(text, true).unwrap();
    let mut run = Run::new(routine.start.clone(), &routine.answers);
    while !run.stopped {
        if run.state.wraps(&routine.code[(run.state.at - routine.first) as usize]).is_some() {
            return true;
        }
        run.step(&routine).unwrap();
    }
    false
}

impl Wraps {
    pub fn note(&mut self, text: &[u8], bound: &Answer, of_run: &Answer) {
        if bound.is_ok() {
            let routine = read(text, false).unwrap();
            let mut met = [false; 5];
            let _ = explored(&routine, routine.start.clone(), |event| {
                if let Event::Steps { state, line } = event {
                    state.wraps(line).into_iter().for_each(|wrap| met[place_of(wrap)] = true);
                }
            });
            (0..5).for_each(|i| self.operations[i] += met[i] as u64);
        }
        self.runs += (of_run.is_ok() && run_wraps(text)) as u64;
        if let Some(refusal) = bound.as_ref().err().filter(|r| r.number == 3) {
            let lines: Vec<&[u8]> = text.split(|b| *b == b'\n').collect();
            let n = refusal.place as usize;
            let words: Vec<&[u8]> = lines[n - 1].split(|b| *b == b' ').collect();
            let outside = [HIGHEST as i64 + 1, LOWEST as i64 - 1].map(|number| number.to_string());
            if words.iter().any(|w| outside.iter().any(|number| number.as_bytes() == *w)) {
                let place = match n {
                    line::CELLS => Some(0),
                    line::FIELDS => Some(1),
                    _ if n < line::CODE => None,
                    _ if lines[line::CODE..n].contains(&&b"ANSWER"[..]) => Some(3),
                    _ => Some(2),
                };
                place.into_iter().for_each(|place| self.places[place] += 1);
            }
        }
    }

    pub fn counts(&self) -> [(&'static str, u64); 10] {
        let mut counts = [("an operation that wraps in a run", self.runs); 10];
        for (i, (_, name)) in OPERATIONS.into_iter().enumerate() {
            counts[1 + i] = (name, self.operations[i]);
        }
        for (i, name) in PLACES.into_iter().enumerate() {
            counts[6 + i] = (name, self.places[i]);
        }
        counts
    }
}
