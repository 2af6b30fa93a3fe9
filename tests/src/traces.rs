//! What the traces compared have in them, of change request 4.
use independent::replay::{difference, recorded, Difference, Recorded, TRACE_LIMIT, TRACE_LINES};
use independent::routine::{line, read, Refusal, Routine};
use independent::trace_draft::{walk, Replay};
use std::collections::BTreeMap;

#[derive(Default)]
pub struct Traces {
    counts: BTreeMap<&'static str, u64>,
}

/// What is counted.
const COUNTED: [&str; 19] = [
    "traces that agree",
    "traces that agree before the end of the run",
    "traces that agree, with fewer cycles",
    "traces that agree beyond BUDGET",
    "a primitive's price in a trace that agrees",
    "a jump's extra in a trace that agrees",
    "answers in turn in a trace that agrees",
    "the names line alone",
    "another address",
    "too many cycles",
    "one cycle too many",
    "a line after STOP",
    "a line at a stuck step",
    "traces refused by 2",
    "traces refused by 3",
    "a wrong layout that hides a range before it",
    "a routine's refusal",
    "a routine's refusal before a trace's",
    "a routine's refusal by 11",
];

/// What is counted and comes up more rarely.
const RARE: [&str; 3] = ["traces refused by 1", "more than 4,096 lines", "as many lines as a trace may have"];

/// A file in which every primitive takes 0 cycles.
fn without_primitives(text: &[u8]) -> Vec<u8> {
    let lines = text.split_inclusive(|b| *b == b'\n').enumerate().map(|(i, l)| {
        let zeros = || l.split(|b| *b == b' ').map(|_| "0").collect::<Vec<_>>().join(" ") + "\n";
        let priced = i + 1 == line::PRIMITIVE_CYCLES && l != b"-\n";
        if priced {
            zeros().into_bytes()
        } else {
            l.to_vec()
        }
    });
    lines.flatten().collect()
}

impl Traces {
    fn add(&mut self, what: &'static str, came_up: bool) {
        assert!(COUNTED.contains(&what) || RARE.contains(&what), "{what} is not counted");
        *self.counts.entry(what).or_default() += came_up as u64;
    }

    pub fn note(&mut self, replay: &Replay) {
        let of_trace = recorded(&replay.trace);
        let routine = match read(&replay.text, true) {
            Ok(routine) => routine,
            Err(refusal) => {
                self.add("a routine's refusal", true);
                self.add("a routine's refusal before a trace's", of_trace.is_err());
                return self.add("a routine's refusal by 11", refusal.number == 11);
            }
        };
        match of_trace {
            Ok(steps) => self.note_steps(&replay.text, &routine, &steps),
            Err(refusal) => self.note_refusal(&replay.trace, refusal),
        }
    }

    fn note_refusal(&mut self, trace: &[u8], refusal: Refusal) {
        let place = refusal.place as usize;
        self.add("traces refused by 1", refusal.number == 1 && trace.len() > TRACE_LIMIT);
        self.add("traces refused by 2", refusal.number == 2);
        self.add("traces refused by 3", refusal.number == 3);
        self.add("more than 4,096 lines", refusal.number == 2 && place == TRACE_LINES + 2);
        if refusal.number == 2 && place > 1 {
            let lines = trace.split_inclusive(|b| *b == b'\n').take(place - 1);
            let before = recorded(&lines.flatten().copied().collect::<Vec<_>>());
            self.add("a wrong layout that hides a range before it", before.is_err_and(|r| r.number == 3));
        }
    }

    fn note_steps(&mut self, text: &[u8], routine: &Routine, steps: &[Recorded]) {
        self.add("as many lines as a trace may have", steps.len() == TRACE_LINES);
        if let Some((line, why)) = difference(routine, steps) {
            self.add("another address", why == Difference::Address);
            self.add("too many cycles", why == Difference::Cycles);
            self.add("a line after STOP", why == Difference::AfterStop);
            self.add("a line at a stuck step", why == Difference::Stuck);
            let mut fewer = steps.to_vec();
            fewer[line - 2].cycles = fewer[line - 2].cycles.saturating_sub(1);
            let agrees = difference(routine, &fewer).is_none_or(|(n, _)| n > line);
            return self.add("one cycle too many", why == Difference::Cycles && agrees);
        }
        let further = walk(routine, steps.len() + 1).steps;
        self.add("traces that agree", true);
        self.add("traces that agree before the end of the run", further.len() > steps.len());
        self.add("traces that agree, with fewer cycles", !further.starts_with(steps));
        self.add("traces that agree beyond BUDGET", steps.len() as u64 > routine.budget);
        self.add("the names line alone", steps.is_empty());
        let free = read(&without_primitives(text), true).unwrap();
        self.add("a primitive's price in a trace that agrees", difference(&free, steps).is_some());
        let mut free = routine.clone();
        free.code.iter_mut().for_each(|line| line.extra = 0);
        self.add("a jump's extra in a trace that agrees", difference(&free, steps).is_some());
        let mut again = routine.clone();
        again.answers = routine.answers.first().map_or(Vec::new(), |first| vec![*first; TRACE_LINES]);
        self.add("answers in turn in a trace that agrees", difference(&again, steps).is_some());
    }

    pub fn counts(&self) -> [(&'static str, u64); 19] {
        COUNTED.map(|what| (what, self.counts.get(what).copied().unwrap_or(0)))
    }

    pub fn rare(&self) -> [(&'static str, u64); 3] {
        RARE.map(|what| (what, self.counts.get(what).copied().unwrap_or(0)))
    }
}
