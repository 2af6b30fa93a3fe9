//! Where the extra of a taken jump counts in the files compared.
use independent::bound::{explored, Event};
use independent::report::Answer;
use independent::routine::{line, read, Refusal};
use independent::run::run;

/// Numbers of files.
#[derive(Default)]
pub struct Extras {
    /// accepted by the bound: a known condition jumps at an extra
    known: u64,
    /// the two ways of a branch cost the same with the extra and not without
    ties: u64,
    /// the taken way is the costlier one with the extra and not without
    decided: u64,
    /// accepted by the run: its cycles have an extra in them
    runs: u64,
    /// refused at the line of extras
    layout: u64,
    range: u64,
}

impl Extras {
    pub fn note(&mut self, text: &[u8], bound: &Answer, of_run: &Answer) {
        let refusal = |number| Some(Refusal { number, place: line::KIND_EXTRAS as u32 });
        self.layout += (bound.as_ref().err().copied() == refusal(2)) as u64;
        self.range += (bound.as_ref().err().copied() == refusal(3)) as u64;
        if bound.is_ok() {
            let routine = read(text, false).unwrap();
            let (mut known, mut tie, mut decided) = (false, false, false);
            let _ = explored(&routine, routine.start.clone(), |event| match event {
                Event::Jumped { extra } => known |= extra > 0,
                Event::Opened { extra, not_taken, taken, .. } => {
                    tie |= extra > 0 && not_taken == extra + taken;
                    decided |= not_taken > taken && not_taken < extra + taken;
                }
                _ => {}
            });
            self.known += known as u64;
            self.ties += tie as u64;
            self.decided += decided as u64;
        }
        if of_run.is_ok() {
            let with = read(text, true).unwrap();
            let mut without = with.clone();
            without.code.iter_mut().for_each(|line| line.extra = 0);
            let cycles = |routine| run(routine).map(|run| run.cycles);
            self.runs += (cycles(&with) != cycles(&without)) as u64;
        }
    }

    pub fn counts(&self) -> [(&'static str, u64); 6] {
        [
            ("a known condition that jumps at an extra", self.known),
            ("a tie by an extra", self.ties),
            ("a decision by an extra", self.decided),
            ("an extra in the cycles of the run", self.runs),
            ("refusal 2 at the line of extras", self.layout),
            ("refusal 3 at the line of extras", self.range),
        ]
    }
}
