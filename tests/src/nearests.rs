//! The nearest number that moves the bound, compared and counted, of change request 13.
use crate::compare::{compare_report, program};
use independent::analyser;
use independent::bound::bound;
use independent::nearest::{nearest_answer, numbered, search, Why};
use independent::random::Random;
use independent::report::Answer;
use independent::routine::read;
use std::path::Path;

/// The most steps that the trials of one file may come to.
const STEPS: u64 = 400_000;

/// Numbers of files.
#[derive(Default)]
pub struct Nearests {
    /// refused to begin with: by a row of the table, by 7, 8 or 9
    refused: u64,
    refused_late: u64,
    none: u64,
    downwards: u64,
    upwards: u64,
    more: u64,
    fewer: u64,
    /// refused by 7, by 8, by 9
    late: [u64; 3],
    accumulator: u64,
    entry: u64,
    field: u64,
    /// by 2 to 63, by 64
    farther: u64,
    farthest: u64,
    /// a value outside the 31 bits came before the end
    passed_over: u64,
    /// a cell that holds no single number came before the one named, or none is named
    others: u64,
}

/// Whether a search is short enough to be compared: a file that is refused is.
fn is_short(text: &[u8]) -> bool {
    let Ok(routine) = read(text, false) else {
        return true;
    };
    let Ok(figures) = bound(&routine, routine.start.clone()) else {
        return true;
    };
    numbered(text, &routine).len() as u64 * 128 * (figures.steps + 20) <= STEPS
}

/// Compares the search on a text; gives the answer wanted.
pub fn compare_search(random: &mut Random, text: &[u8]) -> Result<Answer, String> {
    let copy = text.to_vec();
    let answer = compare_report(random, &|memory| analyser::nearest(&copy, memory), &|lent| nearest_answer(text, lent))
        .map_err(|what| format!("nearest {what}"))?;
    if copy == text {
        Ok(answer)
    } else {
        Err("nearest wrote the text".to_string())
    }
}

/// The same, if the search is short.
pub fn compare_nearest(random: &mut Random, text: &[u8]) -> Result<Option<Answer>, String> {
    if is_short(text) {
        compare_search(random, text).map(Some)
    } else {
        Ok(None)
    }
}

pub fn nearest_by_program(programs: &Path, text: &[u8], answer: &Answer) -> Result<(), String> {
    program(&programs.join("nearest"), &[], text, answer)
}

impl Nearests {
    pub fn note(&mut self, text: &[u8], answer: &Answer) {
        let Ok(routine) = read(text, false) else {
            self.refused += 1;
            return;
        };
        if answer.is_err() {
            self.refused_late += 1;
            return;
        }
        let found = search(text, &routine).unwrap();
        self.passed_over += found.passed_over as u64;
        let cells = routine.start.height + 1 + routine.start.sizes.iter().map(|n| *n as usize).sum::<usize>();
        self.others += (numbered(text, &routine).len() < cells) as u64;
        let Some(nearest) = found.nearest else {
            self.none += 1;
            return;
        };
        self.downwards += !nearest.upwards as u64;
        self.upwards += nearest.upwards as u64;
        match nearest.why {
            Why::MoreCycles => self.more += 1,
            Why::FewerCycles => self.fewer += 1,
            Why::Refused(number) => self.late[number as usize - 7] += 1,
        }
        match nearest.name.as_bytes()[0] {
            b'A' => self.accumulator += 1,
            b'S' => self.entry += 1,
            _ => self.field += 1,
        }
        self.farther += (2..64).contains(&nearest.amount) as u64;
        self.farthest += (nearest.amount == 64) as u64;
    }

    pub fn counts(&self) -> Vec<(&'static str, u64)> {
        vec![
            ("a search refused by 1 to 6 or 13", self.refused),
            ("a search refused by 7, 8 or 9", self.refused_late),
            ("no change that moves the bound", self.none),
            ("a nearest change downwards", self.downwards),
            ("a nearest change upwards", self.upwards),
            ("a nearest change to more cycles", self.more),
            ("a nearest change to fewer cycles", self.fewer),
            ("a nearest change to a refusal by 7", self.late[0]),
            ("a nearest change to a refusal by 8", self.late[1]),
            ("a nearest change to a refusal by 9", self.late[2]),
            ("a nearest change of ACCU", self.accumulator),
            ("a nearest change of an entry", self.entry),
            ("a nearest change of a field", self.field),
            ("a nearest change by 2 to 63", self.farther),
            ("a nearest change by 64", self.farthest),
            ("a value passed over in a search", self.passed_over),
            ("a search beside cells that hold no single number", self.others),
        ]
    }
}
