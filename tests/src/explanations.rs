//! What is compared of an explanation.
use crate::compare::{differs, program, shown};
use independent::analyser;
use independent::explain::{explain_answer, MEMORY, NAMES};
use independent::random::Random;
use independent::report::Answer;
use std::path::Path;

/// The most memory lent.
const LENT: usize = MEMORY + 100;

/// What came up in the explanations.
#[derive(Default)]
pub struct Explanations {
    not_taken: u64,
    taken: u64,
    no_way: u64,
    entries_at_the_start: u64,
    words_above: u64,
}

impl Explanations {
    fn note(&mut self, bound: &[u8], explained: &[u8]) {
        let text = std::str::from_utf8(explained).unwrap();
        let lines: Vec<Vec<&str>> = text.lines().skip(3).map(|l| l.split(' ').collect()).collect();
        let has = |way| lines.iter().any(|l| l[6] == way);
        self.not_taken += has("N") as u64;
        self.taken += has("T") as u64;
        self.no_way += (!has("N") && !has("T")) as u64;
        self.entries_at_the_start += (lines[0][5] != "0") as u64;
        let words = std::str::from_utf8(bound).unwrap().lines().nth(1).unwrap().split(' ').nth(1).unwrap();
        self.words_above += (lines.last().unwrap()[4] != words) as u64;
    }

    pub fn counts(&self) -> [(&'static str, u64); 5] {
        [
            ("explanations with a branch not taken", self.not_taken),
            ("explanations with a branch taken", self.taken),
            ("explanations without an unknown branch", self.no_way),
            ("explanations that start with entries on the stack", self.entries_at_the_start),
            ("explanations whose words are below WORDS", self.words_above),
        ]
    }
}

/// An explanation beside the report of the bound: its refusals, or the report, the line of names, and lines of which the last has CYCLES
/// and whose letters are PATH.
fn beside(bound: &Answer, explained: &Answer) -> Result<(), String> {
    let fits = match (bound, explained) {
        (Ok(report), Ok(lines)) => {
            let report = std::str::from_utf8(report).unwrap();
            let lines = std::str::from_utf8(lines).unwrap();
            lines.strip_prefix(report).and_then(|rest| rest.strip_prefix(NAMES)).is_some_and(|rest| {
                let figures: Vec<&str> = report.lines().nth(1).unwrap().split(' ').collect();
                let rest: Vec<Vec<&str>> = rest.lines().map(|l| l.split(' ').collect()).collect();
                let path: String = rest.iter().map(|l| l[6]).filter(|way| *way != "-").collect();
                let addresses: Vec<u64> = rest.iter().map(|l| l[0].parse().unwrap()).collect();
                rest.last().unwrap()[3] == figures[0]
                    && if path.is_empty() { figures[5] == "-" } else { path == figures[5] }
                    && addresses.windows(2).all(|pair| pair[0] < pair[1])
                    && rest.last().unwrap()[1] == "STOP"
            })
        }
        (first, second) => first == second,
    };
    if fits {
        Ok(())
    } else {
        Err(format!("the bound says {}\nand the explanation {}", shown(bound), shown(explained)))
    }
}

/// Compares the explanation of a text, with enough memory and with too little.
pub fn explained(
    random: &mut Random,
    text: &[u8],
    bound: &Answer,
    programs: Option<&Path>,
    counts: &mut Explanations,
) -> Result<(), String> {
    let copy = text.to_vec();
    let call = |memory: &mut [u8]| analyser::explain(&copy, memory);
    let wanted = explain_answer(text, MEMORY);
    let pattern = random.next() as u8;
    let enough = if random.one_in(2) { MEMORY } else { random.within(MEMORY, LENT) };
    let short = if random.one_in(2) { MEMORY - 1 } else { random.below(MEMORY) };
    let found = differs(&call, LENT, enough, pattern, &wanted)
        .or_else(|| differs(&call, LENT, short, pattern, &explain_answer(text, short)));
    if let Some(what) = found {
        return Err(format!("explain {what}\nwanted: {}", shown(&wanted)));
    }
    if copy != text {
        return Err("explain wrote the text".to_string());
    }
    beside(bound, &wanted)?;
    if let (Ok(report), Ok(lines)) = (bound, &wanted) {
        counts.note(report, lines);
    }
    programs.map_or(Ok(()), |programs| program(&programs.join("explain"), &[], text, &wanted))
}
