//! The decision, compared and counted.
use crate::compare::{compare_report, figures, program, Answers};
use independent::analyser;
use independent::decide::{decide_answer, NAMES};
use independent::random::Random;
use independent::report::{printed, Answer};
use independent::routine::line;
use std::path::Path;

/// What stands first under the line of names, by the rows of the table.
const ROWS: [(&str, &str); 4] = [
    ("FITS FIRST ", "decisions FITS by the first bound"),
    ("OVER FIRST ", "decisions OVER by the first bound"),
    ("FITS MERGING ", "decisions FITS by the merging bound"),
    ("UNDECIDED MERGING ", "decisions UNDECIDED by the merging bound"),
];
const REFUSALS: [(u32, &str); 10] = [
    (1, "decisions refused by 1"),
    (2, "decisions refused by 2"),
    (3, "decisions refused by 3"),
    (4, "decisions refused by 4"),
    (5, "decisions refused by 5"),
    (6, "decisions refused by 6"),
    (13, "decisions refused by 13"),
    (7, "decisions refused by 7"),
    (8, "decisions refused by 8"),
    (9, "decisions refused by 9"),
];

/// Numbers of files.
#[derive(Default)]
pub struct Decisions {
    rows: [u64; 4],
    refusals: [u64; 10],
    /// CYCLES are TICK, by the first bound and by the merging one; and one more
    at_tick: [u64; 2],
    one_over: [u64; 2],
}

/// Compares the decision on a text; gives the answer wanted.
pub fn compare_decision(random: &mut Random, text: &[u8]) -> Result<Answer, String> {
    let copy = text.to_vec();
    let answer = compare_report(random, &|memory| analyser::decide(&copy, memory), &|lent| decide_answer(text, lent))
        .map_err(|what| format!("decide {what}"))?;
    if copy == text {
        Ok(answer)
    } else {
        Err("decide wrote the text".to_string())
    }
}

pub fn decision_by_program(programs: &Path, text: &[u8], answer: &Answer) -> Result<(), String> {
    program(&programs.join("decide"), &[], text, answer)
}

/// The five values of a decision: CYCLES TICK WORDS DEPTH STEPS; and the place of its row.
fn values(decision: &[u8]) -> (usize, Vec<u64>) {
    let line = std::str::from_utf8(decision).unwrap().strip_prefix(NAMES).unwrap();
    let row = ROWS.iter().position(|(words, _)| line.starts_with(words)).unwrap();
    (row, line[ROWS[row].0.len()..].trim_end().split(' ').map(|word| word.parse().unwrap()).collect())
}

/// A decision beside the answers of both bounds on the same text: its figures are those of the bound that it names, the second is asked only
/// where the first is refused by 8 or 9, and a refusal is the first's.
fn beside(answers: &Answers, decision: &Answer) -> Result<(), String> {
    let for_size = matches!(&answers.bound, Err(refusal) if matches!(refusal.number, 8 | 9));
    let source = if for_size && answers.merge.is_ok() { &answers.merge } else { &answers.bound };
    let agrees = match (source, decision) {
        (Ok(report), Ok(decision)) => {
            let (row, values) = values(decision);
            let of_bound = figures(report);
            let above = values[0] > values[1];
            [values[0], values[2], values[3], values[4]] == of_bound[..]
                && row == 2 * for_size as usize + above as usize
        }
        (first, second) => first == second,
    };
    if agrees {
        return Ok(());
    }
    let [source, decision] = [source, decision].map(|answer| printed(answer).escape_ascii().to_string());
    Err(format!("the bound says {source}\nand the decision {decision}"))
}

/// A file that is decided, with a TICK of its CYCLES or next to them.
fn with_near_tick(random: &mut Random, text: &[u8], cycles: u64) -> Option<Vec<u8>> {
    let tick = (cycles + random.below(3) as u64).checked_sub(1).filter(|tick| (1..=4_000_000_000).contains(tick))?;
    let mut lines: Vec<&[u8]> = text.split(|b| *b == b'\n').collect();
    let budget = lines[line::LIMITS - 1].split(|b| *b == b' ').next().unwrap();
    let limits = [budget, b" ", tick.to_string().as_bytes()].concat();
    lines[line::LIMITS - 1] = &limits;
    Some(lines.join(&b'\n')).filter(|text| text.len() <= independent::routine::TEXT_LIMIT)
}

impl Decisions {
    fn note(&mut self, answer: &Answer) {
        match answer {
            Ok(decision) => {
                let (row, values) = values(decision);
                self.rows[row] += 1;
                self.at_tick[row / 2] += (values[0] == values[1]) as u64;
                self.one_over[row / 2] += (values[0] == values[1] + 1) as u64;
            }
            Err(refusal) => {
                let at = REFUSALS.iter().position(|(number, _)| *number == refusal.number);
                self.refusals[at.expect("a refusal that no decision has")] += 1;
            }
        }
    }

    /// The decision on a file, beside the bounds', and on the same file with a TICK next to its CYCLES; by the program too, if it is given.
    pub fn compare(
        &mut self,
        random: &mut Random,
        text: &[u8],
        answers: &Answers,
        programs: Option<&Path>,
    ) -> Result<(), String> {
        let answer = compare_decision(random, text)?;
        beside(answers, &answer)?;
        self.note(&answer);
        if let Some(programs) = programs {
            decision_by_program(programs, text, &answer)?;
        }
        let near = answer.ok().and_then(|decision| with_near_tick(random, text, values(&decision).1[0]));
        if let Some(text) = near {
            let answer = compare_decision(random, &text).map_err(|what| format!("with a TICK near: {what}"))?;
            self.note(&answer);
        }
        Ok(())
    }

    pub fn counts(&self) -> Vec<(&'static str, u64)> {
        let rows = ROWS.iter().zip(self.rows).map(|((_, name), count)| (*name, count));
        let refusals = REFUSALS.iter().zip(self.refusals).map(|((_, name), count)| (*name, count));
        let edges = [
            ("decisions FITS by the first bound at TICK", self.at_tick[0]),
            ("decisions FITS by the merging bound at TICK", self.at_tick[1]),
            ("decisions OVER by one cycle", self.one_over[0]),
            ("decisions UNDECIDED by one cycle", self.one_over[1]),
        ];
        rows.chain(refusals).chain(edges).collect()
    }
}

/// Damaged answers: each must be noticed. OVER is left as FITS in the lent memory; and a refusal is told as FITS with figures of 0.
pub fn damaged() -> [(&'static str, Result<(), String>); 2] {
    let told_as_fits = |text: &[u8], memory: &mut [u8]| {
        let number = analyser::decide(text, memory);
        if let Some(word) = memory.get_mut(NAMES.len()..NAMES.len() + 4).filter(|word| **word == *b"OVER") {
            word.copy_from_slice(b"FITS");
        }
        number
    };
    let of_zeros = |text: &[u8], memory: &mut [u8]| {
        let number = analyser::decide(text, memory);
        let decision = [NAMES, "FITS FIRST 0 1 0 0 1\n"].concat();
        if number >> 63 == 0 || memory.len() < decision.len() {
            return number;
        }
        memory[..decision.len()].copy_from_slice(decision.as_bytes());
        decision.len() as u64
    };
    let over = std::fs::read("examples/over-tick.txt").unwrap_or_default();
    let refused = std::fs::read("examples/refused.txt").unwrap_or_default();
    [
        ("OVER left as FITS is noticed", noticed(&over, &told_as_fits)),
        ("a refusal told as FITS with figures of 0 is noticed", noticed(&refused, &of_zeros)),
    ]
}

/// Whether the comparison finds what is wrong with an answer, and finds nothing wrong with the analyser's own.
fn noticed(text: &[u8], wrong: &dyn Fn(&[u8], &mut [u8]) -> u64) -> Result<(), String> {
    let mut random = Random::new(1);
    compare_decision(&mut random, text).map(drop)?;
    match compare_report(&mut random, &|memory| wrong(text, memory), &|lent| decide_answer(text, lent)) {
        Err(_) => Ok(()),
        Ok(_) => Err("the comparison did not notice it".to_string()),
    }
}
