//! Where ranges count in the files compared, of change request 12.
use crate::compare::{figures, number, Answers};
use independent::bound::{explored, Event as Step};
use independent::machine::{Cell, Instruction, Operator, State};
use independent::merge::{passed, Event};
use independent::range::Range;
use independent::routine::{cell, line, read, Line, Refusal, Routine, Spelt};
use independent::tagged::{HIGHEST, LOWEST};
use std::collections::{BTreeMap, BTreeSet};

/// The comparisons, with what is counted where one of two wider ranges, or of a range and a number, holds for every pair, for none and
/// for some.
const COMPARISONS: [(Operator, [&str; 3]); 6] = [
    (Operator::Equal, ["", "EQ of ranges that is 0", "EQ of ranges that is 0 to 1"]),
    (Operator::Unequal, ["NEQ of ranges that is 1", "", "NEQ of ranges that is 0 to 1"]),
    (Operator::Less, ["LTINT of ranges that is 1", "LTINT of ranges that is 0", "LTINT of ranges that is 0 to 1"]),
    (
        Operator::LessOrEqual,
        ["LEINT of ranges that is 1", "LEINT of ranges that is 0", "LEINT of ranges that is 0 to 1"],
    ),
    (Operator::Greater, ["GTINT of ranges that is 1", "GTINT of ranges that is 0", "GTINT of ranges that is 0 to 1"]),
    (
        Operator::GreaterOrEqual,
        ["GEINT of ranges that is 1", "GEINT of ranges that is 0", "GEINT of ranges that is 0 to 1"],
    ),
];

/// What is counted of an operation on ranges: no result wraps, some wrap above, some below, some above and some below, all wrap.
const OPERATIONS: [(fn(&Instruction) -> bool, [&str; 5]); 5] = [
    (
        |i| matches!(i, Instruction::Binary(Operator::Add)),
        [
            "ADDINT of ranges",
            "ADDINT of ranges that wraps above",
            "ADDINT of ranges that wraps below",
            "ADDINT of ranges that wraps at both ends",
            "ADDINT of ranges of which every result wraps",
        ],
    ),
    (
        |i| matches!(i, Instruction::Binary(Operator::Subtract)),
        [
            "SUBINT of ranges",
            "SUBINT of ranges that wraps above",
            "SUBINT of ranges that wraps below",
            "SUBINT of ranges that wraps at both ends",
            "SUBINT of ranges of which every result wraps",
        ],
    ),
    (
        |i| matches!(i, Instruction::Offset(_)),
        [
            "OFFSETINT of a range",
            "OFFSETINT of a range that wraps above",
            "OFFSETINT of a range that wraps below",
            "",
            "OFFSETINT of a range of which every result wraps",
        ],
    ),
    (|i| matches!(i, Instruction::Negate), ["NEGINT of a range", "NEGINT of a range that wraps", "", "", ""]),
    (|i| matches!(i, Instruction::Not), ["BOOLNOT of a range", "BOOLNOT of a range that wraps", "", "", ""]),
];

/// What is counted of the texts, of conditions, of merges, and of reports beside those with `?`.
const OTHERS: [&str; 38] = [
    "a range in a cell of an accepted file",
    "a range in a field of an accepted file",
    "a range of one number in an accepted file",
    "a range of one number in a run",
    "refusal 11 by a range in a cell",
    "refusal 11 by a range in a field",
    "refusal 3 by a range from a greater number to a lesser, in a cell",
    "refusal 3 by a range from a greater number to a lesser, in a field",
    "refusal 3 by a low end just outside",
    "refusal 3 by a high end just outside",
    "refusal 2 by a misspelt range in a cell",
    "refusal 2 by a misspelt range in a field",
    "refusal 2 by a range where no cell is",
    "a condition on a range without 0, above",
    "a condition on a range without 0, below",
    "a condition on a range with 0 between its ends",
    "a condition on a range with 0 at an end",
    "a comparison with an unknown that is decided",
    "a condition that a comparison of ranges decides",
    "numbers merged to a range",
    "ranges merged that have no number in common",
    "ranges merged that overlap",
    "a range merged with an unknown",
    "a branch on merged numbers that opens no second way",
    "fewer cycles than with `?`",
    "fewer words than with `?`",
    "less depth than with `?`",
    "fewer steps than with `?`",
    "a report, with `?` a 7",
    "a report, with `?` an 8",
    "a report, with `?` a 9",
    "the same report as with `?`",
    "fewer cycles of the merging bound than with `?`",
    "fewer words of the merging bound than with `?`",
    "less depth of the merging bound than with `?`",
    "fewer steps of the merging bound than with `?`",
    "a report of the merging bound, with `?` a 7",
    "a report of the merging bound, with `?` a 14",
];

/// Numbers of files.
#[derive(Default)]
pub struct Ranges {
    counts: BTreeMap<&'static str, u64>,
}

fn names() -> impl Iterator<Item = &'static str> {
    let operations = COMPARISONS.iter().flat_map(|c| c.1).chain(OPERATIONS.iter().flat_map(|o| o.1));
    operations.chain(OTHERS).filter(|name| !name.is_empty())
}

/// What came up in one file.
#[derive(Default)]
struct Found(BTreeSet<&'static str>);

impl Found {
    fn add(&mut self, what: &'static str, came_up: bool) {
        let first = came_up && self.0.insert(what);
        assert!(!first || names().any(|name| name == what), "{what} is not counted");
    }

    fn operation(&mut self, state: &State, of: &Line) {
        let Some((operator, left, right)) = state.operands(of) else {
            return;
        };
        if left.is_one() && right.is_one() {
            return;
        }
        let given = left.operated(operator, right);
        if let Some([least, greatest]) = left.results(operator, right) {
            let (_, names) = OPERATIONS.iter().find(|o| o.0(&of.instruction)).unwrap();
            let (low, high) = (LOWEST as i64, HIGHEST as i64);
            let how = match (least < low, greatest > high) {
                _ if least > high || greatest < low => 4,
                (true, true) => 3,
                (true, false) => 2,
                (false, true) => 1,
                (false, false) => 0,
            };
            if !names[how].is_empty() {
                self.add(names[how], true);
            }
            return;
        }
        let (_, names) = COMPARISONS.iter().find(|c| c.0 == operator).unwrap();
        let how = match (given.low, given.high) {
            (1, 1) => 0,
            (0, 0) => 1,
            _ => 2,
        };
        self.add(names[how], true);
        let unknown = left == Range::WHOLE || right == Range::WHOLE;
        self.add("a comparison with an unknown that is decided", unknown && given.is_one());
    }

    fn condition(&mut self, state: &State, of: &Line) {
        let branch = matches!(of.instruction, Instruction::BranchIf(_) | Instruction::BranchIfNot(_));
        let Cell::Within(range) = state.accumulator else {
            return;
        };
        if branch && range != Range::WHOLE {
            self.add("a condition on a range without 0, above", range.low > 0);
            self.add("a condition on a range without 0, below", range.high < 0);
            self.add("a condition on a range with 0 between its ends", range.low < 0 && range.high > 0);
            self.add("a condition on a range with 0 at an end", range.low == 0 || range.high == 0);
        }
    }

    /// The steps of a routine that the bound accepts.
    fn steps(&mut self, routine: &Routine) {
        let mut decided = None;
        let _ = explored(routine, routine.start.clone(), |event| {
            let Step::Steps { state, line } = event else {
                return;
            };
            let branch = matches!(line.instruction, Instruction::BranchIf(_) | Instruction::BranchIfNot(_));
            self.add("a condition that a comparison of ranges decides", branch && decided == Some(state.at));
            self.operation(state, line);
            self.condition(state, line);
            // the address after a comparison of ranges that is decided
            decided = state.operands(line).and_then(|(operator, left, right)| {
                let compares = !matches!(operator, Operator::Add | Operator::Subtract);
                let ranges = !left.is_one() || !right.is_one();
                (compares && ranges && left.operated(operator, right).is_one()).then_some(state.at + 1)
            });
        });
    }

    /// What is merged in a routine that the merging bound accepts.
    fn merges(&mut self, routine: &Routine) {
        let (mut met, mut opens) = (BTreeMap::new(), BTreeSet::new());
        let _ = passed(routine, routine.start.clone(), |event| match event {
            Event::Came { at, states } => {
                let height = states[0].height;
                let cells = |s: &State| -> Vec<Cell> {
                    std::iter::once(s.accumulator)
                        .chain(s.stack[..height].iter().copied())
                        .chain(s.fields.iter().copied())
                        .collect()
                };
                let [first, second, ..] = states else {
                    return;
                };
                for (a, b) in cells(first).into_iter().zip(cells(second)) {
                    self.merged(a, b);
                }
                let ranges: Vec<Range> = states.iter().filter_map(|s| s.accumulator.range()).collect();
                let covering = ranges.iter().copied().reduce(Range::covering);
                if covering.is_some_and(|c| !c.is_one() && !c.contains(0)) && ranges.iter().all(|r| r.is_one()) {
                    met.insert(at, ());
                }
            }
            Event::Opens { at } => {
                opens.insert(at);
            }
        });
        let stays_closed = met.keys().any(|at| {
            let of = &routine.code[(at - routine.first) as usize];
            matches!(of.instruction, Instruction::BranchIf(_) | Instruction::BranchIfNot(_)) && !opens.contains(at)
        });
        self.add("a branch on merged numbers that opens no second way", stays_closed);
    }

    fn merged(&mut self, a: Cell, b: Cell) {
        let (Some(x), Some(y)) = (a.range(), b.range()) else {
            return;
        };
        if x == y {
            return;
        }
        let numbers = x.is_one() && y.is_one();
        let unknown = x == Range::WHOLE || y == Range::WHOLE;
        let apart = x.high < y.low || y.high < x.low;
        self.add("numbers merged to a range", numbers);
        self.add("ranges merged that have no number in common", !numbers && !unknown && apart);
        self.add("ranges merged that overlap", !unknown && !apart);
        self.add("a range merged with an unknown", unknown && !(x.is_one() || y.is_one()));
    }

    /// The reports beside those with `?`.
    fn beside(&mut self, answers: &Answers, widened: &Answers) {
        if let Ok(report) = &answers.bound {
            match &widened.bound {
                Ok(wide) => {
                    let fewer: Vec<bool> = figures(report).iter().zip(figures(wide)).map(|(a, b)| *a < b).collect();
                    self.add("fewer cycles than with `?`", fewer[0]);
                    self.add("fewer words than with `?`", fewer[1]);
                    self.add("less depth than with `?`", fewer[2]);
                    self.add("fewer steps than with `?`", fewer[3]);
                    self.add("the same report as with `?`", report == wide);
                }
                Err(refusal) => {
                    self.add("a report, with `?` a 7", refusal.number == 7);
                    self.add("a report, with `?` an 8", refusal.number == 8);
                    self.add("a report, with `?` a 9", refusal.number == 9);
                }
            }
        }
        if let Ok(report) = &answers.merge {
            match &widened.merge {
                Ok(wide) => {
                    let fewer: Vec<bool> = figures(report).iter().zip(figures(wide)).map(|(a, b)| *a < b).collect();
                    self.add("fewer cycles of the merging bound than with `?`", fewer[0]);
                    self.add("fewer words of the merging bound than with `?`", fewer[1]);
                    self.add("less depth of the merging bound than with `?`", fewer[2]);
                    self.add("fewer steps of the merging bound than with `?`", fewer[3]);
                }
                Err(refusal) => {
                    self.add("a report of the merging bound, with `?` a 7", refusal.number == 7);
                    self.add("a report of the merging bound, with `?` a 14", refusal.number == 14);
                }
            }
        }
    }

    /// The words of a line of a text that is refused there.
    fn refused(&mut self, text: &[u8], refusal: &Refusal) {
        let n = refusal.place as usize;
        let lines: Vec<&[u8]> = text.split(|b| *b == b'\n').collect();
        let Some(held) = lines.get(n.wrapping_sub(1)) else {
            return;
        };
        let words: Vec<&[u8]> = held.split(|b| *b == b' ').collect();
        let (in_cells, in_fields) = (n == line::CELLS, n == line::FIELDS);
        let dots = |word: &&[u8]| word.windows(2).any(|two| two == b"..");
        if refusal.number == 2 {
            // alone: every other word is a cell
            let misspelt: Vec<_> = words.iter().filter(|word| cell(word).is_none()).collect();
            let by_range = !misspelt.is_empty() && misspelt.iter().all(|word| dots(word));
            self.add("refusal 2 by a misspelt range in a cell", in_cells && by_range);
            self.add("refusal 2 by a misspelt range in a field", in_fields && by_range);
            let range = |word: &&[u8]| matches!(cell(word), Some(Spelt::Range(..)));
            self.add("refusal 2 by a range where no cell is", !in_cells && !in_fields && words.iter().any(range));
            return;
        }
        let ranges: Vec<(i64, i64)> = words
            .iter()
            .filter_map(|word| match cell(word)? {
                Spelt::Range(low, high) => Some((low, high)),
                _ => None,
            })
            .collect();
        let falls = ranges.iter().any(|(low, high)| low > high);
        let (below, above) = (LOWEST as i64 - 1, HIGHEST as i64 + 1);
        if refusal.number == 3 && (in_cells || in_fields) {
            self.add("refusal 3 by a range from a greater number to a lesser, in a cell", in_cells && falls);
            self.add("refusal 3 by a range from a greater number to a lesser, in a field", in_fields && falls);
            self.add("refusal 3 by a low end just outside", ranges.iter().any(|r| r.0 == below && r.1 > below));
            self.add("refusal 3 by a high end just outside", ranges.iter().any(|r| r.1 == above && r.0 < above));
        }
        if refusal.number == 11 {
            let wider = !words.contains(&&b"?"[..]) && ranges.iter().any(|(low, high)| low < high);
            self.add("refusal 11 by a range in a cell", in_cells && wider);
            self.add("refusal 11 by a range in a field", in_fields && wider);
        }
    }
}

impl Ranges {
    pub fn note(&mut self, text: &[u8], answers: &Answers, widened: Option<&Answers>) {
        let mut found = Found::default();
        for answer in [&answers.bound, &answers.run] {
            answer.as_ref().err().into_iter().for_each(|refusal| found.refused(text, refusal));
        }
        if let Ok(routine) = read(text, false) {
            let lines: Vec<&[u8]> = text.split(|b| *b == b'\n').collect();
            let held = |n: usize, one: bool| {
                let wanted = |word: &[u8]| matches!(cell(word), Some(Spelt::Range(low, high)) if (low == high) == one);
                lines[n - 1].split(|b| *b == b' ').any(wanted)
            };
            let one = held(line::CELLS, true) || held(line::FIELDS, true);
            found.add("a range of one number in a run", answers.run.is_ok() && one);
            if number(&answers.bound) == 0 {
                found.add("a range in a cell of an accepted file", held(line::CELLS, false));
                found.add("a range in a field of an accepted file", held(line::FIELDS, false));
                found.add("a range of one number in an accepted file", one);
                found.steps(&routine);
            }
            if number(&answers.merge) == 0 {
                found.merges(&routine);
            }
        }
        widened.into_iter().for_each(|widened| found.beside(answers, widened));
        found.0.into_iter().for_each(|what| *self.counts.entry(what).or_default() += 1);
    }

    pub fn counts(&self) -> impl Iterator<Item = (&'static str, u64)> + '_ {
        names().map(|what| (what, self.counts.get(what).copied().unwrap_or(0)))
    }
}
