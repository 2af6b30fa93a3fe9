//! `tickbound tighten [--why] [--passes N] FILE`: chooses cuts for a routine, and then asks the analyser for the bound by cases with them.
//! Every choice is sound, since that bound is proved for all cuts; so how they are chosen needs no proof. The choice is greedy: by the
//! proved merging bound of each case, as a file of its own.
use crate::arguments::{self, number_of_32_bits, shown, Options};
use crate::commands::finish;
use crate::cuts::{parts, Range, Start, MOST, NAMES};
use crate::failure::{wrong_call, Failure};
use crate::input::{self, ROUTINE_LIMIT};
use crate::library::{self, Answer};
use crate::numbers::number;
use crate::routine_text::RoutineText;
use crate::{output, why};
use std::collections::HashMap;

const OPTIONS: Options = Options { flags: &["--why"], valued: &["--passes"] };
/// How many merging bounds a choice may take.
const PASSES: u32 = 20_000;
/// What a case costs that is refused.
const REFUSED: u64 = u64::MAX;

type Case = Vec<Option<Range>>;
/// A cell, by its place in the file, and a number.
type Cut = (usize, i64);

pub fn command(arguments: &[String]) -> Result<u8, Failure> {
    let given = arguments::read("tighten", arguments, &OPTIONS)?;
    let [file] = given.words.as_slice() else {
        return Err(wrong_call("tighten", "give one FILE, or - for standard input"));
    };
    let passes = match given.value("--passes") {
        None => PASSES,
        Some(word) => number_of_32_bits(word).filter(|passes| *passes > 0).ok_or_else(|| {
            wrong_call(
                "tighten",
                &format!(
                    "--passes is {}, and must be a number of 32 bits without leading zeros, and not 0",
                    shown(word)
                ),
            )
        })?,
    };
    let text = input::read(file, ROUTINE_LIMIT)?;
    let alone = library::merge(&text);
    if let Answer::Refused { number, .. } = alone {
        if number != 7 && number != 14 {
            return finish(&alone, &given, || why::of_question("merge", &text, &alone));
        }
    }
    let routine = RoutineText::read(file, &text)?;
    let start = Start::of(&routine);
    let mut search = Search { start: &start, left: passes, known: HashMap::new() };
    let cuts = search.chosen(&numbers(&routine));
    let lines: String = cuts.iter().map(|(place, from)| format!("{} {from}\n", start.name(*place))).collect();
    let lines = format!("{NAMES}\n{lines}");
    let answer = library::split(&text, lines.as_bytes());
    if let Answer::Report(report) = &answer {
        output::print(&[report, lines.as_bytes()].concat())?;
        if given.has("--why") {
            let (cases, used) = (start.count(&cuts), passes - search.left);
            let cycles = cost_of(&alone).map_or("none".into(), |cycles| cycles.to_string());
            let numbers = format!("CYCLES without cuts {cycles}, cases {cases}, passes {used}");
            output::say(&format!("tickbound: {numbers}"));
        }
        return Ok(0);
    }
    finish(&answer, &given, || why::of_split(&text, lines.as_bytes(), &answer))
}

/// CYCLES of a report.
fn cost_of(answer: &Answer) -> Option<u64> {
    let Answer::Report(report) = answer else {
        return None;
    };
    std::str::from_utf8(report).ok()?.lines().nth(1)?.split(' ').next()?.parse().ok()
}

/// The numbers that the code compares with: 0 by a conditional branch and, where it has a comparison, those that it puts into the
/// accumulator and those that cells hold at the start.
fn numbers(routine: &RoutineText) -> Vec<i64> {
    const COMPARISONS: [&str; 6] = ["EQ", "NEQ", "LTINT", "LEINT", "GTINT", "GEINT"];
    let compares = routine.code.iter().any(|line| COMPARISONS.contains(&line.op));
    let of_line = |op: &str, arg: &str| match op {
        "BRANCHIF" | "BRANCHIFNOT" => Some(0),
        _ if !compares => None,
        "CONSTINT" | "PUSHCONSTINT" => number(arg),
        _ => op.strip_prefix("PUSH").unwrap_or(op).strip_prefix("CONST").and_then(number),
    };
    let of_code = routine.code.iter().filter_map(|line| of_line(line.op, line.arg));
    let of_cells = routine.cells.iter().filter(|_| compares).filter_map(|(_, word)| number(word));
    let mut numbers: Vec<i64> = of_code.chain(of_cells).collect();
    numbers.sort_unstable();
    numbers.dedup();
    numbers
}

/// The cases that cuts have made, each with its CYCLES.
type Costs = Vec<(Case, u64)>;

/// CYCLES of the cases, the largest first. Cuts are better where these are lower, compared one after the other: lower CYCLES first of all,
/// then fewer cases that have them, and so on.
fn ranked(costs: &Costs) -> Vec<u64> {
    let mut ranked: Vec<u64> = costs.iter().map(|(_, cost)| *cost).collect();
    ranked.sort_unstable_by(|one, other| other.cmp(one));
    ranked
}

/// The largest CYCLES, and how many cases have them: a cut helps where this falls.
fn largest(ranked: &[u64]) -> (u64, usize) {
    let most = ranked.first().copied().unwrap_or(0);
    (most, ranked.iter().take_while(|cost| **cost == most).count())
}

struct Search<'a> {
    start: &'a Start<'a>,
    /// how many passes are left
    left: u32,
    known: HashMap<Case, u64>,
}

impl Search<'_> {
    /// CYCLES of a case; nothing where no pass is left.
    fn cost(&mut self, case: &Case) -> Option<u64> {
        if let Some(cost) = self.known.get(case) {
            return Some(*cost);
        }
        self.left = self.left.checked_sub(1)?;
        let cost = cost_of(&library::merge(&self.start.narrowed(case))).unwrap_or(REFUSED);
        self.known.insert(case.clone(), cost);
        Some(cost)
    }

    /// The cases with one cut more.
    fn divided(&mut self, costs: &Costs, (place, from): Cut) -> Option<Costs> {
        let mut made = Vec::new();
        for (case, cost) in costs {
            match parts(case, place, from) {
                None => made.push((case.clone(), *cost)),
                Some(parts) => {
                    for part in parts {
                        let cost = self.cost(&part)?;
                        made.push((part, cost));
                    }
                }
            }
        }
        Some(made)
    }

    /// The best of several cuts, or of several pairs, with the cases that they make; nothing where none helps. The first of equals.
    fn best(&mut self, costs: &Costs, candidates: &[Vec<Cut>]) -> Option<(Vec<Cut>, Costs)> {
        let before = largest(&ranked(costs));
        let mut best: Option<(Vec<Cut>, Costs)> = None;
        let mut lowest = Vec::new();
        for cuts in candidates {
            let mut costliest = costs.iter().filter(|(_, cost)| *cost == before.0);
            if !costliest.any(|(case, _)| cuts.iter().any(|cut| parts(case, cut.0, cut.1).is_some())) {
                continue;
            }
            let mut made = Some(costs.clone());
            for cut in cuts {
                made = made.and_then(|costs| self.divided(&costs, *cut));
            }
            // the passes are spent: what was found so far counts
            let Some(made) = made else {
                break;
            };
            let ranked = ranked(&made);
            if largest(&ranked) < before && (best.is_none() || ranked < lowest) {
                lowest = ranked;
                best = Some((cuts.clone(), made));
            }
        }
        best
    }

    /// The cuts, in the order of the file: each time the one that lowers CYCLES most; where none does, the two that part one number from
    /// the others of its cell.
    fn chosen(&mut self, numbers: &[i64]) -> Vec<Cut> {
        let ranges = self.start.ranges.clone();
        let places = (0..ranges.len()).filter(|place| ranges[*place].is_some_and(|range| !range.is_one()));
        let (mut singles, mut pairs) = (Vec::new(), Vec::new());
        for place in places {
            let range = ranges[place].unwrap_or(crate::cuts::WHOLE);
            let mut from: Vec<i64> = numbers.iter().flat_map(|n| [*n, n + 1]).collect();
            from.dedup();
            singles.extend(from.into_iter().filter(|n| range.is_divided_by(*n)).map(|n| vec![(place, n)]));
            let both = |n: &&i64| range.is_divided_by(**n) && range.is_divided_by(**n + 1);
            pairs.extend(numbers.iter().filter(both).map(|n| vec![(place, *n), (place, n + 1)]));
        }
        let mut cuts: Vec<Cut> = Vec::new();
        let Some(cost) = self.cost(&ranges) else {
            return cuts;
        };
        let mut costs = vec![(ranges, cost)];
        while cuts.len() < MOST {
            let mut best = self.best(&costs, &singles);
            if best.is_none() && cuts.len() + 2 <= MOST {
                best = self.best(&costs, &pairs);
            }
            let Some((more, made)) = best else {
                break;
            };
            cuts.extend(more);
            costs = made;
        }
        cuts.sort_unstable();
        cuts.dedup();
        cuts
    }
}

#[cfg(test)]
mod tests {
    use super::*;

    fn text(cells: &str, code: &[&str]) -> String {
        let code: String = code.iter().enumerate().map(|(at, line)| format!("{at} {line}\n")).collect();
        let kinds = "ACC0 CONSTINT PUSHCONSTINT PUSHCONST2 CONST3 PUSH POP EQ GEINT BRANCHIF BRANCHIFNOT C_CALL1 STOP";
        let of = |value: &str| vec![value; kinds.split(' ').count()].join(" ");
        format!(
            "BUDGET TICK\n1 1000\n{kinds}\n{}\n{}\n{}\nA\n10\n1\nACCU S0\n0 {cells}\n-\n-\nAT OP ARG\n{code}",
            of("1"),
            of("0"),
            of("0")
        )
    }

    fn chosen(text: &str, passes: u32) -> (Vec<Cut>, u32) {
        let routine = RoutineText::read("f", text.as_bytes()).unwrap();
        let start = Start::of(&routine);
        let mut search = Search { start: &start, left: passes, known: HashMap::new() };
        let cuts = search.chosen(&numbers(&routine));
        (cuts, passes - search.left)
    }

    #[test]
    fn the_numbers_that_the_code_compares_with() {
        let of = |code: &[&str]| {
            let text = text("7", code);
            numbers(&RoutineText::read("f", text.as_bytes()).unwrap())
        };
        assert_eq!(of(&["CONSTINT 5", "C_CALL1 A", "STOP -"]), Vec::<i64>::new());
        assert_eq!(of(&["CONSTINT 5", "BRANCHIF 2", "STOP -"]), [0]);
        assert_eq!(of(&["ACC0 -", "PUSHCONSTINT -4", "EQ -", "STOP -"]), [-4, 0, 7]);
        assert_eq!(of(&["CONST3 -", "PUSHCONST2 -", "EQ -", "BRANCHIFNOT 4", "STOP -"]), [0, 2, 3, 7]);
    }

    const TWICE: [&str; 7] = ["ACC0 -", "BRANCHIFNOT 3", "C_CALL1 A", "ACC0 -", "BRANCHIF 6", "C_CALL1 A", "STOP -"];

    #[test]
    fn a_flag_that_is_tested_twice() {
        assert_eq!(chosen(&text("0..1", &TWICE), 20_000), (vec![(1, 1)], 3));
        assert_eq!(chosen(&text("0..1008", &TWICE), 20_000).0, [(1, 1)]);
        // one cut alone leaves a part with 0 and other numbers
        assert_eq!(chosen(&text("?", &TWICE), 20_000).0, [(1, 0), (1, 1)]);
        assert_eq!(chosen(&text("1", &TWICE), 20_000), (vec![], 1));
    }

    #[test]
    fn passes_are_not_exceeded() {
        for passes in 1..10 {
            let (cuts, used) = chosen(&text("0..1", &TWICE), passes);
            assert!(used <= passes);
            assert_eq!(cuts.len(), (passes >= 3) as usize);
        }
    }

    #[test]
    fn a_routine_that_is_refused_without_cuts() {
        let unlike = text("0..9", &["ACC0 -", "BRANCHIF 3", "PUSH -", "STOP -"]);
        assert!(matches!(library::merge(unlike.as_bytes()), Answer::Refused { number: 14, .. }));
        assert_eq!(chosen(&unlike, 20_000).0, [(1, 1)]);
    }

    #[test]
    fn windows_are_told_apart() {
        let (cuts, used) = chosen(include_str!("../../examples/ninety-windows.txt"), 20_000);
        assert!(cuts.len() == MOST && cuts.is_sorted() && used < 5000, "{cuts:?} by {used}");
        // each is a border between two windows
        assert!(cuts.iter().all(|(place, from)| *place == 1 && from % 11 == 0), "{cuts:?}");
    }
}
