//! What is compared of the bound by cases and of the decision over it, and what came up.
use crate::compare::{compare_report, figures, filled, interrupted_within, number, program, shown};
use independent::analyser;
use independent::machine::Cell;
use independent::merge::merge;
use independent::random::Random;
use independent::report::{bound_answer, merge_answer, printed, run_answer, Answer, MEMORY};
use independent::routine::{read, TEXT_LIMIT};
use independent::split::{cases, cells, cuts_of, decide_split_answer, divides, names, split, split_answer, Cut};
use independent::split_draft::{cuts, tested, Tested};
use std::path::Path;

/// Numbers of files with their cuts.
#[derive(Default)]
pub struct Splits {
    /// reports by two cases or more: by more than sixteen
    of_cases: u64,
    of_many_cases: u64,
    /// lower than the merging bound's: in cycles, words, depth, steps
    lower: [u64; 4],
    below_the_first: u64,
    /// where the merging bound is refused by 14, by 7
    only_here: [u64; 2],
    /// a cut of the accumulator, of an entry, of a field, that divides
    places: [u64; 3],
    cells: u64,
    /// a cut that is passed over: a handle, a number, one outside the range
    passed_over: [u64; 3],
    sixteen: u64,
    /// refused by 14, by 7, of two cases or more; not by the first case; otherwise than the merging bound
    refused: [u64; 2],
    by_a_later_case: u64,
    otherwise: u64,
    /// refused for the cuts by 1, 2, 3, 4; and for the file
    of_cuts: [u64; 4],
    of_file: u64,
    /// lower, or accepted at all, by one cut more
    lower_by_one_more: u64,
    fits: u64,
    undecided: u64,
}

/// Compares the bound by cases of a file and cuts, and its decision; gives the answer wanted of the first.
pub fn compare_split(random: &mut Random, text: &[u8], cuts: &[u8]) -> Result<[Answer; 2], String> {
    let (copy, held) = (text.to_vec(), cuts.to_vec());
    let shown_cuts = || format!("with these cuts:\n{}", cuts.escape_ascii().to_string().replace("\\n", "\n"));
    let split =
        compare_report(random, &|memory| analyser::split(&copy, &held, memory), &|lent| split_answer(text, cuts, lent))
            .map_err(|what| format!("split {what}\n{}", shown_cuts()))?;
    let call = |memory: &mut [u8]| analyser::decide_split(&copy, &held, memory);
    let decision = compare_report(random, &call, &|lent| decide_split_answer(text, cuts, lent))
        .map_err(|what| format!("decide_split {what}\n{}", shown_cuts()))?;
    if copy != text || held != cuts {
        return Err(format!("what is read was written\n{}", shown_cuts()));
    }
    beside(&split, &decision).map_err(|what| format!("{what}\n{}", shown_cuts()))?;
    Ok([split, decision])
}

/// The decision beside the report: its figures, and FITS exactly where CYCLES are at most TICK; and its refusals.
fn beside(split: &Answer, decision: &Answer) -> Result<(), String> {
    let agrees = match (split, decision) {
        (Ok(report), Ok(decision)) => {
            let values = std::str::from_utf8(decision).unwrap().lines().nth(1).unwrap();
            let [decided, "SPLIT", cycles, tick, words, depth, steps] = values.split(' ').collect::<Vec<_>>()[..]
            else {
                return Err(format!("the decision is {values}"));
            };
            let [cycles, tick, words, depth, steps] =
                [cycles, tick, words, depth, steps].map(|word| word.parse::<u64>().unwrap());
            figures(report) == [cycles, words, depth, steps] && (decided == "FITS") == (cycles <= tick)
        }
        (first, second) => first == second,
    };
    if agrees {
        Ok(())
    } else {
        Err(format!("the bound by cases says {}\nand the decision {}", shown(split), shown(decision)))
    }
}

/// Whether no figure is above, and it is accepted where the other is.
fn not_above(split: &Answer, other: &Answer, name: &str) -> Result<(), String> {
    let fits = match (split, other) {
        (Ok(split), Ok(other)) => figures(split).iter().zip(figures(other)).all(|(a, b)| *a <= b),
        (Err(_), Ok(_)) => false,
        _ => true,
    };
    if fits {
        Ok(())
    } else {
        Err(format!("the bound by cases says {}\nand {name} {}", shown(split), shown(other)))
    }
}

/// Runs of an accepted file are within its report, and interrupted anywhere with what is left of them too: from the state that a run has
/// reached no cut divides a cell, so that bounded afresh is by the merging bound.
fn runs_within(random: &mut Random, text: &[u8], cuts: &[Cut], report: &[u8]) -> Result<(), String> {
    let routine = read(text, false).unwrap();
    let most = split(&routine, cuts, &routine.start).map_err(|_| "the cases are refused".to_string())?;
    for _ in 0..5 {
        let file = filled(random, text);
        if file.len() > TEXT_LIMIT {
            continue;
        }
        // BUDGET plays no part in the bound by cases, and may stop a run
        match run_answer(&file, MEMORY) {
            Ok(run) if figures(&run).iter().zip(figures(report)).any(|(a, b)| *a > b) => {
                return Err(format!("a run is not within the report: {}", String::from_utf8_lossy(&file)));
            }
            Err(refusal) if refusal.number == 7 => return Err("a run of an accepted file is stuck".to_string()),
            _ => {}
        }
    }
    interrupted_within(random, text, &most)
}

impl Splits {
    /// The bound by cases of a file with drawn cuts, beside the merging bound, with the cuts the other way round and with one fewer.
    pub fn compare(
        &mut self,
        random: &mut Random,
        text: &[u8],
        bounds: [&Answer; 2],
        programs: Option<&Path>,
    ) -> Result<(), String> {
        let cuts = cuts(random, text);
        self.with_cuts(random, text, &cuts, bounds, programs)
    }

    /// The same of a file and cuts that were drawn for each other.
    pub fn tested(&mut self, random: &mut Random, programs: Option<&Path>) -> Result<(), String> {
        let Tested { text, cuts } = tested(random);
        let [bound, merge] = [bound_answer(&text, MEMORY), merge_answer(&text, MEMORY)];
        self.with_cuts(random, &text, &cuts, [&bound, &merge], programs)
            .map_err(|what| format!("{what}\nof this file:\n{}", String::from_utf8_lossy(&text)))
    }

    fn with_cuts(
        &mut self,
        random: &mut Random,
        text: &[u8],
        cuts: &[u8],
        bounds: [&Answer; 2],
        programs: Option<&Path>,
    ) -> Result<(), String> {
        let [split, decision] = compare_split(random, text, cuts)?;
        self.note(text, cuts, bounds, &split, &decision);
        let of_cuts = || format!("with these cuts:\n{}", String::from_utf8_lossy(cuts));
        if let Some(read) = cuts_for(text, cuts) {
            not_above(&split, bounds[1], "the merging bound").map_err(|what| format!("{what}\n{}", of_cuts()))?;
            self.other_cuts(random, text, cuts, &split).map_err(|what| format!("{what}\n{}", of_cuts()))?;
            if let Ok(report) = &split {
                runs_within(random, text, &read, report).map_err(|what| format!("{what}\n{}", of_cuts()))?;
            }
        }
        programs.map_or(Ok(()), |programs| split_by_program(programs, text, cuts, &split))
    }

    /// Cuts in another order give the same figures, or are refused too; and one fewer gives no less.
    fn other_cuts(&mut self, random: &mut Random, text: &[u8], cuts: &[u8], split: &Answer) -> Result<(), String> {
        let mut lines: Vec<&[u8]> = cuts.strip_suffix(b"\n").unwrap().split(|b| *b == b'\n').collect();
        let joined = |lines: &[&[u8]]| lines.iter().flat_map(|line| [*line, b"\n"]).collect::<Vec<_>>().concat();
        lines[1..].reverse();
        let [other, _] = compare_split(random, text, &joined(&lines))?;
        if split.is_ok() != other.is_ok() || split.is_ok() && *split != other {
            return Err(format!("{}, and in another order {}", shown(split), shown(&other)));
        }
        if lines.len() == 1 {
            return Ok(());
        }
        lines.remove(random.within(1, lines.len() - 1));
        let [fewer, _] = compare_split(random, text, &joined(&lines))?;
        not_above(split, &fewer, "that of one cut fewer")?;
        self.lower_by_one_more += match (split, &fewer) {
            (Ok(split), Ok(fewer)) => figures(split) != figures(fewer),
            (Ok(_), Err(_)) => true,
            _ => false,
        } as u64;
        Ok(())
    }

    fn note(&mut self, text: &[u8], cuts: &[u8], bounds: [&Answer; 2], split: &Answer, decision: &Answer) {
        let Ok(routine) = read(text, false) else {
            self.of_file += 1;
            return;
        };
        let Some(cuts) = cuts_for(text, cuts) else {
            self.of_cuts[number(split) as usize - 1] += 1;
            return;
        };
        let held = cells(&routine.start);
        let entries = routine.start.height;
        let divided = |place: usize| cuts.iter().any(|cut| cut.cell == place && divides(held[place], cut.from));
        let of = |places: std::ops::Range<usize>| places.filter(|place| divided(*place)).count() as u64;
        let counts = [of(0..1), of(1..1 + entries), of(1 + entries..held.len())];
        (0..3).for_each(|i| self.places[i] += (counts[i] > 0) as u64);
        self.cells += (counts.iter().sum::<u64>() > 1) as u64;
        let over = |is: fn(Cell) -> bool| {
            cuts.iter().any(|cut| is(held[cut.cell]) && !divides(held[cut.cell], cut.from)) as u64
        };
        self.passed_over[0] += over(|cell| matches!(cell, Cell::Handle(_)));
        self.passed_over[1] += over(|cell| matches!(cell, Cell::Number(_)));
        self.passed_over[2] += over(|cell| matches!(cell, Cell::Within(_)));
        self.sixteen += (cuts.len() == 16) as u64;
        let cases = cases(&routine.start, &cuts);
        if cases.len() == 1 {
            return;
        }
        self.note_cases(bounds, split, cases.len());
        if let Err(refusal) = split {
            let first = merge(&routine, cases[0].clone());
            self.by_a_later_case += first.is_ok() as u64;
            self.refused[(refusal.number == 7) as usize] += 1;
            self.otherwise += bounds[1].as_ref().is_err_and(|merging| merging != refusal) as u64;
        }
        if let Ok(decision) = decision {
            let fits = decision.windows(6).any(|word| word == b"\nFITS ");
            self.fits += fits as u64;
            self.undecided += !fits as u64;
        }
    }

    /// A report of two cases or more beside those of both bounds.
    fn note_cases(&mut self, [bound, merge]: [&Answer; 2], split: &Answer, cases: usize) {
        let Ok(report) = split else {
            return;
        };
        self.of_cases += 1;
        self.of_many_cases += (cases > 16) as u64;
        match merge {
            Ok(merging) => {
                let pairs = figures(report).into_iter().zip(figures(merging));
                pairs.enumerate().for_each(|(i, (a, b))| self.lower[i] += (a < b) as u64);
            }
            Err(refusal) => self.only_here[(refusal.number == 7) as usize] += 1,
        }
        self.below_the_first += bound.as_ref().is_ok_and(|b| figures(report)[0] < figures(b)[0]) as u64;
    }

    pub fn counts(&self) -> Vec<(&'static str, u64)> {
        vec![
            ("reports by cases", self.of_cases),
            ("reports by more than 16 cases", self.of_many_cases),
            ("reports by cases with fewer cycles than the merging bound", self.lower[0]),
            ("reports by cases with fewer words than the merging bound", self.lower[1]),
            ("reports by cases with less depth than the merging bound", self.lower[2]),
            ("reports by cases with fewer steps than the merging bound", self.lower[3]),
            ("reports by cases below the first bound", self.below_the_first),
            ("reports by cases where the merging bound is refused by 14", self.only_here[0]),
            ("reports by cases where the merging bound is refused by 7", self.only_here[1]),
            ("files with the accumulator divided", self.places[0]),
            ("files with an entry divided", self.places[1]),
            ("files with a field divided", self.places[2]),
            ("files with two cells divided", self.cells),
            ("files with a cut of a handle", self.passed_over[0]),
            ("files with a cut of a number", self.passed_over[1]),
            ("files with a cut that does not divide its range", self.passed_over[2]),
            ("files with sixteen cuts", self.sixteen),
            ("cases refused by 14", self.refused[0]),
            ("cases refused by 7", self.refused[1]),
            ("cases of which a later one is refused first", self.by_a_later_case),
            ("cases refused otherwise than the merging bound", self.otherwise),
            ("cuts refused by 1", self.of_cuts[0]),
            ("cuts refused by 2", self.of_cuts[1]),
            ("cuts refused by 3", self.of_cuts[2]),
            ("cuts refused by 4", self.of_cuts[3]),
            ("cuts for a file that is refused", self.of_file),
            ("reports lower by one cut more", self.lower_by_one_more),
            ("decisions FITS by cases", self.fits),
            ("decisions UNDECIDED by cases", self.undecided),
        ]
    }
}

/// The cuts of a text for a file, where neither is refused.
fn cuts_for(text: &[u8], cuts: &[u8]) -> Option<Vec<Cut>> {
    names(text).and_then(|names| cuts_of(&names, cuts)).ok()
}

/// What the program prints for a routine file and its cuts.
pub fn split_by_program(programs: &Path, text: &[u8], cuts: &[u8], answer: &Answer) -> Result<(), String> {
    let file = |name: &str| std::env::temp_dir().join(format!("tickbound-{name}-{}", std::process::id()));
    let files = [(file("routine"), text), (file("cuts"), cuts)];
    for (path, bytes) in &files {
        std::fs::write(path, bytes).map_err(|e| format!("{}: {e}", path.display()))?;
    }
    let found = program(&programs.join("split"), &files.each_ref().map(|f| f.0.as_os_str()), &[], answer);
    for (path, _) in &files {
        let _ = std::fs::remove_file(path);
    }
    found.map_err(|what| format!("{what}\nfor {}", printed(answer).escape_ascii()))
}
