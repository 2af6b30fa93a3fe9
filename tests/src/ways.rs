//! What is compared of an explanation of the merging bound, and what came up in the ways.
use crate::compare::{differs, figures, shown};
use independent::analyser;
use independent::explain::{MEMORY, NAMES};
use independent::random::Random;
use independent::report::{bound_answer, merge_answer, Answer};
use independent::routine::read;
use independent::way::{explain_merge_answer, way_of};
use independent::way_draft::nearly_alike;

/// The most memory lent.
const LENT: usize = MEMORY + 100;

/// Numbers of files.
#[derive(Default)]
pub struct Ways {
    not_taken: u64,
    taken: u64,
    /// a place on the way to which both ways of one branch come at the largest sum
    ties_at_a_branch: u64,
    ties_between_addresses: u64,
    several_stops: u64,
    several_costliest_stops: u64,
    words_below: u64,
    /// a branch on the way that jumps at an extra on a known condition
    known_extras: u64,
    /// where the first bound is refused by 8 or 9, and where its worst path costs less
    first_refused: u64,
    first_below: u64,
    of_no_cycles: u64,
}

impl Ways {
    fn note(&mut self, text: &[u8], bound: &Answer, report: &[u8], lines: &[Vec<&str>]) {
        let way = way_of(text);
        let has = |word| lines.iter().any(|line| line[6] == word);
        self.not_taken += has("N") as u64;
        self.taken += has("T") as u64;
        self.ties_at_a_branch += way.tie_at_a_branch as u64;
        self.ties_between_addresses += way.tie_between_addresses as u64;
        self.several_stops += (way.stops > 1) as u64;
        self.several_costliest_stops += (way.costliest_stops > 1) as u64;
        let [cycles, words, ..] = figures(report)[..] else { unreachable!("a report has four figures") };
        let spent: u64 = way.moves.iter().map(|m| m.words).sum();
        self.words_below += (spent < words) as u64;
        self.of_no_cycles += (cycles == 0) as u64;
        let jumps =
            |pair: &[Vec<&str>]| pair[0][6] == "-" && pair[0][1].starts_with("BRANCHIF") && pair[1][0] == pair[0][2];
        self.known_extras += lines.windows(2).any(jumps) as u64;
        match bound {
            Ok(first) => self.first_below += (figures(first)[0] < cycles) as u64,
            Err(_) => self.first_refused += 1,
        }
    }

    /// The explanation of a text beside its merging bound's report, and counted.
    fn one(&mut self, random: &mut Random, text: &[u8], [bound, merge]: [&Answer; 2]) -> Result<(), String> {
        let explained = compare_way(random, text)?;
        beside(merge, &explained)?;
        if let (Ok(report), Ok(lines)) = (merge, &explained) {
            let lines = words(std::str::from_utf8(lines).unwrap()).split_off(3);
            self.note(text, bound, report, &lines);
        }
        Ok(())
    }

    /// The explanation of a text; and, where it passes, of the same with prices that are nearly alike and with more STOPs.
    pub fn compare(&mut self, random: &mut Random, text: &[u8], answers: [&Answer; 2]) -> Result<(), String> {
        self.one(random, text, answers)?;
        if read(text, false).is_err() {
            return Ok(());
        }
        let text = nearly_alike(random, text);
        let [bound, merge] = [bound_answer(&text, MEMORY), merge_answer(&text, MEMORY)];
        self.one(random, &text, [&bound, &merge]).map_err(|what| {
            format!(
                "{what}
of this file:\n{}",
                String::from_utf8_lossy(&text)
            )
        })
    }

    pub fn counts(&self) -> [(&'static str, u64); 11] {
        [
            ("merged ways with a branch not taken", self.not_taken),
            ("merged ways with a branch taken", self.taken),
            ("merged ways with a tie of both ways of a branch", self.ties_at_a_branch),
            ("merged ways with a tie between addresses", self.ties_between_addresses),
            ("merged ways beside other STOPs", self.several_stops),
            ("merged ways with a tie between STOPs", self.several_costliest_stops),
            ("merged ways whose words are below WORDS", self.words_below),
            ("merged ways with a known condition that jumps", self.known_extras),
            ("merged ways where the first bound is refused", self.first_refused),
            ("merged ways above the worst path", self.first_below),
            ("merged ways of no cycles", self.of_no_cycles),
        ]
    }
}

/// The lines of an explanation of the merging bound beside its report: they begin with it and the names, addresses rise, the last is a STOP
/// with its CYCLES, and no line has fewer cycles or words than the one before.
fn beside(merge: &Answer, explained: &Answer) -> Result<(), String> {
    let fits = match (merge, explained) {
        (Ok(report), Ok(lines)) => {
            let [report, lines] = [report, lines].map(|bytes| std::str::from_utf8(bytes).unwrap());
            lines.strip_prefix(report).and_then(|rest| rest.strip_prefix(NAMES)).is_some_and(|rest| {
                let rest = words(rest);
                let number = |line: &Vec<&str>, word: usize| line[word].parse::<u64>().unwrap();
                let rises = |pair: &[Vec<&str>]| {
                    number(&pair[0], 0) < number(&pair[1], 0)
                        && (3..5).all(|k| number(&pair[0], k) <= number(&pair[1], k))
                };
                let last = rest.last().unwrap();
                last[3] == words(report)[1][0] && last[1] == "STOP" && rest.windows(2).all(rises)
            })
        }
        (first, second) => first == second,
    };
    if fits {
        Ok(())
    } else {
        Err(format!("the merging bound says {}\nand its explanation {}", shown(merge), shown(explained)))
    }
}

fn words(lines: &str) -> Vec<Vec<&str>> {
    lines.lines().map(|line| line.split(' ').collect()).collect()
}

/// Compares the explanation of the merging bound of a text, with enough memory and with too little; gives the answer wanted.
pub fn compare_way(random: &mut Random, text: &[u8]) -> Result<Answer, String> {
    let copy = text.to_vec();
    let call = |memory: &mut [u8]| analyser::explain_merge(&copy, memory);
    let wanted = explain_merge_answer(text, MEMORY);
    let pattern = random.next() as u8;
    let enough = if random.one_in(2) { MEMORY } else { random.within(MEMORY, LENT) };
    let short = if random.one_in(2) { MEMORY - 1 } else { random.below(MEMORY) };
    let found = differs(&call, LENT, enough, pattern, &wanted)
        .or_else(|| differs(&call, LENT, short, pattern, &explain_merge_answer(text, short)));
    match found {
        Some(what) => Err(format!("explain_merge {what}\nwanted: {}", shown(&wanted))),
        None if copy != text => Err("explain_merge wrote the text".to_string()),
        None => Ok(wanted),
    }
}
