//! The files of seeds, of change request 11, compared and counted.
use crate::compare::{by_programs, compare, differs, number, program, Answers};
use crate::imports::{compare_lent, export_by_program, exported};
use independent::analyser;
use independent::random::Random;
use independent::report::Answer;
use independent::routine::{line, KINDS};
use independent::seeded::{checksum, file, generate_answer, MEMORY, PINNED};
use std::collections::BTreeSet;
use std::ffi::OsStr;
use std::path::Path;

/// How many seeds are compared, but for 0.
pub const SEEDS: usize = 2_000;
/// Where the rules are, and the first lines of the file of seed 1.
const RULES: &str = "docs/GENERATOR.md";
/// How many lines the rules show, and how many there are.
const SHOWN: usize = 20;
const LINES: usize = 184;

/// 0, the ends of 32 bits and the seeds around the sign, the first ones, and any.
pub fn seeds(random: &mut Random) -> Vec<u32> {
    let ends = [0, u32::MAX, u32::MAX - 1, i32::MAX as u32, 1 << 31, (1 << 31) + 1];
    let mut seeds: Vec<u32> = ends.into_iter().chain(1..=SEEDS as u32 / 2).collect();
    while seeds.len() <= SEEDS {
        seeds.push((random.next() as u32).max(1));
    }
    seeds
}

/// Numbers of files.
#[derive(Default)]
pub struct Seeds {
    accepted: u64,
    stuck: u64,
    spent: u64,
    run: u64,
    unknown: u64,
    merged: u64,
    unlike: u64,
    without_unknowns: u64,
    kinds: BTreeSet<Vec<u8>>,
}

impl Seeds {
    fn note(&mut self, text: &[u8], answers: &Answers) {
        let [bound, run, merge] = [&answers.bound, &answers.run, &answers.merge].map(number);
        self.accepted += (bound == 0) as u64;
        self.stuck += (bound == 7) as u64;
        self.spent += (bound == 9) as u64;
        self.run += (run == 0) as u64;
        self.unknown += (run == 11) as u64;
        self.merged += (merge == 0) as u64;
        self.unlike += (merge == 14) as u64;
        self.without_unknowns += !text.contains(&b'?') as u64;
        let code = text.split(|b| *b == b'\n').skip(line::CODE - 1);
        self.kinds.extend(code.filter_map(|l| l.split(|b| *b == b' ').nth(1)).map(Vec::from));
    }

    /// What came up, how often, and how often it must.
    fn rows(&self) -> [(&'static str, u64, u64); 9] {
        let seeds = SEEDS as u64;
        [
            ("seeds whose file the first bound accepts", self.accepted, seeds / 5),
            ("seeds whose file it refuses by 7", self.stuck, seeds / 5),
            ("seeds whose file it refuses by 9", self.spent, seeds / 200),
            ("seeds whose file the run accepts", self.run, seeds / 20),
            ("seeds whose file it refuses by 11", self.unknown, seeds / 5),
            ("seeds whose file the merging bound accepts", self.merged, seeds / 5),
            ("seeds whose file it refuses by 14", self.unlike, 1),
            ("seeds whose file holds no `?`", self.without_unknowns, seeds / 5),
            ("kinds in the files of seeds", self.kinds.len() as u64, KINDS.len() as u64),
        ]
    }

    pub fn counts(&self) -> impl Iterator<Item = (&'static str, u64)> {
        self.rows().into_iter().map(|(what, count, _)| (what, count))
    }

    /// Whether what must come up did.
    pub fn cover(&self) -> Result<(), String> {
        let rare: Vec<_> = self.rows().into_iter().filter(|(_, count, least)| count < least).collect();
        if rare.is_empty() {
            Ok(())
        } else {
            Err(format!("too few of {rare:?}"))
        }
    }

    /// The file of a seed with memory of any length, and what it is answered by the bounds, the run and the export: none of 1 to 6 and 13;
    /// by the programs too, if they are given.
    pub fn compare(&mut self, random: &mut Random, seed: u32, programs: Option<&Path>) -> Result<(), String> {
        let call = |memory: &mut [u8]| analyser::generate(seed, memory);
        let answer = compare_lent(random, &call, &|lent| generate_answer(seed, lent))
            .map_err(|what| format!("generate {what}"))?;
        if let Some(programs) = programs {
            generate_by_program(programs, seed, &answer)?;
        }
        let Ok(text) = answer else {
            return Ok(());
        };
        let answers = compare(random, &text)?;
        let words = exported(random, &text, &answers.bound)?;
        let numbers = [&answers.bound, &answers.run, &answers.merge, &words].map(number);
        if numbers.iter().any(|number| (1..=6).contains(number) || *number == 13) {
            return Err(format!("its file is refused by one of {numbers:?}"));
        }
        self.note(&text, &answers);
        let Some(programs) = programs else {
            return Ok(());
        };
        by_programs(programs, &text, &answers)?;
        export_by_program(programs, &text, &words)
    }
}

fn generate_by_program(programs: &Path, seed: u32, answer: &Answer) -> Result<(), String> {
    program(&programs.join("generate"), &[OsStr::new(&seed.to_string())], &[], answer)
}

/// The lengths and checksums of the pinned seeds, of both sides.
fn pinned_sums() -> Result<(), String> {
    let mut memory = vec![0; MEMORY];
    for (seed, length, sum) in PINNED {
        let own = file(seed);
        let told = analyser::generate(seed, &mut memory);
        let made = memory.get(..told as usize).unwrap_or_default();
        let found = [(made.len(), checksum(made)), (own.len(), checksum(&own))];
        if found != [(length, sum); 2] {
            return Err(format!("seed {seed}: lengths and checksums {found:x?}, not {:x?}", (length, sum)));
        }
    }
    Ok(())
}

/// The first lines of seed 1, as the rules show them.
fn pinned_lines() -> Result<(), String> {
    let rules = std::fs::read_to_string(RULES).map_err(|e| format!("{RULES}: {e}"))?;
    let shown: Vec<&str> = rules.lines().skip_while(|l| *l != "BUDGET TICK").take_while(|l| *l != "```").collect();
    let made = String::from_utf8(file(1)).unwrap();
    let made: Vec<&str> = made.lines().collect();
    if shown.len() == SHOWN && made.len() == LINES && made.starts_with(&shown) {
        Ok(())
    } else {
        Err(format!("not as {RULES} shows it, with {SHOWN} lines of {LINES}"))
    }
}

/// "Lent memory under 32,768 bytes is refusal 10, checked before the seed"; "0 is refusal 3 at place 0".
fn pinned_refusals(programs: &Path) -> Result<(), String> {
    let refused = |number: u64| 1 << 63 | number << 32;
    for (seed, length, wanted) in [
        (0, 0, refused(10)),
        (0, MEMORY - 1, refused(10)),
        (0, MEMORY, refused(3)),
        (0, MEMORY + 1, refused(3)),
        (1, 0, refused(10)),
        (1, MEMORY - 1, refused(10)),
        (1, MEMORY, PINNED[0].1 as u64),
    ] {
        let mut memory = vec![0; length];
        let told = analyser::generate(seed, &mut memory);
        if told != wanted {
            return Err(format!("seed {seed} with {length} bytes lent: the number told is {told:#x}, not {wanted:#x}"));
        }
        let own = generate_answer(seed, length);
        if let Some(what) = differs(&|memory| analyser::generate(seed, memory), MEMORY + 1, length, 7, &own) {
            return Err(format!("seed {seed} {what}"));
        }
    }
    generate_by_program(programs, 0, &generate_answer(0, MEMORY))
}

/// What is pinned of seeds, by name.
pub fn pinned_seeds(programs: &Path) -> [(&'static str, Result<(), String>); 3] {
    [
        ("the lengths and checksums of pinned seeds", pinned_sums()),
        ("the first lines of seed 1", pinned_lines()),
        ("too little memory, and seed 0", pinned_refusals(programs)),
    ]
}
