//! The analyser's C functions and programs compared with the independent implementation: on the cases of document 01 and of the change
//! requests, on texts, words, traces, previews and decisions, with the answers that these papers give them; on functions that OCaml
//! compiled; on the files that the analyser makes from seeds; and on files, words, traces and previews of a generator of its own.
mod causes;
mod compare;
mod decisions;
mod explanations;
mod extras;
mod handles;
mod imports;
mod jumps;
mod merges;
mod narrowed;
mod nearests;
mod pinned;
mod previews;
mod ranges;
mod recordings;
mod replays;
mod seeds;
mod shares;
mod splits;
mod traces;
mod ways;
mod wraps;

use causes::Causes;
use compare::{by_programs, compare, file, number, Answers, Outcome};
use decisions::Decisions;
use explanations::{explained, Explanations};
use extras::Extras;
use handles::Compared;
use imports::{compiled, export_by_program, exported, import_by_program, imported};
use independent::analyser::{self, Function};
use independent::cases::{cases, program_files, starred};
use independent::compiled::functions;
use independent::damage::damaged;
use independent::decide::decide_answer;
use independent::decide_cases;
use independent::explain;
use independent::generate::draft;
use independent::merge_cases::{self, merges, MERGES};
use independent::nearest::nearest_answer;
use independent::nearest_cases;
use independent::nearest_draft;
use independent::preview_cases;
use independent::preview_draft::{instruction_at, preview};
use independent::random::Random;
use independent::range_cases::{self, ranges, RANGES};
use independent::replay_cases;
use independent::report::{bound_answer, merge_answer, printed, told, Answer, MEMORY};
use independent::routine::{line, read, KINDS};
use independent::seeded;
use independent::split_cases;
use independent::texts::{texts, TEXTS};
use independent::trace;
use independent::way::explain_merge_answer;
use independent::way_cases;
use independent::word_cases::{self, CASES};
use independent::word_draft;
use jumps::Jumps;
use merges::Merges;
use narrowed::Narrowed;
use nearests::{compare_nearest, nearest_by_program, Nearests};
use pinned::{
    pinned, pinned_decision, pinned_export, pinned_import, pinned_merge, pinned_nearest, pinned_preview, pinned_range,
    pinned_replay, pinned_split, pinned_way,
};
use previews::{compare_preview, preview_by_program, Previews};
use ranges::Ranges;
use recordings::{traced, Recordings};
use replays::{replay_by_program, replayed};
use seeds::{pinned_seeds, seeds, Seeds};
use shares::Shares;
use splits::Splits;
use std::collections::{BTreeMap, BTreeSet};
use std::path::Path;
use traces::Traces;
use ways::Ways;
use wraps::Wraps;

/// Disagreements shown in full; all are counted.
const SHOWN: u64 = 5;

/// What has been compared, and what came of it.
#[derive(Default)]
struct Tally {
    passed: u64,
    failed: u64,
    given_to_programs: u64,
    /// runs interrupted and bounded afresh by both
    interruptions: u64,
    /// kinds in the code of accepted files
    kinds: BTreeSet<Vec<u8>>,
    /// answers of the bound, of the run and of the merging bound, by the number of the refusal; 0 for a report
    answers: BTreeMap<u32, [u64; 3]>,
    extras: Extras,
    handles: Compared,
    shares: Shares,
    wraps: Wraps,
    jumps: Jumps,
    merges: Merges,
    narrowed: Narrowed,
    ranges: Ranges,
    causes: Causes,
    traces: Traces,
    recordings: Recordings,
    previews: Previews,
    nearests: Nearests,
    explanations: Explanations,
    ways: Ways,
    splits: Splits,
    decisions: Decisions,
    seeds: Seeds,
}

impl Tally {
    /// Counts a comparison, and shows what differs.
    fn count(&mut self, name: &str, text: &[u8], found: Result<(), String>) {
        let Err(what) = found else {
            self.passed += 1;
            return;
        };
        self.failed += 1;
        if self.failed <= SHOWN {
            println!("{name}: {what}\nthe file, between the lines of dashes:");
            println!("----\n{}----", text.escape_ascii().to_string().replace("\\n", "\n"));
        }
    }

    fn note(&mut self, text: &[u8], answers: &Answers) {
        let Answers { bound, run, merge } = answers;
        if bound.is_ok() {
            let code = text.split(|b| *b == b'\n').skip(line::CODE - 1);
            self.kinds.extend(code.filter_map(|l| l.split(|b| *b == b' ').nth(1)).map(Vec::from));
        }
        for (i, answer) in [bound, run, merge].into_iter().enumerate() {
            self.answers.entry(number(answer)).or_default()[i] += 1;
        }
        self.extras.note(text, bound, run);
        self.handles.note(text, bound, run);
        self.shares.note(text, bound);
        self.wraps.note(text, bound, run);
        self.jumps.note(text, bound);
        self.merges.note(text, answers);
    }

    /// What a report depends on, and how many files had it.
    fn counts(&self) -> impl Iterator<Item = (&'static str, u64)> + '_ {
        let of_cells = self.extras.counts().into_iter().chain(self.handles.counts()).chain(self.wraps.counts());
        let of_ways = self.jumps.counts().into_iter().chain(self.merges.counts()).chain(self.narrowed.counts());
        of_cells.chain(self.shares.counts()).chain(of_ways).chain(self.ranges.counts())
    }

    /// All comparisons on one file; with the programs too, if they are given.
    fn file(&mut self, random: &mut Random, text: &[u8], programs: Option<&Path>) -> Result<(), String> {
        let Outcome { answers, widened, interruptions } = file(random, text)?;
        self.interruptions += interruptions;
        self.note(text, &answers);
        self.ranges.note(text, &answers, widened.as_ref());
        self.narrowed.compare(random, text, &answers)?;
        explained(random, text, &answers.bound, programs, &mut self.explanations)?;
        self.decisions.compare(random, text, &answers, programs)?;
        let exported = exported(random, text, &answers.bound)?;
        if exported.is_ok() {
            self.causes.note_export(read(text, false).unwrap().first);
        }
        let Some(programs) = programs else {
            return Ok(());
        };
        self.given_to_programs += 1;
        by_programs(programs, text, &answers)?;
        export_by_program(programs, text, &exported)
    }

    /// The merging bound of a file explained, its bound by cases, and that of a file drawn for it.
    fn merged(&mut self, random: &mut Random, text: &[u8], programs: Option<&Path>) -> Result<(), String> {
        let [bound, merge] = [bound_answer(text, MEMORY), merge_answer(text, MEMORY)];
        self.ways.compare(random, text, [&bound, &merge])?;
        self.splits.compare(random, text, [&bound, &merge], programs)?;
        self.splits.tested(random, programs)
    }

    /// All comparisons on words and a primitives line.
    fn words(&mut self, random: &mut Random, programs: Option<&Path>) -> Result<(), String> {
        let import = word_draft::import(random);
        let (answer, came_back) = imported(random, &import)?;
        self.causes.note_import(&import, &answer, came_back);
        programs.map_or(Ok(()), |programs| import_by_program(programs, &import, &answer))
    }

    /// All comparisons on a file and a trace for it.
    fn trace(&mut self, random: &mut Random, text: &[u8], programs: Option<&Path>) -> Result<(), String> {
        let (replay, answer) = replayed(random, text)?;
        self.traces.note(&replay);
        traced(random, &replay.text, programs, &mut self.recordings)?;
        programs.map_or(Ok(()), |programs| replay_by_program(programs, &replay, &answer))
    }

    /// All comparisons on a file with another instruction.
    fn preview(&mut self, random: &mut Random, text: &[u8], programs: Option<&Path>) -> Result<(), String> {
        let preview = preview(random, text);
        let answer = compare_preview(random, &preview)?;
        self.previews.note(&preview, &answer);
        programs.map_or(Ok(()), |programs| preview_by_program(programs, &preview, &answer))
    }

    /// The search on a file as it was drawn, and on one drawn for it.
    fn nearest(&mut self, random: &mut Random, text: &[u8], programs: Option<&Path>) -> Result<(), String> {
        let Some(answer) = compare_nearest(random, text)? else {
            return Ok(());
        };
        self.nearests.note(text, &answer);
        programs.map_or(Ok(()), |programs| nearest_by_program(programs, text, &answer))
    }
}

/// The routine files of `examples/`, each with its path.
fn examples() -> Vec<(String, Vec<u8>)> {
    let paths = std::fs::read_dir("examples").unwrap().map(|file| file.unwrap().path());
    let files = paths.filter(|path| path.extension().is_some_and(|e| e == "txt"));
    let mut texts: Vec<_> = files.map(|path| (path.display().to_string(), std::fs::read(path).unwrap())).collect();
    texts.sort();
    texts
}

/// The cases of the document and the texts, and that none was lost.
fn compare_pinned(tally: &mut Tally, programs: &Path, random: &mut Random) {
    let texts = texts();
    let count = if texts.len() == TEXTS { Ok(()) } else { Err(format!("{}, not {TEXTS}", texts.len())) };
    tally.count("the count of the texts", &[], count);
    for text in cases().iter().chain(&starred()).chain(&texts) {
        let found = pinned(programs, random, text);
        tally.count(&format!("the text {}", text.name), &text.bytes, found);
    }
}

/// The texts with the answers of both bounds, the cases' answers of the merging bound, and the examples, of which one is a panel of ninety
/// tests: the first bound refuses it by 8, the merging bound accepts it.
fn compare_merges(tally: &mut Tally, programs: &Path, random: &mut Random) {
    let texts = merges();
    let count = if texts.len() == MERGES { Ok(()) } else { Err(format!("{}, not {MERGES}", texts.len())) };
    tally.count("the count of the texts of both bounds", &[], count);
    for text in &texts {
        let found = pinned_merge(programs, random, text);
        tally.count(&format!("the merge {}", text.name), &text.bytes, found);
    }
    for text in cases().iter().chain(&starred()) {
        let pinned = merge_cases::printed(text).is_some();
        let found = if pinned { Ok(()) } else { Err("no answer of the merging bound is pinned".to_string()) };
        tally.count(&format!("the case {}", text.name), &text.bytes, found);
    }
    for (path, text) in &examples() {
        let found = file(random, text).and_then(|compared| by_programs(programs, text, &compared.answers));
        tally.count(path, text, found);
    }
    let panel = std::fs::read("examples/ninety-tests.txt").unwrap_or_default();
    let numbers = [bound_answer(&panel, MEMORY), merge_answer(&panel, MEMORY)].map(|answer| number(&answer));
    let found = if numbers == [8, 0] { Ok(()) } else { Err(format!("refusals {numbers:?}, not 8 and none")) };
    tally.count("the example of ninety tests", &panel, found);
}

/// The texts of ranges, with the answers of both bounds and of the run; and the ranges of the independent implementation, against all pairs
/// of their numbers.
fn compare_ranges(tally: &mut Tally, programs: &Path, random: &mut Random) {
    let texts = ranges();
    let count = if texts.len() == RANGES { Ok(()) } else { Err(format!("{}, not {RANGES}", texts.len())) };
    tally.count("the count of the texts of ranges", &[], count);
    for text in &texts {
        let found = pinned_range(programs, random, text);
        tally.count(&format!("the range {}", text.name), &text.bytes, found);
    }
    tally.count("operations on ranges, pair by pair", &[], range_cases::pair_by_pair());
}

/// The imports and exports with pinned answers, and the compiled functions.
fn compare_words(tally: &mut Tally, programs: &Path, random: &mut Random) {
    let (imports, exports) = (word_cases::imports(), word_cases::exports());
    let counts = [imports.len(), exports.len()];
    let count = if counts == CASES { Ok(()) } else { Err(format!("{counts:?}, not {CASES:?}")) };
    tally.count("the count of the imports and exports", &[], count);
    for case in &imports {
        let found = pinned_import(programs, random, case);
        tally.count(&format!("the import {}", case.name), &[], found);
    }
    for case in &exports {
        let found = pinned_export(programs, random, case);
        tally.count(&format!("the export {}", case.name), &case.read, found);
    }
    let functions = functions();
    let kept = std::fs::read_dir("tests/compiled").map_or(0, |folder| {
        folder.filter(|file| file.as_ref().is_ok_and(|f| f.path().extension().is_some_and(|e| e == "words"))).count()
    });
    let count = if kept == functions.len() { Ok(()) } else { Err(format!("{kept}, not {}", functions.len())) };
    tally.count("the count of the compiled functions", &[], count);
    for function in &functions {
        let found = compiled(programs, random, function);
        tally.count(&format!("the compiled function {}", function.name), &[], found);
    }
}

/// The explanations of the examples and of the cases, and two that are pinned.
fn compare_explanations(tally: &mut Tally, programs: &Path, random: &mut Random) {
    let mut texts = examples();
    texts.extend(cases().into_iter().chain(starred()).map(|text| (text.name.to_string(), text.bytes)));
    texts.extend(explain::pinned().into_iter().map(|(text, _)| ("a pinned text".to_string(), text)));
    for (name, text) in &texts {
        let bound = bound_answer(text, MEMORY);
        let found = explained(random, text, &bound, Some(programs), &mut Explanations::default());
        tally.count(&format!("the explanation of {name}"), text, found);
    }
    for (text, wanted) in explain::pinned() {
        let answer = explain::explain_answer(&text, explain::MEMORY);
        let as_pinned = answer.is_ok_and(|lines| lines == wanted.as_bytes());
        let found = if as_pinned { Ok(()) } else { Err(format!("not as pinned: {wanted}")) };
        tally.count("a pinned explanation", &text, found);
    }
}

/// The explanations of the merging bound: those that are pinned, and those of the examples, of the cases and of the texts of both bounds.
fn compare_ways(tally: &mut Tally, random: &mut Random) {
    let pinned = way_cases::explanations();
    let (found, wanted) = (pinned.len(), way_cases::CASES);
    let count = if found == wanted { Ok(()) } else { Err(format!("{found}, not {wanted}")) };
    tally.count("the count of the explanations of the merging bound", &[], count);
    for case in &pinned {
        let found = pinned_way(random, case);
        tally.count(&format!("the merged way {}", case.name), &case.text, found);
    }
    let mut texts = examples();
    texts.extend(cases().into_iter().chain(starred()).map(|text| (text.name.to_string(), text.bytes)));
    texts.extend(merges().into_iter().map(|text| (text.name.to_string(), text.bytes)));
    for (name, text) in &texts {
        let [bound, merge] = [bound_answer(text, MEMORY), merge_answer(text, MEMORY)];
        let found = Ways::default().compare(random, text, [&bound, &merge]);
        tally.count(&format!("the merged way of {name}"), text, found);
    }
}

/// The bounds by cases and their decisions that are pinned; and those of the examples and of the texts of both bounds, with drawn cuts.
fn compare_splits(tally: &mut Tally, programs: &Path, random: &mut Random) {
    let pinned = split_cases::splits();
    let (found, wanted) = (pinned.len(), split_cases::CASES);
    let count = if found == wanted { Ok(()) } else { Err(format!("{found}, not {wanted}")) };
    tally.count("the count of the bounds by cases", &[], count);
    for case in &pinned {
        let found = pinned_split(programs, random, case);
        tally.count(&format!("the bound by cases {}", case.name), &case.text, found);
    }
    let mut texts = examples();
    texts.extend(merges().into_iter().map(|text| (text.name.to_string(), text.bytes)));
    for (name, text) in &texts {
        let [bound, merge] = [bound_answer(text, MEMORY), merge_answer(text, MEMORY)];
        let found = Splits::default().compare(random, text, [&bound, &merge], Some(programs));
        tally.count(&format!("the bound by cases of {name}"), text, found);
    }
}

/// The replays with pinned answers.
fn compare_replays(tally: &mut Tally, programs: &Path, random: &mut Random) {
    let cases = replay_cases::replays();
    let (found, wanted) = (cases.len(), replay_cases::CASES);
    let count = if found == wanted { Ok(()) } else { Err(format!("{found}, not {wanted}")) };
    tally.count("the count of the replays", &[], count);
    for case in &cases {
        let found = pinned_replay(programs, random, case);
        tally.count(&format!("the replay {}", case.name), &[], found);
    }
}

/// The traces of the examples and of the cases, and those that are pinned.
fn compare_traces(tally: &mut Tally, programs: &Path, random: &mut Random) {
    let mut texts = examples();
    texts.extend(cases().into_iter().chain(starred()).map(|text| (text.name.to_string(), text.bytes)));
    for (name, text) in &texts {
        let found = traced(random, text, Some(programs), &mut Recordings::default());
        tally.count(&format!("the trace of {name}"), text, found);
    }
    for (text, wanted) in trace::pinned() {
        let text = text.as_bytes();
        let as_pinned = printed(&trace::trace_answer(text, trace::MEMORY)) == wanted.as_bytes();
        let found = if as_pinned { Ok(()) } else { Err(format!("not as pinned: {wanted}")) };
        let found = found.and_then(|()| traced(random, text, Some(programs), &mut Recordings::default()));
        tally.count("a pinned trace", text, found);
    }
}

/// The previews with pinned answers.
fn compare_previews(tally: &mut Tally, programs: &Path, random: &mut Random) {
    let cases = preview_cases::previews();
    let (found, wanted) = (cases.len(), preview_cases::CASES);
    let count = if found == wanted { Ok(()) } else { Err(format!("{found}, not {wanted}")) };
    tally.count("the count of the previews", &[], count);
    for case in &cases {
        let found = pinned_preview(programs, random, case);
        tally.count(&format!("the preview {}", case.name), &[], found);
    }
}

/// The decisions with pinned lines; those on the examples, the cases and the texts of both bounds, beside both bounds; and damaged ones,
/// which must be noticed.
fn compare_decisions(tally: &mut Tally, programs: &Path, random: &mut Random) {
    let pinned = decide_cases::decisions();
    let (found, wanted) = (pinned.len(), decide_cases::CASES);
    let count = if found == wanted { Ok(()) } else { Err(format!("{found}, not {wanted}")) };
    tally.count("the count of the decisions", &[], count);
    for case in &pinned {
        let found = pinned_decision(programs, random, case);
        tally.count(&format!("the decision {}", case.name), &case.text, found);
    }
    let mut texts = examples();
    texts.extend(cases().into_iter().chain(starred()).map(|text| (text.name.to_string(), text.bytes)));
    texts.extend(merges().into_iter().map(|text| (text.name.to_string(), text.bytes)));
    for (name, text) in texts {
        let found = compare(random, &text)
            .and_then(|answers| Decisions::default().compare(random, &text, &answers, Some(programs)));
        tally.count(&format!("the decision on {name}"), &text, found);
    }
    for (name, found) in decisions::damaged() {
        tally.count(name, &[], found);
    }
}

/// The searches with pinned answers.
fn compare_nearests(tally: &mut Tally, programs: &Path, random: &mut Random) {
    let cases = nearest_cases::nearests();
    let (found, wanted) = (cases.len(), nearest_cases::CASES);
    let count = if found == wanted { Ok(()) } else { Err(format!("{found}, not {wanted}")) };
    tally.count("the count of the searches", &[], count);
    for case in &cases {
        let found = pinned_nearest(programs, random, case);
        tally.count(&format!("the search {}", case.name), case.text.as_bytes(), found);
    }
}

/// The files of seeds, and what is pinned of them. One of 50 is given to the programs too.
fn compare_seeds(tally: &mut Tally, programs: &Path, random: &mut Random) {
    for (name, found) in pinned_seeds(programs) {
        tally.count(name, &[], found);
    }
    for (i, seed) in seeds(random).into_iter().enumerate() {
        let found = tally.seeds.compare(random, seed, (i % 50 == 0).then_some(programs));
        let text = if seed == 0 { Vec::new() } else { seeded::file(seed) };
        tally.count(&format!("the file of the seed {seed}"), &text, found);
    }
    let found = tally.seeds.cover();
    tally.count("what the files of seeds cover", &[], found);
}

/// The files that the programs of `crates/` are run with stand as they are made.
fn compare_program_files(tally: &mut Tally) {
    for (path, made) in program_files() {
        let as_made = std::fs::read(path).is_ok_and(|bytes| bytes == made);
        let found =
            if as_made { Ok(()) } else { Err("not as target/tests/release/program-files writes it".to_string()) };
        tally.count(path, &made, found);
    }
}

/// Files enough that every kind, every refusal of a text, every use of an extra, every pair with a handle, every operation that wraps,
/// SHARE on each side of a half, every jump, every meeting of ways, every use of a range, every figure that falls where more is known,
/// every cause, every way in which a trace compares, traces of every kind of run, all that a patch may come to and every way in which a number moves the bound must
/// come up.
const MANY: u64 = 5_000;

/// Whether what was compared had all kinds in accepted code and in accepted words, reports, each refusal of a text, extras wherever they
/// count, handles in operations on two cells, numbers that wrap and numbers just outside their range, SHARE at a half and next to it,
/// jumps forward and backward, ways that meet and ways that do not, ranges in cells, operations and conditions, figures that fall where
/// more is known, files that know all, merged ways with each kind of tie, cuts that lower a report in each figure and are refused by each
/// cause, each cause by which words are refused, traces that agree, differ and are refused by each cause,
/// previews with a report or a refusal of each kind, changes of a number that move the bound in each way, and none that do, and decisions
/// of each row and with each refusal, 25 of each in 20,000 files.
fn covers(tally: &Tally, count: u64) -> Result<(), String> {
    let missing: Vec<u32> = (0..=14).filter(|n| ![10, 12].contains(n) && !tally.answers.contains_key(n)).collect();
    let of_words = tally.causes.counts().into_iter().chain(tally.traces.counts()).chain(tally.recordings.counts());
    let of_others = of_words.chain(tally.previews.counts()).chain(tally.nearests.counts());
    let counts = tally.counts().chain(of_others);
    let counts = counts.chain(tally.explanations.counts()).chain(tally.ways.counts()).chain(tally.splits.counts());
    let too_few = counts.filter(|(_, count)| *count < MANY / 200);
    let rare: Vec<_> = too_few
        .chain(tally.traces.rare().into_iter().chain(tally.previews.rare()).filter(|(_, count)| *count < MANY / 1000))
        .chain(tally.decisions.counts().into_iter().filter(|(_, times)| *times < (count / 800).min(25)))
        .collect();
    let kinds = [tally.kinds.len(), tally.causes.kinds()];
    if kinds == [KINDS.len(); 2] && missing.is_empty() && rare.is_empty() && tally.interruptions >= MANY / 2 {
        Ok(())
    } else {
        let interruptions = tally.interruptions;
        Err(format!(
            "{kinds:?} kinds and {interruptions} interruptions came up, no answer of the numbers {missing:?}, and too few of {rare:?}"
        ))
    }
}

/// The stack that the header asks for is enough, at 32 openings of a bound, of a preview, of a search and of an explanation, for a
/// merging bound of 1,024 lines, a decision by it, and for the file of a seed: a call that needs more ends this program.
/// (`tests/stack.c` measures the calls of all functions.)
fn small_stack(tally: &mut Tally) {
    let deepest = cases().into_iter().find(|text| text.name == "openings_32").unwrap().bytes;
    let longest = merges().into_iter().find(|text| text.name == "tests_in_1024_lines").unwrap().bytes;
    // a number that no path reads, so that every trial goes as deep
    let searched = String::from_utf8(deepest.clone()).unwrap().replacen("ACCU\n?", "ACCU S0\n? 5", 1).into_bytes();
    let as_it_is: Function = |text, memory| analyser::preview(text, 0, &instruction_at(text, 0).unwrap(), memory);
    let calls: [(&str, usize, Vec<u8>, Function, Answer); 5] = [
        ("32 openings on a stack of 256 KB", 256, deepest.clone(), analyser::bound, bound_answer(&deepest, MEMORY)),
        (
            "32 openings in a preview on a stack of 256 KB",
            256,
            deepest.clone(),
            as_it_is,
            bound_answer(&deepest, MEMORY),
        ),
        (
            "a search at 32 openings on a stack of 256 KB",
            256,
            searched.clone(),
            analyser::nearest,
            nearest_answer(&searched, MEMORY),
        ),
        (
            "a merge of 1,024 lines on a stack of 2 MB",
            2048,
            longest.clone(),
            analyser::merge,
            merge_answer(&longest, MEMORY),
        ),
        (
            "a decision by the merge of 1,024 lines on a stack of 2 MB",
            2048,
            longest.clone(),
            analyser::decide,
            decide_answer(&longest, MEMORY),
        ),
    ];
    let explained = explain::explain_answer(&deepest, explain::MEMORY);
    let explanation = ("an explanation on a stack of 256 KB", 256, deepest, analyser::explain as Function, explained);
    let way = explain_merge_answer(&longest, explain::MEMORY);
    let name = "an explanation of the merge of 1,024 lines on a stack of 2 MB";
    let merged = (name, 2048, longest, analyser::explain_merge as Function, way);
    let of_a_seed: Function = |_, memory| analyser::generate(1, memory);
    let made = seeded::generate_answer(1, seeded::MEMORY);
    let seed = ("the file of a seed on a stack of 64 KB", 64, Vec::new(), of_a_seed, made);
    for (name, kilobytes, text, function, wanted) in calls.into_iter().chain([explanation, merged, seed]) {
        let copy = text.clone();
        let call = move || function(&copy, &mut vec![0; explain::MEMORY]);
        let answer = std::thread::Builder::new().stack_size(kilobytes * 1024).spawn(call).unwrap().join().unwrap();
        let found = if answer == told(&wanted) { Ok(()) } else { Err("another answer".to_string()) };
        tally.count(name, &text, found);
    }
}

fn main() {
    let arguments: Vec<String> = std::env::args().skip(1).collect();
    let [programs, numbers @ ..] = &arguments[..] else {
        panic!("the folder of the programs is missing");
    };
    let programs = Path::new(programs);
    let mut numbers = numbers.iter().map(|a| a.parse::<u64>().expect("a number"));
    let seed = numbers.next().unwrap_or(1);
    let count = numbers.next().unwrap_or(20_000);

    let mut tally = Tally::default();
    small_stack(&mut tally);
    compare_program_files(&mut tally);
    compare_pinned(&mut tally, programs, &mut Random::new(seed));
    compare_merges(&mut tally, programs, &mut Random::new(seed));
    compare_ranges(&mut tally, programs, &mut Random::new(seed));
    compare_words(&mut tally, programs, &mut Random::new(seed));
    compare_replays(&mut tally, programs, &mut Random::new(seed));
    compare_traces(&mut tally, programs, &mut Random::new(seed));
    compare_previews(&mut tally, programs, &mut Random::new(seed));
    compare_decisions(&mut tally, programs, &mut Random::new(seed));
    compare_nearests(&mut tally, programs, &mut Random::new(seed));
    compare_explanations(&mut tally, programs, &mut Random::new(seed));
    compare_ways(&mut tally, &mut Random::new(seed));
    compare_splits(&mut tally, programs, &mut Random::new(seed));
    compare_seeds(&mut tally, programs, &mut Random::new(seed));
    for number in 0..count {
        let mut random = Random::new(seed.wrapping_mul(1_000_003).wrapping_add(number));
        let mut parts = draft(&mut random);
        let text = if random.one_in(2) { damaged(&mut random, &mut parts) } else { parts.text().into_bytes() };
        let given = random.one_in(50).then_some(programs);
        let found = tally.file(&mut random, &text, given);
        tally.count(&format!("file {number} of seed {seed}"), &text, found);
        let found = tally.words(&mut random, given);
        tally.count(&format!("words {number} of seed {seed}"), &[], found);
        let found = tally.trace(&mut random, &text, given);
        tally.count(&format!("trace {number} of seed {seed}"), &[], found);
        let found = tally.preview(&mut random, &text, given);
        tally.count(&format!("preview {number} of seed {seed}"), &[], found);
        let found = tally.nearest(&mut random, &text, given);
        tally.count(&format!("the search on file {number} of seed {seed}"), &text, found);
        let searched = nearest_draft::file(&mut random);
        let found = tally.nearest(&mut random, &searched, given);
        tally.count(&format!("search {number} of seed {seed}"), &searched, found);
        let found = tally.merged(&mut random, &text, given);
        tally.count(&format!("merged file {number} of seed {seed}"), &text, found);
    }

    if count >= MANY {
        let found = covers(&tally, count);
        tally.count("what the files cover", &[], found);
    }

    println!("answer       bound     run   merge");
    for (number, [bound, run, merge]) in &tally.answers {
        let name = if *number == 0 { "report".to_string() } else { format!("refusal {number}") };
        println!("{name:<10} {bound:>7} {run:>7} {merge:>7}");
    }
    println!("kinds in the code of accepted files: {}", tally.kinds.len());
    for (what, count) in tally.counts() {
        println!("files with {what}: {count}");
    }
    println!("kinds in the words of accepted imports: {}", tally.causes.kinds());
    let explanations = tally.explanations.counts().into_iter().chain(tally.ways.counts());
    for (what, count) in explanations.chain(tally.splits.counts()).chain(tally.decisions.counts()) {
        println!("{what}: {count}");
    }
    let traces = tally.traces.counts().into_iter().chain(tally.traces.rare()).chain(tally.recordings.counts());
    let previews = tally.previews.counts().into_iter().chain(tally.previews.rare());
    for (what, count) in tally.causes.counts().into_iter().chain(traces).chain(previews) {
        println!("{what}: {count}");
    }
    for (what, count) in tally.nearests.counts().into_iter().chain(tally.seeds.counts()) {
        println!("{what}: {count}");
    }
    println!("files given to the programs too: {}", tally.given_to_programs);
    println!("runs interrupted and bounded afresh: {}", tally.interruptions);
    println!("{} passed, {} failed", tally.passed, tally.failed);
    std::process::exit((tally.failed > 0) as i32);
}
