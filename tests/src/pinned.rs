//! Texts whose answers are read from document 01 and the change requests: the C functions, the independent implementation and the
//! programs must give these.
use crate::compare::{by_programs, compare, file, shown};
use crate::decisions::{compare_decision, decision_by_program};
use crate::imports::{export_by_program, exported, import_by_program, imported};
use crate::nearests::{compare_search, nearest_by_program};
use crate::previews::{compare_preview, preview_by_program};
use crate::replays::{compare_replay, replay_by_program};
use crate::splits::{compare_split, split_by_program};
use crate::ways::compare_way;
use independent::analyser::{self, Function};
use independent::change::{Bounds, Text, Three};
use independent::decide::decide_answer;
use independent::decide_cases::Case as DecisionCase;
use independent::merge_cases;
use independent::nearest::nearest_answer;
use independent::nearest_cases::Case as NearestCase;
use independent::preview::{preview_answer, Preview};
use independent::random::Random;
use independent::replay::replay_answer;
use independent::report::{bound_answer, merge_answer, printed, run_answer, Answer};
use independent::split::{decide_split_answer, split_answer};
use independent::split_cases::Case as SplitCase;
use independent::trace_draft::Replay;
use independent::way::explain_merge_answer;
use independent::way_cases::Case as WayCase;
use independent::word_cases::Case;
use independent::word_draft::Import;
use independent::words::{export_answer, import_answer, MEMORY};
use std::path::Path;

/// What a program prints for the number that a C function tells and the memory that it leaves.
fn heard(number: u64, memory: &[u8]) -> Vec<u8> {
    if number >> 63 == 0 {
        memory.get(..number as usize).unwrap_or(b"more than was lent").to_vec()
    } else {
        format!("REFUSED {} {}\n", number >> 32 & 0x7fff_ffff, number & 0xffff_ffff).into_bytes()
    }
}

pub fn pinned(programs: &Path, random: &mut Random, text: &Text) -> Result<(), String> {
    let functions: [(&str, Function, fn(&[u8], usize) -> Answer); 2] =
        [("bound", analyser::bound, bound_answer), ("run", analyser::run, run_answer)];
    for ((name, function, own), wanted) in functions.into_iter().zip(text.printed()) {
        let own = own(&text.bytes, text.lent);
        both(name, &|memory| function(&text.bytes, memory), text.lent, &own, wanted.as_bytes())?;
    }
    if let Some(wanted) = merge_cases::printed(text) {
        both_merge(&text.bytes, text.lent, &wanted)?;
    }
    let answers = compare(random, &text.bytes)?;
    let exported = exported(random, &text.bytes, &answers.bound)?;
    // the export refuses by 1 to 6 and 13 as the bound does, and by nothing else
    let bound = &text.printed()[0];
    let refused = (1..=6).chain([13]).any(|number| bound.starts_with(&format!("REFUSED {number} ")));
    if exported.is_ok() == refused || refused && printed(&exported) != bound.as_bytes() {
        return Err(format!("export says {}\nthe bound: {bound}", shown(&exported)));
    }
    by_programs(programs, &text.bytes, &answers)
}

fn both_merge(text: &[u8], lent: usize, wanted: &str) -> Result<(), String> {
    let own = merge_answer(text, lent);
    both("merge", &|memory| analyser::merge(text, memory), lent, &own, wanted.as_bytes())
}

/// A text with the answers of both bounds.
pub fn pinned_merge(programs: &Path, random: &mut Random, text: &Text<Bounds>) -> Result<(), String> {
    let [bound, merge] = text.printed();
    let own = bound_answer(&text.bytes, text.lent);
    both("bound", &|memory| analyser::bound(&text.bytes, memory), text.lent, &own, bound.as_bytes())?;
    both_merge(&text.bytes, text.lent, &merge)?;
    by_programs(programs, &text.bytes, &file(random, &text.bytes)?.answers)
}

/// A text with the answers of both bounds and of the run; its export is refused as its bound is, by 1 to 6 and 13.
pub fn pinned_range(programs: &Path, random: &mut Random, text: &Text<Three>) -> Result<(), String> {
    let [bound, merge, run] = text.printed();
    let own = bound_answer(&text.bytes, text.lent);
    both("bound", &|memory| analyser::bound(&text.bytes, memory), text.lent, &own, bound.as_bytes())?;
    both_merge(&text.bytes, text.lent, &merge)?;
    let own = run_answer(&text.bytes, text.lent);
    both("run", &|memory| analyser::run(&text.bytes, memory), text.lent, &own, run.as_bytes())?;
    let answers = file(random, &text.bytes)?.answers;
    let exported = exported(random, &text.bytes, &answers.bound)?;
    by_programs(programs, &text.bytes, &answers)?;
    export_by_program(programs, &text.bytes, &exported)
}

/// A text with the answer of the search.
pub fn pinned_nearest(programs: &Path, random: &mut Random, case: &NearestCase) -> Result<(), String> {
    let text = case.text.as_bytes();
    let own = nearest_answer(text, case.lent);
    both("nearest", &|memory| analyser::nearest(text, memory), case.lent, &own, case.printed.as_bytes())?;
    let answer = compare_search(random, text)?;
    nearest_by_program(programs, text, &answer)
}

/// A text with its decision.
pub fn pinned_decision(programs: &Path, random: &mut Random, case: &DecisionCase) -> Result<(), String> {
    let own = decide_answer(&case.text, case.lent);
    both("decide", &|memory| analyser::decide(&case.text, memory), case.lent, &own, case.printed.as_bytes())?;
    let answer = compare_decision(random, &case.text)?;
    decision_by_program(programs, &case.text, &answer)
}

/// A text with the explanation of its merging bound.
pub fn pinned_way(random: &mut Random, case: &WayCase) -> Result<(), String> {
    let own = explain_merge_answer(&case.text, case.lent);
    let call = |memory: &mut [u8]| analyser::explain_merge(&case.text, memory);
    both("explain_merge", &call, case.lent, &own, case.printed.as_bytes())?;
    compare_way(random, &case.text).map(drop)
}

/// A text and its cuts with the bound by cases and its decision.
pub fn pinned_split(programs: &Path, random: &mut Random, case: &SplitCase) -> Result<(), String> {
    let SplitCase { text, cuts, lent, printed: [report, decision], .. } = case;
    let own = split_answer(text, cuts, *lent);
    both("split", &|memory| analyser::split(text, cuts, memory), *lent, &own, report.as_bytes())?;
    let own = decide_split_answer(text, cuts, *lent);
    both("decide_split", &|memory| analyser::decide_split(text, cuts, memory), *lent, &own, decision.as_bytes())?;
    let [answer, _] = compare_split(random, text, cuts)?;
    split_by_program(programs, text, cuts, &answer)
}

/// Whether a function and the independent implementation say what is wanted.
fn both(name: &str, call: &dyn Fn(&mut [u8]) -> u64, lent: usize, own: &Answer, wanted: &[u8]) -> Result<(), String> {
    let mut memory = vec![0; lent];
    let said = heard(call(&mut memory), &memory);
    let shown_wanted = wanted.escape_ascii();
    if said != wanted {
        return Err(format!("{name} says {}\nwanted: {shown_wanted}", said.escape_ascii()));
    }
    if printed(own) != wanted {
        return Err(format!("{name} of the independent implementation says {}\nwanted: {shown_wanted}", shown(own)));
    }
    Ok(())
}

pub fn pinned_import(programs: &Path, random: &mut Random, case: &Case<Import>) -> Result<(), String> {
    let Import { words, primitives } = &case.read;
    let own = import_answer(words, primitives, case.lent);
    let call = |memory: &mut [u8]| analyser::import(words, primitives, memory);
    both("import", &call, case.lent, &own, &printed(&case.told))?;
    let (answer, _) = imported(random, &case.read)?;
    import_by_program(programs, &case.read, &answer)
}

pub fn pinned_export(programs: &Path, random: &mut Random, case: &Case<Vec<u8>>) -> Result<(), String> {
    let own = export_answer(&case.read, case.lent);
    let call = |memory: &mut [u8]| analyser::export(&case.read, memory);
    both("export", &call, case.lent, &own, &printed(&case.told))?;
    let answer = exported(random, &case.read, &bound_answer(&case.read, MEMORY))?;
    export_by_program(programs, &case.read, &answer)
}

pub fn pinned_replay(programs: &Path, random: &mut Random, case: &Case<Replay>) -> Result<(), String> {
    let Replay { text, trace } = &case.read;
    let own = replay_answer(text, trace, case.lent);
    let call = |memory: &mut [u8]| analyser::replay(text, trace, memory);
    both("replay", &call, case.lent, &own, &printed(&case.told))?;
    let answer = compare_replay(random, &case.read)?;
    replay_by_program(programs, &case.read, &answer)
}

pub fn pinned_preview(programs: &Path, random: &mut Random, case: &Case<Preview>) -> Result<(), String> {
    let Preview { text, address, instruction } = &case.read;
    let own = preview_answer(&case.read, case.lent);
    let call = |memory: &mut [u8]| analyser::preview(text, *address, instruction, memory);
    both("preview", &call, case.lent, &own, &printed(&case.told))?;
    let answer = compare_preview(random, &case.read)?;
    preview_by_program(programs, &case.read, &answer)
}
