//! What is compared of a replay.
use crate::compare::{compare_report, figures, filled, program};
use independent::analyser;
use independent::random::Random;
use independent::replay::{agrees, recorded, replay_answer};
use independent::report::{Answer, MEMORY};
use independent::routine::read;
use independent::trace_draft::{trace, Replay};
use std::path::Path;

/// Compares the replay of a trace; gives the answer wanted.
pub fn compare_replay(random: &mut Random, replay: &Replay) -> Result<Answer, String> {
    let (text, trace) = (replay.text.clone(), replay.trace.clone());
    let call = |memory: &mut [u8]| analyser::replay(&text, &trace, memory);
    let own = |lent| replay_answer(&replay.text, &replay.trace, lent);
    let answer = compare_report(random, &call, &own).map_err(|what| format!("{what}\n{}", described(replay)))?;
    if text != replay.text || trace != replay.trace {
        return Err(format!("what is read was written\n{}", described(replay)));
    }
    if answer == agrees() {
        within_the_run(random, replay).map_err(|what| format!("{what}\n{}", described(replay)))?;
    }
    Ok(answer)
}

/// A replay as it is shown.
fn described(replay: &Replay) -> String {
    let shown = |bytes: &[u8]| bytes.escape_ascii().to_string().replace("\\n", "\n");
    format!("its routine file:\n{}its trace:\n{}", shown(&replay.text), shown(&replay.trace))
}

/// CYCLES of the analyser's bound, where it accepts a text.
fn bounded(text: &[u8]) -> Option<u64> {
    let mut memory = [0; MEMORY];
    let answer = analyser::bound(text, &mut memory) as usize;
    memory.get(..answer).map(|report| figures(report)[0])
}

/// A trace that agrees has spent no more than the analyser's run has at that step, and no more than its bound.
fn within_the_run(random: &mut Random, replay: &Replay) -> Result<(), String> {
    let steps = recorded(&replay.trace).unwrap();
    let spent = |n: usize| steps[..n].iter().map(|step| step.cycles).sum::<u64>();
    for n in [random.below(steps.len() + 1), steps.len()] {
        let [_, _, cycles, ..] = analyser::after(&replay.text, n as u64).map_err(|r| format!("refused by {r}"))?;
        if spent(n) > cycles {
            return Err(format!("{n} lines have spent {}, the run {cycles}", spent(n)));
        }
    }
    within_the_bound(replay, &replay.text)
}

/// A trace that agrees has spent no more than the CYCLES of a file that its file fills in, where the bound accepts it.
fn within_the_bound(replay: &Replay, file: &[u8]) -> Result<(), String> {
    let spent: u64 = recorded(&replay.trace).unwrap().iter().map(|step| step.cycles).sum();
    match bounded(file) {
        Some(most) if spent > most => Err(format!("a trace that agrees has spent {spent}, and the bound is {most}")),
        _ => Ok(()),
    }
}

/// A trace for a file, which is filled in, if it can be; gives the two with the answer wanted.
pub fn replayed(random: &mut Random, text: &[u8]) -> Result<(Replay, Answer), String> {
    let fill = read(text, false).is_ok() && !random.one_in(8);
    let file = if fill { filled(random, text) } else { text.to_vec() };
    let trace = trace(random, &file);
    let replay = Replay { text: file, trace };
    let answer = compare_replay(random, &replay)?;
    if answer == agrees() {
        within_the_bound(&replay, text).map_err(|what| format!("{what}\n{}", described(&replay)))?;
    }
    Ok((replay, answer))
}

/// What the program prints for a routine file and a trace.
pub fn replay_by_program(programs: &Path, replay: &Replay, answer: &Answer) -> Result<(), String> {
    let file = |name: &str| std::env::temp_dir().join(format!("tickbound-{name}-{}", std::process::id()));
    let files = [(file("routine"), &replay.text), (file("trace"), &replay.trace)];
    for (path, bytes) in &files {
        std::fs::write(path, bytes).map_err(|e| format!("{}: {e}", path.display()))?;
    }
    let found = program(&programs.join("replay"), &files.each_ref().map(|f| f.0.as_os_str()), &[], answer);
    for (path, _) in &files {
        let _ = std::fs::remove_file(path);
    }
    found.map_err(|what| format!("{what}\n{}", described(replay)))
}
