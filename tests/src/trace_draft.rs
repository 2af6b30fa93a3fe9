//! Traces for routine files, from a seed: those of their runs, and with faults.
use crate::random::Random;
use crate::replay::{Recorded, LAST_AT, MOST_CYCLES, NAMES, TRACE_LIMIT, TRACE_LINES};
use crate::routine::{read, Routine};
use crate::run::Run;

/// What a replay reads.
pub struct Replay {
    pub text: Vec<u8>,
    pub trace: Vec<u8>,
}

/// The steps of a run with all that they cost, the address of the step that would follow, and whether the run is stuck there.
pub struct Walk {
    pub steps: Vec<Recorded>,
    pub next: u64,
    pub stuck: bool,
}

/// The run of a routine up to STOP, a stuck step or so many steps.
pub fn walk(routine: &Routine, most: usize) -> Walk {
    let mut run = Run::new(routine.start.clone(), &routine.answers);
    let mut steps = Vec::new();
    loop {
        let (at, spent) = (run.state.at as u64, run.cycles);
        let ended = run.stopped || steps.len() == most;
        if ended || run.step(routine).is_none() {
            return Walk { steps, next: at, stuck: !ended };
        }
        steps.push(Recorded { at, cycles: run.cycles - spent });
    }
}

/// The text of a trace.
pub fn text(steps: &[Recorded]) -> Vec<u8> {
    joined(&lines(steps))
}

fn lines(steps: &[Recorded]) -> Vec<String> {
    let step = |step: &Recorded| format!("{} {}", step.at, step.cycles);
    std::iter::once(NAMES.to_string()).chain(steps.iter().map(step)).collect()
}

fn joined(lines: &[String]) -> Vec<u8> {
    lines.iter().flat_map(|l| [l, "\n"]).collect::<String>().into_bytes()
}

/// What can be wrong with a trace.
#[derive(Clone, Copy, PartialEq)]
enum Damage {
    /// a cycle too many, or some more
    Cycles,
    Address,
    /// a line lost, repeated or in another's place
    Order,
    /// a line after STOP, or where the run is stuck
    Beyond,
    Range,
    Layout,
    /// a number out of its range before a wrong layout
    RangeThenLayout,
    Bytes,
    Lines,
    Length,
}

const STEPS: [Damage; 6] =
    [Damage::Cycles, Damage::Cycles, Damage::Address, Damage::Order, Damage::Beyond, Damage::Beyond];
const WRITTEN: [Damage; 8] = [
    Damage::Range,
    Damage::Range,
    Damage::Range,
    Damage::Layout,
    Damage::Layout,
    Damage::Layout,
    Damage::RangeThenLayout,
    Damage::Bytes,
];

/// One fault among the steps; each stands beside what it costs.
fn among_steps(random: &mut Random, steps: &mut Vec<(Recorded, u64)>, damage: Damage) {
    if steps.is_empty() {
        return;
    }
    let (n, other) = (random.below(steps.len()), random.below(steps.len()));
    let (step, cost) = &mut steps[n];
    match damage {
        Damage::Cycles => {
            let many = random.within(1, (MOST_CYCLES - *cost) as usize);
            step.cycles = *cost + *random.pick(&[1, 1, 1, 2, 65_536, many]) as u64;
        }
        Damage::Address => {
            let at = step.at;
            step.at = *random.pick(&[at + 1, at + 1, at.saturating_sub(1), at + 2, at / 10, 0, LAST_AT]);
        }
        _ => match random.below(3) {
            0 => {
                steps.remove(n);
            }
            1 => steps.insert(n, steps[other]),
            _ => steps.swap(n, other),
        },
    }
}

#[rustfmt::skip]
const WORDS: [&str; 22] = [
    "-0", "-0", "00", "01", "007", "+1", "--1", "-", "?", "#0", "", "AT", "CYCLES", "STOP", "1a", "0x1", "1.0", "1\t", "1\r",
    "é", "\0", "-01",
];

#[rustfmt::skip]
const NAMES_LINES: [&str; 13] = [
    "AT CYCLES ", " AT CYCLES", "AT  CYCLES", "AT CYCLES\r", "AT\tCYCLES", "AT", "CYCLES AT", "AT CYCLES WORDS", "AT OP ARG",
    "at cycles", "", "-", "0 0",
];

/// A line in which the word at a place is another one.
fn with_word(line: &str, place: usize, new: &str) -> String {
    let mut words: Vec<&str> = line.split(' ').collect();
    let place = place.min(words.len() - 1);
    words[place] = new;
    words.join(" ")
}

/// A line with a number at an end of its range or beyond.
fn out_of_range(random: &mut Random, line: &str, beyond: bool) -> String {
    let long = "1".repeat(random.within(19, 40));
    let place = random.below(2);
    let most = [LAST_AT, MOST_CYCLES][place];
    let high = (most + 1).to_string();
    let new = match random.below(8) {
        0 | 1 if !beyond => most.to_string(),
        0..=3 => high,
        4 => "-1".to_string(),
        5 => format!("-{long}"),
        6 => random.pick(&["4294967296", "9223372036854775808", "18446744073709551616"]).to_string(),
        _ => long,
    };
    with_word(line, place, &new)
}

/// A line whose layout is wrong.
fn ill_laid(random: &mut Random, line: &str) -> String {
    match random.below(8) {
        0 => format!(" {line}"),
        1 => format!("{line} "),
        2 => line.replacen(' ', "  ", 1),
        3 => format!("{line} {}", random.pick(&["0", "1", "-", "4000000001"])),
        4 => line.split(' ').next().unwrap().to_string(),
        5 => String::new(),
        _ => {
            let (place, new) = (random.below(2), *random.pick(&WORDS));
            with_word(line, place, new)
        }
    }
}

/// One fault among the lines, of which the first is the names line.
fn among_lines(random: &mut Random, lines: &mut Vec<String>, damage: Damage) {
    if damage == Damage::Lines {
        let to = 1 + TRACE_LINES + *random.pick(&[0, 1, 1, 2, 500]);
        let last = if lines.len() > 1 { lines[lines.len() - 1].clone() } else { "0 0".to_string() };
        lines.resize(to.max(lines.len()), last);
        return;
    }
    if lines.is_empty() || lines.len() < 3 && random.one_in(2) {
        let wanted = random.within(3, 5);
        lines.resize(wanted, "0 0".to_string());
    }
    let steps = lines.len() - 1;
    let n = if steps == 0 { 0 } else { random.within(1, steps) };
    match damage {
        Damage::Range if n > 0 => lines[n] = out_of_range(random, &lines[n], false),
        Damage::RangeThenLayout if steps > 1 => {
            let first = random.within(1, steps - 1);
            let then = random.within(first + 1, steps);
            lines[first] = out_of_range(random, &lines[first], true);
            lines[then] = ill_laid(random, &lines[then]);
        }
        Damage::Layout if random.one_in(6) || n == 0 => match random.below(5) {
            0 => {
                lines.remove(0);
            }
            1 => lines.insert(0, NAMES.to_string()),
            _ => lines[0] = random.pick(&NAMES_LINES).to_string(),
        },
        Damage::Layout if random.one_in(6) => lines.insert(n, String::new()),
        Damage::Layout => lines[n] = ill_laid(random, &lines[n]),
        _ => {}
    }
}

/// One fault among the bytes.
fn among_bytes(random: &mut Random, bytes: &mut Vec<u8>, damage: Damage) {
    if damage == Damage::Length {
        return lengthen(random, bytes);
    }
    let n = random.below(bytes.len());
    match random.below(8) {
        0 | 1 => {
            bytes.pop();
        }
        2 => bytes.push(*random.pick(b"\n\n 0\0")),
        3 => bytes.truncate(n),
        4 => bytes[n] = *random.pick(&[b' ', b'\n', b'0', b'-', b'\r', 0x80, 0xff, b'9']),
        5 => bytes.insert(n, *random.pick(b" \n0-\r9")),
        6 => {
            bytes.remove(n);
        }
        _ => bytes.clear(),
    }
}

/// As many bytes as a trace may have, or some more: a number that fills it, bytes behind it, or lines behind it.
fn lengthen(random: &mut Random, bytes: &mut Vec<u8>) {
    let length = TRACE_LIMIT + *random.pick(&[0, 1, 1, 2, 5000]);
    match random.below(3) {
        0 if bytes.ends_with(b"\n") => {
            bytes.extend(b"0 1");
            bytes.resize(length - 1, b'0');
            bytes.push(b'\n');
        }
        1 => bytes.resize(length, *random.pick(b"\n 0A\0")),
        _ => {
            while bytes.len() < length {
                bytes.extend(b"0 0\n");
            }
            bytes.truncate(length);
        }
    }
}

/// The steps of a trace beside what they cost: up to the end of a run or cut before it, with all the cycles or fewer.
fn taken(random: &mut Random, walk: &Walk, whole: bool) -> Vec<(Recorded, u64)> {
    let count = if whole || random.one_in(2) { walk.steps.len() } else { random.below(walk.steps.len() + 1) };
    let fewer = random.one_in(2);
    let mut cycles = |cost: u64| if fewer && random.one_in(2) { random.below(cost as usize + 1) as u64 } else { cost };
    walk.steps[..count].iter().map(|step| (Recorded { cycles: cycles(step.cycles), ..*step }, step.cycles)).collect()
}

/// Steps of no run, for a file that is refused.
fn made_up(random: &mut Random) -> Walk {
    let steps = (0..random.below(5)).map(|i| Recorded { at: i as u64, cycles: random.below(100) as u64 });
    Walk { steps: steps.collect(), next: 0, stuck: false }
}

/// A trace for a file: that of its run, or with faults, some of which may do no harm.
pub fn trace(random: &mut Random, file: &[u8]) -> Vec<u8> {
    let most = if random.one_in(40) { TRACE_LINES } else { 300 };
    let walk = read(file, true).map_or_else(|_| made_up(random), |routine| walk(&routine, most));
    let damages = match random.below(24) {
        0..=11 if walk.stuck => vec![Damage::Beyond],
        0..=7 => vec![],
        8..=14 => vec![*random.pick(&STEPS)],
        15..=20 => vec![*random.pick(&WRITTEN)],
        21 => vec![*random.pick(&STEPS), *random.pick(&STEPS)],
        22 => vec![*random.pick(&STEPS), *random.pick(&WRITTEN), *random.pick(&WRITTEN)],
        _ => vec![*random.pick(&[Damage::Lines, Damage::Lines, Damage::Length, Damage::Bytes])],
    };
    let mut steps = taken(random, &walk, damages.contains(&Damage::Beyond));
    for damage in damages.iter().filter(|d| STEPS.contains(d) && **d != Damage::Beyond) {
        among_steps(random, &mut steps, *damage);
    }
    if damages.contains(&Damage::Beyond) {
        let at = if random.one_in(4) { walk.steps.last().map_or(0, |step| step.at) } else { walk.next };
        let more = random.within(1, 3);
        steps.resize(steps.len() + more, (Recorded { at, cycles: random.below(2) as u64 }, 0));
    }
    let steps: Vec<Recorded> = steps.into_iter().map(|(step, _)| step).collect();
    let mut lines = lines(&steps);
    for damage in &damages {
        among_lines(random, &mut lines, *damage);
    }
    let mut bytes = joined(&lines);
    for damage in damages.iter().filter(|d| [Damage::Bytes, Damage::Length].contains(d)) {
        if !bytes.is_empty() {
            among_bytes(random, &mut bytes, *damage);
        }
    }
    bytes
}
