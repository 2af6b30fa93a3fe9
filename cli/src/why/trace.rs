//! The reasons of a replay: a trace that is refused, and the line at which it leaves the run.
use super::fault::Fault;
use super::layout::{fixed, spacing, unended};
use super::lines::{lines, shown, told, Line};
use super::ranges::HIGHEST_ADDRESS;
use super::routine::{number, Routine};
use crate::library::{self, Answer};

const TITLE: &str = "AT CYCLES";
const STEPS: usize = 4096;
const MOST_CYCLES: i64 = 4_000_000_000;

/// Refusals 1, 2 and 3 of a trace.
pub fn refusal(trace: &[u8], refusal: u16, place: usize) -> String {
    let lines = lines(trace);
    let label = format!("line {place} of the trace");
    if refusal == 1 {
        return "  wanted: a trace of at most 131072 bytes\n  found: more\n".into();
    }
    let Some(line) = place.checked_sub(1).and_then(|index| lines.get(index)) else {
        return format!("  {label}\n  wanted: {TITLE}\n  found: the end of the file\n");
    };
    let fault = if refusal == 2 { layout(place, line) } else { ranges(line) };
    fault.unwrap_or_else(|| Fault::of(0..0, "two numbers, AT and CYCLES", told(line.bytes))).printed(&label, line)
}

fn layout(place: usize, line: &Line) -> Option<Fault> {
    let content = || match place {
        1 => fixed(line, TITLE),
        _ if place > STEPS + 1 => {
            Some(Fault::of(0..line.bytes.len(), format!("at most {STEPS} lines under {TITLE}"), "one more"))
        }
        _ => step(line),
    };
    spacing(line).or_else(content).or_else(|| unended(line))
}

fn step(line: &Line) -> Option<Fault> {
    let words = line.words();
    if let Some(word) = words.iter().take(2).find(|word| number(word.bytes).is_none()) {
        return Some(Fault::at(word, "a number, decimal, without leading zeros"));
    }
    let span = words.get(2).map_or(line.end(), |word| word.span.clone());
    let fault = Fault::of(span, "two numbers, AT and CYCLES", format!("{} words", words.len()));
    (words.len() != 2).then_some(fault)
}

fn ranges(line: &Line) -> Option<Fault> {
    let words = line.words();
    let limits = [("an address", HIGHEST_ADDRESS), ("cycles", MOST_CYCLES)];
    words.iter().zip(limits).find_map(|(word, (what, high))| {
        let is_outside = number(word.bytes).is_some_and(|value| value < 0 || value > high);
        is_outside.then(|| Fault::at(word, format!("{what}, 0 to {high}")))
    })
}

/// A step of the run, as proved replays of the lines before it tell it.
struct Step {
    address: i64,
    cost: i64,
}

struct Replays<'a> {
    text: &'a [u8],
    agreed: &'a [u8],
}

impl Replays<'_> {
    /// Whether the lines that agree and one more agree.
    fn agree(&self, address: i64, cycles: i64) -> bool {
        let trace = [self.agreed, format!("{address} {cycles}\n").as_bytes()].concat();
        library::replay(self.text, &trace) == Answer::Report(b"AGREES\n".to_vec())
    }

    /// The largest number of cycles that agrees: no step costs more than three prices of 65,535.
    fn cost(&self, address: i64) -> i64 {
        let (mut low, mut high) = (0, 1 << 18);
        while high - low > 1 {
            let middle = (low + high) / 2;
            if self.agree(address, middle) {
                low = middle;
            } else {
                high = middle;
            }
        }
        low
    }

    fn step(&self, candidates: &[i64]) -> Option<Step> {
        let address = *candidates.iter().find(|address| self.agree(**address, 0))?;
        Some(Step { address, cost: self.cost(address) })
    }
}

/// Why the line of a trace differs: the run's step beside the trace's.
pub fn differs(text: &[u8], trace: &[u8], place: usize) -> String {
    let routine = Routine::of(text);
    let lines = lines(trace);
    let agreed: usize = lines[..place - 1].iter().map(|line| line.bytes.len() + 1).sum();
    let line = lines[place - 1];
    let before = (place > 2).then(|| lines[place - 2].words()).and_then(|words| number(words.first()?.bytes));
    let replays = Replays { text, agreed: &trace[..agreed] };
    let fault = match replays.step(&candidates(&routine, before)) {
        Some(step) => beside(&routine, &step, &line),
        None => Fault::of(0..line.bytes.len(), no_step(&routine, text, before), told(line.bytes)),
    };
    fault.printed(&format!("line {place} of the trace"), &line)
}

/// The addresses that the step after one can have.
fn candidates(routine: &Routine, before: Option<i64>) -> Vec<i64> {
    let Some(before) = before else {
        return routine.first_address().into_iter().collect();
    };
    let words = routine.line_of_address(before).map_or(Vec::new(), |line| routine.names(line));
    let target = words.get(2).and_then(|word| number(word.bytes));
    [Some(before + 1), target].into_iter().flatten().collect()
}

fn beside(routine: &Routine, step: &Step, line: &Line) -> Fault {
    let words = line.words();
    let code = routine.line_of_address(step.address).and_then(|number| routine.line(number));
    let code = code.map_or(String::new(), |line| format!(", {}", shown(line.bytes)));
    let wanted = format!("the run's step at address {} of at most {} cycles{code}", step.address, step.cost);
    let [at, cycles] = words.as_slice() else {
        return Fault::of(0..line.bytes.len(), wanted, told(line.bytes));
    };
    match number(cycles.bytes) {
        _ if number(at.bytes) != Some(step.address) => {
            Fault::of(at.span.clone(), wanted, format!("address {}", told(at.bytes)))
        }
        spent => {
            let more = spent.unwrap_or_default() - step.cost;
            Fault::of(cycles.span.clone(), wanted, format!("{} cycles, {more} too many", told(cycles.bytes)))
        }
    }
}

/// Why there is no step after the last line that agrees.
fn no_step(routine: &Routine, text: &[u8], before: Option<i64>) -> String {
    let kind = before.and_then(|before| Some(routine.names(routine.line_of_address(before)?).get(1)?.bytes));
    match (kind, library::run(text)) {
        (Some(b"STOP"), _) => format!("no line: the run made its STOP at address {}", before.unwrap_or_default()),
        (_, Answer::Refused { number: 7, place }) => format!("no line: the run is stuck at address {place}"),
        _ => "no line: the run makes no further step".into(),
    }
}
