//! What is compared on one text.
use independent::analyser::{self, Function, NUMBERS};
use independent::bound::{bound, Figures, Path as Decisions};
use independent::machine::State;
use independent::merge::merge;
use independent::random::Random;
use independent::report::{bound_answer, merge_answer, printed, run_answer, told, Answer, MEMORY};
use independent::routine::{cell, line, read, Refusal, Routine, Spelt, TEXT_LIMIT};
use independent::run::Run;
use std::ffi::OsStr;
use std::io::Write;
use std::path::Path;
use std::process::{Command, Stdio};

/// The most report memory lent.
const LENT: usize = 200;
/// Bytes before and behind the lent memory, which must keep their values.
const AROUND: usize = 32;

/// A call with lent memory of a length, at most `most`: none, or what differs from the answer wanted.
pub fn differs(
    call: &dyn Fn(&mut [u8]) -> u64,
    most: usize,
    length: usize,
    pattern: u8,
    wanted: &Answer,
) -> Option<String> {
    let before: Vec<u8> = (0..most + 2 * AROUND).map(|i| pattern.wrapping_add(i as u8)).collect();
    let mut memory = before.clone();
    let answer = call(&mut memory[AROUND..AROUND + length]);
    let mut after = before;
    if let Ok(bytes) = wanted {
        after[AROUND..AROUND + bytes.len()].copy_from_slice(bytes);
    }
    if answer != told(wanted) {
        Some(format!("with {length} bytes lent: the number told is {answer:#x}, not {:#x}", told(wanted)))
    } else if memory != after {
        let at = memory.iter().zip(&after).position(|(a, b)| a != b).unwrap() as i64 - AROUND as i64;
        Some(format!("with {length} bytes lent: byte {at} of the memory is not as it must be"))
    } else {
        None
    }
}

/// Compares a function that writes a report, with enough memory and with too little, sometimes with every length; gives the answer
/// wanted.
pub fn compare_report(
    random: &mut Random,
    call: &dyn Fn(&mut [u8]) -> u64,
    own: &dyn Fn(usize) -> Answer,
) -> Result<Answer, String> {
    let wanted = own(LENT);
    let pattern = random.next() as u8;
    let enough = if random.one_in(3) { MEMORY } else { random.within(MEMORY, LENT) };
    let short = if random.one_in(3) { MEMORY - 1 } else { random.below(MEMORY) };
    let lengths = if random.one_in(200) { (0..=LENT).collect() } else { vec![enough, short] };
    let found = lengths.into_iter().find_map(|length| match length >= MEMORY {
        true => differs(call, LENT, length, pattern, &wanted),
        false => differs(call, LENT, length, pattern, &own(length)),
    });
    found.map_or_else(|| Ok(wanted.clone()), |what| Err(format!("{what}\nwanted: {}", shown(&wanted))))
}

/// What the bound, the run and the merging bound answer for a text.
pub struct Answers {
    pub bound: Answer,
    pub run: Answer,
    pub merge: Answer,
}

/// Compares the three functions on a text; gives the answers wanted.
pub fn compare(random: &mut Random, text: &[u8]) -> Result<Answers, String> {
    let mut of = |name: &str, function: Function, own: fn(&[u8], usize) -> Answer| {
        let copy = text.to_vec();
        let answer = compare_report(random, &|memory| function(&copy, memory), &|lent| own(text, lent))
            .map_err(|what| format!("{name} {what}"))?;
        if copy == text {
            Ok(answer)
        } else {
            Err(format!("{name} wrote the text"))
        }
    };
    let answers = Answers {
        bound: of("bound", analyser::bound, bound_answer)?,
        run: of("run", analyser::run, run_answer)?,
        merge: of("merge", analyser::merge, merge_answer)?,
    };
    beside(&answers.bound, &answers.merge)?;
    Ok(answers)
}

/// The number of a refusal; 0 is a report.
pub fn number(answer: &Answer) -> u32 {
    answer.as_ref().err().map_or(0, |refusal| refusal.number)
}

/// The merging bound beside the first: "Where both bounds accept, this one is never the smaller in cycles, words or depth"; where this one
/// accepts, the first is refused by 8 or 9, if at all; both refuse a file alike; and this one is never refused by 8, 9 or 11.
fn beside(bound: &Answer, merge: &Answer) -> Result<(), String> {
    let fits = match (bound, merge) {
        (Ok(first), Ok(second)) => figures(first).iter().zip(figures(second)).take(3).all(|(a, b)| *a <= b),
        (Err(first), Ok(_)) => [8, 9].contains(&first.number),
        (_, Err(second)) if [7, 14].contains(&second.number) => [0, 7, 8, 9].contains(&number(bound)),
        (first, second) => first == second,
    };
    if fits {
        Ok(())
    } else {
        Err(format!("the bound says {}\nand the merging bound {}", shown(bound), shown(merge)))
    }
}

pub fn shown(answer: &Answer) -> String {
    printed(answer).escape_ascii().to_string()
}

/// The figures of a report of the run, or the first four of one of the bound.
pub fn figures(report: &[u8]) -> Vec<u64> {
    let values = std::str::from_utf8(report).unwrap().lines().nth(1).unwrap();
    values.split(' ').take(4).map(|w| w.parse().unwrap()).collect()
}

/// A word of a cell as one that a run takes: a number for `?`, a number of the range for a range. One of one number stays now and then.
fn filled_in(random: &mut Random, word: &str) -> String {
    match cell(word.as_bytes()).unwrap() {
        Spelt::Unknown => random.number().to_string(),
        Spelt::Range(low, high) if low < high || random.one_in(2) => {
            let n = random.in_range([low as i32, high as i32]);
            n.to_string()
        }
        _ => word.to_string(),
    }
}

/// A text with each of its cells changed, on the lines of cells and of fields.
fn with_cells(lines: &mut [String], mut change: impl FnMut(&str) -> String) {
    for n in [line::CELLS, line::FIELDS] {
        if lines[n - 1] != "-" {
            lines[n - 1] = lines[n - 1].split(' ').map(&mut change).collect::<Vec<_>>().join(" ");
        }
    }
}

/// A file that passes refusals 1 to 6 and 13, with `?` for each range of more than one number; none, if it has no such range.
pub fn widened(text: &[u8]) -> Option<Vec<u8>> {
    let wider = |word: &str| matches!(cell(word.as_bytes()), Some(Spelt::Range(low, high)) if low < high);
    let mut lines: Vec<String> = std::str::from_utf8(text).unwrap().lines().map(str::to_string).collect();
    let mut changed = false;
    with_cells(&mut lines, |word| {
        changed |= wider(word);
        if wider(word) { "?" } else { word }.to_string()
    });
    changed.then(|| joined(&lines))
}

fn joined(lines: &[String]) -> Vec<u8> {
    lines.iter().flat_map(|l| [l, "\n"]).collect::<String>().into_bytes()
}

/// A file that passes refusals 1 to 6 and 13, with another cell for each cell and with other answers.
pub fn rewritten(random: &mut Random, text: &[u8], change: fn(&mut Random, &str) -> String) -> Vec<u8> {
    let text = std::str::from_utf8(text).unwrap();
    // a primitive may be named ANSWER: the heading is looked for after the first line of code
    let heading = text.lines().skip(line::CODE).position(|l| l == "ANSWER").map(|at| at + line::CODE);
    let mut lines: Vec<String> = text.lines().take(heading.unwrap_or(usize::MAX)).map(str::to_string).collect();
    with_cells(&mut lines, |word| change(random, word));
    let answers = *random.pick(&[0, 1, 3, 64]);
    if answers > 0 {
        lines.push("ANSWER".to_string());
        lines.extend((0..answers).map(|_| random.number().to_string()));
    }
    joined(&lines)
}

/// The same with numbers for each `?` and each range.
pub fn filled(random: &mut Random, text: &[u8]) -> Vec<u8> {
    rewritten(random, text, filled_in)
}

/// A file that passes, with the largest BUDGET.
fn with_all_steps(text: &[u8]) -> Vec<u8> {
    let lines: Vec<&[u8]> = text.splitn(3, |b| *b == b'\n').collect();
    let tick = lines[1].split(|b| *b == b' ').nth(1).unwrap();
    [lines[0], &[b"1000000 ", tick].concat(), lines[2]].join(&b'\n')
}

/// Runs of an accepted file, through the C functions: each is accepted, and within all of these reports.
fn runs_within(random: &mut Random, text: &[u8], reports: &[&[u8]]) -> Result<(), String> {
    let all: Vec<Vec<u64>> = reports.iter().map(|report| figures(report)).collect();
    let most: Vec<u64> = (0..4).map(|i| all.iter().map(|figures| figures[i]).min().unwrap()).collect();
    for _ in 0..20 {
        let file = filled(random, text);
        if file.len() > TEXT_LIMIT {
            continue;
        }
        let mut memory = [0; MEMORY];
        let answer = analyser::run(&file, &mut memory);
        let wanted = run_answer(&file, MEMORY);
        let within = answer <= MEMORY as u64
            && answer == told(&wanted)
            && wanted.as_ref().is_ok_and(|w| memory.starts_with(w))
            && figures(&memory[..answer as usize]).iter().zip(&most).all(|(a, b)| a <= b);
        if !within {
            let file = String::from_utf8_lossy(&file).into_owned();
            return Err(format!("a run is not accepted or not within the report; told {answer:#x}; its file:\n{file}"));
        }
    }
    Ok(())
}

/// Nothing is left of a run that has made its STOP.
const NOTHING: Figures = Figures { cycles: 0, words: 0, depth: 0, steps: 0, path: Decisions { taken: 0, length: 0 } };

/// A bound from a state.
type Bound = fn(&Routine, State) -> Result<Figures, Refusal>;

/// A run of an accepted file, interrupted after `n` steps, and its state bounded afresh.
fn interrupt(
    bound: Bound,
    routine: &Routine,
    start: State,
    answers: &[i32],
    n: usize,
) -> Result<(Run, Figures), String> {
    let mut run = Run::new(start, answers);
    for _ in 0..n {
        run.step(routine).ok_or("a run of an accepted file is stuck")?;
    }
    if run.stopped {
        return Ok((run, NOTHING));
    }
    let afresh = bound(routine, run.state.clone()).map_err(|r| format!("afresh: REFUSED {} {}", r.number, r.place))?;
    Ok((run, afresh))
}

/// Whether what was spent and what is left are within a report.
fn within(run: &Run, afresh: &Figures, most: &Figures) -> bool {
    run.cycles + afresh.cycles <= most.cycles
        && run.words + afresh.words <= most.words
        && run.depth <= most.depth
        && run.steps <= most.steps
}

/// The numbers that the analyser's function for tests gives of them; the address after STOP, which the document leaves open, counts 0.
fn numbers(run: &Run, afresh: &Result<Figures, Refusal>) -> [u64; NUMBERS] {
    let left = match afresh {
        Ok(f) => [0, 0, f.cycles, f.words, f.depth as u64, f.steps, 1 << f.path.length | f.path.taken],
        Err(r) => [r.number as u64, r.place as u64, 0, 0, 0, 0, 0],
    };
    let at = if run.stopped { 0 } else { run.state.at as u64 };
    let so_far = [run.stopped as u64, at, run.cycles, run.words, run.depth as u64, run.steps];
    let mut both = so_far.into_iter().chain(left);
    std::array::from_fn(|_| both.next().unwrap())
}

/// Compares what the analyser's function for tests gives of a text and `n` steps with the numbers, or the refusal, wanted.
fn compare_after(text: &[u8], n: u64, wanted: Result<[u64; NUMBERS], u64>) -> Result<(), String> {
    let mut found = analyser::after(text, n);
    if let Ok([1, at, ..]) = &mut found {
        *at = 0;
    }
    if found == wanted {
        return Ok(());
    }
    let file = String::from_utf8_lossy(text).into_owned();
    Err(format!("interrupted after {n} steps: {found:?}, not {wanted:?}; its file:\n{file}"))
}

/// The run of a routine after `n` steps. A stuck step is not made, and what it has begun to write is not kept.
fn after(routine: &Routine, n: u64) -> Run {
    let mut run = Run::new(routine.start.clone(), &routine.answers);
    while run.steps < n && !run.stopped {
        if run.step(routine).is_none() {
            return after(routine, run.steps);
        }
    }
    run
}

/// A text as it stands, interrupted: it may be refused, its run stuck, and the bound afresh refused by 7, 8 or 9. More than 1,000,000
/// steps count as so many. Gives the number of interruptions compared.
fn interrupted_as_it_stands(random: &mut Random, text: &[u8]) -> Result<u64, String> {
    let most = 1_000_000;
    let n = if random.one_in(10) {
        *random.pick(&[0, most - 1, most, most + 1, u64::MAX])
    } else {
        random.below(40) as u64
    };
    let wanted = read(text, true).map_err(|r| r.number as u64).map(|routine| {
        let run = after(&routine, n.min(most));
        let afresh = if run.stopped { Ok(NOTHING) } else { bound(&routine, run.state.clone()) };
        numbers(&run, &afresh)
    });
    compare_after(text, n, wanted)?;
    Ok(wanted.is_ok() as u64)
}

/// Demand 3: runs of an accepted file, interrupted anywhere, 0 steps and beyond STOP included. What the analyser's run and its bound
/// from the state reached come to is compared; a list of answers longer than a file's is tried on the independent side alone. Gives the
/// number of interruptions compared.
fn interrupted(random: &mut Random, text: &[u8]) -> Result<u64, String> {
    let routine = read(text, false).unwrap();
    let most: Figures = bound(&routine, routine.start.clone()).unwrap();
    let mut compared = 0;
    for _ in 0..3 {
        let file = filled(random, text);
        if file.len() > TEXT_LIMIT {
            continue;
        }
        let filled = read(&file, true).unwrap();
        let n = random.below(most.steps as usize + 2);
        let (run, afresh) = interrupt(bound, &filled, filled.start.clone(), &filled.answers, n)?;
        compare_after(&file, n as u64, Ok(numbers(&run, &Ok(afresh))))?;
        let longer: Vec<i32> = (0..100).map(|_| random.number()).collect();
        let (other, left) = interrupt(bound, &filled, filled.start.clone(), &longer, n)?;
        if !within(&run, &afresh, &most) || !within(&other, &left, &most) {
            return Err(format!("a run interrupted after {n} steps is not within the report"));
        }
        compared += 1;
    }
    Ok(compared)
}

/// "An interrupted run of a routine accepted here has all that the third demand gives, with the afresh bound being this one": runs
/// interrupted anywhere, 0 steps and beyond STOP included, on the independent side alone.
fn interrupted_and_merged(random: &mut Random, text: &[u8]) -> Result<(), String> {
    let routine = read(text, false).unwrap();
    let most = merge(&routine, routine.start.clone()).unwrap();
    interrupted_within(random, text, &most)
}

/// The same within figures of the merging bound or of the bound by cases.
pub fn interrupted_within(random: &mut Random, text: &[u8], most: &Figures) -> Result<(), String> {
    for _ in 0..3 {
        let filled = read(&filled(random, text), true);
        let Ok(filled) = filled else {
            continue;
        };
        let n = random.below(most.steps as usize + 2);
        let (run, afresh) = interrupt(merge, &filled, filled.start.clone(), &filled.answers, n)?;
        if !within(&run, &afresh, most) || run.steps + afresh.steps > most.steps {
            return Err(format!("a run interrupted after {n} steps is not within the figures {most:?}"));
        }
    }
    Ok(())
}

/// Compares what a program prints for arguments and an input: the bytes made or the line of the refusal, and nothing else.
pub fn program(program: &Path, arguments: &[&OsStr], input: &[u8], wanted: &Answer) -> Result<(), String> {
    let shown = program.display();
    let mut child = Command::new(program)
        .args(arguments)
        .stdin(Stdio::piped())
        .stdout(Stdio::piped())
        .spawn()
        .map_err(|e| format!("the program {shown} does not start: {e}"))?;
    // a program may end before it has read everything: at the byte after the limit
    let _ = child.stdin.take().unwrap().write_all(input);
    let output = child.wait_with_output().map_err(|e| e.to_string())?.stdout;
    let wanted = printed(wanted);
    if output != wanted {
        let (output, wanted) = (output.escape_ascii(), wanted.escape_ascii());
        return Err(format!("the program {shown} printed: {output}\nwanted: {wanted}"));
    }
    Ok(())
}

/// What the programs print for a text, compared.
pub fn by_programs(programs: &Path, text: &[u8], answers: &Answers) -> Result<(), String> {
    program(&programs.join("bound"), &[], text, &answers.bound)?;
    program(&programs.join("run"), &[], text, &answers.run)?;
    program(&programs.join("merge"), &[], text, &answers.merge)
}

/// "never above the former ones with `?` for each wider range, where both are accepted": the reports of a file beside those of the same file
/// with `?` for its ranges, of either bound.
fn never_above(answers: &Answers, widened: &Answers) -> Result<(), String> {
    for (name, report, wide) in
        [("bound", &answers.bound, &widened.bound), ("merging bound", &answers.merge, &widened.merge)]
    {
        if let (Ok(report), Ok(wide)) = (report, wide) {
            if figures(report).iter().zip(figures(wide)).any(|(a, b)| *a > b) {
                let [report, wide] = [report, wide].map(|r| r.escape_ascii());
                return Err(format!("the {name} says {report}\nand with `?` for its ranges {wide}"));
            }
        }
    }
    Ok(())
}

/// What was compared on one file.
pub struct Outcome {
    pub answers: Answers,
    /// of the file with `?` for each range of more than one number, where it passes and has one
    pub widened: Option<Answers>,
    /// the number of interruptions
    pub interruptions: u64,
}

/// All comparisons on one file.
pub fn file(random: &mut Random, text: &[u8]) -> Result<Outcome, String> {
    let answers = compare(random, text)?;
    let mut interruptions = interrupted_as_it_stands(random, text)?;
    match (&answers.bound, &answers.merge) {
        (Ok(bound), Ok(merge)) => runs_within(random, text, &[bound, merge])?,
        (Ok(bound), Err(_)) => runs_within(random, text, &[bound])?,
        // the first bound may be refused for its BUDGET
        (Err(_), Ok(merge)) => runs_within(random, &with_all_steps(text), &[merge])?,
        (Err(_), Err(_)) => {}
    }
    if answers.bound.is_ok() {
        interruptions += interrupted(random, text)?;
    }
    if answers.merge.is_ok() {
        interrupted_and_merged(random, text)?;
    }
    let widened = match read(text, false).ok().and_then(|_| widened(text)) {
        Some(wide) => Some(compare(random, &wide).map_err(|what| format!("with `?` for its ranges: {what}"))?),
        None => None,
    };
    widened.as_ref().map_or(Ok(()), |widened| never_above(&answers, widened))?;
    Ok(Outcome { answers, widened, interruptions })
}
