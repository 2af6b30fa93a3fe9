//! What lowering, threading and joining make of steps, written out.
use super::body::{Body, Item, Step};
use super::faults::Fault;
use super::lines::{joined, Argument, Line};
use super::lower::Lowering;
use super::opcodes::OPCODES;
use super::thread::{resolved, thread};
use super::unroll::unroll;

fn body(steps: Vec<Step>) -> Body {
    let items = steps.into_iter().enumerate().map(|(at, step)| Item { at, step }).collect();
    Body { items, free: 100 }
}

fn items(steps: Vec<Step>) -> Vec<Item> {
    body(steps).items
}

/// A line as a routine file has it, without its address.
fn told(line: &Line) -> String {
    let argument = match &line.argument {
        Argument::None => "-".into(),
        Argument::Number(number) => number.to_string(),
        Argument::Target(target) => format!("@{target}"),
        Argument::Primitive(name) => String::from_utf8_lossy(name).to_string(),
    };
    format!("{} {argument}", OPCODES[line.opcode].0)
}

/// The lines that a body is lowered to, and its faults.
fn lowered(steps: Vec<Step>, unrolls: bool) -> (Vec<String>, Vec<Fault>) {
    let mut body = body(steps);
    let kept = |place: i32| (place == 2).then_some(1008);
    let mut lowering = Lowering { kept: &kept, notes: Vec::new(), faults: Vec::new() };
    lowering.lower(&mut body);
    let mut notes = std::mem::take(&mut lowering.notes);
    let mut faults: Vec<Fault> = lowering.faults.into_iter().map(|(_, fault)| fault).collect();
    faults.extend(unroll(&mut body, unrolls, &mut notes).into_iter().map(|(_, fault)| fault));
    if !faults.is_empty() {
        return (Vec::new(), faults);
    }
    let mut items = resolved(&body).unwrap();
    thread(&mut items, &mut notes);
    (joined(&items).unwrap().iter().map(told).collect(), faults)
}

/// After a branch of that name to label 1: another constant on each way.
fn after(step: Step) -> Vec<Step> {
    vec![Step::Acc(0), step, Step::Const(5), Step::Stop, Step::Label(1), Step::Const(6), Step::Stop]
}

#[test]
fn a_joined_comparison_is_what_the_compiler_had_before() {
    for (name, kind) in [
        ("BEQ", "EQ"),
        ("BNEQ", "NEQ"),
        ("BLTINT", "LTINT"),
        ("BLEINT", "LEINT"),
        ("BGTINT", "GTINT"),
        ("BGEINT", "GEINT"),
    ] {
        let (lines, _) = lowered(after(Step::Fused(name, 3, 1)), false);
        let compared = format!("{kind} -");
        assert_eq!(lines[..4], ["ACC0 -", "PUSHCONST3 -", &compared, "BRANCHIF @6"]);
    }
}

#[test]
fn a_comparison_without_sign_opens_once() {
    let compared =
        ["PUSH -", "PUSHCONST0 -", "GTINT -", "PUSHACC1 -", "PUSHCONSTINT 9", "LTINT -", "ADDINT -", "POP 1"];
    for (name, branch) in [("BULTINT", "BRANCHIF @12"), ("BUGEINT", "BRANCHIFNOT @12")] {
        let (lines, _) = lowered(after(Step::Fused(name, 9, 1)), false);
        assert_eq!(lines[1..9], compared);
        assert_eq!(lines[9], branch);
    }
    for (name, end) in [("ULTINT", "STOP -"), ("UGEINT", "BOOLNOT -")] {
        let (lines, _) =
            lowered(vec![Step::Acc(0), Step::Push, Step::Const(9), Step::Unsigned(name), Step::Stop], false);
        assert_eq!(lines[1..9], compared);
        assert_eq!(lines[9], end);
    }
    assert_eq!(lowered(after(Step::Fused("BULTINT", -1, 1)), false).1, [Fault::Unsigned("BULTINT", -1)]);
    let steps = vec![Step::Acc(0), Step::Push, Step::Const(-1), Step::Unsigned("ULTINT"), Step::Stop];
    assert_eq!(lowered(steps, false).1, [Fault::Unsigned("ULTINT", -1)]);
}

/// A SWITCH whose cases lead to constants from 10 on, by their labels.
fn switch(labels: &[usize]) -> Vec<String> {
    let mut steps = vec![Step::Acc(0), Step::Switch(labels.to_vec())];
    let mut known: Vec<usize> = labels.to_vec();
    known.sort();
    known.dedup();
    for label in known {
        steps.extend([Step::Label(label), Step::Const(10 + label as i32), Step::Stop]);
    }
    lowered(steps, false).0
}

/// Where such lines lead for a number: the constant, with the height of the stack at its end.
fn led(lines: &[String], number: i32) -> (i32, usize) {
    let (mut at, mut accumulator, mut stack) = (0, 0, vec![number]);
    loop {
        let (kind, argument) = lines[at].split_once(' ').unwrap();
        let target = || argument[1..].parse::<usize>().unwrap();
        at += 1;
        match kind {
            "ACC0" => accumulator = stack[stack.len() - 1],
            "PUSH" => stack.push(accumulator),
            "POP" => stack.truncate(stack.len() - 1),
            "EQ" => accumulator = i32::from(accumulator == stack.pop().unwrap()),
            "BRANCH" => at = target(),
            "BRANCHIF" if accumulator != 0 => at = target(),
            "BRANCHIF" => {}
            "STOP" => return (accumulator, stack.len()),
            _ => {
                let constant = kind.trim_start_matches("PUSH");
                if constant != kind {
                    stack.push(accumulator);
                }
                accumulator = constant["CONST".len()..].parse().unwrap_or_else(|_| argument.parse().unwrap());
            }
        }
    }
}

#[test]
fn a_switch_compares_in_the_order_of_its_cases() {
    for labels in [&[1, 2][..], &[1, 2, 3], &[3, 2, 1], &[1, 2, 1, 3], &[2, 1, 1, 1], &[1, 1], &[1, 2, 2, 3, 1, 4]] {
        let lines = switch(labels);
        for (number, label) in labels.iter().enumerate() {
            assert_eq!(led(&lines, number as i32), (10 + *label as i32, 1), "{labels:?} {lines:?}");
        }
        // the last case and those that lead where it leads have no test
        let tests = labels.iter().filter(|label| **label != labels[labels.len() - 1]).count();
        assert_eq!(lines.iter().filter(|line| *line == "EQ -").count(), tests);
    }
}

#[test]
fn a_kept_number_is_a_constant() {
    let (lines, _) = lowered(vec![Step::Acc(0), Step::Push, Step::Kept(2), Step::Plain("GTINT"), Step::Stop], false);
    assert_eq!(lines, ["ACC0 -", "PUSHCONSTINT 1008", "GTINT -", "STOP -"]);
}

#[test]
fn a_push_is_not_joined_where_a_branch_lands_behind_it() {
    let steps = vec![
        Step::Acc(0),
        Step::Branch("BRANCHIF", 1),
        Step::Push,
        Step::Label(1),
        Step::Acc(0),
        Step::Push,
        Step::Const(2),
        Step::Plain("EQ"),
        Step::Stop,
    ];
    let (lines, _) = lowered(steps, false);
    assert_eq!(lines, ["ACC0 -", "BRANCHIF @3", "PUSH -", "ACC0 -", "PUSHCONST2 -", "EQ -", "STOP -"]);
}

/// A branch onto another, behind which 5 and then 6 stand.
fn onto(first: &'static str, second: &'static str) -> Vec<String> {
    let mut items = items(vec![
        Step::Acc(0),
        Step::Branch(first, 4),
        Step::Acc(1),
        Step::Stop,
        Step::Branch(second, 7),
        Step::Const(5),
        Step::Stop,
        Step::Const(6),
        Step::Stop,
    ]);
    thread(&mut items, &mut Vec::new());
    joined(&items).unwrap().iter().map(told).collect()
}

#[test]
fn a_branch_goes_on_where_the_same_condition_decides() {
    // the branch that is landed on cannot be reached any more, and the lines behind it move
    assert_eq!(onto("BRANCHIF", "BRANCHIF")[1..], ["BRANCHIF @4", "ACC1 -", "STOP -", "CONST6 -", "STOP -"].map(six));
    assert_eq!(onto("BRANCHIFNOT", "BRANCHIFNOT")[1], "BRANCHIFNOT @4");
    assert_eq!(
        onto("BRANCHIF", "BRANCHIFNOT")[1..],
        ["BRANCHIF @4", "ACC1 -", "STOP -", "CONST5 -", "STOP -"].map(six)
    );
    assert_eq!(onto("BRANCHIFNOT", "BRANCHIF")[1], "BRANCHIFNOT @4");
    for first in ["BRANCH", "BRANCHIF", "BRANCHIFNOT"] {
        assert!(onto(first, "BRANCH").contains(&six("CONST6 -")), "{first}");
        assert!(!onto(first, "BRANCH").contains(&six("CONST5 -")), "{first}");
    }
    // a BRANCH decides no condition
    for second in ["BRANCHIF", "BRANCHIFNOT"] {
        assert!(onto("BRANCH", second).iter().any(|line| line.starts_with(second)));
    }
}

/// 5 and 6 have no short form.
fn six(line: &str) -> String {
    match line.strip_prefix("CONST").and_then(|rest| rest.strip_suffix(" -")) {
        Some(number) => format!("CONSTINT {number}"),
        None => line.to_string(),
    }
}

/// A `for` from 1 to an end, whose turns read the counter, as the compiler makes it.
fn counted(end: i32) -> Vec<Step> {
    vec![
        Step::Const(1),
        Step::Push,
        Step::Const(end),
        Step::Push,
        Step::Push,
        Step::Acc(2),
        Step::Plain("GTINT"),
        Step::Branch("BRANCHIF", 2),
        Step::Label(1),
        Step::Signals,
        Step::Acc(1),
        Step::Call("C_CALL1", b"LOG".to_vec()),
        Step::Acc(1),
        Step::Push,
        Step::Numbered("OFFSETINT", 1),
        Step::Numbered("ASSIGN", 2),
        Step::Acc(1),
        Step::Plain("NEQ"),
        Step::Branch("BRANCHIF", 1),
        Step::Label(2),
        Step::Const(0),
        Step::Numbered("POP", 2),
        Step::Stop,
    ]
}

#[test]
fn a_counted_loop_is_written_out() {
    let (lines, _) = lowered(counted(3), true);
    let turns = ["PUSHACC1 -", "C_CALL1 LOG", "CONST2 -", "ASSIGN 1", "ACC1 -", "C_CALL1 LOG", "CONST3 -", "ASSIGN 1"];
    assert_eq!(lines[..2], ["CONST1 -", "PUSHCONST3 -"]);
    assert_eq!(lines[2..10], turns);
    assert_eq!(lines[10..], ["ACC1 -", "C_CALL1 LOG", "CONST0 -", "POP 2", "STOP -"]);
    assert_eq!(lowered(counted(0), true).0, ["CONST1 -", "PUSHCONST0 -", "PUSHCONST0 -", "POP 2", "STOP -"]);
    assert_eq!(lowered(counted(3), false).1, [Fault::NotUnrolled(1, 3)]);
    assert_eq!(lowered(counted(1 << 29), true).1, [Fault::LongLoop(1, 1 << 29)]);
    let mut unknown = counted(3);
    unknown[2] = Step::Acc(0);
    assert_eq!(lowered(unknown, true).1, [Fault::Loop]);
}

#[test]
fn a_loop_that_sets_its_counter_is_not_written_out() {
    let with = |steps: Vec<Step>| {
        let mut all = counted(3);
        all.splice(10..12, steps);
        lowered(all, true).1
    };
    let assign = |entry| vec![Step::Acc(1), Step::Numbered("ASSIGN", entry)];
    assert_eq!(with(assign(0)), [Fault::Loop]);
    assert_eq!(with(assign(1)), [Fault::Loop]);
    assert_eq!(with(assign(2)), []);
    // the same with an entry more on the stack
    let deeper = |entry| {
        let pop = Step::Numbered("POP", 1);
        vec![Step::Acc(1), Step::Push, Step::Const(5), Step::Numbered("ASSIGN", entry), pop]
    };
    assert_eq!(with(deeper(0)), []);
    assert_eq!(with(deeper(1)), [Fault::Loop]);
    assert_eq!(with(deeper(2)), [Fault::Loop]);
    assert_eq!(with(vec![Step::Acc(1), Step::Push]), [Fault::Loop]);
}

/// The steps of a run, a conditional branch that jumps apart from one that does not; what an ACC reads is the next input.
fn run(items: &[Item], inputs: &[bool]) -> (Vec<String>, bool) {
    let (mut at, mut accumulator, mut read) = (0, false, 0);
    let mut made = Vec::new();
    loop {
        let step = &items[at].step;
        let jumps = match step {
            Step::Branch("BRANCH", _) => true,
            Step::Branch("BRANCHIF", _) => accumulator,
            Step::Branch(_, _) => !accumulator,
            _ => false,
        };
        made.push(match step {
            Step::Branch(name, _) => format!("{name} {jumps}"),
            step => format!("{step:?}"),
        });
        at += 1;
        match step {
            Step::Acc(_) => {
                accumulator = inputs[read % inputs.len()];
                read += 1;
            }
            Step::Branch(_, target) if jumps => at = *target,
            Step::Stop => return (made, accumulator),
            _ => {}
        }
    }
}

#[test]
fn no_run_costs_more_by_threading() {
    let mut seed: u64 = 39;
    let mut next = |below: usize| {
        seed = seed.wrapping_mul(6_364_136_223_846_793_005).wrapping_add(1_442_695_040_888_963_407);
        (seed >> 33) as usize % below
    };
    for _ in 0..2000 {
        let count = 3 + next(20);
        let mut steps: Vec<Step> = Vec::new();
        for place in 0..count - 1 {
            let target = place + 1 + next(count - place - 1);
            let kind = ["BRANCH", "BRANCHIF", "BRANCHIFNOT"][next(3)];
            steps.push(if next(4) == 0 { Step::Acc(0) } else { Step::Branch(kind, target) });
        }
        steps.push(Step::Stop);
        let inputs: Vec<bool> = (0..7).map(|_| next(2) == 0).collect();
        let before = items(steps);
        let mut after = before.clone();
        thread(&mut after, &mut Vec::new());
        let ((mut long, end), (short, same)) = (run(&before, &inputs), run(&after, &inputs));
        assert_eq!(end, same);
        // every step of the threaded run is one of the other
        for step in &short {
            let place = long.iter().position(|other| other == step).unwrap_or_else(|| panic!("{step} in {before:?}"));
            long.remove(place);
        }
    }
}
