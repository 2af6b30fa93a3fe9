//! Refusals 7, 8, 9 and 14: the line of code at an address, and the causes that it can have.
use super::lines::{shown, told};
use super::routine::{number, Routine};

const OPENINGS: &str = "this branch would be the thirty-third unknown one on one path; narrow the inputs, \
    or use merge, which has no such limit";

/// The line of code at an address, and the cause.
pub fn reason(routine: &Routine, refusal: u16, address: u32) -> String {
    let Some(line_number) = routine.line_of_address(i64::from(address)) else {
        return after_the_end(routine, address);
    };
    let line = routine.line(line_number).map_or(String::new(), |line| shown(line.bytes));
    let causes = match refusal {
        7 => stuck(routine, &line),
        8 => vec![OPENINGS.into()],
        9 => vec![spent(routine)],
        _ => meeting(routine, address),
    };
    let causes: String = causes.iter().map(|cause| format!("  cause: {cause}\n")).collect();
    format!("  line {line_number}, address {address}: {line}\n{}{causes}", either(&causes))
}

fn either(causes: &str) -> &'static str {
    match causes.lines().count() {
        0 | 1 => "",
        _ => "  it is one of these:\n",
    }
}

fn after_the_end(routine: &Routine, address: u32) -> String {
    let last = routine.code_lines().end - 1;
    let line = routine.line(last).map_or(String::new(), |line| shown(line.bytes));
    let cause = format!("the code ends here, and the routine runs on to address {address}; end each way with STOP");
    format!("  line {last}: {line}\n  cause: {cause}\n")
}

fn spent(routine: &Routine) -> String {
    let budget = routine.names(2).first().map_or(String::new(), |word| told(word.bytes));
    format!("BUDGET is {budget}, and this is the first step beyond it; raise BUDGET, narrow the inputs, or use merge")
}

/// What can make a step of a kind stuck.
fn stuck(routine: &Routine, line: &str) -> Vec<String> {
    let mut words = line.split(' ').skip(1);
    let (kind, given) = (words.next().unwrap_or_default(), words.next().unwrap_or_default());
    let digits = kind.trim_start_matches(|letter: char| !letter.is_ascii_digit());
    let index = if digits.is_empty() { given } else { digits };
    let entry = format!("there is no entry {index} on the stack");
    let full = "the stack has 64 entries already".to_string();
    let empty = "the stack is empty".to_string();
    let handle = |what: &str| format!("{what} is a handle, and a number is wanted");
    match kind.trim_end_matches(|letter: char| letter.is_ascii_digit()) {
        "ACC" | "ASSIGN" => vec![entry],
        "PUSHACC" => vec![full, format!("{entry} after the push")],
        "PUSH" | "PUSHCONST" | "PUSHCONSTINT" => vec![full],
        "POP" => vec![format!("the stack has fewer than {given} entries")],
        "OFFSETINT" | "NEGINT" | "BOOLNOT" | "BRANCHIF" | "BRANCHIFNOT" => vec![handle("the accumulator")],
        "EQ" | "NEQ" => {
            vec![empty, "one of the accumulator and the top entry is a handle, and the other a number".into()]
        }
        "ADDINT" | "SUBINT" | "LTINT" | "LEINT" | "GTINT" | "GEINT" => {
            vec![empty, handle("the accumulator"), handle("the top entry")]
        }
        "GETFIELD" => field(routine, index),
        "SETFIELD" => [vec![empty], field(routine, index)].concat(),
        "C_CALL" => {
            let popped = digits.parse::<usize>().unwrap_or(1) - 1;
            vec![format!("the stack has fewer than {popped} entries, which are the arguments after the first")]
        }
        _ => Vec::new(),
    }
}

/// What can be wrong with the block of a field: where all blocks have the field, only that it is none.
fn field(routine: &Routine, index: &str) -> Vec<String> {
    let mut causes = vec!["the accumulator is a number, and a handle to a block is wanted".to_string()];
    let wanted: usize = index.parse().unwrap_or(0);
    if let Some(block) = routine.blocks().iter().position(|fields| *fields <= wanted) {
        causes.push(format!("its block has no field {index}, as block {block} has none"));
    }
    causes
}

/// Why ways cannot be merged: without a block there is no handle.
fn meeting(routine: &Routine, address: u32) -> Vec<String> {
    let ways = ways(routine, address);
    let mut causes = vec![format!("the stack has different heights on the ways that meet here, from {ways}")];
    if !routine.blocks().is_empty() {
        causes.push(format!(
            "a cell is a handle on one of the ways that meet here and something else on another, from {ways}"
        ));
    }
    causes
}

/// The addresses that a step leads from to this one.
fn ways(routine: &Routine, address: u32) -> String {
    let address = i64::from(address);
    let mut from = Vec::new();
    for line_number in routine.code_lines() {
        let words = routine.names(line_number);
        let [at, kind, given] = words.as_slice() else {
            continue;
        };
        let jumps = kind.bytes.starts_with(b"BRANCH") && number(given.bytes) == Some(address);
        let goes_on = !matches!(kind.bytes, b"BRANCH" | b"STOP") && number(at.bytes) == Some(address - 1);
        if jumps || goes_on {
            from.push(told(at.bytes));
        }
    }
    from.join(", ")
}

#[cfg(test)]
mod tests {
    use super::super::kinds::of_opcode;
    use super::*;

    #[test]
    fn every_kind_that_can_be_stuck_has_its_causes() {
        let text = include_bytes!("../../../examples/door-counter.txt");
        let routine = Routine::of(text);
        let never = |kind: &str| kind.starts_with("CONST") || kind == "BRANCH" || kind == "STOP" || kind == "C_CALL1";
        for kind in (0..200).filter_map(of_opcode) {
            let causes = stuck(&routine, &format!("4 {kind} 3"));
            assert!(never(kind) || !causes.is_empty(), "{kind}");
        }
        assert_eq!(stuck(&routine, "4 C_CALL3 DOOR").len(), 1);
        assert_eq!(stuck(&routine, "4 PUSHACC2 -")[1], "there is no entry 2 on the stack after the push");
        assert_eq!(stuck(&routine, "4 GETFIELD0 -").len(), 1);
        assert_eq!(stuck(&routine, "4 SETFIELD 3")[2], "its block has no field 3, as block 0 has none");
    }
}
