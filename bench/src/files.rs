//! The files, words and traces that are measured.
use independent::draft::{Arg, Draft};
use independent::routine::{jumps_at_a_cost, read, Argument, KINDS, TEXT_LIMIT};
use independent::trace_draft::{self, walk};
use independent::words::{export_answer, MEMORY};
use std::iter::repeat_n;
use std::sync::OnceLock;

const BUDGET: usize = 1_000_000;

/// Lines of a turn.
const TURN: usize = 44;

type Code = Vec<(&'static str, Arg)>;

/// A routine with all kinds, one primitive, prices that differ, and an extra where a kind can have one.
fn draft(cells: &[&str], blocks: Vec<Vec<String>>, code: Code) -> Draft {
    let extra = |kind: &str| if jumps_at_a_cost(kind.as_bytes()) { 2 } else { 0 };
    let kinds = KINDS.iter().enumerate().map(|(i, k)| (k.0.to_string(), [1 + i % 5, i % 3, extra(k.0)])).collect();
    Draft {
        budget: BUDGET as u64,
        tick: 4_000_000_000,
        kinds,
        primitives: vec![("READ".to_string(), [40, 4])],
        cells: cells.iter().map(|c| c.to_string()).collect(),
        blocks,
        first: 0,
        code,
        answers: Vec::new(),
    }
}

fn blocks(fields: usize) -> Vec<Vec<String>> {
    blocks_of(fields, "7")
}

fn blocks_of(fields: usize, cell: &str) -> Vec<Vec<String>> {
    vec![vec![cell.to_string(); fields]; 8]
}

/// Every operation and no unknown branch, from a line on: 43 steps of 44 lines, which leave the stack as it was.
fn turn(from: usize) -> Code {
    use Arg::{Line, Nothing, Number, Primitive};
    vec![
        ("ACC0", Nothing),
        ("OFFSETINT", Number(-1)),
        ("ASSIGN", Number(0)),
        ("ACC1", Nothing),
        ("GETFIELD1", Nothing),
        ("OFFSETINT", Number(1)),
        ("PUSH", Nothing),
        ("ACC2", Nothing),
        ("SETFIELD1", Nothing),
        ("ACC0", Nothing),
        ("PUSHCONST3", Nothing),
        ("ADDINT", Nothing),
        ("PUSHACC1", Nothing),
        ("SUBINT", Nothing),
        ("PUSHCONSTINT", Number(5)),
        ("EQ", Nothing),
        ("PUSHACC1", Nothing),
        ("NEQ", Nothing),
        ("PUSHCONST0", Nothing),
        ("LTINT", Nothing),
        ("PUSHCONST1", Nothing),
        ("LEINT", Nothing),
        ("PUSHACC1", Nothing),
        ("GTINT", Nothing),
        ("PUSHCONST2", Nothing),
        ("GEINT", Nothing),
        ("PUSHCONSTINT", Number(9)),
        ("ADDINT", Nothing),
        ("BOOLNOT", Nothing),
        ("NEGINT", Nothing),
        ("PUSH", Nothing),
        ("PUSHACC3", Nothing),
        ("GETFIELD2", Nothing),
        ("POP", Number(1)),
        ("C_CALL2", Primitive(0)),
        ("OFFSETINT", Number(4)),
        ("CONST0", Nothing),
        ("BRANCHIF", Line(from + 41)),
        ("BOOLNOT", Nothing),
        ("BRANCHIFNOT", Line(from + 41)),
        ("BRANCH", Line(from + 42)),
        // passed over
        ("STOP", Nothing),
        ("ACC0", Nothing),
        ("BRANCHIF", Line(from + 44)),
    ]
}

/// So many openings, each to the next line, then so many turns and lines of CONST0, and STOP, over a count and fields.
fn straight(openings: usize, turns: usize, rest: usize, count: &str, field: &str) -> Vec<u8> {
    let mut code = openings_to_the_next(openings);
    for _ in 0..turns {
        code.extend(turn(code.len()));
    }
    code.extend(repeat_n(("CONST0", Arg::Nothing), rest));
    code.push(("STOP", Arg::Nothing));
    draft(&["0", count, "#0"], blocks_of(4, field), code).text().into_bytes()
}

/// As long a path as code can have: 1,024 lines.
pub fn straight_path() -> Vec<u8> {
    straight_lines(TEXT_LIMIT)
}

/// A straight path with a line for each 32 bytes of these.
pub fn straight_lines(bytes: usize) -> Vec<u8> {
    let before_stop = bytes / 32 - 1;
    straight(0, before_stop / TURN, before_stop % TURN, "1000", "7")
}

/// One turn and STOP, from 32 cells and 128 fields that hold one number each: the turn reads one of the cells and two of the fields, and no
/// change of 64 or less moves the bound.
pub fn numbers() -> Vec<u8> {
    let mut cells = ["7"; 33];
    (cells[1], cells[2]) = ("1000", "#0");
    let mut code = turn(0);
    code.push(("STOP", Arg::Nothing));
    draft(&cells, blocks(16), code).text().into_bytes()
}

/// 1,024 paths of 974 steps behind 10 openings: nearly all of BUDGET in steps.
pub fn long_paths() -> Vec<u8> {
    straight(10, 22, 27, "1000", "7")
}

/// The same paths over ranges: the count has no 0, so that no branch on it opens.
pub fn long_paths_over_ranges() -> Vec<u8> {
    straight(10, 22, 27, "1000..2008", "7..1008")
}

/// The routine file of the straight path, made once.
pub fn straight_file() -> &'static [u8] {
    static TEXT: OnceLock<Vec<u8>> = OnceLock::new();
    TEXT.get_or_init(straight_path)
}

/// The trace of that path, with a step for each 32 bytes of these: all 1,001 of 32,768.
pub fn trace(bytes: usize) -> Vec<u8> {
    trace_draft::text(&walk(&read(straight_file(), true).unwrap(), bytes / 32).steps)
}

/// So many lines, with an unknown branch on every third one, over the line after it, and STOP: ways that meet again and again, with 16
/// entries and 8 blocks of 8 fields. Where it ends at once, its first line is STOP: nearly all of the time is the reader's.
pub fn tests(lines: usize, ends_at_once: bool) -> Vec<u8> {
    let line = |i: usize| match i % 3 {
        0 => ("C_CALL1", Arg::Primitive(0)),
        1 => ("BRANCHIF", Arg::Line((i + 2).min(lines - 1))),
        _ => ("CONST0", Arg::Nothing),
    };
    let mut code: Code = (0..lines).map(line).collect();
    code[lines - 1] = ("STOP", Arg::Nothing);
    if ends_at_once {
        code[0] = ("STOP", Arg::Nothing);
    }
    draft(&["?"; 17], blocks(8), code).text().into_bytes()
}

/// A cut of each of the sixteen entries of that file: 65,536 cases.
pub fn entry_cuts() -> Vec<u8> {
    let cuts: String = (0..16).map(|entry| format!("S{entry} 0\n")).collect();
    format!("CELL FROM\n{cuts}").into_bytes()
}

/// The alarm panel, whose client count and three fields are open.
pub fn panel() -> Vec<u8> {
    include_bytes!("../../examples/alarm-panel.txt").to_vec()
}

/// Four cuts of each of these cells, sixteen in all: 5 × 5 × 5 × 5 cases.
pub fn panel_cuts() -> &'static [u8] {
    b"CELL FROM\nS2 0\nS2 1\nS2 1008\nS2 1009\nB0.0 -1\nB0.0 0\nB0.0 1\nB0.0 2\nB0.2 -1\nB0.2 0\nB0.2 1\nB0.2 2\n\
      B1.0 -1\nB1.0 0\nB1.0 1\nB1.0 2\n"
}

/// Unknown branches to the next line.
fn openings_to_the_next(count: usize) -> Code {
    let mut code: Code = Vec::new();
    for _ in 0..count {
        code.push(("C_CALL1", Arg::Primitive(0)));
        code.push(("BRANCHIF", Arg::Line(code.len() + 1)));
    }
    code
}

/// 18 openings on each path, then STOP: all 2^18 paths. The wide one has 32 entries and 128 fields.
pub fn tree(wide: bool) -> Vec<u8> {
    let mut code = openings_to_the_next(18);
    code.push(("STOP", Arg::Nothing));
    let draft = if wide { draft(&["0"; 33], blocks(16), code) } else { draft(&["0"], Vec::new(), code) };
    draft.text().into_bytes()
}

/// A text of these bytes, at most 32,768, with a line of code for each 32 of them. The first is STOP: nearly all of the time is the
/// reader's.
pub fn long_code(bytes: usize) -> Vec<u8> {
    let numbers = bytes / 32 - 1;
    let text = |digits: usize| {
        let number = |i: usize| Arg::Number(-(10i64.pow((digits.saturating_sub(9 * i)).min(9) as u32)));
        let mut code: Code = vec![("STOP", Arg::Nothing)];
        code.extend((0..numbers).map(|i| ("PUSHCONSTINT", number(i))));
        Draft { first: 10_000, ..draft(&["0"], blocks(8), code) }.text().into_bytes()
    };
    text(bytes - text(0).len())
}

/// A routine of 96 lines in six kinds, under prices for all 61.
pub fn six_kinds() -> Vec<u8> {
    let turn: Code = vec![
        ("CONSTINT", Arg::Number(8)),
        ("PUSH", Arg::Nothing),
        ("ACC0", Arg::Nothing),
        ("ADDINT", Arg::Nothing),
        ("OFFSETINT", Arg::Number(-1)),
    ];
    let mut code: Code = turn.into_iter().cycle().take(95).collect();
    code.push(("STOP", Arg::Nothing));
    draft(&["0"], Vec::new(), code).text().into_bytes()
}

fn primitives() -> Vec<(String, [usize; 2])> {
    (1..=32).map(|k| (format!("LONGER{k:02}"), [1, 1])).collect()
}

/// A call of the last of 32 primitives for each 32 bytes, after STOP.
pub fn long_calls(bytes: usize) -> Vec<u8> {
    let mut code: Code = vec![("STOP", Arg::Nothing)];
    code.extend(repeat_n(("C_CALL5", Arg::Primitive(31)), bytes / 32 - 1));
    Draft { primitives: primitives(), ..draft(&["0"], Vec::new(), code) }.text().into_bytes()
}

/// Instructions of all kinds in turn, one for each 32 bytes, with targets all over the code behind them and 32 primitives.
pub fn instructions(bytes: usize) -> Vec<u8> {
    let count = bytes / 32;
    let arg = |i: usize| match KINDS[i % KINDS.len()].1 {
        Argument::Nothing => Arg::Nothing,
        Argument::Number(low, high) => Arg::Number(if i % 2 == 0 { low } else { high }),
        Argument::Target => Arg::Line(i + 1 + i * 389 % (count - 1 - i)),
        Argument::Primitive => Arg::Primitive(i % 32),
    };
    let code = (0..count).map(|i| (KINDS[i % KINDS.len()].0, arg(i))).collect();
    Draft { primitives: primitives(), ..draft(&["0"], Vec::new(), code) }.text().into_bytes()
}

/// The words of these instructions.
pub fn words(bytes: usize) -> Vec<u8> {
    export_answer(&instructions(bytes), MEMORY).unwrap()
}

/// Branches to the last line, which is STOP, one for each 32 bytes.
pub fn branches(bytes: usize) -> Vec<u8> {
    let last = bytes / 32 - 1;
    let mut code: Code = vec![("BRANCHIFNOT", Arg::Line(last)); last];
    code.push(("STOP", Arg::Nothing));
    draft(&["0"], Vec::new(), code).text().into_bytes()
}

/// The words of these branches.
pub fn branch_words(bytes: usize) -> Vec<u8> {
    export_answer(&branches(bytes), MEMORY).unwrap()
}

/// The line of the primitives of `words`.
pub fn primitives_line() -> &'static [u8] {
    static LINE: OnceLock<String> = OnceLock::new();
    LINE.get_or_init(|| primitives().into_iter().map(|p| p.0).collect::<Vec<_>>().join(" ")).as_bytes()
}

/// All kinds, then one of them as often as there is room for it and its prices.
pub fn repeated_kind(bytes: usize) -> Vec<u8> {
    let mut draft = draft(&["0"], Vec::new(), vec![("STOP", Arg::Nothing)]);
    let room = bytes - draft.text().len();
    draft.kinds.extend(repeat_n(("EQ".to_string(), [1, 1, 0]), room / "EQ 1 1 0 ".len()));
    draft.text().into_bytes()
}

/// 32 names of primitives that fill the text.
pub fn long_names(bytes: usize) -> Vec<u8> {
    let mut draft = draft(&["0"], Vec::new(), vec![("STOP", Arg::Nothing)]);
    draft.primitives = vec![(String::new(), [1, 1]); 32];
    let room = bytes - draft.text().len();
    draft.primitives = vec![("A".repeat(room / 32), [1, 1]); 32];
    draft.text().into_bytes()
}

/// Three lines, of which the third is filled with names.
pub fn names(bytes: usize) -> Vec<u8> {
    third_line(bytes, "A", " A")
}

/// Three lines, of which the third is filled with spaces.
pub fn spaces(bytes: usize) -> Vec<u8> {
    third_line(bytes, "", " ")
}

fn third_line(bytes: usize, begin: &str, piece: &str) -> Vec<u8> {
    let head = format!("BUDGET TICK\n1 1\n{begin}");
    let filling = piece.repeat((bytes - head.len() - 1) / piece.len());
    format!("{head}{filling}\n").into_bytes()
}
