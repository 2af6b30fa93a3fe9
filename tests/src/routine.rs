//! The routine file: its reader, with refusals 1 to 6, 13 and 11.
use crate::machine::{Cell, Instruction, Operator, State, FIELDS};
use crate::range::Range;
use crate::tagged::{is_number as in_range, HIGHEST, LOWEST};

pub const TEXT_LIMIT: usize = 32_768;
/// The most primitives and the most lines of code.
pub const PRIMITIVES: usize = 32;
pub const CODE_LINES: usize = 1024;

/// The numbers of the lines up to the code.
pub mod line {
    pub const LIMIT_NAMES: usize = 1;
    pub const LIMITS: usize = 2;
    pub const KINDS: usize = 3;
    pub const KIND_CYCLES: usize = 4;
    pub const KIND_WORDS: usize = 5;
    pub const KIND_EXTRAS: usize = 6;
    pub const PRIMITIVES: usize = 7;
    pub const PRIMITIVE_CYCLES: usize = 8;
    pub const PRIMITIVE_WORDS: usize = 9;
    pub const CELL_NAMES: usize = 10;
    pub const CELLS: usize = 11;
    pub const FIELD_NAMES: usize = 12;
    pub const FIELDS: usize = 13;
    pub const CODE_NAMES: usize = 14;
    /// the first line of code
    pub const CODE: usize = 15;
}

/// A refusal's number and place.
#[derive(Clone, Copy, PartialEq, Eq, Debug)]
pub struct Refusal {
    pub number: u32,
    pub place: u32,
}

pub fn refused<T>(number: u32, place: usize) -> Result<T, Refusal> {
    Err(Refusal { number, place: place as u32 })
}

/// What is called for as ARG.
#[derive(Clone, Copy, PartialEq)]
pub enum Argument {
    Nothing,
    Number(i64, i64),
    Target,
    Primitive,
}

use Argument::{Nothing, Number, Primitive, Target};
const INTEGER: Argument = Number(LOWEST as i64, HIGHEST as i64);

pub const KINDS: [(&str, Argument); 61] = [
    ("ACC0", Nothing),
    ("ACC1", Nothing),
    ("ACC2", Nothing),
    ("ACC3", Nothing),
    ("ACC4", Nothing),
    ("ACC5", Nothing),
    ("ACC6", Nothing),
    ("ACC7", Nothing),
    ("ACC", Number(0, 63)),
    ("PUSH", Nothing),
    ("PUSHACC0", Nothing),
    ("PUSHACC1", Nothing),
    ("PUSHACC2", Nothing),
    ("PUSHACC3", Nothing),
    ("PUSHACC4", Nothing),
    ("PUSHACC5", Nothing),
    ("PUSHACC6", Nothing),
    ("PUSHACC7", Nothing),
    ("PUSHACC", Number(0, 63)),
    ("POP", Number(0, 64)),
    ("ASSIGN", Number(0, 63)),
    ("CONST0", Nothing),
    ("CONST1", Nothing),
    ("CONST2", Nothing),
    ("CONST3", Nothing),
    ("CONSTINT", INTEGER),
    ("PUSHCONST0", Nothing),
    ("PUSHCONST1", Nothing),
    ("PUSHCONST2", Nothing),
    ("PUSHCONST3", Nothing),
    ("PUSHCONSTINT", INTEGER),
    ("OFFSETINT", INTEGER),
    ("NEGINT", Nothing),
    ("BOOLNOT", Nothing),
    ("ADDINT", Nothing),
    ("SUBINT", Nothing),
    ("EQ", Nothing),
    ("NEQ", Nothing),
    ("LTINT", Nothing),
    ("LEINT", Nothing),
    ("GTINT", Nothing),
    ("GEINT", Nothing),
    ("GETFIELD0", Nothing),
    ("GETFIELD1", Nothing),
    ("GETFIELD2", Nothing),
    ("GETFIELD3", Nothing),
    ("GETFIELD", Number(0, 15)),
    ("SETFIELD0", Nothing),
    ("SETFIELD1", Nothing),
    ("SETFIELD2", Nothing),
    ("SETFIELD3", Nothing),
    ("SETFIELD", Number(0, 15)),
    ("BRANCH", Target),
    ("BRANCHIF", Target),
    ("BRANCHIFNOT", Target),
    ("C_CALL1", Primitive),
    ("C_CALL2", Primitive),
    ("C_CALL3", Primitive),
    ("C_CALL4", Primitive),
    ("C_CALL5", Primitive),
    ("STOP", Nothing),
];

/// What a kind calls for; none if the name is of no kind.
pub fn argument(kind: &[u8]) -> Option<Argument> {
    KINDS.iter().find(|k| k.0.as_bytes() == kind).map(|k| k.1)
}

/// Whether a kind may cost extra cycles when it jumps; BRANCH, which always jumps, may not.
pub fn jumps_at_a_cost(kind: &[u8]) -> bool {
    kind == b"BRANCHIF" || kind == b"BRANCHIFNOT"
}

/// A line of code with all that its step costs.
#[derive(Clone, Copy)]
pub struct Line {
    pub instruction: Instruction,
    pub cycles: u64,
    pub words: u64,
    /// cycles more where a conditional branch jumps
    pub extra: u64,
}

#[derive(Clone)]
pub struct Routine {
    pub budget: u64,
    pub tick: u64,
    pub first: u32,
    pub code: Vec<Line>,
    pub start: State,
    pub answers: Vec<i32>,
}

/// The value of a rightly spelt number; one of more than 18 digits counts as out of every range.
pub(crate) fn number(word: &[u8]) -> Option<i64> {
    let digits = word.strip_prefix(b"-").unwrap_or(word);
    let minus = digits.len() < word.len();
    let spelt = match digits {
        [b'0'] => !minus,
        [b'1'..=b'9', rest @ ..] => rest.iter().all(u8::is_ascii_digit),
        _ => false,
    };
    if !spelt {
        return None;
    }
    let size = if digits.len() > 18 { i64::MAX } else { digits.iter().fold(0, |n, d| n * 10 + (d - b'0') as i64) };
    Some(if minus { -size } else { size })
}

/// A cell as it is spelt, its numbers not yet held against a range.
pub enum Spelt {
    Number(i64),
    /// "A start or block cell may be `lo..hi`"
    Range(i64, i64),
    Unknown,
    Handle(i64),
}

/// A cell of a word, if it is spelt right: a range is two numbers around the first two dots.
pub fn cell(word: &[u8]) -> Option<Spelt> {
    let dots = word.windows(2).position(|two| two == b"..");
    match (word, dots) {
        (b"?", _) => Some(Spelt::Unknown),
        ([b'#', rest @ ..], _) => number(rest).map(Spelt::Handle),
        (_, Some(at)) => Some(Spelt::Range(number(&word[..at])?, number(&word[at + 2..])?)),
        (_, None) => number(word).map(Spelt::Number),
    }
}

impl Spelt {
    /// Whether a run refuses it: "A run refuses a range of more than one number as it does `?`."
    fn is_open(&self) -> bool {
        match self {
            Spelt::Unknown => true,
            Spelt::Range(low, high) => low != high,
            _ => false,
        }
    }
}

fn is_number(word: &[u8]) -> bool {
    number(word).is_some()
}

fn is_cell(word: &[u8]) -> bool {
    cell(word).is_some()
}

type Words<'a> = Vec<&'a [u8]>;

/// The lines of a text that passed row 2, by their numbers.
pub(crate) struct Layout<'a> {
    lines: Vec<Words<'a>>,
    /// the number of the line after the last line of code
    code_end: usize,
}

impl<'a> Layout<'a> {
    /// The words of a line.
    pub(crate) fn line(&self, n: usize) -> &[&'a [u8]] {
        &self.lines[n - 1]
    }

    /// The words of a line that may be an empty list.
    pub(crate) fn list(&self, n: usize) -> &[&'a [u8]] {
        entries(&self.lines[n - 1])
    }

    /// The numbers of the lines of code.
    pub(crate) fn code(&self) -> std::ops::Range<usize> {
        line::CODE..self.code_end
    }

    /// The numbers of the lines of answers.
    fn answers(&self) -> std::ops::Range<usize> {
        self.code_end + 1..self.lines.len() + 1
    }

    /// A number of a line, by its place there.
    pub(crate) fn number(&self, n: usize, word: usize) -> i64 {
        number(self.line(n)[word]).unwrap()
    }
}

/// The names of a line of names.
pub(crate) fn entries<'a, 'b>(line: &'b [&'a [u8]]) -> &'b [&'a [u8]] {
    if line == [b"-"] {
        &[]
    } else {
        line
    }
}

/// Row 2: the lowest line with a fault of layout, count or spelling.
fn layout(text: &[u8]) -> Result<Layout<'_>, Refusal> {
    let mut lines: Vec<Words> = Vec::new();
    let mut rest = text;
    let mut answer_line = None;
    while !rest.is_empty() {
        let n = lines.len() + 1;
        let Some(end) = rest.iter().position(|&b| b == b'\n') else {
            return refused(2, n);
        };
        let words: Words = rest[..end].split(|&b| b == b' ').collect();
        rest = &rest[end + 1..];
        if words.iter().any(|w| w.is_empty()) {
            return refused(2, n);
        }
        let values = |names: usize, spelt: fn(&[u8]) -> bool| {
            let names = entries(&lines[names - 1]);
            if names.is_empty() {
                words == [b"-"]
            } else {
                words.len() == names.len() && words.iter().all(|w| spelt(w))
            }
        };
        let good = match n {
            line::LIMIT_NAMES => words == [&b"BUDGET"[..], b"TICK"],
            line::LIMITS => values(line::LIMIT_NAMES, is_number),
            line::KINDS | line::FIELD_NAMES => true,
            line::KIND_CYCLES | line::KIND_WORDS | line::KIND_EXTRAS => values(line::KINDS, is_number),
            line::PRIMITIVES => entries(&words).len() <= PRIMITIVES,
            line::PRIMITIVE_CYCLES | line::PRIMITIVE_WORDS => values(line::PRIMITIVES, is_number),
            line::CELL_NAMES => words != [b"-"],
            line::CELLS => values(line::CELL_NAMES, is_cell),
            line::FIELDS => values(line::FIELD_NAMES, is_cell),
            line::CODE_NAMES => words == [&b"AT"[..], b"OP", b"ARG"],
            _ => match answer_line {
                Some(at) => n - at <= 64 && words.len() == 1 && is_number(words[0]),
                None if n > line::CODE && words == [b"ANSWER"] => {
                    answer_line = Some(n);
                    true
                }
                None => n < line::CODE + CODE_LINES && code_line(&words),
            },
        };
        if !good {
            return refused(2, n);
        }
        lines.push(words);
    }
    let n = lines.len() + 1;
    if n <= line::CODE || answer_line == Some(n - 1) {
        return refused(2, n);
    }
    Ok(Layout { lines, code_end: answer_line.unwrap_or(n) })
}

fn code_line(words: &[&[u8]]) -> bool {
    let [at, op, arg] = *words else {
        return false;
    };
    let dash = arg == b"-";
    is_number(at)
        && match argument(op) {
            None => true,
            Some(Nothing) => dash,
            Some(Primitive) => !dash,
            Some(Number(..) | Target) => is_number(arg),
        }
}

/// Row 3.
fn ranges(file: &Layout) -> Result<(), Refusal> {
    for n in line::LIMITS..=file.lines.len() {
        let all = |low: i64, high: i64| file.list(n).iter().all(|w| (low..=high).contains(&number(w).unwrap()));
        let good = match n {
            line::LIMITS => {
                (1..=1_000_000).contains(&file.number(n, 0)) && (1..=4_000_000_000).contains(&file.number(n, 1))
            }
            line::KIND_CYCLES | line::PRIMITIVE_CYCLES => all(0, 65_535),
            line::KIND_WORDS | line::PRIMITIVE_WORDS => all(0, 255),
            line::KIND_EXTRAS => file.list(line::KINDS).iter().zip(file.list(n)).all(|(kind, w)| {
                let most = if jumps_at_a_cost(kind) { 65_535 } else { 0 };
                (0..=most).contains(&number(w).unwrap())
            }),
            line::CELLS | line::FIELDS => file.list(n).iter().all(|w| match cell(w).unwrap() {
                Spelt::Number(v) => in_range(v),
                Spelt::Range(low, high) => in_range(low) && in_range(high) && low <= high,
                Spelt::Unknown => true,
                Spelt::Handle(k) => (0..=7).contains(&k),
            }),
            _ if file.code().contains(&n) => {
                let last = if n == line::CODE { 60_000 } else { 62_000 };
                (0..=last).contains(&file.number(n, 0))
                    && match argument(file.line(n)[1]) {
                        Some(Number(low, high)) => (low..=high).contains(&file.number(n, 2)),
                        Some(Target) => (0..=62_000).contains(&file.number(n, 2)),
                        _ => true,
                    }
            }
            _ if file.answers().contains(&n) => in_range(file.number(n, 0)),
            _ => true,
        };
        if !good {
            return refused(3, n);
        }
    }
    Ok(())
}

pub(crate) fn repeated(words: &[&[u8]]) -> bool {
    let mut sorted = words.to_vec();
    sorted.sort();
    sorted.windows(2).any(|w| w[0] == w[1])
}

pub(crate) fn primitive_name(word: &[u8]) -> bool {
    (1..=8).contains(&word.len())
        && word[0].is_ascii_uppercase()
        && word.iter().all(|&b| b.is_ascii_uppercase() || b.is_ascii_digit() || b == b'_')
}

/// The number of fields of each block that the names of fields make before one is out of sequence, and how many names that
/// are.
fn blocks(names: &[&[u8]]) -> (Vec<usize>, usize) {
    let mut sizes: Vec<usize> = Vec::new();
    let mut made = 0;
    for name in names {
        let next_field = sizes.last().filter(|&&size| size < 16).map(|size| format!("B{}.{}", sizes.len() - 1, size));
        if next_field.is_some_and(|f| f.as_bytes() == *name) {
            *sizes.last_mut().unwrap() += 1;
        } else if sizes.len() < 8 && format!("B{}.0", sizes.len()).as_bytes() == *name {
            sizes.push(1);
        } else {
            break;
        }
        made += 1;
    }
    (sizes, made)
}

/// Row 4.
fn names(file: &Layout) -> Result<(), Refusal> {
    let (sizes, made) = blocks(file.list(line::FIELD_NAMES));
    for n in line::KINDS..file.code_end {
        let present = || {
            file.list(n).iter().all(|w| match cell(w) {
                Some(Spelt::Handle(k)) => (k as usize) < sizes.len(),
                _ => true,
            })
        };
        let list = file.list(n);
        let good = match n {
            line::KINDS => list.iter().all(|w| argument(w).is_some()) && !repeated(list),
            line::PRIMITIVES => list.iter().all(|w| primitive_name(w)) && !repeated(list),
            line::CELL_NAMES => {
                list[0] == b"ACCU"
                    && list.len() <= 33
                    && list[1..].iter().enumerate().all(|(i, w)| format!("S{i}").as_bytes() == *w)
            }
            line::CELLS | line::FIELDS => present(),
            line::FIELD_NAMES => made == list.len(),
            _ if n >= line::CODE => {
                let kind = argument(file.line(n)[1]);
                kind.is_some()
                    && (n == line::CODE || file.number(n, 0) == file.number(n - 1, 0) + 1)
                    && (kind != Some(Primitive) || file.list(line::PRIMITIVES).contains(&file.line(n)[2]))
            }
            _ => true,
        };
        if !good {
            return refused(4, n);
        }
    }
    Ok(())
}

/// Rows 5 and 6.
fn prices_and_targets(file: &Layout) -> Result<(), Refusal> {
    for n in file.code() {
        if !file.list(line::KINDS).contains(&file.line(n)[1]) {
            return refused(5, n);
        }
    }
    let first = file.number(line::CODE, 0);
    let addresses = first..first + file.code().len() as i64;
    for n in file.code() {
        if argument(file.line(n)[1]) == Some(Target) && !addresses.contains(&file.number(n, 2)) {
            return refused(6, n);
        }
    }
    Ok(())
}

/// Row 13: a branch to its own address or a lower one.
fn jumps_backwards(file: &Layout) -> Result<(), Refusal> {
    let back = |n: &usize| argument(file.line(*n)[1]) == Some(Target) && file.number(*n, 2) <= file.number(*n, 0);
    file.code().find(back).map_or(Ok(()), |n| refused(13, n))
}

/// Rows 1 to 6 and 13.
pub(crate) fn checked(text: &[u8]) -> Result<Layout<'_>, Refusal> {
    if text.len() > TEXT_LIMIT {
        return refused(1, 0);
    }
    let file = layout(text)?;
    ranges(&file)?;
    names(&file)?;
    prices_and_targets(&file)?;
    jumps_backwards(&file)?;
    Ok(file)
}

/// Reads a routine file; `run` is whether row 11 is looked at.
pub fn read(text: &[u8], run: bool) -> Result<Routine, Refusal> {
    let file = checked(text)?;
    if run {
        for n in [line::CELLS, line::FIELDS] {
            if file.list(n).iter().any(|w| cell(w).unwrap().is_open()) {
                return refused(11, n);
            }
        }
    }
    Ok(routine(&file))
}

/// The routine of a file without a fault.
fn routine(file: &Layout) -> Routine {
    let cells = |n: usize| -> Vec<Cell> {
        file.list(n)
            .iter()
            .map(|w| match cell(w).unwrap() {
                Spelt::Number(v) => Cell::number(v as i32),
                Spelt::Range(low, high) => Cell::of(Range { low: low as i32, high: high as i32 }),
                Spelt::Unknown => Cell::UNKNOWN,
                Spelt::Handle(k) => Cell::Handle(k as u8),
            })
            .collect()
    };
    let first = file.number(line::CODE, 0) as u32;
    let held = cells(line::CELLS);
    let mut start = State::new(first, held[0]);
    for (entry, value) in held[1..].iter().rev().enumerate() {
        start.stack[entry] = *value;
    }
    start.height = held.len() - 1;
    let mut fields = cells(line::FIELDS).into_iter();
    for (block, size) in blocks(file.list(line::FIELD_NAMES)).0.into_iter().enumerate() {
        start.sizes[block] = size as u8;
        for field in 0..size {
            start.fields[block * FIELDS + field] = fields.next().unwrap();
        }
    }
    let place = |names: usize, word: &[u8]| file.list(names).iter().position(|w| *w == word).unwrap();
    let value = |n: usize, place: usize| file.number(n, place) as u64;
    let code = file
        .code()
        .map(|n| {
            let (op, arg) = (file.line(n)[1], file.line(n)[2]);
            let kind = place(line::KINDS, op);
            let (mut cycles, mut words) = (value(line::KIND_CYCLES, kind), value(line::KIND_WORDS, kind));
            if argument(op) == Some(Primitive) {
                let primitive = place(line::PRIMITIVES, arg);
                cycles += value(line::PRIMITIVE_CYCLES, primitive);
                words += value(line::PRIMITIVE_WORDS, primitive);
            }
            let extra = value(line::KIND_EXTRAS, kind);
            Line { instruction: instruction(op, number(arg).unwrap_or(0)), cycles, words, extra }
        })
        .collect();
    Routine {
        budget: value(line::LIMITS, 0),
        tick: value(line::LIMITS, 1),
        first,
        code,
        start,
        answers: file.answers().map(|n| file.number(n, 0) as i32).collect(),
    }
}

fn instruction(op: &[u8], arg: i64) -> Instruction {
    // a digit at the end of a name is the argument, but for C_CALL, where it counts the arguments
    let (name, n) = match op.split_last() {
        Some((digit, name)) if digit.is_ascii_digit() => (name, (digit - b'0') as i64),
        _ => (op, arg),
    };
    let place = n as usize;
    match name {
        b"ACC" => Instruction::Acc(place),
        b"PUSH" => Instruction::Push,
        b"PUSHACC" => Instruction::PushAcc(place),
        b"POP" => Instruction::Pop(place),
        b"ASSIGN" => Instruction::Assign(place),
        b"CONST" | b"CONSTINT" => Instruction::Const(n as i32),
        b"PUSHCONST" | b"PUSHCONSTINT" => Instruction::PushConst(n as i32),
        b"OFFSETINT" => Instruction::Offset(n as i32),
        b"NEGINT" => Instruction::Negate,
        b"BOOLNOT" => Instruction::Not,
        b"ADDINT" => Instruction::Binary(Operator::Add),
        b"SUBINT" => Instruction::Binary(Operator::Subtract),
        b"EQ" => Instruction::Binary(Operator::Equal),
        b"NEQ" => Instruction::Binary(Operator::Unequal),
        b"LTINT" => Instruction::Binary(Operator::Less),
        b"LEINT" => Instruction::Binary(Operator::LessOrEqual),
        b"GTINT" => Instruction::Binary(Operator::Greater),
        b"GEINT" => Instruction::Binary(Operator::GreaterOrEqual),
        b"GETFIELD" => Instruction::GetField(place),
        b"SETFIELD" => Instruction::SetField(place),
        b"BRANCH" => Instruction::Branch(n as u32),
        b"BRANCHIF" => Instruction::BranchIf(n as u32),
        b"BRANCHIFNOT" => Instruction::BranchIfNot(n as u32),
        b"C_CALL" => Instruction::Call(place - 1),
        b"STOP" => Instruction::Stop,
        _ => unreachable!("a kind of the table"),
    }
}
