//! Words and primitives lines from a seed, valid and with faults.
use crate::draft::{Arg, Draft};
use crate::random::Random;
use crate::routine::{jumps_at_a_cost, Argument, CODE_LINES, KINDS, PRIMITIVES};
use crate::words::{bytes, instructions, words, Instruction, OPCODES};

/// What an import is lent to read.
pub struct Import {
    pub words: Vec<u8>,
    pub primitives: Vec<u8>,
}

/// What can be wrong with words.
#[derive(Clone, Copy, PartialEq)]
enum Damage {
    Opcode,
    CutWord,
    CutArgument,
    Inside,
    Outside,
    Primitive,
    TooMany,
    NoWord,
    Byte,
}

const OFFSETS: [Damage; 2] = [Damage::Inside, Damage::Outside];
const OTHERS: [Damage; 5] = [Damage::Opcode, Damage::CutWord, Damage::CutArgument, Damage::Primitive, Damage::TooMany];
const ALONE: [Damage; 2] = [Damage::NoWord, Damage::Byte];

type Code = Vec<(&'static str, Arg)>;

/// An instruction with any argument of its kind, or with any word for a number.
fn instruction(random: &mut Random, lines: usize, primitives: usize, in_range: bool) -> (&'static str, Arg) {
    let (name, called_for) = loop {
        let kind = *random.pick(&KINDS);
        let wanted = match random.below(8) {
            0 => kind.1 == Argument::Target,
            1 => kind.1 == Argument::Primitive,
            2 => matches!(kind.1, Argument::Number(..)),
            _ => true,
        };
        if wanted && (primitives > 0 || kind.1 != Argument::Primitive) {
            break kind;
        }
    };
    let arg = match called_for {
        Argument::Nothing => Arg::Nothing,
        Argument::Number(low, high) if in_range && high < 100 => {
            Arg::Number(random.within(low as usize, high as usize) as i64)
        }
        Argument::Number(..) if in_range => Arg::Number(random.number() as i64),
        Argument::Number(..) => Arg::Number(random.word() as i64),
        Argument::Target => Arg::Line(random.below(lines)),
        Argument::Primitive => Arg::Primitive(random.below(primitives)),
    };
    (name, arg)
}

fn code(random: &mut Random, primitives: usize) -> Code {
    let lines = match random.below(100) {
        0 => CODE_LINES,
        1 => random.within(CODE_LINES / 2, CODE_LINES),
        _ => random.within(1, 40),
    };
    let in_range = random.one_in(2);
    (0..lines).map(|_| instruction(random, lines, primitives, in_range)).collect()
}

/// Puts into the code what a fault needs; a branch goes to the front if another fault is to come after it.
fn prepare(random: &mut Random, code: &mut Code, damage: Damage, first: bool) {
    let n = if first { 0 } else { random.below(code.len() + 1) };
    match damage {
        Damage::Inside | Damage::Outside => {
            code.insert(n, (*random.pick(&["BRANCH", "BRANCHIF", "BRANCHIFNOT"]), Arg::Line(0)));
        }
        Damage::Primitive => code.insert(n, (*random.pick(&["C_CALL1", "C_CALL3", "C_CALL5"]), Arg::Primitive(0))),
        Damage::CutArgument => {
            let name = *random.pick(&["ACC", "CONSTINT", "BRANCH", "C_CALL2"]);
            code.insert(n, (name, if name == "BRANCH" { Arg::Line(0) } else { Arg::Number(0) }));
        }
        Damage::TooMany => {
            let to = if random.one_in(20) { 20_000 } else { CODE_LINES + random.within(1, 3) };
            let more = if random.one_in(3) { ("CONSTINT", Arg::Number(21)) } else { ("CONST0", Arg::Nothing) };
            code.resize(to.max(code.len()), more);
        }
        _ => {}
    }
}

/// An opcode of no kind.
fn strange(random: &mut Random) -> i32 {
    let known = random.pick(&OPCODES).1;
    match random.below(5) {
        0 => *random.pick(&[21, 40, 41, 66, 72, 78, 83, 87, 89, 92, 98, 112, 120, 128, 142, 144, 148, -1]),
        1 => known.max(1).swap_bytes(),
        2 => known + (1 << (8 + random.below(24))),
        3 => (0..200).filter(|n| OPCODES.iter().all(|k| k.1 != *n)).nth(random.below(139)).unwrap(),
        _ => random.next() as i32 | 1 << 30,
    }
}

/// One fault among the words; `first` is whether it is put into the first place there is for it.
fn among_words(random: &mut Random, words: &mut [i32], primitives: usize, damage: Damage, first: bool) {
    let total = words.len() as i64;
    let found = instructions(&bytes(words), usize::MAX).0;
    let mut pick = |wanted: &dyn Fn(&Instruction) -> bool| {
        let fit: Vec<usize> = found.iter().filter(|i| wanted(i)).map(|i| i.at).collect();
        if fit.is_empty() || first {
            fit.first().copied()
        } else {
            Some(*random.pick(&fit))
        }
    };
    let place = match damage {
        Damage::Opcode => pick(&|_| true),
        Damage::Inside | Damage::Outside => pick(&|i| i.called_for == Argument::Target).map(|at| at + 1),
        Damage::Primitive => pick(&|i| i.called_for == Argument::Primitive).map(|at| at + 1),
        _ => None,
    };
    let Some(place) = place else {
        return;
    };
    words[place] = match damage {
        Damage::Opcode => strange(random),
        Damage::Primitive => {
            let count = primitives as i32;
            *random.pick(&[count, count, count + 1, -1, -1, 32, 256, 1 << 24, i32::MIN, i32::MAX])
        }
        Damage::Inside => {
            let arguments: Vec<usize> =
                found.iter().filter(|i| i.called_for != Argument::Nothing).map(|i| i.at + 1).collect();
            let to = if random.one_in(4) { place } else { *random.pick(&arguments) };
            to as i32 - place as i32
        }
        _ => {
            let to = match random.below(5) {
                0 => -1,
                1 => total,
                2 => -1 - random.below(5) as i64,
                3 => total + random.below(3000) as i64,
                _ => {
                    let ends = [i32::MIN, i32::MIN + 1, i32::MAX, i32::MAX - 1, -(1 << 30), 1 << 30];
                    *random.pick(&ends) as i64 + place as i64
                }
            };
            (to - place as i64) as i32
        }
    };
}

/// One fault among the bytes.
fn among_bytes(random: &mut Random, bytes: &mut Vec<u8>, damage: Damage) {
    let found = instructions(bytes, usize::MAX).0;
    match damage {
        Damage::CutArgument => {
            let with: Vec<usize> =
                found.iter().filter(|i| i.called_for != Argument::Nothing).map(|i| i.at + 1).collect();
            if !with.is_empty() {
                bytes.truncate(4 * *random.pick(&with) + *random.pick(&[0, 0, 1, 2, 3]));
            }
        }
        Damage::CutWord => {
            if random.one_in(2) && !found.is_empty() {
                bytes.truncate(4 * random.pick(&found).at);
            }
            let word = random.pick(&OPCODES).1.to_le_bytes();
            bytes.extend(&word[..random.within(1, 3)]);
        }
        Damage::NoWord => bytes.clear(),
        Damage::Byte => {
            let i = random.below(bytes.len());
            match random.below(3) {
                0 => bytes[i] ^= 1 << random.below(8),
                1 => bytes.insert(i, random.next() as u8),
                _ => {
                    bytes.remove(i);
                }
            }
        }
        _ => {}
    }
}

fn names(random: &mut Random) -> Vec<String> {
    let count = match random.below(8) {
        0 => 0,
        1 => PRIMITIVES,
        _ => random.within(1, 4),
    };
    let name = |random: &mut Random, i: usize| match random.below(4) {
        0 => format!("P_{i}"),
        1 => format!("LONG{i:04}"),
        2 if i < 3 => ["READ", "STOP", "A"][i].to_string(),
        _ => format!("Q{i}"),
    };
    (0..count).map(|i| name(random, i)).collect()
}

/// The primitives line, mostly without a fault.
fn primitives_line(random: &mut Random, names: &[String]) -> Vec<u8> {
    let mut words = names.to_vec();
    let faults = match random.below(24) {
        0 | 1 => 1,
        2 => 2,
        _ => 0,
    };
    let faults: Vec<usize> = (0..faults).map(|_| random.below(10)).collect();
    for fault in &faults {
        let n = random.below(words.len() + 1);
        match fault {
            0 => {
                let to = if random.one_in(20) { 10_000 } else { PRIMITIVES + random.within(1, 2) };
                words.resize(to, "ZZ".to_string());
            }
            1 => words.insert(n, "-".to_string()),
            2 => words.insert(n, random.pick(&["read", "1A", "_A", "A-", "LONGNAMES", "A.", "É", "A\r"]).to_string()),
            3 if !names.is_empty() => words.insert(n, random.pick(names).clone()),
            // two spaces, or one before or after the names
            4 => words.insert(n, String::new()),
            _ => {}
        }
    }
    let mut line = if words.is_empty() { b"-".to_vec() } else { words.join(" ").into_bytes() };
    for fault in faults {
        let n = random.below(line.len() + 1);
        match fault {
            5 => line.insert(n, b'\n'),
            6 => line.clear(),
            7 => line.push(b'\n'),
            8 => line.insert(n, random.next() as u8),
            9 => line.insert(n, b' '),
            _ => {}
        }
    }
    if random.one_in(2) {
        line.push(b'\n');
    }
    line
}

/// Words and a primitives line, each with faults or without.
pub fn import(random: &mut Random) -> Import {
    let names = names(random);
    let damages = match random.below(12) {
        0..=4 => vec![],
        5 | 6 => vec![*random.pick(&OFFSETS)],
        7 | 8 => vec![*random.pick(&OTHERS)],
        9 => vec![*random.pick(&ALONE)],
        10 => vec![*random.pick(&OFFSETS), *random.pick(&OTHERS)],
        _ => vec![*random.pick(&OFFSETS), *random.pick(&OFFSETS)],
    };
    let mut code = code(random, names.len());
    let first = |i: usize| i == 0 && damages.len() > 1;
    for (i, damage) in damages.iter().enumerate().rev() {
        prepare(random, &mut code, *damage, first(i));
    }
    let mut made = words(&code);
    for (i, damage) in damages.iter().enumerate() {
        among_words(random, &mut made, names.len(), *damage, first(i));
    }
    let mut words = bytes(&made);
    for damage in damages {
        among_bytes(random, &mut words, damage);
    }
    Import { words, primitives: primitives_line(random, &names) }
}

/// A routine without code: all kinds and the primitives have prices, and an accumulator is all it starts with.
pub fn priced(random: &mut Random, primitives: &[&[u8]]) -> Draft {
    let mut price = |most: usize| random.below(most + 1);
    let kinds = KINDS.map(|(name, _)| {
        let extra = if jumps_at_a_cost(name.as_bytes()) { price(9) } else { 0 };
        (name.to_string(), [price(9), price(2), extra])
    });
    let name = |bytes: &[u8]| String::from_utf8(bytes.to_vec()).unwrap();
    Draft {
        budget: 10_000,
        tick: 1000,
        kinds: kinds.to_vec(),
        primitives: primitives.iter().map(|p| (name(p), [price(99), price(9)])).collect(),
        cells: vec!["0".to_string()],
        blocks: Vec::new(),
        first: 0,
        code: Vec::new(),
        answers: Vec::new(),
    }
}

/// A routine file with these lines of code, eight entries and a block.
pub fn completed(random: &mut Random, primitives: &[&[u8]], code: &[u8]) -> Vec<u8> {
    let mut draft = priced(random, primitives);
    let mut cells = |count| -> Vec<String> {
        let cell = |random: &mut Random| match random.below(4) {
            0 => "?".to_string(),
            1 => "#0".to_string(),
            _ => random.number().to_string(),
        };
        (0..count).map(|_| cell(random)).collect()
    };
    draft.cells = cells(9);
    draft.blocks = vec![cells(16)];
    draft.budget = 1 + random.below(300) as u64;
    draft.with_code(std::str::from_utf8(code).unwrap()).into_bytes()
}
