//! Change request 2: the import and the export of code as the compiler's words, with refusal 12.
use crate::draft::Arg;
use crate::report::Answer;
use crate::routine::{
    argument, checked, entries, line, number, primitive_name, refused, repeated, Argument, Refusal, CODE_LINES,
    PRIMITIVES,
};

/// Lent memory that is enough for the lines and for the words.
pub const MEMORY: usize = 32_768;

/// The kinds as OCaml 4.13.1 numbers them.
#[rustfmt::skip]
pub const OPCODES: [(&str, i32); 61] = [
    ("ACC0", 0), ("ACC1", 1), ("ACC2", 2), ("ACC3", 3), ("ACC4", 4), ("ACC5", 5), ("ACC6", 6), ("ACC7", 7), ("ACC", 8),
    ("PUSH", 9), ("PUSHACC0", 10), ("PUSHACC1", 11), ("PUSHACC2", 12), ("PUSHACC3", 13), ("PUSHACC4", 14),
    ("PUSHACC5", 15), ("PUSHACC6", 16), ("PUSHACC7", 17), ("PUSHACC", 18), ("POP", 19), ("ASSIGN", 20),
    ("GETFIELD0", 67), ("GETFIELD1", 68), ("GETFIELD2", 69), ("GETFIELD3", 70), ("GETFIELD", 71),
    ("SETFIELD0", 73), ("SETFIELD1", 74), ("SETFIELD2", 75), ("SETFIELD3", 76), ("SETFIELD", 77),
    ("BRANCH", 84), ("BRANCHIF", 85), ("BRANCHIFNOT", 86), ("BOOLNOT", 88),
    ("C_CALL1", 93), ("C_CALL2", 94), ("C_CALL3", 95), ("C_CALL4", 96), ("C_CALL5", 97),
    ("CONST0", 99), ("CONST1", 100), ("CONST2", 101), ("CONST3", 102), ("CONSTINT", 103),
    ("PUSHCONST0", 104), ("PUSHCONST1", 105), ("PUSHCONST2", 106), ("PUSHCONST3", 107), ("PUSHCONSTINT", 108),
    ("NEGINT", 109), ("ADDINT", 110), ("SUBINT", 111),
    ("EQ", 121), ("NEQ", 122), ("LTINT", 123), ("LEINT", 124), ("GTINT", 125), ("GEINT", 126),
    ("OFFSETINT", 127), ("STOP", 143),
];

/// Words as bytes.
pub fn bytes(words: &[i32]) -> Vec<u8> {
    words.iter().flat_map(|word| word.to_le_bytes()).collect()
}

/// An instruction read from words.
#[derive(Clone, Copy)]
pub struct Instruction {
    /// the index of its opcode
    pub at: usize,
    pub kind: &'static str,
    pub called_for: Argument,
    /// its argument word; 0 where it has none
    pub word: i32,
}

impl Instruction {
    /// The index after its last word.
    pub fn end(&self) -> usize {
        self.at + length(self.called_for)
    }
}

/// Why words are refused by 12.
#[derive(Clone, Copy, PartialEq, Eq, Debug)]
pub enum Cause {
    NoWord,
    Opcode,
    CutWord,
    CutArgument,
    Primitive,
    TooMany,
    /// of an offset: it lands inside an instruction
    Inside,
    /// or outside the words
    Outside,
}

#[derive(Clone, Copy, PartialEq, Eq, Debug)]
pub struct Fault {
    pub cause: Cause,
    pub place: usize,
}

/// The instructions up to the first fault that is not an offset's, and that fault.
pub fn instructions(words: &[u8], primitives: usize) -> (Vec<Instruction>, Option<Fault>) {
    let mut code: Vec<Instruction> = Vec::new();
    let word = |index: usize| Some(i32::from_le_bytes(words.get(4 * index..4 * index + 4)?.try_into().unwrap()));
    let kind = |opcode| OPCODES.iter().find(|k| k.1 == opcode).map(|k| k.0);
    let mut at = 0;
    let fault = loop {
        if 4 * at == words.len() {
            break (at == 0).then_some((Cause::NoWord, 0));
        }
        let Some(opcode) = word(at) else {
            break Some((Cause::CutWord, at));
        };
        let Some(kind) = kind(opcode) else {
            break Some((Cause::Opcode, at));
        };
        if code.len() == CODE_LINES {
            break Some((Cause::TooMany, at));
        }
        let called_for = argument(kind.as_bytes()).unwrap();
        let Some(word) = (if called_for == Argument::Nothing { Some(0) } else { word(at + 1) }) else {
            break Some((Cause::CutArgument, at));
        };
        if called_for == Argument::Primitive && usize::try_from(word).map_or(true, |place| place >= primitives) {
            break Some((Cause::Primitive, at + 1));
        }
        code.push(Instruction { at, kind, called_for, word });
        at += length(called_for);
    };
    (code, fault.map(|(cause, place)| Fault { cause, place }))
}

/// How many words an instruction is.
fn length(called_for: Argument) -> usize {
    if called_for == Argument::Nothing {
        1
    } else {
        2
    }
}

/// The number of the instruction that a branch of the code jumps to, of as many words.
pub fn target(code: &[Instruction], words: usize, branch: &Instruction) -> Result<usize, Fault> {
    let place = branch.at + 1;
    let to = place as i64 + branch.word as i64;
    if !(0..words as i64).contains(&to) {
        return Err(Fault { cause: Cause::Outside, place });
    }
    code.binary_search_by_key(&to, |i| i.at as i64).map_err(|_| Fault { cause: Cause::Inside, place })
}

/// The primitives line, with or without its line feed.
pub fn primitives_line(text: &[u8]) -> Result<Vec<&[u8]>, Refusal> {
    let line = text.strip_suffix(b"\n").unwrap_or(text);
    let words: Vec<&[u8]> = line.split(|b| *b == b' ').collect();
    let names = entries(&words);
    if line.contains(&b'\n') || words.iter().any(|w| w.is_empty()) || names.len() > PRIMITIVES {
        return refused(2, 1);
    }
    if !names.iter().all(|name| primitive_name(name)) || repeated(names) {
        return refused(4, 1);
    }
    Ok(names.to_vec())
}

/// The lines that words make, under their line of names.
pub fn lines(words: &[u8], primitives: &[&[u8]]) -> Result<Vec<u8>, Fault> {
    let (code, fault) = instructions(words, primitives.len());
    if let Some(fault) = fault {
        return Err(fault);
    }
    let mut made = b"AT OP ARG\n".to_vec();
    for (address, i) in code.iter().enumerate() {
        made.extend(format!("{address} {} ", i.kind).into_bytes());
        match i.called_for {
            Argument::Nothing => made.push(b'-'),
            Argument::Number(..) => made.extend(i.word.to_string().into_bytes()),
            Argument::Target => made.extend(target(&code, words.len() / 4, i)?.to_string().into_bytes()),
            Argument::Primitive => made.extend(primitives[i.word as usize]),
        }
        made.push(b'\n');
    }
    Ok(made)
}

/// The answer of the import for words, a primitives line and a length of lent memory.
pub fn import_answer(words: &[u8], primitives: &[u8], lent: usize) -> Answer {
    if lent < MEMORY {
        return refused(10, 0);
    }
    let primitives = primitives_line(primitives)?;
    lines(words, &primitives).or_else(|fault| refused(12, fault.place))
}

/// The words of code.
pub fn words(code: &[(&str, Arg)]) -> Vec<i32> {
    let opcode = |kind| OPCODES.iter().find(|k| k.0 == kind).unwrap().1;
    // the index of each opcode
    let mut places = Vec::new();
    let mut next = 0;
    for (kind, _) in code {
        places.push(next);
        next += length(argument(kind.as_bytes()).unwrap());
    }
    let mut words = Vec::new();
    for (kind, arg) in code {
        words.push(opcode(*kind));
        match *arg {
            Arg::Nothing => {}
            Arg::Number(n) => words.push(n as i32),
            Arg::Line(n) => words.push(places[n] as i32 - words.len() as i32),
            Arg::Primitive(p) => words.push(p as i32),
        }
    }
    words
}

/// The answer of the export for a routine file and a length of lent memory.
pub fn export_answer(text: &[u8], lent: usize) -> Answer {
    if lent < MEMORY {
        return refused(10, 0);
    }
    let file = checked(text)?;
    let first = file.number(line::CODE, 0);
    let place = |name| file.list(line::PRIMITIVES).iter().position(|p| *p == name).unwrap();
    let code: Vec<(&str, Arg)> = file
        .code()
        .map(|n| {
            let (op, arg) = (file.line(n)[1], file.line(n)[2]);
            let arg = match argument(op).unwrap() {
                Argument::Nothing => Arg::Nothing,
                Argument::Number(..) => Arg::Number(number(arg).unwrap()),
                Argument::Target => Arg::Line((number(arg).unwrap() - first) as usize),
                Argument::Primitive => Arg::Primitive(place(arg)),
            };
            (std::str::from_utf8(op).unwrap(), arg)
        })
        .collect();
    Ok(bytes(&words(&code)))
}
