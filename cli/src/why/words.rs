//! Refusals of an import: the primitives line, and words that are no code.
use super::fault::Fault;
use super::kinds::{argument, of_opcode, Argument};
use super::lines::{lines, Line};
use super::{layout, names};

/// Refusals 2 and 4, at place 1.
pub fn primitives(primitives: &[u8]) -> String {
    let line = lines(primitives).first().copied().unwrap_or(Line { bytes: b"", is_ended: false });
    let words = line.words();
    let spelling = || words.iter().enumerate().find_map(|(index, word)| names::primitive(word, &words[..index]));
    let too_many = || words.get(32).map(|word| Fault::at(word, "at most 32 primitives"));
    let fault = layout::spacing(&line).or_else(too_many).or_else(spelling);
    let whole = || Fault::of(0..line.bytes.len(), "one line of names, separated by one space", "more than one line");
    fault.unwrap_or_else(whole).printed("PRIMITIVES", &line)
}

fn word(bytes: &[u8], index: usize) -> Option<i64> {
    let word = bytes.get(4 * index..4 * index + 4)?;
    Some(i64::from(i32::from_le_bytes(word.try_into().ok()?)))
}

/// What a word is: an opcode, or the argument of the kind before it.
enum Role {
    Opcode,
    ArgumentOf(&'static str),
}

/// The kind of an opcode that a word is.
fn kind_at(bytes: &[u8], index: usize) -> Option<&'static str> {
    of_opcode(u32::try_from(word(bytes, index)?).ok()?)
}

fn has_argument(kind: &str) -> bool {
    argument(kind.as_bytes()) != Some(Argument::Missing)
}

/// What the word of an index is, and how many instructions begin before it.
fn role(bytes: &[u8], index: usize) -> (Role, usize) {
    let (mut at, mut count) = (0, 0);
    while at < index {
        let Some(kind) = kind_at(bytes, at) else {
            break;
        };
        if has_argument(kind) && at + 1 == index {
            return (Role::ArgumentOf(kind), count);
        }
        at += 1 + usize::from(has_argument(kind));
        count += 1;
    }
    (Role::Opcode, count)
}

/// Refusal 12 at the index of a word.
pub fn reason(bytes: &[u8], primitives: &[u8], index: usize) -> String {
    let title = format!("  word {index}, bytes {} to {}", 4 * index, 4 * index + 3);
    let (wanted, found) = match word(bytes, index) {
        None => ("a word of 32 bits".into(), unfinished(bytes, index)),
        Some(value) => (wanted(bytes, primitives, index), value.to_string()),
    };
    format!("{title}\n  wanted: {wanted}\n  found: {found}\n")
}

fn unfinished(bytes: &[u8], index: usize) -> String {
    match bytes.len().saturating_sub(4 * index) {
        0 => "the end of the file".into(),
        count => format!("{count} bytes, and then the end of the file"),
    }
}

fn wanted(bytes: &[u8], primitives: &[u8], index: usize) -> String {
    match role(bytes, index) {
        (Role::ArgumentOf(kind), _) if argument(kind.as_bytes()) == Some(Argument::Primitive) => {
            let count = match primitives.trim_ascii_end() {
                b"-" => 0,
                names => names.split(|byte| *byte == b' ').count(),
            };
            format!("the place of a primitive for {kind}, below {count}, which PRIMITIVES has")
        }
        (Role::ArgumentOf(kind), _) => format!("an offset for {kind} that leads to the opcode of an instruction"),
        (Role::Opcode, 1024..) => "no more than 1024 instructions".into(),
        (Role::Opcode, _) => match kind_at(bytes, index) {
            Some(kind) => format!("a whole argument word after this opcode, {kind}"),
            None => "the opcode of one of the 61 kinds of instructions".into(),
        },
    }
}
