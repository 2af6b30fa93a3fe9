//! An object file of `ocamlc -c`, version 4.13: magic number, the place of the unit's description, its code, with -g the debugger's
//! events, and the description.
use super::events::Events;
use super::marshal::{Marshalled, Value};
use crate::failure::Failure;
use std::collections::BTreeMap;

/// Longer files are not read.
pub const LONGEST: usize = 16_777_216;

const MAGIC: &[u8] = b"Caml1999O030";
/// What the magic numbers of all versions begin with.
const MAGIC_NAME: usize = 9;
/// The magic number and the place of the description.
const HEAD: usize = 16;

/// What a word of the code stands for, which the linker puts there.
pub enum Relocation {
    /// a constant that is no small number
    Literal(Literal),
    /// the values of a unit, by its name
    Global(Vec<u8>),
    /// the values of this unit, which are set
    Own,
    Primitive(Vec<u8>),
}

#[derive(Clone, Copy, PartialEq, Eq)]
pub enum Literal {
    Number(i64),
    Float,
    Text,
    Other,
}

pub struct Unit {
    pub words: Vec<i32>,
    /// by the index of the word
    pub relocations: BTreeMap<usize, Relocation>,
    /// of the debugger; none where the unit was compiled without -g
    pub events: Events,
}

/// `length` bytes from `from`.
fn part<'a>(file: &'a [u8], from: usize, length: usize, what: &str) -> Result<&'a [u8], Failure> {
    let bytes = from.checked_add(length).and_then(|end| file.get(from..end));
    bytes.ok_or_else(|| Failure(format!("damaged or cut off: {what} reaches past its end")))
}

fn version(magic: &[u8]) -> Result<(), Failure> {
    if magic == MAGIC {
        return Ok(());
    }
    let told = |magic: &[u8]| magic.escape_ascii().to_string();
    Err(Failure(match magic.get(..MAGIC_NAME) {
        Some(name) if name == &MAGIC[..MAGIC_NAME] => format!(
            "an object file of another version of OCaml: its magic number is {}, and that of 4.13 is {}",
            told(magic),
            told(MAGIC)
        ),
        _ => format!("no object file of ocamlc -c: it does not begin with {}", told(MAGIC)),
    }))
}

pub fn read(file: &[u8]) -> Result<Unit, Failure> {
    version(&file[..file.len().min(MAGIC.len())])?;
    let head = part(file, 0, HEAD, "its head")?;
    let place = u32::from_be_bytes(head[MAGIC.len()..].try_into().unwrap()) as usize;
    let description = part(file, place, 1, "the place of its description").map(|_| &file[place..])?;
    let unit = Marshalled::read(description)?;
    if unit.length < description.len() {
        return Err(Failure("damaged: bytes follow its description".into()));
    }
    // name, place and size of the code, relocations, imports, required units, primitives, forced link, place and size of the events
    let fields = unit.record(unit.root, 10)?;
    let size = unit.size(fields[2])?;
    let code = part(file, unit.size(fields[1])?, size, "its code")?;
    if size % 4 != 0 {
        return Err(Failure("damaged: its code is not made of whole words".into()));
    }
    let words: Vec<i32> = code.chunks_exact(4).map(|word| i32::from_le_bytes(word.try_into().unwrap())).collect();
    let events = match unit.size(fields[8])? {
        0 => Events::none(),
        place => Events::read(part(file, place, unit.size(fields[9])?, "its list of events")?)?,
    };
    Ok(Unit { relocations: relocations(&unit, fields[3], size)?, words, events })
}

fn relocations(unit: &Marshalled, list: Value, size: usize) -> Result<BTreeMap<usize, Relocation>, Failure> {
    let mut relocations = BTreeMap::new();
    for item in unit.list(list)? {
        let pair = unit.record(item, 2)?;
        let at = unit.size(pair[1])?;
        if at % 4 != 0 || at >= size {
            return Err(Failure("damaged: a relocation is not of a word of its code".into()));
        }
        let relocation = match unit.block(pair[0])? {
            (0, [constant]) => Relocation::Literal(literal(unit, *constant)),
            (1, [ident]) => Relocation::Global(ident_name(unit, *ident)),
            (2, [_]) => Relocation::Own,
            (3, [name]) => Relocation::Primitive(unit.string(*name)?.to_vec()),
            _ => return Err(Failure("damaged: a relocation is of no kind".into())),
        };
        relocations.insert(at / 4, relocation);
    }
    Ok(relocations)
}

/// A constant of the source: a base constant has tag 0, and a number, a string and a float in it the tags 0, 2 and 3.
fn literal(unit: &Marshalled, constant: Value) -> Literal {
    let base = match unit.block(constant) {
        Ok((0, [base])) => unit.block(*base),
        Ok((3, _)) => return Literal::Text,
        _ => return Literal::Other,
    };
    match base {
        Ok((0, [Value::Int(number)])) => Literal::Number(*number),
        Ok((2, _)) => Literal::Text,
        Ok((3, _)) => Literal::Float,
        _ => Literal::Other,
    }
}

/// The name of an identifier, which is the first field of each form; empty where it has none.
pub fn ident_name(unit: &Marshalled, ident: Value) -> Vec<u8> {
    let name = unit.block(ident).ok().and_then(|(_, fields)| fields.first());
    name.and_then(|name| unit.string(*name).ok()).map(<[u8]>::to_vec).unwrap_or_default()
}
