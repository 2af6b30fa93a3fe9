//! A value as OCaml's Marshal writes it, read into a table of its objects. Nothing here follows a nesting by calling itself, and the
//! table is no longer than the bytes are.
use crate::failure::Failure;
use std::ops::Range;

/// An integer, or the number of an object.
#[derive(Clone, Copy)]
pub enum Value {
    Int(i64),
    Object(usize),
}

enum Object {
    Block {
        tag: u8,
        fields: Range<usize>,
    },
    /// where its bytes are
    String(Range<usize>),
    /// a float or a number of a fixed width
    Other,
}

pub struct Marshalled {
    bytes: Vec<u8>,
    objects: Vec<Object>,
    fields: Vec<Value>,
    pub root: Value,
    /// how many bytes the value has
    pub length: usize,
}

const HEADER: usize = 20;
const MAGIC: u64 = 0x8495_a6be;

/// The bytes that are not read yet.
struct Input<'a> {
    bytes: &'a [u8],
    at: usize,
}

impl Input<'_> {
    fn left(&self) -> usize {
        self.bytes.len() - self.at
    }

    /// The place of the next `length` bytes.
    fn take(&mut self, length: u64) -> Result<Range<usize>, Failure> {
        let from = self.at;
        match usize::try_from(length) {
            Ok(length) if length <= self.left() => self.at += length,
            _ => return Err(damaged("it ends within a value")),
        }
        Ok(from..self.at)
    }

    /// A number of that many bytes, the highest first.
    fn number(&mut self, length: u64) -> Result<u64, Failure> {
        let place = self.take(length)?;
        Ok(self.bytes[place].iter().fold(0, |number, byte| number << 8 | u64::from(*byte)))
    }
}

fn damaged(what: &str) -> Failure {
    Failure(format!("damaged: in a description in it, {what}"))
}

impl Marshalled {
    /// The value that the bytes begin with.
    pub fn read(bytes: &[u8]) -> Result<Marshalled, Failure> {
        let mut input = Input { bytes, at: 0 };
        if input.number(4)? != MAGIC {
            return Err(damaged("the first four bytes are others"));
        }
        let length = input.number(4)?;
        input.take(12)?;
        let end = input.take(length)?.end;
        let (objects, fields) = (Vec::new(), Vec::new());
        let mut value = Marshalled { bytes: bytes[..end].to_vec(), objects, fields, root: Value::Int(0), length: end };
        value.read_from(Input { bytes: &bytes[..end], at: HEADER })?;
        Ok(value)
    }

    fn read_from(&mut self, mut input: Input) -> Result<(), Failure> {
        // the fields of the blocks begun, the innermost last
        let mut begun: Vec<Range<usize>> = Vec::new();
        // the fields that are still to be read; each has a byte at least
        let mut owed = 0;
        self.root = self.item(&mut input, &mut begun, &mut owed)?;
        while let Some(fields) = begun.last_mut() {
            let Some(field) = fields.next() else {
                begun.pop();
                continue;
            };
            owed -= 1;
            self.fields[field] = self.item(&mut input, &mut begun, &mut owed)?;
        }
        if input.left() > 0 {
            return Err(damaged("bytes follow the value"));
        }
        Ok(())
    }

    /// An integer or an object whole, or a block without its fields.
    fn item(&mut self, input: &mut Input, begun: &mut Vec<Range<usize>>, owed: &mut usize) -> Result<Value, Failure> {
        let code = input.number(1)?;
        let object = match code {
            0x00 => return Ok(Value::Int(i64::from(input.number(1)? as i8))),
            0x01 => return Ok(Value::Int(i64::from(input.number(2)? as i16))),
            0x02 => return Ok(Value::Int(i64::from(input.number(4)? as i32))),
            0x03 => return Ok(Value::Int(input.number(8)? as i64)),
            0x04 => return self.shared(input.number(1)?),
            0x05 => return self.shared(input.number(2)?),
            0x06 => return self.shared(input.number(4)?),
            0x14 => return self.shared(input.number(8)?),
            0x40..=0x7f => return Ok(Value::Int((code & 0x3f) as i64)),
            0x08 | 0x13 => {
                let header = input.number(if code == 0x08 { 4 } else { 8 })?;
                self.block_of(input, begun, owed, (header as u8, header >> 10))?
            }
            0x80..=0xff => self.block_of(input, begun, owed, ((code & 0xf) as u8, code >> 4 & 7))?,
            _ => bytes_of(input, code)?,
        };
        // a block without fields has no number of its own, and is never shared
        if let Object::Block { fields, .. } = &object {
            if fields.is_empty() {
                return Ok(Value::Int(0));
            }
        }
        self.objects.push(object);
        Ok(Value::Object(self.objects.len() - 1))
    }

    /// A block of a tag and a size, whose fields are still to be read.
    fn block_of(
        &mut self,
        input: &Input,
        begun: &mut Vec<Range<usize>>,
        owed: &mut usize,
        (tag, size): (u8, u64),
    ) -> Result<Object, Failure> {
        if size == 0 {
            return Ok(Object::Block { tag, fields: 0..0 });
        }
        let size = usize::try_from(size).unwrap_or(usize::MAX);
        *owed = owed.saturating_add(size);
        if *owed > input.left() {
            return Err(damaged("a block has more fields than there are bytes"));
        }
        let fields = self.fields.len()..self.fields.len() + size;
        self.fields.resize(fields.end, Value::Int(0));
        begun.push(fields.clone());
        Ok(Object::Block { tag, fields })
    }

    /// The object that lies so many objects back.
    fn shared(&self, back: u64) -> Result<Value, Failure> {
        let back = usize::try_from(back).ok().filter(|back| *back > 0);
        match back.and_then(|back| self.objects.len().checked_sub(back)) {
            Some(number) => Ok(Value::Object(number)),
            None => Err(damaged("a value refers to one that is not there")),
        }
    }

    /// The tag and the fields of a block.
    pub fn block(&self, value: Value) -> Result<(u8, &[Value]), Failure> {
        match value {
            Value::Object(number) => match &self.objects[number] {
                Object::Block { tag, fields } => Ok((*tag, &self.fields[fields.clone()])),
                _ => Err(damaged("a block is missing")),
            },
            Value::Int(_) => Err(damaged("a block is missing")),
        }
    }

    /// The fields of a record or a pair with that many of them.
    pub fn record(&self, value: Value, size: usize) -> Result<&[Value], Failure> {
        match self.block(value)? {
            (0, fields) if fields.len() == size => Ok(fields),
            _ => Err(damaged("a record has other fields")),
        }
    }

    pub fn string(&self, value: Value) -> Result<&[u8], Failure> {
        if let Value::Object(number) = value {
            if let Object::String(place) = &self.objects[number] {
                return Ok(&self.bytes[place.clone()]);
            }
        }
        Err(damaged("a string is missing"))
    }

    /// An integer that is not negative.
    pub fn size(&self, value: Value) -> Result<usize, Failure> {
        match value {
            Value::Int(number) => usize::try_from(number).map_err(|_| damaged("a size is negative")),
            Value::Object(_) => Err(damaged("an integer is missing")),
        }
    }

    pub fn list(&self, value: Value) -> Result<Vec<Value>, Failure> {
        let mut items = Vec::new();
        let mut rest = value;
        while let Value::Object(_) = rest {
            let pair = self.record(rest, 2)?;
            items.push(pair[0]);
            rest = pair[1];
            if items.len() > self.objects.len() {
                return Err(damaged("a list does not end"));
            }
        }
        Ok(items)
    }
}

/// An object that is made of bytes: a string, floats, or a number of a fixed width.
fn bytes_of(input: &mut Input, code: u64) -> Result<Object, Failure> {
    Ok(match code {
        0x20..=0x3f => Object::String(input.take(code & 0x1f)?),
        0x09 | 0x0a | 0x15 => {
            let length = input.number(match code {
                0x09 => 1,
                0x0a => 4,
                _ => 8,
            })?;
            Object::String(input.take(length)?)
        }
        0x0b | 0x0c => other(input, 8)?,
        0x0d | 0x0e | 0x0f | 0x07 | 0x16 | 0x17 => {
            let count = input.number(match code {
                0x0d | 0x0e => 1,
                0x0f | 0x07 => 4,
                _ => 8,
            })?;
            other(input, count.saturating_mul(8))?
        }
        0x12 | 0x18 | 0x19 => custom(input, code == 0x18)?,
        _ => return Err(damaged(&format!("a value has the code {code}, which is none"))),
    })
}

/// An object of that many bytes, which are passed over.
fn other(input: &mut Input, length: u64) -> Result<Object, Failure> {
    input.take(length)?;
    Ok(Object::Other)
}

/// A number of 32 or 64 bits or of the machine's width: its name, perhaps its sizes, and its bytes.
fn custom(input: &mut Input, sized: bool) -> Result<Object, Failure> {
    let mut name = Vec::new();
    loop {
        match input.number(1)? {
            0 => break,
            byte => name.push(byte as u8),
        }
    }
    if sized {
        input.take(12)?;
    }
    let length = match name.as_slice() {
        b"_i" => 4,
        b"_j" => 8,
        b"_n" => match input.number(1)? {
            1 => 4,
            2 => 8,
            _ => return Err(damaged("a number has another width")),
        },
        _ => return Err(damaged("a value is of a kind of its own")),
    };
    other(input, length)
}
