//! The debugger's events in an object file compiled with -g: at places of the code, the enclosing definition, the line of the source,
//! and the names of the values that the function keeps from outside.
use super::marshal::{Marshalled, Value};
use super::object::ident_name;
use crate::failure::Failure;
use std::collections::{BTreeMap, BTreeSet};
use std::ops::Range;

struct Event {
    definition: Vec<u8>,
    file: Vec<u8>,
    line: usize,
    /// whether it stands behind a call, and tells where that is
    after: bool,
    /// the table of the values kept from outside, by name
    kept: Option<Value>,
}

pub struct Events {
    values: Option<Marshalled>,
    /// by the index in the code
    events: BTreeMap<usize, Event>,
}

impl Events {
    pub fn none() -> Events {
        Events { values: None, events: BTreeMap::new() }
    }

    pub fn is_empty(&self) -> bool {
        self.events.is_empty()
    }

    pub fn read(bytes: &[u8]) -> Result<Events, Failure> {
        let values = Marshalled::read(bytes)?;
        let mut events = BTreeMap::new();
        for item in values.list(values.root)? {
            // place, unit, place in the source, kind, definition, four more, size of the stack, and one more
            let fields = values.record(item, 11)?;
            let at = values.size(fields[0])? / 4;
            let (file, line) = position(&values, fields[2]).unwrap_or_default();
            let after = matches!(fields[3], Value::Object(_));
            let kept = values.block(fields[8]).ok().and_then(|(_, tables)| tables.get(1).copied());
            events.insert(at, Event { definition: values.string(fields[4])?.to_vec(), file, line, after, kept });
        }
        Ok(Events { values: Some(values), events })
    }

    /// The enclosing definition at the first event within a part of the code.
    pub fn definition(&self, within: Range<usize>) -> Option<&[u8]> {
        self.events.range(within).next().map(|(_, event)| event.definition.as_slice())
    }

    /// The file and the line of an instruction within a function: of the event behind it where it is a call, or else of the last one
    /// before it.
    pub fn line(&self, function: &Range<usize>, instruction: Range<usize>) -> Option<(Vec<u8>, usize)> {
        let behind = self.events.get(&instruction.end).filter(|event| event.after);
        let before = || self.events.range(function.start..instruction.start + 1).next_back().map(|(_, event)| event);
        let first = || self.events.range(function.clone()).next().map(|(_, event)| event);
        let event = behind.or_else(before).or_else(first)?;
        (event.line > 0).then(|| (event.file.clone(), event.line))
    }

    /// The name of the value that a function has in a place of its closure.
    pub fn kept(&self, function: Range<usize>, place: i32) -> Option<Vec<u8>> {
        let values = self.values.as_ref()?;
        let mut tables = self.events.range(function).filter_map(|(_, event)| event.kept);
        tables.find_map(|table| named(values, table, i64::from(place)))
    }
}

/// The file and the line at which a place in the source begins.
fn position(values: &Marshalled, place: Value) -> Option<(Vec<u8>, usize)> {
    let start = values.block(place).ok()?.1.first()?;
    let fields = values.block(*start).ok()?.1;
    let file = values.string(*fields.first()?).ok()?;
    Some((file.to_vec(), values.size(*fields.get(1)?).ok()?))
}

/// The identifier that a table has at a number. A node has a smaller table, an entry, a larger table and a height; an entry has an
/// identifier, its number, and perhaps an earlier entry. What was looked at is not looked at again.
fn named(values: &Marshalled, table: Value, number: i64) -> Option<Vec<u8>> {
    let mut next = vec![table];
    let mut seen = BTreeSet::new();
    while let Some(value) = next.pop() {
        let Value::Object(object) = value else { continue };
        if !seen.insert(object) {
            continue;
        }
        let Ok((0, [smaller, entry, larger, _])) = values.block(value) else { continue };
        next.extend([*smaller, *larger]);
        if let Ok((_, [ident, Value::Int(found), ..])) = values.block(*entry) {
            if *found == number {
                return Some(ident_name(values, *ident)).filter(|name| !name.is_empty());
            }
        }
    }
    None
}
