//! The nearest number that moves the bound, of change request 13.
use crate::bound::bound;
use crate::machine::{Cell, State, FIELDS};
use crate::report::{Answer, MEMORY};
use crate::routine::{line, read, refused, Refusal, Routine};
use crate::tagged::is_number;

/// "the single change of at least 1 and at most 64"
pub const FARTHEST: i64 = 64;

/// A cell of the start that holds one number.
pub struct Numbered {
    pub name: String,
    pub number: i64,
    place: Place,
}

#[derive(Clone, Copy)]
enum Place {
    Accumulator,
    /// in the array of the stack, whose top is the last
    Stack(usize),
    Field(usize),
}

/// Why a change moves the bound.
#[derive(Clone, Copy, PartialEq, Debug)]
pub enum Why {
    MoreCycles,
    FewerCycles,
    Refused(u32),
}

/// The nearest change, and what it came to.
pub struct Nearest {
    pub name: String,
    pub value: i64,
    pub amount: i64,
    pub upwards: bool,
    pub why: Why,
}

/// What a search comes to.
pub struct Search {
    pub nearest: Option<Nearest>,
    /// a value outside the 31 bits came before the end
    pub passed_over: bool,
    /// trials made
    pub trials: u64,
}

/// The names on a line; none where it is `-`.
fn names(text: &[u8], n: usize) -> Vec<String> {
    let line = text.split(|b| *b == b'\n').nth(n - 1).unwrap();
    let words = String::from_utf8(line.to_vec()).unwrap();
    if words == "-" {
        Vec::new()
    } else {
        words.split(' ').map(str::to_string).collect()
    }
}

/// "start and block cells that hold one number", in the order of the file's names.
pub fn numbered(text: &[u8], routine: &Routine) -> Vec<Numbered> {
    let start = &routine.start;
    let of_cells = names(text, line::CELL_NAMES).into_iter().enumerate().map(|(i, name)| {
        let place = if i == 0 { Place::Accumulator } else { Place::Stack(start.height - i) };
        (name, place)
    });
    let of_fields = names(text, line::FIELD_NAMES).into_iter().map(|name| {
        let (block, field) = name[1..].split_once('.').unwrap();
        let place = block.parse::<usize>().unwrap() * FIELDS + field.parse::<usize>().unwrap();
        (name, Place::Field(place))
    });
    let all = of_cells.chain(of_fields).filter_map(|(name, place)| match cell(start, place) {
        Cell::Number(n) => Some(Numbered { name, number: n.number() as i64, place }),
        _ => None,
    });
    all.collect()
}

fn cell(state: &State, place: Place) -> Cell {
    match place {
        Place::Accumulator => state.accumulator,
        Place::Stack(entry) => state.stack[entry],
        Place::Field(field) => state.fields[field],
    }
}

fn changed(routine: &Routine, place: Place, value: i32) -> State {
    let mut state = routine.start.clone();
    let cell = Cell::number(value);
    match place {
        Place::Accumulator => state.accumulator = cell,
        Place::Stack(entry) => state.stack[entry] = cell,
        Place::Field(field) => state.fields[field] = cell,
    }
    state
}

/// "The smallest change comes first, then the cell earlier in the file, then downwards before upwards. Values outside the 31 bits are
/// passed over."
pub fn search(text: &[u8], routine: &Routine) -> Result<Search, Refusal> {
    let cycles = bound(routine, routine.start.clone())?.cycles;
    let cells = numbered(text, routine);
    let mut found = Search { nearest: None, passed_over: false, trials: 0 };
    for amount in 1..=FARTHEST {
        for Numbered { name, number, place } in &cells {
            for upwards in [false, true] {
                let value = if upwards { number + amount } else { number - amount };
                if !is_number(value) {
                    found.passed_over = true;
                    continue;
                }
                found.trials += 1;
                let why = match bound(routine, changed(routine, *place, value as i32)) {
                    Ok(figures) if figures.cycles == cycles => continue,
                    Ok(figures) if figures.cycles > cycles => Why::MoreCycles,
                    Ok(_) => Why::FewerCycles,
                    Err(refusal) => Why::Refused(refusal.number),
                };
                found.nearest = Some(Nearest { name: name.clone(), value, amount, upwards, why });
                return Ok(found);
            }
        }
    }
    Ok(found)
}

/// The answer for a text and a length of report memory.
pub fn nearest_answer(text: &[u8], lent: usize) -> Answer {
    if lent < MEMORY {
        return refused(10, 0);
    }
    let routine = read(text, false)?;
    Ok(match search(text, &routine)?.nearest {
        Some(Nearest { name, value, .. }) => format!("{name} {value}\n").into_bytes(),
        None => b"NONE\n".to_vec(),
    })
}
