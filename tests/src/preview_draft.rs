//! Previews from a seed: addresses in and outside the code, and instructions that fit, are damaged, have line feeds or are too long.
use crate::preview::Preview;
use crate::random::Random;
use crate::report::{bound_answer, MEMORY};
use crate::routine::{argument, line, read, Argument, Routine, KINDS, TEXT_LIMIT};

/// The instruction on a line of code, after the address and a space; none where there is no such line or no space on it.
pub fn instruction_at(text: &[u8], place: usize) -> Option<Vec<u8>> {
    let line = text.split(|b| *b == b'\n').nth(line::CODE - 1 + place)?;
    let space = line.iter().position(|b| *b == b' ')?;
    Some(line[space + 1..].to_vec())
}

/// An address of the code, or one outside it; of a file that is refused any.
fn address(random: &mut Random, routine: Option<&Routine>) -> u32 {
    let (first, count) = routine.map_or((0, 3), |r| (r.first, r.code.len() as u32));
    match random.below(24) {
        0 => first.wrapping_sub(1),
        1 => first + count,
        2 => first + count + random.below(40) as u32,
        3 => *random.pick(&[0, 14, 15, 61_999, 62_000, 62_001, 65_536, u32::MAX - 1, u32::MAX]),
        4 => random.next() as u32,
        5 | 6 => first,
        7 | 8 => first + count - 1,
        _ => first + random.below(count as usize) as u32,
    }
}

/// A target: mostly one above the address and in the code.
fn target(random: &mut Random, address: u32, end: u32) -> i64 {
    let (address, end) = (address as i64, end as i64);
    match random.below(6) {
        0 => address - random.below(3) as i64,
        1 => end + random.below(3) as i64,
        2 => 62_001,
        _ => address + 1 + random.below((end - address).clamp(1, 60_000) as usize) as i64,
    }
}

/// A kind with an argument of the kind that it calls for: mostly one that passes.
fn fitting(random: &mut Random, text: &[u8], address: u32, end: u32) -> Vec<u8> {
    let lines: Vec<&[u8]> = text.split(|b| *b == b'\n').collect();
    let names = |n: usize| lines.get(n - 1).map_or(vec![], |l| l.split(|b| *b == b' ').collect::<Vec<_>>());
    let (priced, primitives) = (names(line::KINDS), names(line::PRIMITIVES));
    let kind: &[u8] =
        if random.one_in(8) || priced.is_empty() { random.pick(&KINDS).0.as_bytes() } else { *random.pick(&priced) };
    let arg = match argument(kind) {
        Some(Argument::Number(low, high)) if random.one_in(6) => {
            (if random.one_in(2) { low - 1 } else { high + 1 }).to_string()
        }
        Some(Argument::Number(low, high)) => (random.number() as i64).clamp(low, high).to_string(),
        Some(Argument::Target) => target(random, address, end).to_string(),
        Some(Argument::Primitive) if primitives.is_empty() || random.one_in(8) => "NOWHERE".to_string(),
        Some(Argument::Primitive) => String::from_utf8_lossy(*random.pick(&primitives)).into_owned(),
        _ => "-".to_string(),
    };
    [kind, b" ", arg.as_bytes()].concat()
}

/// An instruction of other words, or with other spaces between them.
fn damaged(random: &mut Random, mut instruction: Vec<u8>) -> Vec<u8> {
    match random.below(8) {
        0 => Vec::new(),
        1 => [&instruction[..], b" "].concat(),
        2 => [b" ", &instruction[..]].concat(),
        3 => [&instruction[..], b" -"].concat(),
        4 => instruction.into_iter().take_while(|b| *b != b' ').collect(),
        5 => instruction.into_iter().flat_map(|b| if b == b' ' { vec![b' ', b' '] } else { vec![b] }).collect(),
        6 => {
            let at = random.below(instruction.len() + 1);
            instruction.insert(at, *random.pick(&[0, b'\t', b'\r', b'-', 0x80, 0xff]));
            instruction
        }
        _ => instruction.iter().map(u8::to_ascii_lowercase).collect(),
    }
}

/// An instruction with line feeds in it: lines more behind the one that is patched, with the addresses that follow or others.
fn lines_more(random: &mut Random, text: &[u8], address: u32, end: u32, instruction: &[u8]) -> Vec<u8> {
    let mut lines = instruction.to_vec();
    match random.below(5) {
        0 => lines.push(b'\n'),
        1 => lines.splice(0..0, *b"\n").for_each(drop),
        2 => lines.extend_from_slice(b"\nANSWER\n1"),
        _ => {
            for n in 1..=random.within(1, 3) as u32 {
                let next = address.wrapping_add(n);
                let more = if random.one_in(2) { b"STOP -".to_vec() } else { fitting(random, text, next, end + n) };
                lines.extend([b"\n", next.to_string().as_bytes(), b" ", &more].concat());
            }
        }
    }
    lines
}

/// An instruction that makes the copy about as long as a text may be: to the byte, one more, or far more.
fn long(random: &mut Random, text: &[u8], old: usize) -> Vec<u8> {
    let room = (TEXT_LIMIT + old).saturating_sub(text.len());
    let length = match random.below(4) {
        0 | 1 => room,
        2 => room + 1,
        _ => room + random.below(40_000),
    };
    let kind: &[u8] = if random.one_in(2) { b"CONSTINT " } else { b"ACC " };
    let digits = length.saturating_sub(kind.len());
    [kind, &vec![b'1'; digits][..]].concat()
}

/// The address at which the bound refuses a file by 7, 8 or 9, where it is one of the code.
fn refused_at(text: &[u8], routine: &Routine) -> Option<u32> {
    let place = bound_answer(text, MEMORY).err()?.place;
    let inside = (place.checked_sub(routine.first)? as usize) < routine.code.len();
    inside.then_some(place)
}

pub fn preview(random: &mut Random, text: &[u8]) -> Preview {
    let routine = read(text, false).ok();
    let (first, count) = routine.as_ref().map_or((0, 3), |r| (r.first, r.code.len()));
    let (end, how) = (first + count as u32, random.below(18));
    // a repair is tried where the file is refused, and lines more behind the last line of code, where they can pass
    let address = match (how, routine.as_ref().and_then(|r| refused_at(text, r))) {
        (0..=7, Some(place)) if random.one_in(2) => place,
        (8..=10, _) if routine.is_some() && !random.one_in(3) => end - 1,
        _ => address(random, routine.as_ref()),
    };
    let place = address.wrapping_sub(first) as usize;
    let held = instruction_at(text, if place < count { place } else { 0 });
    let old = held.unwrap_or_else(|| b"STOP -".to_vec());
    let new = match how {
        0 => old,
        1 | 2 => instruction_at(text, random.below(count)).unwrap_or(old),
        3 => b"STOP -".to_vec(),
        8..=10 => {
            let instruction = if random.one_in(3) { fitting(random, text, address, end) } else { old };
            lines_more(random, text, address, end, &instruction)
        }
        11 | 12 => {
            let instruction = fitting(random, text, address, end);
            damaged(random, instruction)
        }
        13 if random.one_in(3) => long(random, text, old.len()),
        _ => fitting(random, text, address, end),
    };
    Preview { text: text.to_vec(), address, instruction: new }
}
