//! The preview of a patched instruction (change request 10): the copy of a routine file, and what is answered.
use crate::report::{bound_answer, Answer, MEMORY};
use crate::routine::{line, read, refused};

/// What a preview is of.
#[derive(Clone, PartialEq)]
pub struct Preview {
    pub text: Vec<u8>,
    pub address: u32,
    pub instruction: Vec<u8>,
}

impl Preview {
    /// The place of the address in the code of a file that passes, if it is one of it.
    pub fn place(&self) -> Option<usize> {
        let routine = read(&self.text, false).ok()?;
        let place = self.address.checked_sub(routine.first)? as usize;
        (place < routine.code.len()).then_some(place)
    }

    /// The copy: "the new instruction as text, which stands in the copy after the address and a space".
    pub fn copy(&self, place: usize) -> Vec<u8> {
        let mut lines: Vec<&[u8]> = self.text.split_inclusive(|b| *b == b'\n').collect();
        let line = [self.address.to_string().as_bytes(), b" ", &self.instruction, b"\n"].concat();
        lines[line::CODE - 1 + place] = &line;
        lines.concat()
    }
}

/// The answer for a preview and a length of report memory: "exactly the report or refusal that the first bound would give for a patched
/// copy". "An address outside the code is refusal 4 with the address as the place, checked after the held file's 10, 1 to 6 and 13, and
/// before the copy's refusals."
pub fn preview_answer(preview: &Preview, lent: usize) -> Answer {
    if lent < MEMORY {
        return refused(10, 0);
    }
    read(&preview.text, false)?;
    match preview.place() {
        Some(place) => bound_answer(&preview.copy(place), lent),
        None => refused(4, preview.address as usize),
    }
}
