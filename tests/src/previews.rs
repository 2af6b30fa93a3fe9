//! What is compared of a preview, and what the previews compared have in them, of change request 10.
use crate::compare::{compare_report, number, program};
use independent::analyser;
use independent::preview::{preview_answer, Preview};
use independent::preview_draft::instruction_at;
use independent::random::Random;
use independent::report::{bound_answer, Answer, MEMORY};
use independent::routine::{read, TEXT_LIMIT};
use std::collections::BTreeMap;
use std::ffi::OsStr;
use std::os::unix::ffi::OsStrExt;
use std::path::Path;

/// Compares a preview; gives the answer wanted.
pub fn compare_preview(random: &mut Random, preview: &Preview) -> Result<Answer, String> {
    let lent = preview.clone();
    let call = |memory: &mut [u8]| analyser::preview(&lent.text, lent.address, &lent.instruction, memory);
    let own = |length| preview_answer(preview, length);
    let answer = compare_report(random, &call, &own).map_err(|what| format!("{what}\n{}", described(preview)))?;
    if lent != *preview {
        return Err(format!("what is read was written\n{}", described(preview)));
    }
    Ok(answer)
}

/// A preview as it is shown.
fn described(preview: &Preview) -> String {
    let shown = |bytes: &[u8]| bytes.escape_ascii().to_string().replace("\\n", "\n");
    format!("at {}: {}\nin the file:\n{}", preview.address, shown(&preview.instruction), shown(&preview.text))
}

/// What the program prints for a preview. An argument holds no byte 0.
pub fn preview_by_program(programs: &Path, preview: &Preview, answer: &Answer) -> Result<(), String> {
    if preview.instruction.contains(&0) {
        return Ok(());
    }
    let file = std::env::temp_dir().join(format!("tickbound-held-{}", std::process::id()));
    std::fs::write(&file, &preview.text).map_err(|e| format!("{}: {e}", file.display()))?;
    let address = preview.address.to_string();
    let arguments = [file.as_os_str(), OsStr::new(&address), OsStr::from_bytes(&preview.instruction)];
    let found = program(&programs.join("preview"), &arguments, &[], answer);
    let _ = std::fs::remove_file(&file);
    found.map_err(|what| format!("{what}\n{}", described(preview)))
}

#[derive(Default)]
pub struct Previews {
    counts: BTreeMap<&'static str, u64>,
}

/// What is counted.
const COUNTED: [&str; 24] = [
    "previews with a report",
    "previews with another report than the file's",
    "previews with the instruction that stands there",
    "previews with a report, of a file that is refused by 7, 8 or 9",
    "previews refused by 7, 8 or 9, of a file with a report",
    "previews of a file that is refused by 1 to 6 or 13",
    "such a file with an address that would be outside",
    "an address below the code",
    "an address just after the code",
    "an address of more than 62,000",
    "an address outside, and an instruction that would be refused",
    "copies refused by 2",
    "copies refused by 3",
    "copies refused by 4",
    "copies refused by 5",
    "copies refused by 6",
    "copies refused by 13",
    "the first instruction replaced",
    "the last instruction replaced",
    "an instruction with a line feed",
    "an instruction with a line feed, with a report",
    "an instruction with a line feed, refused behind its first line",
    "an instruction of more or fewer than two words",
    "a copy with a last line or an ANSWER more, with a report",
];

/// What is counted and comes up more rarely.
const RARE: [&str; 3] = ["copies refused by 1", "copies of 32,768 bytes", "copies of 32,769 bytes"];

impl Previews {
    fn add(&mut self, what: &'static str, came_up: bool) {
        assert!(COUNTED.contains(&what) || RARE.contains(&what), "{what} is not counted");
        *self.counts.entry(what).or_default() += came_up as u64;
    }

    pub fn note(&mut self, preview: &Preview, answer: &Answer) {
        let Preview { text, address, instruction } = preview;
        let held = bound_answer(text, MEMORY);
        let Ok(routine) = read(text, false) else {
            self.add("previews of a file that is refused by 1 to 6 or 13", true);
            self.add("such a file with an address that would be outside", *address > 62_000);
            return;
        };
        let (first, count) = (routine.first, routine.code.len());
        let number = number(answer);
        let Some(place) = preview.place() else {
            self.add("an address below the code", *address < first);
            self.add("an address just after the code", *address as usize == first as usize + count);
            self.add("an address of more than 62,000", *address > 62_000);
            let at_first = Preview { address: first, ..preview.clone() };
            let refused = preview_answer(&at_first, MEMORY).is_err();
            self.add("an address outside, and an instruction that would be refused", refused);
            return;
        };
        let copy = preview.copy(place);
        let feeds = instruction.contains(&b'\n');
        let reported = number == 0;
        self.add("previews with a report", reported);
        self.add("previews with another report than the file's", reported && held.is_ok() && held != *answer);
        self.add(
            "previews with the instruction that stands there",
            instruction_at(text, place).as_ref() == Some(instruction),
        );
        self.add("previews with a report, of a file that is refused by 7, 8 or 9", reported && held.is_err());
        self.add("previews refused by 7, 8 or 9, of a file with a report", held.is_ok() && (7..=9).contains(&number));
        let of_copy = [
            "copies refused by 2",
            "copies refused by 3",
            "copies refused by 4",
            "copies refused by 5",
            "copies refused by 6",
        ];
        of_copy.into_iter().zip(2..).for_each(|(what, n)| self.add(what, number == n));
        self.add("copies refused by 13", number == 13);
        self.add("copies refused by 1", number == 1);
        self.add("copies of 32,768 bytes", copy.len() == TEXT_LIMIT);
        self.add("copies of 32,769 bytes", copy.len() == TEXT_LIMIT + 1);
        self.add("the first instruction replaced", reported && place == 0);
        self.add("the last instruction replaced", reported && place + 1 == count);
        self.add("an instruction with a line feed", feeds);
        self.add("an instruction with a line feed, with a report", feeds && reported);
        let line = independent::routine::line::CODE + place;
        let behind = answer.as_ref().is_err_and(|r| (2..=6).contains(&r.number) && r.place as usize > line);
        self.add("an instruction with a line feed, refused behind its first line", feeds && behind);
        self.add("an instruction of more or fewer than two words", instruction.split(|b| *b == b' ').count() != 2);
        let longer = read(&copy, false).is_ok_and(|r| r.code.len() > count || r.answers.len() > routine.answers.len());
        self.add("a copy with a last line or an ANSWER more, with a report", reported && longer);
    }

    pub fn counts(&self) -> Vec<(&'static str, u64)> {
        COUNTED.iter().map(|what| (*what, self.counts.get(what).copied().unwrap_or(0))).collect()
    }

    pub fn rare(&self) -> Vec<(&'static str, u64)> {
        RARE.iter().map(|what| (*what, self.counts.get(what).copied().unwrap_or(0))).collect()
    }
}
