//! The calls of the static library.
use super::Answer;

#[link(name = "c_interface", kind = "static")]
extern "C" {
    fn tickbound_bound(text: *const u8, text_length: usize, report: *mut u8, report_length: usize) -> u64;
    fn tickbound_merge(text: *const u8, text_length: usize, report: *mut u8, report_length: usize) -> u64;
    fn tickbound_run(text: *const u8, text_length: usize, report: *mut u8, report_length: usize) -> u64;
    fn tickbound_trace(text: *const u8, text_length: usize, lines: *mut u8, lines_length: usize) -> u64;
    fn tickbound_explain(text: *const u8, text_length: usize, lines: *mut u8, lines_length: usize) -> u64;
    fn tickbound_explain_merge(text: *const u8, text_length: usize, lines: *mut u8, lines_length: usize) -> u64;
    fn tickbound_decide(text: *const u8, text_length: usize, report: *mut u8, report_length: usize) -> u64;
    fn tickbound_nearest(text: *const u8, text_length: usize, report: *mut u8, report_length: usize) -> u64;
    fn tickbound_export(text: *const u8, text_length: usize, words: *mut u8, words_length: usize) -> u64;
    fn tickbound_generate(seed: u32, file: *mut u8, file_length: usize) -> u64;
    fn tickbound_import(
        words: *const u8,
        words_length: usize,
        primitives: *const u8,
        primitives_length: usize,
        lines: *mut u8,
        lines_length: usize,
    ) -> u64;
    fn tickbound_replay(
        text: *const u8,
        text_length: usize,
        trace: *const u8,
        trace_length: usize,
        report: *mut u8,
        report_length: usize,
    ) -> u64;
    fn tickbound_split(
        text: *const u8,
        text_length: usize,
        cuts: *const u8,
        cuts_length: usize,
        report: *mut u8,
        report_length: usize,
    ) -> u64;
    fn tickbound_decide_split(
        text: *const u8,
        text_length: usize,
        cuts: *const u8,
        cuts_length: usize,
        report: *mut u8,
        report_length: usize,
    ) -> u64;
    fn tickbound_preview(
        text: *const u8,
        text_length: usize,
        address: u32,
        instruction: *const u8,
        instruction_length: usize,
        report: *mut u8,
        report_length: usize,
    ) -> u64;
}

/// Memory that is enough for a report, for lines or words, a trace or the file of a seed, and for an explanation.
const REPORT: usize = 128;
const LINES: usize = 32768;
const EXPLANATION: usize = 65536;

/// What the number that a call answers says, with the memory that was lent to it.
fn answer(number: u64, mut memory: Vec<u8>) -> Answer {
    if number >> 63 != 0 {
        return Answer::Refused { number: (number >> 32) as u16, place: number as u32 };
    }
    memory.truncate(number as usize);
    Answer::Report(memory)
}

type OfText = unsafe extern "C" fn(*const u8, usize, *mut u8, usize) -> u64;

fn of_text(call: OfText, text: &[u8], size: usize) -> Answer {
    let mut memory = vec![0; size];
    // SAFETY: both memories are there with these lengths and do not overlap. So it is in every call below.
    let number = unsafe { call(text.as_ptr(), text.len(), memory.as_mut_ptr(), size) };
    answer(number, memory)
}

pub fn bound(text: &[u8]) -> Answer {
    of_text(tickbound_bound, text, REPORT)
}

pub fn merge(text: &[u8]) -> Answer {
    of_text(tickbound_merge, text, REPORT)
}

pub fn run(text: &[u8]) -> Answer {
    of_text(tickbound_run, text, REPORT)
}

pub fn trace(text: &[u8]) -> Answer {
    of_text(tickbound_trace, text, LINES)
}

pub fn explain(text: &[u8]) -> Answer {
    of_text(tickbound_explain, text, EXPLANATION)
}

pub fn explain_merge(text: &[u8]) -> Answer {
    of_text(tickbound_explain_merge, text, EXPLANATION)
}

pub fn decide(text: &[u8]) -> Answer {
    of_text(tickbound_decide, text, REPORT)
}

pub fn nearest(text: &[u8]) -> Answer {
    of_text(tickbound_nearest, text, REPORT)
}

pub fn export(text: &[u8]) -> Answer {
    of_text(tickbound_export, text, LINES)
}

pub fn generate(seed: u32) -> Answer {
    let mut file = vec![0; LINES];
    // SAFETY: as above.
    let number = unsafe { tickbound_generate(seed, file.as_mut_ptr(), LINES) };
    answer(number, file)
}

pub fn import(words: &[u8], primitives: &[u8]) -> Answer {
    let mut lines = vec![0; LINES];
    // SAFETY: as above.
    let number = unsafe {
        tickbound_import(words.as_ptr(), words.len(), primitives.as_ptr(), primitives.len(), lines.as_mut_ptr(), LINES)
    };
    answer(number, lines)
}

type OfTwo = unsafe extern "C" fn(*const u8, usize, *const u8, usize, *mut u8, usize) -> u64;

fn of_two(call: OfTwo, routine: &[u8], other: &[u8]) -> Answer {
    let mut report = vec![0; REPORT];
    // SAFETY: as above.
    let number =
        unsafe { call(routine.as_ptr(), routine.len(), other.as_ptr(), other.len(), report.as_mut_ptr(), REPORT) };
    answer(number, report)
}

pub fn replay(routine: &[u8], trace: &[u8]) -> Answer {
    of_two(tickbound_replay, routine, trace)
}

pub fn split(routine: &[u8], cuts: &[u8]) -> Answer {
    of_two(tickbound_split, routine, cuts)
}

pub fn decide_split(routine: &[u8], cuts: &[u8]) -> Answer {
    of_two(tickbound_decide_split, routine, cuts)
}

pub fn preview(routine: &[u8], address: u32, instruction: &[u8]) -> Answer {
    let mut report = vec![0; REPORT];
    // SAFETY: as above.
    let number = unsafe {
        tickbound_preview(
            routine.as_ptr(),
            routine.len(),
            address,
            instruction.as_ptr(),
            instruction.len(),
            report.as_mut_ptr(),
            REPORT,
        )
    };
    answer(number, report)
}
