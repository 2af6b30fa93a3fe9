//! The analyser's C functions.
#[link(name = "c_interface", kind = "static")]
extern "C" {
    fn tickbound_bound(text: *const u8, text_length: usize, report: *mut u8, report_length: usize) -> u64;
    fn tickbound_merge(text: *const u8, text_length: usize, report: *mut u8, report_length: usize) -> u64;
    fn tickbound_decide(text: *const u8, text_length: usize, report: *mut u8, report_length: usize) -> u64;
    fn tickbound_nearest(text: *const u8, text_length: usize, report: *mut u8, report_length: usize) -> u64;
    fn tickbound_run(text: *const u8, text_length: usize, report: *mut u8, report_length: usize) -> u64;
    fn tickbound_import(
        words: *const u8,
        words_length: usize,
        primitives: *const u8,
        primitives_length: usize,
        lines: *mut u8,
        lines_length: usize,
    ) -> u64;
    fn tickbound_export(text: *const u8, text_length: usize, words: *mut u8, words_length: usize) -> u64;
    fn tickbound_trace(text: *const u8, text_length: usize, lines: *mut u8, lines_length: usize) -> u64;
    fn tickbound_explain(text: *const u8, text_length: usize, lines: *mut u8, lines_length: usize) -> u64;
    fn tickbound_explain_merge(text: *const u8, text_length: usize, lines: *mut u8, lines_length: usize) -> u64;
    fn tickbound_generate(seed: u32, file: *mut u8, file_length: usize) -> u64;
    fn tickbound_replay(
        text: *const u8,
        text_length: usize,
        trace: *const u8,
        trace_length: usize,
        report: *mut u8,
        report_length: usize,
    ) -> u64;
    fn tickbound_split(
        text: *const u8,
        text_length: usize,
        cuts: *const u8,
        cuts_length: usize,
        report: *mut u8,
        report_length: usize,
    ) -> u64;
    fn tickbound_decide_split(
        text: *const u8,
        text_length: usize,
        cuts: *const u8,
        cuts_length: usize,
        report: *mut u8,
        report_length: usize,
    ) -> u64;
    fn tickbound_preview(
        text: *const u8,
        text_length: usize,
        address: u32,
        instruction: *const u8,
        instruction_length: usize,
        report: *mut u8,
        report_length: usize,
    ) -> u64;
}

#[link(name = "test_interrupts", kind = "static")]
extern "C" {
    fn tickbound_test_after(text: *const u8, text_length: usize, n: u64, out: *mut u64, out_length: usize) -> u64;
}

/// The numbers of a run that is interrupted: where it has come to, and its state bounded afresh.
pub const NUMBERS: usize = 13;

/// A function of the analyser over a text and lent report memory; it gives the number told.
pub type Function = fn(&[u8], &mut [u8]) -> u64;

pub fn bound(text: &[u8], report: &mut [u8]) -> u64 {
    // SAFETY: both memories are there with these lengths and do not overlap; null is allowed where a length is 0.
    unsafe { tickbound_bound(start(text), text.len(), start_mut(report), report.len()) }
}

pub fn merge(text: &[u8], report: &mut [u8]) -> u64 {
    // SAFETY: as above.
    unsafe { tickbound_merge(start(text), text.len(), start_mut(report), report.len()) }
}

pub fn decide(text: &[u8], report: &mut [u8]) -> u64 {
    // SAFETY: as above.
    unsafe { tickbound_decide(start(text), text.len(), start_mut(report), report.len()) }
}

pub fn nearest(text: &[u8], report: &mut [u8]) -> u64 {
    // SAFETY: as above.
    unsafe { tickbound_nearest(start(text), text.len(), start_mut(report), report.len()) }
}

pub fn run(text: &[u8], report: &mut [u8]) -> u64 {
    // SAFETY: as above.
    unsafe { tickbound_run(start(text), text.len(), start_mut(report), report.len()) }
}

pub fn import(words: &[u8], primitives: &[u8], lines: &mut [u8]) -> u64 {
    let (length, lent) = (primitives.len(), lines.len());
    // SAFETY: as above, of three memories.
    unsafe { tickbound_import(start(words), words.len(), start(primitives), length, start_mut(lines), lent) }
}

pub fn export(text: &[u8], words: &mut [u8]) -> u64 {
    // SAFETY: as above.
    unsafe { tickbound_export(start(text), text.len(), start_mut(words), words.len()) }
}

pub fn trace(text: &[u8], lines: &mut [u8]) -> u64 {
    // SAFETY: as above.
    unsafe { tickbound_trace(start(text), text.len(), start_mut(lines), lines.len()) }
}

pub fn explain(text: &[u8], lines: &mut [u8]) -> u64 {
    // SAFETY: as above.
    unsafe { tickbound_explain(start(text), text.len(), start_mut(lines), lines.len()) }
}

pub fn explain_merge(text: &[u8], lines: &mut [u8]) -> u64 {
    // SAFETY: as above.
    unsafe { tickbound_explain_merge(start(text), text.len(), start_mut(lines), lines.len()) }
}

pub fn generate(seed: u32, file: &mut [u8]) -> u64 {
    // SAFETY: as above, of one memory.
    unsafe { tickbound_generate(seed, start_mut(file), file.len()) }
}

pub fn replay(text: &[u8], trace: &[u8], report: &mut [u8]) -> u64 {
    let (length, lent) = (trace.len(), report.len());
    // SAFETY: as above, of three memories.
    unsafe { tickbound_replay(start(text), text.len(), start(trace), length, start_mut(report), lent) }
}

pub fn split(text: &[u8], cuts: &[u8], report: &mut [u8]) -> u64 {
    let (length, lent) = (cuts.len(), report.len());
    // SAFETY: as above, of three memories.
    unsafe { tickbound_split(start(text), text.len(), start(cuts), length, start_mut(report), lent) }
}

pub fn decide_split(text: &[u8], cuts: &[u8], report: &mut [u8]) -> u64 {
    let (length, lent) = (cuts.len(), report.len());
    // SAFETY: as above, of three memories.
    unsafe { tickbound_decide_split(start(text), text.len(), start(cuts), length, start_mut(report), lent) }
}

pub fn preview(text: &[u8], address: u32, instruction: &[u8], report: &mut [u8]) -> u64 {
    let (length, lent) = (instruction.len(), report.len());
    // SAFETY: as above, of three memories.
    unsafe { tickbound_preview(start(text), text.len(), address, start(instruction), length, start_mut(report), lent) }
}

/// The run of a file, interrupted after `n` steps and bounded afresh; or the number of its refusal.
pub fn after(text: &[u8], n: u64) -> Result<[u64; NUMBERS], u64> {
    let mut numbers = [0; NUMBERS];
    // SAFETY: as above.
    match unsafe { tickbound_test_after(start(text), text.len(), n, numbers.as_mut_ptr(), NUMBERS) } {
        0 => Ok(numbers),
        refusal => Err(refusal),
    }
}

fn start(memory: &[u8]) -> *const u8 {
    if memory.is_empty() {
        std::ptr::null()
    } else {
        memory.as_ptr()
    }
}

fn start_mut(memory: &mut [u8]) -> *mut u8 {
    if memory.is_empty() {
        std::ptr::null_mut()
    } else {
        memory.as_mut_ptr()
    }
}
