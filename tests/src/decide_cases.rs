//! Decisions with the lines that the table of the decision gives them.
use crate::decide::NAMES;
use crate::report::MEMORY;

/// A text and what is printed of its decision.
pub struct Case {
    pub name: &'static str,
    pub text: Vec<u8>,
    pub lent: usize,
    pub printed: String,
}

pub const CASES: usize = 26;

const PUBLISHED: &str = include_str!("../../examples/published.txt");
const SIREN: &str = include_str!("../../examples/siren-or-test.txt");
const PANEL: &str = include_str!("../../examples/ninety-tests.txt");
const OVER: &str = include_str!("../../examples/over-tick.txt");

/// A file with another BUDGET and TICK.
fn limited(text: &str, limits: &str) -> String {
    let mut lines: Vec<&str> = text.split('\n').collect();
    lines[1] = limits;
    lines.join("\n")
}

/// A file with something in it replaced, which must stand there.
fn replaced(text: &str, old: &str, new: &str) -> String {
    assert!(text.contains(old), "{old} is not in the file");
    text.replacen(old, new, 1)
}

/// A case that prints the line of names and these values.
fn decides(name: &'static str, text: String, values: &str) -> Case {
    Case { name, text: text.into(), lent: MEMORY, printed: format!("{NAMES}{values}\n") }
}

fn refuses(name: &'static str, text: impl Into<Vec<u8>>, number: u32, place: u32) -> Case {
    Case { name, text: text.into(), lent: MEMORY, printed: format!("REFUSED {number} {place}\n") }
}

/// "the first bound reports, CYCLES at most TICK: FITS FIRST", "CYCLES above TICK: OVER FIRST".
fn by_the_first() -> Vec<Case> {
    vec![
        decides("published", PUBLISHED.into(), "FITS FIRST 65 1000 4 1 6"),
        decides("published_tick_100", limited(PUBLISHED, "1000 100"), "FITS FIRST 65 100 4 1 6"),
        decides("published_tick_65", limited(PUBLISHED, "1000 65"), "FITS FIRST 65 65 4 1 6"),
        decides("published_tick_64", limited(PUBLISHED, "1000 64"), "OVER FIRST 65 64 4 1 6"),
        decides("published_tick_1", limited(PUBLISHED, "1000 1"), "OVER FIRST 65 1 4 1 6"),
        decides("published_most", limited(PUBLISHED, "1000000 4000000000"), "FITS FIRST 65 4000000000 4 1 6"),
        decides("published_budget_6", limited(PUBLISHED, "6 1000"), "FITS FIRST 65 1000 4 1 6"),
        decides("over_tick", OVER.into(), "OVER FIRST 2121 2120 0 6 27"),
        decides("siren", SIREN.into(), "FITS FIRST 1099 1500 8 0 11"),
    ]
}

/// "the first refuses by 8 or 9, the merging bound reports, CYCLES at most TICK: FITS MERGING", "CYCLES above TICK: UNDECIDED MERGING".
fn by_the_second() -> Vec<Case> {
    vec![
        decides("siren_budget_10", limited(SIREN, "10 1500"), "UNDECIDED MERGING 1929 1500 9 0 9"),
        decides("siren_budget_1", limited(SIREN, "1 1500"), "UNDECIDED MERGING 1929 1500 9 0 9"),
        decides("siren_tick_1929", limited(SIREN, "1 1929"), "FITS MERGING 1929 1929 9 0 9"),
        decides("siren_tick_1928", limited(SIREN, "1 1928"), "UNDECIDED MERGING 1929 1928 9 0 9"),
        decides("panel", PANEL.into(), "FITS MERGING 149980 400000 151 6 814"),
        decides("panel_tick_149980", limited(PANEL, "1000000 149980"), "FITS MERGING 149980 149980 151 6 814"),
        decides("panel_tick_149979", limited(PANEL, "1000000 149979"), "UNDECIDED MERGING 149980 149979 151 6 814"),
    ]
}

/// "Lent memory under 128 bytes is refusal 10; then the file's 1 to 6 and 13"; "otherwise: the first bound's refusal".
fn refused() -> Vec<Case> {
    let unlike = replaced(PANEL, "\n6 C_CALL1 ALARM\n", "\n6 ACC0 -\n");
    let stuck = replaced(PUBLISHED, "2 CONST2 -", "2 ADDINT -");
    vec![
        Case { lent: MEMORY - 1, ..refuses("lent_127", PUBLISHED, 10, 0) },
        refuses("too_long", vec![b'x'; 32_769], 1, 0),
        refuses("empty", "", 2, 1),
        refuses("tick_0", limited(PUBLISHED, "1000 0"), 3, 2),
        refuses("backward", include_str!("../../examples/refused.txt"), 13, 21),
        // by 7 the merging bound is not asked, though it would report
        refuses("stuck", stuck.clone(), 7, 3),
        refuses("stuck_after_its_budget", limited(&stuck, "1 1000"), 9, 1),
        // the merging bound's own refusal, 14, is not told
        refuses("openings_and_no_meeting", unlike.clone(), 8, 234),
        refuses("spent_and_no_meeting", limited(PUBLISHED, "5 1000"), 9, 4),
        refuses("unlike_with_a_budget_of_1", limited(&unlike, "1 400000"), 9, 1),
    ]
}

pub fn decisions() -> Vec<Case> {
    let mut cases = by_the_first();
    cases.extend(by_the_second());
    cases.extend(refused());
    cases
}
