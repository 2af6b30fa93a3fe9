//! Bounds by cases with the answers that their sentences give them, worked out by hand; each also with its decision.
use crate::decide::NAMES as DECISION_NAMES;
use crate::merge_cases::meeting;
use crate::report::MEMORY;
use crate::split::{CUTS, CUTS_LIMIT};

/// A text, its cuts, and what is printed of them by the bound and by the decision.
pub struct Case {
    pub name: &'static str,
    pub text: Vec<u8>,
    pub cuts: Vec<u8>,
    pub lent: usize,
    pub printed: [String; 2],
}

pub const CASES: usize = 92;

const REPORT_NAMES: &str = "CYCLES WORDS DEPTH STEPS SHARE PATH\n";
const SIREN: &str = include_str!("../../examples/siren-or-test.txt");

/// Cuts of these lines under the names line, each without its line feed.
fn cuts(lines: &[&str]) -> Vec<u8> {
    let lines: String = lines.iter().flat_map(|line| [line, "\n"]).collect();
    format!("CELL FROM\n{lines}").into_bytes()
}

/// A case with a report of these figures, by a TICK of 1000 that they are within.
fn reports(name: &'static str, text: String, lines: &[&str], figures: [u64; 4]) -> Case {
    decides(name, text, lines, figures, 1000, figures[0])
}

/// The same with another TICK and SHARE.
fn decides(name: &'static str, text: String, lines: &[&str], figures: [u64; 4], tick: u64, share: u64) -> Case {
    let [cycles, words, depth, steps] = figures;
    let text = text.replacen(" 1000\n", &format!(" {tick}\n"), 1);
    let decided = if cycles <= tick { "FITS" } else { "UNDECIDED" };
    let report = format!("{REPORT_NAMES}{cycles} {words} {depth} {steps} {share} -\n");
    let decision = format!("{DECISION_NAMES}{decided} SPLIT {cycles} {tick} {words} {depth} {steps}\n");
    Case { name, text: text.into(), cuts: cuts(lines), lent: MEMORY, printed: [report, decision] }
}

fn refuses(name: &'static str, text: impl Into<Vec<u8>>, cuts: impl Into<Vec<u8>>, number: u32, place: u32) -> Case {
    let printed = format!("REFUSED {number} {place}\n");
    Case { name, text: text.into(), cuts: cuts.into(), lent: MEMORY, printed: [printed.clone(), printed] }
}

/// A flag on top of the stack that is tested twice: A is called once in every run, where it is not 0 by the first test, where it is by the
/// second. A costs 11 cycles, every other line 1.
fn tested_twice(flag: &str) -> String {
    let code = ["ACC0 -", "BRANCHIFNOT 3", "C_CALL1 A", "ACC0 -", "BRANCHIF 6", "C_CALL1 A", "STOP -"];
    meeting(&format!("0 {flag}"), &code)
}

/// With both calls, and with one of them.
const BOTH: [u64; 4] = [27, 2, 1, 7];
const ONE: [u64; 4] = [16, 1, 1, 6];

/// The same with the flag in a field, whose handle is on the stack.
fn field_tested_twice(fields: &str) -> String {
    let code = [
        "ACC0 -",
        "GETFIELD0 -",
        "BRANCHIFNOT 4",
        "C_CALL1 A",
        "ACC0 -",
        "GETFIELD0 -",
        "BRANCHIF 8",
        "C_CALL1 A",
        "STOP -",
    ];
    meeting("0 #0", &code).replacen("5 5\nAT", &format!("{fields}\nAT"), 1)
}

/// The same with the flag in the accumulator, which is kept on the stack; here 1 to 2 counts as the flag that is set.
fn accumulator_tested_twice(accumulator: &str) -> String {
    let code = ["PUSH -", "BRANCHIFNOT 3", "C_CALL1 A", "ACC0 -", "BRANCHIF 6", "C_CALL1 A", "STOP -"];
    meeting(accumulator, &code)
}

/// "A cut at n of a cell whose range has numbers below n and numbers from n on gives two starts"
fn divided() -> Vec<Case> {
    vec![
        reports("no_cut", tested_twice("0..1"), &[], BOTH),
        reports("a_flag_cut_at_1", tested_twice("0..1"), &["S0 1"], ONE),
        reports("a_flag_cut_at_0", tested_twice("0..1"), &["S0 0"], BOTH),
        reports("a_flag_cut_at_2", tested_twice("0..1"), &["S0 2"], BOTH),
        reports("a_flag_cut_twice", tested_twice("0..1"), &["S0 1", "S0 1"], ONE),
        reports("a_flag_cut_among_others", tested_twice("0..1"), &["S0 7", "S0 1", "S0 -3"], ONE),
        reports("a_range_cut_at_1", tested_twice("0..1008"), &["S0 1"], ONE),
        reports("a_range_cut_at_2", tested_twice("0..1008"), &["S0 2"], BOTH),
        reports("a_range_cut_at_its_highest", tested_twice("-1..0"), &["S0 0"], ONE),
        reports("a_range_cut_above_its_highest", tested_twice("-1..0"), &["S0 1"], BOTH),
        reports("unknown_cut_at_1", tested_twice("?"), &["S0 1"], BOTH),
        reports("unknown_cut_at_0", tested_twice("?"), &["S0 0"], BOTH),
        reports("unknown_cut_at_0_and_1", tested_twice("?"), &["S0 0", "S0 1"], ONE),
        reports("unknown_cut_at_1_and_0", tested_twice("?"), &["S0 1", "S0 0"], ONE),
        reports("unknown_cut_at_the_ends", tested_twice("?"), &["S0 -1073741824", "S0 1073741823"], BOTH),
        reports("unknown_cut_at_four", tested_twice("?"), &["S0 0", "S0 9", "S0 1", "S0 -5"], ONE),
        reports("the_accumulator_cut_at_1", accumulator_tested_twice("0..2"), &["ACCU 1"], ONE),
        reports("the_accumulator_cut_at_2", accumulator_tested_twice("0..2"), &["ACCU 2"], BOTH),
        reports("a_field_cut_at_1", field_tested_twice("0..1 5"), &["B0.0 1"], [18, 1, 1, 8]),
        reports("another_field_cut", field_tested_twice("0..1 0..1"), &["B1.0 1"], [29, 2, 1, 9]),
        reports("two_fields_cut", field_tested_twice("0..1 0..1"), &["B1.0 1", "B0.0 1"], [18, 1, 1, 8]),
        reports("an_entry_below_cut", meeting("0 5 0..9 ?", &["STOP -"]), &["S1 4", "S2 0", "S1 8"], [1, 0, 3, 1]),
    ]
}

/// "A handle, and a number that does not divide its cell, is passed over."
fn passed_over() -> Vec<Case> {
    vec![
        reports("a_single_number_cut", tested_twice("1"), &["S0 1"], ONE),
        reports("a_single_number_cut_above", tested_twice("1"), &["S0 2"], ONE),
        reports("a_range_of_one_number_cut", tested_twice("0..0"), &["S0 0", "S0 1"], ONE),
        reports("a_handle_cut", field_tested_twice("0..1 5"), &["S0 0", "S0 1"], [29, 2, 1, 9]),
        reports("a_handle_cut_before_a_field", field_tested_twice("0..1 5"), &["S0 1", "B0.0 1"], [18, 1, 1, 8]),
        reports("a_known_accumulator_cut", tested_twice("0..1"), &["ACCU 0", "ACCU 1", "S0 1"], ONE),
    ]
}

/// "the answer is the larger of the two in each figure": the case below has the cycles, the one above the words, the depth and the steps.
fn largest() -> Vec<Case> {
    let apart = |flag: &str, branch: &str| {
        let code = ["ACC0 -", branch, "C_CALL1 A", "STOP -", "PUSH -", "PUSH -", "C_CALL1 B", "STOP -"];
        meeting(&format!("0 {flag}"), &code)
    };
    let of_all = [14, 9, 3, 6];
    vec![
        reports("figures_of_both_cases", apart("0..1", "BRANCHIF 4"), &["S0 1"], of_all),
        reports("figures_of_both_cases_the_other_way", apart("0..1", "BRANCHIFNOT 4"), &["S0 1"], of_all),
        reports("figures_of_three_cases", apart("0..2", "BRANCHIF 4"), &["S0 2", "S0 1"], of_all),
        reports("figures_without_a_cut", apart("0..1", "BRANCHIF 4"), &[], [14, 9, 3, 8]),
        // "or the refusal of the first that is refused": unlike heights meet at 3 only where the flag may be both
        reports(
            "accepted_by_cases_alone",
            meeting("0 0..1", &["ACC0 -", "BRANCHIF 3", "PUSH -", "STOP -"]),
            &["S0 1"],
            [4, 0, 2, 4],
        ),
        // together they meet at 4 with unlike heights
        reports(
            "accepted_by_cases_alone_to_two_stops",
            meeting(
                "0 0..1",
                &["ACC0 -", "BRANCHIF 3", "BRANCH 4", "PUSH -", "ACC0 -", "BRANCHIF 7", "STOP -", "POP 2", "STOP -"],
            ),
            &["S0 1"],
            // below: 0, 1, 2, 4, 5, 6; from 1 on: 0, 1, 3, 4, 5, 7, 8, with an entry more
            [7, 0, 2, 7],
        ),
        reports(
            "cases_of_sixteen_cells",
            meeting(&format!("0{}", " 0..1".repeat(16)), &["STOP -"]),
            &[
                "S0 1", "S1 1", "S2 1", "S3 1", "S4 1", "S5 1", "S6 1", "S7 1", "S8 1", "S9 1", "S10 1", "S11 1",
                "S12 1", "S13 1", "S14 1", "S15 1",
            ],
            [1, 0, 16, 1],
        ),
        decides("decided_at_tick", tested_twice("0..1"), &["S0 1"], ONE, 16, 1000),
        decides("decided_one_over_tick", tested_twice("0..1"), &["S0 1"], ONE, 15, 1067),
        decides("decided_without_a_cut", tested_twice("0..1"), &[], BOTH, 26, 1038),
        decides("decided_by_a_tick_of_1", tested_twice("0..1"), &["S0 1"], ONE, 1, 16000),
    ]
}

/// "the refusal of the first that is refused, below first"
fn refused_cases() -> Vec<Case> {
    let both_stuck = |branch: &str| meeting("0 0..3", &["ACC0 -", branch, "POP 2", "STOP -", "POP 3", "STOP -"]);
    let by_two =
        |first: &str, second: &str| meeting("0..1 0..1", &[first, "POP 2", "ACC0 -", second, "POP 2", "STOP -"]);
    vec![
        refuses("both_stuck_not_cut", both_stuck("BRANCHIFNOT 4"), cuts(&[]), 7, 2),
        refuses("below_first", both_stuck("BRANCHIF 4"), cuts(&["S0 1"]), 7, 2),
        refuses("below_first_at_a_higher_address", both_stuck("BRANCHIFNOT 4"), cuts(&["S0 1"]), 7, 4),
        refuses("below_first_of_three", both_stuck("BRANCHIFNOT 4"), cuts(&["S0 3", "S0 1"]), 7, 4),
        refuses(
            "the_second_case_stuck",
            meeting("0 0..1", &["ACC0 -", "BRANCHIF 3", "STOP -", "POP 2"]),
            cuts(&["S0 1"]),
            7,
            3,
        ),
        refuses(
            "unlike_heights_in_a_case",
            meeting("? 0..1", &["BRANCHIF 2", "PUSH -", "STOP -"]),
            cuts(&["S0 1"]),
            14,
            2,
        ),
        // stuck at 1 by ACCU, at 4 by S0
        refuses("both_zero", by_two("BRANCHIF 2", "BRANCHIF 5"), cuts(&["ACCU 1", "S0 1"]), 7, 1),
        refuses("zero_below_by_the_second", by_two("BRANCHIFNOT 2", "BRANCHIF 5"), cuts(&["S0 1", "ACCU 1"]), 7, 4),
        // the first case is accepted in either order; the second is that of the upper part of the last cut
        refuses("the_last_cut_varies_first", by_two("BRANCHIFNOT 2", "BRANCHIFNOT 5"), cuts(&["S0 1", "ACCU 1"]), 7, 1),
        refuses("in_the_other_order", by_two("BRANCHIFNOT 2", "BRANCHIFNOT 5"), cuts(&["ACCU 1", "S0 1"]), 7, 4),
    ]
}

/// "then the cuts' 1 (over 4,096 bytes, place 0), 2 (layout, spelling, a seventeenth cut), 3 (a number outside 31 bits), 4 (a name that the
/// file's lines 10 and 12 do not have) with the cuts' line as the place"
fn refused_cuts() -> Vec<Case> {
    let of = |name, cuts: &str, number, place| refuses(name, tested_twice("0..1"), cuts, number, place);
    let many = |count: usize| cuts(&vec!["S0 1"; count]);
    let long = |length: usize| {
        let digits = length - "CELL FROM\nS0 \n".len();
        format!("CELL FROM\nS0 {}\n", "9".repeat(digits))
    };
    let sixteen: Vec<&str> = vec!["S0 1"; CUTS];
    vec![
        of("empty", "", 2, 1),
        of("no_line_feed_at_all", "CELL FROM", 2, 1),
        of("names_in_small_letters", "cell from\n", 2, 1),
        of("names_with_a_space_more", "CELL FROM \n", 2, 1),
        of("no_names", "S0 1\n", 2, 1),
        of("an_empty_first_line", "\nCELL FROM\n", 2, 1),
        of("an_empty_line", "CELL FROM\n\nS0 1\n", 2, 2),
        of("an_empty_last_line", "CELL FROM\nS0 1\n\n", 2, 3),
        of("a_dash", "CELL FROM\n-\n", 2, 2),
        of("no_number", "CELL FROM\nS0\n", 2, 2),
        of("two_numbers", "CELL FROM\nS0 1 2\n", 2, 2),
        of("two_spaces", "CELL FROM\nS0  1\n", 2, 2),
        of("a_space_before", "CELL FROM\n S0 1\n", 2, 2),
        of("a_space_behind", "CELL FROM\nS0 1 \n", 2, 2),
        of("no_name", "CELL FROM\n 1\n", 2, 2),
        of("a_tab", "CELL FROM\nS0\t1\n", 2, 2),
        of("a_carriage_return", "CELL FROM\nS0 1\r\n", 2, 2),
        of("no_line_feed_at_the_end", "CELL FROM\nS0 1\nS0 1", 2, 3),
        of("a_plus", "CELL FROM\nS0 +1\n", 2, 2),
        of("a_leading_zero", "CELL FROM\nS0 01\n", 2, 2),
        of("minus_0", "CELL FROM\nS0 -0\n", 2, 2),
        of("a_range_for_a_number", "CELL FROM\nS0 0..1\n", 2, 2),
        of("unknown_for_a_number", "CELL FROM\nS0 ?\n", 2, 2),
        Case { cuts: many(CUTS), ..reports("sixteen_cuts", tested_twice("0..1"), &sixteen, ONE) },
        refuses("seventeen_cuts", tested_twice("0..1"), many(CUTS + 1), 2, 18),
        of("above_31_bits", "CELL FROM\nS0 1\nS0 1073741824\n", 3, 3),
        of("below_31_bits", "CELL FROM\nS0 -1073741825\n", 3, 2),
        of("another_entry", "CELL FROM\nS0 1\nS1 1\n", 4, 3),
        of("another_field", "CELL FROM\nB0.1 1\n", 4, 2),
        of("a_small_letter", "CELL FROM\ns0 1\n", 4, 2),
        of("an_entry_with_a_zero", "CELL FROM\nS00 1\n", 4, 2),
        refuses("an_empty_list_is_no_name", SIREN, cuts(&["- 1"]), 4, 2),
        refuses("bytes_that_are_no_text", tested_twice("0..1"), *b"CELL FROM\n\xff\x00 1\n", 4, 2),
        of("layout_before_numbers", "CELL FROM\nS0 1073741824\nS0 x\n", 2, 3),
        of("numbers_before_names", "CELL FROM\nS7 1\nS0 1073741824\n", 3, 3),
        refuses("4096_bytes", tested_twice("0..1"), long(CUTS_LIMIT), 3, 2),
        refuses("4097_bytes", tested_twice("0..1"), long(CUTS_LIMIT + 1), 1, 0),
        // a case that is stuck comes last
        refuses("names_before_stuck", meeting("0", &["POP 1", "STOP -"]), cuts(&["S0 1"]), 4, 2),
    ]
}

/// "Refused by 10 (under 128 bytes lent); the routine's 1 to 6 and 13; then the cuts'"
fn order() -> Vec<Case> {
    let long = vec![b'x'; CUTS_LIMIT + 1];
    vec![
        Case { lent: MEMORY - 1, ..refuses("lent_127", tested_twice("0..1"), cuts(&["S0 1"]), 10, 0) },
        Case { lent: 0, ..refuses("lent_0", vec![b'x'; 32_769], long.clone(), 10, 0) },
        refuses("a_long_text_before_long_cuts", vec![b'x'; 32_769], long.clone(), 1, 0),
        refuses("a_jump_back_before_long_cuts", include_str!("../../examples/refused.txt"), long.clone(), 13, 21),
        refuses("long_cuts_before_stuck", meeting("0", &["POP 1", "STOP -"]), long, 1, 0),
    ]
}

pub fn splits() -> Vec<Case> {
    [divided(), passed_over(), largest(), refused_cases(), refused_cuts(), order()].into_iter().flatten().collect()
}
