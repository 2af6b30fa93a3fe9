//! The cases on the edges and the small examples of document 01, with the answers given there and zeros on the line of extras; those of
//! change requests 1, 3, 6, 7, 8 and 12; and the files that the programs of `crates/` are run with, which are made of them.
use crate::change::Base::{File, Named};
use crate::change::Change::{FirstBytes, Nothing, Without};
use crate::change::Told::{Refusal, Report};
use crate::change::{append, line, lines, made, refused, word, Base, Entry, Text};
use crate::decide_cases;
use crate::merge_cases;
use crate::nearest_cases;
use crate::report::MEMORY;
use crate::routine::TEXT_LIMIT;
use crate::trace;

/// The published file.
pub fn published() -> String {
    include_str!("../../examples/published.txt").to_string()
}

const PUBLISHED: Base = File(published);
/// With a number for its `?`.
const PUBLISHED_KNOWN: Base = File(|| published().replace("0 ?", "0 0"));
/// With BRANCH in the place of BRANCHIF.
const PUBLISHED_BRANCH: Base = File(|| published().replace("BRANCHIF", "BRANCH"));
const FIGURE_4: Base = File(|| include_str!("../../examples/figure4.txt").to_string());
/// Case 2 with BUDGET 2.
const ONE_BRANCH: Base = File(|| file(2, "BRANCHIF STOP", "5 1", "ACCU", "?", "0 BRANCHIF 1\n1 STOP -\n"));
const STOP: Base = File(|| file(1000, "STOP", "1", "ACCU", "0", "0 STOP -\n"));

/// A file from its budget, kinds with cycles, cells and code; TICK is 1000, words and extras are 0.
pub(crate) fn file(budget: u32, kinds: &str, cycles: &str, names: &str, cells: &str, code: &str) -> String {
    let zeros = vec!["0"; kinds.split(' ').count()].join(" ");
    let prices = format!("{kinds}\n{cycles}\n{zeros}\n{zeros}");
    format!("BUDGET TICK\n{budget} 1000\n{prices}\n-\n-\n-\n{names}\n{cells}\n-\n-\nAT OP ARG\n{code}")
}

/// As many BRANCHIF, each to STOP behind them, with an unknown accumulator.
pub(crate) fn branches(count: usize) -> String {
    let code: String = (0..count).map(|i| format!("{i} BRANCHIF {count}\n")).collect();
    file(1000, "BRANCHIF STOP", "5 1", "ACCU", "?", &format!("{code}{count} STOP -\n"))
}

/// As many PUSH, then STOP.
pub(crate) fn pushes(count: usize) -> String {
    let code: String = (0..count).map(|i| format!("{i} PUSH -\n")).collect();
    file(1000, "PUSH STOP", "1 1", "ACCU", "0", &format!("{code}{count} STOP -\n"))
}

/// As many steps of 62,500 cycles each, the last one STOP, with the largest TICK.
fn steps_of_62500(steps: usize) -> String {
    let code: String = (0..steps - 1).map(|i| format!("{i} CONST0 -\n")).collect();
    let code = format!("{code}{} STOP -\n", steps - 1);
    file(1000, "CONST0 STOP", "62500 62500", "ACCU", "0", &code).replacen("1000 1000", "1000 4000000000", 1)
}

/// An operation on two cells, with two blocks, then a branch that tells what it gives.
fn on_handles(operation: &str, cells: &str) -> String {
    let code = format!("0 {operation} -\n1 BRANCHIF 3\n2 CONST1 -\n3 STOP -\n");
    let kinds = "EQ NEQ ADDINT SUBINT LTINT LEINT GTINT GEINT BRANCHIF CONST1 STOP";
    file(99, kinds, "2 2 2 2 2 2 2 2 5 7 1", "ACCU S0", cells, &code).replacen("-\n-\nAT", "B0.0 B1.0\n0 0\nAT", 1)
}

/// Two lines of code over an accumulator and an entry of 1, then a branch that tells whether the accumulator is the number wanted.
fn gives(first: &str, then: &str, wanted: &str) -> String {
    let kinds = "CONSTINT ADDINT SUBINT OFFSETINT NEGINT BOOLNOT PUSH EQ BRANCHIF ACC0 STOP";
    let compared = format!("2 PUSH -\n3 CONSTINT {wanted}\n4 EQ -\n5 BRANCHIF 7\n6 ACC0 -\n7 STOP -\n");
    let code = format!("0 {first}\n1 {then}\n{compared}");
    file(99, kinds, "1 1 1 1 1 1 1 1 1 1 1", "ACCU S0", "0 1", &code)
}

/// A cell, a field, an argument and an answer at the ends of the range of numbers.
fn at_the_ends() -> String {
    let code = "0 OFFSETINT -1073741824\n1 STOP -\nANSWER\n1073741823\n";
    file(99, "OFFSETINT STOP", "2 1", "ACCU", "1073741823", code).replacen("-\n-\nAT", "B0.0\n-1073741824\nAT", 1)
}

/// What `crates/test_cases` is run with: the published example (case 1, run: case 7), the cases that are not starred, each row's example, and
/// what change requests 1, 3, 6, 7, 8 and 12 add to them.
pub fn cases() -> Vec<Text> {
    let lists = [
        published_example(),
        not_starred(),
        refusal_table(),
        taken_jumps(),
        compared_handles(),
        halves(),
        numbers_of_31_bits(),
        jumps_backwards(),
        within_a_range(),
    ];
    let mut texts = made(lists.into_iter().flatten().collect());
    // the program lends a byte less for it
    texts.iter_mut().find(|text| text.name == "lent_127").unwrap().lent = MEMORY - 1;
    texts
}

fn published_example() -> Vec<Entry> {
    vec![
        ("published", PUBLISHED, Nothing, [Report("65 4 1 6 65 N"), Refusal(11, 11)]),
        ("published_tick_2000", PUBLISHED, word(2, 2, "2000"), [Report("65 4 1 6 32 N"), Refusal(11, 11)]),
        ("published_run", PUBLISHED_KNOWN, append("ANSWER\n7\n"), [Report("65 4 1 6 65 N"), Report("56 4 1 3")]),
    ]
}

/// Cases 8, 9 and 10.
fn not_starred() -> Vec<Entry> {
    let last_way_taken = Report("161 0 0 65 161 NNNNNNNNNNNNNNNNNNNNNNNNNNNNNNNT");
    vec![
        ("openings_32", File(|| branches(32)), Nothing, [last_way_taken, Refusal(11, 11)]),
        ("openings_33", File(|| branches(33)), Nothing, [Refusal(8, 32), Refusal(11, 11)]),
        (
            "openings_33_all_known",
            Named("openings_33"),
            word(11, 1, "0"),
            [Report("166 0 0 34 166 -"), Report("166 0 0 34")],
        ),
        ("push_64", File(|| pushes(64)), Nothing, [Report("65 0 64 65 65 -"), Report("65 0 64 65")]),
        ("push_65", File(|| pushes(65)), Nothing, refused(7, 64)),
        ("figure_4", FIGURE_4, Nothing, [Report("2121 0 6 27 212 N"), Refusal(11, 11)]),
        (
            "figure_4_run",
            FIGURE_4,
            lines(11, 13, "0 #0 1\nB0.0 B0.1\n0 0"),
            [Report("2121 0 6 16 212 -"), Report("2121 0 6 16")],
        ),
    ]
}

/// The small examples of the refusal table, where that of 9 is case 2 with BUDGET 2 (change request 8); beside two of them the nearest text
/// that this row does not refuse. That of 8 is case 8.
fn refusal_table() -> Vec<Entry> {
    let too_long = "A".repeat(TEXT_LIMIT + 1 - published().len());
    let stop_unpriced = "C_CALL1 BRANCHIF CONST2 ADDINT\n10 5 2 7\n0 0 0 0\n0 0 0 0";
    let push: Base = File(|| file(1000, "PUSH", "1", "ACCU", "0", "0 PUSH -\n"));
    vec![
        ("lent_127", PUBLISHED, Nothing, refused(10, 0)),
        ("bytes_32769", PUBLISHED, append(too_long), refused(1, 0)),
        ("empty", PUBLISHED, FirstBytes(0), refused(2, 1)),
        ("budget_0", PUBLISHED, word(2, 1, "0"), refused(3, 2)),
        ("absent_block", PUBLISHED, lines(11, 13, "0 #1\nB0.0\n0"), refused(4, 11)),
        ("present_block", PUBLISHED, lines(11, 13, "0 #0\nB0.0\n0"), refused(7, 3)),
        ("stop_without_a_price", PUBLISHED, lines(3, 6, stop_unpriced), refused(5, 19)),
        ("branch_5_in_0_to_4", PUBLISHED_BRANCH, word(16, 3, "5"), refused(6, 16)),
        ("branch_4_in_0_to_4", PUBLISHED_BRANCH, Nothing, [Report("56 4 1 3 56 -"), Refusal(11, 11)]),
        ("unknown_accumulator_in_a_run", STOP, word(11, 1, "?"), [Report("1 0 0 1 1 -"), Refusal(11, 11)]),
        ("unknown_field_in_a_run", STOP, lines(12, 13, "B0.0\n?"), [Report("1 0 0 1 1 -"), Refusal(11, 13)]),
        ("push_as_the_whole_code", push, Nothing, refused(7, 1)),
        ("case_2_with_budget_2", ONE_BRANCH, Nothing, [Refusal(9, 1), Refusal(11, 11)]),
        (
            "case_2_with_budget_1_and_a_number",
            ONE_BRANCH,
            lines(2, 11, "1 1000\nBRANCHIF STOP\n5 1\n0 0\n0 0\n-\n-\n-\nACCU\n0"),
            refused(9, 1),
        ),
    ]
}

/// Change request 1: the published file with an extra of BRANCHIF, with one of another kind, and without the line of extras.
fn taken_jumps() -> Vec<Entry> {
    vec![
        ("extra_8", PUBLISHED, word(6, 2, "8"), [Report("65 4 1 6 65 N"), Refusal(11, 11)]),
        ("extra_9", PUBLISHED, word(6, 2, "9"), [Report("65 4 1 6 65 T"), Refusal(11, 11)]),
        ("extra_10", PUBLISHED, word(6, 2, "10"), [Report("66 4 1 6 66 T"), Refusal(11, 11)]),
        ("extra_10_run", Named("published_run"), word(6, 2, "10"), [Report("66 4 1 6 66 T"), Report("66 4 1 3")]),
        ("extra_of_stop", PUBLISHED, word(6, 5, "1"), refused(3, 6)),
        ("former_format", PUBLISHED, Without(6), refused(2, 6)),
    ]
}

/// Change request 3: EQ and NEQ of two handles, a handle beside a number or an unknown, and the other operations on two handles.
fn compared_handles() -> Vec<Entry> {
    let jumps = [Report("8 0 1 3 8 -"), Report("8 0 1 3")];
    let goes_on = [Report("15 0 1 4 15 -"), Report("15 0 1 4")];
    let unknown_beside = [Refusal(7, 0), Refusal(11, 11)];
    let unlike: Base = File(|| on_handles("EQ", "#0 #1"));
    let operation = |name: &str| line(15, &format!("0 {name} -"));
    vec![
        ("eq_equal_handles", File(|| on_handles("EQ", "#1 #1")), Nothing, jumps),
        ("eq_unlike_handles", unlike, Nothing, goes_on),
        ("neq_equal_handles", Named("eq_equal_handles"), operation("NEQ"), goes_on),
        ("neq_unlike_handles", unlike, operation("NEQ"), jumps),
        ("eq_of_a_handle_and_a_number", unlike, line(11, "#0 0"), refused(7, 0)),
        ("eq_of_a_number_and_a_handle", unlike, line(11, "0 #0"), refused(7, 0)),
        ("neq_of_a_handle_and_an_unknown", Named("neq_unlike_handles"), line(11, "#0 ?"), unknown_beside),
        ("neq_of_an_unknown_and_a_handle", Named("neq_unlike_handles"), line(11, "? #0"), unknown_beside),
        ("ltint_of_handles", unlike, operation("LTINT"), refused(7, 0)),
        ("leint_of_handles", unlike, operation("LEINT"), refused(7, 0)),
        ("gtint_of_handles", unlike, operation("GTINT"), refused(7, 0)),
        ("geint_of_handles", unlike, operation("GEINT"), refused(7, 0)),
        ("addint_of_handles", unlike, operation("ADDINT"), refused(7, 0)),
        ("subint_of_handles", unlike, operation("SUBINT"), refused(7, 0)),
    ]
}

/// Change request 6: SHARE at a half after an even and after an odd number, next to such a half, and at a whole number.
fn halves() -> Vec<Entry> {
    let limits = |cycles: u32, tick: u32| lines(2, 4, format!("1000 {tick}\nSTOP\n{cycles}"));
    vec![
        ("tick_1999_of_65", STOP, limits(65, 1999), [Report("65 0 0 1 33 -"), Report("65 0 0 1")]),
        ("tick_2000_of_65", STOP, limits(65, 2000), [Report("65 0 0 1 32 -"), Report("65 0 0 1")]),
        ("tick_2001_of_65", STOP, limits(65, 2001), [Report("65 0 0 1 32 -"), Report("65 0 0 1")]),
        ("tick_2000_of_66", STOP, limits(66, 2000), [Report("66 0 0 1 33 -"), Report("66 0 0 1")]),
        ("tick_1999_of_67", STOP, limits(67, 1999), [Report("67 0 0 1 34 -"), Report("67 0 0 1")]),
        ("tick_2000_of_67", STOP, limits(67, 2000), [Report("67 0 0 1 34 -"), Report("67 0 0 1")]),
        ("tick_2001_of_67", STOP, limits(67, 2001), [Report("67 0 0 1 33 -"), Report("67 0 0 1")]),
        ("tick_1999_of_1", STOP, limits(1, 1999), [Report("1 0 0 1 1 -"), Report("1 0 0 1")]),
        ("tick_2000_of_1", STOP, limits(1, 2000), [Report("1 0 0 1 0 -"), Report("1 0 0 1")]),
        ("tick_2000_of_3", STOP, limits(3, 2000), [Report("3 0 0 1 2 -"), Report("3 0 0 1")]),
        ("tick_2001_of_3", STOP, limits(3, 2001), [Report("3 0 0 1 1 -"), Report("3 0 0 1")]),
        ("tick_16_of_65533", STOP, limits(65533, 16), [Report("65533 0 0 1 4095812 -"), Report("65533 0 0 1")]),
        ("tick_16_of_65535", STOP, limits(65535, 16), [Report("65535 0 0 1 4095938 -"), Report("65535 0 0 1")]),
        (
            "tick_4000000000_of_2000000",
            File(|| steps_of_62500(32)),
            Nothing,
            [Report("2000000 0 0 32 0 -"), Report("2000000 0 0 32")],
        ),
        (
            "tick_3999999999_of_2000000",
            File(|| steps_of_62500(32)),
            word(2, 2, "3999999999"),
            [Report("2000000 0 0 32 1 -"), Report("2000000 0 0 32")],
        ),
        (
            "tick_4000000000_of_6000000",
            File(|| steps_of_62500(96)),
            Nothing,
            [Report("6000000 0 0 96 2 -"), Report("6000000 0 0 96")],
        ),
    ]
}

/// Change request 7: numbers at the ends of their range, and just outside it.
fn numbers_of_31_bits() -> Vec<Entry> {
    let ends: Base = File(at_the_ends);
    vec![
        ("numbers_at_the_ends", ends, Nothing, [Report("3 0 0 2 3 -"), Report("3 0 0 2")]),
        ("cell_above_the_range", ends, word(11, 1, "1073741824"), refused(3, 11)),
        ("field_below_the_range", ends, word(13, 1, "-1073741825"), refused(3, 13)),
        ("argument_above_the_range", ends, word(15, 3, "1073741824"), refused(3, 15)),
        ("answer_below_the_range", ends, word(18, 1, "-1073741825"), refused(3, 18)),
    ]
}

/// Change request 8: "A branch to its own address or a lower one is refused, even where known numbers would end the loop."; 13 "after 6 and
/// before 11"; "the place is the line".
fn jumps_backwards() -> Vec<Entry> {
    let for_ever: Base = File(|| file(1000, "BRANCH", "1", "ACCU", "0", "0 BRANCH 0\n"));
    let down_from_3: Base = File(|| {
        let code = "7 OFFSETINT -1\n8 BRANCHIF 7\n9 STOP -\n";
        file(1000, "OFFSETINT BRANCHIF STOP", "1 1 1", "ACCU", "3", code)
    });
    let to_the_next = [Report("3 0 0 3 3 -"), Report("3 0 0 3")];
    vec![
        ("branch_0_at_0", for_ever, Nothing, refused(13, 15)),
        ("branch_0_at_0_not_reached", PUBLISHED_BRANCH, line(19, "4 STOP -\n5 BRANCH 0"), refused(13, 20)),
        ("loop_that_ends", down_from_3, Nothing, refused(13, 16)),
        ("loop_to_its_own_address", down_from_3, word(16, 3, "8"), refused(13, 16)),
        ("branch_to_the_next", down_from_3, word(16, 3, "9"), to_the_next),
        ("target_outside_before_a_loop", down_from_3, line(17, "9 BRANCHIF 10"), refused(6, 17)),
        ("loop_before_an_unknown_cell", down_from_3, word(11, 1, "?"), refused(13, 16)),
    ]
}

/// An operation on two cells, then a branch over 7 cycles where it does not give 0.
fn on_ranges(operation: &str, cells: &str) -> String {
    let code = format!("0 {operation} -\n1 BRANCHIF 3\n2 CONST1 -\n3 STOP -\n");
    file(1000, &format!("{operation} BRANCHIF CONST1 STOP"), "2 5 7 1", "ACCU S0", cells, &code)
}

/// Change request 12: comparisons, sums and differences of ranges, a range of one number, and what is no range. `tests/src/range_cases.rs`
/// has more.
fn within_a_range() -> Vec<Entry> {
    let jumps = [Report("8 0 1 3 8 -"), Refusal(11, 11)];
    let goes_on = [Report("15 0 1 4 15 -"), Refusal(11, 11)];
    let opens = [Report("15 0 1 5 15 N"), Refusal(11, 11)];
    let compared: Base = File(|| on_ranges("GEINT", "0..1008 0"));
    let sum: Base = File(|| on_ranges("ADDINT", "1..3 0..2"));
    let difference: Base = File(|| on_ranges("SUBINT", "1..3 0..2"));
    vec![
        ("range_compared_for_every_pair", compared, Nothing, jumps),
        ("range_compared_for_none", compared, word(11, 2, "1009"), goes_on),
        ("range_compared_for_some", compared, word(11, 2, "1008"), opens),
        ("range_of_one_number", compared, word(11, 1, "5..5"), [Report("8 0 1 3 8 -"), Report("8 0 1 3")]),
        ("sum_of_ranges_without_0", sum, Nothing, jumps),
        ("difference_of_ranges_with_0", difference, Nothing, opens),
        ("sum_of_a_number_and_a_range_wraps", sum, line(11, "1073741823 0..1"), opens),
        ("range_downwards", compared, word(11, 1, "6..5"), refused(3, 11)),
        ("range_past_the_numbers", compared, word(11, 1, "0..1073741824"), refused(3, 11)),
        ("range_with_three_stops", compared, word(11, 1, "1...2"), refused(2, 11)),
        ("range_to_an_unknown", compared, word(11, 1, "1..?"), refused(2, 11)),
        ("range_of_handles", compared, word(11, 1, "#0..#1"), refused(2, 11)),
    ]
}

/// The other starred cases, 2 to 6, and those of change requests 1 and 7, which `theorems` proves: the independent implementation must
/// give these too.
pub fn starred() -> Vec<Text> {
    let two_calls: Base = File(|| {
        let code = "0 BRANCHIF 3\n1 C_CALL1 A\n2 STOP -\n3 C_CALL1 B\n4 STOP -\n";
        file(9, "BRANCHIF C_CALL1 STOP", "1 1 1", "ACCU", "?", code).replacen("-\n-\n-", "A B\n10 4\n1 9", 1)
    });
    let plus_1: Base = File(|| gives("CONSTINT 1073741823", "ADDINT -", "-1073741824"));
    let negated: Base = File(|| gives("CONSTINT -1073741824", "NEGINT -", "-1073741824"));
    let minus_1: Base = File(|| gives("CONSTINT -1073741824", "SUBINT -", "1073741823"));
    let offset_up: Base = File(|| gives("CONSTINT 1073741823", "OFFSETINT 1", "-1073741824"));
    let offset_down: Base = File(|| gives("CONSTINT -1073741824", "OFFSETINT -1", "1073741823"));
    let complement: Base = File(|| gives("CONSTINT -1073741823", "BOOLNOT -", "-1073741824"));
    let pops: Base =
        File(|| file(9, "ADDINT ACC0 STOP", "1 1 1", "ACCU S0", "? 5", "0 ADDINT -\n1 ACC0 -\n2 STOP -\n"));
    made(vec![
        ("case_2_budget_2", ONE_BRANCH, Nothing, [Refusal(9, 1), Refusal(11, 11)]),
        ("case_2_budget_3", ONE_BRANCH, word(2, 1, "3"), [Report("6 0 0 3 6 T"), Refusal(11, 11)]),
        ("case_2_extra_3", Named("case_2_budget_3"), word(6, 1, "3"), [Report("9 0 0 3 9 T"), Refusal(11, 11)]),
        (
            "case_2_extra_3_accu_1",
            Named("case_2_extra_3"),
            word(11, 1, "1"),
            [Report("9 0 0 2 9 -"), Report("9 0 0 2")],
        ),
        (
            "case_2_extra_3_accu_0",
            Named("case_2_extra_3"),
            word(11, 1, "0"),
            [Report("6 0 0 2 6 -"), Report("6 0 0 2")],
        ),
        ("case_3", STOP, word(4, 1, "0"), [Report("0 0 0 1 0 -"), Report("0 0 0 1")]),
        ("case_4", two_calls, Nothing, [Report("13 9 0 5 13 N"), Refusal(11, 11)]),
        ("case_4_extra_5", two_calls, word(6, 1, "5"), [Report("13 9 0 5 13 N"), Refusal(11, 11)]),
        ("case_4_extra_6", two_calls, word(6, 1, "6"), [Report("13 9 0 5 13 T"), Refusal(11, 11)]),
        ("case_4_extra_7", two_calls, word(6, 1, "7"), [Report("14 9 0 5 14 T"), Refusal(11, 11)]),
        ("case_5_plus_1", plus_1, Nothing, [Report("7 0 1 7 7 -"), Report("7 0 1 7")]),
        ("case_5_negated", negated, Nothing, [Report("7 0 2 7 7 -"), Report("7 0 2 7")]),
        ("subint_wraps", minus_1, Nothing, [Report("7 0 1 7 7 -"), Report("7 0 1 7")]),
        ("offsetint_wraps_up", offset_up, Nothing, [Report("7 0 2 7 7 -"), Report("7 0 2 7")]),
        ("offsetint_wraps_down", offset_down, Nothing, [Report("7 0 2 7 7 -"), Report("7 0 2 7")]),
        ("boolnot_wraps", complement, Nothing, [Report("7 0 2 7 7 -"), Report("7 0 2 7")]),
        ("case_6", pops, Nothing, [Refusal(7, 1), Refusal(11, 11)]),
    ])
}

/// What the programs of `crates/` read and must print: paths from the root, and bytes. `test_cases` reads each text behind a line with its
/// name and length.
pub fn program_files() -> Vec<(&'static str, Vec<u8>)> {
    let cases = cases();
    let named = |name| cases.iter().find(|text| text.name == name).unwrap();
    let (bound, run) = (named("published"), named("published_run"));
    let decision = decide_cases::decisions().into_iter().find(|case| case.name == "siren_budget_1").unwrap();
    let nearest = nearest_cases::nearests().into_iter().find(|case| case.name == "the_earlier_cell").unwrap();
    let (traced, trace) = trace::pinned().swap_remove(0);
    let (mut stdin, mut stdout) = (Vec::new(), Vec::new());
    for text in &cases {
        stdin.extend([format!("{} {}\n", text.name, text.bytes.len()).as_bytes(), &text.bytes, b"\n"].concat());
        stdout.extend(format!("{}\n{}", text.name, text.printed().concat()).into_bytes());
    }
    vec![
        ("crates/bound/stdin", bound.bytes.clone()),
        ("crates/bound/stdout", bound.printed()[0].clone().into_bytes()),
        ("crates/run/stdin", run.bytes.clone()),
        ("crates/run/stdout", run.printed()[1].clone().into_bytes()),
        ("crates/trace/stdin", traced.into_bytes()),
        ("crates/trace/stdout", trace.into()),
        ("crates/merge/stdin", bound.bytes.clone()),
        ("crates/merge/stdout", merge_cases::printed(bound).unwrap().into_bytes()),
        ("crates/decide/stdin", decision.text.clone()),
        ("crates/decide/stdout", decision.printed.into()),
        ("crates/nearest/stdin", nearest.text.clone().into_bytes()),
        ("crates/nearest/stdout", nearest.printed.into()),
        ("crates/test_cases/stdin", stdin),
        ("crates/test_cases/stdout", stdout),
    ]
}
