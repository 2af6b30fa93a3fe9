//! The answers that change request 9 gives the cases of document 01, and texts for each of its sentences, with the answers of both bounds;
//! where unlike numbers meet, with change request 12.
use crate::cases::{branches, file};
use crate::change::Base::{File, Named};
use crate::change::Change::Nothing;
use crate::change::Told::{self, Refusal, Report};
use crate::change::{line, lines, made, word, Base, Bounds, Entry, Text};

/// How many texts there are.
pub const MERGES: usize = 76;

/// Cases in which ways meet, or which the first bound refuses by 7, 8 or 9.
const CASES: [(&str, Told); 36] = [
    // "ADDINT pops on one way only"
    ("published", Refusal(14, 4)),
    ("published_tick_2000", Refusal(14, 4)),
    ("published_run", Refusal(14, 4)),
    ("extra_8", Refusal(14, 4)),
    ("extra_9", Refusal(14, 4)),
    ("extra_10", Refusal(14, 4)),
    ("extra_10_run", Refusal(14, 4)),
    ("case_2_with_budget_2", Report("6 0 0 2 6 -")),
    ("case_2_with_budget_1_and_a_number", Report("6 0 0 2 6 -")),
    ("case_2_budget_2", Report("6 0 0 2 6 -")),
    ("case_2_budget_3", Report("6 0 0 2 6 -")),
    ("case_2_extra_3", Report("9 0 0 2 9 -")),
    ("case_4", Report("13 9 0 5 13 -")),
    ("case_4_extra_5", Report("13 9 0 5 13 -")),
    ("case_4_extra_6", Report("13 9 0 5 13 -")),
    ("case_4_extra_7", Report("14 9 0 5 14 -")),
    ("openings_32", Report("161 0 0 33 161 -")),
    ("openings_33", Report("166 0 0 34 166 -")),
    ("figure_4", Report("2121 0 6 17 212 -")),
    ("range_compared_for_some", Report("15 0 1 4 15 -")),
    ("difference_of_ranges_with_0", Report("15 0 1 4 15 -")),
    ("sum_of_a_number_and_a_range_wraps", Report("15 0 1 4 15 -")),
    // stuck before ways meet, or where none do
    ("present_block", Refusal(7, 3)),
    ("push_as_the_whole_code", Refusal(7, 1)),
    ("push_65", Refusal(7, 64)),
    ("case_6", Refusal(7, 1)),
    ("eq_of_a_handle_and_a_number", Refusal(7, 0)),
    ("eq_of_a_number_and_a_handle", Refusal(7, 0)),
    ("neq_of_a_handle_and_an_unknown", Refusal(7, 0)),
    ("neq_of_an_unknown_and_a_handle", Refusal(7, 0)),
    ("ltint_of_handles", Refusal(7, 0)),
    ("leint_of_handles", Refusal(7, 0)),
    ("gtint_of_handles", Refusal(7, 0)),
    ("geint_of_handles", Refusal(7, 0)),
    ("addint_of_handles", Refusal(7, 0)),
    ("subint_of_handles", Refusal(7, 0)),
];

/// What the merging bound prints for a case or a text. A file is refused by 10, 1 to 6 and 13 as by the first bound; where that has a
/// report without an unknown branch, this one has the same. None is pinned of other texts.
pub fn printed(text: &Text) -> Option<String> {
    if let Some((_, told)) = CASES.iter().find(|(name, _)| *name == text.name) {
        return Some(told.printed_by_a_bound());
    }
    let same = match text.told[0] {
        Report(figures) => figures.ends_with(" -"),
        Refusal(number, _) => ![7, 8, 9].contains(&number),
    };
    same.then(|| text.told[0].printed_by_a_bound())
}

/// Code over cells, of which the first is the accumulator, and two blocks of one field each that holds 5; each kind costs 1 cycle.
pub(crate) fn meeting(cells: &str, code: &[&str]) -> String {
    let kinds = "BRANCHIF BRANCHIFNOT BRANCH PUSH PUSHACC0 PUSHACC1 POP ACC0 ACC1 ASSIGN CONST0 CONST1 CONSTINT NEGINT SETFIELD0 \
                 SETFIELD C_CALL1 STOP GETFIELD0";
    let ones = vec!["1"; kinds.split(' ').count()].join(" ");
    let entries: String = (0..cells.split(' ').count() - 1).map(|i| format!(" S{i}")).collect();
    let code: String = code.iter().enumerate().map(|(at, line)| format!("{at} {line}\n")).collect();
    file(1000, kinds, &ones, &format!("ACCU{entries}"), cells, &code).replacen("-\n-\n-", "A B\n10 4\n1 9", 1).replacen(
        "-\n-\nAT",
        "B0.0 B1.0\n5 5\nAT",
        1,
    )
}

/// As many tests of three lines each, then STOP: 57 cycles and 4 words each, and 1.
pub(crate) fn tests(count: usize) -> String {
    let test = |at: usize| format!("{at} C_CALL1 READ\n{} BRANCHIF {}\n{} CONST0 -\n", at + 1, at + 3, at + 2);
    let code: String = (0..count).map(|n| test(3 * n)).collect();
    let code = format!("{code}{} STOP -\n", 3 * count);
    file(1_000_000, "C_CALL1 BRANCHIF CONST0 STOP", "10 5 2 1", "ACCU", "0", &code).replacen(
        "-\n-\n-",
        "READ\n40\n4",
        1,
    )
}

/// 64 entries, of which the last is a handle, then a branch with these lines on its way not taken.
fn full_stack(not_taken: &[&str]) -> String {
    let cells = format!("? {}#0", "5 ".repeat(31));
    let to = format!("BRANCHIF {}", 33 + not_taken.len());
    meeting(&cells, &[&["PUSH -"; 32][..], &[&to], not_taken, &["STOP -"]].concat())
}

fn all_fields() -> String {
    let names: Vec<String> = (0..8).flat_map(|b| (0..16).map(move |f| format!("B{b}.{f}"))).collect();
    let fields = format!("{}\n{}\nAT", names.join(" "), vec!["0"; 128].join(" "));
    meeting("? #7", &["BRANCHIF 4", "ACC0 -", "PUSHACC0 -", "SETFIELD 15", "STOP -"]).replacen(
        "B0.0 B1.0\n5 5\nAT",
        &fields,
        1,
    )
}

const HEIGHTS: Base = File(|| meeting("?", &["BRANCHIF 2", "PUSH -", "STOP -"]));
const HANDLES: Base = File(|| meeting("? #0 #1", &["BRANCHIF 3", "ACC0 -", "BRANCH 4", "ACC1 -", "STOP -"]));
const ENTRIES: Base = File(|| meeting("? 5 #0", &["BRANCHIF 3", "ACC1 -", "ASSIGN 0", "STOP -"]));
const FIELDS: Base = File(|| meeting("? #0 7", &["BRANCHIF 4", "ACC0 -", "PUSHACC0 -", "SETFIELD0 -", "STOP -"]));
/// 1 and -1 meet before a branch that jumps on both, but not on 0, which is between them.
const NUMBERS: Base = File(|| {
    meeting("?", &["BRANCHIF 3", "CONST1 -", "BRANCH 4", "CONSTINT -1", "BRANCHIF 7", "PUSH -", "POP 1", "STOP -"])
});
const JUMP: Base = File(|| meeting("?", &["BRANCHIF 2", "CONST0 -", "STOP -"]));

pub fn merges() -> Vec<Text<Bounds>> {
    made(
        [heights(), handles(), numbers(), lowest_address(), open_ways(), sums(), long(), known()]
            .into_iter()
            .flatten()
            .collect(),
    )
}

/// "when stack heights differ at a meeting"
fn heights() -> Vec<Entry<Bounds>> {
    let at_60000 = "60000 BRANCHIF 60002\n60001 PUSH -\n60002 STOP -";
    vec![
        ("unlike_heights_at_a_stop", HEIGHTS, Nothing, Bounds(Report("3 0 1 4 3 N"), Refusal(14, 2))),
        ("unlike_heights", HEIGHTS, line(17, "2 CONST0 -\n3 STOP -"), Bounds(Report("4 0 1 6 4 N"), Refusal(14, 2))),
        (
            "unlike_heights_at_60002",
            HEIGHTS,
            lines(15, 17, at_60000),
            Bounds(Report("3 0 1 4 3 N"), Refusal(14, 60002)),
        ),
        (
            "unlike_heights_at_two_stops",
            HEIGHTS,
            lines(15, 17, "0 BRANCHIF 3\n1 PUSH -\n2 STOP -\n3 STOP -"),
            Bounds(Report("3 0 1 4 3 N"), Report("3 0 1 4 3 -")),
        ),
        (
            "heights_alike_again",
            HEIGHTS,
            lines(15, 17, "0 BRANCHIF 4\n1 PUSH -\n2 PUSH -\n3 POP 2\n4 STOP -"),
            Bounds(Report("5 0 2 6 5 N"), Report("5 0 2 5 5 -")),
        ),
        (
            "depth_before_a_meeting",
            File(|| meeting("? 5", &["PUSH -", "PUSH -", "POP 2", "BRANCHIF 5", "CONST0 -", "STOP -"])),
            Nothing,
            Bounds(Report("6 0 3 7 6 N"), Report("6 0 3 6 6 -")),
        ),
        (
            "depth_of_the_start",
            File(|| meeting("? 5 5", &["POP 2", "BRANCHIF 2", "STOP -"])),
            Nothing,
            Bounds(Report("3 0 2 4 3 T"), Report("3 0 2 3 3 -")),
        ),
    ]
}

/// "a cell is a handle on one way and anything else on the other", in the accumulator, in entries and in fields, used again or not
fn handles() -> Vec<Entry<Bounds>> {
    let (arms, entry, field) = (Report("4 0 2 6 4 N"), Report("4 0 2 5 4 N"), Report("5 0 3 6 5 N"));
    let left_above = "0 BRANCHIF 5\n1 ACC0 -\n2 PUSH -\n3 POP 1\n4 CONST0 -\n5 STOP -";
    let unknown_first = "0 BRANCHIFNOT 2\n1 BRANCH 3\n2 ACC0 -\n3 STOP -";
    vec![
        ("unlike_handles", HANDLES, Nothing, Bounds(arms, Refusal(14, 4))),
        ("equal_handles", HANDLES, word(11, 3, "#0"), Bounds(arms, Report("4 0 2 5 4 -"))),
        ("handle_then_number", HANDLES, word(11, 3, "0"), Bounds(arms, Refusal(14, 4))),
        ("number_then_handle", HANDLES, word(11, 2, "0"), Bounds(arms, Refusal(14, 4))),
        ("handle_then_unknown", HANDLES, word(11, 3, "?"), Bounds(arms, Refusal(14, 4))),
        ("unknown_then_handle", HANDLES, word(11, 2, "?"), Bounds(arms, Refusal(14, 4))),
        (
            "unknown_that_opened_beside_a_handle",
            HANDLES,
            lines(15, 19, unknown_first),
            Bounds(Report("3 0 2 5 3 T"), Refusal(14, 3)),
        ),
        ("handle_beside_a_number_in_an_entry", ENTRIES, Nothing, Bounds(entry, Refusal(14, 3))),
        ("handle_beside_an_unknown_in_an_entry", ENTRIES, word(11, 2, "?"), Bounds(entry, Refusal(14, 3))),
        ("unlike_handles_in_an_entry", ENTRIES, word(11, 2, "#1"), Bounds(entry, Refusal(14, 3))),
        ("equal_handles_in_an_entry", ENTRIES, word(11, 2, "#0"), Bounds(entry, Report("4 0 2 4 4 -"))),
        ("unlike_numbers_in_an_entry", ENTRIES, word(11, 3, "6"), Bounds(entry, Report("4 0 2 4 4 -"))),
        ("unknown_and_number_in_an_entry", ENTRIES, word(11, 3, "?"), Bounds(entry, Report("4 0 2 4 4 -"))),
        (
            "handle_in_the_last_entry",
            File(|| full_stack(&["CONST1 -", "ASSIGN 63"])),
            Nothing,
            Bounds(Report("36 0 64 37 36 N"), Refusal(14, 35)),
        ),
        (
            "full_stack",
            File(|| full_stack(&["CONST1 -", "ASSIGN 62"])),
            Nothing,
            Bounds(Report("36 0 64 37 36 N"), Report("36 0 64 36 36 -")),
        ),
        ("handle_beside_a_number_in_a_field", FIELDS, Nothing, Bounds(field, Refusal(14, 4))),
        ("handle_beside_an_unknown_in_a_field", FIELDS, word(13, 1, "?"), Bounds(field, Refusal(14, 4))),
        ("unlike_handles_in_a_field", FIELDS, word(13, 1, "#1"), Bounds(field, Refusal(14, 4))),
        ("equal_handles_in_a_field", FIELDS, word(13, 1, "#0"), Bounds(field, Report("5 0 3 5 5 -"))),
        (
            "unlike_numbers_in_a_field",
            FIELDS,
            lines(16, 17, "1 ACC1 -\n2 PUSHACC1 -"),
            Bounds(field, Report("5 0 3 5 5 -")),
        ),
        ("handle_in_the_last_field", File(all_fields), Nothing, Bounds(Report("5 0 2 6 5 N"), Refusal(14, 4))),
        (
            "handle_left_above_the_stack",
            FIELDS,
            lines(15, 19, left_above),
            Bounds(Report("6 0 3 7 6 N"), Report("6 0 3 6 6 -")),
        ),
    ]
}

/// "equal cells stay"; unlike numbers become "the smallest range that covers both"
fn numbers() -> Vec<Entry<Bounds>> {
    let in_a_field = "? #0 -7\nB0.0 B1.0\n5 5\nAT OP ARG\n0 BRANCHIF 4\n\
        1 ACC1 -\n2 PUSHACC1 -\n3 SETFIELD0 -\n4 ACC0 -\n5 GETFIELD0 -\n6 BRANCHIF 8\n7 CONST0 -\n8 STOP -";
    let first = Report("5 0 0 8 5 N");
    let three = "0 BRANCHIF 6\n1 BRANCHIF 4\n2 CONST1 -\n3 BRANCH 7\n4 CONST1 -\n5 BRANCH 7\n6 CONST0 -\n7 BRANCHIF 9\n8 CONSTINT 2\n\
                 9 STOP -";
    let kept = "0 BRANCHIF 3\n1 CONST1 -\n2 BRANCH 4\n3 CONST1 -\n4 BRANCHIF 7\n5 PUSH -\n6 POP 1\n7 STOP -";
    let in_an_entry: Base =
        File(|| meeting("? -2", &["BRANCHIF 3", "CONST1 -", "ASSIGN 0", "ACC0 -", "BRANCHIF 6", "CONST0 -", "STOP -"]));
    vec![
        (
            "unlike_numbers_in_a_field_branch",
            FIELDS,
            lines(11, 19, in_a_field),
            Bounds(Report("8 0 3 12 8 N"), Report("9 0 3 9 9 -")),
        ),
        ("unlike_numbers", NUMBERS, Nothing, Bounds(first, Report("7 0 1 8 7 -"))),
        ("unlike_numbers_tick_16", NUMBERS, word(2, 2, "16"), Bounds(Report("5 0 0 8 312 N"), Report("7 0 1 8 438 -"))),
        ("unlike_numbers_above_0", NUMBERS, word(18, 3, "2"), Bounds(first, Report("5 0 0 6 5 -"))),
        (
            "unlike_numbers_below_0",
            NUMBERS,
            lines(16, 18, "1 CONSTINT -5\n2 BRANCH 4\n3 CONSTINT -1"),
            Bounds(first, Report("5 0 0 6 5 -")),
        ),
        (
            "unlike_numbers_one_of_them_0",
            NUMBERS,
            word(18, 3, "0"),
            Bounds(Report("6 0 1 10 6 T"), Report("7 0 1 8 7 -")),
        ),
        ("equal_numbers", NUMBERS, lines(15, 22, kept), Bounds(first, Report("5 0 0 6 5 -"))),
        ("unlike_numbers_and_a_14_behind", NUMBERS, line(21, "6 CONST0 -"), Bounds(first, Refusal(14, 7))),
        ("unlike_numbers_and_a_7_behind", NUMBERS, line(20, "5 POP 1"), Bounds(first, Refusal(7, 5))),
        (
            "number_after_two_equal_ones",
            NUMBERS,
            lines(15, 22, three),
            Bounds(Report("6 0 0 14 6 NT"), Report("7 0 0 10 7 -")),
        ),
        (
            "unlike_numbers_in_an_entry_branch",
            in_an_entry,
            Nothing,
            Bounds(Report("6 0 1 9 6 N"), Report("7 0 1 7 7 -")),
        ),
    ]
}

/// "the lowest address with a 14 or a 7 decides, 14 comes before 7 there, and the place is that address"
fn lowest_address() -> Vec<Entry<Bounds>> {
    let (stuck_2, stuck_4) = (Refusal(7, 2), Refusal(7, 4));
    vec![
        ("unlike_handles_before_stuck", HANDLES, line(19, "4 NEGINT -\n5 STOP -"), Bounds(stuck_4, Refusal(14, 4))),
        ("unlike_heights_before_stuck", HEIGHTS, line(17, "2 POP 64\n3 STOP -"), Bounds(stuck_2, Refusal(14, 2))),
        (
            "unlike_heights_below_stuck",
            HEIGHTS,
            line(17, "2 CONST0 -\n3 POP 64\n4 STOP -"),
            Bounds(Refusal(7, 3), Refusal(14, 2)),
        ),
        (
            "stuck_below_unlike_heights",
            HEIGHTS,
            lines(15, 17, "0 BRANCHIF 4\n1 BRANCHIF 3\n2 POP 64\n3 PUSH -\n4 STOP -"),
            Bounds(stuck_2, stuck_2),
        ),
        (
            "stuck_on_the_second_way_first",
            HEIGHTS,
            lines(15, 17, "0 BRANCHIF 3\n1 CONST0 -\n2 BRANCH 4\n3 POP 64\n4 POP 64"),
            Bounds(stuck_4, Refusal(7, 3)),
        ),
        (
            "unlike_heights_at_two_addresses",
            HEIGHTS,
            lines(15, 17, "0 BRANCHIF 3\n1 BRANCHIF 4\n2 PUSH -\n3 PUSH -\n4 STOP -"),
            Bounds(Report("5 0 2 8 5 NN"), Refusal(14, 3)),
        ),
        ("off_the_end", JUMP, line(17, "2 CONST0 -"), Bounds(Refusal(7, 3), Refusal(7, 3))),
        ("off_the_end_at_60001", JUMP, lines(15, 17, "60000 PUSH -"), Bounds(Refusal(7, 60001), Refusal(7, 60001))),
        ("off_the_end_on_one_way", JUMP, lines(16, 17, "1 STOP -\n2 CONST0 -"), Bounds(Refusal(7, 3), Refusal(7, 3))),
    ]
}

/// "over the ways that stay open"; "It takes no BUDGET"
fn open_ways() -> Vec<Entry<Bounds>> {
    let known = Report("2 0 0 2 2 -");
    vec![
        ("heights_on_a_way_that_is_not_open", HEIGHTS, word(11, 1, "1"), Bounds(known, known)),
        ("heights_on_the_other_way", HEIGHTS, word(11, 1, "0"), Bounds(Report("3 0 1 3 3 -"), Report("3 0 1 3 3 -"))),
        ("stuck_where_nothing_comes", HEIGHTS, lines(15, 16, "0 BRANCH 2\n1 POP 64"), Bounds(known, known)),
        ("budget_1", JUMP, word(2, 1, "1"), Bounds(Refusal(9, 1), Report("3 0 0 3 3 -"))),
        ("budget_3", JUMP, word(2, 1, "3"), Bounds(Refusal(9, 2), Report("3 0 0 3 3 -"))),
        (
            "ways_that_stop_apart",
            JUMP,
            lines(16, 17, "1 STOP -\n2 CONST0 -\n3 STOP -"),
            Bounds(Report("3 0 0 4 3 T"), Report("3 0 0 4 3 -")),
        ),
    ]
}

/// "Its CYCLES and WORDS are the largest sums", each for itself, with the extra of a taken jump
fn sums() -> Vec<Entry<Bounds>> {
    let two: Base = File(|| {
        let test = |from: usize| {
            let (taken, end) = (from + 3, from + 4);
            [format!("BRANCHIF {taken}"), "C_CALL1 A".to_string(), format!("BRANCH {end}"), "C_CALL1 B".to_string()]
        };
        let code = [&test(0)[..], &test(4), &["STOP -".to_string()]].concat();
        meeting("?", &code.iter().map(String::as_str).collect::<Vec<_>>())
    });
    let next: Base = File(|| meeting("?", &["BRANCHIF 1", "BRANCHIFNOT 2", "STOP -"]));
    vec![
        ("jump_without_an_extra", JUMP, Nothing, Bounds(Report("3 0 0 4 3 N"), Report("3 0 0 3 3 -"))),
        ("jump_at_an_extra_of_1", JUMP, word(6, 1, "1"), Bounds(Report("3 0 0 4 3 T"), Report("3 0 0 3 3 -"))),
        ("jump_at_an_extra_of_2", JUMP, word(6, 1, "2"), Bounds(Report("4 0 0 4 4 T"), Report("4 0 0 3 4 -"))),
        (
            "known_jump_at_an_extra",
            Named("jump_at_an_extra_of_2"),
            word(11, 1, "1"),
            Bounds(Report("4 0 0 2 4 -"), Report("4 0 0 2 4 -")),
        ),
        (
            "known_and_no_jump_at_an_extra",
            Named("jump_at_an_extra_of_2"),
            word(11, 1, "0"),
            Bounds(Report("3 0 0 3 3 -"), Report("3 0 0 3 3 -")),
        ),
        ("branches_to_the_next", next, Nothing, Bounds(Report("3 0 0 7 3 TT"), Report("3 0 0 3 3 -"))),
        (
            "branches_to_the_next_at_extras",
            next,
            line(6, "5 7 0 0 0 0 0 0 0 0 0 0 0 0 0 0 0 0 0"),
            Bounds(Report("15 0 0 7 15 TT"), Report("15 0 0 3 15 -")),
        ),
        ("words_on_other_ways_than_cycles", two, Nothing, Bounds(Report("27 18 0 16 27 NN"), Report("27 18 0 9 27 -"))),
        (
            "words_of_kinds",
            Named("words_on_other_ways_than_cycles"),
            line(5, "1 0 2 0 0 0 0 0 0 0 0 0 0 0 0 0 3 4 0"),
            // 1 of BRANCHIF and 12 of B, or 6 of A and BRANCH; STOP's 4
            Bounds(Report("27 30 0 16 27 NN"), Report("27 30 0 9 27 -")),
        ),
    ]
}

/// "An alarm panel of ninety tests has too many paths to walk."; as many lines as code can have
fn long() -> Vec<Entry<Bounds>> {
    let ninety: Base = File(|| tests(90));
    let lines_1024: Base = File(|| tests(341));
    let falls = || {
        let code: String = (60_000..61_024).map(|at| format!("{at} CONST0 -\n")).collect();
        file(1_000_000, "CONST0", "1", "ACCU", "?", &code)
    };
    let (too_many, stuck) = (Refusal(8, 97), Refusal(7, 61_024));
    vec![
        ("ninety_tests", ninety, Nothing, Bounds(too_many, Report("5131 360 0 271 5131 -"))),
        ("ninety_tests_extra_9", ninety, word(6, 2, "9"), Bounds(too_many, Report("5761 360 0 271 5761 -"))),
        ("ninety_tests_budget_1", ninety, word(2, 1, "1"), Bounds(Refusal(9, 1), Report("5131 360 0 271 5131 -"))),
        ("tests_in_1024_lines", lines_1024, Nothing, Bounds(too_many, Report("19438 1364 0 1024 19438 -"))),
        (
            "branches_1023_to_one_stop",
            File(|| branches(1023)),
            Nothing,
            Bounds(Refusal(8, 32), Report("5116 0 0 1024 5116 -")),
        ),
        ("off_the_end_of_1024_lines", File(falls), Nothing, Bounds(stuck, stuck)),
        (
            "largest_sums",
            File(|| tests(341)),
            lines(4, 9, "65535 65535 65535 65535\n255 255 255 255\n0 65535 0 0\nREAD\n65535\n255"),
            // 4 × 65,535 for each test, by the extra or by CONST0, and STOP; 4 × 255 words
            Bounds(too_many, Report("89455275 348075 0 1024 89455275 -")),
        ),
    ]
}

/// "Knowing more never costs more": a call on one way of a branch that is unknown, jumps, and does not jump (change request 14).
fn known() -> Vec<Entry<Bounds>> {
    let call: Base = File(|| meeting("?", &["BRANCHIF 2", "C_CALL1 A", "STOP -"]));
    let (open, gone) = (Report("13 1 0 3 13 -"), Report("2 0 0 2 2 -"));
    vec![
        ("a_call_on_a_way_that_is_open", call, Nothing, Bounds(Report("13 1 0 4 13 N"), open)),
        ("a_call_on_a_way_open_by_a_range", call, word(11, 1, "0..1008"), Bounds(Report("13 1 0 4 13 N"), open)),
        ("a_call_on_the_way_not_gone_by_a_range", call, word(11, 1, "1..1008"), Bounds(gone, gone)),
        ("a_call_on_the_way_not_gone", call, word(11, 1, "7"), Bounds(gone, gone)),
        ("a_call_on_the_way_gone", call, word(11, 1, "0"), Bounds(open, open)),
    ]
}
