//! Texts for each sentence of change request 12, with the answers of both bounds and of the run; and the operations on ranges held against
//! all pairs of their numbers.
use crate::cases::{branches, file};
use crate::change::Told::{Refusal, Report};
use crate::change::{Text, Three};
use crate::machine::Operator;
use crate::range::Range;
use crate::report::MEMORY;
use crate::tagged::{is_number, Tagged, HIGHEST, LOWEST};

/// How many texts there are.
pub const RANGES: usize = 273;

/// A name that says what is tried, the file, and what is told.
type Entry = (&'static str, String, Three);

const KINDS: &str = "ADDINT SUBINT EQ NEQ LTINT LEINT GTINT GEINT OFFSETINT NEGINT BOOLNOT PUSHCONSTINT BRANCHIF BRANCHIFNOT CONST1 STOP \
                     GETFIELD0 BRANCH C_CALL1 ACC0 ACC1 CONSTINT ASSIGN PUSHACC1 SETFIELD0";
const CYCLES: &str = "2 2 2 2 2 2 2 2 2 2 2 1 5 5 7 1 1 1 1 1 1 1 1 1 1";

/// Code over cells, the first of them the accumulator, with a primitive A of 3 cycles.
fn over(cells: &str, code: &[&str]) -> String {
    let entries: String = (0..cells.split(' ').count() - 1).map(|i| format!(" S{i}")).collect();
    let code: String = code.iter().enumerate().map(|(at, line)| format!("{at} {line}\n")).collect();
    file(1000, KINDS, CYCLES, &format!("ACCU{entries}"), cells, &code).replacen("-\n-\n-", "A\n3\n0", 1)
}

/// The same with the fields of one block.
fn with_fields(cells: &str, fields: &str, code: &[&str]) -> String {
    let names: Vec<String> = (0..fields.split(' ').count()).map(|i| format!("B0.{i}")).collect();
    over(cells, code).replacen("-\n-\nAT", &format!("{}\n{fields}\nAT", names.join(" ")), 1)
}

/// An operation of 2 cycles, then a branch over 7 cycles where it gives no 0.
fn then_branch(cells: &str, operation: &str) -> String {
    over(cells, &[operation, "BRANCHIF 3", "CONST1 -", "STOP -"])
}

/// Every number that the operation gives is not 0, every one is 0, or some are; a range is among the cells.
const JUMPS: Three = Three(Report("8 0 1 3 8 -"), Report("8 0 1 3 8 -"), Refusal(11, 11));
const GOES_ON: Three = Three(Report("15 0 1 4 15 -"), Report("15 0 1 4 15 -"), Refusal(11, 11));
const OPENS: Three = Three(Report("15 0 1 5 15 N"), Report("15 0 1 4 15 -"), Refusal(11, 11));
/// The same where the cells are single numbers.
const JUMPS_IN_A_RUN: Three = Three(Report("8 0 1 3 8 -"), Report("8 0 1 3 8 -"), Report("8 0 1 3"));
const GOES_ON_IN_A_RUN: Three = Three(Report("15 0 1 4 15 -"), Report("15 0 1 4 15 -"), Report("15 0 1 4"));

/// An operation of 2 cycles, then a comparison of a number, on the left, with what it gives, and a branch over 7 cycles.
fn then_compared(cells: &str, operation: &str, number: i32, comparison: &str) -> String {
    let (number, comparison) = (format!("PUSHCONSTINT {number}"), format!("{comparison} -"));
    over(cells, &[operation, &number, &comparison, "BRANCHIF 5", "CONST1 -", "STOP -"])
}

/// The comparison holds for every number, for none, for some.
const ALWAYS: Three = Three(Report("11 0 1 5 11 -"), Report("11 0 1 5 11 -"), Refusal(11, 11));
const NEVER: Three = Three(Report("18 0 1 6 18 -"), Report("18 0 1 6 18 -"), Refusal(11, 11));
const SOMETIMES: Three = Three(Report("18 0 1 7 18 N"), Report("18 0 1 6 18 -"), Refusal(11, 11));
/// It holds of single numbers.
const HOLDS_IN_A_RUN: Three = Three(Report("11 0 1 5 11 -"), Report("11 0 1 5 11 -"), Report("11 0 1 5"));

/// All refuse alike.
fn refused(number: u32, place: u32) -> Three {
    Three(Refusal(number, place), Refusal(number, place), Refusal(number, place))
}

/// STOP alone with this accumulator; with a block of this field.
fn stop(cell: &str) -> String {
    over(cell, &["STOP -"])
}

fn stop_with_field(field: &str) -> String {
    with_fields("0", field, &["STOP -"])
}

/// It passes, and a run refuses it at this line.
fn but_no_run(line: u32) -> Three {
    Three(Report("1 0 0 1 1 -"), Report("1 0 0 1 1 -"), Refusal(11, line))
}

const STOPS: Three = Three(Report("1 0 0 1 1 -"), Report("1 0 0 1 1 -"), Report("1 0 0 1"));

pub fn ranges() -> Vec<Text<Three>> {
    let lists = [
        spelling(),
        only_cells(),
        ends(),
        runs(),
        conditions(),
        comparisons(),
        unknowns(),
        sums(),
        differences(),
        negations(),
        merges(),
        ways(),
    ];
    let mut texts: Vec<Text<Three>> = Vec::new();
    for (name, text, told) in lists.into_iter().flatten() {
        assert!(texts.iter().all(|text| text.name != name), "{name} is there twice");
        texts.push(Text { name, bytes: text.into_bytes(), lent: MEMORY, told });
    }
    texts
}

/// "A start or block cell may be `lo..hi`": two numbers, spelt as every number is, around the first two dots.
fn spelling() -> Vec<Entry> {
    let accepted = [
        ("two_numbers", "0..1"),
        ("below_0", "-5..-3"),
        ("around_0", "-5..3"),
        ("client_count", "0..1008"),
        ("whole_range", "-1073741824..1073741823"),
    ];
    let misspelt = [
        ("three_dots", "1...2"),
        ("four_dots", "1....2"),
        ("one_dot", "1.2"),
        ("no_high_end", "1.."),
        ("no_low_end", "..2"),
        ("dots_alone", ".."),
        ("three_numbers", "1..2..3"),
        ("dots_behind", "1..2.."),
        ("dots_before", "..1..2"),
        ("unknown_low_end", "?..2"),
        ("unknown_high_end", "1..?"),
        ("handles_as_ends", "#0..#1"),
        ("handle_to_a_range", "#0..1"),
        ("handle_as_high_end", "1..#2"),
        ("leading_zero_low", "01..2"),
        ("leading_zero_high", "1..02"),
        ("minus_zero_low", "-0..2"),
        ("minus_zero_high", "-1..-0"),
        ("plus_low", "+1..2"),
        ("plus_high", "1..+2"),
        ("two_minus", "--1..2"),
        ("minus_alone", "-..2"),
        ("letter", "1..a"),
        ("comma", "1,,2"),
    ];
    let mut entries: Vec<Entry> = Vec::new();
    entries.extend(accepted.map(|(name, word)| (name, stop(word), but_no_run(11))));
    entries.extend(misspelt.map(|(name, word)| (name, stop(word), refused(2, 11))));
    entries.extend([
        ("range_in_a_field", stop_with_field("0..1008"), but_no_run(13)),
        ("three_dots_in_a_field", stop_with_field("1...2"), refused(2, 13)),
        ("no_high_end_in_a_field", stop_with_field("1.."), refused(2, 13)),
        ("handles_as_ends_in_a_field", stop_with_field("#0..#0"), refused(2, 13)),
        ("space_behind_the_dots", over("0", &["STOP -"]).replacen("ACCU\n0\n", "ACCU\n1.. 2\n", 1), refused(2, 11)),
    ]);
    entries
}

/// "A start or block cell": nowhere else.
fn only_cells() -> Vec<Entry> {
    let base = || over("0", &["CONST1 -", "STOP -"]);
    let argument = |line: &str| over("0", &[line, "STOP -"]);
    vec![
        ("range_as_budget", base().replacen("1000 1000", "1..1000 1000", 1), refused(2, 2)),
        ("range_as_tick", base().replacen("1000 1000", "1000 1000..1000", 1), refused(2, 2)),
        ("range_as_cycles", base().replacen("\n2 2", "\n2..2 2", 1), refused(2, 4)),
        ("range_as_words", base().replacen("\n0 0", "\n0..0 0", 1), refused(2, 5)),
        ("range_as_cycles_of_a_primitive", base().replacen("A\n3\n", "A\n3..3\n", 1), refused(2, 8)),
        ("range_as_words_of_a_primitive", base().replacen("A\n3\n0", "A\n3\n0..0", 1), refused(2, 9)),
        ("range_as_a_kind", base().replacen("CONST1", "CONST0..1", 1), refused(4, 3)),
        ("range_as_a_name", base().replacen("ACCU\n0", "ACCU S0..1\n0 0", 1), refused(4, 10)),
        ("range_as_an_address", base().replacen("\n0 CONST1", "\n0..0 CONST1", 1), refused(2, 15)),
        ("range_as_a_number_of_code", argument("PUSHCONSTINT 1..1"), refused(2, 15)),
        ("range_as_an_offset", argument("OFFSETINT 0..1"), refused(2, 15)),
        ("range_as_a_target", argument("BRANCH 1..1"), refused(2, 15)),
        ("range_as_a_primitive", argument("C_CALL1 0..1"), refused(4, 15)),
        ("range_as_an_answer", base() + "ANSWER\n0..1\n", refused(2, 18)),
        ("range_of_one_number_as_an_answer", base() + "ANSWER\n7..7\n", refused(2, 18)),
    ]
}

/// "lo above hi is refusal 3"; ends past 31 bits are too. Rows come in their order, and within one the earliest line.
fn ends() -> Vec<Entry> {
    let both = |cell: &str, field: &str| with_fields(cell, field, &["STOP -"]);
    vec![
        ("falls_by_1", stop("1..0"), refused(3, 11)),
        ("falls_below_0", stop("-1..-2"), refused(3, 11)),
        ("falls_from_end_to_end", stop("1073741823..-1073741824"), refused(3, 11)),
        ("low_end_just_outside", stop("-1073741825..0"), refused(3, 11)),
        ("high_end_just_outside", stop("0..1073741824"), refused(3, 11)),
        ("both_ends_above", stop("1073741824..1073741825"), refused(3, 11)),
        ("both_ends_below", stop("-1073741826..-1073741825"), refused(3, 11)),
        ("one_number_outside", stop("1073741824..1073741824"), refused(3, 11)),
        ("high_end_of_32_bits", stop("0..2147483647"), refused(3, 11)),
        ("high_end_past_32_bits", stop("0..4294967296"), refused(3, 11)),
        ("high_end_of_thirty_digits", stop("0..123456789012345678901234567890"), refused(3, 11)),
        ("low_end_of_thirty_digits", stop("-123456789012345678901234567890..0"), refused(3, 11)),
        (
            "both_of_thirty_digits",
            stop("123456789012345678901234567890..123456789012345678901234567891"),
            refused(3, 11),
        ),
        ("falls_in_a_field", stop_with_field("1..0"), refused(3, 13)),
        ("outside_in_a_field", stop_with_field("0..1073741824"), refused(3, 13)),
        ("up_to_the_high_end", stop("1073741822..1073741823"), but_no_run(11)),
        ("up_to_the_low_end", stop("-1073741824..-1073741823"), but_no_run(11)),
        ("falls_before_a_misspelt_field", both("1..0", "1.."), refused(2, 13)),
        ("falls_in_both", both("1..0", "1..0"), refused(3, 11)),
        ("falls_beside_an_absent_block", over("1..0 #1", &["STOP -"]), refused(3, 11)),
        ("range_beside_an_absent_block", over("0..1 #1", &["STOP -"]), refused(4, 11)),
        ("falls_before_a_stuck_step", over("1..0", &["NEGINT -"]), refused(3, 11)),
    ]
}

/// "A run refuses a range of more than one number as it does `?`." A range of one number is that number.
fn runs() -> Vec<Entry> {
    let both = |cell: &str, field: &str| with_fields(cell, field, &["STOP -"]);
    vec![
        ("one_number", stop("5..5"), STOPS),
        ("one_number_0", stop("0..0"), STOPS),
        ("one_number_at_the_low_end", stop("-1073741824..-1073741824"), STOPS),
        ("one_number_at_the_high_end", stop("1073741823..1073741823"), STOPS),
        ("one_number_in_a_field", stop_with_field("7..7"), STOPS),
        ("range_and_unknown", both("0..1", "?"), but_no_run(11)),
        ("one_number_and_range", both("0..0", "0..1"), but_no_run(13)),
        ("one_number_and_unknown", both("0..0", "?"), but_no_run(13)),
        ("unknown_and_range", both("?", "0..1"), but_no_run(11)),
        (
            "second_cell_a_range",
            over("0 0..1", &["STOP -"]),
            Three(Report("1 0 1 1 1 -"), Report("1 0 1 1 1 -"), Refusal(11, 11)),
        ),
        (
            "range_of_a_routine_that_is_stuck",
            over("0..1", &["NEGINT -"]),
            Three(Refusal(7, 1), Refusal(7, 1), Refusal(11, 11)),
        ),
        ("range_before_a_jump_backwards", over("0..1", &["BRANCH 0"]), refused(13, 15)),
        ("one_number_added_to", then_compared("5..5", "OFFSETINT 2", 7, "EQ"), HOLDS_IN_A_RUN),
        ("one_number_compared", then_branch("5..5 5", "EQ -"), JUMPS_IN_A_RUN),
        ("two_of_one_number_compared", then_branch("5..5 6..6", "EQ -"), GOES_ON_IN_A_RUN),
    ]
}

/// "A condition whose range lacks 0, or is only 0, opens no second way."
fn conditions() -> Vec<Entry> {
    let of = |kind: &str, cell: &str| over(cell, &[&format!("{kind} 2"), "CONST1 -", "STOP -"]);
    let jumps = Three(Report("6 0 0 2 6 -"), Report("6 0 0 2 6 -"), Refusal(11, 11));
    let goes_on = Three(Report("13 0 0 3 13 -"), Report("13 0 0 3 13 -"), Refusal(11, 11));
    let opens = Three(Report("13 0 0 4 13 N"), Report("13 0 0 3 13 -"), Refusal(11, 11));
    let field = |field: &str, kind: &str| {
        with_fields("#0", field, &["GETFIELD0 -", &format!("{kind} 3"), "CONST1 -", "STOP -"])
    };
    vec![
        ("branchif_above_0", of("BRANCHIF", "1..5"), jumps),
        ("branchif_below_0", of("BRANCHIF", "-5..-1"), jumps),
        ("branchif_from_0", of("BRANCHIF", "0..5"), opens),
        ("branchif_to_0", of("BRANCHIF", "-5..0"), opens),
        ("branchif_around_0", of("BRANCHIF", "-5..5"), opens),
        ("branchif_from_the_low_end", of("BRANCHIF", "-1073741824..-1"), jumps),
        ("branchif_to_the_high_end", of("BRANCHIF", "1..1073741823"), jumps),
        ("branchif_whole", of("BRANCHIF", "-1073741824..1073741823"), opens),
        ("branchif_only_0", of("BRANCHIF", "0..0"), Three(goes_on.0, goes_on.1, Report("13 0 0 3"))),
        ("branchif_only_5", of("BRANCHIF", "5..5"), Three(jumps.0, jumps.1, Report("6 0 0 2"))),
        ("branchifnot_above_0", of("BRANCHIFNOT", "1..5"), goes_on),
        ("branchifnot_below_0", of("BRANCHIFNOT", "-5..-1"), goes_on),
        ("branchifnot_from_0", of("BRANCHIFNOT", "0..5"), opens),
        ("branchifnot_to_0", of("BRANCHIFNOT", "-5..0"), opens),
        ("branchifnot_only_0", of("BRANCHIFNOT", "0..0"), Three(jumps.0, jumps.1, Report("6 0 0 2"))),
        (
            "branchif_on_a_field_above_0",
            field("1..5", "BRANCHIF"),
            Three(Report("7 0 0 3 7 -"), Report("7 0 0 3 7 -"), Refusal(11, 13)),
        ),
        (
            "branchifnot_on_a_field_above_0",
            field("1..5", "BRANCHIFNOT"),
            Three(Report("14 0 0 4 14 -"), Report("14 0 0 4 14 -"), Refusal(11, 13)),
        ),
        (
            "branchif_on_a_field_from_0",
            field("0..5", "BRANCHIF"),
            Three(Report("14 0 0 5 14 N"), Report("14 0 0 4 14 -"), Refusal(11, 13)),
        ),
    ]
}

/// "a comparison gives 1 if it holds for every pair of numbers in the two ranges, 0 if for none, else 0 to 1"; the accumulator is on the
/// left.
fn comparisons() -> Vec<Entry> {
    let of = |name, operation: &str, cells: &str, told| (name, then_branch(cells, &format!("{operation} -")), told);
    vec![
        of("ltint_apart", "LTINT", "0..4 5..9", JUMPS),
        of("ltint_touching", "LTINT", "0..5 5..9", OPENS),
        of("ltint_touching_from_above", "LTINT", "5..9 0..5", GOES_ON),
        of("ltint_overlapping", "LTINT", "4..9 0..5", OPENS),
        of("leint_touching", "LEINT", "0..5 5..9", JUMPS),
        of("leint_overlapping", "LEINT", "0..6 5..9", OPENS),
        of("leint_touching_from_above", "LEINT", "5..9 0..5", OPENS),
        of("leint_apart_above", "LEINT", "6..9 0..5", GOES_ON),
        of("gtint_apart", "GTINT", "6..9 0..5", JUMPS),
        of("gtint_touching", "GTINT", "5..9 0..5", OPENS),
        of("gtint_touching_from_below", "GTINT", "0..5 5..9", GOES_ON),
        of("gtint_overlapping", "GTINT", "0..6 5..9", OPENS),
        of("geint_touching", "GEINT", "5..9 0..5", JUMPS),
        of("geint_overlapping", "GEINT", "4..9 0..5", OPENS),
        of("geint_touching_from_below", "GEINT", "0..5 5..9", OPENS),
        of("geint_apart_below", "GEINT", "0..4 5..9", GOES_ON),
        of("eq_apart", "EQ", "0..4 5..9", GOES_ON),
        of("eq_apart_above", "EQ", "5..9 0..4", GOES_ON),
        of("eq_touching", "EQ", "0..5 5..9", OPENS),
        of("eq_of_equal_ranges", "EQ", "0..4 0..4", OPENS),
        of("eq_inside", "EQ", "0..9 3..4", OPENS),
        of("neq_apart", "NEQ", "0..4 5..9", JUMPS),
        of("neq_apart_above", "NEQ", "5..9 0..4", JUMPS),
        of("neq_touching", "NEQ", "5..9 0..5", OPENS),
        of("neq_of_equal_ranges", "NEQ", "0..4 0..4", OPENS),
        of("eq_of_a_number_inside", "EQ", "3 0..9", OPENS),
        of("eq_of_a_number_at_an_end", "EQ", "0..9 9", OPENS),
        of("eq_of_a_number_outside", "EQ", "0..9 10", GOES_ON),
        of("neq_of_a_number_outside", "NEQ", "-1 0..9", JUMPS),
        of("clients_above_the_limit", "GTINT", "0..1008 1008", GOES_ON),
        of("clients_above_a_lower_limit", "GTINT", "0..1008 1007", OPENS),
        of("limit_above_the_clients", "GTINT", "1009 0..1008", JUMPS),
        of("limit_not_above_the_clients", "GTINT", "1008 0..1008", OPENS),
        of("ltint_around_0", "LTINT", "-9..-1 0..9", JUMPS),
        of("ltint_from_end_to_end", "LTINT", "-1073741824..-1 0..1073741823", JUMPS),
        of("gtint_from_end_to_end", "GTINT", "-1073741824..-1 0..1073741823", GOES_ON),
        of("leint_of_numbers_far_apart", "LEINT", "-1073741824..-1073741823 1073741822..1073741823", JUMPS),
    ]
}

/// "A `?` is the whole range", and so compares as one; "Primitive answers stay whole." A handle beside a range is stuck.
fn unknowns() -> Vec<Entry> {
    let of = |name, operation: &str, cells: &str, told| (name, then_branch(cells, &format!("{operation} -")), told);
    let with_block = |name, operation: &str, cells: &str| {
        let file = with_fields(cells, "0", &[&format!("{operation} -"), "STOP -"]);
        (name, file, Three(Refusal(7, 0), Refusal(7, 0), Refusal(11, 11)))
    };
    let answer = |number: i32, comparison: &str| {
        let (number, comparison) = (format!("PUSHCONSTINT {number}"), format!("{comparison} -"));
        over("0", &["C_CALL1 A", &number, &comparison, "BRANCHIF 5", "CONST1 -", "STOP -"])
    };
    let decided = Three(Report("13 0 1 5 13 -"), Report("13 0 1 5 13 -"), Report("13 0 1 5"));
    let open = |run| Three(Report("20 0 1 7 20 N"), Report("20 0 1 6 20 -"), Report(run));
    vec![
        of("unknown_at_least_the_lowest", "GEINT", "? -1073741824", JUMPS),
        of("unknown_at_least_the_next", "GEINT", "? -1073741823", OPENS),
        of("unknown_at_most_the_highest", "LEINT", "? 1073741823", JUMPS),
        of("unknown_at_most_the_one_before", "LEINT", "? 1073741822", OPENS),
        of("unknown_less_than_the_lowest", "LTINT", "? -1073741824", GOES_ON),
        of("unknown_less_than_the_next", "LTINT", "? -1073741823", OPENS),
        of("unknown_greater_than_the_highest", "GTINT", "? 1073741823", GOES_ON),
        of("unknown_greater_than_the_one_before", "GTINT", "? 1073741822", OPENS),
        of("lowest_at_most_unknown", "LEINT", "-1073741824 ?", JUMPS),
        of("highest_at_least_unknown", "GEINT", "1073741823 ?", JUMPS),
        of("lowest_greater_than_unknown", "GTINT", "-1073741824 ?", GOES_ON),
        of("highest_less_than_unknown", "LTINT", "1073741823 ?", GOES_ON),
        of("unknown_equal_to_the_lowest", "EQ", "? -1073741824", OPENS),
        of("unknown_unequal_to_itself", "NEQ", "? ?", OPENS),
        of("unknown_equal_to_a_range", "EQ", "? 0..1", OPENS),
        of("whole_range_at_least_the_lowest", "GEINT", "-1073741824..1073741823 -1073741824", JUMPS),
        ("answer_at_least_the_lowest", answer(LOWEST, "LEINT"), decided),
        ("answer_at_most_the_highest", answer(HIGHEST, "GEINT"), decided),
        ("answer_at_least_0", answer(0, "LEINT"), open("13 0 1 5")),
        ("answer_at_least_1", answer(1, "LEINT"), open("20 0 1 6")),
        with_block("eq_of_a_handle_and_a_range", "EQ", "#0 0..1"),
        with_block("neq_of_a_range_and_a_handle", "NEQ", "0..1 #0"),
        with_block("gtint_of_a_range_and_a_handle", "GTINT", "5..9 #0"),
        with_block("addint_of_a_handle_and_a_range", "ADDINT", "#0 0..1"),
    ]
}

/// "Sums .. of single numbers stay exact and wrap. Of wider ranges they give the least to the greatest result, or the whole range if some
/// result would wrap."
fn sums() -> Vec<Entry> {
    let of = |name, cells: &str, number, comparison: &str, told| {
        (name, then_compared(cells, "ADDINT -", number, comparison), told)
    };
    let offset = |name, cell: &str, i: i32, number, comparison: &str, told| {
        (name, then_compared(cell, &format!("OFFSETINT {i}"), number, comparison), told)
    };
    let to_the_end = "1073741821..1073741822 0..1";
    let past_the_end = "1073741821..1073741823 0..1";
    let from_the_end = "-1073741823..-1073741822 -1..0";
    let past_the_low_end = "-1073741824..-1073741822 -1..0";
    let all_past = "1073741823 1..2";
    vec![
        of("sum_least", "1..3 10..20", 11, "LEINT", ALWAYS),
        of("sum_not_less", "1..3 10..20", 12, "LEINT", SOMETIMES),
        of("sum_greatest", "1..3 10..20", 23, "GEINT", ALWAYS),
        of("sum_not_more", "1..3 10..20", 22, "GEINT", SOMETIMES),
        of("sum_above", "1..3 10..20", 24, "LEINT", NEVER),
        of("sum_with_a_number_least", "-3..-1 5", 2, "LEINT", ALWAYS),
        of("sum_with_a_number_greatest", "5 -3..-1", 4, "GEINT", ALWAYS),
        of("sum_with_a_number_outside", "5 -3..-1", 5, "EQ", NEVER),
        of("sum_around_0", "-3..3 -2..2", 0, "EQ", SOMETIMES),
        of("sum_to_the_high_end", to_the_end, 1073741821, "LEINT", ALWAYS),
        of("sum_past_the_high_end", past_the_end, 1073741821, "LEINT", SOMETIMES),
        of("sum_past_the_high_end_is_whole", past_the_end, -1073741823, "LEINT", SOMETIMES),
        of("sum_past_the_high_end_is_whole_above", past_the_end, 1073741822, "GEINT", SOMETIMES),
        of("sum_past_the_high_end_is_no_more", past_the_end, -1073741824, "LEINT", ALWAYS),
        of("sum_to_the_low_end", from_the_end, -1073741822, "GEINT", ALWAYS),
        of("sum_past_the_low_end", past_the_low_end, -1073741822, "GEINT", SOMETIMES),
        of("sum_past_the_low_end_is_whole", past_the_low_end, 1073741822, "GEINT", SOMETIMES),
        // wrapped they would all be below 0
        of("sum_all_past_the_high_end", all_past, 0, "GEINT", SOMETIMES),
        of("sum_all_past_the_low_end", "-1073741824 -2..-1", 0, "LEINT", SOMETIMES),
        of("sum_of_the_highest_and_1", "1073741823..1073741823 1..1", LOWEST, "EQ", HOLDS_IN_A_RUN),
        of("sum_of_unknown_and_0", "? 0", LOWEST, "LEINT", ALWAYS),
        of("sum_of_unknown_and_1", "? 1", -1073741823, "LEINT", SOMETIMES),
        of("sum_of_whole_ranges", "? ?", LOWEST, "LEINT", ALWAYS),
        of("sum_of_the_halves", "-1073741824..-1 0..1073741823", 1073741822, "GEINT", ALWAYS),
        offset("offset_least", "0..1008", 1, 1, "LEINT", ALWAYS),
        offset("offset_greatest", "0..1008", 1, 1009, "GEINT", ALWAYS),
        offset("offset_not_more", "0..1008", 1, 1008, "GEINT", SOMETIMES),
        offset("offset_below", "1..1008", -1, 0, "LEINT", ALWAYS),
        offset("offset_to_the_high_end", "0..1008", 1073740815, 1073740815, "LEINT", ALWAYS),
        offset("offset_past_the_high_end", "0..1008", 1073740816, 1073740816, "LEINT", SOMETIMES),
        offset("offset_past_the_low_end", "-1073741824..0", -1, 0, "GTINT", SOMETIMES),
        offset("offset_all_past", "1..2", HIGHEST, 0, "GTINT", SOMETIMES),
        offset("offset_of_one_number", "1073741823..1073741823", 1, LOWEST, "EQ", HOLDS_IN_A_RUN),
        offset("offset_by_0_of_unknown", "?", 0, LOWEST, "LEINT", ALWAYS),
    ]
}

fn differences() -> Vec<Entry> {
    let of = |name, cells: &str, number, comparison: &str, told| {
        (name, then_compared(cells, "SUBINT -", number, comparison), told)
    };
    let to_the_end = "-1..0 -1073741823..-1073741822";
    let past_the_end = "-1..0 -1073741824..-1073741822";
    let past_the_low_end = "-1073741824..-1073741823 0..1";
    vec![
        of("difference_least", "0..5 3..4", -4, "LEINT", ALWAYS),
        of("difference_not_less", "0..5 3..4", -3, "LEINT", SOMETIMES),
        of("difference_greatest", "0..5 3..4", 2, "GEINT", ALWAYS),
        of("difference_not_more", "0..5 3..4", 1, "GEINT", SOMETIMES),
        of("difference_above", "0..5 3..4", 3, "EQ", NEVER),
        of("difference_from_a_number", "10 3..4", 6, "LEINT", ALWAYS),
        of("difference_from_a_number_greatest", "10 3..4", 7, "GEINT", ALWAYS),
        of("difference_of_a_range_and_itself", "3..4 3..4", 0, "EQ", SOMETIMES),
        of("difference_of_ranges_apart", "10..12 3..4", 5, "LTINT", ALWAYS),
        of("difference_to_the_high_end", to_the_end, 1073741821, "LEINT", ALWAYS),
        of("difference_past_the_high_end", past_the_end, 1073741821, "LEINT", SOMETIMES),
        of("difference_past_the_high_end_is_whole", past_the_end, -1073741823, "LEINT", SOMETIMES),
        of("difference_to_the_low_end", "-1073741823 0..1", -1073741823, "GEINT", ALWAYS),
        of("difference_past_the_low_end", past_the_low_end, -1073741823, "GEINT", SOMETIMES),
        of("difference_past_the_low_end_is_whole", past_the_low_end, 1073741822, "GEINT", SOMETIMES),
        of("difference_all_past", "1073741823 -2..-1", 0, "GEINT", SOMETIMES),
        of("difference_of_one_number", "-1073741824..-1073741824 1..1", HIGHEST, "EQ", HOLDS_IN_A_RUN),
        of("difference_of_unknown_and_0", "? 0", LOWEST, "LEINT", ALWAYS),
    ]
}

/// "negations"; BOOLNOT is 1 minus the accumulator.
fn negations() -> Vec<Entry> {
    let of = |name, operation: &str, cell: &str, number, comparison: &str, told| {
        (name, then_compared(cell, &format!("{operation} -"), number, comparison), told)
    };
    vec![
        of("negation_least", "NEGINT", "1..3", -3, "LEINT", ALWAYS),
        of("negation_greatest", "NEGINT", "1..3", -1, "GEINT", ALWAYS),
        of("negation_not_less", "NEGINT", "1..3", -2, "LEINT", SOMETIMES),
        of("negation_around_0", "NEGINT", "-7..3", 7, "GEINT", ALWAYS),
        of("negation_to_the_high_end", "NEGINT", "-1073741823..5", -5, "LEINT", ALWAYS),
        of("negation_past_the_high_end", "NEGINT", "-1073741824..5", -5, "LEINT", SOMETIMES),
        of("negation_past_the_high_end_is_whole", "NEGINT", "-1073741824..-1073741823", 0, "LEINT", SOMETIMES),
        of("negation_of_the_high_end", "NEGINT", "1073741822..1073741823", -1073741822, "GEINT", ALWAYS),
        of("negation_of_one_number", "NEGINT", "-1073741824..-1073741824", LOWEST, "EQ", HOLDS_IN_A_RUN),
        of("negation_of_unknown", "NEGINT", "?", -1073741823, "LEINT", SOMETIMES),
        of("boolnot_of_0_to_1", "BOOLNOT", "0..1", 1, "GEINT", ALWAYS),
        of("boolnot_of_0_to_1_least", "BOOLNOT", "0..1", 0, "LEINT", ALWAYS),
        of("boolnot_of_0_to_1_not_one", "BOOLNOT", "0..1", 0, "EQ", SOMETIMES),
        of("boolnot_of_2_to_3", "BOOLNOT", "2..3", -1, "GEINT", ALWAYS),
        of("boolnot_of_2_to_3_least", "BOOLNOT", "2..3", -2, "LEINT", ALWAYS),
        of("boolnot_to_the_high_end", "BOOLNOT", "-1073741822..0", 1, "LEINT", ALWAYS),
        of("boolnot_past_the_high_end", "BOOLNOT", "-1073741823..0", 1, "LEINT", SOMETIMES),
        of("boolnot_of_the_high_end", "BOOLNOT", "1073741823..1073741823", -1073741822, "EQ", HOLDS_IN_A_RUN),
        of("boolnot_of_unknown", "BOOLNOT", "?", 0, "LEINT", SOMETIMES),
    ]
}

/// "A merge takes the smallest range that covers both."
fn merges() -> Vec<Entry> {
    // The answer of A tells which way; entries 0 and 1 meet at 5, where a number, on the left, is compared with them.
    let code = |number: i32, comparison: &str| -> Vec<String> {
        let compared = [format!("PUSHCONSTINT {number}"), format!("{comparison} -")];
        let before = ["C_CALL1 A", "BRANCHIF 4", "ACC0 -", "BRANCH 5", "ACC1 -"].map(str::to_string);
        let after = ["BRANCHIF 9", "CONST1 -", "STOP -"].map(str::to_string);
        before.into_iter().chain(compared).chain(after).collect()
    };
    let entries = |name, cells: &str, number: i32, comparison: &str, told| {
        let code = code(number, comparison);
        (name, over(&format!("0 {cells}"), &code.iter().map(String::as_str).collect::<Vec<_>>()), told)
    };
    let told = |bound, merge| Three(Report(bound), Report(merge), Refusal(11, 11));
    let run = |bound, merge, run| Three(Report(bound), Report(merge), Report(run));
    // of the bound: it holds on both ways; of the merging bound: it holds, it may not
    let (both, holds, open) = ("20 0 3 13 20 N", "20 0 3 9 20 -", "27 0 3 10 27 -");
    // entry 0 is 3 on one way and 5 to 6 on the other
    let entry = |number: &str, comparison: &str| {
        let before = ["C_CALL1 A", "BRANCHIF 4", "CONSTINT 3", "ASSIGN 0", "ACC0 -"];
        over("0 5..6", &[&before[..], &[number, comparison, "BRANCHIF 9", "CONST1 -", "STOP -"]].concat())
    };
    // and so is a field
    let field = |number: &str, comparison: &str| {
        let before = ["C_CALL1 A", "BRANCHIF 5", "CONSTINT 3", "PUSHACC1 -", "SETFIELD0 -", "ACC0 -", "GETFIELD0 -"];
        let code = [&before[..], &[number, comparison, "BRANCHIF 11", "CONST1 -", "STOP -"]].concat();
        with_fields("0 #0", "5..6", &code)
    };
    let in_a_field = |bound, merge| Three(Report(bound), Report(merge), Refusal(11, 13));
    let beside_a_handle =
        |cells: &str| with_fields(cells, "0", &code(0, "EQ").iter().map(String::as_str).collect::<Vec<_>>());
    let clash = Three(Refusal(7, 6), Refusal(14, 5), Refusal(11, 11));
    vec![
        entries("merge_of_a_range_and_a_number_least", "3..5 8", 3, "LEINT", told(both, holds)),
        entries("merge_of_a_range_and_a_number_not_less", "3..5 8", 4, "LEINT", told("27 0 3 15 27 NN", open)),
        entries("merge_of_a_range_and_a_number_greatest", "3..5 8", 8, "GEINT", told(both, holds)),
        entries("merge_of_a_range_and_a_number_not_more", "3..5 8", 7, "GEINT", told("26 0 3 14 26 T", open)),
        entries("merge_covers_what_is_between", "3..5 8", 6, "NEQ", told(both, open)),
        entries("merge_covers_no_more_above", "3..5 8", 9, "NEQ", told(both, holds)),
        entries("merge_covers_no_more_below", "8 3..5", 2, "NEQ", told(both, holds)),
        entries("merge_of_ranges_that_overlap", "0..5 3..9", 9, "GEINT", told(both, holds)),
        entries("merge_of_ranges_that_overlap_least", "3..9 0..5", 0, "LEINT", told(both, holds)),
        entries("merge_of_a_range_inside_another", "0..9 3..4", 10, "GTINT", told(both, holds)),
        entries("merge_of_equal_ranges", "3..5 3..5", 3, "LEINT", told(both, holds)),
        entries("merge_of_ranges_with_a_gap", "0..1 4..5", 2, "NEQ", told(both, open)),
        entries("merge_of_a_range_and_unknown", "? 3..4", 0, "LEINT", told("27 0 3 15 27 NN", open)),
        entries("merge_of_a_range_and_unknown_is_whole", "3..4 ?", LOWEST, "LEINT", told(both, holds)),
        entries("merge_of_numbers", "3 5", 2, "LTINT", run(both, holds, "20 0 3 8")),
        entries("merge_of_numbers_covers_what_is_between", "3 5", 4, "NEQ", run(both, open, "20 0 3 8")),
        entries("merge_of_numbers_covers_no_more", "5 3", 6, "NEQ", run(both, holds, "20 0 3 8")),
        entries("merge_of_one_number_and_a_range_of_it", "5 5..5", 5, "EQ", run(both, holds, "20 0 3 8")),
        entries("merge_of_the_ends", "-1073741824 1073741823", 0, "NEQ", run(both, open, "20 0 3 8")),
        ("merge_in_an_entry_least", entry("PUSHCONSTINT 3", "LEINT -"), told("21 0 2 14 21 N", "21 0 2 9 21 -")),
        ("merge_in_an_entry_between", entry("PUSHCONSTINT 4", "NEQ -"), told("21 0 2 14 21 N", "28 0 2 10 28 -")),
        ("merge_in_a_field_least", field("PUSHCONSTINT 3", "LEINT -"), in_a_field("23 0 2 17 23 N", "23 0 2 11 23 -")),
        ("merge_in_a_field_between", field("PUSHCONSTINT 4", "NEQ -"), in_a_field("23 0 2 17 23 N", "30 0 2 12 30 -")),
        ("handle_beside_a_range", beside_a_handle("0 #0 3..5"), clash),
        ("range_beside_a_handle", beside_a_handle("0 3..5 #0"), Three(Refusal(7, 6), Refusal(14, 5), Refusal(11, 11))),
    ]
}

/// Both ways of a branch keep the range; a way that is not open is no opening, no step and never stuck; and the client count of the field
/// sheet.
fn ways() -> Vec<Entry> {
    let stuck_behind = |cell: &str| over(cell, &["BRANCHIF 2", "ACC0 -", "STOP -"]);
    let budget = |cell: &str| over(cell, &["BRANCHIF 1", "STOP -"]).replacen("1000 1000", "2 1000", 1);
    let of_branches = |count, cell: &str| branches(count).replacen('?', cell, 1);
    let panel =
        |count: &str| include_str!("../../examples/alarm-panel.txt").replacen("#1 ?", &format!("#1 {count}"), 1);
    let known = Report("6 0 0 2 6 -");
    let last_way_taken = Report("161 0 0 65 161 NNNNNNNNNNNNNNNNNNNNNNNNNNNNNNNT");
    let all_clients = Three(Report("7423 17 4 73 186 NTN"), Report("7423 17 4 39 186 -"), Refusal(11, 11));
    let too_many = Three(Report("8233 17 4 99 206 NNNN"), Report("8233 17 4 39 206 -"), Refusal(11, 11));
    vec![
        (
            "no_narrowing",
            over("0..1", &["BRANCHIF 1", "BRANCHIF 2", "STOP -"]),
            Three(Report("11 0 0 7 11 TT"), Report("11 0 0 3 11 -"), Refusal(11, 11)),
        ),
        ("stuck_on_a_way_that_is_open", stuck_behind("0..2"), Three(Refusal(7, 1), Refusal(7, 1), Refusal(11, 11))),
        ("stuck_on_a_way_that_is_not_open", stuck_behind("1..2"), Three(known, known, Refusal(11, 11))),
        ("budget_2_of_two_ways", budget("0..9"), Three(Refusal(9, 1), known, Refusal(11, 11))),
        ("budget_2_of_one_way", budget("1..9"), Three(known, known, Refusal(11, 11))),
        (
            "openings_32_of_a_range",
            of_branches(32, "0..1"),
            Three(last_way_taken, Report("161 0 0 33 161 -"), Refusal(11, 11)),
        ),
        (
            "openings_33_of_a_range",
            of_branches(33, "-1..0"),
            Three(Refusal(8, 32), Report("166 0 0 34 166 -"), Refusal(11, 11)),
        ),
        ("no_opening_of_a_range_without_0", of_branches(33, "1..2"), Three(known, known, Refusal(11, 11))),
        ("alarm_panel_any_count", panel("-1073741824..1073741823"), too_many),
        ("alarm_panel_0_to_1008", panel("0..1008"), all_clients),
        ("alarm_panel_0_to_1009", panel("0..1009"), too_many),
        (
            "alarm_panel_1009",
            panel("1009..1009"),
            Three(Report("8233 17 4 89 206 NNN"), Report("8233 17 4 33 206 -"), Refusal(11, 13)),
        ),
    ]
}

/// Ranges of a few numbers around 0 and at the ends of the range of numbers.
fn small_ranges() -> Vec<Range> {
    let near = |from: i32, to: i32| (from..=to).flat_map(move |low| (low..=to).map(move |high| Range { low, high }));
    near(-3, 3).chain(near(LOWEST, LOWEST + 2)).chain(near(HIGHEST - 2, HIGHEST)).collect()
}

/// Every operation on every two small ranges gives what the operation on all pairs of their numbers comes to.
pub fn pair_by_pair() -> Result<(), String> {
    use Operator::*;
    let ranges = small_ranges();
    for operator in [Add, Subtract, Equal, Unequal, Less, LessOrEqual, Greater, GreaterOrEqual] {
        for (left, right) in ranges.iter().flat_map(|left| ranges.iter().map(move |right| (*left, *right))) {
            if left.is_one() && right.is_one() {
                continue;
            }
            let pairs = (left.low..=left.high).flat_map(|x| (right.low..=right.high).map(move |y| (x, y)));
            let results: Vec<i64> = pairs
                .map(|(x, y)| match operator {
                    Add => x as i64 + y as i64,
                    Subtract => x as i64 - y as i64,
                    _ => operator.of(Tagged::of(x), Tagged::of(y)).number() as i64,
                })
                .collect();
            let (least, greatest) = (*results.iter().min().unwrap(), *results.iter().max().unwrap());
            let wanted = if results.iter().all(|n| is_number(*n)) {
                Range { low: least as i32, high: greatest as i32 }
            } else {
                Range::WHOLE
            };
            let found = left.operated(operator, right);
            if found != wanted {
                return Err(format!("{operator:?} of {left:?} and {right:?} is {found:?}, not {wanted:?}"));
            }
        }
    }
    Ok(())
}
