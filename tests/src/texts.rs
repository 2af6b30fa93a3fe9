//! Texts that the reader must tell apart: valid ones, and one with a fault for each sentence of document 01 and of change requests 1 and 8
//! on the routine file; and routines in which a jump costs more. Each is a base with one change, and beside it stands the answer read from
//! these papers; a base may itself be a text with a fault.
use crate::cases::published;
use crate::change::Base::{File, Named};
use crate::change::Change::{FirstBytes, FirstLines, Nothing, Without};
use crate::change::Told::{Refusal, Report};
use crate::change::{append, line, lines, made, refused, word, Base, Entry, Text};
use crate::draft::{Arg, Draft};
use crate::routine::KINDS;
use crate::tagged::LOWEST;

/// How many there are.
pub const TEXTS: usize = 349;

const PUBLISHED: Base = File(published);
/// Two blocks, two primitives, answers, and numbers at the ends of their ranges; stuck at 60001, its second line.
const LARGER: Base = File(|| LARGER_FILE.to_string());
const STOP: Base = File(|| STOP_ALONE.to_string());
/// Arguments at the ends of their ranges; stuck at its first line.
const ENDS: Base = File(|| ARGUMENTS_AT_THEIR_ENDS.to_string());
/// As many bytes as a file may have; stuck at its 65th push.
const FULL: Base = File(full);
/// The published file with another branch.
const PUBLISHED_NOT: Base = File(|| published().replace("BRANCHIF", "BRANCHIFNOT"));
const PUBLISHED_BRANCH: Base = File(|| published().replace("BRANCHIF", "BRANCH"));
/// Both conditional branches on one unknown, each with an extra.
const BRANCHES: Base = File(|| TWO_BRANCHES.to_string());

pub(crate) const LARGER_FILE: &str = "\
BUDGET TICK
1000000 4000000000
PUSH ACC BRANCHIFNOT OFFSETINT BRANCH SETFIELD C_CALL2 STOP
65535 0 3 4 5 6 7 8
255 0 0 0 0 0 0 0
0 0 65535 0 0 0 0 0
READ STOP
65535 0
255 0
ACCU S0 S1
5 7 -1073741824
B0.0 B0.1 B1.0
1073741823 #0 #1
AT OP ARG
60000 PUSH -
60001 ACC 63
60002 BRANCHIFNOT 60005
60003 OFFSETINT -1073741824
60004 BRANCH 60006
60005 SETFIELD 15
60006 C_CALL2 STOP
60007 STOP -
ANSWER
1073741823
-1073741824
";

const STOP_ALONE: &str = "\
BUDGET TICK
1 1
STOP
0
0
0
-
-
-
ACCU
0
-
-
AT OP ARG
0 STOP -
";

const ARGUMENTS_AT_THEIR_ENDS: &str = "\
BUDGET TICK
1000 1000
ACC PUSHACC ASSIGN POP CONSTINT PUSHCONSTINT GETFIELD SETFIELD
0 0 0 0 0 0 0 0
0 0 0 0 0 0 0 0
0 0 0 0 0 0 0 0
-
-
-
ACCU
0
-
-
AT OP ARG
0 ACC 0
1 PUSHACC 63
2 ASSIGN 63
3 POP 64
4 CONSTINT 1073741823
5 PUSHCONSTINT -1073741824
6 GETFIELD 15
7 SETFIELD 0
";

const TWO_BRANCHES: &str = "\
BUDGET TICK
1000 1000
BRANCHIF BRANCHIFNOT OFFSETINT BRANCH STOP
1 1 5 1 1
2 0 0 0 0
2 3 0 0 0
-
-
-
ACCU
?
-
-
AT OP ARG
0 BRANCHIF 3
1 OFFSETINT 1
2 STOP -
3 BRANCHIFNOT 4
4 STOP -
";

fn full() -> String {
    let names = (0..13).map(|i| format!("READ_{i:03}")).chain(["READ_A", "AB"].map(str::to_string));
    Draft {
        budget: 1000,
        tick: 1000,
        kinds: vec![("PUSHCONSTINT".to_string(), [1, 1, 0])],
        primitives: names.map(|name| (name, [0, 0])).collect(),
        cells: vec!["0".to_string()],
        blocks: Vec::new(),
        first: 10_000,
        code: vec![("PUSHCONSTINT", Arg::Number(LOWEST as i64)); 1024],
        answers: vec![LOWEST; 64],
    }
    .text()
}

fn joined(words: impl IntoIterator<Item = String>) -> String {
    words.into_iter().collect::<Vec<_>>().join(" ")
}

fn zeros(count: usize) -> String {
    vec!["0"; count].join(" ")
}

/// Names, and under them lines of zeros.
fn priced(names: String, lines: usize) -> String {
    let prices = format!("\n{}", zeros(names.split(' ').count()));
    format!("{names}{}", prices.repeat(lines))
}

/// All kinds, in another order than the document's.
fn all_kinds() -> String {
    priced(joined(KINDS.iter().rev().map(|kind| kind.0.to_string())), 3)
}

/// STOP, then letters from A on, again and again: most are no kinds.
fn letters(count: u8) -> String {
    let letters = (0..count - 1).map(|i| char::from(b'A' + i % 26).to_string());
    priced(joined(["STOP".to_string()].into_iter().chain(letters)), 3)
}

fn primitives(count: usize) -> String {
    priced(joined(["READ".to_string()].into_iter().chain((1..count).map(|i| format!("P{i}")))), 2)
}

/// The accumulator and entries, all 0.
fn cells(entries: usize) -> String {
    format!("ACCU {}\n{}", joined((0..entries).map(|i| format!("S{i}"))), zeros(entries + 1))
}

/// The fields of one block, all 0.
fn fields(count: usize) -> String {
    format!("{}\n{}", joined((0..count).map(|i| format!("B0.{i}"))), zeros(count))
}

/// Lines of STOP, from an address on.
fn stops(first: usize, count: usize) -> String {
    (first..first + count).map(|at| format!("{at} STOP -")).collect::<Vec<_>>().join("\n")
}

fn answers(count: usize) -> String {
    format!("ANSWER\n{}", "7\n".repeat(count))
}

pub fn texts() -> Vec<Text> {
    made(
        [
            accepted(),
            sizes(),
            layout(),
            spelling(),
            ranges(),
            names(),
            prices_and_targets(),
            extras(),
            taken_jumps(),
            calls(),
            jumps_backwards(),
            unknowns(),
            rows_in_order(),
            lines_in_order(),
            one_line(),
        ]
        .into_iter()
        .flatten()
        .collect(),
    )
}

/// Files that pass every row; what the routine then does is told.
fn accepted() -> Vec<Entry> {
    vec![
        ("published_file", PUBLISHED, Nothing, [Report("65 4 1 6 65 N"), Refusal(11, 11)]),
        ("larger_file", LARGER, Nothing, refused(7, 60001)),
        ("stop_alone", STOP, Nothing, [Report("0 0 0 1 0 -"), Report("0 0 0 1")]),
        ("no_unknown", PUBLISHED, word(11, 2, "0"), [Report("65 4 1 6 65 N"), Report("65 4 1 5")]),
        ("handle_0", PUBLISHED, lines(11, 13, "#0 0\nB0.0\n-1"), [Report("65 4 1 6 65 N"), Report("65 4 1 5")]),
        ("cells_to_s31", PUBLISHED, lines(10, 11, cells(32)), [Report("65 4 32 6 65 N"), Report("65 4 32 5")]),
        ("sixteen_fields", PUBLISHED, lines(12, 13, fields(16)), [Report("65 4 1 6 65 N"), Refusal(11, 11)]),
        (
            "eight_blocks",
            PUBLISHED,
            lines(11, 13, "#7 0\nB0.0 B1.0 B2.0 B3.0 B4.0 B5.0 B6.0 B7.0\n#0 #1 #2 #3 #4 #5 #6 #7"),
            [Report("65 4 1 6 65 N"), Report("65 4 1 5")],
        ),
        ("primitives_32", PUBLISHED, lines(7, 9, primitives(32)), [Report("25 0 1 6 25 N"), Refusal(11, 11)]),
        (
            "primitive_stop",
            PUBLISHED,
            lines(7, 15, "STOP A_1\n0 0\n0 0\nACCU\n0\n-\n-\nAT OP ARG\n0 C_CALL1 STOP"),
            refused(7, 3),
        ),
        (
            "primitive_of_eight",
            PUBLISHED,
            lines(7, 15, "ABCDEFG_\n0\n0\nACCU\n0\n-\n-\nAT OP ARG\n0 C_CALL1 ABCDEFG_"),
            refused(7, 3),
        ),
        (
            "first_address_60000",
            PUBLISHED,
            lines(15, 19, "60000 BRANCHIF 60001\n60001 STOP -"),
            [Report("6 0 1 2 6 -"), Refusal(11, 11)],
        ),
        ("one_answer", PUBLISHED, append("ANSWER\n0\n"), [Report("65 4 1 6 65 N"), Refusal(11, 11)]),
        ("arguments_at_their_ends", ENDS, Nothing, refused(7, 0)),
        ("all_61_kinds", PUBLISHED, lines(3, 6, all_kinds()), [Report("40 4 1 6 40 T"), Refusal(11, 11)]),
    ]
}

/// "at most 32,768 bytes"; "1 to 1,024 lines"; "1 to 64 lines of one number".
fn sizes() -> Vec<Entry> {
    vec![
        ("bytes_32768", FULL, Nothing, refused(7, 10064)),
        ("bytes_32769", FULL, word(2, 1, "10000"), refused(1, 0)),
        ("bytes_32769_and_misspelt", FULL, word(2, 1, "01000"), refused(1, 0)),
        ("bytes_32769_and_budget_0", FULL, line(2, "0 10000000"), refused(1, 0)),
        ("bytes_32768_and_budget_0", FULL, line(2, "0 1000000"), refused(3, 2)),
        ("answers_in_32768_bytes", STOP, append(answers(16349)), refused(2, 81)),
        ("answers_in_32770_bytes", STOP, append(answers(16350)), refused(1, 0)),
        ("code_in_more_than_32768_bytes", STOP, line(15, stops(0, 2830)), refused(1, 0)),
        ("code_lines_1024", STOP, line(15, stops(0, 1024)), [Report("0 0 0 1 0 -"), Report("0 0 0 1")]),
        ("code_lines_1025", Named("code_lines_1024"), append("1024 STOP -\n"), refused(2, 1039)),
        (
            "code_lines_1024_and_an_answer",
            Named("code_lines_1024"),
            append("ANSWER\n7\n"),
            [Report("0 0 0 1 0 -"), Report("0 0 0 1")],
        ),
        ("code_lines_1025_and_an_answer", Named("code_lines_1025"), append("ANSWER\n7\n"), refused(2, 1039)),
        ("code_lines_1025_from_60001", STOP, line(15, stops(60001, 1025)), refused(2, 1039)),
        ("last_address_61023", STOP, line(15, stops(60000, 1024)), [Report("0 0 0 1 0 -"), Report("0 0 0 1")]),
        ("answers_64", STOP, append(answers(64)), [Report("0 0 0 1 0 -"), Report("0 0 0 1")]),
        ("answers_65", Named("answers_64"), append("7\n"), refused(2, 81)),
    ]
}

/// Row 2, layout, counts and ARG: "Each line ends in a line feed; words are parted by one space"; "A missing line has the number it
/// would have".
fn layout() -> Vec<Entry> {
    vec![
        ("no_text", PUBLISHED, FirstBytes(0), refused(2, 1)),
        ("a_line_feed_alone", Named("no_text"), append("\n"), refused(2, 1)),
        ("budget_line_alone", PUBLISHED, FirstLines(1), refused(2, 2)),
        ("no_last_line_feed", PUBLISHED, FirstBytes(183), refused(2, 19)),
        ("no_line_feed_at_all", PUBLISHED, FirstBytes(11), refused(2, 1)),
        ("no_line_feed_at_line_2", PUBLISHED, FirstBytes(21), refused(2, 2)),
        ("empty_list_alone", Named("no_text"), append("-\n"), refused(2, 1)),
        ("empty_line_at_the_end", PUBLISHED, append("\n"), refused(2, 20)),
        ("empty_line_between", PUBLISHED, line(5, ""), refused(2, 5)),
        ("leading_space", PUBLISHED, line(2, " 1000 1000"), refused(2, 2)),
        ("trailing_space", PUBLISHED, line(10, "ACCU S0 "), refused(2, 10)),
        ("double_space_in_names", PUBLISHED, line(3, "C_CALL1  STOP"), refused(2, 3)),
        ("double_space_in_code", PUBLISHED, line(17, "2  CONST2 -"), refused(2, 17)),
        ("double_space_unknown_op", PUBLISHED, line(17, "2 CONST9  -"), refused(2, 17)),
        ("carriage_return", PUBLISHED, word(2, 2, b"1000\r"), refused(2, 2)),
        ("tab_for_a_space", PUBLISHED, line(19, b"4\tSTOP -"), refused(2, 19)),
        ("nothing_after_line_14", PUBLISHED, FirstLines(14), refused(2, 15)),
        ("nothing_after_line_13", PUBLISHED, FirstLines(13), refused(2, 14)),
        ("nothing_after_answer", PUBLISHED, append("ANSWER\n"), refused(2, 21)),
        ("line_left_out", PUBLISHED, Without(13), refused(2, 13)),
        ("small_letters_in_budget", PUBLISHED, word(1, 1, "Budget"), refused(2, 1)),
        ("tick_before_budget", PUBLISHED, line(1, "TICK BUDGET"), refused(2, 1)),
        ("zero_byte_in_budget_tick", PUBLISHED, word(1, 2, b"TICK\0"), refused(2, 1)),
        ("one_limit", PUBLISHED, line(2, "1000"), refused(2, 2)),
        ("three_limits", PUBLISHED, line(2, "1000 1000 1000"), refused(2, 2)),
        ("empty_limits", PUBLISHED, line(2, "-"), refused(2, 2)),
        ("code_header_wrong", PUBLISHED, word(14, 3, "ARGS"), refused(2, 14)),
        ("code_header_byte_128", PUBLISHED, word(14, 3, b"\x80ARG"), refused(2, 14)),
        ("answer_misspelt", PUBLISHED, append("ANSWERS\n7\n"), refused(2, 20)),
        ("answer_at_line_15", PUBLISHED, line(15, "ANSWER"), refused(2, 15)),
        ("answer_in_place_of_stop", PUBLISHED, line(19, "ANSWER"), refused(2, 20)),
        ("second_answer_line", PUBLISHED, append("ANSWER\n7\nANSWER\n8\n"), refused(2, 22)),
        ("code_after_answers", PUBLISHED, append("ANSWER\n7\n5 STOP -\n"), refused(2, 22)),
        ("empty_line_after_answers", LARGER, line(25, "7\n"), refused(2, 26)),
        ("two_numbers_in_an_answer", PUBLISHED, append("ANSWER\n7 8\n"), refused(2, 21)),
        ("empty_list_of_answers", PUBLISHED, append("ANSWER\n-\n"), refused(2, 21)),
        ("no_cells", PUBLISHED, line(10, "-"), refused(2, 10)),
        ("no_values_of_cells", PUBLISHED, line(11, "-"), refused(2, 11)),
        ("four_cycles_for_five_kinds", PUBLISHED, line(4, "10 5 2 7"), refused(2, 4)),
        ("six_words_for_five_kinds", PUBLISHED, line(5, "0 0 0 0 0 0"), refused(2, 5)),
        ("no_kinds_with_values", PUBLISHED, line(3, "-"), refused(2, 4)),
        ("kinds_with_no_cycles", PUBLISHED, line(4, "-"), refused(2, 4)),
        ("no_primitives_with_values", PUBLISHED, word(7, 1, "-"), refused(2, 8)),
        ("a_primitive_with_no_words", PUBLISHED, word(9, 1, "-"), refused(2, 9)),
        ("fields_with_no_values", PUBLISHED, word(12, 1, "B0.0"), refused(2, 13)),
        ("values_with_no_fields", PUBLISHED, word(13, 1, "0"), refused(2, 13)),
        ("primitives_33", PUBLISHED, lines(7, 9, primitives(33)), refused(2, 7)),
        ("code_line_of_two_words", PUBLISHED, line(17, "2 CONST2"), refused(2, 17)),
        ("code_line_of_four_words", PUBLISHED, line(17, "2 CONST2 - -"), refused(2, 17)),
        ("unknown_op_with_no_arg", PUBLISHED, line(17, "2 CONST9"), refused(2, 17)),
        ("arg_missing", PUBLISHED, word(16, 3, "-"), refused(2, 16)),
        ("primitive_missing", PUBLISHED, word(15, 3, "-"), refused(2, 15)),
        ("arg_not_called_for", PUBLISHED, word(17, 3, "2"), refused(2, 17)),
        ("name_as_a_target", PUBLISHED, word(16, 3, "STOP"), refused(2, 16)),
        ("unknown_as_a_target", PUBLISHED, word(16, 3, "?"), refused(2, 16)),
        ("handle_as_an_argument", LARGER, word(16, 3, "#1"), refused(2, 16)),
        ("no_address", LARGER, word(17, 1, "-"), refused(2, 17)),
    ]
}

/// Row 2, spelling: "Numbers are decimal, no leading zero, no `-0`".
fn spelling() -> Vec<Entry> {
    vec![
        ("leading_zero_in_budget", PUBLISHED, word(2, 1, "01000"), refused(2, 2)),
        ("leading_zero_in_words", PUBLISHED, word(9, 1, "04"), refused(2, 9)),
        ("two_zeros", PUBLISHED, word(5, 3, "00"), refused(2, 5)),
        ("minus_zero", PUBLISHED, word(11, 1, "-0"), refused(2, 11)),
        ("minus_alone", PUBLISHED, word(4, 3, "-"), refused(2, 4)),
        ("plus_sign", PUBLISHED, word(8, 1, "+40"), refused(2, 8)),
        ("two_minuses", PUBLISHED, word(11, 1, "--1"), refused(2, 11)),
        ("minus_and_leading_zero", PUBLISHED, word(11, 1, "-01"), refused(2, 11)),
        ("hexadecimal", PUBLISHED, word(2, 2, "0x3E8"), refused(2, 2)),
        ("letter_after_digits", PUBLISHED, word(9, 1, "4w"), refused(2, 9)),
        ("comma_in_a_number", PUBLISHED, word(2, 1, "1,000"), refused(2, 2)),
        ("byte_255_in_a_number", PUBLISHED, word(8, 1, b"4\xff0"), refused(2, 8)),
        ("zero_byte_in_a_number", PUBLISHED, word(8, 1, b"40\0"), refused(2, 8)),
        ("unknown_price", PUBLISHED, word(4, 3, "?"), refused(2, 4)),
        ("handle_as_a_price", PUBLISHED, word(4, 3, "#0"), refused(2, 4)),
        ("unknown_answer", PUBLISHED, append("ANSWER\n?\n"), refused(2, 21)),
        ("handle_alone", PUBLISHED, line(11, "# 0"), refused(2, 11)),
        ("handle_of_a_letter", PUBLISHED, line(11, "#x 0"), refused(2, 11)),
        ("handle_with_leading_zero", PUBLISHED, line(11, "#01 0"), refused(2, 11)),
        ("handle_minus_zero", PUBLISHED, line(11, "#-0 0"), refused(2, 11)),
        ("handle_of_unknown", PUBLISHED, line(11, "#? 0"), refused(2, 11)),
        ("two_question_marks", PUBLISHED, line(11, "?? 0"), refused(2, 11)),
        ("leading_zero_in_an_address", PUBLISHED, word(16, 1, "01"), refused(2, 16)),
    ]
}

/// Row 3: "number outside its range", thirty digits and a minus too.
fn ranges() -> Vec<Entry> {
    vec![
        ("budget_0", PUBLISHED, word(2, 1, "0"), refused(3, 2)),
        ("budget_1000001", PUBLISHED, word(2, 1, "1000001"), refused(3, 2)),
        ("budget_minus_1", PUBLISHED, word(2, 1, "-1"), refused(3, 2)),
        ("tick_0", PUBLISHED, word(2, 2, "0"), refused(3, 2)),
        ("tick_4000000001", PUBLISHED, word(2, 2, "4000000001"), refused(3, 2)),
        ("tick_of_thirty_digits", PUBLISHED, word(2, 2, "123456789012345678901234567890"), refused(3, 2)),
        ("cycles_65536", PUBLISHED, word(4, 3, "65536"), refused(3, 4)),
        ("cycles_minus_1", PUBLISHED, word(4, 5, "-1"), refused(3, 4)),
        ("words_256", PUBLISHED, word(5, 3, "256"), refused(3, 5)),
        ("primitive_cycles_65536", PUBLISHED, word(8, 1, "65536"), refused(3, 8)),
        ("primitive_words_256", PUBLISHED, word(9, 1, "256"), refused(3, 9)),
        ("cell_1073741824", PUBLISHED, word(11, 1, "1073741824"), refused(3, 11)),
        ("cell_minus_1073741825", PUBLISHED, word(11, 2, "-1073741825"), refused(3, 11)),
        // numbers of 32 bits, which were within the range before change request 7
        ("cell_2147483647", PUBLISHED, word(11, 1, "2147483647"), refused(3, 11)),
        ("field_1073741824", LARGER, word(13, 1, "1073741824"), refused(3, 13)),
        ("field_minus_2147483648", LARGER, word(13, 1, "-2147483648"), refused(3, 13)),
        ("constint_1073741824", ENDS, word(19, 3, "1073741824"), refused(3, 19)),
        ("pushconstint_minus_1073741825", ENDS, word(20, 3, "-1073741825"), refused(3, 20)),
        ("offsetint_minus_2147483648", LARGER, word(18, 3, "-2147483648"), refused(3, 18)),
        ("answer_2147483647", LARGER, word(24, 1, "2147483647"), refused(3, 24)),
        ("cell_of_minus_thirty_digits", PUBLISHED, word(11, 2, "-123456789012345678901234567890"), refused(3, 11)),
        ("handle_8", PUBLISHED, word(11, 1, "#8"), refused(3, 11)),
        ("handle_minus_1", PUBLISHED, word(11, 1, "#-1"), refused(3, 11)),
        ("handle_of_thirty_digits", PUBLISHED, word(11, 1, "#123456789012345678901234567890"), refused(3, 11)),
        ("field_of_2_to_the_64", LARGER, line(13, "0 18446744073709551616 0"), refused(3, 13)),
        ("field_handle_8", LARGER, line(13, "0 #8 0"), refused(3, 13)),
        ("first_address_60001", PUBLISHED, lines(15, 19, "60001 STOP -"), refused(3, 15)),
        ("first_address_minus_1", PUBLISHED, lines(15, 19, "-1 STOP -"), refused(3, 15)),
        ("address_62001", PUBLISHED, word(17, 1, "62001"), refused(3, 17)),
        ("address_minus_1", PUBLISHED, word(17, 1, "-1"), refused(3, 17)),
        ("address_of_2_to_the_32", PUBLISHED, word(16, 1, "4294967297"), refused(3, 16)),
        ("target_62001", PUBLISHED, word(16, 3, "62001"), refused(3, 16)),
        ("target_minus_1", PUBLISHED, word(16, 3, "-1"), refused(3, 16)),
        ("acc_64", LARGER, word(16, 3, "64"), refused(3, 16)),
        ("acc_minus_1", LARGER, word(16, 3, "-1"), refused(3, 16)),
        ("pop_65", LARGER, line(16, "60001 POP 65"), refused(3, 16)),
        ("assign_64", LARGER, line(16, "60001 ASSIGN 64"), refused(3, 16)),
        ("pushacc_64", LARGER, line(16, "60001 PUSHACC 64"), refused(3, 16)),
        ("getfield_16", LARGER, line(20, "60005 GETFIELD 16"), refused(3, 20)),
        ("setfield_16", LARGER, word(20, 3, "16"), refused(3, 20)),
        ("offsetint_1073741824", LARGER, word(18, 3, "1073741824"), refused(3, 18)),
        ("constint_minus_1073741825", LARGER, line(18, "60003 CONSTINT -1073741825"), refused(3, 18)),
        ("answer_1073741824", LARGER, word(24, 1, "1073741824"), refused(3, 24)),
        ("answer_minus_1073741825", LARGER, word(25, 1, "-1073741825"), refused(3, 25)),
    ]
}

/// Row 4: "name unknown, repeated or out of sequence; handle to an absent block; AT not following".
fn names() -> Vec<Entry> {
    vec![
        ("unknown_kind", PUBLISHED, line(3, "C_CALL1 BRANCHIF CONST4 EQ STOP"), refused(4, 3)),
        ("repeated_kind", PUBLISHED, word(3, 4, "STOP"), refused(4, 3)),
        ("small_letters_in_a_kind", PUBLISHED, word(3, 5, "Stop"), refused(4, 3)),
        ("byte_128_in_a_kind", PUBLISHED, word(3, 5, b"STOP\x80"), refused(4, 3)),
        ("minus_among_kinds", PUBLISHED, word(3, 2, "-"), refused(4, 3)),
        ("minus_among_primitives", PUBLISHED, lines(7, 9, "- READ\n1 1\n1 1"), refused(4, 7)),
        ("kinds_62", PUBLISHED, lines(3, 6, letters(62)), refused(4, 3)),
        ("primitive_of_nine", PUBLISHED, word(7, 1, "READ56789"), refused(4, 7)),
        ("primitive_digit_first", PUBLISHED, word(7, 1, "1READ"), refused(4, 7)),
        ("primitive_underscore_first", PUBLISHED, word(7, 1, "_READ"), refused(4, 7)),
        ("primitive_in_small_letters", PUBLISHED, word(7, 1, "Read"), refused(4, 7)),
        ("byte_255_in_a_primitive", PUBLISHED, word(7, 1, b"READ\xff"), refused(4, 7)),
        ("repeated_primitive", PUBLISHED, lines(7, 9, "READ READ\n1 1\n1 1"), refused(4, 7)),
        ("line_10_without_accu", PUBLISHED, line(10, "S0 S1"), refused(4, 10)),
        ("cell_left_out", PUBLISHED, word(10, 2, "S1"), refused(4, 10)),
        ("cell_s00", PUBLISHED, word(10, 2, "S00"), refused(4, 10)),
        ("minus_among_cells", PUBLISHED, word(10, 1, "-"), refused(4, 10)),
        ("cell_s32", PUBLISHED, lines(10, 11, cells(33)), refused(4, 10)),
        ("field_left_out", LARGER, word(12, 2, "B0.2"), refused(4, 12)),
        ("block_left_out", LARGER, word(12, 3, "B2.0"), refused(4, 12)),
        ("block_1_first", LARGER, line(12, "B1.0 B1.1 B1.2"), refused(4, 12)),
        ("block_from_field_1", LARGER, word(12, 3, "B1.1"), refused(4, 12)),
        ("repeated_field", LARGER, word(12, 2, "B0.0"), refused(4, 12)),
        ("field_00", LARGER, word(12, 1, "B0.00"), refused(4, 12)),
        ("field_after_the_next_block", LARGER, line(12, "B0.0 B1.0 B0.1"), refused(4, 12)),
        ("field_b0_16", PUBLISHED, lines(12, 13, fields(17)), refused(4, 12)),
        (
            "field_b8_0",
            PUBLISHED,
            lines(12, 13, "B0.0 B1.0 B2.0 B3.0 B4.0 B5.0 B6.0 B7.0 B8.0\n0 0 0 0 0 0 0 0 0"),
            refused(4, 12),
        ),
        ("handle_and_no_block", PUBLISHED, line(11, "#0 0"), refused(4, 11)),
        ("absent_block_in_a_cell", LARGER, line(11, "#2 7 0"), refused(4, 11)),
        ("absent_block_in_a_field", LARGER, line(13, "0 #0 #2"), refused(4, 13)),
        ("block_after_a_bad_name", LARGER, lines(11, 13, "#1 7 0\nB0.0 B1.1 B1.0\n0 0 0"), refused(4, 11)),
        ("block_before_a_bad_name", Named("block_after_a_bad_name"), line(12, "B0.0 B1.0 B1.2"), refused(4, 12)),
        ("unknown_op", PUBLISHED, word(17, 2, "CONST4"), refused(4, 17)),
        ("unknown_op_strange_arg", PUBLISHED, line(17, b"2 CONST4 \0\xff#?-0"), refused(4, 17)),
        ("byte_0_in_an_op", PUBLISHED, word(17, 2, b"CONST2\0"), refused(4, 17)),
        ("call_of_an_absent_name", PUBLISHED, word(15, 3, "WRITE"), refused(4, 15)),
        ("call_with_no_primitives", PUBLISHED, lines(7, 9, "-\n-\n-"), refused(4, 15)),
        ("call_of_byte_128", PUBLISHED, word(15, 3, b"\x80"), refused(4, 15)),
        ("call_of_a_number", PUBLISHED, word(15, 3, "7"), refused(4, 15)),
        ("address_left_out", PUBLISHED, word(19, 1, "5"), refused(4, 19)),
        ("address_repeated", PUBLISHED, word(16, 1, "0"), refused(4, 16)),
        ("address_that_falls", LARGER, word(16, 1, "59999"), refused(4, 16)),
        ("address_62000", LARGER, word(22, 1, "62000"), refused(4, 22)),
        ("answer_as_an_op", PUBLISHED, append("5 ANSWER -\n"), refused(4, 20)),
    ]
}

/// Row 5, "kind in the code without a price", and row 6, "target not an address of the code"; in lines that are not reached too.
fn prices_and_targets() -> Vec<Entry> {
    vec![
        ("no_kinds", PUBLISHED, lines(3, 6, "-\n-\n-\n-"), refused(5, 15)),
        (
            "stop_without_a_price",
            PUBLISHED,
            lines(3, 6, "C_CALL1 BRANCHIF CONST2 ADDINT\n10 5 2 7\n0 0 0 0\n0 0 0 0"),
            refused(5, 19),
        ),
        ("unpriced_first_line", PUBLISHED, word(15, 2, "C_CALL2"), refused(5, 15)),
        ("unpriced_and_not_reached", PUBLISHED, append("5 PUSH -\n"), refused(5, 20)),
        ("unpriced_with_an_argument", PUBLISHED, line(17, "2 CONSTINT 5"), refused(5, 17)),
        ("target_5", PUBLISHED, word(16, 3, "5"), refused(6, 16)),
        ("target_62000", PUBLISHED, word(16, 3, "62000"), refused(6, 16)),
        ("target_before_the_code", LARGER, word(19, 3, "59999"), refused(6, 19)),
        ("target_0", LARGER, word(19, 3, "0"), refused(6, 19)),
        ("target_after_the_code", LARGER, word(17, 3, "60008"), refused(6, 17)),
        ("target_not_reached", PUBLISHED, append("5 BRANCHIF 6\n"), refused(6, 20)),
    ]
}

/// Change request 1: "a third line of values: extra cycles when BRANCHIF or BRANCHIFNOT jumps, 0 to 65,535. Other kinds must hold 0 there,
/// or refusal 3. Later lines of the file move down by one".
fn extras() -> Vec<Entry> {
    let sixth_kind = |name: &str, extra: &str| {
        let names = format!("C_CALL1 BRANCHIF CONST2 ADDINT STOP {name}");
        lines(3, 6, format!("{names}\n10 5 2 7 1 1\n0 0 0 0 0 0\n0 0 0 0 0 {extra}"))
    };
    let as_before = [Report("65 4 1 6 65 N"), Refusal(11, 11)];
    vec![
        ("branchif_65535", PUBLISHED, word(6, 2, "65535"), [Report("65591 4 1 6 65591 T"), Refusal(11, 11)]),
        ("branchif_65536", PUBLISHED, word(6, 2, "65536"), refused(3, 6)),
        ("branchif_minus_1", PUBLISHED, word(6, 2, "-1"), refused(3, 6)),
        ("branchif_of_2_to_the_32", PUBLISHED, word(6, 2, "4294967296"), refused(3, 6)),
        ("branchif_of_thirty_digits", PUBLISHED, word(6, 2, "123456789012345678901234567890"), refused(3, 6)),
        ("branchifnot_0", PUBLISHED_NOT, Nothing, as_before),
        ("branchifnot_65535", PUBLISHED_NOT, word(6, 2, "65535"), [Report("65591 4 1 6 65591 T"), Refusal(11, 11)]),
        ("branchifnot_65536", PUBLISHED_NOT, word(6, 2, "65536"), refused(3, 6)),
        ("branchifnot_minus_1", PUBLISHED_NOT, word(6, 2, "-1"), refused(3, 6)),
        ("branch_0", PUBLISHED_BRANCH, Nothing, [Report("56 4 1 3 56 -"), Refusal(11, 11)]),
        ("branch_1", PUBLISHED_BRANCH, word(6, 2, "1"), refused(3, 6)),
        ("branch_65535", PUBLISHED_BRANCH, word(6, 2, "65535"), refused(3, 6)),
        ("extra_of_the_first_kind", PUBLISHED, word(6, 1, "1"), refused(3, 6)),
        ("extra_of_the_last_kind", PUBLISHED, word(6, 5, "65535"), refused(3, 6)),
        ("extra_minus_1_of_a_kind", PUBLISHED, word(6, 3, "-1"), refused(3, 6)),
        ("const0_not_used", PUBLISHED, sixth_kind("CONST0", "0"), as_before),
        ("extra_of_const0_not_used", PUBLISHED, sixth_kind("CONST0", "1"), refused(3, 6)),
        ("extra_of_branchifnot_not_used", PUBLISHED, sixth_kind("BRANCHIFNOT", "65535"), as_before),
        ("no_extra_of_an_unknown_name", PUBLISHED, sixth_kind("CONST4", "0"), refused(4, 3)),
        ("extra_of_an_unknown_name", PUBLISHED, sixth_kind("CONST4", "1"), refused(3, 6)),
        ("extra_of_a_longer_name", PUBLISHED, sixth_kind("BRANCHIFS", "1"), refused(3, 6)),
        ("extra_of_a_shorter_name", PUBLISHED, sixth_kind("BRANCHI", "1"), refused(3, 6)),
        ("extra_of_small_letters", PUBLISHED, sixth_kind("BranchIf", "1"), refused(3, 6)),
        ("extra_of_a_repeated_branch", PUBLISHED, sixth_kind("BRANCHIF", "1"), refused(4, 3)),
        ("extra_65536_of_a_repeated_branch", PUBLISHED, sixth_kind("BRANCHIF", "65536"), refused(3, 6)),
        ("four_extras_for_five_kinds", PUBLISHED, line(6, "0 0 0 0"), refused(2, 6)),
        ("six_extras_for_five_kinds", PUBLISHED, line(6, "0 0 0 0 0 0"), refused(2, 6)),
        ("kinds_with_no_extras", PUBLISHED, line(6, "-"), refused(2, 6)),
        ("a_kind_with_no_extra", STOP, line(6, "-"), refused(2, 6)),
        ("no_kinds_with_an_extra", PUBLISHED, lines(3, 6, "-\n-\n-\n0"), refused(2, 6)),
        ("leading_zero_in_extras", PUBLISHED, word(6, 2, "01"), refused(2, 6)),
        ("two_zeros_in_extras", PUBLISHED, word(6, 1, "00"), refused(2, 6)),
        ("minus_zero_in_extras", PUBLISHED, word(6, 2, "-0"), refused(2, 6)),
        ("unknown_extra", PUBLISHED, word(6, 2, "?"), refused(2, 6)),
        ("minus_among_extras", PUBLISHED, word(6, 5, "-"), refused(2, 6)),
        ("double_space_in_extras", PUBLISHED, line(6, "0 0  0 0 0"), refused(2, 6)),
        ("empty_line_of_extras", PUBLISHED, line(6, ""), refused(2, 6)),
        ("nothing_after_line_5", PUBLISHED, FirstLines(5), refused(2, 6)),
        ("former_file", PUBLISHED, Without(6), refused(2, 6)),
        ("former_larger_file", LARGER, Without(6), refused(2, 6)),
        ("former_file_without_primitives", STOP, Without(6), refused(2, 6)),
        ("former_file_without_kinds", PUBLISHED, lines(3, 6, "-\n-\n-"), refused(2, 6)),
        ("former_file_without_both", STOP, lines(3, 6, "-\n-\n-"), refused(2, 9)),
        ("two_lines_of_extras", PUBLISHED, line(6, "0 0 0 0 0\n0 0 0 0 0"), refused(2, 8)),
        ("extras_of_primitives", PUBLISHED, line(9, "4\n0"), refused(2, 11)),
        ("extra_then_spelling", Named("extra_of_the_first_kind"), word(15, 1, "00"), refused(2, 15)),
        ("extra_then_range", Named("extra_of_the_first_kind"), word(8, 1, "65536"), refused(3, 6)),
        ("words_and_extra", Named("extra_of_the_first_kind"), word(5, 5, "256"), refused(3, 5)),
        ("extra_and_price", Named("extra_of_the_first_kind"), word(15, 2, "C_CALL2"), refused(3, 6)),
        ("misspelt_and_extra", Named("extra_of_the_first_kind"), word(6, 5, "+1"), refused(2, 6)),
    ]
}

/// Change request 1: "Definitions 5 and 11 are read with the extra on the taken way, in the run as in the bound".
fn taken_jumps() -> Vec<Entry> {
    let known = |accumulator: &str| word(11, 1, accumulator);
    let code = |code: &str| lines(15, 19, code);
    let unknown = |figures| [Report(figures), Refusal(11, 11)];
    let three =
        "1\n-\n-\nAT OP ARG\n0 BRANCHIF 2\n1 STOP -\n2 BRANCHIF 3\n3 OFFSETINT -1\n4 BRANCHIF 6\n5 STOP -\n6 STOP -";
    vec![
        // N costs 5 + 1, T 2 + 1 + 3 + 1
        ("both_jump", BRANCHES, Nothing, unknown("8 2 0 6 8 TT")),
        ("tie_by_both_extras", BRANCHES, word(6, 1, "1"), unknown("7 2 0 6 7 TT")),
        ("one_less_than_a_tie", BRANCHES, word(6, 1, "0"), unknown("7 2 0 6 7 N")),
        ("inner_extra_1_less", BRANCHES, word(6, 2, "2"), unknown("7 2 0 6 7 TT")),
        ("inner_extra_2_less", BRANCHES, word(6, 2, "1"), unknown("7 2 0 6 7 N")),
        // the condition is the same for both branches: only one of them jumps
        ("branchif_jumps", BRANCHES, known("1"), [Report("5 2 0 3 5 -"), Report("5 2 0 3")]),
        ("branchifnot_is_not_reached", BRANCHES, known("0"), [Report("7 2 0 3 7 -"), Report("7 2 0 3")]),
        ("branchifnot_to_the_next", BRANCHES, code("0 BRANCHIFNOT 1\n1 STOP -"), unknown("5 0 0 3 5 T")),
        (
            "branchifnot_to_the_next_on_0",
            Named("branchifnot_to_the_next"),
            known("0"),
            [Report("5 0 0 2 5 -"), Report("5 0 0 2")],
        ),
        (
            "branchifnot_to_the_next_on_minus_1",
            Named("branchifnot_to_the_next"),
            known("-1"),
            [Report("2 0 0 2 2 -"), Report("2 0 0 2")],
        ),
        ("branchif_to_the_next", BRANCHES, code("0 BRANCHIF 1\n1 STOP -"), unknown("4 2 0 3 4 T")),
        (
            "branchif_to_the_next_on_minus_1",
            Named("branchif_to_the_next"),
            known("-1"),
            [Report("4 2 0 2 4 -"), Report("4 2 0 2")],
        ),
        (
            "branchif_to_the_next_on_0",
            Named("branchif_to_the_next"),
            known("0"),
            [Report("2 2 0 2 2 -"), Report("2 2 0 2")],
        ),
        (
            "branch_has_no_extra",
            BRANCHES,
            lines(11, 19, "0\n-\n-\nAT OP ARG\n0 BRANCH 2\n1 STOP -\n2 STOP -"),
            [Report("2 0 0 2 2 -"), Report("2 0 0 2")],
        ),
        // three branches, of which two jump
        ("two_jumps_of_three", BRANCHES, lines(11, 19, three), [Report("13 6 0 5 13 -"), Report("13 6 0 5")]),
        (
            "two_jumps_of_65535",
            Named("two_jumps_of_three"),
            word(6, 1, "65535"),
            [Report("131079 6 0 5 131079 -"), Report("131079 6 0 5")],
        ),
        ("jump_over_a_line", BRANCHES, code("0 BRANCHIF 2\n1 STOP -\n2 STOP -"), unknown("4 2 0 3 4 T")),
        ("no_jump_over_a_line", Named("jump_over_a_line"), known("0"), [Report("2 2 0 2 2 -"), Report("2 2 0 2")]),
    ]
}

/// "C_CALL1 to C_CALL5 with a primitive: arguments are the accumulator and the top entries, one fewer popped than the digit": as many
/// entries as each pops, and one fewer.
fn calls() -> Vec<Entry> {
    let call = |digit: usize, entries: usize| {
        let start = if entries == 0 { "ACCU\n0".to_string() } else { cells(entries) };
        let prices = format!("1000 1000\nC_CALL{digit} STOP\n1 1\n0 0\n0 0\nREAD\n40\n4");
        lines(2, 19, format!("{prices}\n{start}\n-\n-\nAT OP ARG\n0 C_CALL{digit} READ\n1 STOP -"))
    };
    vec![
        ("call_1_on_no_entry", PUBLISHED, call(1, 0), [Report("42 4 0 2 42 -"), Report("42 4 0 2")]),
        ("call_2_on_1_entry", PUBLISHED, call(2, 1), [Report("42 4 1 2 42 -"), Report("42 4 1 2")]),
        ("call_2_on_no_entry", PUBLISHED, call(2, 0), refused(7, 0)),
        ("call_3_on_2_entries", PUBLISHED, call(3, 2), [Report("42 4 2 2 42 -"), Report("42 4 2 2")]),
        ("call_3_on_1_entry", PUBLISHED, call(3, 1), refused(7, 0)),
        ("call_4_on_3_entries", PUBLISHED, call(4, 3), [Report("42 4 3 2 42 -"), Report("42 4 3 2")]),
        ("call_4_on_2_entries", PUBLISHED, call(4, 2), refused(7, 0)),
        ("call_5_on_4_entries", PUBLISHED, call(5, 4), [Report("42 4 4 2 42 -"), Report("42 4 4 2")]),
        ("call_5_on_3_entries", PUBLISHED, call(5, 3), refused(7, 0)),
    ]
}

/// Change request 8: "A branch to its own address or a lower one is refused, even where known numbers would end the loop."
fn jumps_backwards() -> Vec<Entry> {
    vec![
        ("branchif_2_at_1", PUBLISHED, word(16, 3, "2"), [Report("65 4 1 8 65 T"), Refusal(11, 11)]),
        ("branchif_1_at_1", PUBLISHED, word(16, 3, "1"), refused(13, 16)),
        ("branchif_0_at_1", PUBLISHED, word(16, 3, "0"), refused(13, 16)),
        ("branchifnot_1_at_1", PUBLISHED_NOT, word(16, 3, "1"), refused(13, 16)),
        ("branchifnot_0_at_1", PUBLISHED_NOT, word(16, 3, "0"), refused(13, 16)),
        ("branch_1_at_1", PUBLISHED_BRANCH, word(16, 3, "1"), refused(13, 16)),
        ("branch_0_at_1", PUBLISHED_BRANCH, word(16, 3, "0"), refused(13, 16)),
        ("branchif_1_at_1_all_known", Named("branchif_1_at_1"), word(11, 2, "0"), refused(13, 16)),
        ("backwards_and_not_reached", PUBLISHED, append("5 BRANCHIF 4\n"), refused(13, 20)),
        ("its_own_address_and_not_reached", PUBLISHED, append("5 BRANCHIF 5\n"), refused(13, 20)),
        ("backwards_before_answers", PUBLISHED, append("5 BRANCHIF 0\nANSWER\n7\n"), refused(13, 20)),
        ("branch_60005_at_60004", LARGER, word(19, 3, "60005"), refused(7, 60001)),
        ("branch_60004_at_60004", LARGER, word(19, 3, "60004"), refused(13, 19)),
        ("branch_60000_at_60004", LARGER, word(19, 3, "60000"), refused(13, 19)),
        ("branchifnot_60003_at_60002", LARGER, word(17, 3, "60003"), refused(7, 60001)),
        ("branchifnot_60002_at_60002", LARGER, word(17, 3, "60002"), refused(13, 17)),
        ("a_number_below_the_address", LARGER, line(15, "60000 OFFSETINT 5"), refused(7, 60001)),
    ]
}

/// Row 11: "run only: a `?` on line 10, then 12", which are lines 11 and 13 here.
fn unknowns() -> Vec<Entry> {
    vec![
        ("unknown_accumulator", PUBLISHED, line(11, "? 0"), [Report("65 4 1 6 65 N"), Refusal(11, 11)]),
        ("unknown_accumulator_and_entry", PUBLISHED, word(11, 1, "?"), [Report("65 4 1 6 65 N"), Refusal(11, 11)]),
        ("unknown_first_cell", LARGER, line(11, "? 7 0"), [Refusal(7, 60001), Refusal(11, 11)]),
        ("unknown_last_entry", LARGER, line(11, "0 0 ?"), [Refusal(7, 60001), Refusal(11, 11)]),
        ("unknown_first_field", LARGER, line(13, "? 7 0"), [Refusal(7, 60001), Refusal(11, 13)]),
        ("unknown_field", LARGER, line(13, "0 ? 0"), [Refusal(7, 60001), Refusal(11, 13)]),
        ("unknown_last_field", LARGER, line(13, "0 0 ?"), [Refusal(7, 60001), Refusal(11, 13)]),
        (
            "unknown_cell_and_field",
            LARGER,
            lines(11, 13, "#0 ? 0\nB0.0 B0.1 B1.0\n? 0 0"),
            [Refusal(7, 60001), Refusal(11, 11)],
        ),
    ]
}

/// "Checked in the order of the rows, each over the whole file": faults of two rows on two lines, mostly the later row's on the earlier line.
fn rows_in_order() -> Vec<Entry> {
    vec![
        ("range_then_spelling", Named("budget_0"), word(19, 1, "04"), refused(2, 19)),
        ("spelling_then_range", Named("target_62001"), word(8, 1, "040"), refused(2, 8)),
        ("name_then_line_feed", Named("no_last_line_feed"), word(7, 1, "read"), refused(2, 19)),
        ("unknown_then_answer", Named("unknown_first_cell"), word(25, 1, "0x7"), refused(2, 25)),
        ("handle_then_fixed_word", Named("absent_block_in_a_cell"), line(14, "AT OP"), refused(2, 14)),
        ("name_then_range", Named("primitive_words_256"), word(7, 1, "read"), refused(3, 9)),
        ("name_and_its_price", Named("primitive_cycles_65536"), word(7, 1, "read"), refused(3, 8)),
        ("repeated_name_and_its_price", LARGER, lines(7, 9, "READ READ\n65535 0\n0 256"), refused(3, 9)),
        ("target_then_range", Named("target_5"), line(18, "3 CONSTINT 1073741824"), refused(3, 18)),
        ("target_then_answer", Named("target_0"), word(25, 1, "1073741824"), refused(3, 25)),
        ("price_then_name", Named("unpriced_first_line"), word(19, 1, "5"), refused(4, 19)),
        ("target_then_price", Named("target_5"), word(18, 2, "SUBINT"), refused(5, 18)),
        ("unknown_then_price", Named("unknown_first_field"), word(22, 2, "NEGINT"), refused(5, 22)),
        ("unknown_then_target", Named("unknown_first_cell"), word(19, 3, "0"), refused(6, 19)),
        ("backwards_then_range", Named("branchif_0_at_1"), line(18, "3 CONSTINT 2147483648"), refused(3, 18)),
        ("backwards_then_name", Named("branchif_1_at_1"), word(19, 1, "5"), refused(4, 19)),
        ("backwards_then_price", Named("branchif_1_at_1"), word(18, 2, "SUBINT"), refused(5, 18)),
        ("backwards_then_target", Named("branchifnot_60002_at_60002"), word(19, 3, "60008"), refused(6, 19)),
        ("target_then_backwards", Named("branch_60000_at_60004"), word(17, 3, "62000"), refused(6, 17)),
        ("unknown_then_backwards", Named("unknown_first_cell"), word(19, 3, "60001"), refused(13, 19)),
        ("unknown_field_then_backwards", Named("unknown_last_field"), word(17, 3, "60000"), refused(13, 17)),
    ]
}

/// "earliest line first": two faults of one row.
fn lines_in_order() -> Vec<Entry> {
    vec![
        ("two_misspelt", Named("leading_zero_in_words"), word(15, 1, "00"), refused(2, 9)),
        ("wrong_word_and_missing_line", Named("answer_in_place_of_stop"), line(14, "AT"), refused(2, 14)),
        ("two_out_of_range", Named("target_62001"), word(9, 1, "256"), refused(3, 9)),
        ("two_answers", Named("answer_1073741824"), word(25, 1, "-1073741825"), refused(3, 24)),
        ("two_names", Named("unknown_op"), word(7, 1, "read"), refused(4, 7)),
        ("handle_before_a_name", Named("block_left_out"), line(11, "#1 7 0"), refused(4, 11)),
        ("two_unpriced", PUBLISHED, lines(17, 18, "2 CONST3 -\n3 SUBINT -"), refused(5, 17)),
        ("two_targets", Named("target_0"), word(17, 3, "0"), refused(6, 17)),
        ("two_backwards", Named("branch_60004_at_60004"), word(17, 3, "60001"), refused(13, 17)),
    ]
}

/// Faults of two rows on one line.
fn one_line() -> Vec<Entry> {
    vec![
        ("misspelt_and_out_of_range", PUBLISHED, line(4, "65536 05 2 7 1"), refused(2, 4)),
        ("out_of_range_and_unknown_op", PUBLISHED, line(19, "62001 CONST4 -"), refused(3, 19)),
        ("not_following_and_out_of_range", PUBLISHED, line(19, "5 POP 65"), refused(3, 19)),
        ("not_following_and_unpriced", PUBLISHED, line(19, "5 PUSH -"), refused(4, 19)),
        ("unpriced_and_backwards", LARGER, line(19, "60004 BRANCHIF 60000"), refused(5, 19)),
        ("unpriced_and_no_target", LARGER, line(19, "60004 BRANCHIF 0"), refused(5, 19)),
        ("unknown_and_absent", LARGER, line(11, "? 7 #2"), refused(4, 11)),
    ]
}
