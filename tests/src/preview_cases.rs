//! Previews with the answers that change request 10 gives them.
use crate::cases::{file, published};
use crate::preview::Preview;
use crate::report::{Answer, MEMORY};
use crate::routine::{refused, CODE_LINES, TEXT_LIMIT};
use crate::word_cases::Case;

/// How many there are.
pub const CASES: usize = 78;

/// A name that says what is tried, the routine file, the address, the instruction, and what is told.
type Entry = (&'static str, Vec<u8>, u32, Vec<u8>, Answer);

/// A report of the bound.
fn report(values: &str) -> Answer {
    Ok(format!("CYCLES WORDS DEPTH STEPS SHARE PATH\n{values}\n").into_bytes())
}

/// The published file, whose code is at 0 to 4, on lines 15 to 19.
fn held() -> Vec<u8> {
    published().into_bytes()
}

/// The published file with something else in the place of a part of it.
fn with(old: &str, new: &str) -> Vec<u8> {
    assert_eq!(published().matches(old).count(), 1, "{old}");
    published().replace(old, new).into_bytes()
}

/// The published file with its code at 60,000 to 60,004.
fn high() -> Vec<u8> {
    let code = "60000 C_CALL1 READ\n60001 BRANCHIF 60004\n60002 CONST2 -\n60003 ADDINT -\n60004 STOP -\n";
    let published = published();
    [published.split_once("0 C_CALL1").unwrap().0, code].concat().into_bytes()
}

pub fn previews() -> Vec<Case<Preview>> {
    let lists = [replaced(), refusals(), spaces(), line_feeds(), addresses(), files(), lengths()];
    let mut cases: Vec<Case<Preview>> = Vec::new();
    for (name, text, address, instruction, told) in lists.into_iter().flatten() {
        assert!(cases.iter().all(|case| case.name != name), "{name} is there twice");
        cases.push(Case { name, read: Preview { text, address, instruction }, lent: MEMORY, told });
    }
    // before anything else, whatever is read
    for (name, lent, address, text) in
        [("lent_127", MEMORY - 1, 2, held()), ("lent_0", 0, u32::MAX, vec![0; TEXT_LIMIT + 1])]
    {
        let read = Preview { text, address, instruction: b"CONST2 -".to_vec() };
        cases.push(Case { name, read, lent, told: refused(10, 0) });
    }
    cases
}

/// "gives exactly the report or refusal that the first bound would give for a patched copy". In the published file address 0 takes
/// 10 + 40 cycles, BRANCHIF 5, CONST2 2, ADDINT 7 and STOP 1.
fn replaced() -> Vec<Entry> {
    let of = |name, address, instruction: &str, told| (name, held(), address, instruction.into(), told);
    vec![
        of("the_same_0", 0, "C_CALL1 READ", report("65 4 1 6 65 N")),
        of("the_same_2", 2, "CONST2 -", report("65 4 1 6 65 N")),
        of("the_same_4", 4, "STOP -", report("65 4 1 6 65 N")),
        of("another_at_0", 0, "CONST2 -", report("8 0 1 3 8 -")),
        of("another_at_1", 1, "CONST2 -", report("62 4 1 5 62 -")),
        of("another_at_2", 2, "C_CALL1 READ", report("113 8 1 6 113 N")),
        of("another_at_3", 3, "CONST2 -", report("60 4 1 6 60 N")),
        of("stop_at_2", 2, "STOP -", report("56 4 1 4 56 T")),
        of("a_branch_at_2", 2, "BRANCHIF 3", report("68 4 1 8 68 NT")),
        of("another_target", 1, "BRANCHIF 2", report("65 4 1 8 65 T")),
        of("no_stop", 4, "CONST2 -", refused(7, 5)),
        of("stuck", 2, "ADDINT -", refused(7, 3)),
    ]
}

/// Of the copy's lines.
fn refusals() -> Vec<Entry> {
    let of = |name, address, instruction: &str, told| (name, held(), address, instruction.into(), told);
    vec![
        of("an_unknown_kind", 2, "NOP -", refused(4, 17)),
        of("an_unknown_primitive", 0, "C_CALL1 WRITE", refused(4, 15)),
        of("a_kind_without_a_price", 2, "CONST1 -", refused(5, 17)),
        of("a_kind_without_a_price_at_4", 4, "CONST1 -", refused(5, 19)),
        of("a_number_out_of_range", 2, "CONSTINT 1073741824", refused(3, 17)),
        of("a_number_in_range_without_a_price", 2, "CONSTINT 1073741823", refused(5, 17)),
        of("a_target_out_of_range", 1, "BRANCHIF 62001", refused(3, 16)),
        of("a_target_outside", 1, "BRANCHIF 5", refused(6, 16)),
        of("its_own_address", 1, "BRANCHIF 1", refused(13, 16)),
        of("a_lower_address", 1, "BRANCHIF 0", refused(13, 16)),
        of("an_argument_not_called_for", 2, "CONST2 2", refused(2, 17)),
        of("a_primitive_missing", 0, "C_CALL1 -", refused(2, 15)),
        of("a_leading_zero", 1, "BRANCHIF 04", refused(2, 16)),
        of("small_letters", 2, "const2 -", refused(4, 17)),
        of("answer", 1, "ANSWER", refused(2, 16)),
        ("a_byte_0", held(), 2, b"CONST2\0-".to_vec(), refused(2, 17)),
        ("a_byte_255", held(), 2, b"CONST2\xff -".to_vec(), refused(4, 17)),
    ]
}

/// Spaces and words as they stand.
fn spaces() -> Vec<Entry> {
    let of = |name, instruction: &str| (name, held(), 3, instruction.into(), refused(2, 18));
    vec![
        of("nothing", ""),
        of("a_space", " "),
        of("one_word", "ADDINT"),
        of("three_words", "ADDINT - -"),
        of("a_space_before", " ADDINT -"),
        of("a_space_behind", "ADDINT - "),
        of("two_spaces", "ADDINT  -"),
        of("a_tab", "ADDINT\t-"),
        of("a_carriage_return", "ADDINT -\r"),
        of("the_address_too", "3 ADDINT -"),
    ]
}

/// "line feeds .. in it are part of the copy".
fn line_feeds() -> Vec<Entry> {
    let of = |name, address, instruction: &str, told| (name, held(), address, instruction.into(), told);
    let with_answer = [&held()[..], b"ANSWER\n1\n"].concat();
    let full: String = (0..CODE_LINES).map(|i| format!("{i} STOP -\n")).collect();
    let full = || file(9, "STOP", "1", "ACCU", "0", &full).into_bytes();
    vec![
        of("a_line_more", 4, "CONST2 -\n5 STOP -", report("67 4 1 8 67 N")),
        of("a_line_more_that_is_not_reached", 4, "STOP -\n5 CONST2 -", report("65 4 1 6 65 N")),
        of("a_line_more_without_a_price", 4, "STOP -\n5 CONST1 -", refused(5, 20)),
        of("an_answer_more", 4, "STOP -\nANSWER\n1", report("65 4 1 6 65 N")),
        of("a_heading_without_an_answer", 4, "STOP -\nANSWER", refused(2, 21)),
        of("answers_in_the_code", 0, "STOP -\nANSWER\n1", refused(2, 18)),
        of("an_address_twice", 2, "CONST2 -\n3 CONST2 -", refused(4, 19)),
        of("a_line_of_another_address", 4, "STOP -\n7 STOP -", refused(4, 20)),
        of("a_line_feed_behind", 4, "STOP -\n", refused(2, 20)),
        of("a_line_feed_before", 4, "\nSTOP -", refused(2, 19)),
        of("a_line_feed_alone", 2, "\n", refused(2, 17)),
        ("a_second_heading", with_answer, 4, b"STOP -\nANSWER\n1".to_vec(), refused(2, 22)),
        ("line_1024", full(), 1023, b"STOP -".to_vec(), report("1 0 0 1 1 -")),
        ("line_1025", full(), 1023, b"STOP -\n1024 STOP -".to_vec(), refused(2, 1039)),
    ]
}

/// "An address outside the code is refusal 4 with the address as the place", "before the copy's refusals".
fn addresses() -> Vec<Entry> {
    let of = |name, text, address, instruction: &str, told| (name, text, address, instruction.into(), told);
    vec![
        of("after_the_code", held(), 5, "STOP -", refused(4, 5)),
        of("after_the_code_and_refused", held(), 5, "NOP", refused(4, 5)),
        of("an_address_that_is_a_line", held(), 17, "STOP -", refused(4, 17)),
        of("an_address_62000", held(), 62_000, "STOP -", refused(4, 62_000)),
        of("the_highest_address", held(), u32::MAX, "STOP -", refused(4, 4_294_967_295)),
        of("2_to_the_31", held(), 1 << 31, "STOP -", refused(4, 2_147_483_648)),
        of("below_the_code", high(), 59_999, "STOP -", refused(4, 59_999)),
        of("0_below_the_code", high(), 0, "STOP -", refused(4, 0)),
        of("the_first_of_high_code", high(), 60_000, "CONST2 -", report("8 0 1 3 8 -")),
        of("the_last_of_high_code", high(), 60_004, "STOP -", report("65 4 1 6 65 N")),
        of("after_high_code", high(), 60_005, "STOP -", refused(4, 60_005)),
    ]
}

/// "checked after the held file's 10, 1 to 6 and 13"; its 7, 8 and 9 play no part.
fn files() -> Vec<Entry> {
    let of = |name, text, address, instruction: &str, told| (name, text, address, instruction.into(), told);
    vec![
        of("an_empty_file", vec![], 0, "STOP -", refused(2, 1)),
        of("a_file_that_is_too_long", vec![b'\n'; TEXT_LIMIT + 1], 0, "STOP -", refused(1, 0)),
        of("a_tick_of_0", with("1000 1000", "1000 0"), u32::MAX, "NOP", refused(3, 2)),
        of("a_loop_that_is_replaced", with("1 BRANCHIF 4", "1 BRANCHIF 0"), 1, "BRANCHIF 4", refused(13, 16)),
        of("a_name_that_is_replaced", with("2 CONST2 -", "2 CONST -"), 2, "CONST2 -", refused(4, 17)),
        of("a_stuck_step_that_is_replaced", with("2 CONST2 -", "2 ADDINT -"), 2, "CONST2 -", report("65 4 1 6 65 N")),
        of("a_budget_that_is_then_enough", with("1000 1000", "2 1000"), 1, "STOP -", report("51 4 1 2 51 -")),
        of("a_budget_that_is_not_enough", with("1000 1000", "5 1000"), 2, "CONST2 -", refused(9, 4)),
        of("known_cells", with("0 ?", "0 0"), 3, "CONST2 -", report("60 4 1 6 60 N")),
    ]
}

/// "The copy over 32,768 bytes is 1 at 0."
fn lengths() -> Vec<Entry> {
    let of_length = |length: usize| {
        let kept = published().len() - "CONST2 -".len();
        format!("CONSTINT {}", "1".repeat(length - kept - "CONSTINT ".len())).into_bytes()
    };
    vec![
        ("a_copy_of_32768_bytes", held(), 2, of_length(TEXT_LIMIT), refused(3, 17)),
        ("a_copy_of_32769_bytes", held(), 2, of_length(TEXT_LIMIT + 1), refused(1, 0)),
        ("a_copy_of_65536_bytes", held(), 2, of_length(2 * TEXT_LIMIT), refused(1, 0)),
    ]
}
