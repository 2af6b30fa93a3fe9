//! Replays with the answers that change request 4 gives them, with change requests 8 and 12.
use crate::cases::{file, published, pushes};
use crate::replay::{agrees, differs, TRACE_LIMIT, TRACE_LINES};
use crate::report::{Answer, MEMORY};
use crate::routine::{refused, CODE_LINES, TEXT_LIMIT};
use crate::trace_draft::Replay;
use crate::word_cases::Case;

/// How many there are.
pub const CASES: usize = 163;

/// A name that says what is tried, the routine file, the trace, and what is told.
type Entry = (&'static str, String, Vec<u8>, Answer);

/// A trace of these lines under the names line.
fn trace(lines: impl AsRef<[u8]>) -> Vec<u8> {
    [b"AT CYCLES\n", lines.as_ref()].concat()
}

/// The published file with 0 in its `?`, and an answer other than 0: address 0 takes 10 + 40 cycles, 1 jumps to 4 for 5, and STOP takes 1.
fn jumps() -> String {
    published().replace("0 ?", "0 0") + "ANSWER\n7\n"
}

/// The same with the answer 0: 2 and 3 take 2 and 7 cycles.
fn goes_on() -> String {
    jumps().replace("ANSWER\n7", "ANSWER\n0")
}

/// A file with an extra of 10 for BRANCHIF on line 6.
fn extra_10(file: String) -> String {
    file.replacen("0 0 0 0 0\n0 0 0 0 0\n", "0 0 0 0 0\n0 10 0 0 0\n", 1)
}

/// The steps of the file that jumps.
const STEPS: &str = "0 50\n1 5\n4 1\n";

pub fn replays() -> Vec<Case<Replay>> {
    let lists = [steps(), costs(), answers(), ends(), long(), layouts(), numbers(), order(), ranges()];
    let mut cases: Vec<Case<Replay>> = Vec::new();
    for (name, text, trace, told) in lists.into_iter().flatten() {
        assert!(cases.iter().all(|case| case.name != name), "{name} is there twice");
        cases.push(Case { name, read: Replay { text: text.into_bytes(), trace }, lent: MEMORY, told });
    }
    // before anything else, whatever is read
    for (name, lent, trace) in [("lent_127", MEMORY - 1, trace(STEPS)), ("lent_0", 0, vec![0; TRACE_LIMIT + 1])] {
        let text = if lent == 0 { vec![0; TEXT_LIMIT + 1] } else { jumps().into_bytes() };
        cases.push(Case { name, read: Replay { text, trace }, lent, told: refused(10, 0) });
    }
    cases
}

/// "names the first trace line whose address differs from the machine's or whose cycles exceed what that step costs, or says that the
/// trace agrees up to its end".
fn steps() -> Vec<Entry> {
    let of = |name, lines: &str, told| (name, jumps(), trace(lines), told);
    vec![
        of("published", STEPS, agrees()),
        of("names_line_alone", "", agrees()),
        of("cut_after_1", "0 50\n", agrees()),
        of("cut_after_2", "0 50\n1 5\n", agrees()),
        of("a_cycle_more_at_0", "0 51\n1 5\n4 1\n", differs(2)),
        of("a_cycle_more_at_1", "0 50\n1 6\n4 1\n", differs(3)),
        of("a_cycle_more_at_4", "0 50\n1 5\n4 2\n", differs(4)),
        of("a_cycle_more_everywhere", "0 51\n1 6\n4 2\n", differs(2)),
        of("a_cycle_more_with_fewer_before", "0 49\n1 6\n4 1\n", differs(3)),
        of("a_cycle_fewer", "0 49\n1 4\n4 0\n", agrees()),
        of("no_cycles", "0 0\n1 0\n4 0\n", agrees()),
        of("another_first_address", "1 5\n4 1\n", differs(2)),
        of("another_address", "0 50\n2 5\n4 1\n", differs(3)),
        of("the_way_not_taken", "0 50\n1 5\n2 2\n", differs(4)),
        of("a_line_lost", "0 50\n4 1\n", differs(3)),
        of("a_line_twice", "0 50\n0 50\n1 5\n4 1\n", differs(3)),
        of("address_then_cycles", "0 50\n2 0\n4 2\n", differs(3)),
        of("cycles_then_address", "0 50\n1 6\n2 0\n", differs(3)),
    ]
}

/// "what that step costs, primitive and jump included".
fn costs() -> Vec<Entry> {
    let most = |code: &str| {
        file(9, "C_CALL1 BRANCHIF STOP", "65535 65535 1", "ACCU", "1", code)
            .replacen("-\n-\n-", "READ\n65535\n0", 1)
            .replacen("0 0 0\n0 0 0\n", "0 0 0\n0 65535 0\n", 1)
    };
    let (call, jump) = (most("0 C_CALL1 READ\n1 STOP -\n"), most("60000 BRANCHIF 60001\n60001 STOP -\n"));
    vec![
        ("the_kinds_price_alone", jumps(), trace("0 10\n1 5\n4 1\n"), agrees()),
        ("one_more_than_the_kinds_price", jumps(), trace("0 11\n1 5\n4 1\n"), agrees()),
        ("an_extra", extra_10(jumps()), trace("0 50\n1 15\n4 1\n"), agrees()),
        ("an_extra_and_a_cycle", extra_10(jumps()), trace("0 50\n1 16\n4 1\n"), differs(3)),
        ("an_extra_not_paid", extra_10(goes_on()), trace("0 50\n1 5\n2 2\n3 7\n4 1\n"), agrees()),
        ("an_extra_without_a_jump", extra_10(goes_on()), trace("0 50\n1 6\n2 2\n3 7\n4 1\n"), differs(3)),
        ("an_extra_at_another_kind", extra_10(jumps()), trace("0 51\n1 15\n4 1\n"), differs(2)),
        ("the_largest_call", call.clone(), trace("0 131070\n1 1\n"), agrees()),
        ("a_cycle_more_than_the_largest_call", call, trace("0 131071\n1 1\n"), differs(2)),
        ("the_largest_jump", jump.clone(), trace("60000 131070\n60001 1\n"), agrees()),
        ("a_cycle_more_than_the_largest_jump", jump, trace("60000 131071\n60001 1\n"), differs(2)),
    ]
}

/// "With the start all known and the answers recorded".
fn answers() -> Vec<Entry> {
    let code = "0 C_CALL1 READ\n1 BRANCHIF 5\n2 C_CALL1 READ\n3 BRANCHIF 5\n4 STOP -\n5 STOP -\n";
    let with = |code: &str, answers: &str| {
        let kinds = file(99, "C_CALL1 BRANCHIF STOP", "10 5 1", "ACCU", "0", code);
        kinds.replacen("-\n-\n-", "READ\n40\n4", 1) + answers
    };
    let twice = |answers| with(code, answers);
    let three = "0 C_CALL1 READ\n1 BRANCHIF 3\n2 STOP -\n3 C_CALL1 READ\n4 BRANCHIF 6\n5 STOP -\n6 C_CALL1 READ\n7 BRANCHIF 9\n8 STOP -\n9 STOP -\n";
    let thrice = |answers| with(three, answers);
    let second = "0 50\n1 5\n2 50\n3 5\n5 1\n";
    let neither = "0 50\n1 5\n2 50\n3 5\n4 1\n";
    vec![
        ("answer_0", goes_on(), trace("0 50\n1 5\n2 2\n3 7\n4 1\n"), agrees()),
        ("answer_0_as_if_it_were_7", goes_on(), trace(STEPS), differs(4)),
        ("no_answer", published().replace("0 ?", "0 0"), trace("0 50\n1 5\n2 2\n3 7\n4 1\n"), agrees()),
        ("answers_0_and_7", twice("ANSWER\n0\n7\n"), trace(second), agrees()),
        ("answers_0_and_7_the_first_twice", twice("ANSWER\n0\n7\n"), trace(neither), differs(6)),
        ("answers_0_and_0", twice("ANSWER\n0\n0\n"), trace(neither), agrees()),
        ("answers_used_up", twice("ANSWER\n0\n"), trace(neither), agrees()),
        ("answers_7_and_0", twice("ANSWER\n7\n0\n"), trace("0 50\n1 5\n5 1\n"), agrees()),
        ("two_answers_of_three", thrice("ANSWER\n7\n-1\n"), trace("0 50\n1 5\n3 50\n4 5\n6 50\n7 5\n8 1\n"), agrees()),
        ("a_third_answer", thrice("ANSWER\n7\n-1\n"), trace("0 50\n1 5\n3 50\n4 5\n6 50\n7 5\n9 1\n"), differs(8)),
    ]
}

/// "A line after STOP differs, and so does a line where the machine is stuck. BUDGET plays no part."
fn ends() -> Vec<Entry> {
    let budget_1 = || jumps().replacen("1000 1000", "1 1000", 1);
    let stop = || file(9, "STOP", "0", "ACCU", "0", "0 STOP -\n");
    let push = || file(9, "PUSH", "1", "ACCU", "0", "0 PUSH -\n");
    let add = || file(9, "ADDINT STOP", "1 1", "ACCU", "0", "0 ADDINT -\n1 STOP -\n");
    let on_a_handle = || {
        let code = "7 CONST1 -\n8 ACC0 -\n9 BRANCHIF 10\n10 STOP -\n";
        file(9, "CONST1 ACC0 BRANCHIF STOP", "1 1 1 1", "ACCU S0", "0 #0", code).replacen("-\n-\nAT", "B0.0\n0\nAT", 1)
    };
    let pushed = |count: usize| trace((0..count).map(|i| format!("{i} 1\n")).collect::<String>());
    vec![
        ("after_stop", jumps(), trace("0 50\n1 5\n4 1\n5 0\n"), differs(5)),
        ("stop_again", jumps(), trace("0 50\n1 5\n4 1\n4 0\n"), differs(5)),
        ("begun_again_after_stop", jumps(), trace("0 50\n1 5\n4 1\n0 50\n1 5\n4 1\n"), differs(5)),
        ("stop_alone", stop(), trace("0 0\n"), agrees()),
        ("stop_alone_twice", stop(), trace("0 0\n0 0\n"), differs(3)),
        ("before_it_is_stuck", push(), trace("0 1\n"), agrees()),
        ("stuck_past_the_code", push(), trace("0 1\n1 0\n"), differs(3)),
        ("stuck_at_once", add(), trace("0 0\n"), differs(2)),
        ("stuck_at_once_names_line_alone", add(), trace(""), agrees()),
        ("stuck_on_a_handle", on_a_handle(), trace("7 1\n8 1\n9 0\n"), differs(4)),
        ("before_a_handle", on_a_handle(), trace("7 1\n8 1\n"), agrees()),
        ("pushes_64", pushes(65), pushed(64), agrees()),
        ("pushes_65", pushes(65), pushed(65), differs(66)),
        ("budget_1", budget_1(), trace(STEPS), agrees()),
        ("budget_1_a_cycle_more", budget_1(), trace("0 50\n1 5\n4 2\n"), differs(4)),
        ("budget_1_after_stop", budget_1(), trace("0 50\n1 5\n4 1\n5 0\n"), differs(5)),
    ]
}

/// "A trace has at most 4,096 lines after its names line, else refusal 2 at the first line too many", and at most 131,072 bytes. No run of
/// code without jumps backwards makes more than 1,024 steps (change request 8).
fn long() -> Vec<Entry> {
    let straight = || {
        let code: String = (0..CODE_LINES - 1).map(|i| format!("{i} CONST0 -\n")).collect();
        file(1, "CONST0 STOP", "3 3", "ACCU", "0", &format!("{code}{} STOP -\n", CODE_LINES - 1))
    };
    let steps = |count: usize, then: &str| trace((0..count).map(|i| format!("{i} 3\n")).collect::<String>() + then);
    // a number that is spelt right and fills the trace
    let filled = |bytes: usize| trace(format!("0 1{}\n", "0".repeat(bytes - "AT CYCLES\n0 1\n".len())));
    let too_long = filled(TRACE_LIMIT + 1);
    let ends_early = [trace(STEPS), vec![b'\n'; TRACE_LIMIT]].concat();
    vec![
        ("lines_1024", straight(), steps(CODE_LINES, ""), agrees()),
        ("lines_1024_a_cycle_more_in_the_last", straight(), steps(CODE_LINES - 1, "1023 4\n"), differs(1025)),
        ("lines_1025", straight(), steps(CODE_LINES + 1, ""), differs(1026)),
        ("lines_4096", straight(), steps(TRACE_LINES, ""), differs(1026)),
        ("lines_4096_another_address_in_the_first", straight(), trace("1 3\n".repeat(TRACE_LINES)), differs(2)),
        ("lines_4096_out_of_range_in_the_last", straight(), steps(TRACE_LINES - 1, "62001 3\n"), refused(3, 4097)),
        ("lines_4096_ill_laid_in_the_last", straight(), steps(TRACE_LINES - 1, "0 3"), refused(2, 4097)),
        ("lines_4096_after_stop", jumps(), trace(STEPS.to_string() + &"4 0\n".repeat(TRACE_LINES - 3)), differs(5)),
        ("lines_4097", straight(), steps(TRACE_LINES + 1, ""), refused(2, 4098)),
        ("lines_4097_no_line_feed", straight(), steps(TRACE_LINES, "0"), refused(2, 4098)),
        ("lines_4097_an_empty_one", straight(), steps(TRACE_LINES, "\n"), refused(2, 4098)),
        ("lines_4097_that_differ", jumps(), steps(TRACE_LINES + 1, ""), refused(2, 4098)),
        ("lines_5000", straight(), steps(5000, ""), refused(2, 4098)),
        (
            "lines_4097_ill_laid_before",
            straight(),
            trace("0 3\n0\n".to_string() + &"0 3\n".repeat(4095)),
            refused(2, 3),
        ),
        (
            "lines_4097_out_of_range_before",
            straight(),
            trace("62001 3\n".to_string() + &"0 3\n".repeat(TRACE_LINES)),
            refused(2, 4098),
        ),
        ("bytes_131072", jumps(), filled(TRACE_LIMIT), refused(3, 2)),
        ("bytes_131073", jumps(), too_long, refused(1, 0)),
        ("bytes_131073_of_line_feeds", jumps(), vec![b'\n'; TRACE_LIMIT + 1], refused(1, 0)),
        ("bytes_131072_of_line_feeds", jumps(), vec![b'\n'; TRACE_LIMIT], refused(2, 1)),
        ("line_feeds_behind_a_trace", jumps(), ends_early, refused(1, 0)),
    ]
}

/// "a wrong layout there is 2".
fn layouts() -> Vec<Entry> {
    let of = |name, bytes: &str, line| (name, jumps(), bytes.as_bytes().to_vec(), refused(2, line));
    let second = |name, line: &str| (name, jumps(), trace(format!("0 50\n{line}\n4 1\n")), refused(2, 3));
    vec![
        of("empty", "", 1),
        of("a_line_feed_alone", "\n", 1),
        of("names_without_a_line_feed", "AT CYCLES", 1),
        of("no_names_line", STEPS, 1),
        of("names_exchanged", "CYCLES AT\n0 50\n", 1),
        of("names_of_code", "AT OP ARG\n0 50\n", 1),
        of("a_third_name", "AT CYCLES WORDS\n0 50\n", 1),
        of("one_name", "AT\n0 50\n", 1),
        of("small_names", "at cycles\n0 50\n", 1),
        of("space_after_names", "AT CYCLES \n0 50\n", 1),
        of("space_before_names", " AT CYCLES\n0 50\n", 1),
        of("two_spaces_in_names", "AT  CYCLES\n0 50\n", 1),
        of("carriage_return_after_names", "AT CYCLES\r\n0 50\n", 1),
        of("names_line_twice", "AT CYCLES\nAT CYCLES\n0 50\n", 2),
        of("empty_line_after_names", "AT CYCLES\n\n", 2),
        of("no_line_feed_at_the_end", "AT CYCLES\n0 50\n1 5\n4 1", 4),
        of("empty_line_at_the_end", "AT CYCLES\n0 50\n1 5\n4 1\n\n", 5),
        second("empty_line", ""),
        second("space_before", " 1 5"),
        second("space_after", "1 5 "),
        second("two_spaces", "1  5"),
        second("a_space_alone", " "),
        second("a_third_word", "1 5 0"),
        second("one_word", "1"),
        second("no_cycles_after_a_space", "1 "),
        second("empty_list", "-"),
        second("minus_0", "1 -0"),
        second("minus_0_at", "-0 5"),
        second("leading_zero", "1 05"),
        second("leading_zero_at", "01 5"),
        second("two_zeros", "1 00"),
        second("plus", "1 +5"),
        second("unknown", "1 ?"),
        second("handle", "#1 5"),
        second("minus_alone", "1 -"),
        second("a_kind", "BRANCHIF 5"),
        second("tab", "1\t5"),
        second("carriage_return", "1 5\r"),
        second("zero_byte", "1 5\0"),
        second("not_ascii", "1 ５"),
    ]
}

/// "AT is 0 to 62,000 and CYCLES 0 to 4,000,000,000, else refusal 3".
fn numbers() -> Vec<Entry> {
    let of = |name, lines: &str, told| (name, jumps(), trace(lines), told);
    vec![
        of("at_62000", "62000 50\n", differs(2)),
        of("at_62001", "62001 50\n", refused(3, 2)),
        of("at_minus_1", "-1 50\n", refused(3, 2)),
        of("at_4294967296", "4294967296 50\n", refused(3, 2)),
        of("at_of_thirty_digits", "100000000000000000000000000000 50\n", refused(3, 2)),
        of("cycles_4000000000", "0 4000000000\n", differs(2)),
        of("cycles_4000000001", "0 4000000001\n", refused(3, 2)),
        of("cycles_4294967301", "0 50\n1 4294967301\n", refused(3, 3)),
        of("cycles_minus_1", "0 50\n1 -1\n", refused(3, 3)),
        of("cycles_18446744073709551621", "0 50\n1 18446744073709551621\n", refused(3, 3)),
        of("cycles_minus_of_thirty_digits", "0 -100000000000000000000000000000\n", refused(3, 2)),
    ]
}

/// "These are checked after the routine file's refusals, 11 included", and 13 before 11 (change request 8); 1, 2 and 3 of the trace in this order, each over all lines.
fn order() -> Vec<Entry> {
    let of = |name, lines: &str, told| (name, jumps(), trace(lines), told);
    let too_long = || vec![b'A'; TRACE_LIMIT + 1];
    let change = |from: &str, to: &str| jumps().replacen(from, to, 1);
    vec![
        of("range_before_layout", "62001 50\n1  5\n", refused(2, 3)),
        of("layout_before_range", "0 50 0\n62001 5\n", refused(2, 2)),
        of("two_layouts", "0 50\n1\n\n", refused(2, 3)),
        of("two_ranges", "0 50\n1 -5\n62001 1\n", refused(3, 3)),
        of("differs_before_layout", "9 50\n1\n", refused(2, 3)),
        of("differs_before_range", "9 50\n1 4000000001\n", refused(3, 3)),
        of("after_stop_out_of_range", "0 50\n1 5\n4 1\n62001 0\n", refused(3, 5)),
        ("routine_1_then_trace", jumps() + &"A".repeat(TEXT_LIMIT), Vec::new(), refused(1, 0)),
        ("routine_2_then_length", String::new(), too_long(), refused(2, 1)),
        ("routine_2_then_layout", change("0 0 0 0 0\n0 0 0 0 0\n", "0 0 0 0 0\n"), Vec::new(), refused(2, 6)),
        ("routine_3_then_length", change("1000 1000", "0 1000"), too_long(), refused(3, 2)),
        ("routine_3_then_layout", change("1000 1000", "0 1000"), trace("0\n"), refused(3, 2)),
        ("routine_4_then_layout", change("0 0\n-", "0 #0\n-"), Vec::new(), refused(4, 11)),
        ("routine_5_then_range", change("CONST2", "CONST3"), trace("0 -1\n"), refused(5, 17)),
        ("routine_6_then_range", change("BRANCHIF 4", "BRANCHIF 5"), trace("62001 0\n"), refused(6, 16)),
        ("routine_6_then_differs", change("BRANCHIF 4", "BRANCHIF 5"), trace("9 9\n"), refused(6, 16)),
        ("routine_13_then_length", change("BRANCHIF 4", "BRANCHIF 1"), too_long(), refused(13, 16)),
        ("routine_13_then_layout", change("BRANCHIF 4", "BRANCHIF 0"), Vec::new(), refused(13, 16)),
        ("routine_13_then_agrees", change("BRANCHIF 4", "BRANCHIF 1"), trace("0 50\n1 5\n"), refused(13, 16)),
        ("routine_13_and_11", published().replacen("BRANCHIF 4", "BRANCHIF 0", 1), trace(STEPS), refused(13, 16)),
        (
            "routine_6_and_13",
            change("BRANCHIF 4", "BRANCHIF 0").replacen("4 STOP -\n", "4 BRANCHIF 5\n", 1),
            trace(STEPS),
            refused(6, 19),
        ),
        ("routine_11_then_length", published(), too_long(), refused(11, 11)),
        ("routine_11_then_layout", published(), Vec::new(), refused(11, 11)),
        ("routine_11_then_agrees", published(), trace(STEPS), refused(11, 11)),
        ("routine_11_in_a_field", change("-\n-\nAT", "B0.0\n?\nAT"), trace("0 -1\n"), refused(11, 13)),
    ]
}

/// Change request 12: "A run refuses a range of more than one number as it does `?`", and so does a replay, before it looks at the trace; a
/// trace has no ranges.
fn ranges() -> Vec<Entry> {
    let cells = |cells: &str| jumps().replacen("0 0\n-", &format!("{cells}\n-"), 1);
    let field = |field: &str| jumps().replacen("-\n-\nAT", &format!("B0.0\n{field}\nAT"), 1);
    vec![
        ("one_number_as_a_range", cells("0..0 7..7"), trace(STEPS), agrees()),
        ("one_number_as_a_range_in_a_field", field("5..5"), trace(STEPS), agrees()),
        ("wider_range", cells("0 0..1"), trace(STEPS), refused(11, 11)),
        ("wider_range_in_a_field", field("0..1"), trace(STEPS), refused(11, 13)),
        ("wider_range_then_layout", cells("0..1 0"), Vec::new(), refused(11, 11)),
        ("misspelt_range", cells("0 0...1"), trace(STEPS), refused(2, 11)),
        ("range_that_falls", cells("0 1..0"), trace(STEPS), refused(3, 11)),
        ("range_that_falls_then_layout", field("1..0"), Vec::new(), refused(3, 13)),
        ("range_as_an_address_of_the_trace", jumps(), trace("0..0 50\n"), refused(2, 2)),
        ("range_as_cycles_of_the_trace", jumps(), trace("0 50..50\n"), refused(2, 2)),
    ]
}
