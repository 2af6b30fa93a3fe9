//! Explanations of the merging bound with the lines that its sentences give them, worked out by hand.
use crate::cases::file;
use crate::explain::{MEMORY, NAMES};
use crate::merge_cases::{meeting, tests};

/// A text and what is printed of it.
pub struct Case {
    pub name: &'static str,
    pub text: Vec<u8>,
    pub lent: usize,
    pub printed: String,
}

pub const CASES: usize = 32;

const REPORT_NAMES: &str = "CYCLES WORDS DEPTH STEPS SHARE PATH\n";
const PUBLISHED: &str = include_str!("../../examples/published.txt");
const SIREN: &str = include_str!("../../examples/siren-or-test.txt");

/// A case that prints these values of the report and these lines of a way, each without its line feed.
fn explains(name: &'static str, text: String, values: &str, lines: &[&str]) -> Case {
    let lines: String = lines.iter().flat_map(|line| [line, "\n"]).collect();
    Case { name, text: text.into(), lent: MEMORY, printed: format!("{REPORT_NAMES}{values}\n{NAMES}{lines}") }
}

fn refuses(name: &'static str, text: impl Into<Vec<u8>>, number: u32, place: u32) -> Case {
    Case { name, text: text.into(), lent: MEMORY, printed: format!("REFUSED {number} {place}\n") }
}

/// Code over an accumulator, in which each kind costs 1 cycle and a taken BRANCHIF so many more.
fn jumping(extra: u32, accumulator: &str, code: &[&str]) -> String {
    let text = meeting(accumulator, code);
    let mut lines: Vec<String> = text.split('\n').map(str::to_string).collect();
    assert!(lines[2].starts_with("BRANCHIF ") && lines[5].starts_with("0 "));
    lines[5] = format!("{extra}{}", &lines[5][1..]);
    lines.join("\n")
}

/// "the lowest origin; at one branch T; the lowest STOP"
fn ties() -> Vec<Case> {
    let to_the_next = ["BRANCHIF 1", "STOP -"];
    let two_stops = ["BRANCHIF 2", "STOP -", "STOP -"];
    let arms = ["BRANCHIF 3", "CONST0 -", "BRANCH 4", "CONST1 -", "STOP -"];
    let by_the_lower = ["0 BRANCHIF 3 1 0 0 N", "1 CONST0 - 2 0 0 -", "2 BRANCH 4 3 0 0 -", "4 STOP - 4 0 0 -"];
    let three = ["BRANCHIF 6", "BRANCHIF 4", "CONST1 -", "BRANCH 7", "CONST1 -", "BRANCH 7", "CONST0 -", "STOP -"];
    vec![
        explains(
            "both_ways_of_a_branch",
            jumping(0, "?", &to_the_next),
            "2 0 0 2 2 -",
            &["0 BRANCHIF 1 1 0 0 T", "1 STOP - 2 0 0 -"],
        ),
        explains(
            "both_ways_of_a_branch_at_an_extra",
            jumping(5, "?", &to_the_next),
            "7 0 0 2 7 -",
            &["0 BRANCHIF 1 6 0 0 T", "1 STOP - 7 0 0 -"],
        ),
        explains(
            "two_stops_alike",
            jumping(0, "?", &two_stops),
            "2 0 0 3 2 -",
            &["0 BRANCHIF 2 1 0 0 N", "1 STOP - 2 0 0 -"],
        ),
        explains(
            "the_second_stop_by_an_extra",
            jumping(1, "?", &two_stops),
            "3 0 0 3 3 -",
            &["0 BRANCHIF 2 2 0 0 T", "2 STOP - 3 0 0 -"],
        ),
        explains(
            "the_first_stop_by_a_call",
            jumping(0, "?", &["BRANCHIF 3", "C_CALL1 A", "STOP -", "STOP -"]),
            "13 1 0 4 13 -",
            &["0 BRANCHIF 3 1 0 0 N", "1 C_CALL1 A 12 1 0 -", "2 STOP - 13 1 0 -"],
        ),
        explains(
            "the_second_stop_by_a_call",
            jumping(0, "?", &["BRANCHIF 2", "STOP -", "C_CALL1 A", "STOP -"]),
            "13 1 0 4 13 -",
            &["0 BRANCHIF 2 1 0 0 T", "2 C_CALL1 A 12 1 0 -", "3 STOP - 13 1 0 -"],
        ),
        // the way by 2 comes with 3 cycles, that by 3 with 2, with 3 and with 4
        explains("the_lower_origin_costs_more", jumping(0, "?", &arms), "4 0 0 5 4 -", &by_the_lower),
        explains("two_origins_alike", jumping(1, "?", &arms), "4 0 0 5 4 -", &by_the_lower),
        explains(
            "the_higher_origin_costs_more",
            jumping(2, "?", &arms),
            "5 0 0 5 5 -",
            &["0 BRANCHIF 3 3 0 0 T", "3 CONST1 - 4 0 0 -", "4 STOP - 5 0 0 -"],
        ),
        // by 3 with 4 cycles, by 5 with 5, by 6 with 3
        explains(
            "the_middle_of_three_origins",
            jumping(1, "?", &three),
            "6 0 0 8 6 -",
            &[
                "0 BRANCHIF 6 1 0 0 N",
                "1 BRANCHIF 4 3 0 0 T",
                "4 CONST1 - 4 0 0 -",
                "5 BRANCH 7 5 0 0 -",
                "7 STOP - 6 0 0 -",
            ],
        ),
        // by 3 and by 5 with 4 cycles
        explains(
            "the_lowest_of_three_origins",
            jumping(0, "?", &three),
            "5 0 0 8 5 -",
            &[
                "0 BRANCHIF 6 1 0 0 N",
                "1 BRANCHIF 4 2 0 0 N",
                "2 CONST1 - 3 0 0 -",
                "3 BRANCH 7 4 0 0 -",
                "7 STOP - 5 0 0 -",
            ],
        ),
    ]
}

/// "CYCLES is the sum on this way, this step included, WORDS the sum of words on this way, DEPTH the height of the merged state"
fn sums() -> Vec<Case> {
    let arms = ["BRANCHIF 3", "C_CALL1 A", "BRANCH 4", "C_CALL1 B", "STOP -"];
    let known = ["BRANCHIF 2", "CONST0 -", "STOP -"];
    vec![
        explains("stop_alone", meeting("0", &["STOP -"]), "1 0 0 1 1 -", &["0 STOP - 1 0 0 -"]),
        explains(
            "stop_at_no_price",
            file(1000, "STOP", "0", "ACCU", "0", "0 STOP -\n"),
            "0 0 0 1 0 -",
            &["0 STOP - 0 0 0 -"],
        ),
        explains(
            "two_stops_at_no_price",
            file(1000, "BRANCHIF STOP", "0 0", "ACCU", "?", "0 BRANCHIF 2\n1 STOP -\n2 STOP -\n"),
            "0 0 0 3 0 -",
            &["0 BRANCHIF 2 0 0 0 N", "1 STOP - 0 0 0 -"],
        ),
        // the way by B has 9 words
        explains(
            "words_of_another_way",
            meeting("?", &arms),
            "14 9 0 5 14 -",
            &["0 BRANCHIF 3 1 0 0 N", "1 C_CALL1 A 12 1 0 -", "2 BRANCH 4 13 1 0 -", "4 STOP - 14 1 0 -"],
        ),
        explains(
            "words_at_another_stop",
            meeting("?", &["BRANCHIF 3", "C_CALL1 A", "STOP -", "C_CALL1 B", "STOP -"]),
            "13 9 0 5 13 -",
            &["0 BRANCHIF 3 1 0 0 N", "1 C_CALL1 A 12 1 0 -", "2 STOP - 13 1 0 -"],
        ),
        explains(
            "words_of_the_costlier_way",
            jumping(9, "?", &arms),
            "16 9 0 5 16 -",
            &["0 BRANCHIF 3 10 0 0 T", "3 C_CALL1 B 15 9 0 -", "4 STOP - 16 9 0 -"],
        ),
        explains(
            "a_known_jump_at_an_extra",
            jumping(2, "1", &known),
            "4 0 0 2 4 -",
            &["0 BRANCHIF 2 3 0 0 -", "2 STOP - 4 0 0 -"],
        ),
        explains(
            "a_jump_at_an_extra_by_a_range",
            jumping(2, "1..1008", &known),
            "4 0 0 2 4 -",
            &["0 BRANCHIF 2 3 0 0 -", "2 STOP - 4 0 0 -"],
        ),
        explains(
            "known_and_no_jump_at_an_extra",
            jumping(2, "0", &known),
            "3 0 0 3 3 -",
            &["0 BRANCHIF 2 1 0 0 -", "1 CONST0 - 2 0 0 -", "2 STOP - 3 0 0 -"],
        ),
        explains(
            "heights_before_the_steps",
            meeting("? 5", &["PUSH -", "PUSH -", "POP 2", "BRANCHIF 5", "CONST0 -", "STOP -"]),
            "6 0 3 6 6 -",
            &[
                "0 PUSH - 1 0 1 -",
                "1 PUSH - 2 0 2 -",
                "2 POP 2 3 0 3 -",
                "3 BRANCHIF 5 4 0 1 N",
                "4 CONST0 - 5 0 1 -",
                "5 STOP - 6 0 1 -",
            ],
        ),
        explains(
            "published_with_two_stops",
            PUBLISHED.replace("1 BRANCHIF 4", "1 BRANCHIF 5") + "5 STOP -\n",
            "65 4 1 6 65 -",
            &[
                "0 C_CALL1 READ 50 4 1 -",
                "1 BRANCHIF 5 55 4 1 N",
                "2 CONST2 - 57 4 1 -",
                "3 ADDINT - 64 4 1 -",
                "4 STOP - 65 4 0 -",
            ],
        ),
        explains(
            "from_60000_on",
            file(
                1,
                "BRANCHIF CONST0 STOP",
                "1 1 1",
                "ACCU",
                "?",
                "60000 BRANCHIF 60002\n60001 CONST0 -\n60002 STOP -\n",
            ),
            "3 0 0 3 3 -",
            &["60000 BRANCHIF 60002 1 0 0 N", "60001 CONST0 - 2 0 0 -", "60002 STOP - 3 0 0 -"],
        ),
    ]
}

/// A way that no run takes as a whole; a branch that only the merge opens; as many lines as code can have.
fn merged() -> Vec<Case> {
    let siren = [
        "0 C_CALL1 DOOR 150 2 0 -",
        "1 BRANCHIFNOT 5 156 2 0 N",
        "2 C_CALL1 SIREN 1086 3 0 -",
        "3 CONST1 - 1088 3 0 -",
        "4 BRANCH 6 1092 3 0 -",
        "6 BRANCHIF 8 1098 3 0 N",
        "7 C_CALL1 SELFTEST 1928 9 0 -",
        "8 STOP - 1929 9 0 -",
    ];
    let test = |n: usize| {
        let (at, cycles, words) = (3 * n, 57 * n, 4 * (n + 1));
        let [call, branch, number] = [cycles + 50, cycles + 55, cycles + 57];
        let lines = [
            format!("{at} C_CALL1 READ {call} {words} 0 -"),
            format!("{} BRANCHIF {} {branch} {words} 0 N", at + 1, at + 3),
            format!("{} CONST0 - {number} {words} 0 -", at + 2),
        ];
        lines
    };
    let mut lines: Vec<String> = (0..341).flat_map(test).collect();
    lines.push("1023 STOP - 19438 1364 0 -".to_string());
    let lines: Vec<&str> = lines.iter().map(String::as_str).collect();
    vec![
        explains("siren_and_test", SIREN.to_string(), "1929 9 0 9 1286 -", &siren),
        explains("tests_in_1024_lines", tests(341), "19438 1364 0 1024 19438 -", &lines),
    ]
}

/// "Lent memory under 65,536 bytes is refusal 10; all other refusals are the merging bound's."
fn refused() -> Vec<Case> {
    let stuck = meeting("?", &["BRANCHIF 2", "CONST0 -", "POP 1", "STOP -"]);
    vec![
        Case { lent: MEMORY - 1, ..refuses("lent_65535", SIREN, 10, 0) },
        Case { lent: 0, ..refuses("lent_0", vec![b'x'; 32_769], 10, 0) },
        refuses("too_long", vec![b'x'; 32_769], 1, 0),
        refuses("empty", "", 2, 1),
        refuses("backward", include_str!("../../examples/refused.txt"), 13, 21),
        refuses("unlike_heights", PUBLISHED, 14, 4),
        refuses("stuck", stuck, 7, 2),
    ]
}

pub fn explanations() -> Vec<Case> {
    [ties(), sums(), merged(), refused()].into_iter().flatten().collect()
}
