//! Texts for each sentence of change request 13, with the answers that it gives them.
use crate::cases::file;

/// A text, and what is printed for it.
pub struct Case {
    pub name: &'static str,
    pub text: String,
    pub lent: usize,
    pub printed: &'static str,
}

/// How many there are.
pub const CASES: usize = 31;

const KINDS: &str =
    "ACC0 ACC1 PUSHCONSTINT EQ LEINT GEINT BRANCHIF BRANCHIFNOT CONST0 GETFIELD0 GETFIELD1 POP PUSH C_CALL1 STOP";

/// Code over cells and fields, under a BUDGET; each kind costs 1 cycle and no word, A 10 cycles and 1 word, B as many cycles and 2 words.
fn over(budget: u32, cells: &str, fields: &str, code: &[&str]) -> String {
    let ones = vec!["1"; KINDS.split(' ').count()].join(" ");
    let entries: String = (0..cells.split(' ').count() - 1).map(|i| format!(" S{i}")).collect();
    let code: String = code.iter().enumerate().map(|(at, line)| format!("{at} {line}\n")).collect();
    let text = file(budget, KINDS, &ones, &format!("ACCU{entries}"), cells, &code);
    let text = text.replacen("-\n-\n-", "A B\n10 10\n1 2", 1);
    if fields.is_empty() {
        return text;
    }
    let names: Vec<String> = (0..fields.split(' ').count()).map(|i| format!("B{}.{}", i / 16, i % 16)).collect();
    text.replacen("-\n-\nAT", &format!("{}\n{fields}\nAT", names.join(" ")), 1)
}

/// ACCU against a number; another way, of more cycles, where they are equal.
fn equal(accu: &str, against: &str) -> String {
    let test = format!("PUSHCONSTINT {against}");
    over(100, accu, "", &[&test, "EQ -", "BRANCHIF 4", "STOP -", "C_CALL1 A", "STOP -"])
}

/// Numbers from 1 to n.
fn numbers(n: usize) -> String {
    (1..=n).map(|i| i.to_string()).collect::<Vec<_>>().join(" ")
}

pub fn nearests() -> Vec<Case> {
    let case = |name, text, printed| Case { name, text, lent: 128, printed };
    let both = ["PUSHCONSTINT 0", "EQ -", "BRANCHIFNOT 4", "STOP -", "C_CALL1 A", "STOP -"];
    let unread = ["STOP -"];
    let mut openings = vec!["BRANCHIF 2".to_string(), "STOP -".to_string()];
    for i in 0..33 {
        openings.push("C_CALL1 A".to_string());
        openings.push(format!("BRANCHIF {}", 4 + 2 * i));
    }
    openings.push("STOP -".to_string());
    let openings: Vec<&str> = openings.iter().map(String::as_str).collect();
    let mut cases = vec![
        case("upwards_by_3", equal("5", "8"), "ACCU 8\n"),
        case("downwards_by_3", equal("5", "2"), "ACCU 2\n"),
        // "downwards before upwards": both move by 1
        case("downwards_first", over(100, "0", "", &both), "ACCU -1\n"),
        case("by_64", equal("0", "64"), "ACCU 64\n"),
        case("by_64_downwards", equal("0", "-64"), "ACCU -64\n"),
        // "at most 64"
        case("not_by_65", equal("0", "65"), "NONE\n"),
        case("not_by_65_downwards", equal("0", "-65"), "NONE\n"),
        // "Values outside the 31 bits are passed over."
        case("up_to_the_highest", equal("1073741822", "1073741823"), "ACCU 1073741823\n"),
        case("not_past_the_highest", equal("1073741823", "-1073741824"), "NONE\n"),
        case("down_to_the_lowest", equal("-1073741823", "-1073741824"), "ACCU -1073741824\n"),
        case("not_past_the_lowest", equal("-1073741824", "1073741823"), "NONE\n"),
        // fewer cycles
        case(
            "to_fewer_cycles",
            over(100, "5", "", &["PUSHCONSTINT 7", "EQ -", "BRANCHIF 5", "C_CALL1 A", "STOP -", "STOP -"]),
            "ACCU 7\n",
        ),
        // WORDS alone does not count
        case(
            "words_alone",
            over(100, "5", "", &["PUSHCONSTINT 7", "EQ -", "BRANCHIF 5", "C_CALL1 A", "STOP -", "C_CALL1 B", "STOP -"]),
            "NONE\n",
        ),
        // "refused by 7, 8 or 9"
        case(
            "to_a_stuck_step",
            over(100, "5", "", &["PUSHCONSTINT 7", "EQ -", "BRANCHIF 4", "STOP -", "POP 64", "STOP -"]),
            "ACCU 7\n",
        ),
        case("to_a_thirty_third_opening", over(1000, "0", "", &openings), "ACCU -1\n"),
        case(
            "to_a_spent_budget",
            over(4, "5", "", &["PUSHCONSTINT 7", "EQ -", "BRANCHIF 4", "STOP -", "CONST0 -", "STOP -"]),
            "ACCU 7\n",
        ),
        // "then the cell earlier in the file": both move by 2
        case(
            "the_earlier_cell",
            over(
                100,
                "0 5 9",
                "",
                &[
                    "ACC1 -",
                    "PUSHCONSTINT 11",
                    "EQ -",
                    "BRANCHIF 10",
                    "ACC0 -",
                    "PUSHCONSTINT 7",
                    "EQ -",
                    "BRANCHIF 10",
                    "CONST0 -",
                    "STOP -",
                    "C_CALL1 A",
                    "STOP -",
                ],
            ),
            "S0 7\n",
        ),
        // "The smallest change comes first": a later cell by 1, an earlier one by 2
        case(
            "the_smaller_change",
            over(
                100,
                "0 5 9",
                "",
                &[
                    "ACC1 -",
                    "PUSHCONSTINT 10",
                    "EQ -",
                    "BRANCHIF 10",
                    "ACC0 -",
                    "PUSHCONSTINT 7",
                    "EQ -",
                    "BRANCHIF 10",
                    "CONST0 -",
                    "STOP -",
                    "C_CALL1 A",
                    "STOP -",
                ],
            ),
            "S1 10\n",
        ),
        // "start and block cells"
        case(
            "a_field",
            over(
                100,
                "#0",
                "3 8",
                &["GETFIELD1 -", "PUSHCONSTINT 6", "EQ -", "BRANCHIF 5", "STOP -", "C_CALL1 A", "STOP -"],
            ),
            "B0.1 6\n",
        ),
        case(
            "start_cells_before_fields",
            over(
                100,
                "#0 1",
                "1",
                &[
                    "GETFIELD0 -",
                    "PUSHCONSTINT 2",
                    "EQ -",
                    "BRANCHIF 9",
                    "ACC0 -",
                    "PUSHCONSTINT 2",
                    "EQ -",
                    "BRANCHIF 9",
                    "STOP -",
                    "C_CALL1 A",
                    "STOP -",
                ],
            ),
            "S0 2\n",
        ),
        // handles and unknowns are not changed
        case("an_unknown", over(100, "?", "", &["BRANCHIF 2", "STOP -", "C_CALL1 A", "STOP -"]), "NONE\n"),
        // "5..5" holds one number, and a wider range does not
        case("a_range_of_one", equal("5..5", "8"), "ACCU 8\n"),
        case("a_wider_range", equal("5..6", "8"), "NONE\n"),
        case("a_handle", over(100, "#0", "1", &["GETFIELD0 -", "STOP -"]), "NONE\n"),
        case("no_cell_is_read", over(100, "1 2", "3", &unread), "NONE\n"),
        case("no_cell_of_161_is_read", over(100, &numbers(33), &numbers(128), &unread), "NONE\n"),
        // two numbers, each of which is read only beside the other
        case("two_cells_compared", over(100, "3 4", "", &["EQ -", "BRANCHIF 3", "C_CALL1 A", "STOP -"]), "ACCU 4\n"),
        // a number that is only held against itself does not matter
        case(
            "a_cell_against_itself",
            over(100, "3", "", &["PUSH -", "EQ -", "BRANCHIF 4", "STOP -", "C_CALL1 A", "STOP -"]),
            "NONE\n",
        ),
        // "A file that is refused to begin with is refused the same way here."
        case("refused_by_7", over(100, "1", "", &["POP 64", "STOP -"]), "REFUSED 7 0\n"),
        case("refused_by_3", over(100, "1073741824", "", &unread), "REFUSED 3 11\n"),
    ];
    cases.push(Case {
        name: "lent_too_little",
        text: over(100, "1", "", &unread),
        lent: 127,
        printed: "REFUSED 10 0\n",
    });
    cases
}
