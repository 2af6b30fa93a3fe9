//! Imports and exports with the answers that change request 2 gives them, and 7, which leaves the words as they are.
use crate::cases::published;
use crate::report::Answer;
use crate::routine::{refused, CODE_LINES, PRIMITIVES};
use crate::tagged::LOWEST;
use crate::texts::LARGER_FILE;
use crate::word_draft::Import;
use crate::words::{bytes, MEMORY};

/// How many imports and how many exports there are.
pub const CASES: [usize; 2] = [124, 15];

/// A name that says what is tried, what is read, the memory lent, and what is told.
pub struct Case<T> {
    pub name: &'static str,
    pub read: T,
    pub lent: usize,
    pub told: Answer,
}

type ImportEntry = (&'static str, Vec<u8>, &'static str, Answer);

/// Words of a code and a branch of each kind: all 61, in the order of their numbers.
#[rustfmt::skip]
const ALL_KINDS: [i32; 78] = [
    0, 1, 2, 3, 4, 5, 6, 7, 8, 5, 9, 10, 11, 12, 13, 14, 15, 16, 17, 18, 63, 19, 64, 20, 0,
    67, 68, 69, 70, 71, 15, 73, 74, 75, 76, 77, 4, 84, 39, 85, 37, 86, 1, 88,
    93, 0, 94, 1, 95, 0, 96, 1, 97, 0, 99, 100, 101, 102, 103, -1073741824, 104, 105, 106, 107, 108, 1073741823,
    109, 110, 111, 121, 122, 123, 124, 125, 126, 127, -1, 143,
];

const ALL_KINDS_LINES: &str = "\
0 ACC0 -
1 ACC1 -
2 ACC2 -
3 ACC3 -
4 ACC4 -
5 ACC5 -
6 ACC6 -
7 ACC7 -
8 ACC 5
9 PUSH -
10 PUSHACC0 -
11 PUSHACC1 -
12 PUSHACC2 -
13 PUSHACC3 -
14 PUSHACC4 -
15 PUSHACC5 -
16 PUSHACC6 -
17 PUSHACC7 -
18 PUSHACC 63
19 POP 64
20 ASSIGN 0
21 GETFIELD0 -
22 GETFIELD1 -
23 GETFIELD2 -
24 GETFIELD3 -
25 GETFIELD 15
26 SETFIELD0 -
27 SETFIELD1 -
28 SETFIELD2 -
29 SETFIELD3 -
30 SETFIELD 4
31 BRANCH 60
32 BRANCHIF 60
33 BRANCHIFNOT 34
34 BOOLNOT -
35 C_CALL1 READ
36 C_CALL2 STOP
37 C_CALL3 READ
38 C_CALL4 STOP
39 C_CALL5 READ
40 CONST0 -
41 CONST1 -
42 CONST2 -
43 CONST3 -
44 CONSTINT -1073741824
45 PUSHCONST0 -
46 PUSHCONST1 -
47 PUSHCONST2 -
48 PUSHCONST3 -
49 PUSHCONSTINT 1073741823
50 NEGINT -
51 ADDINT -
52 SUBINT -
53 EQ -
54 NEQ -
55 LTINT -
56 LEINT -
57 GTINT -
58 GEINT -
59 OFFSETINT -1
60 STOP -
";

/// 32 names, and a 33rd.
const NAMES_32: &str = "A B C D E F G H I J K L M N O P Q R S T U V W X Y Z A1 A2 A3 A4 A5 A6";
const NAMES_33: &str = "A B C D E F G H I J K L M N O P Q R S T U V W X Y Z A1 A2 A3 A4 A5 A6 A7";
/// The 33rd is ill-spelt.
const NAMES_33_MISSPELT: &str = "A B C D E F G H I J K L M N O P Q R S T U V W X Y Z A1 A2 A3 A4 A5 A6 a7";

fn lines(lines: &str) -> Answer {
    Ok(format!("AT OP ARG\n{lines}").into_bytes())
}

/// Words, and bytes of one more that is cut off.
fn cut(words: &[i32], rest: &[u8]) -> Vec<u8> {
    [&bytes(words), rest].concat()
}

/// A word as often as this, between others.
fn repeated(before: &[i32], words: &[i32], count: usize, after: &[i32]) -> Vec<u8> {
    bytes(&[before, &words.repeat(count), after].concat())
}

/// Lines of one instruction.
fn numbered(instruction: &str, count: usize) -> String {
    (0..count).map(|i| format!("{i} {instruction}\n")).collect()
}

pub fn imports() -> Vec<Case<Import>> {
    let with_memory =
        [accepted(), primitives(), opcodes(), cut_off(), places(), offsets(), counts(), order()].into_iter().flatten();
    let mut cases: Vec<Case<Import>> = with_memory
        .map(|(name, words, primitives, told)| {
            let primitives = primitives.as_bytes().to_vec();
            Case { name, read: Import { words, primitives }, lent: MEMORY, told }
        })
        .collect();
    // each with a fault for every later refusal too
    for (name, lent) in [("lent_32767", MEMORY - 1), ("lent_0", 0)] {
        let read = Import { words: Vec::new(), primitives: b"read".to_vec() };
        cases.push(Case { name, read, lent, told: refused(10, 0) });
    }
    cases
}

/// "makes the AT lines under their names line, from address 0".
fn accepted() -> Vec<ImportEntry> {
    vec![
        ("const0_stop", bytes(&[99, 143]), "-", lines("0 CONST0 -\n1 STOP -\n")),
        ("all_61_kinds", bytes(&ALL_KINDS), "READ STOP", lines(ALL_KINDS_LINES)),
        ("push_alone", bytes(&[9]), "-", lines("0 PUSH -\n")),
        // "A branch word is an offset from its own position"
        ("forward", bytes(&[85, 2, 99, 143]), "-", lines("0 BRANCHIF 2\n1 CONST0 -\n2 STOP -\n")),
        ("to_the_next", bytes(&[86, 1, 143]), "-", lines("0 BRANCHIFNOT 1\n1 STOP -\n")),
        ("to_itself", bytes(&[84, -1]), "-", lines("0 BRANCH 0\n")),
        ("backward", bytes(&[99, 85, -2, 143]), "-", lines("0 CONST0 -\n1 BRANCHIF 0\n2 STOP -\n")),
        ("to_the_last_word", bytes(&[84, 3, 8, 84, 143]), "-", lines("0 BRANCH 2\n1 ACC 84\n2 STOP -\n")),
        // "Argument words are signed."
        ("lowest", bytes(&[103, -2147483648]), "-", lines("0 CONSTINT -2147483648\n")),
        ("highest", bytes(&[108, 2147483647]), "-", lines("0 PUSHCONSTINT 2147483647\n")),
        ("minus_1", bytes(&[127, -1]), "-", lines("0 OFFSETINT -1\n")),
        ("little_endian", b"\x67\0\0\0\x01\x02\x03\x04".to_vec(), "-", lines("0 CONSTINT 67305985\n")),
        // the bound refuses these, not the import
        ("acc_100", bytes(&[8, 100]), "-", lines("0 ACC 100\n")),
        ("pop_minus_1", bytes(&[19, -1]), "-", lines("0 POP -1\n")),
        ("constint_1073741824", bytes(&[103, 1073741824]), "-", lines("0 CONSTINT 1073741824\n")),
        ("offsetint_minus_1073741825", bytes(&[127, -1073741825]), "-", lines("0 OFFSETINT -1073741825\n")),
        ("getfield_lowest", bytes(&[71, -2147483648]), "-", lines("0 GETFIELD -2147483648\n")),
        (
            "short_and_long",
            bytes(&[8, 0, 0, 18, 0, 10, 71, 0, 67, 77, 0, 73, 103, 0, 99, 108, 0, 104]),
            "-",
            lines(
                "0 ACC 0\n1 ACC0 -\n2 PUSHACC 0\n3 PUSHACC0 -\n4 GETFIELD 0\n5 GETFIELD0 -\n6 SETFIELD 0\n7 SETFIELD0 -\n\
                 8 CONSTINT 0\n9 CONST0 -\n10 PUSHCONSTINT 0\n11 PUSHCONST0 -\n",
            ),
        ),
        ("arguments_that_are_no_opcodes", bytes(&[8, 21, 19, 40, 143]), "-", lines("0 ACC 21\n1 POP 40\n2 STOP -\n")),
        // "C_CALL names a primitive by its place, from 0, on the primitives line"
        ("places", bytes(&[93, 1, 97, 0]), "READ STOP", lines("0 C_CALL1 STOP\n1 C_CALL5 READ\n")),
        ("place_31", bytes(&[95, 31]), NAMES_32, lines("0 C_CALL3 A6\n")),
        ("line_feed", bytes(&[93, 1]), "READ STOP\n", lines("0 C_CALL1 STOP\n")),
        ("no_primitives_and_line_feed", bytes(&[143]), "-\n", lines("0 STOP -\n")),
        ("name_of_eight", bytes(&[94, 0]), "ABCDE_12", lines("0 C_CALL2 ABCDE_12\n")),
    ]
}

/// "An import then refuses its primitives line by 2 or 4 at place 1."
fn primitives() -> Vec<ImportEntry> {
    let faults = [
        ("no_line", "", 2),
        ("line_feed_alone", "\n", 2),
        ("line_feed_twice", "READ\n\n", 2),
        ("line_feed_first", "\nREAD", 2),
        ("line_feed_between", "READ\nSTOP", 2),
        ("line_feed_between_and_last", "READ\nSTOP\n", 2),
        ("names_33", NAMES_33, 2),
        ("two_spaces", "READ  STOP", 2),
        ("space_first", " READ", 2),
        ("space_last", "READ ", 2),
        ("space_before_the_line_feed", "READ \n", 2),
        ("space_alone", " ", 2),
        ("dash_and_space", "- ", 2),
        ("small_letters", "read", 4),
        ("name_of_nine", "ABCDEFGHI", 4),
        ("digit_first", "1A", 4),
        ("underscore_first", "_A", 4),
        ("point", "A.B", 4),
        ("carriage_return", "READ\r\n", 4),
        ("tab", "READ\tSTOP", 4),
        ("not_ascii", "RÉAD", 4),
        ("zero_byte", "READ\0", 4),
        ("dash_and_name", "- READ", 4),
        ("name_and_dash", "READ -", 4),
        ("two_dashes", "- -", 4),
        ("repeated", "READ STOP READ", 4),
        // 2 before 4
        ("misspelt_and_two_spaces", "read  STOP", 2),
        ("repeated_and_line_feed", "READ READ\nSTOP", 2),
        ("names_33_one_misspelt", NAMES_33_MISSPELT, 2),
    ];
    faults.map(|(name, line, number)| (name, bytes(&[143]), line, refused(number, 1))).to_vec()
}

/// "an opcode outside the 61 kinds", numbered as in OCaml 4.13.1.
fn opcodes() -> Vec<ImportEntry> {
    let strange = [
        ("envacc1", 21),
        ("return", 40),
        ("grab", 42),
        ("makefloatblock", 66),
        ("getfloatfield", 72),
        ("setfloatfield", 78),
        ("setbyteschar", 83),
        ("switch", 87),
        ("pushtrap", 89),
        ("check_signals", 92),
        ("c_calln", 98),
        ("mulint", 112),
        ("asrint", 120),
        ("offsetref", 128),
        ("beq", 131),
        ("getdynmet", 142),
        ("event", 144),
        ("number_256", 256),
        ("minus_one", -1),
        ("stop_big_endian", 143 << 24),
        ("stop_and_65536", 143 + 65536),
        ("lowest_opcode", i32::MIN),
    ];
    let mut entries = strange.map(|(name, opcode)| (name, bytes(&[99, opcode, 143]), "-", refused(12, 1))).to_vec();
    entries.push(("first_opcode", bytes(&[21]), "-", refused(12, 0)));
    entries.push(("after_an_argument", bytes(&[8, 5, 40]), "-", refused(12, 2)));
    entries
}

/// "no word at all", "a cut-off word or argument", which "counts at its opcode".
fn cut_off() -> Vec<ImportEntry> {
    vec![
        ("no_word", Vec::new(), "-", refused(12, 0)),
        ("byte_alone", b"\x8f".to_vec(), "-", refused(12, 0)),
        ("three_bytes_alone", b"\x8f\0\0".to_vec(), "-", refused(12, 0)),
        ("byte_after_a_word", cut(&[99], b"\x63"), "-", refused(12, 1)),
        ("two_bytes_after_a_word", cut(&[143], b"\0\0"), "-", refused(12, 1)),
        ("byte_after_an_argument", cut(&[8, 5], b"\0"), "-", refused(12, 2)),
        ("no_argument", bytes(&[8]), "-", refused(12, 0)),
        ("no_argument_at_1", bytes(&[99, 103]), "-", refused(12, 1)),
        ("byte_of_an_argument", cut(&[99, 19], b"\x01"), "-", refused(12, 1)),
        ("two_bytes_of_an_offset", cut(&[99, 99, 84], b"\0\0"), "-", refused(12, 2)),
        ("three_bytes_of_a_place", cut(&[93], b"\0\0\0"), "READ", refused(12, 0)),
        ("no_place", bytes(&[93]), "-", refused(12, 0)),
    ]
}

/// "a primitive's place not on its line".
fn places() -> Vec<ImportEntry> {
    vec![
        ("place_0_of_none", bytes(&[93, 0]), "-", refused(12, 1)),
        ("place_1_of_one", bytes(&[94, 1]), "READ", refused(12, 1)),
        ("place_minus_1", bytes(&[95, -1]), "READ", refused(12, 1)),
        ("place_32", bytes(&[99, 97, 32]), NAMES_32, refused(12, 2)),
        ("place_lowest", bytes(&[96, i32::MIN]), "READ STOP", refused(12, 1)),
        ("place_256", bytes(&[96, 256]), "READ STOP", refused(12, 1)),
    ]
}

/// "an offset that lands inside an instruction or outside the words".
fn offsets() -> Vec<ImportEntry> {
    vec![
        ("on_its_own_word", bytes(&[84, 0]), "-", refused(12, 1)),
        ("on_an_argument_behind", bytes(&[85, 2, 103, 143, 143]), "-", refused(12, 1)),
        ("on_an_argument_before", bytes(&[103, 143, 86, -2]), "-", refused(12, 3)),
        ("on_another_offset", bytes(&[84, 2, 84, -3]), "-", refused(12, 1)),
        ("before_the_words", bytes(&[84, -2]), "-", refused(12, 1)),
        ("just_past_the_words", bytes(&[84, 1]), "-", refused(12, 1)),
        ("past_the_words", bytes(&[85, 4, 143]), "-", refused(12, 1)),
        ("farthest_behind", bytes(&[99, 86, i32::MAX, 143]), "-", refused(12, 2)),
        ("farthest_before", bytes(&[99, 86, i32::MIN, 143]), "-", refused(12, 2)),
        ("first_of_two_offsets", bytes(&[84, 0, 84, 9]), "-", refused(12, 1)),
        ("second_of_two_offsets", bytes(&[84, 1, 84, 0]), "-", refused(12, 3)),
    ]
}

/// "a 1,025th instruction".
fn counts() -> Vec<ImportEntry> {
    let most = CODE_LINES;
    vec![
        ("instructions_1024", repeated(&[], &[143], most, &[]), "-", lines(&numbered("STOP -", most))),
        (
            "most_bytes",
            repeated(&[], &[108, i32::MIN], most, &[]),
            "-",
            lines(&numbered("PUSHCONSTINT -2147483648", most)),
        ),
        ("instructions_1025", repeated(&[], &[143], most + 1, &[]), "-", refused(12, 1024)),
        ("instructions_1025_with_arguments", repeated(&[], &[8, 5], most, &[9, 9]), "-", refused(12, 2048)),
        ("strange_1025th", repeated(&[], &[143], most, &[21]), "-", refused(12, 1024)),
        ("cut_off_1025th", cut(&[99; CODE_LINES], b"\x8f"), "-", refused(12, 1024)),
        ("place_of_the_1025th", repeated(&[], &[143], most, &[93, 5]), "READ", refused(12, 1024)),
    ]
}

/// "Offsets are looked at only when none of the others is found. The earliest such word decides".
fn order() -> Vec<ImportEntry> {
    vec![
        ("offset_then_opcode", bytes(&[84, 0, 21]), "-", refused(12, 2)),
        ("offset_then_cut_word", cut(&[84, 0, 99], b"\0"), "-", refused(12, 3)),
        ("offset_then_cut_argument", bytes(&[84, -2, 8]), "-", refused(12, 2)),
        ("offset_then_place", bytes(&[84, 0, 93, 0]), "-", refused(12, 3)),
        ("offset_then_1025th", repeated(&[84, 0], &[143], CODE_LINES, &[]), "-", refused(12, 1025)),
        ("place_then_opcode", bytes(&[93, 5, 21]), "READ", refused(12, 1)),
        ("opcode_then_place", bytes(&[21, 93, 5]), "READ", refused(12, 0)),
        // the primitives line before the words
        ("line_then_words", Vec::new(), "read", refused(4, 1)),
        ("line_feed_then_words", bytes(&[21]), "READ\n\n", refused(2, 1)),
    ]
}

type ExportEntry = (&'static str, String, Answer);

fn words(words: &[i32]) -> Answer {
    Ok(bytes(words))
}

/// A file of all kinds with this code.
fn file(primitives: &str, code: &str) -> String {
    let zeros = |count: usize| vec!["0"; count].join(" ");
    let kinds = crate::routine::KINDS.map(|k| k.0).join(" ");
    let prices = [kinds, zeros(61), zeros(61), zeros(61)].join("\n");
    let values = primitives.split(' ').map(|p| if p == "-" { "-" } else { "0" }).collect::<Vec<_>>().join(" ");
    format!("BUDGET TICK\n9 9\n{prices}\n{primitives}\n{values}\n{values}\nACCU\n?\n-\n-\nAT OP ARG\n{code}")
}

/// "An export then has the file's refusals 1 to 6", and 13 after them (change request 8); those of the texts are compared beside these.
pub fn exports() -> Vec<Case<Vec<u8>>> {
    let most = CODE_LINES;
    let entries: Vec<ExportEntry> = vec![
        ("published", published(), words(&[93, 0, 85, 3, 101, 110, 143])),
        (
            "figure_4_from_69_on",
            include_str!("../../examples/figure4.txt").to_string(),
            words(&[0, 67, 12, 86, 4, 99, 84, 2, 0, 10, 127, 1, 10, 14, 73, 1, 14, 74, 99, 143]),
        ),
        (
            "larger_file_from_60000_on",
            LARGER_FILE.to_string(),
            words(&[9, 8, 63, 86, 5, 127, LOWEST, 84, 3, 77, 15, 94, 1, 143]),
        ),
        ("all_61_kinds", file("READ STOP", ALL_KINDS_LINES), words(&ALL_KINDS)),
        ("stuck", file("-", "0 PUSH -\n"), words(&[9])),
        ("to_the_next", file("-", "60000 BRANCH 60001\n60001 STOP -\n"), words(&[84, 1, 143])),
        ("to_itself", file("-", "60000 BRANCH 60000\n"), refused(13, 15)),
        ("backward", file("-", "7 CONST0 -\n8 BRANCHIF 7\n9 STOP -\n"), refused(13, 16)),
        ("place_31", file(NAMES_32, "7 C_CALL4 A6\n8 C_CALL1 A\n"), words(&[96, PRIMITIVES as i32 - 1, 93, 0])),
        ("with_answers", file("-", "0 STOP -\nANSWER\n99\n"), words(&[143])),
        ("lines_1024", file("-", &numbered("ACC 63", most)), Ok(repeated(&[], &[8, 63], most, &[]))),
        ("offsetint_1073741824", file("-", "0 OFFSETINT 1073741824\n"), refused(3, 15)),
        ("empty", String::new(), refused(2, 1)),
    ];
    let mut cases: Vec<Case<Vec<u8>>> = entries
        .into_iter()
        .map(|(name, text, told)| Case { name, read: text.into_bytes(), lent: MEMORY, told })
        .collect();
    for (name, lent) in [("lent_32767", MEMORY - 1), ("lent_0", 0)] {
        cases.push(Case { name, read: vec![b'A'; MEMORY + 1], lent, told: refused(10, 0) });
    }
    cases
}
