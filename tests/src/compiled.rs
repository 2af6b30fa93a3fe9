//! Functions compiled by OCaml 4.13.1 (`tests/compiled/`), with runs whose results are read from their sources.
use crate::word_draft::Import;

/// A run of a function.
pub struct Run {
    /// what stands on the stack, the first argument on top
    pub arguments: &'static str,
    /// the fields of block 0; none where it is empty
    pub fields: &'static str,
    pub answers: &'static [i32],
    /// the accumulator and the fields at the end
    pub result: i32,
    pub fields_after: &'static str,
}

pub struct Function {
    pub name: &'static str,
    words: &'static [u8],
    primitives: &'static [u8],
    pub runs: Vec<Run>,
}

impl Function {
    pub fn import(&self) -> Import {
        Import { words: self.words.to_vec(), primitives: self.primitives.to_vec() }
    }
}

macro_rules! function {
    ($name:literal, $runs:expr) => {
        Function {
            name: $name,
            words: include_bytes!(concat!("../compiled/", $name, ".words")),
            primitives: include_bytes!(concat!("../compiled/", $name, ".primitives")),
            runs: $runs.into(),
        }
    };
}

/// A run without a block and without primitives.
fn plain(arguments: &'static str, result: i32) -> Run {
    called(arguments, &[], result)
}

fn called(arguments: &'static str, answers: &'static [i32], result: i32) -> Run {
    Run { arguments, fields: "", answers, result, fields_after: "" }
}

/// A run with a block, the first argument a handle to it.
fn on_block(arguments: &'static str, fields: [&'static str; 2], answers: &'static [i32], result: i32) -> Run {
    Run { arguments, fields: fields[0], answers, result, fields_after: fields[1] }
}

pub fn functions() -> Vec<Function> {
    vec![
        function!(
            "alarm",
            [
                on_block("#0 4", ["0 7 50 1 0 0", "0 8 50 1 60 9"], &[60, 9, 33], 33),
                on_block("#0 4", ["1 7 50 0 0 0", "1 8 50 0 20 5"], &[20, 5, -2], -2),
                on_block("#0 4", ["1 7 50 1 0 0", "1 7 50 1 20 0"], &[20], 2),
                on_block("#0 4", ["0 7 50 0 0 0", "1 7 50 0 50 0"], &[50], 2),
            ]
        ),
        function!(
            "clamp",
            [plain("10 20 0 5", 10), plain("10 20 1 25", 20), plain("10 20 1 15", 16), plain("10 20 0 15", 15)]
        ),
        function!("larger", [plain("3 4 10 2", 8), plain("5 5 3 -1", 10)]),
        function!("mixer", [called("30 10 1", &[1, 2, 100, 250], 150), called("30 10 0", &[1, 2, 7, 3], -4)]),
        function!("ranks", [plain("1 5 2 9", -96), plain("12 4 3 3", -3), plain("0 0 1 2", 1), plain("0 2 0 9", -97)]),
        function!(
            "tariff",
            [
                on_block("#0 30 40 20 30 0", ["10 20 100 5 1000 130", "10 20 100 6 1140 140"], &[], 110),
                on_block("#0 1 2 3 4 1", ["25 20 100 0 0 500", "20 25 500 1 35 500"], &[], 35),
            ]
        ),
        function!(
            "window",
            [
                on_block("#0 15", ["10 20 3 0", "10 20 4 15"], &[], 1),
                on_block("#0 25", ["10 20 3 0", "10 20 3 0"], &[], 0),
                on_block("#0 5", ["10 20 3 0", "10 20 3 0"], &[], 0),
            ]
        ),
    ]
}
