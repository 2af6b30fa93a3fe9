//! The speed of the analyser's bound, merging bound, run, import, export, replay, explanations, bound by cases and search for the nearest number, as
//! a ratio against the independent implementation in the same run; with the word `worst`, the time of the longest bound by cases alone.
mod clock;
mod files;

use clock::now;
use independent::analyser::{self, Function};
use independent::explain::{self, explain_answer};
use independent::nearest::nearest_answer;
use independent::replay::replay_answer;
use independent::report::{bound_answer, merge_answer, printed, run_answer, told, Answer, MEMORY};
use independent::routine::TEXT_LIMIT;
use independent::split::split_answer;
use independent::way::explain_merge_answer;
use independent::words::{self, export_answer, import_answer};
use std::hint::black_box;
use std::time::Duration;

/// Passes over all files, so that a slow moment of the machine does not fall on one file alone; in each, twelve calls of both.
const PASSES: usize = 5;

/// What is measured: the analyser's function and the independent one, with this memory lent.
#[derive(Clone, Copy)]
struct Pair {
    proved: Function,
    independent: fn(&[u8], usize) -> Answer,
    lent: usize,
}

const BOUND: Pair = Pair { proved: analyser::bound, independent: bound_answer, lent: MEMORY };
const MERGE: Pair = Pair { proved: analyser::merge, independent: merge_answer, lent: MEMORY };
const RUN: Pair = Pair { proved: analyser::run, independent: run_answer, lent: MEMORY };
const IMPORT: Pair = Pair {
    proved: |words, lines| analyser::import(words, files::primitives_line(), lines),
    independent: |words, lent| import_answer(words, files::primitives_line(), lent),
    lent: words::MEMORY,
};
const EXPORT: Pair = Pair { proved: analyser::export, independent: export_answer, lent: words::MEMORY };
/// Of a trace, against the file of the straight path.
const REPLAY: Pair = Pair {
    proved: |trace, report| analyser::replay(files::straight_file(), trace, report),
    independent: |trace, lent| replay_answer(files::straight_file(), trace, lent),
    lent: MEMORY,
};
const EXPLAIN: Pair = Pair { proved: analyser::explain, independent: explain_answer, lent: explain::MEMORY };
const EXPLAIN_MERGE: Pair =
    Pair { proved: analyser::explain_merge, independent: explain_merge_answer, lent: explain::MEMORY };
/// Of the alarm panel, by as many cuts of its four open cells as there can be.
const SPLIT: Pair = Pair {
    proved: |text, report| analyser::split(text, files::panel_cuts(), report),
    independent: |text, lent| split_answer(text, files::panel_cuts(), lent),
    lent: MEMORY,
};
const NEAREST: Pair = Pair { proved: analyser::nearest, independent: nearest_answer, lent: MEMORY };

/// A file, and the best times of one call of both.
struct Measured {
    name: &'static str,
    text: Vec<u8>,
    pair: Pair,
    proved: Duration,
    independent: Duration,
}

impl Measured {
    fn new(name: &'static str, text: Vec<u8>, pair: Pair) -> Measured {
        Measured { name, text, pair, proved: Duration::MAX, independent: Duration::MAX }
    }

    /// Calls both in turn at twelve places of a page, and keeps the best times.
    fn measure(&mut self) {
        let mut memory = vec![0; self.pair.lent];
        let mut both = || {
            let text = black_box(&self.text[..]);
            self.proved = self.proved.min(time(|| (self.pair.proved)(text, &mut memory)));
            self.independent = self.independent.min(time(|| (self.pair.independent)(text, self.pair.lent)));
        };
        let mut lines = || {
            below::<16>(&mut both);
            below::<32>(&mut both);
            below::<48>(&mut both);
            below::<64>(&mut both);
        };
        lines();
        below::<1360>(&mut lines);
        below::<2720>(&mut lines);
    }
}

fn time<T>(function: impl FnOnce() -> T) -> Duration {
    let start = now();
    black_box(function());
    now() - start
}

/// Calls `f` below `SPACE` bytes of stack: how fast cells are copied hangs on where they lie, in a line of the cache and in a page.
#[inline(never)]
fn below<const SPACE: usize>(f: &mut dyn FnMut()) {
    let space = [0u8; SPACE];
    black_box(&space);
    f();
    black_box(&space);
}

/// What both answer: the last line that is printed, or the length of what an import, an export or an explanation makes. They must agree.
fn answer(pair: Pair, text: &[u8]) -> String {
    let mut memory = vec![0; pair.lent];
    let answer = (pair.independent)(text, pair.lent);
    assert_eq!((pair.proved)(text, &mut memory), told(&answer));
    let bytes = answer.as_ref().map_or(&[][..], |report| report);
    assert!(memory.starts_with(bytes));
    if bytes.len() > MEMORY {
        return format!("{} bytes", bytes.len());
    }
    String::from_utf8(printed(&answer)).unwrap().lines().last().unwrap().to_string()
}

fn milliseconds(time: Duration) -> f64 {
    time.as_secs_f64() * 1e3
}

/// A line of a table: the times, how many times the second the first is, and the answer.
fn row(file: &Measured, first: Duration, second: Duration) {
    let ratio = first.as_secs_f64() / second.as_secs_f64();
    let (first, second) = (milliseconds(first), milliseconds(second));
    let (name, bytes, answer) = (file.name, file.text.len(), answer(file.pair, &file.text));
    println!("{name:<48} {bytes:>6} {first:>9.3} {second:>9.3} {ratio:>6.2}  {answer}");
}

fn head(name: &str, second: &str) {
    println!("{name:<48} {:>6} {:>9} {second:>9} {:>6}  answer", "bytes", "ours, ms", "ratio");
}

/// The merging bound of so many lines: the whole call, and that of the same lines with STOP first, which reads them and merges nothing.
struct Merged {
    lines: usize,
    whole: Measured,
    read: Measured,
}

impl Merged {
    fn new(lines: usize) -> Merged {
        let of = |ends_at_once| Measured::new("tests that meet", files::tests(lines, ends_at_once), MERGE);
        Merged { lines, whole: of(false), read: of(true) }
    }

    fn head() {
        let name = "the merging bound, a branch on every third line";
        println!(
            "{name:<48} {:>9} {:>9} {:>6} {:>15} {:>9} {:>11} {:>9} {:>6}  answer",
            "ours, ms", "other, ms", "ratio", "ours, µs a line", "pass, ms", "of the call", "other, ms", "ratio"
        );
    }

    /// The whole call beside the independent one, its time for each line, and what is left without the reader's time: the pass.
    fn row(&self) {
        let (ours, other) = (milliseconds(self.whole.proved), milliseconds(self.whole.independent));
        let pass = ours - milliseconds(self.read.proved);
        let other_pass = other - milliseconds(self.read.independent);
        let line = ours * 1e3 / self.lines as f64;
        let name = format!("{} lines", self.lines);
        let (ratio, share, of_pass) = (ours / other, pass / ours, pass / other_pass);
        let answer = answer(MERGE, &self.whole.text);
        println!(
            "{name:<48} {ours:>9.3} {other:>9.3} {ratio:>6.2} {line:>15.2} {pass:>9.3} {share:>11.2} {other_pass:>9.3} {of_pass:>6.2}  {answer}"
        );
    }
}

/// As many cases as there can be, of as many lines: the time of one call, in seconds.
fn worst() {
    let (text, cuts) = (files::tests(1024, false), files::entry_cuts());
    let mut report = [0; MEMORY];
    let mut answer = 0;
    let spent = time(|| answer = analyser::split(&text, &cuts, &mut report));
    let report = String::from_utf8_lossy(&report[..answer as usize]).into_owned();
    println!("65,536 cases of 1,024 lines: {:.1} s  {}", spent.as_secs_f64(), report.lines().last().unwrap());
}

fn main() {
    if std::env::args().nth(1).is_some_and(|word| word == "worst") {
        return worst();
    }
    let scanned: [(&str, fn(usize) -> Vec<u8>, Pair); 12] = [
        ("names on line 3", files::names, BOUND),
        ("spaces on line 3", files::spaces, BOUND),
        ("a kind repeated on line 3", files::repeated_kind, BOUND),
        ("32 primitives with long names", files::long_names, BOUND),
        ("1,024 lines of code", files::long_code, BOUND),
        ("1,024 lines that call the last of 32 primitives", files::long_calls, BOUND),
        ("the import of 1,024 instructions", files::words, IMPORT),
        ("the export of 1,024 instructions", files::instructions, EXPORT),
        ("the import of 1,023 branches to the last", files::branch_words, IMPORT),
        ("the export of 1,023 branches to the last", files::branches, EXPORT),
        ("the replay of a straight path", files::trace, REPLAY),
        ("the explanation of a straight path", files::straight_lines, EXPLAIN),
    ];
    let mut explored = vec![
        Measured::new("1,024 paths of 974 steps, 10 openings on each", files::long_paths(), BOUND),
        Measured::new("the same paths over ranges", files::long_paths_over_ranges(), BOUND),
        Measured::new("a straight path of 1,024 lines", files::straight_path(), BOUND),
        Measured::new("the run of that path", files::straight_path(), RUN),
        Measured::new("a full tree of 18 openings, narrow", files::tree(false), BOUND),
        Measured::new("a full tree of 18 openings, wide", files::tree(true), BOUND),
        Measured::new("61 kinds priced, six of them used", files::six_kinds(), BOUND),
        Measured::new("a file of 32,768 bytes", files::long_code(TEXT_LIMIT), BOUND),
        Measured::new("the import of 1,024 instructions", files::words(TEXT_LIMIT), IMPORT),
        Measured::new("the export of 1,024 instructions", files::instructions(TEXT_LIMIT), EXPORT),
        Measured::new("the replay of that path", files::trace(TEXT_LIMIT), REPLAY),
        Measured::new("the explanation of that path", files::straight_path(), EXPLAIN),
        Measured::new("the merging bound explained, 1,024 lines", files::tests(1024, false), EXPLAIN_MERGE),
        Measured::new("625 cases of the alarm panel", files::panel(), SPLIT),
        Measured::new("the nearest of 160 numbers, 45 lines", files::numbers(), NEAREST),
    ];
    let of_length = |bytes| scanned.map(|(name, text, pair)| Measured::new(name, text(bytes), pair));
    let (mut whole, mut half) = (of_length(TEXT_LIMIT), of_length(TEXT_LIMIT / 2));
    let mut merged = [128, 256, 512, 1024].map(Merged::new);
    for _ in 0..PASSES {
        explored.iter_mut().chain(&mut whole).chain(&mut half).for_each(Measured::measure);
        merged.iter_mut().flat_map(|file| [&mut file.whole, &mut file.read]).for_each(Measured::measure);
    }
    head("file", "other, ms");
    for file in &explored {
        row(file, file.proved, file.independent);
    }
    println!();
    Merged::head();
    merged.iter().for_each(Merged::row);
    println!();
    head("what makes a scan long", "half, ms");
    for (file, half) in whole.iter().zip(&half) {
        row(file, file.proved, half.proved);
    }
}
