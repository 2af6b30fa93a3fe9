//! Generated cuts for a file: of its cells, at numbers in and around their ranges, and damaged ones. And files for them: tests of the same
//! cells against the same numbers, one after another and one inside another, with something else behind each.
use crate::machine::Cell;
use crate::random::Random;
use crate::routine::{read, Routine};
use crate::split::{cells, divides, names, CUTS, CUTS_LIMIT};
use crate::tagged::{HIGHEST, LOWEST};

/// The most cases that drawn cuts make, but for a file that is left as it is.
const MOST_CASES: usize = 48;

/// A number for a cut of a cell: in its range, at an end of it, next to it, or any.
fn from(random: &mut Random, cell: Cell) -> i32 {
    let Some(range) = cell.range() else {
        return random.number();
    };
    let n = match random.below(8) {
        0 => range.low as i64,
        1 => range.low as i64 + 1,
        2 => range.high as i64,
        3 => range.high as i64 + 1,
        4 => random.number() as i64,
        5 => random.below(4) as i64,
        _ => random.in_range([range.low, range.high]) as i64,
    };
    n.clamp(LOWEST as i64, HIGHEST as i64) as i32
}

/// Lines of cuts for a file that passes: mostly of cells with more than one number, now and then of others and one twice.
fn lines(random: &mut Random, routine: &Routine, names: &[Vec<u8>]) -> Vec<(Vec<u8>, i32)> {
    let cells = cells(&routine.start);
    let wide: Vec<usize> =
        (0..cells.len()).filter(|i| divides(cells[*i], HIGHEST) || matches!(cells[*i], Cell::Within(_))).collect();
    let count = match random.below(8) {
        0 => 0,
        1 => random.within(1, CUTS),
        2 => CUTS,
        _ => random.within(1, 4),
    };
    let mut lines: Vec<(Vec<u8>, i32)> = Vec::new();
    let mut cases = 1;
    for _ in 0..count {
        let place = match random.below(6) {
            0 => random.below(cells.len()),
            _ if wide.is_empty() => random.below(cells.len()),
            _ => *random.pick(&wide),
        };
        let mut n = from(random, cells[place]);
        if divides(cells[place], n) {
            if cases * 2 > MOST_CASES {
                // the lowest number divides nothing
                n = LOWEST;
            } else {
                cases *= 2;
            }
        }
        lines.push((names[place].clone(), n));
        if random.one_in(8) && lines.len() < count {
            lines.push(lines[random.below(lines.len())].clone());
        }
    }
    lines.truncate(CUTS);
    lines
}

fn text(lines: &[(Vec<u8>, i32)]) -> Vec<u8> {
    let mut text = b"CELL FROM\n".to_vec();
    for (name, n) in lines {
        text.extend([name, &b" "[..], n.to_string().as_bytes(), b"\n"].concat());
    }
    text
}

/// One fault put into a text of cuts.
fn damaged(random: &mut Random, cuts: &[u8]) -> Vec<u8> {
    let mut lines: Vec<Vec<u8>> = cuts.split(|b| *b == b'\n').map(<[u8]>::to_vec).collect();
    lines.pop();
    if lines.len() == 1 {
        lines.push(b"ACCU 1".to_vec());
    }
    let n = random.below(lines.len());
    let cut = random.within(1, lines.len() - 1);
    let outside = [1 << 30, -(1 << 30) - 1, 1 << 31, 1 << 40, i64::MIN, i64::MAX];
    let name = lines[cut].split(|b| *b == b' ').next().unwrap().to_vec();
    match random.below(12) {
        0 => lines[n].push(b' '),
        1 => lines[n].insert(0, b' '),
        2 => drop(lines.remove(n)),
        3 => lines[n] = b"CELL FROM".to_vec(),
        4 => {
            lines[cut] =
                [&name[..], b" ", *random.pick(&[&b"01"[..], b"+1", b"-0", b"?", b"1..2", b"#0", b""])].concat()
        }
        5 => lines[cut] = name,
        6 => (0..CUTS).for_each(|_| lines.push(lines[cut].clone())),
        7 | 8 => lines[cut] = [&name[..], b" ", random.pick(&outside).to_string().as_bytes()].concat(),
        9 | 10 => {
            let other = *random.pick(&[&b"S32"[..], b"B8.0", b"B0.16", b"accu", b"S00", b"-", b"ACC", b"B0", b"\xff"]);
            lines[cut] = [other, b" 1"].concat();
        }
        _ => {
            let digits = vec![b'7'; CUTS_LIMIT - random.below(40)];
            lines[cut] = [&name[..], b" ", &digits].concat();
        }
    }
    let mut text = lines.join(&b'\n');
    if !random.one_in(8) {
        text.push(b'\n');
    }
    text
}

/// Cuts for a file, which may be refused itself.
pub fn cuts(random: &mut Random, file: &[u8]) -> Vec<u8> {
    let lines = match (read(file, false), names(file)) {
        (Ok(routine), Ok(names)) => lines(random, &routine, &names),
        _ => vec![(b"ACCU".to_vec(), random.number())],
    };
    let cuts = text(&lines);
    if random.one_in(4) {
        damaged(random, &cuts)
    } else {
        cuts
    }
}

/// A file whose tests cuts can tell apart, and cuts for it.
pub struct Tested {
    pub text: Vec<u8>,
    pub cuts: Vec<u8>,
}

const KINDS: &str =
    "ACC PUSHCONSTINT EQ NEQ LTINT LEINT GTINT GEINT GETFIELD BRANCHIF BRANCHIFNOT C_CALL1 PUSH POP CONST0 STOP";
/// The entries of the stack at the start, of which the last is the handle of the block with so many fields.
const ENTRIES: usize = 3;
const HELD: usize = 2;

/// A cell that is tested, by its place among the names ACCU, S0 to S2, B0.0 and B0.1, and the number that it is held against.
#[derive(Clone, Copy)]
struct Test {
    place: usize,
    number: i64,
}

struct Writer<'a> {
    random: &'a mut Random,
    tests: Vec<Test>,
    code: Vec<String>,
}

impl Writer<'_> {
    fn put(&mut self, line: impl Into<String>) {
        self.code.push(line.into());
    }

    /// The accumulator becomes 0 or another number by a test: of a cell itself, or of a comparison with its number.
    fn condition(&mut self, test: Test) {
        match test.place {
            place @ 1..=2 => self.put(format!("ACC {}", place - 1)),
            place => {
                self.put(format!("ACC {}", ENTRIES - 1));
                self.put(format!("GETFIELD {}", place - 1 - ENTRIES));
            }
        }
        if test.number != 0 || self.random.one_in(2) {
            self.put(format!("PUSHCONSTINT {}", test.number));
            let operation = *self.random.pick(&["EQ", "NEQ", "LTINT", "LEINT", "GTINT", "GEINT"]);
            self.put(format!("{operation} -"));
        }
    }

    /// A test with what is behind it; the two ways meet after that.
    fn test(&mut self, nested: usize) {
        let test = *self.random.pick(&self.tests);
        self.condition(test);
        let branch = self.code.len();
        self.put("");
        match self.random.below(if nested == 0 { 11 } else { 16 }) {
            0..=3 => self.put("C_CALL1 DEAR"),
            4 | 5 => self.put("C_CALL1 WORDY"),
            6 | 7 => ["PUSH -", "PUSH -", "POP 2"].into_iter().for_each(|line| self.put(line)),
            8 => (0..5).for_each(|_| self.put("CONST0 -")),
            // inside another test it is often where no run comes
            9 if nested < 2 || self.random.one_in(4) => self.put("POP 64"),
            10 if self.random.one_in(3) => self.put("PUSH -"),
            9 | 10 => self.put("CONST0 -"),
            _ => self.test(nested - 1),
        }
        let kind = *self.random.pick(&["BRANCHIF", "BRANCHIFNOT"]);
        self.code[branch] = format!("{kind} {}", self.code.len());
    }
}

/// A cell of a start: a flag, a count, any number, or one.
fn start_cell(random: &mut Random) -> String {
    match random.below(8) {
        0 | 1 => "0..1".to_string(),
        2 => "?".to_string(),
        3 => random.below(4).to_string(),
        4 => "-2..3".to_string(),
        _ => format!("0..{}", random.within(2, 9)),
    }
}

/// A file of tests and cuts at the numbers tested.
pub fn tested(random: &mut Random) -> Tested {
    let places = [1, 2, 1 + ENTRIES, 1 + ENTRIES + 1];
    let tests: Vec<Test> = (0..random.within(1, 3))
        .map(|_| Test { place: *random.pick(&places), number: random.below(7) as i64 - 1 })
        .collect();
    let mut writer = Writer { random, tests: tests.clone(), code: Vec::new() };
    for _ in 0..writer.random.within(2, 6) {
        writer.test(2);
    }
    writer.put("STOP -");
    let Writer { random, code, .. } = writer;
    let prices = |random: &mut Random, most| {
        let each = KINDS.split(' ').map(|_| random.within(0, most).to_string());
        each.collect::<Vec<_>>().join(" ")
    };
    let (cycles, words) = (prices(random, 9), prices(random, 1));
    let kinds = KINDS.split(' ');
    let extras = kinds.map(|kind| if kind.starts_with("BRANCHIF") { random.within(0, 4) } else { 0 }.to_string());
    let extras = extras.collect::<Vec<_>>().join(" ");
    let cells: Vec<String> = (0..ENTRIES + HELD).map(|_| start_cell(random)).collect();
    let code: String = code.iter().enumerate().map(|(at, line)| format!("{at} {line}\n")).collect();
    let text = format!(
        "BUDGET TICK\n{} {}\n{KINDS}\n{cycles}\n{words}\n{extras}\nDEAR WORDY\n100 5\n1 20\nACCU S0 S1 S2\n{} {} {} #0\n\
         B0.0 B0.1\n{} {}\nAT OP ARG\n{code}",
        random.within(1, 2000),
        random.within(1, 900),
        cells[0],
        cells[1],
        cells[2],
        cells[3],
        cells[4],
    )
    .into_bytes();
    let cuts = tested_cuts(random, &text, &tests);
    Tested { text, cuts }
}

/// Cuts at the numbers tested and at one more, and others.
fn tested_cuts(random: &mut Random, file: &[u8], tests: &[Test]) -> Vec<u8> {
    if random.one_in(6) {
        return cuts(random, file);
    }
    let names = ["ACCU", "S0", "S1", "S2", "B0.0", "B0.1"];
    let count = random.within(1, 6);
    let line = |random: &mut Random| {
        let test = random.pick(tests);
        (names[test.place].as_bytes().to_vec(), test.number as i32 + random.below(2) as i32)
    };
    let lines: Vec<(Vec<u8>, i32)> = (0..count).map(|_| line(random)).collect();
    text(&lines)
}
