//! Cuts: numbers at which cells of the start are cut into cases. They are a text of their own, which the proved analyser reads; here they
//! are written as such a text, and the cases that they make are counted and named.
use crate::arguments::shown;
use crate::cells::Cell;
use crate::failure::{wrong_call, Failure};
use crate::input;
use crate::library::{self, Answer};
use crate::numbers::number;
use crate::routine_text::RoutineText;

/// The longest text of cuts that is not refused by 1.
const LIMIT: usize = 4096;
pub const NAMES: &str = "CELL FROM";
/// The most cuts that a text has.
pub const MOST: usize = 16;

/// The text of cuts that a command is given: a file, or words as `S2:500,900`.
pub fn given(command: &str, file: Option<&str>, words: &[String]) -> Result<Vec<u8>, Failure> {
    match file {
        Some(_) if !words.is_empty() => Err(wrong_call(command, "give cuts or --cuts, and not both")),
        Some(file) => input::read(file, LIMIT),
        None => of_words(command, words),
    }
}

/// The text of words `CELL:N,N..`; whether there is such a cell and such a number is for the analyser to say.
fn of_words(command: &str, words: &[String]) -> Result<Vec<u8>, Failure> {
    let mut text = format!("{NAMES}\n");
    for word in words {
        let parted = word.split_once(':').filter(|_| word.bytes().all(|byte| byte.is_ascii_graphic()));
        let Some((cell, numbers)) = parted else {
            let what = format!("{} is no cut: give a cell, a colon and numbers, as S2:500,900", shown(word));
            return Err(wrong_call(command, &what));
        };
        numbers.split(',').for_each(|from| text += &format!("{cell} {from}\n"));
    }
    Ok(text.into_bytes())
}

/// Where the place of a refusal of the bound by cases is.
#[derive(Clone, Copy, Debug, PartialEq)]
pub enum Place {
    Routine,
    Cuts,
    Case,
}

impl Place {
    pub fn told(self) -> &'static str {
        match self {
            Place::Routine => "in the routine file",
            Place::Cuts => "in the cuts",
            Place::Case => "an address of the code, in one of the cases",
        }
    }
}

/// The routine file's refusals come first, and are those of its merging bound but 7 and 14; then the cuts' 1 to 4; then those of a case.
pub fn place_of(text: &[u8], number: u16) -> Place {
    match library::merge(text) {
        Answer::Refused { number, .. } if number != 7 && number != 14 => Place::Routine,
        _ if number == 7 || number == 14 => Place::Case,
        _ => Place::Cuts,
    }
}

/// The numbers that a cell may hold at the start, the lowest and the highest.
#[derive(Clone, Copy, Debug, PartialEq, Eq, Hash)]
pub struct Range {
    pub low: i64,
    pub high: i64,
}

pub const WHOLE: Range = Range { low: -1_073_741_824, high: 1_073_741_823 };

impl Range {
    /// The numbers of a cell's word; none of a handle.
    fn of(word: &str) -> Option<Range> {
        match word.split_once("..") {
            _ if word == "?" => Some(WHOLE),
            Some((low, high)) => Some(Range { low: number(low)?, high: number(high)? }),
            None => number(word).map(|only| Range { low: only, high: only }),
        }
    }

    pub fn is_one(self) -> bool {
        self.low == self.high
    }

    /// Whether it has numbers below this one and numbers from it on.
    pub fn is_divided_by(self, from: i64) -> bool {
        self.low < from && from <= self.high
    }

    /// As a cell of a routine file has it.
    pub fn word(self) -> String {
        match (self.is_one(), self) {
            (true, _) => self.low.to_string(),
            (_, WHOLE) => "?".into(),
            _ => format!("{}..{}", self.low, self.high),
        }
    }
}

/// The start of a routine file that passes: its cells that hold numbers.
pub struct Start<'a> {
    lines: Vec<&'a str>,
    cells: Vec<(Cell, &'a str)>,
    /// of each cell, in the order of the file
    pub ranges: Vec<Option<Range>>,
}

impl<'a> Start<'a> {
    pub fn of(routine: &RoutineText<'a>) -> Start<'a> {
        let ranges = routine.cells.iter().map(|(_, word)| Range::of(word)).collect();
        Start { lines: routine.lines.clone(), cells: routine.cells.clone(), ranges }
    }

    pub fn name(&self, place: usize) -> String {
        self.cells[place].0.to_string()
    }

    /// The cuts of a text that was accepted: the place of the cell and the number.
    pub fn cuts(&self, text: &[u8]) -> Vec<(usize, i64)> {
        let text = String::from_utf8_lossy(text);
        let cut = |line: &str| {
            let (name, from) = line.split_once(' ')?;
            let place = self.cells.iter().position(|(cell, _)| cell.to_string() == name)?;
            Some((place, number(from)?))
        };
        text.lines().skip(1).filter_map(cut).collect()
    }

    /// How many cases cuts make: the parts of each cell, multiplied.
    pub fn count(&self, cuts: &[(usize, i64)]) -> usize {
        let parts = |(place, range): (usize, &Option<Range>)| {
            let mut divided: Vec<i64> = cuts.iter().filter(|cut| cut.0 == place).map(|cut| cut.1).collect();
            divided.retain(|from| range.is_some_and(|range| range.is_divided_by(*from)));
            divided.sort_unstable();
            divided.dedup();
            divided.len() + 1
        };
        self.ranges.iter().enumerate().map(parts).product()
    }

    /// The routine file with these numbers in its cells, a case of it.
    pub fn narrowed(&self, ranges: &[Option<Range>]) -> Vec<u8> {
        let words: Vec<String> = self
            .cells
            .iter()
            .zip(ranges)
            .map(|((_, word), range)| range.map_or(word.to_string(), Range::word))
            .collect();
        let entries = self.cells.iter().take_while(|(cell, _)| !matches!(cell, Cell::Field(..))).count();
        let mut lines: Vec<String> = self.lines.iter().map(|line| line.to_string()).collect();
        lines[10] = words[..entries].join(" ");
        if words.len() > entries {
            lines[12] = words[entries..].join(" ");
        }
        lines.iter().flat_map(|line| [line.as_str(), "\n"]).collect::<String>().into_bytes()
    }
}

/// The two parts of a case by a cut that divides it, the lower one first.
pub fn parts(case: &[Option<Range>], place: usize, from: i64) -> Option<[Vec<Option<Range>>; 2]> {
    let range = case[place].filter(|range| range.is_divided_by(from))?;
    let with = |part: Range| {
        let mut case = case.to_vec();
        case[place] = Some(part);
        case
    };
    Some([with(Range { high: from - 1, ..range }), with(Range { low: from, ..range })])
}

/// The first case that the merging bound refuses as the bound by cases did, as the cells that were cut and what they hold in it; nothing
/// where no cut divides a cell, or where a case is too long as a file of its own.
pub fn refused_case(text: &[u8], cuts: &[u8], refusal: &Answer) -> Option<String> {
    let routine = RoutineText::read("", text).ok()?;
    let start = Start::of(&routine);
    let cuts = start.cuts(cuts);
    if start.count(&cuts) == 1 {
        return None;
    }
    // those that are still to be looked at, the next one last, each with the cuts that are still to be made
    let mut left = vec![(start.ranges.clone(), &cuts[..])];
    while let Some((case, cuts)) = left.pop() {
        if let Some((cut, rest)) = cuts.split_first() {
            match parts(&case, cut.0, cut.1) {
                Some([lower, upper]) => left.extend([(upper, rest), (lower, rest)]),
                None => left.push((case, rest)),
            }
            continue;
        }
        match library::merge(&start.narrowed(&case)) {
            Answer::Report(_) => {}
            other => return (other == *refusal).then(|| told(&start, &case)),
        }
    }
    None
}

/// The cells of a case that are narrower than at the start.
fn told(start: &Start, case: &[Option<Range>]) -> String {
    let narrower = (0..case.len()).filter(|place| case[*place] != start.ranges[*place]);
    let cell = |place: usize| {
        let range = case[place].map_or(String::new(), |range| range.word());
        format!("{} {range}", start.name(place))
    };
    narrower.map(cell).collect::<Vec<_>>().join(", ")
}

#[cfg(test)]
mod tests {
    use super::*;
    use crate::lines::tests::said;

    fn words(words: &[&str]) -> Vec<String> {
        words.iter().map(|word| word.to_string()).collect()
    }

    #[test]
    fn words_are_written_as_a_text() {
        let text = of_words("split", &words(&["S2:500,900", "B0.1:-3"])).unwrap();
        assert_eq!(text, b"CELL FROM\nS2 500\nS2 900\nB0.1 -3\n");
        assert_eq!(of_words("split", &[]).unwrap(), b"CELL FROM\n");
        // the analyser refuses these
        assert_eq!(of_words("split", &words(&[":", "S2:x,"])).unwrap(), b"CELL FROM\n \nS2 x\nS2 \n");
        for word in ["S2", "", "S2:1 2", "S2:1\n", "S2\t:1", "S2 1"] {
            assert!(said(of_words("split", &words(&[word]))).contains("is no cut"), "{word:?}");
        }
        assert!(said(given("split", Some("f"), &words(&["S2:1"]))).contains("not both"));
    }

    const ROUTINE: &str = "BUDGET TICK\n10 10\nSTOP\n1\n0\n0\n-\n-\n-\nACCU S0 S1\n? #0 0..9\nB0.0 B0.1\n5 -2..2\n\
        AT OP ARG\n0 STOP -\n";

    #[test]
    fn cases_are_counted() {
        let routine = RoutineText::read("f", ROUTINE.as_bytes()).unwrap();
        let start = Start::of(&routine);
        let count = |lines: &str| start.count(&start.cuts(format!("CELL FROM\n{lines}").as_bytes()));
        assert_eq!(count(""), 1);
        assert_eq!(count("S1 5\n"), 2);
        assert_eq!(count("S1 5\nS1 5\nS1 0\nS1 10\nS1 9\n"), 3);
        assert_eq!(count("S0 1\nB0.0 5\nB0.0 6\n"), 1);
        assert_eq!(count("ACCU 0\nACCU 1\nB0.1 0\n"), 6);
    }

    #[test]
    fn a_case_is_a_file_of_its_own() {
        let routine = RoutineText::read("f", ROUTINE.as_bytes()).unwrap();
        let start = Start::of(&routine);
        assert_eq!(start.narrowed(&start.ranges), ROUTINE.as_bytes());
        let [lower, upper] = parts(&start.ranges, 2, 4).unwrap();
        let [lower, _] = parts(&lower, 4, -1).unwrap();
        let text = String::from_utf8(start.narrowed(&lower)).unwrap();
        assert!(text.contains("\n? #0 0..3\n") && text.contains("\n5 -2\n"), "{text}");
        assert_eq!(told(&start, &lower), "S1 0..3, B0.1 -2");
        assert_eq!(told(&start, &upper), "S1 4..9");
        assert!(parts(&start.ranges, 1, 4).is_none() && parts(&start.ranges, 3, 5).is_none());
        let [below, _] = parts(&start.ranges, 0, 0).unwrap();
        assert_eq!(told(&start, &below), "ACCU -1073741824..-1");
    }
}
