//! A routine file by its sections, as far as a reason needs them: whatever its text is.
use super::lines::{lines, Line, Word};

/// What stands on a line.
#[derive(Clone, Copy, Debug, PartialEq)]
pub enum Role {
    /// `BUDGET TICK`, `AT OP ARG`
    Title(&'static str),
    Limits,
    Kinds,
    /// A line of values under the kinds: cycles, words, extra cycles of a jump.
    KindPrices(Price),
    Primitives,
    PrimitivePrices(Price),
    Start,
    StartCells,
    Fields,
    FieldCells,
    Code,
    AnswerTitle,
    Answer,
}

#[derive(Clone, Copy, Debug, PartialEq)]
pub enum Price {
    Cycles,
    Words,
    Extra,
}

/// The numbers of the lines that others refer to.
pub const KINDS_LINE: usize = 3;
pub const PRIMITIVES_LINE: usize = 7;
pub const FIELDS_LINE: usize = 12;
pub const FIRST_CODE_LINE: usize = 15;

pub struct Routine<'a> {
    lines: Vec<Line<'a>>,
    /// The line of `ANSWER`, where there is one after a line of code.
    answers: Option<usize>,
}

impl<'a> Routine<'a> {
    pub fn of(text: &'a [u8]) -> Routine<'a> {
        let lines = lines(text);
        let is_title = |index: &usize| lines[*index].bytes == b"ANSWER";
        let answers = (FIRST_CODE_LINE..lines.len()).find(is_title).map(|index| index + 1);
        Routine { lines, answers }
    }

    /// A line by its number, from 1.
    pub fn line(&self, number: usize) -> Option<Line<'a>> {
        self.lines.get(number.checked_sub(1)?).copied()
    }

    pub fn count(&self) -> usize {
        self.lines.len()
    }

    pub fn role(&self, number: usize) -> Role {
        match number {
            1 => Role::Title("BUDGET TICK"),
            2 => Role::Limits,
            3 => Role::Kinds,
            4 => Role::KindPrices(Price::Cycles),
            5 => Role::KindPrices(Price::Words),
            6 => Role::KindPrices(Price::Extra),
            7 => Role::Primitives,
            8 => Role::PrimitivePrices(Price::Cycles),
            9 => Role::PrimitivePrices(Price::Words),
            10 => Role::Start,
            11 => Role::StartCells,
            12 => Role::Fields,
            13 => Role::FieldCells,
            14 => Role::Title("AT OP ARG"),
            _ => match self.answers {
                Some(title) if number == title => Role::AnswerTitle,
                Some(title) if number > title => Role::Answer,
                _ => Role::Code,
            },
        }
    }

    /// The words of a line; none where it is `-` or is not there.
    pub fn names(&self, number: usize) -> Vec<Word<'a>> {
        match self.line(number) {
            Some(line) if line.bytes != b"-" => line.words(),
            _ => Vec::new(),
        }
    }

    /// The names over a line of values.
    pub fn names_over(&self, number: usize) -> Vec<Word<'a>> {
        match number {
            2 => self.names(1),
            4..=6 => self.names(KINDS_LINE),
            8 | 9 => self.names(PRIMITIVES_LINE),
            11 => self.names(10),
            13 => self.names(FIELDS_LINE),
            _ => Vec::new(),
        }
    }

    /// The numbers of the lines of code.
    pub fn code_lines(&self) -> std::ops::Range<usize> {
        let end = self.answers.unwrap_or(self.count() + 1);
        FIRST_CODE_LINE.min(end)..end
    }

    pub fn first_address(&self) -> Option<i64> {
        number(self.names(FIRST_CODE_LINE).first()?.bytes)
    }

    /// The number of the line that an address has, in a file whose addresses follow.
    pub fn line_of_address(&self, address: i64) -> Option<usize> {
        let code = self.code_lines();
        let offset = usize::try_from(address.checked_sub(self.first_address()?)?).ok()?;
        Some(code.start + offset).filter(|line| code.contains(line))
    }

    /// How many fields the blocks have, up to the first name that is out of sequence.
    pub fn blocks(&self) -> Vec<usize> {
        let mut fields: Vec<usize> = Vec::new();
        for word in self.names(FIELDS_LINE) {
            match field_after(&fields) {
                (same, _) if same.as_deref().is_some_and(|name| name.as_bytes() == word.bytes) => {
                    *fields.last_mut().expect("a block with a field") += 1;
                }
                (_, Some(next)) if next.as_bytes() == word.bytes => fields.push(1),
                _ => break,
            }
        }
        fields
    }
}

/// The names that may follow on line 12: the next field of the last block, and the first of the next.
pub fn field_after(fields: &[usize]) -> (Option<String>, Option<String>) {
    let same = fields.last().filter(|count| **count < 16).map(|count| format!("B{}.{count}", fields.len() - 1));
    let next = Some(fields.len()).filter(|block| *block < 8).map(|block| format!("B{block}.0"));
    (same, next)
}

/// The number that a word spells, held within ten thousand millions; nothing where it is no number.
pub fn number(word: &[u8]) -> Option<i64> {
    const MOST: i64 = 10_000_000_000;
    let (sign, digits) = match word {
        [b'-', digits @ ..] => (-1, digits),
        digits => (1, digits),
    };
    let is_spelt = match digits {
        [b'0'] => sign == 1,
        [b'1'..=b'9', rest @ ..] => rest.iter().all(u8::is_ascii_digit),
        _ => false,
    };
    let held = |value: i64, digit: &u8| (10 * value + i64::from(digit - b'0')).min(MOST);
    is_spelt.then(|| sign * digits.iter().fold(0, held))
}

#[cfg(test)]
mod tests {
    use super::*;

    #[test]
    fn numbers_are_spelt_in_one_way() {
        for (word, value) in [("0", 0), ("-1", -1), ("62000", 62000), ("99999999999999999999999", 10_000_000_000)] {
            assert_eq!(number(word.as_bytes()), Some(value));
        }
        for word in ["", "-", "-0", "00", "+1", "1x", "?", "1..2", "1\r"] {
            assert_eq!(number(word.as_bytes()), None, "{word}");
        }
    }

    #[test]
    fn a_file_has_its_sections() {
        let text = include_bytes!("../../../examples/door-counter.txt");
        let routine = Routine::of(text);
        assert_eq!(routine.role(15), Role::Code);
        assert_eq!(routine.role(23), Role::AnswerTitle);
        assert_eq!(routine.role(24), Role::Answer);
        assert_eq!(routine.code_lines(), 15..23);
        assert_eq!(routine.line_of_address(7), Some(22));
        assert_eq!(routine.line_of_address(8), None);
        assert_eq!(routine.blocks(), [1]);
        assert_eq!(Routine::of(b"").code_lines().len(), 0);
    }
}
