//! A card file: the first nine lines of a routine file, with the tick and the prices of one card.
use crate::failure::Failure;
use crate::lines::{self, at, quoted};
use crate::numbers::number;

/// The 61 kinds of instructions.
pub const KINDS: [&str; 61] = [
    "ACC0",
    "ACC1",
    "ACC2",
    "ACC3",
    "ACC4",
    "ACC5",
    "ACC6",
    "ACC7",
    "ACC",
    "PUSH",
    "PUSHACC0",
    "PUSHACC1",
    "PUSHACC2",
    "PUSHACC3",
    "PUSHACC4",
    "PUSHACC5",
    "PUSHACC6",
    "PUSHACC7",
    "PUSHACC",
    "POP",
    "ASSIGN",
    "CONST0",
    "CONST1",
    "CONST2",
    "CONST3",
    "CONSTINT",
    "PUSHCONST0",
    "PUSHCONST1",
    "PUSHCONST2",
    "PUSHCONST3",
    "PUSHCONSTINT",
    "OFFSETINT",
    "NEGINT",
    "BOOLNOT",
    "ADDINT",
    "SUBINT",
    "EQ",
    "NEQ",
    "LTINT",
    "LEINT",
    "GTINT",
    "GEINT",
    "GETFIELD0",
    "GETFIELD1",
    "GETFIELD2",
    "GETFIELD3",
    "GETFIELD",
    "SETFIELD0",
    "SETFIELD1",
    "SETFIELD2",
    "SETFIELD3",
    "SETFIELD",
    "BRANCH",
    "BRANCHIF",
    "BRANCHIFNOT",
    "C_CALL1",
    "C_CALL2",
    "C_CALL3",
    "C_CALL4",
    "C_CALL5",
    "STOP",
];

/// The two kinds that may cost more where they jump.
pub const JUMPS: [&str; 2] = ["BRANCHIF", "BRANCHIFNOT"];

/// How many lines a card file has.
pub const LINES: usize = 9;

const PRIMITIVES: usize = 32;
const CYCLES: i64 = 65_535;
const WORDS: i64 = 255;

pub struct Card {
    /// the file's name, for messages and for the sheet
    pub file: String,
    /// its nine lines as they stand, each with its line feed
    pub text: String,
    kinds: Vec<String>,
    primitives: Vec<String>,
}

/// The lines of a file that is being read.
struct Reading<'a> {
    file: &'a str,
    lines: &'a [&'a str],
}

/// A list as a line of names or values has it, where `-` is none.
pub fn listed(line: &str) -> Vec<&str> {
    if line == "-" {
        Vec::new()
    } else {
        line.split(' ').collect()
    }
}

impl Reading<'_> {
    fn line(&self, line: usize) -> Result<&str, Failure> {
        self.lines.get(line - 1).copied().ok_or_else(|| {
            let wanted = format!("the line is missing: a card file has nine lines, and this one has {}", holds(line));
            at(self.file, line, wanted)
        })
    }

    fn words(&self, line: usize) -> Result<Vec<&str>, Failure> {
        self.line(line).map(listed)
    }

    /// A line of names, each of which passes the test and stands there once.
    fn names(&self, line: usize, wanted: &str, test: impl Fn(&str) -> bool) -> Result<Vec<String>, Failure> {
        let mut names: Vec<String> = Vec::new();
        for name in self.words(line)? {
            if !test(name) {
                return Err(at(self.file, line, format!("{} is no {wanted}", quoted(name))));
            }
            if names.iter().any(|other| other == name) {
                return Err(at(self.file, line, format!("{name} stands here twice: keep one, with its prices")));
            }
            names.push(name.to_string());
        }
        Ok(names)
    }

    /// A line of values: one for each name, from the lowest to the most that the name may have.
    fn values(
        &self,
        line: usize,
        what: &str,
        names: &[String],
        lowest: i64,
        most: impl Fn(&str) -> i64,
    ) -> Result<(), Failure> {
        let words = self.words(line)?;
        if words.len() != names.len() {
            let wanted = format!("{} values stand here for {} names: give each name one", words.len(), names.len());
            return Err(at(self.file, line, wanted));
        }
        for (name, word) in names.iter().zip(words) {
            let range = format!("{lowest} to {}", most(name));
            match number(word) {
                Some(value) if (lowest..=most(name)).contains(&value) => {}
                _ if word == "_" => {
                    let wanted = format!("the {what} of {name} are not filled in (`_`): write {range}");
                    return Err(at(self.file, line, wanted));
                }
                _ => {
                    let wanted = format!("the {what} of {name} are {}: write a number, {range}", quoted(word));
                    return Err(at(self.file, line, wanted));
                }
            }
        }
        Ok(())
    }

    fn tick(&self) -> Result<(), Failure> {
        let first = self.line(1)?;
        if first != "BUDGET TICK" {
            return Err(at(self.file, 1, format!("`BUDGET TICK` is wanted here, and {} stands here", quoted(first))));
        }
        let names: Vec<String> = self.words(1)?.iter().map(|name| name.to_string()).collect();
        self.values(2, "steps or cycles", &names, 1, |name| if name == "TICK" { 4_000_000_000 } else { 1_000_000 })
    }

    fn kinds(&self) -> Result<Vec<String>, Failure> {
        let kinds = self.names(3, "kind of instruction", |name| KINDS.contains(&name))?;
        self.values(4, "cycles", &kinds, 0, |_| CYCLES)?;
        self.values(5, "words", &kinds, 0, |_| WORDS)?;
        self.values(6, "extra cycles of a jump", &kinds, 0, |name| if JUMPS.contains(&name) { CYCLES } else { 0 })?;
        Ok(kinds)
    }

    fn primitives(&self) -> Result<Vec<String>, Failure> {
        let wanted = "name of a primitive, which has 1 to 8 capital letters, digits and _, a capital letter first";
        let primitives = self.names(7, wanted, is_primitive)?;
        if primitives.len() > PRIMITIVES {
            let wanted = format!("{} primitives stand here: {PRIMITIVES} are the most", primitives.len());
            return Err(at(self.file, 7, wanted));
        }
        self.values(8, "cycles", &primitives, 0, |_| CYCLES)?;
        self.values(9, "words", &primitives, 0, |_| WORDS)?;
        Ok(primitives)
    }
}

/// Whether a word is spelt as a primitive's name.
pub fn is_primitive(name: &str) -> bool {
    let letter = |byte: u8| byte.is_ascii_uppercase();
    (1..=8).contains(&name.len())
        && name.bytes().next().is_some_and(letter)
        && name.bytes().all(|byte| letter(byte) || byte.is_ascii_digit() || byte == b'_')
}

/// What stands on the lines of a card file.
fn holds(line: usize) -> &'static str {
    match line {
        1 => "`BUDGET TICK`",
        2 => "the values of BUDGET and TICK",
        3 => "the kinds of instructions",
        4 => "the kinds' cycles",
        5 => "the kinds' words",
        6 => "the kinds' extra cycles of a jump",
        7 => "the primitives, or `-`",
        8 => "the primitives' cycles, or `-`",
        _ => "the primitives' words, or `-`",
    }
}

impl Card {
    pub fn read(file: &str, bytes: &[u8]) -> Result<Card, Failure> {
        let lines = lines::read(file, bytes)?;
        let reading = Reading { file, lines: &lines };
        reading.tick()?;
        let kinds = reading.kinds()?;
        let primitives = reading.primitives()?;
        if lines.len() > LINES {
            let wanted = "a card file has nine lines: remove this one and all after it (head -n 9)";
            return Err(at(file, LINES + 1, wanted));
        }
        let text = lines.iter().flat_map(|line| [*line, "\n"]).collect();
        Ok(Card { file: file.to_string(), text, kinds, primitives })
    }

    /// That the card prices every kind and every primitive of a code; those that it does not price are named, all of them.
    pub fn prices(&self, kinds: &[&str], primitives: &[&str]) -> Result<(), Failure> {
        let unpriced = |names: &[&str], priced: &[String]| -> Vec<String> {
            names
                .iter()
                .filter(|name| !priced.iter().any(|other| other == *name))
                .map(|name| name.to_string())
                .collect()
        };
        let [kinds, primitives] = [unpriced(kinds, &self.kinds), unpriced(primitives, &self.primitives)];
        let mut parts = Vec::new();
        if !kinds.is_empty() {
            parts.push(format!("of the kinds (lines 3 to 6): {}", kinds.join(" ")));
        }
        if !primitives.is_empty() {
            parts.push(format!("of the primitives (lines 7 to 9): {}", primitives.join(" ")));
        }
        if parts.is_empty() {
            return Ok(());
        }
        let named = parts.join("; ");
        Err(Failure(format!("{}: the code uses what this card does not price, {named}: add the prices", self.file)))
    }
}

#[cfg(test)]
pub mod tests {
    use super::*;
    use crate::lines::tests::said;

    pub const CARD: &str =
        "BUDGET TICK\n100 1000\nBRANCHIF C_CALL1 STOP\n5 10 1\n0 0 0\n3 0 0\nREAD LOG\n40 2600\n4 12\n";

    fn with(line: usize, text: &str) -> String {
        let mut lines: Vec<&str> = CARD.lines().collect();
        lines[line - 1] = text;
        lines.join("\n") + "\n"
    }

    #[test]
    fn sixty_one_kinds() {
        let mut kinds = KINDS.to_vec();
        kinds.sort_unstable();
        kinds.dedup();
        assert_eq!(kinds.len(), 61);
    }

    #[test]
    fn a_card_is_its_nine_lines() {
        let card = Card::read("card", CARD.as_bytes()).ok().unwrap();
        assert_eq!(card.text, CARD);
        assert!(card.prices(&["STOP", "C_CALL1"], &["LOG"]).is_ok());
    }

    #[test]
    fn a_card_without_primitives() {
        let text = with(7, "-").replace("40 2600", "-").replace("4 12", "-");
        assert!(Card::read("card", text.as_bytes()).is_ok());
    }

    #[test]
    fn all_that_is_not_priced_is_named() {
        let card = Card::read("card", CARD.as_bytes()).ok().unwrap();
        let message = said(card.prices(&["STOP", "ACC0", "POP"], &["READ", "LAMP"]));
        assert!(message.starts_with("card: ") && message.contains("ACC0 POP") && message.contains("LAMP"), "{message}");
        assert!(!message.contains("STOP") && !message.contains("READ"), "{message}");
    }

    #[test]
    fn damaged_cards_name_the_line() {
        for (line, text, word) in [
            (1, "TICK BUDGET", "BUDGET TICK"),
            (2, "100", "2 names"),
            (2, "0 1000", "BUDGET"),
            (2, "100 4000000001", "TICK"),
            (2, "100 _", "TICK are not filled in"),
            (3, "BRANCHIF STOP STOP", "STOP stands here twice"),
            (3, "BRANCHIF C_CALL6 STOP", "C_CALL6"),
            (4, "5 10", "2 values stand here for 3 names"),
            (4, "5 10 _", "STOP are not filled in"),
            (4, "5 65536 1", "C_CALL1"),
            (4, "5 010 1", "C_CALL1"),
            (4, "5 -1 1", "C_CALL1"),
            (5, "0 256 0", "C_CALL1"),
            (6, "3 1 0", "C_CALL1"),
            (7, "READ READ", "READ stands here twice"),
            (7, "READ lOG", "lOG"),
            (7, "READ TOO_LONG_", "TOO_LONG_"),
            (8, "40", "1 values"),
            (9, "4 x", "LOG"),
        ] {
            let message = said(Card::read("my card", with(line, text).as_bytes()));
            assert!(message.starts_with(&format!("my card: line {line}: ")) && message.contains(word), "{message}");
        }
    }

    /// The line at which the prices no longer belong to the names is named where a line in the middle is left out.
    #[test]
    fn a_line_left_out() {
        for (left_out, named) in [(1, 1), (2, 2), (3, 3), (4, 6), (5, 6), (6, 6), (7, 7), (8, 9), (9, 9)] {
            let kept = CARD.lines().enumerate().filter(|(index, _)| index + 1 != left_out);
            let text: String = kept.flat_map(|(_, line)| [line, "\n"]).collect();
            let message = said(Card::read("c", text.as_bytes()));
            assert!(message.starts_with(&format!("c: line {named}: ")), "{left_out}: {message}");
        }
    }

    #[test]
    fn too_few_and_too_many_lines() {
        for count in 0..9 {
            let text: String = CARD.lines().take(count).flat_map(|line| [line, "\n"]).collect();
            let message = said(Card::read("c", text.as_bytes()));
            assert!(message.starts_with(&format!("c: line {}: the line is missing", count + 1)), "{message}");
        }
        let message = said(Card::read("c", format!("{CARD}ACCU\n").as_bytes()));
        assert!(message.starts_with("c: line 10: "), "{message}");
        let message = said(Card::read("c", CARD.replace('\n', "\r\n").as_bytes()));
        assert!(message.starts_with("c: line 1: ") && message.contains("CRLF"), "{message}");
    }
}
