//! Refusals in words: what a number means, where its place is, and what to do.
use super::content::FIXED;

/// A refusal, as the analyser answers it.
#[derive(Clone, Copy, Debug, PartialEq)]
pub struct Refusal {
    pub number: u16,
    pub place: u32,
}

/// What the number means and what to do.
fn words(number: u16) -> (&'static str, &'static str) {
    match number {
        1 => ("the file has more than 32,768 bytes", "ask the buyer for a shorter routine"),
        2 => (
            "the layout is wrong, a value is missing or one too many, or a word is no number (`_` stands for a number that is not filled in)",
            "fill in what is missing, or ask the buyer for a file in the right form",
        ),
        3 => ("a number is outside its range", "correct the number, or ask the buyer for a file in the right form"),
        4 => (
            "a name is unknown, repeated or out of sequence, a handle leads to a block that is not there, or an address does not follow",
            "ask the buyer for a file in the right form",
        ),
        5 => ("an instruction has no price", "add its price to lines 3 to 6, or price the file by a card that has it"),
        6 => ("a jump leads to no address of the code", "return the routine to the buyer"),
        7 => ("some inputs lead to a step that cannot be made", "return the routine to the buyer"),
        8 => ("one path has more than 32 unknown branches", "fill in inputs that are known"),
        9 => ("the paths have more than BUDGET steps", "raise BUDGET (line 2), or fill in inputs that are known"),
        13 => (
            "a jump leads to its own address or a lower one",
            "return the routine to the buyer, who writes the turns of a loop one after another",
        ),
        14 => (
            "two ways meet there, and their stacks or their handles are not alike",
            "return the routine to the buyer, who lets the ways meet with stacks of one height and a number in the accumulator",
        ),
        _ => ("this number is not known to the sheet", "see the table of refusals"),
    }
}

impl Refusal {
    /// As the analyser prints it, on one row.
    fn printed(&self) -> String {
        format!("REFUSED{FIXED}{}{FIXED}{}", self.number, self.place)
    }

    /// Where the place is: a line of the file or an address of the code.
    pub fn where_it_is(&self) -> String {
        match self.number {
            1 => "in the whole file".into(),
            7 | 8 | 9 | 14 => format!("at address {}", self.place),
            _ => format!("on line {}", self.place),
        }
    }

    pub fn meaning(&self) -> &'static str {
        words(self.number).0
    }

    pub fn remedy(&self) -> &'static str {
        words(self.number).1
    }

    /// Number, place and meaning, as one sentence without its full stop.
    pub fn told(&self) -> String {
        format!("{}, {}: {}", self.printed(), self.where_it_is(), self.meaning())
    }
}

#[cfg(test)]
mod tests {
    use super::*;

    #[test]
    fn every_refusal_of_a_bound_has_words() {
        for number in [1, 2, 3, 4, 5, 6, 7, 8, 9, 13, 14] {
            assert!(!Refusal { number, place: 1 }.meaning().contains("not known"), "{number}");
        }
    }

    #[test]
    fn places_are_lines_or_addresses() {
        assert!(Refusal { number: 13, place: 21 }
            .told()
            .replace(FIXED, " ")
            .starts_with("REFUSED 13 21, on line 21: a jump"));
        assert!(Refusal { number: 8, place: 234 }
            .told()
            .replace(FIXED, " ")
            .starts_with("REFUSED 8 234, at address 234: one path"));
    }
}
