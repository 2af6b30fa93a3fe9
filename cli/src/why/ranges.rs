//! Refusal 3: a number outside its range.
use super::fault::Fault;
use super::kinds::{argument, Argument, HIGHEST, LOWEST};
use super::layout::range;
use super::lines::{told, Line, Word};
use super::routine::{number, Price, Role, Routine, FIRST_CODE_LINE};

/// The highest address that a file may name.
pub const HIGHEST_ADDRESS: i64 = 62_000;

pub fn fault(routine: &Routine, number: usize, line: &Line) -> Option<Fault> {
    let words = line.words();
    match routine.role(number) {
        Role::Limits => {
            let budget = outside(words.first()?, "BUDGET", 1, 1_000_000);
            budget.or_else(|| outside(words.get(1)?, "TICK", 1, 4_000_000_000))
        }
        Role::KindPrices(Price::Extra) => extra(routine, number, &words),
        Role::KindPrices(price) | Role::PrimitivePrices(price) => prices(routine, number, &words, price),
        Role::StartCells | Role::FieldCells => words.iter().find_map(cell),
        Role::Code => code(number, &words),
        Role::Answer => outside(words.first()?, "an answer", LOWEST, HIGHEST),
        _ => None,
    }
}

fn outside(word: &Word, what: &str, low: i64, high: i64) -> Option<Fault> {
    let is_outside = number(word.bytes).is_some_and(|value| value < low || value > high);
    is_outside.then(|| Fault::at(word, format!("{what}, {low} to {high}")))
}

fn prices(routine: &Routine, number: usize, words: &[Word], price: Price) -> Option<Fault> {
    let (what, high) = if price == Price::Words { ("words", 255) } else { ("cycles", 65_535) };
    let names = routine.names_over(number);
    let name = |index: usize| names.get(index).map_or(String::new(), |name| told(name.bytes));
    words.iter().enumerate().find_map(|(index, word)| outside(word, &format!("the {what} of {}", name(index)), 0, high))
}

/// The extra cycles of a jump, which two kinds have.
fn extra(routine: &Routine, number: usize, words: &[Word]) -> Option<Fault> {
    let names = routine.names_over(number);
    let of = |(name, word): (&Word, &Word)| match name.bytes {
        b"BRANCHIF" | b"BRANCHIFNOT" => {
            outside(word, &format!("the extra cycles of {} where it jumps", told(name.bytes)), 0, 65_535)
        }
        _ => {
            let wanted = format!("0 under {}: BRANCHIF and BRANCHIFNOT alone have extra cycles", told(name.bytes));
            (word.bytes != b"0").then(|| Fault::at(word, wanted))
        }
    };
    names.iter().zip(words).find_map(of)
}

fn cell(word: &Word) -> Option<Fault> {
    if let [b'#', block @ ..] = word.bytes {
        let is_outside = number(block).is_some_and(|block| !(0..=7).contains(&block));
        return is_outside.then(|| Fault::at(word, "a handle to a block, #0 to #7"));
    }
    if let Some((low, high)) = range(word.bytes) {
        if low > high {
            return Some(Fault::at(word, "a range whose first number is not above its second"));
        }
        let is_outside = low < LOWEST || high > HIGHEST;
        return is_outside
            .then(|| Fault::at(word, format!("a range within {LOWEST} to {HIGHEST}, numbers of 31 bits")));
    }
    outside(word, "a number of 31 bits", LOWEST, HIGHEST)
}

fn code(number: usize, words: &[Word]) -> Option<Fault> {
    let [at, kind, given] = words else {
        return None;
    };
    let address = match number {
        FIRST_CODE_LINE => outside(at, "the first address", 0, 60_000),
        _ => outside(at, "an address", 0, HIGHEST_ADDRESS),
    };
    let what = format!("the argument of {}", told(kind.bytes));
    address.or_else(|| match argument(kind.bytes)? {
        Argument::Number(low, high) => outside(given, &what, low, high),
        Argument::Address => outside(given, "the address to jump to", 0, HIGHEST_ADDRESS),
        Argument::Missing | Argument::Primitive => None,
    })
}
