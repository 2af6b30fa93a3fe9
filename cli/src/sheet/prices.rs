//! The lines on prices: of which card they are, which of them are 0, and what a taken jump costs more.
use super::content::{last_name, Line, Part};
use crate::card::{self, Card};
use crate::failure::Failure;
use crate::routine_text::RoutineText;

/// The names among those in the code whose cycles are 0.
fn free<'a>(used: &[&'a str], priced: &[(&str, &str)]) -> Vec<&'a str> {
    let is_free = |name: &&str| priced.iter().any(|(other, cycles)| other == name && *cycles == "0");
    used.iter().copied().filter(is_free).collect()
}

/// Every kind and primitive in the code whose price is 0 cycles.
fn unpriced<'a>(routine: &RoutineText<'a>) -> Vec<&'a str> {
    let mut names = free(&routine.kinds(), &routine.values(3, 4));
    names.extend(free(&routine.primitives(), &routine.values(7, 8)));
    names
}

pub fn line(routine: &RoutineText, card: Option<&Card>) -> Line {
    let named = match card {
        Some(card) => format!("Lines 1 to 9 are those of the card {}.", last_name(&card.file)),
        None => "The prices are the file's own; no card is named.".to_string(),
    };
    let mut parts = vec![Part::prose(named)];
    let free = unpriced(routine);
    if !free.is_empty() {
        let text = format!("WARNING: the code uses, at a price of 0 cycles: {}.", free.join(" "));
        parts.push(Part::prose(text).warning());
    }
    Line { title: "Prices", parts }
}

/// That the first nine lines of a routine file are those of a card.
pub fn check(file: &str, routine: &RoutineText, card: &Card) -> Result<(), Failure> {
    let differs = routine.lines.iter().zip(card.text.lines()).position(|(line, other)| *line != other);
    match differs {
        None => Ok(()),
        Some(index) => Err(Failure(format!(
            "{file}: line {}: it is not that of the card {}: price the file by tickbound price, or name its own card",
            index + 1,
            card.file
        ))),
    }
}

pub fn jumps(routine: &RoutineText) -> Line {
    let extra = routine.values(3, 6);
    let kinds = routine.kinds();
    let used = extra.iter().filter(|(kind, _)| card::JUMPS.contains(kind) && kinds.contains(kind));
    let used: Vec<String> = used.map(|(kind, cycles)| format!("{kind} {cycles}")).collect();
    let text = match used.is_empty() {
        true => "The code has no conditional branch.".to_string(),
        false => format!("Extra cycles of a branch that jumps: {}.", used.join(", ")),
    };
    Line::prose("Taken jumps", text)
}

#[cfg(test)]
mod tests {
    use super::*;
    use crate::card::tests::CARD;
    use crate::lines::tests::said;
    use crate::price::Filling;
    use crate::routine_text::tests::ROUTINE;

    fn priced(card: &str) -> (String, Card) {
        let read = || Card::read("my card", card.as_bytes()).unwrap();
        let filling = Filling { card: Some(read()), cells: None };
        (filling.fill("f", ROUTINE).unwrap(), read())
    }

    fn told(line: &Line) -> Vec<String> {
        line.parts.iter().map(|part| part.items.join(" ")).collect()
    }

    #[test]
    fn the_card_is_named() {
        let (text, card) = priced(CARD);
        let routine = RoutineText::read("f", text.as_bytes()).unwrap();
        assert!(check("f", &routine, &card).is_ok());
        assert_eq!(told(&line(&routine, Some(&card))), ["Lines 1 to 9 are those of the card my card."]);
        assert_eq!(told(&jumps(&routine)), ["Extra cycles of a branch that jumps: BRANCHIF 3."]);
    }

    #[test]
    fn another_card_is_an_error() {
        let (text, _) = priced(CARD);
        let routine = RoutineText::read("f", text.as_bytes()).unwrap();
        let other = Card::read("other", CARD.replace("5 10 1", "5 10 2").as_bytes()).unwrap();
        assert!(said(check("f", &routine, &other)).starts_with("f: line 4: it is not that of the card other"));
    }

    /// LOG is free too, and not in the code.
    #[test]
    fn what_is_free_is_named() {
        let (text, _) = priced(&CARD.replace("5 10 1", "5 0 0").replace("40 2600", "0 0"));
        let routine = RoutineText::read("f", text.as_bytes()).unwrap();
        assert_eq!(
            told(&line(&routine, None)),
            [
                "The prices are the file's own; no card is named.",
                "WARNING: the code uses, at a price of 0 cycles: C_CALL1 STOP READ."
            ]
        );
    }
}
