//! What lowering did, for standard error.
use std::fmt;

/// With the word of the unit's code where it was done.
pub type Note = (usize, Done);

#[derive(Clone, PartialEq, Eq, PartialOrd, Ord)]
pub enum Done {
    /// a comparison with a number
    Fused(&'static str, i32),
    /// a SWITCH of so many cases
    Switch(usize),
    /// a place of the closure and the number that it holds
    Kept(i32, i32),
    Signals,
    /// a loop from a number to another
    Unrolled(i32, i32, usize),
    /// a branch of a kind that landed on one of another
    Threaded(&'static str, &'static str),
    /// so many steps that are left out
    Unreached,
}

impl fmt::Display for Done {
    fn fmt(&self, to: &mut fmt::Formatter) -> fmt::Result {
        match self {
            Done::Fused(name @ ("ULTINT" | "UGEINT"), number) => {
                write!(to, "{name} with {number} is two comparisons added up")
            }
            Done::Fused(name @ ("BULTINT" | "BUGEINT"), number) => {
                write!(to, "{name} {number} is two comparisons added up, and one branch")
            }
            Done::Fused(name, number) => write!(to, "{name} {number} is a comparison and a branch"),
            Done::Switch(cases) => write!(to, "SWITCH of {cases} cases is comparisons and branches"),
            Done::Kept(place, number) => write!(to, "ENVACC {place} is the constant {number}"),
            Done::Signals => write!(to, "CHECK_SIGNALS is left out"),
            Done::Unrolled(from, end, turns) => {
                write!(to, "the for from {from} to {end} is written out, {turns} turns")
            }
            Done::Threaded(kind, onto) => write!(to, "{kind} onto {onto} goes on to where that one leads"),
            Done::Unreached => write!(to, "a step that can no longer be reached is left out"),
        }
    }
}
