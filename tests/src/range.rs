//! Ranges of numbers (change request 12): from a lowest number to a highest one.
use crate::machine::Operator;
use crate::tagged::{is_number, HIGHEST, LOWEST};

/// The numbers from `low` to `high`, both among them; `low` is never the greater.
#[derive(Clone, Copy, PartialEq, Debug)]
pub struct Range {
    pub low: i32,
    pub high: i32,
}

impl Range {
    /// "A `?` is the whole range"
    pub const WHOLE: Range = Range { low: LOWEST, high: HIGHEST };

    pub fn of_one(n: i32) -> Range {
        Range { low: n, high: n }
    }

    pub fn contains(self, n: i32) -> bool {
        self.low <= n && n <= self.high
    }

    pub fn is_one(self) -> bool {
        self.low == self.high
    }

    /// "the smallest range that covers both"
    pub fn covering(self, other: Range) -> Range {
        Range { low: self.low.min(other.low), high: self.high.max(other.high) }
    }

    /// The least and the greatest of the sums or differences of a number of one range and a number of the other, not yet wrapped.
    pub fn results(self, operator: Operator, right: Range) -> Option<[i64; 2]> {
        let [a, b, c, d] = [self.low, self.high, right.low, right.high].map(i64::from);
        match operator {
            Operator::Add => Some([a + c, b + d]),
            Operator::Subtract => Some([a - d, b - c]),
            _ => None,
        }
    }

    /// Whether a comparison holds for every pair of numbers, and whether it holds for some.
    fn holds(self, operator: Operator, right: Range) -> [bool; 2] {
        let apart = self.high < right.low || right.high < self.low;
        let one = self.is_one() && self == right;
        match operator {
            Operator::Equal => [one, !apart],
            Operator::Unequal => [apart, !one],
            Operator::Less => [self.high < right.low, self.low < right.high],
            Operator::LessOrEqual => [self.high <= right.low, self.low <= right.high],
            Operator::Greater => [self.low > right.high, self.high > right.low],
            Operator::GreaterOrEqual => [self.low >= right.high, self.high >= right.low],
            Operator::Add | Operator::Subtract => unreachable!("no comparison"),
        }
    }

    /// What an operation gives, where one of the ranges at least has more than one number. Of sums and differences "the least to the
    /// greatest result, or the whole range if some result would wrap"; "a comparison gives 1 if it holds for every pair of numbers in the
    /// two ranges, 0 if for none, else 0 to 1".
    pub fn operated(self, operator: Operator, right: Range) -> Range {
        match self.results(operator, right) {
            Some([least, greatest]) if is_number(least) && is_number(greatest) => {
                Range { low: least as i32, high: greatest as i32 }
            }
            Some(_) => Range::WHOLE,
            None => {
                let [for_all, for_some] = self.holds(operator, right);
                Range { low: for_all as i32, high: for_some as i32 }
            }
        }
    }
}
