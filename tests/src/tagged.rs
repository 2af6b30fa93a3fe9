//! Numbers as the cards keep them, "one tag bit in each word, as OCaml does on 32-bit machines": the number n is the word 2n + 1, of 32
//! bits. The operations are those of OCaml's interpreter on such words. Nothing here narrows a result to 31 bits: that the words have 32
//! does it.

/// "Numbers run from -1073741824 to 1073741823"
pub const LOWEST: i32 = -1_073_741_824;
pub const HIGHEST: i32 = 1_073_741_823;

/// Whether a number of a file can be kept so.
pub fn is_number(n: i64) -> bool {
    (LOWEST as i64..=HIGHEST as i64).contains(&n)
}

/// The word of a number; the order of words is that of their numbers.
#[derive(Clone, Copy, PartialEq, Eq, PartialOrd, Ord, Debug)]
pub struct Tagged(i32);

impl Tagged {
    /// The word of a number within the range.
    pub const fn of(n: i32) -> Tagged {
        Tagged((n << 1) + 1)
    }

    pub fn number(self) -> i32 {
        self.0 >> 1
    }

    pub fn plus(self, other: Tagged) -> Tagged {
        Tagged(self.0.wrapping_add(other.0).wrapping_sub(1))
    }

    pub fn minus(self, other: Tagged) -> Tagged {
        Tagged(self.0.wrapping_sub(other.0).wrapping_add(1))
    }

    pub fn offset(self, i: i32) -> Tagged {
        Tagged(self.0.wrapping_add(i << 1))
    }

    pub fn negated(self) -> Tagged {
        Tagged(2_i32.wrapping_sub(self.0))
    }

    /// 1 minus the number.
    pub fn complement(self) -> Tagged {
        Tagged(4_i32.wrapping_sub(self.0))
    }

    pub fn of_truth(truth: bool) -> Tagged {
        Tagged::of(truth as i32)
    }
}
