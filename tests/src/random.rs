//! Numbers from a seed (xorshift64*).
use crate::tagged::{HIGHEST, LOWEST};

pub struct Random(u64);

impl Random {
    pub fn new(seed: u64) -> Random {
        let mut random = Random(seed.wrapping_mul(0x9e37_79b9_7f4a_7c15) ^ 0xd1b5_4a32_d192_ed03 | 1);
        for _ in 0..8 {
            random.next();
        }
        random
    }

    pub fn next(&mut self) -> u64 {
        self.0 ^= self.0 >> 12;
        self.0 ^= self.0 << 25;
        self.0 ^= self.0 >> 27;
        self.0.wrapping_mul(0x2545_f491_4f6c_dd1d)
    }

    /// One of 0 to `n` - 1; `n` is not 0.
    pub fn below(&mut self, n: usize) -> usize {
        ((self.next() >> 32) * n as u64 >> 32) as usize
    }

    /// One of `low` to `high`.
    pub fn within(&mut self, low: usize, high: usize) -> usize {
        low + self.below(high - low + 1)
    }

    /// True once in `n`.
    pub fn one_in(&mut self, n: usize) -> bool {
        self.below(n) == 0
    }

    pub fn pick<'a, T>(&mut self, list: &'a [T]) -> &'a T {
        &list[self.below(list.len())]
    }

    /// Any number; mostly a small one or one at an end of the range.
    pub fn number(&mut self) -> i32 {
        match self.below(8) {
            0 => self.next() as i32 >> 1,
            1 | 2 => self.end(),
            3 | 4 => 0,
            _ => self.below(7) as i32 - 3,
        }
    }

    /// A number at an end of the range.
    pub fn end(&mut self) -> i32 {
        let n = self.below(3) as i32;
        if self.one_in(2) {
            HIGHEST - n
        } else {
            LOWEST + n
        }
    }

    /// The ends of a range: of one number, of a few or of many; with 0, at 0 and without it; at an end of the range of numbers, up to one,
    /// and all of them.
    pub fn range(&mut self) -> [i32; 2] {
        let few = self.within(1, 4) as i32;
        let many = self.within(5, 3000) as i32;
        let up = match self.below(11) {
            0 => {
                let n = self.number();
                [n, n]
            }
            1 => [0, few],
            2 => [0, many],
            3 => [few, few + self.within(1, 4) as i32],
            4 => [few, few + many],
            5 => [-few, many],
            6 => {
                let high = HIGHEST - self.below(3) as i32;
                [high - few, high]
            }
            7 | 8 => *self.pick(&[
                [0, HIGHEST],
                [1, HIGHEST],
                [LOWEST + 1, HIGHEST],
                [LOWEST, HIGHEST],
                [few, HIGHEST - few],
            ]),
            9 => [-few, self.within(1, 4) as i32],
            _ => {
                let [a, b] = [self.number(), self.number()];
                [a.min(b), a.max(b)]
            }
        };
        // or the same below 0: -1 - n for n
        if self.one_in(2) {
            up
        } else {
            [!up[1], !up[0]]
        }
    }

    /// A number of a range, as often as not an end of it.
    pub fn in_range(&mut self, [low, high]: [i32; 2]) -> i32 {
        match self.below(4) {
            0 => low,
            1 => high,
            _ => low + (self.next() % (high as i64 - low as i64 + 1) as u64) as i32,
        }
    }

    /// A word of 32 bits, as often as not outside the range of numbers: just there, or at an end of the words.
    pub fn word(&mut self) -> i32 {
        let n = self.below(3) as i32;
        match self.below(8) {
            0 => self.next() as i32,
            1 => HIGHEST + 1 + n,
            2 => LOWEST - 1 - n,
            3 => i32::MAX - n,
            4 => i32::MIN + n,
            _ => self.number(),
        }
    }
}
