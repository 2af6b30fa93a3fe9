//! Where SHARE is at a half in the files compared, or next to one.
use independent::report::{at_a_half, Answer};
use independent::routine::read;

/// Numbers of files that the bound accepts, by the whole part of CYCLES × 1000 / TICK.
#[derive(Default)]
pub struct Shares {
    /// a half more than an even number, than an odd one
    even: u64,
    odd: u64,
    /// with TICK one smaller a half more than an odd number, with TICK one larger than an even one: SHARE is the odd number next to it
    below: u64,
    above: u64,
}

impl Shares {
    pub fn note(&mut self, text: &[u8], bound: &Answer) {
        let Ok(report) = bound else {
            return;
        };
        let values = report.split(|b| *b == b'\n').nth(1).unwrap();
        let cycles = String::from_utf8_lossy(values).split(' ').next().unwrap().parse().unwrap();
        let tick = read(text, false).unwrap().tick;
        let whole = cycles * 1000 / tick;
        self.even += (at_a_half(cycles, tick) && whole % 2 == 0) as u64;
        self.odd += (at_a_half(cycles, tick) && whole % 2 == 1) as u64;
        self.below += (tick > 1 && at_a_half(cycles, tick - 1) && whole % 2 == 1) as u64;
        self.above += (at_a_half(cycles, tick + 1) && whole % 2 == 0) as u64;
    }

    pub fn counts(&self) -> [(&'static str, u64); 4] {
        [
            ("SHARE at a half after an even number", self.even),
            ("SHARE at a half after an odd number", self.odd),
            ("SHARE just below a half after an odd number", self.below),
            ("SHARE just above a half after an even number", self.above),
        ]
    }
}
