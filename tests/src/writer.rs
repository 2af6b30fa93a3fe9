//! Code that does not get stuck, written from numbers drawn.
use crate::draft::Arg;
use crate::random::Random;
use crate::routine::{Argument, KINDS};
use crate::tagged::{HIGHEST, LOWEST};

/// What a cell can hold at a place of the code; `Either` is a number or a handle.
#[derive(Clone, Copy, PartialEq)]
pub enum Shape {
    Number,
    Handle(usize),
    Either,
}

#[derive(Clone)]
pub struct Shapes {
    pub accumulator: Shape,
    /// the top last
    pub stack: Vec<Shape>,
    pub blocks: Vec<Vec<Shape>>,
}

fn joined(a: &[Shape], b: &[Shape]) -> Vec<Shape> {
    a.iter().zip(b).map(|(x, y)| if x == y { *x } else { Shape::Either }).collect()
}

/// Writes code that keeps to the shapes that it has noted.
pub struct Writer<'a> {
    pub random: &'a mut Random,
    pub code: Vec<(&'static str, Arg)>,
    pub shapes: Shapes,
    /// entries under this height are not popped
    pub base: usize,
    /// in a loop, or in turns that may end early, no shape under the base may change
    pub in_loop: bool,
    /// whether loops jump back; else their turns stand one after the other
    pub loops: bool,
    /// counters of turns, by their height
    pub counters: Vec<usize>,
    /// entries that are ranges at the start, by their height, with the ends
    pub ranges: Vec<(usize, [i32; 2])>,
    pub primitives: usize,
    /// branches to the last line, which is STOP
    pub exits: Vec<usize>,
    pub trees: usize,
    pub longest: usize,
}

fn kind(name: &str) -> &'static str {
    KINDS.iter().find(|k| k.0 == name).unwrap().0
}

impl Writer<'_> {
    pub fn emit(&mut self, name: &str, arg: Arg) {
        self.code.push((kind(name), arg));
    }

    /// An instruction with a number: by the kind with the number in its name where there is one, or with an ARG.
    fn numbered(&mut self, short: &str, long: &str, n: i64, shorts: i64) {
        if (0..shorts).contains(&n) && !self.random.one_in(4) {
            self.emit(&format!("{short}{n}"), Arg::Nothing);
        } else {
            self.emit(long, Arg::Number(n));
        }
    }

    fn full(&self) -> bool {
        self.shapes.stack.len() >= 64
    }

    fn spare(&self) -> usize {
        self.shapes.stack.len() - self.base
    }

    fn entry(&self, n: usize) -> usize {
        self.shapes.stack.len() - 1 - n
    }

    /// One instruction that fits the shapes, if the one drawn does.
    fn atom(&mut self) {
        let height = self.shapes.stack.len();
        let accumulator = self.shapes.accumulator;
        match self.random.below(18) {
            0 | 1 if height > 0 => {
                let n = self.random.below(height);
                self.shapes.accumulator = self.shapes.stack[self.entry(n)];
                self.numbered("ACC", "ACC", n as i64, 8);
            }
            2 if !self.full() => {
                self.emit("PUSH", Arg::Nothing);
                self.shapes.stack.push(accumulator);
            }
            3 if !self.full() => {
                self.shapes.stack.push(accumulator);
                let n = self.random.below(height + 1);
                self.shapes.accumulator = self.shapes.stack[self.entry(n)];
                self.numbered("PUSHACC", "PUSHACC", n as i64, 8);
            }
            4 => {
                let n = self.random.below(self.spare().min(3) + 1);
                self.emit("POP", Arg::Number(n as i64));
                self.shapes.stack.truncate(height - n);
            }
            5 if height > 0 => {
                let n = self.random.below(height);
                let entry = self.entry(n);
                let fixed = self.in_loop && entry < self.base && self.shapes.stack[entry] != accumulator;
                if !fixed && !self.counters.contains(&entry) {
                    self.shapes.stack[entry] = accumulator;
                    self.shapes.accumulator = Shape::Number;
                    self.emit("ASSIGN", Arg::Number(n as i64));
                }
            }
            6 => self.constant(),
            7 | 8 if accumulator == Shape::Number => match self.random.below(3) {
                0 => self.emit("NEGINT", Arg::Nothing),
                1 => self.emit("BOOLNOT", Arg::Nothing),
                _ => {
                    let i = self.random.number();
                    self.emit("OFFSETINT", Arg::Number(i as i64));
                }
            },
            9 | 10
                if self.spare() > 0
                    && accumulator == Shape::Number
                    && self.shapes.stack.last() == Some(&Shape::Number) =>
            {
                let operators = ["ADDINT", "SUBINT", "EQ", "NEQ", "LTINT", "LEINT", "GTINT", "GEINT"];
                let operator = *self.random.pick(&operators);
                self.emit(operator, Arg::Nothing);
                self.shapes.stack.pop();
            }
            11 | 12 => self.field(),
            13 if self.primitives > 0 => self.call(),
            14 => {
                self.handles();
            }
            15 => {
                self.at_an_end();
            }
            16 => {
                self.on_ranges();
            }
            _ => {}
        }
    }

    fn constant(&mut self) {
        let i = if self.random.one_in(2) { self.random.below(4) as i64 } else { self.random.number() as i64 };
        if self.full() || self.random.one_in(2) {
            self.numbered("CONST", "CONSTINT", i, 4);
        } else {
            self.shapes.stack.push(self.shapes.accumulator);
            self.numbered("PUSHCONST", "PUSHCONSTINT", i, 4);
        }
        self.shapes.accumulator = Shape::Number;
    }

    fn call(&mut self) {
        let popped = self.random.below(self.spare().min(4) + 1);
        let primitive = self.random.below(self.primitives);
        self.emit(&format!("C_CALL{}", popped + 1), Arg::Primitive(primitive));
        self.shapes.stack.truncate(self.shapes.stack.len() - popped);
        self.shapes.accumulator = Shape::Number;
    }

    /// EQ or NEQ of two handles of the stack; now and then with something else, which is stuck.
    fn handles(&mut self) -> bool {
        let entries: Vec<usize> =
            (0..self.shapes.stack.len()).filter(|&e| matches!(self.shapes.stack[e], Shape::Handle(_))).collect();
        if entries.is_empty() || self.full() {
            return false;
        }
        let height = self.shapes.stack.len();
        let n = height - 1 - *self.random.pick(&entries);
        self.numbered("ACC", "ACC", n as i64, 8);
        let rare = self.random.one_in(5);
        if rare && self.random.one_in(2) {
            self.emit("PUSHCONST0", Arg::Nothing);
        } else {
            let n = height - *self.random.pick(&entries);
            self.numbered("PUSHACC", "PUSHACC", n as i64, 8);
        }
        let others = ["ADDINT", "SUBINT", "LTINT", "LEINT", "GTINT", "GEINT"];
        let operator = *if rare { self.random.pick(&others) } else { self.random.pick(&["EQ", "NEQ"]) };
        self.emit(operator, Arg::Nothing);
        self.shapes.accumulator = Shape::Number;
        true
    }

    /// A sum, a difference or a negation at an end of the range, and the sign that wrapping may have turned.
    fn at_an_end(&mut self) -> bool {
        if self.full() {
            return false;
        }
        let end = |random: &mut Random| Arg::Number(random.end() as i64);
        let first = end(self.random);
        self.emit("CONSTINT", first);
        match self.random.below(5) {
            0 => self.emit("NEGINT", Arg::Nothing),
            1 => self.emit("BOOLNOT", Arg::Nothing),
            2 => {
                let i = self.random.number();
                self.emit("OFFSETINT", Arg::Number(i as i64));
            }
            _ => {
                let second = end(self.random);
                self.emit("PUSHCONSTINT", second);
                let operator = *self.random.pick(&["ADDINT", "SUBINT"]);
                self.emit(operator, Arg::Nothing);
            }
        }
        self.emit("PUSHCONST0", Arg::Nothing);
        let operator = *self.random.pick(&["LTINT", "LEINT", "GTINT", "GEINT"]);
        self.emit(operator, Arg::Nothing);
        self.shapes.accumulator = Shape::Number;
        true
    }

    /// The entries that were ranges at the start and have not been popped, by their number, with the ends.
    fn range_entries(&self) -> Vec<(usize, [i32; 2])> {
        let height = self.shapes.stack.len();
        let held = |e: usize| e < height && self.shapes.stack[e] == Shape::Number;
        self.ranges.iter().filter(|r| held(r.0)).map(|(e, ends)| (height - 1 - e, *ends)).collect()
    }

    /// Puts a range into the accumulator, and gives its ends: an entry that was one at the start, or two numbers, 0 and 1 or next to each
    /// other.
    fn range(&mut self) -> [i32; 2] {
        let entries = self.range_entries();
        if entries.is_empty() || self.random.one_in(4) {
            let low = *self.random.pick(&[0, 0, 0, 1, -1, -2, 7]);
            return self.two_numbers(low);
        }
        self.entry_of(&entries)
    }

    /// Puts one of these entries into the accumulator.
    fn entry_of(&mut self, entries: &[(usize, [i32; 2])]) -> [i32; 2] {
        let (n, ends) = *self.random.pick(entries);
        self.numbered("ACC", "ACC", n as i64, 8);
        self.shapes.accumulator = Shape::Number;
        ends
    }

    /// Puts this number or the next into the accumulator, by what a comparison gives.
    fn two_numbers(&mut self, low: i32) -> [i32; 2] {
        self.unknown();
        self.emit("PUSHCONST0", Arg::Nothing);
        let operator = *self.random.pick(&["EQ", "NEQ", "LTINT", "LEINT", "GTINT", "GEINT"]);
        self.emit(operator, Arg::Nothing);
        if low != 0 {
            self.emit("OFFSETINT", Arg::Number(low as i64));
        }
        self.shapes.accumulator = Shape::Number;
        [low, low.saturating_add(1)]
    }

    /// Puts a range without 0 into the accumulator, if one is known to be.
    pub fn range_without_zero(&mut self) {
        let without: Vec<_> =
            self.range_entries().into_iter().filter(|(_, [low, high])| *low > 0 || *high < 0).collect();
        if without.is_empty() {
            self.range();
        } else {
            self.entry_of(&without);
        }
    }

    /// A number beside an end of a range, at an end of the range of numbers, or any.
    fn near(&mut self, [low, high]: [i32; 2]) -> i64 {
        let (low, high) = (low as i64, high as i64);
        let (n, end) = (self.random.number() as i64, self.random.end() as i64);
        let near = *self.random.pick(&[low - 1, low, high, high + 1, low, high, n, end, end]);
        near.clamp(LOWEST as i64, HIGHEST as i64)
    }

    /// A range, and mostly an operation on it: alone, with another range, or with a number near its ends.
    fn on_ranges(&mut self) -> bool {
        if self.shapes.stack.len() > 60 {
            return false;
        }
        match self.random.below(8) {
            0 => {
                self.range();
            }
            1 | 2 => {
                let ends = if self.random.one_in(3) {
                    let low = self.random.end();
                    self.two_numbers(low)
                } else {
                    self.range()
                };
                match self.random.below(5) {
                    0 => self.emit("NEGINT", Arg::Nothing),
                    1 => self.emit("BOOLNOT", Arg::Nothing),
                    _ => {
                        let i = self.near(ends);
                        self.emit("OFFSETINT", Arg::Number(i));
                    }
                }
            }
            3 => {
                // an answer compared with a number that it never passes, or just can
                self.unknown();
                let n = self.random.end() as i64;
                self.emit("PUSHCONSTINT", Arg::Number(n));
                let operator = *self.random.pick(&["LTINT", "LEINT", "GTINT", "GEINT"]);
                self.emit(operator, Arg::Nothing);
            }
            4 | 5 => self.sum_of_ranges(),
            _ => {
                let ends = self.range();
                if self.random.one_in(3) {
                    self.pushed_before(|writer| {
                        writer.range();
                    });
                } else {
                    let i = self.near(ends);
                    self.numbered("PUSHCONST", "PUSHCONSTINT", i, 4);
                }
                let operator = *self.random.pick(&["EQ", "NEQ", "LTINT", "LEINT", "GTINT", "GEINT"]);
                self.emit(operator, Arg::Nothing);
            }
        }
        true
    }

    /// The accumulator pushed, and then another one.
    fn pushed_before(&mut self, another: impl FnOnce(&mut Self)) {
        self.emit("PUSH", Arg::Nothing);
        self.shapes.stack.push(Shape::Number);
        another(self);
        self.shapes.stack.pop();
    }

    /// A sum or a difference: of ranges, of unknowns, or at an end of the range of numbers.
    fn sum_of_ranges(&mut self) {
        match self.random.below(6) {
            0 | 1 => {
                self.range();
                self.pushed_before(|writer| {
                    writer.range();
                });
            }
            2 => {
                self.unknown();
                self.pushed_before(|writer| {
                    writer.unknown();
                });
            }
            3 | 4 => {
                // both results wrap, or one is at an end and the other wraps
                let (end, other) = (self.random.end(), self.random.end());
                let same = if (end < 0) == (other < 0) { other } else { !other };
                let beyond = if end < 0 { LOWEST - 1 - end } else { HIGHEST - end };
                let before = if end < 0 { end - LOWEST } else { end - HIGHEST - 1 };
                let (low, i, operator) = *self.random.pick(&[
                    (end, same, "ADDINT"),
                    (end, !same, "SUBINT"),
                    (end, beyond, "ADDINT"),
                    (end, beyond, "ADDINT"),
                    (before, end, "SUBINT"),
                    (before, end, "SUBINT"),
                ]);
                self.two_numbers(low);
                self.emit("PUSHCONSTINT", Arg::Number(i as i64));
                return self.emit(operator, Arg::Nothing);
            }
            _ => {
                let ends = self.range();
                let i = self.near(ends);
                self.numbered("PUSHCONST", "PUSHCONSTINT", i, 4);
            }
        }
        let operator = *self.random.pick(&["ADDINT", "SUBINT"]);
        self.emit(operator, Arg::Nothing);
    }

    /// Ranges in operations, in conditions, and before ways that they leave closed.
    pub fn by_ranges(&mut self) {
        for _ in 0..self.random.within(2, 4) {
            if self.shapes.stack.len() > 52 {
                return;
            }
            match self.random.below(9) {
                0..=3 => self.guarded(),
                4 | 5 => self.unlike_cells(),
                6 => self.unlike_numbers(),
                _ => {
                    for _ in 0..3 {
                        self.on_ranges();
                    }
                    let from = self.code.len();
                    let name = *self.random.pick(&["BRANCHIF", "BRANCHIFNOT"]);
                    self.emit(name, Arg::Line(0));
                    self.costly();
                    self.here(from);
                }
            }
        }
    }

    /// A way that no number of a range opens, which costs, pushes, leaves another height or is stuck; or one that some number does.
    fn guarded(&mut self) {
        let [low, high] = self.range();
        // a number, and the comparisons of it with the range that are 1 and that are 0
        let beside = [
            (high as i64 + 1, ["GTINT", "GEINT", "NEQ"], ["LTINT", "LEINT", "EQ"]),
            (low as i64 - 1, ["LTINT", "LEINT", "NEQ"], ["GTINT", "GEINT", "EQ"]),
        ];
        let beside: Vec<_> = beside.into_iter().filter(|b| (LOWEST as i64..=HIGHEST as i64).contains(&b.0)).collect();
        if beside.is_empty() {
            return;
        }
        let (number, ones, zeros) = *self.random.pick(&beside);
        let opens = self.random.one_in(4);
        let towards = if number > high as i64 { -1 } else { 1 };
        self.emit("PUSHCONSTINT", Arg::Number(if opens { number + towards } else { number }));
        let (operator, name) = match self.random.one_in(2) {
            true => (*self.random.pick(&ones), "BRANCHIF"),
            false => (*self.random.pick(&zeros), "BRANCHIFNOT"),
        };
        self.emit(operator, Arg::Nothing);
        let from = self.code.len();
        self.emit(name, Arg::Line(0));
        match self.random.below(6) {
            0 if !opens => self.emit("ACC", Arg::Number(63)),
            1 if !opens => self.emit("PUSH", Arg::Nothing),
            2..=4 => self.pushes(if self.shapes.stack.len() < 44 { 16 } else { 9 }),
            _ => self.unknown(),
        }
        self.here(from);
        self.shapes.accumulator = Shape::Number;
    }

    /// A call, pushes, or now and then a step that is stuck; the stack is then as it was.
    fn costly(&mut self) {
        match self.random.below(8) {
            0 => self.emit("ACC", Arg::Number(63)),
            1..=3 => self.unknown(),
            _ => {
                let pushed = self.random.within(3, 7);
                self.pushes(pushed);
            }
        }
    }

    /// So many entries pushed, and popped again.
    fn pushes(&mut self, count: usize) {
        (0..count).for_each(|_| self.emit("PUSH", Arg::Nothing));
        self.emit("POP", Arg::Number(count as i64));
    }

    fn field(&mut self) {
        if !matches!(self.shapes.accumulator, Shape::Handle(_)) {
            // a handle, if there is one on the stack
            let handles: Vec<usize> =
                (0..self.shapes.stack.len()).filter(|&e| matches!(self.shapes.stack[e], Shape::Handle(_))).collect();
            if handles.is_empty() {
                return;
            }
            let entry = *self.random.pick(&handles);
            if self.random.one_in(2) && !self.full() {
                self.shapes.stack.push(self.shapes.accumulator);
                let n = self.shapes.stack.len() - 1 - entry;
                self.numbered("PUSHACC", "PUSHACC", n as i64, 8);
            } else {
                let n = self.shapes.stack.len() - 1 - entry;
                self.numbered("ACC", "ACC", n as i64, 8);
            }
            self.shapes.accumulator = self.shapes.stack[entry];
        }
        let Shape::Handle(block) = self.shapes.accumulator else {
            return;
        };
        let field = self.random.below(self.shapes.blocks[block].len());
        let held = self.shapes.blocks[block][field];
        let top = self.shapes.stack.last().copied();
        if self.spare() > 0 && (!self.in_loop || top == Some(held)) && self.random.one_in(2) {
            self.shapes.blocks[block][field] = self.shapes.stack.pop().unwrap();
            self.shapes.accumulator = Shape::Number;
            self.numbered("SETFIELD", "SETFIELD", field as i64, 4);
        } else {
            self.shapes.accumulator = held;
            self.numbered("GETFIELD", "GETFIELD", field as i64, 4);
        }
    }

    /// Puts a number into the accumulator, often an unknown one.
    pub fn condition(&mut self) {
        let numbers: Vec<usize> =
            (0..self.shapes.stack.len()).filter(|&e| self.shapes.stack[e] == Shape::Number).collect();
        if self.primitives > 0 && self.random.one_in(2) {
            self.call();
        } else if !numbers.is_empty() {
            let n = self.shapes.stack.len() - 1 - *self.random.pick(&numbers);
            self.numbered("ACC", "ACC", n as i64, 8);
        } else if self.shapes.accumulator != Shape::Number {
            let i = self.random.below(2) as i64;
            self.numbered("CONST", "CONSTINT", i, 4);
        }
        self.shapes.accumulator = Shape::Number;
    }

    fn branch(&mut self) -> usize {
        let written = match self.random.below(10) {
            0 | 1 => self.handles(),
            2 => self.at_an_end(),
            3..=5 => self.on_ranges(),
            _ => false,
        };
        if !written {
            self.condition();
        }
        let name = if self.random.one_in(2) { "BRANCHIF" } else { "BRANCHIFNOT" };
        self.emit(name, Arg::Line(0));
        self.code.len() - 1
    }

    /// Drops what was pushed above the height.
    fn level(&mut self, height: usize) {
        let n = self.shapes.stack.len() - height;
        if n > 0 {
            self.emit("POP", Arg::Number(n as i64));
            self.shapes.stack.truncate(height);
        }
    }

    fn here(&mut self, from: usize) {
        self.code[from].1 = Arg::Line(self.code.len());
    }

    fn arms(&mut self, nested: usize) {
        self.trees += 1;
        let to_taken = self.branch();
        let base = std::mem::replace(&mut self.base, self.shapes.stack.len());
        let height = self.base;
        let before = self.shapes.clone();
        self.statements(nested + 1);
        self.level(height);
        let to_end = self.code.len();
        let one_armed = self.random.one_in(2);
        if !one_armed {
            self.emit("BRANCH", Arg::Line(0));
        }
        let first = std::mem::replace(&mut self.shapes, before);
        self.here(to_taken);
        if !one_armed {
            self.statements(nested + 1);
            self.level(height);
            self.here(to_end);
        }
        self.shapes.accumulator = joined(&[first.accumulator], &[self.shapes.accumulator])[0];
        self.shapes.stack = joined(&first.stack, &self.shapes.stack);
        self.shapes.blocks = first.blocks.iter().zip(&self.shapes.blocks).map(|(a, b)| joined(a, b)).collect();
        self.base = base;
    }

    /// The answer of a primitive, nothing popped; a number where there is no primitive.
    fn unknown(&mut self) {
        if self.primitives == 0 {
            return self.condition();
        }
        let primitive = self.random.below(self.primitives);
        self.emit("C_CALL1", Arg::Primitive(primitive));
        self.shapes.accumulator = Shape::Number;
    }

    /// A branch on an unknown, with these lines on its two ways, which meet after them.
    fn two_ways(&mut self, not_taken: &[(&str, Arg)], taken: &[(&str, Arg)]) {
        self.unknown();
        let to_taken = self.code.len();
        self.emit("BRANCHIF", Arg::Line(0));
        not_taken.iter().for_each(|(name, arg)| self.emit(name, *arg));
        let to_end = self.code.len();
        self.emit("BRANCH", Arg::Line(0));
        self.here(to_taken);
        taken.iter().for_each(|(name, arg)| self.emit(name, *arg));
        self.here(to_end);
    }

    /// Ways that meet: with unlike numbers, with a handle on one of them, or again and again.
    pub fn meeting(&mut self) {
        if self.shapes.stack.len() > 52 {
            return;
        }
        match self.random.below(8) {
            0 => self.panel(),
            1..=3 => self.unlike_numbers(),
            _ => self.unlike_cells(),
        }
    }

    /// Tests one after the other, near the most openings.
    fn panel(&mut self) {
        for _ in 0..self.random.within(31, 36) {
            self.unknown();
            let name = if self.random.one_in(2) { "BRANCHIF" } else { "BRANCHIFNOT" };
            self.emit(name, Arg::Line(self.code.len() + 2));
            let n = self.random.below(4);
            self.emit(&format!("CONST{n}"), Arg::Nothing);
        }
    }

    /// A branch on unlike numbers that meet. Where both jump and 0 is between them, only the merge opens the way not taken, which costs,
    /// pushes or is stuck.
    fn unlike_numbers(&mut self) {
        let [a, b] = *self.random.pick(&[[-1, 2], [3, -1], [-1, 1], [0, 1], [1, 0], [1, 2], [-1, -3]]);
        let constant = |n: i64| [("CONSTINT", Arg::Number(n))];
        self.two_ways(&constant(a), &constant(b));
        let from = self.code.len();
        self.emit("BRANCHIF", Arg::Line(0));
        if self.random.one_in(5) {
            self.emit("ACC", Arg::Number(63));
        } else {
            self.costly();
        }
        self.here(from);
        self.shapes.accumulator = Shape::Number;
    }

    /// A cell that is a handle on one way and another handle, a number, a range or an unknown on the other; now and then stuck on both behind it.
    fn unlike_cells(&mut self) {
        let of_entry = |entry: &Shape| if let Shape::Handle(block) = entry { Some(*block) } else { None };
        let handles: Vec<(usize, usize)> =
            self.shapes.stack.iter().enumerate().filter_map(|(e, s)| Some((e, of_entry(s)?))).collect();
        if handles.is_empty() {
            return self.unlike_numbers();
        }
        let (entry, block) = *self.random.pick(&handles);
        let others: Vec<(usize, usize)> = handles.iter().copied().filter(|h| h.1 != block).collect();
        // one entry more is on the stack where it is the cell
        let place = self.random.below(3);
        if place == 1 {
            self.emit("PUSHCONST0", Arg::Nothing);
            self.shapes.stack.push(Shape::Either);
        }
        let read = |entry: usize, height: usize| ("ACC", Arg::Number((height - 1 - entry) as i64));
        let height = self.shapes.stack.len();
        let ranges = self.range_entries();
        let other = match self.random.below(4) {
            _ if !others.is_empty() && !self.random.one_in(3) => read(self.random.pick(&others).0, height),
            0 | 1 if !ranges.is_empty() => ("ACC", Arg::Number(self.random.pick(&ranges).0 as i64)),
            0..=2 if self.primitives > 0 => ("C_CALL1", Arg::Primitive(0)),
            _ => ("CONST1", Arg::Nothing),
        };
        let kept: &[(&str, Arg)] = match place {
            0 => &[],
            1 => &[("ASSIGN", Arg::Number(0))],
            _ => &[("PUSHACC", Arg::Number((height - entry) as i64)), ("SETFIELD0", Arg::Nothing)],
        };
        let way = |first| [&[first], kept].concat();
        let ways = [way(read(entry, height)), way(other)];
        let swapped = self.random.one_in(2) as usize;
        self.two_ways(&ways[swapped], &ways[1 - swapped]);
        self.shapes.accumulator = if place == 0 { Shape::Either } else { Shape::Number };
        if place == 2 {
            self.shapes.blocks[block][0] = Shape::Either;
        }
        if self.random.one_in(2) {
            self.emit("ACC", Arg::Number(63));
        }
    }

    fn repeat(&mut self, nested: usize) {
        if self.full() {
            return;
        }
        let times = self.random.within(1, 5) as i64;
        self.numbered("CONST", "CONSTINT", times, 4);
        self.emit("PUSH", Arg::Nothing);
        let counter = self.shapes.stack.len();
        self.shapes.stack.push(Shape::Number);
        self.shapes.accumulator = Shape::Number;
        self.counters.push(counter);
        let base = std::mem::replace(&mut self.base, counter + 1);
        let in_loop = std::mem::replace(&mut self.in_loop, true);
        let top = self.code.len();
        let mut ends = Vec::new();
        for _ in 0..if self.loops { 1 } else { times } {
            self.statements(nested + 1);
            self.level(counter + 1);
            if self.random.one_in(12) {
                // as often as an unknown says
                self.condition();
            } else {
                self.emit("ACC0", Arg::Nothing);
                self.emit("OFFSETINT", Arg::Number(-1));
                self.emit("ASSIGN", Arg::Number(0));
                self.emit("ACC0", Arg::Nothing);
            }
            ends.push(self.code.len());
            self.emit(if self.loops { "BRANCHIF" } else { "BRANCHIFNOT" }, Arg::Line(top));
            self.shapes.accumulator = Shape::Number;
        }
        if !self.loops {
            ends.into_iter().for_each(|end| self.here(end));
        }
        self.counters.pop();
        self.base = base;
        self.in_loop = in_loop;
    }

    /// Any instruction, without a look at the shapes.
    pub fn wild(&mut self) {
        let (name, argument) = *self.random.pick(&KINDS);
        let arg = match argument {
            Argument::Nothing => Arg::Nothing,
            Argument::Number(low, high) if high - low < 100 => {
                Arg::Number(low + self.random.below((high - low) as usize + 1) as i64)
            }
            Argument::Number(..) => Arg::Number(self.random.number() as i64),
            Argument::Target if self.random.one_in(6) => Arg::Line(self.random.below(self.code.len() + 1)),
            Argument::Target => Arg::Line(self.code.len() + self.random.within(1, 5)),
            Argument::Primitive if self.primitives == 0 => return,
            Argument::Primitive => Arg::Primitive(self.random.below(self.primitives)),
        };
        self.code.push((name, arg));
    }

    pub fn statements(&mut self, nested: usize) {
        for _ in 0..self.random.within(0, 5) {
            if self.code.len() > self.longest {
                return;
            }
            match self.random.below(12) {
                0 | 1 if self.trees < 7 && nested < 5 => self.arms(nested),
                2 if nested < 3 => self.repeat(nested),
                3 if self.exits.len() < 40 => {
                    let exit = self.branch();
                    self.exits.push(exit);
                }
                _ => {
                    for _ in 0..self.random.within(1, 4) {
                        self.atom();
                    }
                }
            }
        }
    }
}
