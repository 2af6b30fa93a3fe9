//! Cells, the machine's state and its step.
use crate::range::Range;
use crate::routine::Line;
use crate::tagged::{is_number, Tagged};

pub const STACK: usize = 64;
pub const BLOCKS: usize = 8;
pub const FIELDS: usize = 16;

#[derive(Clone, Copy, PartialEq, Debug)]
pub enum Cell {
    Number(Tagged),
    /// some number of these, of which there are two or more
    Within(Range),
    Handle(u8),
}

impl Cell {
    /// Any number.
    pub const UNKNOWN: Cell = Cell::Within(Range::WHOLE);

    pub fn number(n: i32) -> Cell {
        Cell::Number(Tagged::of(n))
    }

    /// A number of a range.
    pub fn of(range: Range) -> Cell {
        if range.is_one() {
            Cell::number(range.low)
        } else {
            Cell::Within(range)
        }
    }

    /// The numbers that it may be; a handle is none.
    pub fn range(self) -> Option<Range> {
        match self {
            Cell::Number(v) => Some(Range::of_one(v.number())),
            Cell::Within(range) => Some(range),
            Cell::Handle(_) => None,
        }
    }
}

#[derive(Clone, Copy, PartialEq, Debug)]
pub enum Operator {
    Add,
    Subtract,
    Equal,
    Unequal,
    Less,
    LessOrEqual,
    Greater,
    GreaterOrEqual,
}

#[derive(Clone, Copy)]
pub enum Instruction {
    Acc(usize),
    Push,
    PushAcc(usize),
    Pop(usize),
    Assign(usize),
    Const(i32),
    PushConst(i32),
    Offset(i32),
    Negate,
    Not,
    Binary(Operator),
    GetField(usize),
    SetField(usize),
    Branch(u32),
    BranchIf(u32),
    BranchIfNot(u32),
    /// with the number of entries popped
    Call(usize),
    Stop,
}

#[derive(Clone)]
pub struct State {
    pub at: u32,
    pub accumulator: Cell,
    /// entry 0, the top, is the last of the `height` first
    pub stack: [Cell; STACK],
    pub height: usize,
    pub sizes: [u8; BLOCKS],
    pub fields: [Cell; BLOCKS * FIELDS],
}

/// The operands of an operation on two cells, where a handle is among them.
#[derive(Clone, Copy, PartialEq)]
pub enum Handles {
    Equal,
    Unlike,
    /// a handle and a number or a range
    WithAnother,
}

/// An operation whose result is outside the range of numbers.
#[derive(Clone, Copy, PartialEq)]
pub enum Wrap {
    Add,
    Subtract,
    Offset,
    Negate,
    Not,
}

/// What follows a step.
pub enum Next {
    /// the state as it now is
    Goes,
    /// the state as it now is, after a conditional branch that has jumped
    Jumps,
    /// the state as it now is, or the same after a jump to this target
    Opens(u32),
    Stops,
}

impl State {
    pub fn new(at: u32, accumulator: Cell) -> State {
        let zero = Cell::number(0);
        State { at, accumulator, stack: [zero; STACK], height: 0, sizes: [0; BLOCKS], fields: [zero; BLOCKS * FIELDS] }
    }

    /// The place of an entry.
    fn entry(&self, n: usize) -> Option<usize> {
        self.height.checked_sub(n + 1)
    }

    fn push(&mut self) -> Option<()> {
        *self.stack.get_mut(self.height)? = self.accumulator;
        self.height += 1;
        Some(())
    }

    fn drop(&mut self, n: usize) -> Option<()> {
        self.height = self.height.checked_sub(n)?;
        Some(())
    }

    fn pop(&mut self) -> Option<Cell> {
        self.drop(1)?;
        Some(self.stack[self.height])
    }

    /// The accumulator and the top entry, where the line operates on both and a handle is among them.
    pub fn handles(&self, line: &Line) -> Option<Handles> {
        let Instruction::Binary(_) = line.instruction else {
            return None;
        };
        let right = self.stack[self.height.checked_sub(1)?];
        match (self.accumulator, right) {
            (Cell::Handle(j), Cell::Handle(k)) if j == k => Some(Handles::Equal),
            (Cell::Handle(_), Cell::Handle(_)) => Some(Handles::Unlike),
            (Cell::Handle(_), _) | (_, Cell::Handle(_)) => Some(Handles::WithAnother),
            _ => None,
        }
    }

    /// The operation of a line, where its result must wrap.
    pub fn wraps(&self, line: &Line) -> Option<Wrap> {
        let Cell::Number(v) = self.accumulator else {
            return None;
        };
        let entry = || match self.stack[self.height.checked_sub(1)?] {
            Cell::Number(v) => Some(v.number() as i64),
            _ => None,
        };
        let v = v.number() as i64;
        let (wrap, exact) = match line.instruction {
            Instruction::Binary(Operator::Add) => (Wrap::Add, v + entry()?),
            Instruction::Binary(Operator::Subtract) => (Wrap::Subtract, v - entry()?),
            Instruction::Offset(i) => (Wrap::Offset, v + i as i64),
            Instruction::Negate => (Wrap::Negate, -v),
            Instruction::Not => (Wrap::Not, 1 - v),
            _ => return None,
        };
        (!is_number(exact)).then_some(wrap)
    }

    /// The operation of a line with the ranges of its operands, where both are numbers: OFFSETINT is a sum, NEGINT 0 minus and BOOLNOT 1
    /// minus.
    pub fn operands(&self, line: &Line) -> Option<(Operator, Range, Range)> {
        let accumulator = self.accumulator.range()?;
        let minus = |n| Some((Operator::Subtract, Range::of_one(n), accumulator));
        match line.instruction {
            Instruction::Offset(i) => Some((Operator::Add, accumulator, Range::of_one(i))),
            Instruction::Negate => minus(0),
            Instruction::Not => minus(1),
            Instruction::Binary(operator) => {
                Some((operator, accumulator, self.stack[self.height.checked_sub(1)?].range()?))
            }
            _ => None,
        }
    }

    /// The place of a field of the block that the accumulator handles.
    fn field(&self, n: usize) -> Option<usize> {
        let Cell::Handle(block) = self.accumulator else {
            return None;
        };
        let block = block as usize;
        (n < self.sizes[block] as usize).then_some(block * FIELDS + n)
    }

    /// The accumulator with a function done to its number; `of_range` is the same of a range.
    fn change(&mut self, of_one: impl FnOnce(Tagged) -> Tagged, of_range: impl FnOnce(Range) -> Range) -> Option<()> {
        self.accumulator = match self.accumulator {
            Cell::Number(v) => Cell::Number(of_one(v)),
            Cell::Within(range) => Cell::of(of_range(range)),
            Cell::Handle(_) => return None,
        };
        Some(())
    }

    /// One step by the instruction at the address; none is stuck, and the state is then of no more use. `answer` is what a
    /// primitive answers.
    pub fn step(&mut self, line: &Line, answer: impl FnOnce() -> Cell) -> Option<Next> {
        let zero = Cell::number(0);
        self.at += 1;
        match line.instruction {
            Instruction::Acc(n) => self.accumulator = self.stack[self.entry(n)?],
            Instruction::Push => self.push()?,
            Instruction::PushAcc(n) => {
                self.push()?;
                self.accumulator = self.stack[self.entry(n)?];
            }
            Instruction::Pop(n) => self.drop(n)?,
            Instruction::Assign(n) => {
                let entry = self.entry(n)?;
                self.stack[entry] = self.accumulator;
                self.accumulator = zero;
            }
            Instruction::Const(i) => self.accumulator = Cell::number(i),
            Instruction::PushConst(i) => {
                self.push()?;
                self.accumulator = Cell::number(i);
            }
            Instruction::Offset(i) => {
                self.change(|v| v.offset(i), |range| range.operated(Operator::Add, Range::of_one(i)))?;
            }
            Instruction::Negate => self.change(Tagged::negated, |range| minus(0, range))?,
            Instruction::Not => self.change(Tagged::complement, |range| minus(1, range))?,
            Instruction::Binary(operator) => {
                let right = self.pop()?;
                self.accumulator = match (self.accumulator, right) {
                    (Cell::Handle(j), Cell::Handle(k)) => match operator {
                        Operator::Equal => Cell::Number(Tagged::of_truth(j == k)),
                        Operator::Unequal => Cell::Number(Tagged::of_truth(j != k)),
                        _ => return None,
                    },
                    (Cell::Handle(_), _) | (_, Cell::Handle(_)) => return None,
                    (Cell::Number(x), Cell::Number(y)) => Cell::Number(operator.of(x, y)),
                    (x, y) => Cell::of(x.range()?.operated(operator, y.range()?)),
                };
            }
            Instruction::GetField(n) => self.accumulator = self.fields[self.field(n)?],
            Instruction::SetField(n) => {
                let field = self.field(n)?;
                self.fields[field] = self.pop()?;
                self.accumulator = zero;
            }
            Instruction::Branch(target) => self.at = target,
            Instruction::BranchIf(target) => return self.branch(target, true),
            Instruction::BranchIfNot(target) => return self.branch(target, false),
            Instruction::Call(popped) => {
                self.drop(popped)?;
                self.accumulator = answer();
            }
            Instruction::Stop => return Some(Next::Stops),
        }
        Some(Next::Goes)
    }

    fn branch(&mut self, target: u32, on_non_zero: bool) -> Option<Next> {
        match self.accumulator {
            Cell::Number(v) if (v != Tagged::of(0)) == on_non_zero => {
                self.at = target;
                Some(Next::Jumps)
            }
            Cell::Number(_) => Some(Next::Goes),
            Cell::Within(range) if range.contains(0) => Some(Next::Opens(target)),
            // "A condition whose range lacks 0 .. opens no second way"
            Cell::Within(_) if on_non_zero => {
                self.at = target;
                Some(Next::Jumps)
            }
            Cell::Within(_) => Some(Next::Goes),
            Cell::Handle(_) => None,
        }
    }
}

/// A number minus a range.
fn minus(n: i32, range: Range) -> Range {
    Range::of_one(n).operated(Operator::Subtract, range)
}

impl Operator {
    pub fn of(self, x: Tagged, y: Tagged) -> Tagged {
        let truth = match self {
            Operator::Add => return x.plus(y),
            Operator::Subtract => return x.minus(y),
            Operator::Equal => x == y,
            Operator::Unequal => x != y,
            Operator::Less => x < y,
            Operator::LessOrEqual => x <= y,
            Operator::Greater => x > y,
            Operator::GreaterOrEqual => x >= y,
        };
        Tagged::of_truth(truth)
    }
}
