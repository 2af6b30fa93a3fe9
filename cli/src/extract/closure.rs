//! What the unit's beginning sets the values to that its functions keep from outside: the code from the first word on is followed with
//! the numbers that are known, and where ways meet, a number is known that is the same on all of them.
use super::code::{Code, Instruction};
use super::opcodes::{without_number, without_push, NUMBERS};
use std::collections::BTreeMap;

type Number = Option<i32>;

/// By the address of a function: the numbers of its places from the first kept value on.
pub struct Kept(BTreeMap<usize, (i32, Vec<Number>)>);

/// What is known at an instruction of the beginning.
#[derive(Clone, PartialEq)]
struct State {
    accumulator: Number,
    /// the top is last
    stack: Vec<Number>,
}

/// Of a damaged file no more is followed: entries of a stack, entries in all stacks that are kept, and instructions.
const DEEPEST: usize = 4096;
const ENTRIES: usize = 1 << 22;
const FOLLOWED: usize = 1 << 20;

impl Kept {
    pub fn of(code: &Code) -> Kept {
        let mut kept = Kept(BTreeMap::new());
        if kept.follow(code).is_none() {
            kept.0.clear();
        }
        kept
    }

    /// The number at a place of the closure of the function at an address.
    pub fn number(&self, address: usize, place: i32) -> Number {
        let (first, numbers) = self.0.get(&address)?;
        let index = usize::try_from(place.checked_sub(*first)?).ok()?;
        numbers.get(index).copied().flatten()
    }

    /// Nothing where it is given up.
    fn follow(&mut self, code: &Code) -> Option<()> {
        let mut states: BTreeMap<usize, State> = BTreeMap::new();
        let mut next = vec![(0, State { accumulator: None, stack: Vec::new() })];
        let (mut followed, mut entries) = (0, 0);
        while let Some((number, arriving)) = next.pop() {
            let state = match states.get(&number) {
                Some(known) => met(known, &arriving),
                None => arriving,
            };
            if states.get(&number) == Some(&state) {
                continue;
            }
            followed += 1;
            entries += state.stack.len();
            if state.stack.len() > DEEPEST || followed > FOLLOWED || entries > ENTRIES {
                return None;
            }
            states.insert(number, state.clone());
            let Some(instruction) = code.instructions.get(number) else { continue };
            entries += self.closures(code, instruction, &state);
            let before = state.stack.len();
            let after = state.after(code, instruction);
            for target in after.targets(instruction) {
                let arriving = match instruction.name() {
                    // what the handler finds is not followed
                    "PUSHTRAP" => State { accumulator: None, stack: vec![None; before] },
                    _ => after.clone(),
                };
                next.extend(code.number(target).map(|target| (target, arriving)));
            }
            if instruction.goes_on() && !["GRAB", "RESTART"].contains(&instruction.name()) {
                next.push((number + 1, after));
            }
        }
        Some(())
    }

    /// Notes what the functions keep that an instruction makes, and tells how many values those are.
    fn closures(&mut self, code: &Code, instruction: &Instruction, state: &State) -> usize {
        if !instruction.makes_functions() {
            return 0;
        }
        let functions = i32::try_from(instruction.targets.len()).unwrap_or(i32::MAX);
        let values = match instruction.name() {
            "CLOSURE" => instruction.word,
            _ => second_word(code, instruction),
        };
        let entries = state.stack.iter().rev().copied();
        let numbers: Vec<Number> = std::iter::once(state.accumulator).chain(entries).take(count(values)).collect();
        for (index, target) in (0..).zip(&instruction.targets) {
            // each function has three words of the closure, but for the last, which has two; a place counts from its own
            let first = functions.saturating_mul(3).saturating_sub(1).saturating_sub(3 * index);
            match self.0.get_mut(target) {
                Some((_, known)) => {
                    let other = numbers.iter().copied().chain(std::iter::repeat(None));
                    known.iter_mut().zip(other).for_each(|(known, other)| *known = known.filter(|_| *known == other));
                }
                None => {
                    self.0.insert(*target, (first, numbers.clone()));
                }
            }
        }
        numbers.len().saturating_mul(instruction.targets.len())
    }
}

/// What is the same on two ways. Of stacks of unlike heights, which no compiler makes, nothing is.
fn met(one: &State, other: &State) -> State {
    let same = |pair: (&Number, &Number)| pair.0.filter(|_| pair.0 == pair.1);
    let accumulator = same((&one.accumulator, &other.accumulator));
    let height = one.stack.len().min(other.stack.len());
    let stack = match one.stack.len() == other.stack.len() {
        true => one.stack.iter().zip(&other.stack).map(same).collect(),
        false => vec![None; height],
    };
    State { accumulator, stack }
}

fn second_word(code: &Code, instruction: &Instruction) -> i32 {
    code.unit.words.get(instruction.at + 2).copied().unwrap_or(0)
}

impl State {
    /// Where an instruction may go other than to the next one.
    fn targets(&self, instruction: &Instruction) -> Vec<usize> {
        // behind a call it goes on by the call itself
        match instruction.makes_functions() || instruction.name() == "PUSH_RETADDR" {
            true => Vec::new(),
            false => instruction.targets.clone(),
        }
    }

    fn pop(&mut self, count: usize) {
        self.stack.truncate(self.stack.len().saturating_sub(count));
    }

    /// The number of an entry, from the top.
    fn entry(&self, index: i32) -> Number {
        let index = usize::try_from(index).ok()?;
        self.stack.len().checked_sub(index + 1).and_then(|place| self.stack[place])
    }

    fn after(mut self, code: &Code, instruction: &Instruction) -> State {
        let (push, name) = without_push(instruction.name());
        let (base, digit) = without_number(name);
        let number = digit.unwrap_or(instruction.word);
        if push || base == "PUSH" {
            self.stack.push(self.accumulator);
        }
        match base {
            "PUSH" | "BRANCH" | "BRANCHIF" | "BRANCHIFNOT" | "CHECK_SIGNALS" | "SWITCH" => return self,
            "BEQ" | "BNEQ" | "BLTINT" | "BLEINT" | "BGTINT" | "BGEINT" | "BULTINT" | "BUGEINT" => return self,
            "POP" => {
                self.pop(count(number));
                return self;
            }
            "ASSIGN" => {
                let place = self.stack.len().checked_sub(count(number).saturating_add(1));
                if let Some(place) = place {
                    self.stack[place] = self.accumulator;
                }
                self.accumulator = None;
                return self;
            }
            _ => {}
        }
        self.accumulator = match base {
            "ACC" => self.entry(number),
            "CONST" | "CONSTINT" => Some(number),
            _ => self.computed(base, number),
        }
        .filter(|number| NUMBERS.contains(number));
        self.leave(code, instruction, base, number);
        self
    }

    /// What arithmetic of known numbers gives, where it does not leave 31 bits.
    fn computed(&self, base: &str, number: i32) -> Number {
        let left = self.accumulator?;
        match base {
            "OFFSETINT" => left.checked_add(number),
            "NEGINT" => left.checked_neg(),
            "ADDINT" => left.checked_add(self.entry(0)?),
            "SUBINT" => left.checked_sub(self.entry(0)?),
            "MULINT" => left.checked_mul(self.entry(0)?),
            "DIVINT" => left.checked_div(self.entry(0)?),
            "MODINT" => left.checked_rem(self.entry(0)?),
            _ => None,
        }
    }

    /// Takes the entries off the stack that an instruction takes, and puts those there that it leaves.
    fn leave(&mut self, code: &Code, instruction: &Instruction, base: &str, number: i32) {
        let second = second_word(code, instruction);
        let fewer = |number: i32| count(number).saturating_sub(1);
        match base {
            "ADDINT" | "SUBINT" | "MULINT" | "DIVINT" | "MODINT" | "ANDINT" | "ORINT" | "XORINT" | "LSLINT"
            | "LSRINT" | "ASRINT" | "EQ" | "NEQ" | "LTINT" | "LEINT" | "GTINT" | "GEINT" | "ULTINT" | "UGEINT"
            | "SETFIELD" | "SETFLOATFIELD" | "GETVECTITEM" | "GETBYTESCHAR" | "GETSTRINGCHAR" => self.pop(1),
            "SETVECTITEM" | "SETBYTESCHAR" => self.pop(2),
            // the numbers of the short forms are the arguments and the fields
            "C_CALL" | "C_CALLN" | "MAKEBLOCK" | "MAKEFLOATBLOCK" | "CLOSURE" => self.pop(fewer(number)),
            "CLOSUREREC" => {
                self.pop(fewer(second));
                self.stack.extend(vec![None; count(number).min(DEEPEST)]);
            }
            "APPLY" if instruction.name() == "APPLY" => self.pop(count(number).saturating_add(3)),
            "APPLY" => self.pop(count(number)),
            "PUSH_RETADDR" => self.stack.extend([None; 3]),
            "PUSHTRAP" => self.stack.extend([None; 4]),
            "POPTRAP" => self.pop(4),
            "GETPUBMET" => self.stack.push(None),
            _ => {}
        }
    }
}

fn count(number: i32) -> usize {
    usize::try_from(number).unwrap_or(usize::MAX)
}
