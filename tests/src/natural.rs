//! Units in OCaml with functions made at random as an author writes them: `if` with `else`, `match` of numbers and of constant
//! constructors, `||`, `&&`, `not`, comparisons with constants, constants of the module, counted loops. Nothing wraps.
use crate::functions::PRIMITIVES;
use crate::random::Random;

/// What a variable, a field and a result may be at most, on both sides of 0.
const ASSIGNED: i64 = 1_000_000;
const LARGEST: i64 = 1 << 28;
const DEEPEST: usize = 6;
/// Turns of loops within each other.
const TURNS: usize = 12;

#[derive(Clone, Copy, PartialEq, Eq, Debug)]
pub enum Type {
    Int,
    Bool,
    Record,
    /// of constant constructors
    Choice,
}

pub struct Function {
    pub name: String,
    pub arguments: Vec<Type>,
}

pub struct Unit {
    /// its file without the ending
    pub name: String,
    pub text: String,
    /// whether it is compiled with -g; then it has no `ref`, which would be kept as a block
    pub debug: bool,
    /// whether its functions are defined together, and share a closure
    pub together: bool,
    /// of the record
    pub fields: usize,
    pub constructors: usize,
    pub functions: Vec<Function>,
}

/// An expression and the largest number that it may give.
type Number = (String, i64);

struct Body<'a> {
    random: &'a mut Random,
    ints: Vec<Number>,
    bools: Vec<String>,
    refs: Vec<String>,
    choices: Vec<String>,
    constants: Vec<Number>,
    constructors: usize,
    with_refs: bool,
    fields: usize,
    named: usize,
    /// how much more may be written
    left: usize,
    depth: usize,
    /// how often the present place is made in the loops around it
    turns: usize,
}

impl Body<'_> {
    fn name(&mut self, letter: char) -> String {
        self.named += 1;
        format!("{letter}{}", self.named)
    }

    fn spent(&mut self) -> bool {
        self.left = self.left.saturating_sub(self.turns);
        self.left == 0 || self.depth >= DEEPEST
    }

    fn literal(&mut self) -> i64 {
        match self.random.below(4) {
            0 => self.random.below(2000) as i64 - 1000,
            _ => self.random.below(8) as i64 - 2,
        }
    }

    fn field(&mut self) -> String {
        format!("r.f{}", self.random.below(self.fields))
    }

    /// A number that is read from somewhere.
    fn read(&mut self) -> Number {
        match self.random.below(6) {
            0 if self.fields > 0 => (self.field(), ASSIGNED),
            1 if !self.refs.is_empty() => (format!("!{}", self.random.pick(&self.refs)), 2 * ASSIGNED),
            2 if !self.constants.is_empty() => self.random.pick(&self.constants).clone(),
            _ if !self.ints.is_empty() => self.random.pick(&self.ints).clone(),
            _ => self.call(),
        }
    }

    fn call(&mut self) -> Number {
        let (name, count) = *self.random.pick(&PRIMITIVES);
        let mut text = name.to_lowercase();
        for _ in 0..count {
            text += &format!(" ({})", self.leaf().0);
        }
        (format!("({text})"), 1000)
    }

    fn leaf(&mut self) -> Number {
        match self.random.below(3) {
            0 => {
                let number = self.literal();
                (format!("({number})"), number.abs())
            }
            _ => self.ints.last().cloned().unwrap_or(("0".into(), 0)),
        }
    }

    fn int(&mut self) -> Number {
        if self.spent() {
            return self.leaf();
        }
        self.depth += 1;
        let made = self.deeper();
        self.depth -= 1;
        made
    }

    fn deeper(&mut self) -> Number {
        match self.random.below(16) {
            0 => self.leaf(),
            1 | 2 => self.read(),
            3 => {
                let (text, most) = self.int();
                let more = self.random.within(1, 300) as i64;
                (format!("({text} {} {more})", self.random.pick(&["+", "-"])), most + more)
            }
            4 => {
                let (left, right) = (self.int(), self.int());
                sum(left, *self.random.pick(&["+", "-"]), right)
            }
            5 => {
                let (text, most) = self.int();
                (format!("(~- ({text}))"), most)
            }
            6..=8 => {
                let condition = self.condition();
                let (yes, no) = (self.int(), self.int());
                (format!("(if {condition} then {} else {})", yes.0, no.0), yes.1.max(no.1))
            }
            9 | 10 => self.chosen(|body| body.int()),
            11 => self.call(),
            12 | 13 => {
                let statement = self.statement();
                let (text, most) = self.int();
                (format!("({statement}; {text})"), most)
            }
            _ => self.with_let(),
        }
    }

    /// A `let` before a number.
    fn with_let(&mut self) -> Number {
        let kept = (self.ints.len(), self.bools.len(), self.refs.len());
        let head = match self.random.below(if self.with_refs { 4 } else { 3 }) {
            0 => {
                let text = self.condition();
                let name = self.name('b');
                self.bools.push(name.clone());
                format!("let {name} = {text} in")
            }
            3 => {
                let (text, _) = self.assigned();
                let name = self.name('m');
                self.refs.push(name.clone());
                format!("let {name} = ref {text} in")
            }
            _ => {
                let (text, most) = self.int();
                let name = self.name('v');
                self.ints.push((name.clone(), most));
                format!("let {name} = {text} in")
            }
        };
        let (text, most) = self.int();
        self.ints.truncate(kept.0);
        self.bools.truncate(kept.1);
        self.refs.truncate(kept.2);
        (format!("({head} {text})"), most)
    }

    fn assigned(&mut self) -> Number {
        let (text, most) = self.int();
        if most <= ASSIGNED {
            (text, most)
        } else {
            self.leaf_constant()
        }
    }

    fn leaf_constant(&mut self) -> Number {
        let number = self.literal();
        (format!("({number})"), number.abs())
    }

    /// A `match` of a number or of a constructor, with what stands in each case.
    fn chosen(&mut self, mut inner: impl FnMut(&mut Self) -> Number) -> Number {
        let choice = !self.choices.is_empty() && self.random.one_in(2);
        let count = if choice { self.constructors } else { self.random.within(2, 6) };
        let first = if choice || self.random.one_in(2) { 0 } else { self.random.below(9) as i64 - 4 };
        let subject = if choice { self.random.pick(&self.choices).clone() } else { self.read().0 };
        let mut text = format!("(match {subject} with");
        let mut most = 0;
        let open = !choice || self.random.one_in(3);
        for number in 0..count - usize::from(choice && open) {
            let pattern = if choice { format!("C{number}") } else { format!("{}", first + number as i64) };
            text += &format!(" | {pattern}");
            // some cases are the same as the next one
            if number + 1 < count - usize::from(choice && open) && self.random.one_in(5) {
                continue;
            }
            let (case, more) = inner(self);
            text += &format!(" -> {case}");
            most = most.max(more);
        }
        if open {
            let (case, more) = inner(self);
            text += &format!(" | _ -> {case}");
            most = most.max(more);
        }
        (text + ")", most)
    }

    fn comparison(&mut self) -> &'static str {
        *self.random.pick(&["=", "<>", "<", "<=", ">", ">="])
    }

    fn condition(&mut self) -> String {
        if self.spent() {
            return self.compared();
        }
        match self.random.below(12) {
            0 if !self.bools.is_empty() => self.random.pick(&self.bools).clone(),
            1 | 2 => format!("(not {})", self.condition()),
            3 | 4 => format!("({} && {})", self.condition(), self.condition()),
            5 | 6 => format!("({} || {})", self.condition(), self.condition()),
            7 => format!("(flag {})", self.leaf().0),
            8 => {
                let (text, _) = self.read();
                let low = self.literal();
                format!("({text} >= ({low}) && {text} <= {})", low.abs() + 7)
            }
            _ => self.compared(),
        }
    }

    /// A comparison, most often with a constant on one side.
    fn compared(&mut self) -> String {
        let (left, operator) = (self.read().0, self.comparison());
        match self.random.below(4) {
            0 => format!("({left} {operator} {})", self.read().0),
            1 => format!("(({}) {operator} {left})", self.literal()),
            _ => format!("({left} {operator} ({}))", self.literal()),
        }
    }

    fn statement(&mut self) -> String {
        if self.spent() {
            return format!("ignore {}", self.call().0);
        }
        self.depth += 1;
        let text = match self.random.below(10) {
            0 | 1 if self.fields > 0 => format!("{} <- {}", self.field(), self.assigned().0),
            2 if !self.refs.is_empty() => {
                let (text, _) = self.assigned();
                format!("{} := {text}", self.random.pick(&self.refs))
            }
            3 if !self.refs.is_empty() => {
                format!("{} {}", self.random.pick(&["incr", "decr"]), self.random.pick(&self.refs))
            }
            4 | 5 => {
                let (condition, statement) = (self.condition(), self.statement());
                match self.random.below(2) {
                    0 => format!("(if {condition} then ({statement}))"),
                    _ => format!("(if {condition} then ({statement}) else ({}))", self.statement()),
                }
            }
            6 | 7 => self.loops(),
            8 => self.chosen(|body| (format!("({})", body.statement()), 0)).0,
            _ => format!("ignore {}", self.call().0),
        };
        self.depth -= 1;
        text
    }

    /// A counted loop, by constants of the module too.
    fn loops(&mut self) -> String {
        let turns = self.random.below(5);
        if self.turns * turns.max(1) > TURNS || self.left < 4 * self.turns * turns.max(1) {
            return format!("ignore {}", self.call().0);
        }
        let from = self.random.below(5) as i64 - 1;
        let end = from + turns as i64 - 1;
        let (from, word, end) = if self.random.one_in(3) { (end, "downto", from) } else { (from, "to", end) };
        let end = match self.random.below(3) {
            0 => format!("three + ({})", end - 3),
            _ => format!("({end})"),
        };
        let name = self.name('i');
        self.ints.push((name.clone(), 9));
        self.turns *= turns.max(1);
        let statements: Vec<String> = (0..self.random.within(1, 2)).map(|_| self.statement()).collect();
        self.turns /= turns.max(1);
        self.ints.pop();
        format!("(for {name} = ({from}) {word} {end} do {} done)", statements.join("; "))
    }
}

fn sum(left: Number, sign: &str, right: Number) -> Number {
    if left.1 + right.1 > LARGEST {
        return left;
    }
    (format!("({} {sign} {})", left.0, right.0), left.1 + right.1)
}

impl Body<'_> {
    /// An argument of a function, which is then a variable of its body.
    fn argument(&mut self, argument: &Type) -> String {
        match argument {
            Type::Record => " (r : t)".into(),
            Type::Int => {
                let name = self.name('a');
                self.ints.push((name.clone(), 1000));
                format!(" ({name} : int)")
            }
            Type::Bool => {
                let name = self.name('t');
                self.bools.push(name.clone());
                format!(" ({name} : bool)")
            }
            Type::Choice => {
                let name = self.name('c');
                self.choices.push(name.clone());
                format!(" ({name} : s)")
            }
        }
    }
}

fn function(random: &mut Random, unit: &mut Unit, constants: &[Number]) -> String {
    let kinds = [Type::Int, Type::Int, Type::Int, Type::Bool, Type::Choice];
    let mut arguments: Vec<Type> = (0..random.within(1, 5)).map(|_| *random.pick(&kinds)).collect();
    if random.one_in(2) {
        let place = random.below(arguments.len());
        arguments[place] = Type::Record;
    }
    let left = random.within(6, 60);
    let mut body = Body {
        random,
        ints: Vec::new(),
        bools: Vec::new(),
        refs: Vec::new(),
        choices: Vec::new(),
        constants: constants.to_vec(),
        constructors: unit.constructors,
        with_refs: !unit.debug,
        fields: if arguments.contains(&Type::Record) { unit.fields } else { 0 },
        named: 0,
        left,
        depth: 0,
        turns: 1,
    };
    let name = format!("f{}", unit.functions.len() + 1);
    let taken: String = arguments.iter().map(|argument| body.argument(argument)).collect();
    let statement = body.statement();
    let (result, _) = body.with_let();
    unit.functions.push(Function { name: name.clone(), arguments });
    let head = match (unit.together, unit.functions.len()) {
        (false, _) => "let",
        (true, 1) => "let rec",
        (true, _) => "and",
    };
    format!("{head} {name}{taken} =\n  {statement};\n  {result}\n")
}

/// A unit of one to three functions, of at most `most`.
pub fn unit(random: &mut Random, name: String, most: usize) -> Unit {
    let (debug, fields, constructors) = (random.one_in(4), random.within(1, 6), random.within(2, 6));
    let together = random.one_in(4);
    let mut unit = Unit { name, text: String::new(), debug, together, fields, constructors, functions: Vec::new() };
    let fields: Vec<String> = (0..unit.fields).map(|n| format!("mutable f{n} : int")).collect();
    let choices: Vec<String> = (0..unit.constructors).map(|n| format!("C{n}")).collect();
    let mut text = format!("type t = {{ {} }}\ntype s = {}\n", fields.join("; "), choices.join(" | "));
    for (name, count) in PRIMITIVES {
        text += &format!("external {} : {}int = \"{name}\"\n", name.to_lowercase(), "int -> ".repeat(count));
    }
    text += "external flag : int -> bool = \"PEEK\"\n";
    let limit = random.within(4, 900) as i64;
    let below = -(random.within(1, 20) as i64);
    text += &format!("let three = 3\nlet limit = {limit}\nlet below = {below}\nlet day = 24 * {}\n", limit % 60);
    text += "let last = limit - 1\n";
    let constant = |name: &str, number: i64| (name.to_string(), number.abs());
    let constants = [
        constant("three", 3),
        constant("limit", limit),
        constant("below", below),
        constant("day", 24 * (limit % 60)),
        constant("last", limit),
    ];
    for _ in 0..random.within(1, 3).min(most) {
        text += "\n";
        text += &function(random, &mut unit, &constants);
    }
    unit.text = text;
    unit
}
