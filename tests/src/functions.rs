//! Units in OCaml with functions made at random of what compiles to the 61 kinds: numbers and truths as arguments and in local
//! variables, a record of numbers, primitives, sums, comparisons, `if`, and assignments; no two operands that may wrap. A comparison
//! with a constant stands alone in a `let`, where it is not made one instruction with a branch.
use crate::random::Random;

/// The primitives and how many arguments they take.
pub const PRIMITIVES: [(&str, usize); 7] =
    [("READ", 1), ("PEEK", 1), ("SOUND", 2), ("LAMP_2", 2), ("LOG", 3), ("VALVE", 4), ("PUMP", 5)];

/// What a variable, a field and a result may be at most, on both sides of 0.
const ASSIGNED: i64 = 1_000_000;
const LARGEST: i64 = 1 << 28;
/// How deep expressions may be nested, so that the stack has 64 entries at most.
const DEEPEST: usize = 8;

#[derive(Clone, Copy, PartialEq, Eq, Debug)]
pub enum Type {
    Unit,
    Int,
    Bool,
    Record,
}

pub struct Function {
    pub name: String,
    pub arguments: Vec<Type>,
}

pub struct Unit {
    /// its file without the ending
    pub name: String,
    pub text: String,
    /// whether it is compiled with -g; then it has no `ref`, which would be kept as a block
    pub debug: bool,
    /// of the record
    pub fields: usize,
    pub functions: Vec<Function>,
}

/// A number, or whether it holds, where it is read.
fn literal(random: &mut Random) -> i64 {
    match random.below(3) {
        0 => random.below(2000) as i64 - 1000,
        _ => random.below(6) as i64 - 1,
    }
}

struct Body<'a> {
    random: &'a mut Random,
    /// variables with the largest number that they may hold
    ints: Vec<(String, i64)>,
    bools: Vec<String>,
    refs: Vec<String>,
    with_refs: bool,
    /// the fields of the record, where it is an argument
    fields: usize,
    named: usize,
    /// how much more may be written
    left: usize,
    /// how many expressions the present one stands in
    depth: usize,
}

/// An expression and the largest number that it may give.
type Number = (String, i64);

impl Body<'_> {
    fn name(&mut self, letter: char) -> String {
        self.named += 1;
        format!("{letter}{}", self.named)
    }

    fn spent(&mut self) -> bool {
        self.left = self.left.saturating_sub(1);
        self.left == 0 || self.depth >= DEEPEST
    }

    fn field(&mut self) -> String {
        format!("r.f{}", self.random.below(self.fields))
    }

    /// A number that is read from somewhere, and is no constant.
    fn read(&mut self) -> Number {
        match self.random.below(4) {
            0 if self.fields > 0 => (self.field(), ASSIGNED),
            1 if !self.refs.is_empty() => (format!("!{}", self.random.pick(&self.refs)), ASSIGNED),
            _ if !self.ints.is_empty() => {
                // the first ones lie deepest
                let newest = self.random.one_in(2);
                let from = if newest { self.ints.len().saturating_sub(3) } else { 0 };
                self.ints[self.random.within(from, self.ints.len() - 1)].clone()
            }
            _ => self.call(),
        }
    }

    fn call(&mut self) -> Number {
        let (name, count) = *self.random.pick(&PRIMITIVES);
        let mut text = name.to_lowercase();
        for _ in 0..count {
            text += &format!(" ({})", self.int().0);
        }
        (text, 1000)
    }

    /// An operand of a comparison in a condition.
    fn operand(&mut self) -> Number {
        let read = self.read();
        match self.random.below(5) {
            0 => (format!("({} + {})", read.0, self.random.within(1, 9)), read.1 + 9),
            1 => {
                let other = self.read();
                sum(read, "-", other)
            }
            2 => (format!("(~- ({}))", read.0), read.1),
            _ => (format!("({})", read.0), read.1),
        }
    }

    fn int(&mut self) -> Number {
        if self.spent() {
            return self.leaf();
        }
        self.depth += 1;
        let made = self.deeper();
        self.depth -= 1;
        made
    }

    fn deeper(&mut self) -> Number {
        match self.random.below(16) {
            0 | 1 => self.leaf(),
            2 | 3 => self.read(),
            4 => {
                let (text, most) = self.int();
                let more = self.random.within(1, 300) as i64;
                (format!("(({text}) {} {more})", self.random.pick(&["+", "-"])), most + more)
            }
            5 | 6 => {
                let (left, right) = (self.int(), self.int());
                let sign = *self.random.pick(&["+", "-"]);
                sum(left, sign, right)
            }
            7 => {
                let (text, most) = self.int();
                (format!("(~- ({text}))"), most)
            }
            8 | 9 => {
                let condition = self.condition();
                let (yes, no) = (self.int(), self.int());
                (format!("(if {condition} then ({}) else ({}))", yes.0, no.0), yes.1.max(no.1))
            }
            10 => self.call(),
            11..=13 => {
                let statement = self.statement();
                let (text, most) = self.int();
                (format!("({statement}; {text})"), most)
            }
            _ => self.with_let(|body| body.int()),
        }
    }

    fn leaf(&mut self) -> Number {
        match self.random.below(2) {
            0 => self.ints.last().cloned().unwrap_or(("0".into(), 0)),
            _ => {
                let number = literal(self.random);
                (format!("({number})"), number.abs())
            }
        }
    }

    /// A `let` before what is made in it.
    fn with_let(&mut self, inner: impl FnOnce(&mut Self) -> Number) -> Number {
        let kept = (self.ints.len(), self.bools.len(), self.refs.len());
        let head = match self.random.below(if self.with_refs { 5 } else { 4 }) {
            0 | 1 => {
                let (text, most) = self.int();
                let name = self.name('v');
                self.ints.push((name.clone(), most));
                format!("let {name} = {text} in")
            }
            2 | 3 => {
                let text = match self.random.below(3) {
                    0 => self.condition(),
                    _ => {
                        let compared = self.comparison();
                        let number = literal(self.random);
                        format!("({} {compared} ({number}))", self.read().0)
                    }
                };
                let name = self.name('b');
                self.bools.push(name.clone());
                format!("let {name} = {text} in")
            }
            _ => {
                let (text, _) = self.assigned();
                let name = self.name('m');
                self.refs.push(name.clone());
                format!("let {name} = ref ({text}) in")
            }
        };
        let (text, most) = inner(self);
        self.ints.truncate(kept.0);
        self.bools.truncate(kept.1);
        self.refs.truncate(kept.2);
        (format!("({head} {text})"), most)
    }

    /// What may be assigned to a variable or a field.
    fn assigned(&mut self) -> Number {
        let (text, most) = self.int();
        if most <= ASSIGNED {
            (text, most)
        } else {
            let number = literal(self.random);
            (format!("({number})"), number.abs())
        }
    }

    fn comparison(&mut self) -> &'static str {
        *self.random.pick(&["=", "<>", "<", "<=", ">", ">="])
    }

    fn condition(&mut self) -> String {
        if self.spent() {
            return self.compared();
        }
        match self.random.below(8) {
            0 | 1 if !self.bools.is_empty() => self.random.pick(&self.bools).clone(),
            2 => format!("(not {})", self.condition()),
            3 => format!("({} && {})", self.condition(), self.condition()),
            4 => format!("({} || {})", self.condition(), self.condition()),
            _ => self.compared(),
        }
    }

    fn compared(&mut self) -> String {
        let (left, right) = (self.operand().0, self.operand().0);
        format!("({left} {} {right})", self.comparison())
    }

    fn statement(&mut self) -> String {
        match self.random.below(6) {
            0 | 1 if self.fields > 0 => {
                let (text, _) = self.assigned();
                format!("{} <- ({text})", self.field())
            }
            2 | 3 if !self.refs.is_empty() => {
                let (text, _) = self.assigned();
                format!("{} := ({text})", self.random.pick(&self.refs))
            }
            4 if self.left > 0 => {
                let condition = self.condition();
                let statement = self.statement();
                match self.random.below(2) {
                    0 => format!("(if {condition} then ({statement}))"),
                    _ => format!("(if {condition} then ({statement}) else ({}))", self.statement()),
                }
            }
            _ => format!("ignore ({})", self.call().0),
        }
    }
}

fn sum(left: Number, sign: &str, right: Number) -> Number {
    if left.1 + right.1 > LARGEST {
        return left;
    }
    (format!("(({}) {sign} ({}))", left.0, right.0), left.1 + right.1)
}

fn function(random: &mut Random, unit: &mut Unit) -> String {
    let mut arguments: Vec<Type> =
        (0..random.within(1, 8)).map(|_| if random.one_in(4) { Type::Bool } else { Type::Int }).collect();
    if random.one_in(2) {
        let place = random.below(arguments.len());
        arguments[place] = Type::Record;
    }
    if random.one_in(16) {
        arguments = vec![Type::Unit];
    }
    let name = format!("f{}", unit.functions.len() + 1);
    let mut text = format!("let {name}");
    // a few have so many branches that the merging bound alone accepts them
    let left = if random.one_in(12) { random.within(80, 250) } else { random.within(3, 40) };
    let fields = if arguments.contains(&Type::Record) { unit.fields } else { 0 };
    let (ints, bools, refs) = (Vec::new(), Vec::new(), Vec::new());
    let mut body = Body { random, ints, bools, refs, with_refs: !unit.debug, fields, named: 0, left, depth: 0 };
    for argument in &arguments {
        text += " ";
        text += &match argument {
            Type::Unit => "()".into(),
            Type::Record => "(r : t)".into(),
            Type::Int => {
                let name = body.name('a');
                body.ints.push((name.clone(), 1000));
                format!("({name} : int)")
            }
            Type::Bool => {
                let name = body.name('t');
                body.bools.push(name.clone());
                format!("({name} : bool)")
            }
        };
    }
    // some have many variables, which lie deep in the stack
    let lets = if body.random.one_in(3) { body.random.within(3, 9) } else { body.random.below(3) };
    let (result, _) = nested(&mut body, lets);
    unit.functions.push(Function { name, arguments });
    format!("{text} =\n  {result}\n")
}

fn nested(body: &mut Body, lets: usize) -> Number {
    match lets {
        0 => body.int(),
        _ => body.with_let(|body| nested(body, lets - 1)),
    }
}

/// A unit of one to three functions, of at most `most`.
pub fn unit(random: &mut Random, name: String, most: usize) -> Unit {
    let debug = random.one_in(4);
    let mut unit = Unit { name, text: String::new(), debug, fields: random.within(1, 16), functions: Vec::new() };
    let fields: Vec<String> = (0..unit.fields).map(|n| format!("mutable f{n} : int")).collect();
    let mut text = format!("type t = {{ {} }}\n", fields.join("; "));
    for (name, count) in PRIMITIVES {
        text += &format!("external {} : {}int = \"{name}\"\n", name.to_lowercase(), "int -> ".repeat(count));
    }
    for _ in 0..random.within(1, 3).min(most) {
        text += "\n";
        text += &function(random, &mut unit);
    }
    unit.text = text;
    unit
}
