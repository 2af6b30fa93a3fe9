//! What stands in the way of a routine, each with what to do about it.
use super::told;
use std::fmt;

/// A fault with the word of the unit's code where it is.
pub type Found = (usize, Fault);

#[derive(Clone, Debug, PartialEq)]
pub enum Fault {
    /// what `--lower` takes: the instruction
    NotLowered(&'static str),
    /// a sign of the source and its instruction
    Arithmetic(&'static str, &'static str),
    Division(&'static str, &'static str),
    Array(String),
    Text(String),
    /// with whether the unit was compiled with -g
    Allocation(&'static str, bool),
    /// a call of a function, by its name where it is known
    Call(Callee, &'static str),
    Closure(&'static str),
    Float(String),
    /// a number of type int32, int64 or nativeint
    Boxed(String),
    Exception(&'static str),
    /// a comparison of values of any type
    Untyped(String),
    Compare,
    Large(i64),
    /// a constant of the source that is no number
    Constant,
    /// a value that the unit's beginning computes: its place, and its name where it is known
    Computed(i32, Option<Vec<u8>>),
    /// a value of another unit
    Elsewhere(Vec<u8>, &'static str),
    Tags(&'static str),
    Method(&'static str),
    ManyArguments,
    /// a primitive of OCaml's own library
    Library(String),
    /// a primitive whose name is none of the card's
    Name(Vec<u8>),
    /// an argument that is past its limit
    Limit(&'static str, i32, i32),
    Unsigned(&'static str, i32),
    UnsignedUnknown(&'static str),
    Loop,
    NotUnrolled(i32, i32),
    LongLoop(i32, i32),
    Backwards(&'static str),
    Outside(&'static str),
    Accumulator,
    /// what is none of a function's
    Odd(&'static str),
    /// arguments, primitives or lines, how many there are, and how many a routine file has at most
    Many(&'static str, usize, usize),
    LongFile(usize),
}

#[derive(Clone, Debug, PartialEq)]
pub enum Callee {
    Itself,
    /// a function of the standard library, by its field
    Standard(usize),
    Named(Vec<u8>),
    /// a function of another unit
    Of(Vec<u8>),
    Unknown,
}

/// The functions at the first fields of Stdlib, and what to write instead.
const STANDARD: [(usize, &str, &str); 5] = [
    (1, "failwith", "return a result of type int instead"),
    (15, "min", "write `if a < b then a else b`"),
    (16, "max", "write `if a > b then a else b`"),
    (17, "abs", "write `if a < 0 then -a else a`"),
    (43, "print_int", "use an external"),
];

impl fmt::Display for Callee {
    fn fmt(&self, to: &mut fmt::Formatter) -> fmt::Result {
        match self {
            Callee::Itself => write!(to, "itself"),
            Callee::Standard(field) => match STANDARD.iter().find(|(number, ..)| number == field) {
                Some((_, name, _)) => write!(to, "`{name}`"),
                None => write!(to, "a function of Stdlib"),
            },
            Callee::Named(name) => write!(to, "`{}`", told(name)),
            Callee::Of(unit) => write!(to, "a function of {}", told(unit)),
            Callee::Unknown => write!(to, "another function"),
        }
    }
}

impl Callee {
    fn remedy(&self) -> &'static str {
        match self {
            Callee::Itself => "write its turns one after another",
            Callee::Standard(field) => {
                STANDARD.iter().find(|(number, ..)| number == field).map_or("use an external", |(.., remedy)| remedy)
            }
            _ => "write its body in the place of the call, or use an external",
        }
    }
}

impl fmt::Display for Fault {
    fn fmt(&self, to: &mut fmt::Formatter) -> fmt::Result {
        match self {
            Fault::NotLowered("CHECK_SIGNALS") => {
                write!(to, "a loop (CHECK_SIGNALS) has no kind: give --lower and --unroll, which write a `for` out")
            }
            Fault::NotLowered(name) => write!(to, "{} ({name}) has no kind: give --lower", lowered(name)),
            Fault::Arithmetic(sign, name) => write!(to, "`{sign}` ({name}) has no kind: use an external"),
            Fault::Division(sign, name) => {
                write!(to, "`{sign}` ({name}) has no kind, and fails for 0: use an external, which answers for 0 too")
            }
            Fault::Array(name) => write!(to, "an array ({name}) has no kind: use the fields of a record"),
            Fault::Text(name) => write!(to, "a text ({name}) has no kind: use numbers, or an external"),
            Fault::Allocation(name, debug) => write!(to, "{}", allocation(name, *debug)),
            Fault::Call(callee, name) => write!(to, "a call of {callee} ({name}) has no kind: {}", callee.remedy()),
            Fault::Closure(name) => {
                write!(
                    to,
                    "a function within the function ({name}) has no kind: write its body in the place of its calls"
                )
            }
            Fault::Float(name) => write!(to, "a float ({name}) has no kind: use an int of a smaller unit"),
            Fault::Boxed(name) => write!(to, "an int32, int64 or nativeint ({name}) has no kind: use int"),
            Fault::Exception(name) => {
                write!(to, "an exception ({name}) has no kind: return a result of type int instead")
            }
            Fault::Untyped(name) => {
                write!(to, "a comparison at no known type ({name}) has no kind: annotate int, as in `(x : int)`")
            }
            Fault::Compare => write!(to, "`compare` (caml_int_compare) has no kind: use `<`, `=` and `>`"),
            Fault::Large(number) => {
                write!(to, "the constant {number} is beyond 31 bits: use a larger unit of measure, or an external")
            }
            Fault::Constant => {
                write!(to, "a constant that is no number (GETGLOBAL) has no kind: use the fields of a record")
            }
            _ => self.rest(to),
        }
    }
}

impl Fault {
    fn rest(&self, to: &mut fmt::Formatter) -> fmt::Result {
        match self {
            Fault::Computed(place, name) => {
                let name = name.as_ref().map_or("a value from outside the function".into(), |name| format!("`{}`", told(name)));
                write!(to, "{name} (ENVACC {place}) is computed when the unit begins: give it as an argument or as a field")
            }
            Fault::Elsewhere(unit, name) => write!(
                to,
                "a value of the unit {} ({name}) has no kind: give it as an argument or as a field, or write it as a literal",
                told(unit)
            ),
            Fault::Tags(name) => write!(
                to,
                "a match over constructors with arguments ({name}) has no kind: use constant constructors, and fields for the arguments"
            ),
            Fault::Method(name) => write!(to, "a method ({name}) has no kind: write its body in the place of the call"),
            Fault::ManyArguments => {
                write!(to, "an external with more than five arguments (C_CALLN) has no kind: give it at most five")
            }
            Fault::Library(name) => write!(to, "what OCaml's library does ({name}) has no kind: use an external of the card"),
            Fault::Name(name) => write!(
                to,
                "{} is no name of a primitive: name the external by 1 to 8 capital letters, digits and _, a capital letter first",
                told(name)
            ),
            Fault::Limit(name, number, limit) => {
                write!(to, "{name} {number}: its argument is at most {limit} on the card: {}", within(name))
            }
            Fault::Unsigned(name, number) => {
                write!(to, "a comparison without sign ({name}) with {number}: compare with a number from 0 to 1073741823")
            }
            Fault::UnsignedUnknown(name) => {
                write!(to, "a comparison without sign ({name}) with no constant: use `<` and `>` of type int")
            }
            _ => self.last(to),
        }
    }

    fn last(&self, to: &mut fmt::Formatter) -> fmt::Result {
        match self {
            Fault::Loop => write!(
                to,
                "a loop whose ends are no constants jumps backwards: write its turns one after another, or use a `for` between \
                 constants and --unroll"
            ),
            Fault::NotUnrolled(from, end) => {
                write!(to, "the `for` from {from} to {end} jumps backwards: give --unroll, which writes its turns out")
            }
            Fault::LongLoop(from, end) => write!(
                to,
                "the `for` from {from} to {end} makes more than 1024 lines when it is written out: spread its turns over several ticks"
            ),
            Fault::Backwards(name) => write!(to, "{name} jumps backwards: give --lower and --unroll, which write a `for` out"),
            Fault::Outside(name) => write!(to, "{name} jumps out of the function: compile the source again"),
            Fault::Accumulator => write!(to, "the accumulator is read before it is set: compile the source again"),
            Fault::Odd(name) => write!(to, "{name} is no instruction of a function: compile the source again"),
            Fault::Many(what, count, most) => {
                write!(to, "{count} {what}, and a routine file has at most {most}: split the function in two")
            }
            Fault::LongFile(most) => {
                write!(to, "its routine file is longer than {most} bytes: split the function in two")
            }
            _ => Ok(()),
        }
    }
}

/// What an instruction that is lowered is in a source.
fn lowered(name: &str) -> &'static str {
    match name {
        "SWITCH" => "a match",
        "ULTINT" | "UGEINT" => "a comparison without sign",
        name if name.contains("ENVACC") => "a value from outside the function",
        _ => "a comparison with a constant",
    }
}

fn allocation(name: &str, debug: bool) -> String {
    let kept = if name == "OFFSETREF" { "`incr` or `decr` of what is kept" } else { "an allocation" };
    let what = format!("{kept} ({name}) has no kind: set the fields of a record that is an argument");
    match debug {
        true => format!(
            "{what}; of a `ref` only -g makes one: compile the unit without -g for the code, and give this file by --names"
        ),
        false => what,
    }
}

/// What to do about an argument past its limit.
fn within(name: &str) -> &'static str {
    match name {
        "GETFIELD" | "SETFIELD" => "use a record of at most 16 fields",
        _ => "use fewer variables at once",
    }
}
