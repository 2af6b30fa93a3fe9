//! The instructions of OCaml 4.13 in the order of their numbers (caml/instruct.h).

/// The argument words of an instruction.
#[derive(Clone, Copy, PartialEq, Eq, Debug)]
pub enum Words {
    /// so many, none of them an offset
    Plain(usize),
    /// one, a number from 0 to the limit, in an instruction of the 61 kinds
    Upto(i32),
    /// one, a number of 31 bits, in an instruction of the 61 kinds
    Number,
    /// one, an offset from its own index
    Offset,
    /// a number, then an offset from its own index
    NumberOffset,
    /// one, the primitive called
    Primitive,
    /// how many values it keeps, and an offset from its own index
    Closure,
    /// how many functions, how many values, and an offset for each function, from the index of the first of them
    Closures,
    /// how many cases, and an offset for each, from the index of the first of them
    Cases,
}

use Words::*;

/// The numbers of the card.
pub const NUMBERS: std::ops::RangeInclusive<i32> = -1_073_741_824..=1_073_741_823;

#[rustfmt::skip]
pub const OPCODES: [(&str, Words); 149] = [
    ("ACC0", Plain(0)), ("ACC1", Plain(0)), ("ACC2", Plain(0)), ("ACC3", Plain(0)),
    ("ACC4", Plain(0)), ("ACC5", Plain(0)), ("ACC6", Plain(0)), ("ACC7", Plain(0)),
    ("ACC", Upto(63)), ("PUSH", Plain(0)),
    ("PUSHACC0", Plain(0)), ("PUSHACC1", Plain(0)), ("PUSHACC2", Plain(0)), ("PUSHACC3", Plain(0)),
    ("PUSHACC4", Plain(0)), ("PUSHACC5", Plain(0)), ("PUSHACC6", Plain(0)), ("PUSHACC7", Plain(0)),
    ("PUSHACC", Upto(63)), ("POP", Upto(64)), ("ASSIGN", Upto(63)),
    ("ENVACC1", Plain(0)), ("ENVACC2", Plain(0)), ("ENVACC3", Plain(0)), ("ENVACC4", Plain(0)), ("ENVACC", Plain(1)),
    ("PUSHENVACC1", Plain(0)), ("PUSHENVACC2", Plain(0)), ("PUSHENVACC3", Plain(0)), ("PUSHENVACC4", Plain(0)),
    ("PUSHENVACC", Plain(1)),
    ("PUSH_RETADDR", Offset), ("APPLY", Plain(1)), ("APPLY1", Plain(0)), ("APPLY2", Plain(0)), ("APPLY3", Plain(0)),
    ("APPTERM", Plain(2)), ("APPTERM1", Plain(1)), ("APPTERM2", Plain(1)), ("APPTERM3", Plain(1)),
    ("RETURN", Plain(1)), ("RESTART", Plain(0)), ("GRAB", Plain(1)),
    ("CLOSURE", Closure), ("CLOSUREREC", Closures),
    ("OFFSETCLOSUREM3", Plain(0)), ("OFFSETCLOSURE0", Plain(0)), ("OFFSETCLOSURE3", Plain(0)),
    ("OFFSETCLOSURE", Plain(1)),
    ("PUSHOFFSETCLOSUREM3", Plain(0)), ("PUSHOFFSETCLOSURE0", Plain(0)), ("PUSHOFFSETCLOSURE3", Plain(0)),
    ("PUSHOFFSETCLOSURE", Plain(1)),
    ("GETGLOBAL", Plain(1)), ("PUSHGETGLOBAL", Plain(1)), ("GETGLOBALFIELD", Plain(2)),
    ("PUSHGETGLOBALFIELD", Plain(2)), ("SETGLOBAL", Plain(1)),
    ("ATOM0", Plain(0)), ("ATOM", Plain(1)), ("PUSHATOM0", Plain(0)), ("PUSHATOM", Plain(1)),
    ("MAKEBLOCK", Plain(2)), ("MAKEBLOCK1", Plain(1)), ("MAKEBLOCK2", Plain(1)), ("MAKEBLOCK3", Plain(1)),
    ("MAKEFLOATBLOCK", Plain(1)),
    ("GETFIELD0", Plain(0)), ("GETFIELD1", Plain(0)), ("GETFIELD2", Plain(0)), ("GETFIELD3", Plain(0)),
    ("GETFIELD", Upto(15)), ("GETFLOATFIELD", Plain(1)),
    ("SETFIELD0", Plain(0)), ("SETFIELD1", Plain(0)), ("SETFIELD2", Plain(0)), ("SETFIELD3", Plain(0)),
    ("SETFIELD", Upto(15)), ("SETFLOATFIELD", Plain(1)),
    ("VECTLENGTH", Plain(0)), ("GETVECTITEM", Plain(0)), ("SETVECTITEM", Plain(0)),
    ("GETBYTESCHAR", Plain(0)), ("SETBYTESCHAR", Plain(0)),
    ("BRANCH", Offset), ("BRANCHIF", Offset), ("BRANCHIFNOT", Offset), ("SWITCH", Cases), ("BOOLNOT", Plain(0)),
    ("PUSHTRAP", Offset), ("POPTRAP", Plain(0)), ("RAISE", Plain(0)),
    ("CHECK_SIGNALS", Plain(0)),
    ("C_CALL1", Primitive), ("C_CALL2", Primitive), ("C_CALL3", Primitive), ("C_CALL4", Primitive),
    ("C_CALL5", Primitive), ("C_CALLN", Plain(2)),
    ("CONST0", Plain(0)), ("CONST1", Plain(0)), ("CONST2", Plain(0)), ("CONST3", Plain(0)), ("CONSTINT", Number),
    ("PUSHCONST0", Plain(0)), ("PUSHCONST1", Plain(0)), ("PUSHCONST2", Plain(0)), ("PUSHCONST3", Plain(0)),
    ("PUSHCONSTINT", Number),
    ("NEGINT", Plain(0)), ("ADDINT", Plain(0)), ("SUBINT", Plain(0)), ("MULINT", Plain(0)), ("DIVINT", Plain(0)),
    ("MODINT", Plain(0)),
    ("ANDINT", Plain(0)), ("ORINT", Plain(0)), ("XORINT", Plain(0)), ("LSLINT", Plain(0)), ("LSRINT", Plain(0)),
    ("ASRINT", Plain(0)),
    ("EQ", Plain(0)), ("NEQ", Plain(0)), ("LTINT", Plain(0)), ("LEINT", Plain(0)), ("GTINT", Plain(0)),
    ("GEINT", Plain(0)),
    ("OFFSETINT", Number), ("OFFSETREF", Plain(1)), ("ISINT", Plain(0)),
    ("GETMETHOD", Plain(0)),
    ("BEQ", NumberOffset), ("BNEQ", NumberOffset), ("BLTINT", NumberOffset), ("BLEINT", NumberOffset),
    ("BGTINT", NumberOffset), ("BGEINT", NumberOffset),
    ("ULTINT", Plain(0)), ("UGEINT", Plain(0)),
    ("BULTINT", NumberOffset), ("BUGEINT", NumberOffset),
    ("GETPUBMET", Plain(2)), ("GETDYNMET", Plain(0)),
    ("STOP", Plain(0)),
    ("EVENT", Plain(0)), ("BREAK", Plain(0)),
    ("RERAISE", Plain(0)), ("RAISE_NOTRACE", Plain(0)),
    ("GETSTRINGCHAR", Plain(0)),
];

/// The number of an instruction.
pub fn opcode(name: &str) -> usize {
    OPCODES.iter().position(|opcode| opcode.0 == name).expect("a name of the table")
}

/// An instruction without the PUSH before it, and whether it has one.
pub fn without_push(name: &'static str) -> (bool, &'static str) {
    match name.strip_prefix("PUSH") {
        Some(rest) if !["", "_RETADDR", "TRAP"].contains(&rest) => (true, rest),
        _ => (false, name),
    }
}

/// A name whose end is a number of one digit, or M3, without it, and that number. CONST3 is CONST and 3.
pub fn without_number(name: &'static str) -> (&'static str, Option<i32>) {
    if let Some(base) = name.strip_suffix("M3") {
        return (base, Some(-3));
    }
    let base = name.trim_end_matches(|digit: char| digit.is_ascii_digit());
    (base, name[base.len()..].parse().ok())
}
