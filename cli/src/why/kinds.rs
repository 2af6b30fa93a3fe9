//! The 61 kinds of instructions: their names, opcodes and arguments.

#[derive(Clone, Copy, Debug, PartialEq)]
pub enum Argument {
    Missing,
    /// A number of a range.
    Number(i64, i64),
    Address,
    Primitive,
}

/// The ends of the numbers of 31 bits.
pub const LOWEST: i64 = -1073741824;
pub const HIGHEST: i64 = 1073741823;

const ENTRY: Argument = Argument::Number(0, 63);
const FIELD: Argument = Argument::Number(0, 15);
const ANY: Argument = Argument::Number(LOWEST, HIGHEST);

/// Kinds with opcodes in a row: the first opcode, and the names.
const ROWS: [(u32, &[&str]); 17] = [
    (0, &["ACC0", "ACC1", "ACC2", "ACC3", "ACC4", "ACC5", "ACC6", "ACC7", "ACC", "PUSH"]),
    (10, &["PUSHACC0", "PUSHACC1", "PUSHACC2", "PUSHACC3", "PUSHACC4", "PUSHACC5", "PUSHACC6", "PUSHACC7", "PUSHACC"]),
    (19, &["POP", "ASSIGN"]),
    (67, &["GETFIELD0", "GETFIELD1", "GETFIELD2", "GETFIELD3", "GETFIELD"]),
    (73, &["SETFIELD0", "SETFIELD1", "SETFIELD2", "SETFIELD3", "SETFIELD"]),
    (84, &["BRANCH", "BRANCHIF", "BRANCHIFNOT"]),
    (88, &["BOOLNOT"]),
    (93, &["C_CALL1", "C_CALL2", "C_CALL3", "C_CALL4", "C_CALL5"]),
    (99, &["CONST0", "CONST1", "CONST2", "CONST3", "CONSTINT"]),
    (104, &["PUSHCONST0", "PUSHCONST1", "PUSHCONST2", "PUSHCONST3", "PUSHCONSTINT"]),
    (109, &["NEGINT"]),
    (110, &["ADDINT"]),
    (111, &["SUBINT"]),
    (121, &["EQ", "NEQ", "LTINT"]),
    (124, &["LEINT", "GTINT", "GEINT"]),
    (127, &["OFFSETINT"]),
    (143, &["STOP"]),
];

/// The kind of an opcode.
pub fn of_opcode(opcode: u32) -> Option<&'static str> {
    ROWS.iter().find_map(|(first, names)| names.get(opcode.checked_sub(*first)? as usize).copied())
}

/// What the argument of a kind is; nothing where it is no kind.
pub fn argument(name: &[u8]) -> Option<Argument> {
    let name = ROWS.iter().flat_map(|(_, names)| *names).find(|known| known.as_bytes() == name)?;
    Some(match *name {
        "ACC" | "PUSHACC" | "ASSIGN" => ENTRY,
        "POP" => Argument::Number(0, 64),
        "GETFIELD" | "SETFIELD" => FIELD,
        "CONSTINT" | "PUSHCONSTINT" | "OFFSETINT" => ANY,
        "BRANCH" | "BRANCHIF" | "BRANCHIFNOT" => Argument::Address,
        name if name.starts_with("C_CALL") => Argument::Primitive,
        _ => Argument::Missing,
    })
}

#[cfg(test)]
mod tests {
    use super::*;

    #[test]
    fn there_are_61_kinds_each_with_an_opcode_of_its_own() {
        let names: std::collections::BTreeSet<_> = (0..200).filter_map(of_opcode).collect();
        assert_eq!(names.len(), 61);
        assert_eq!((of_opcode(143), of_opcode(72), of_opcode(84)), (Some("STOP"), None, Some("BRANCH")));
        assert!(names.iter().all(|name| argument(name.as_bytes()).is_some()));
    }

    #[test]
    fn kinds_have_their_arguments() {
        assert_eq!(argument(b"ACC3"), Some(Argument::Missing));
        assert_eq!(argument(b"C_CALL5"), Some(Argument::Primitive));
        assert_eq!(argument(b"MULINT"), None);
    }
}
