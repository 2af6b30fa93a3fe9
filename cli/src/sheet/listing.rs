//! The code and the steps of the worst path or of a costliest way, in aligned columns.
use super::answers::{Bound, Figures};
use super::content::{Listing, Step};
use crate::routine_text::RoutineText;
use std::collections::HashMap;

/// Rows of words in aligned columns: those named at the right, the others at the left.
fn aligned(rows: &[Vec<&str>], right: &[usize]) -> Vec<String> {
    let columns = rows.iter().map(Vec::len).max().unwrap_or(0);
    let width = |column: usize| rows.iter().filter_map(|row| row.get(column)).map(|word| word.len()).max().unwrap_or(0);
    let widths: Vec<usize> = (0..columns).map(width).collect();
    let cell = |(column, word): (usize, &&str)| match right.contains(&column) {
        true => format!("{word:>0$}", widths[column]),
        false => format!("{word:<0$}", widths[column]),
    };
    let line = |row: &Vec<&str>| row.iter().enumerate().map(cell).collect::<Vec<_>>().join(" ").trim_end().to_string();
    rows.iter().map(line).collect()
}

/// A listing of which the first row has the names.
fn listing(rows: &[Vec<&str>], right: &[usize], is_worst: impl Fn(usize) -> bool) -> Listing {
    let mut lines = aligned(rows, right).into_iter();
    let names = lines.next().unwrap_or_default();
    let steps = lines.enumerate().map(|(index, text)| Step { text, is_worst: is_worst(index) });
    Listing { names, steps: steps.collect() }
}

/// The steps of the worst path, or of a costliest way through merged states, with what was spent, as the explanation printed them;
/// none of the bound by cases.
pub fn path(figures: &Figures) -> Option<Listing> {
    if figures.bound == Bound::Split {
        return None;
    }
    let rows: Vec<Vec<&str>> = figures.report[2..].iter().map(|line| line.split(' ').collect()).collect();
    Some(listing(&rows, &[0, 3, 4, 5], |_| true))
}

/// The code, with the cycles and the decision on each of these steps.
pub fn code(figures: &Figures, routine: &RoutineText) -> Listing {
    let mut spent: HashMap<&str, [&str; 2]> = HashMap::new();
    for line in figures.report.iter().skip(3) {
        if let [at, _, _, cycles, _, _, way] = line.split(' ').collect::<Vec<_>>()[..] {
            spent.insert(at, [cycles, if way == "-" { "" } else { way }]);
        }
    }
    let mut rows = vec![vec!["AT", "OP", "ARG"]];
    if figures.bound != Bound::Split {
        rows[0].extend(["CYCLES", "WAY"]);
    }
    for line in &routine.code {
        let mut row = vec![line.at, line.op, line.arg];
        row.extend(spent.get(line.at).into_iter().flatten());
        rows.push(row);
    }
    listing(&rows, &[0, 3], |index| spent.contains_key(routine.code[index].at))
}

#[cfg(test)]
mod tests {
    use super::super::answers::tests::{first, merged, DECIDED, EXPLAINED, MERGED, UNDECIDED};
    use super::*;

    const ROUTINE: &str =
        "BUDGET TICK\n1000 1000\nC_CALL1 BRANCHIF CONST2 ADDINT STOP\n10 5 2 7 1\n0 0 0 0 0\n0 0 0 0 0\nREAD\n40\n4\n\
        ACCU S0\n0 ?\n-\n-\nAT OP ARG\n0 C_CALL1 READ\n1 BRANCHIF 4\n2 CONST2 -\n3 ADDINT -\n4 STOP -\n";

    #[test]
    fn the_steps_of_the_worst_path() {
        let figures = Figures::of(&first(DECIDED, EXPLAINED)).unwrap().unwrap();
        let path = path(&figures).unwrap();
        assert_eq!(path.names, "AT OP       ARG  CYCLES WORDS DEPTH WAY");
        assert_eq!(path.steps[1].text, " 1 BRANCHIF 4        55     4     1 N");
        assert_eq!(path.steps.len(), 5);
    }

    #[test]
    fn the_steps_of_a_costliest_way() {
        let figures = Figures::of(&merged(UNDECIDED, MERGED)).unwrap().unwrap();
        let path = path(&figures).unwrap();
        assert_eq!(path.names, "AT OP       ARG   CYCLES WORDS DEPTH WAY");
        assert_eq!(path.steps[1].text, " 1 BRANCHIF 3     149970   151     6 T");
        assert_eq!(path.steps.len(), 3);
    }

    #[test]
    fn the_code_has_the_worst_path_marked() {
        let shorter = EXPLAINED.replace("2 CONST2 - 57 4 1 -\n", "");
        let figures = Figures::of(&first(DECIDED, &shorter)).unwrap().unwrap();
        let routine = RoutineText::read("f", ROUTINE.as_bytes()).unwrap();
        let code = code(&figures, &routine);
        assert_eq!(code.names, "AT OP       ARG  CYCLES WAY");
        let told: Vec<(bool, &str)> = code.steps.iter().map(|step| (step.is_worst, step.text.as_str())).collect();
        assert_eq!(told[1], (true, " 1 BRANCHIF 4        55 N"));
        assert_eq!(told[2], (false, " 2 CONST2   -"));
    }
}
