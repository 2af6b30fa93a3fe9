//! Files for the nearest number that moves the bound: tests of cells against numbers near to theirs, each with something else behind it.
use crate::random::Random;
use crate::tagged::{HIGHEST, LOWEST};

/// What lies behind a test.
#[derive(Clone, Copy, PartialEq)]
enum Behind {
    Dearer,
    Cheaper,
    OnlyWords,
    Stuck,
    Openings,
    Spent,
}

const BEHIND: [Behind; 6] =
    [Behind::Dearer, Behind::Cheaper, Behind::OnlyWords, Behind::Stuck, Behind::Openings, Behind::Spent];

/// Where the tested cell stands.
#[derive(Clone, Copy)]
enum Place {
    Accumulator,
    Entry(usize),
    Field(usize, usize),
}

/// A number for a cell: small, or near an end of the range.
fn number(random: &mut Random) -> i64 {
    match random.below(4) {
        0 => HIGHEST as i64 - random.below(70) as i64,
        1 => LOWEST as i64 + random.below(70) as i64,
        _ => random.below(201) as i64 - 100,
    }
}

/// How far from its number a cell is tested: mostly near, sometimes at 64 and just past it.
fn distance(random: &mut Random) -> i64 {
    match random.below(5) {
        0 => 63 + random.below(3) as i64,
        1 => random.within(10, 62) as i64,
        _ => random.within(1, 9) as i64,
    }
}

/// The code that is behind a test, at `at`; it ends in STOP.
fn behind(kind: Behind, at: usize) -> Vec<String> {
    let numbered = |lines: Vec<String>| lines.into_iter().enumerate().map(|(i, l)| format!("{} {l}", at + i)).collect();
    numbered(match kind {
        Behind::Dearer => vec!["C_CALL1 DEAR".to_string(), "STOP -".to_string()],
        // of the cycles that the way ahead of it has
        Behind::Cheaper => vec!["STOP -".to_string()],
        Behind::OnlyWords => vec!["C_CALL1 WORDY".to_string(), "STOP -".to_string()],
        Behind::Stuck => vec!["POP 64".to_string(), "STOP -".to_string()],
        Behind::Openings => {
            let mut lines = Vec::new();
            for i in 0..33 {
                lines.push("C_CALL1 FREE".to_string());
                lines.push(format!("BRANCHIF {}", at + 2 * i + 2));
            }
            lines.push("STOP -".to_string());
            lines
        }
        Behind::Spent => {
            let mut lines = vec!["CONST0 -".to_string(); 300];
            lines.push("STOP -".to_string());
            lines
        }
    })
}

/// A file of one to three tests.
pub fn file(random: &mut Random) -> Vec<u8> {
    let entries = random.within(2, 6);
    let mut cells: Vec<String> = (0..=entries).map(|_| number(random).to_string()).collect();
    let handle = random.within(1, entries);
    let blocks = random.within(1, 2);
    cells[handle] = format!("#{}", blocks - 1);
    if random.one_in(3) {
        let unknown = random.within(1, entries);
        if unknown != handle {
            cells[unknown] = "?".to_string();
        }
    }
    let sizes: Vec<usize> = (0..blocks).map(|_| random.within(1, 4)).collect();
    let mut fields: Vec<Vec<String>> =
        sizes.iter().map(|n| (0..*n).map(|_| number(random).to_string()).collect()).collect();
    if random.one_in(4) {
        fields[0][0] = "?".to_string();
    }
    let mut code: Vec<String> = Vec::new();
    let mut ends: Vec<(usize, Behind)> = Vec::new();
    for test in 0..random.within(1, 3) {
        let place = match random.below(3) {
            0 if test == 0 => Place::Accumulator,
            0 | 1 => Place::Entry(random.below(entries)),
            _ => Place::Field(blocks - 1, random.below(sizes[blocks - 1])),
        };
        let word = match place {
            Place::Accumulator => &cells[0],
            Place::Entry(n) => &cells[n + 1],
            Place::Field(b, n) => &fields[b][n],
        };
        let Ok(held) = word.parse::<i64>() else {
            continue;
        };
        match place {
            Place::Accumulator => {}
            Place::Entry(n) => code.push(format!("ACC {n}")),
            Place::Field(_, n) => {
                code.push(format!("ACC {}", handle - 1));
                code.push(format!("GETFIELD {n}"));
            }
        }
        let far = distance(random);
        let (against, comparison) = match random.below(4) {
            0 => (held + far, "EQ"),
            1 => (held - far, "EQ"),
            // above: the number tested against is at most the cell's once this has risen
            2 => (held + far, "LEINT"),
            _ => (held - far, "GEINT"),
        };
        let against = against.clamp(LOWEST as i64, HIGHEST as i64);
        code.push(format!("PUSHCONSTINT {against}"));
        code.push(format!("{comparison} -"));
        ends.push((code.len(), *random.pick(&BEHIND)));
        code.push("BRANCHIF".to_string());
    }
    code.push("C_CALL1 AHEAD".to_string());
    code.push("STOP -".to_string());
    for (at, kind) in ends {
        let target = code.len();
        code[at] = format!("BRANCHIF {target}");
        code.extend(behind(kind, target).into_iter().map(|l| l.split_once(' ').unwrap().1.to_string()));
    }
    let code: String = code.iter().enumerate().map(|(at, line)| format!("{at} {line}\n")).collect();
    let names: String = (0..entries).map(|i| format!(" S{i}")).collect();
    let field_names: Vec<String> = (0..blocks).flat_map(|b| (0..sizes[b]).map(move |n| format!("B{b}.{n}"))).collect();
    format!(
        "BUDGET TICK\n200 1000\n\
         ACC GETFIELD PUSHCONSTINT EQ LEINT GEINT BRANCHIF C_CALL1 STOP POP CONST0\n\
         1 1 1 1 1 1 1 1 1 1 1\n1 1 1 1 1 1 1 1 1 1 1\n0 0 0 0 0 0 0 0 0 0 0\n\
         AHEAD DEAR WORDY FREE\n5 9 5 0\n1 1 7 0\n\
         ACCU{names}\n{}\n{}\n{}\nAT OP ARG\n{code}",
        cells.join(" "),
        field_names.join(" "),
        fields.concat().join(" ")
    )
    .into_bytes()
}
