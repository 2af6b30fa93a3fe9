//! Faults put into a routine file.
use crate::draft::{Arg, Draft};
use crate::random::Random;
use crate::routine::{line as at, Argument, KINDS, TEXT_LIMIT};
use crate::tagged::{HIGHEST, LOWEST};

#[rustfmt::skip]
const WORDS: &[&str] = &[
    "-", "?", "#", "#0", "#7", "#8", "#-1", "#01", "#?", "#-0", "-0", "00", "01", "+1", "0", "1", "-1", "63", "64",
    "65", "15", "16", "255", "256", "65535", "65536", "60000", "60001", "62000", "62001", "1000000", "1000001",
    "4000000000", "4000000001", "1073741823", "1073741824", "-1073741824", "-1073741825", "2147483647", "2147483648",
    "-2147483648", "-2147483649", "3221225472", "9223372036854775807",
    "9223372036854775808", "18446744073709551616", "18446744073709551617", "123456789012345678901234567890",
    "#123456789012345678901234567890", "BUDGET", "TICK", "ACCU", "S0", "S1", "S00", "S31", "S32", "B0.0", "B0.00",
    "B0.1", "B0.15", "B0.16", "B1.0", "B7.0", "B8.0", "AT", "OP", "ARG", "ANSWER", "STOP", "BRANCH", "BRANCHIF",
    "ACC", "ACC0", "ACC8", "C_CALL1", "C_CALL6", "CONST4", "MAKEBLOCK", "READ", "A", "A_1", "_A", "1A", "a",
    "LONGNAME", "LONGNAMES", "stop", "", "é", "0..1", "-3..7", "5..5", "0..1008", "1..0",
];

/// Words that are nearly ranges.
#[rustfmt::skip]
const NO_RANGES: &[&str] = &[
    "1...2", "1.2", "1..", "..2", "..", "...", "1..2..3", "1..2..", "..1..2", "?..2", "1..?", "?..?", "#0..#1", "#0..1", "1..#2", "01..2",
    "1..02", "-0..2", "1..-0", "+1..2", "1..+2", "1.. 2", "1 ..2", "1,2", "1-2", "1..2,", "a..b", "1..x", "--1..2", "0x1..2",
];

type Lines = Vec<Vec<String>>;

fn lines(text: &str) -> Lines {
    text.lines().map(|l| l.split(' ').map(str::to_string).collect()).collect()
}

fn text(lines: &Lines) -> Vec<u8> {
    lines.iter().flat_map(|l| (l.join(" ") + "\n").into_bytes()).collect()
}

/// A line, those before the code as often as all.
fn line(random: &mut Random, lines: &Lines) -> usize {
    if random.one_in(2) {
        random.below(lines.len().min(at::CODE - 1))
    } else {
        random.below(lines.len())
    }
}

/// One fault among the words.
fn among_words(random: &mut Random, lines: &mut Lines) {
    if lines.is_empty() {
        return;
    }
    let n = line(random, lines);
    let w = random.below(lines[n].len());
    match random.below(12) {
        0 => {
            lines.remove(n);
        }
        1 => lines.insert(n, lines[n].clone()),
        2 => {
            let other = line(random, lines);
            lines.swap(n, other);
        }
        3 => {
            lines[n].remove(w);
            if lines[n].is_empty() {
                lines[n].push(String::new());
            }
        }
        4 => {
            let word = lines[n][w].clone();
            lines[n].insert(w, word);
        }
        5 => {
            let word = random.pick(WORDS).to_string();
            lines[n].insert(w, word);
        }
        6 => {
            let keep = random.below(lines.len() + 1);
            lines.truncate(keep);
        }
        7 => lines[n] = vec![random.pick(WORDS).to_string()],
        8 => {
            // a number beside the one that stands there
            if let Ok(v) = lines[n][w].parse::<i64>() {
                lines[n][w] = (v + *random.pick(&[-1, 1, 2, 1000, 65_536, 1 << 32])).to_string();
            }
        }
        _ => lines[n][w] = random.pick(WORDS).to_string(),
    }
}

/// One fault of the line of extras: it is missing, as in a file of the former format, it is another line of values, it has a word more
/// or fewer, or it is empty.
fn among_extras(random: &mut Random, lines: &mut Lines) {
    let n = at::KIND_EXTRAS - 1;
    if lines.len() <= n {
        return;
    }
    match random.below(6) {
        0 | 1 => {
            lines.remove(n);
        }
        2 => {
            let other = *random.pick(&[at::KIND_CYCLES, at::KIND_WORDS]) - 1;
            lines[n] = lines[other].clone();
        }
        3 => lines[n].push(random.pick(&["0", "1", "-"]).to_string()),
        4 if lines[n].len() > 1 => {
            lines[n].pop();
        }
        _ => lines[n] = vec!["-".to_string()],
    }
}

/// One fault among the bytes.
fn among_bytes(random: &mut Random, text: &mut Vec<u8>) {
    if text.is_empty() {
        return;
    }
    let most = if random.one_in(2) { text.len().min(200) } else { text.len() };
    let i = random.below(most);
    let strange = *random.pick(b"\n\n  -?#09AZ_az.\r\t\0\x7f\x80\xff");
    match random.below(6) {
        0 => text[i] ^= 1 << random.below(8),
        1 => text[i] = strange,
        2 => text.insert(i, strange),
        3 => {
            text.remove(i);
        }
        4 => text.truncate(i),
        _ => match random.below(4) {
            0 => {
                text.pop();
            }
            1 => text.push(b'\n'),
            _ => text.push(strange),
        },
    }
}

/// A fault of one row, put where its row has to find it.
fn among_parts(random: &mut Random, draft: &mut Draft) {
    let lines = draft.code.len();
    let code = random.below(lines);
    match random.below(26) {
        0 if draft.kinds.len() > 1 => {
            // 5
            let n = random.below(draft.kinds.len());
            draft.kinds.remove(n);
        }
        1 => draft.kinds.clear(),
        2 | 3 => {
            // 6, or 3 where the code stands high
            let beyond = *random.pick(&[3, 3, 3, 70_000]);
            let n = lines + random.below(beyond);
            draft.code[code] = (*random.pick(&["BRANCH", "BRANCHIF", "BRANCHIFNOT"]), Arg::Line(n));
        }
        19..=22 | 24 | 25 => {
            // 13, and sometimes 6 on a later line
            let n = if random.one_in(2) { code } else { random.below(code + 1) };
            let name =
                *random.pick(&["BRANCH", "BRANCH", "BRANCH", "BRANCHIFNOT", "BRANCHIFNOT", "BRANCHIFNOT", "BRANCHIF"]);
            draft.code[code] = (name, Arg::Line(n));
            draft.price(name);
            if code + 1 < lines && random.one_in(2) {
                let other = random.within(code + 1, lines - 1);
                draft.code[other] = (name, Arg::Line(lines + random.below(3)));
            }
        }
        4 => draft.budget = *random.pick(&[0, 1_000_001]),
        5 => draft.tick = *random.pick(&[0, 4_000_000_001]),
        6 if !draft.kinds.is_empty() => {
            // 4
            let repeated = random.pick(&draft.kinds).clone();
            let n = random.below(draft.kinds.len() + 1);
            draft.kinds.insert(n, repeated);
        }
        7 => {
            let name = random.pick(WORDS).to_string();
            let n = random.below(draft.primitives.len() + 1);
            draft.primitives.insert(n, (name, [1, 1]));
        }
        8 => {
            // 2
            let more = random.within(31, 34);
            draft.primitives = (0..more).map(|i| (format!("Z{i}"), [i, i])).collect();
        }
        9 => draft.answers = vec![7; random.within(63, 66)],
        10 => {
            let more = random.within(1023, 1026);
            draft.code.resize(more, ("STOP", Arg::Nothing));
        }
        11 => {
            let more = random.within(32, 35);
            draft.cells.resize(more, "0".to_string());
        }
        12 if !draft.kinds.is_empty() => {
            // 3
            let n = random.below(draft.kinds.len());
            draft.kinds[n].1[0] += *random.pick(&[0, 65_536]);
            draft.kinds[n].1[1] += *random.pick(&[0, 256]);
        }
        17 if !draft.kinds.is_empty() => {
            // an extra of any kind, of BRANCH and of a name that is no kind
            let n = random.below(draft.kinds.len());
            let name = random.pick(&[&draft.kinds[n].0, "BRANCH", "BRANCHIFS"]).to_string();
            draft.kinds[n] = (name, [1, 1, *random.pick(&[1, 7, 65_535])]);
        }
        18 => {
            // an extra at an end of its range, or just beyond
            let name = *random.pick(&["BRANCHIF", "BRANCHIFNOT"]);
            draft.price(name);
            let kind = draft.kinds.iter_mut().find(|k| k.0 == name).unwrap();
            kind.1[2] = *random.pick(&[0, 65_535, 65_536]);
        }
        13 => {
            let n = random.below(draft.cells.len());
            draft.cells[n] = random.pick(&["2147483648", "-2147483649", "#8", "#-1", "4294967296"]).to_string();
        }
        15 | 16 => {
            // an argument at an end of its range, or just beyond
            let ranged: Vec<_> = KINDS.iter().filter(|k| matches!(k.1, Argument::Number(..))).collect();
            let (name, argument) = **random.pick(&ranged);
            if let Argument::Number(low, high) = argument {
                draft.code[code] = (name, Arg::Number(*random.pick(&[low - 1, low, high, high + 1])));
                draft.price(name);
            }
        }
        14 => draft.first = *random.pick(&[60_001, 61_990, 62_000, 62_001]),
        _ => {
            let size = random.within(15, 18);
            let count = random.within(7, 10);
            draft.blocks.resize(count, vec!["1".to_string()]);
            let block = random.below(count);
            draft.blocks[block].resize(size, "1".to_string());
            let n = random.below(draft.cells.len());
            draft.cells[n] = format!("#{}", random.below(11));
        }
    }
}

/// A number at an end of the range, or just beyond: a cell, a field, an argument or an answer.
fn among_numbers(random: &mut Random, draft: &mut Draft) {
    let (low, high) = (LOWEST as i64, HIGHEST as i64);
    let number = *random.pick(&[low - 1, low - 1, low, high, high + 1, high + 1]);
    match random.below(6) {
        0 => {
            if draft.blocks.is_empty() {
                draft.blocks.push(vec!["0".to_string()]);
            }
            let block = random.below(draft.blocks.len());
            let field = random.below(draft.blocks[block].len());
            draft.blocks[block][field] = number.to_string();
        }
        2 => {
            let name = *random.pick(&["CONSTINT", "PUSHCONSTINT", "OFFSETINT"]);
            let n = random.below(draft.code.len());
            draft.code[n] = (name, Arg::Number(number));
            draft.price(name);
        }
        3 | 4 => {
            let n = random.below(draft.answers.len() + 1);
            draft.answers.insert(n, number as i32);
        }
        _ => {
            let n = random.below(draft.cells.len());
            draft.cells[n] = number.to_string();
        }
    }
}

/// A range that falls, that reaches beyond the range of numbers or just up to its end, or that is misspelt: in a cell or in a field.
fn among_ranges(random: &mut Random, draft: &mut Draft) {
    let [low, high] = random.range();
    let number = random.number();
    let word = match random.below(10) {
        0 | 1 => format!("{high}..{low}"),
        2 | 3 => format!("{}..{number}", LOWEST as i64 - 1),
        4 | 5 => format!("{number}..{}", HIGHEST as i64 + 1),
        6 => random.pick(&["-1073741824..1073741823", "0..123456789012345678901234567890", "9..-9"]).to_string(),
        _ => random.pick(NO_RANGES).to_string(),
    };
    if random.one_in(2) {
        if draft.blocks.is_empty() {
            draft.blocks.push(vec!["0".to_string()]);
        }
        let block = random.below(draft.blocks.len());
        let field = random.below(draft.blocks[block].len());
        draft.blocks[block][field] = word;
    } else {
        let n = random.below(draft.cells.len());
        draft.cells[n] = word;
    }
}

/// A range of one number in the place of a number that is no cell.
fn where_no_cell_is(random: &mut Random, lines: &mut Lines) {
    let mut numbers = Vec::new();
    for (n, line) in lines.iter().enumerate().filter(|(n, _)| ![at::CELLS - 1, at::FIELDS - 1].contains(n)) {
        numbers.extend((0..line.len()).filter(|w| line[*w].parse::<i64>().is_ok()).map(|w| (n, w)));
    }
    if !numbers.is_empty() {
        let (n, w) = *random.pick(&numbers);
        lines[n][w] = format!("{0}..{0}", lines[n][w]);
    }
}

/// A text of nearly the most bytes, or a few more, by numbers of code that take more bytes or fewer.
fn near_limit(random: &mut Random, draft: &mut Draft) -> Vec<u8> {
    let wanted = TEXT_LIMIT + random.below(5) - 2;
    draft.first = 60_000;
    draft.code = vec![("CONSTINT", Arg::Number(LOWEST as i64)); 1023];
    draft.code.push(("STOP", Arg::Nothing));
    for name in ["CONSTINT", "PUSHCONSTINT", "STOP"] {
        draft.price(name);
    }
    draft.answers = vec![LOWEST; 64];
    draft.budget = 1023 + random.below(4) as u64;
    let stack = draft.cells.len() - 1;
    let mut over = draft.text().len() as i64 - wanted as i64;
    for (i, line) in draft.code.iter_mut().take(1023).enumerate() {
        if over < 0 && stack + i < 64 {
            line.0 = "PUSHCONSTINT";
            over += 4;
        } else if over > 0 {
            let fewer = over.min(10) as u32;
            line.1 = Arg::Number(if fewer == 10 { 1 } else { -(10_i64.pow(9 - fewer.min(9))) });
            over -= fewer as i64;
        }
    }
    draft.text().into_bytes()
}

/// The text of a draft with one to three faults, some of which may do no harm.
pub fn damaged(random: &mut Random, draft: &mut Draft) -> Vec<u8> {
    if random.one_in(60) {
        return near_limit(random, draft);
    }
    let faults = if random.one_in(2) { 1 } else { random.within(2, 3) };
    let kinds: Vec<usize> = (0..faults).map(|_| random.below(15)).collect();
    for _ in kinds.iter().filter(|k| **k < 5) {
        among_parts(random, draft);
    }
    for _ in kinds.iter().filter(|k| (5..7).contains(*k)) {
        among_numbers(random, draft);
    }
    for _ in kinds.iter().filter(|k| (7..9).contains(*k)) {
        among_ranges(random, draft);
    }
    let mut words = lines(&draft.text());
    for _ in kinds.iter().filter(|k| (9..12).contains(*k)) {
        among_words(random, &mut words);
    }
    if kinds.contains(&12) {
        among_extras(random, &mut words);
    }
    if kinds.contains(&13) && random.one_in(2) {
        where_no_cell_is(random, &mut words);
    }
    let mut bytes = text(&words);
    if kinds.contains(&14) {
        among_bytes(random, &mut bytes);
    }
    if random.one_in(60) {
        let length = TEXT_LIMIT + random.below(4);
        bytes.resize(length.max(bytes.len()), *random.pick(b"\n 0A"));
    }
    bytes
}
