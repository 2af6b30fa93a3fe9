//! Routine files from a seed: spelt right, and mostly with code that does not get stuck.
use crate::bound::{explored, Event};
use crate::draft::{Arg, Draft};
use crate::random::Random;
use crate::routine::{jumps_at_a_cost, read, Refusal, KINDS};
use crate::writer::{Shape, Shapes, Writer};

fn price(random: &mut Random, most: usize, style: usize) -> usize {
    match style {
        0 => random.below(2),
        1 => random.below(most + 1),
        2 => most,
        _ => random.below(20),
    }
}

/// The extra of a kind, mostly of the size of the prices.
fn extra(random: &mut Random, kind: &str, style: usize) -> usize {
    if !jumps_at_a_cost(kind.as_bytes()) {
        return 0;
    }
    match random.below(8) {
        0 => 0,
        1 => 65_535 - random.below(2),
        2 => random.below(65_536),
        3 | 4 => random.below(4),
        _ => price(random, 65_535, style),
    }
}

/// How often a cell that is no handle is unknown or a range, in tenths, and whether ranges are among them.
#[derive(Clone, Copy)]
struct Cells {
    open: usize,
    ranges: bool,
}

/// A range as it is spelt.
fn range(random: &mut Random) -> String {
    let [low, high] = random.range();
    format!("{low}..{high}")
}

fn cell(random: &mut Random, blocks: usize, cells: Cells) -> String {
    if blocks > 0 && random.one_in(3) {
        format!("#{}", random.below(blocks))
    } else if random.below(10) < cells.open {
        if cells.ranges && !random.one_in(4) {
            range(random)
        } else {
            "?".to_string()
        }
    } else {
        let n = random.number();
        if cells.ranges && random.one_in(6) {
            format!("{n}..{n}")
        } else {
            n.to_string()
        }
    }
}

/// The ends of a range of more than one number.
fn wider(cell: &str) -> Option<[i32; 2]> {
    let (low, high) = cell.split_once("..")?;
    Some([low.parse().unwrap(), high.parse().unwrap()]).filter(|[low, high]| low < high)
}

fn shape(cell: &str) -> Shape {
    cell.strip_prefix('#').map_or(Shape::Number, |k| Shape::Handle(k.parse().unwrap()))
}

/// A routine file that passes refusals 1 to 6, and mostly 13.
pub fn draft(random: &mut Random) -> Draft {
    // a file in three goes by its ranges
    let by_ranges = random.one_in(3);
    let cells = match by_ranges {
        true => Cells { open: 7, ranges: true },
        false => Cells { open: *random.pick(&[0, 0, 3, 5, 8]), ranges: random.one_in(3) },
    };
    let block_count = if random.one_in(2) { 0 } else { random.within(1, 8) };
    let cell_count = match random.below(8) {
        0 => 33,
        1 => 1,
        _ => random.within(1, 8),
    };
    // now and then in fields alone
    let of_stack = if by_ranges && random.one_in(4) { Cells { open: 0, ..cells } } else { cells };
    let held: Vec<String> = (0..cell_count).map(|_| cell(random, block_count, of_stack)).collect();
    let mut blocks = Vec::new();
    for _ in 0..block_count {
        let size = if random.one_in(4) { 16 } else { random.within(1, 5) };
        blocks.push((0..size).map(|_| cell(random, block_count, cells)).collect::<Vec<_>>());
    }
    let style = random.below(4);
    let primitive_count = match random.below(8) {
        0 => 0,
        1 => 32,
        _ => random.within(1, 4),
    };
    let primitives = (0..primitive_count)
        .map(|i| {
            let name = match random.below(5) {
                0 => format!("P_{i}"),
                1 => format!("LONG{i:04}"),
                2 if i < 3 => ["READ", "STOP", "A"][i].to_string(),
                _ => format!("Q{i}"),
            };
            (name, [price(random, 65_535, style), price(random, 255, style)])
        })
        .collect();

    let mut stack: Vec<Shape> = held[1..].iter().map(|c| shape(c)).collect();
    stack.reverse();
    let ranges = (1..held.len()).filter_map(|n| Some((held.len() - 1 - n, wider(&held[n])?))).collect();
    let shapes = Shapes {
        accumulator: shape(&held[0]),
        stack,
        blocks: blocks.iter().map(|b| b.iter().map(|c| shape(c)).collect()).collect(),
    };
    let longest = if random.one_in(100) { 980 } else { 60 };
    let loops = random.one_in(12);
    let mut writer = Writer {
        random,
        code: Vec::new(),
        shapes,
        base: 0,
        in_loop: false,
        loops,
        counters: Vec::new(),
        ranges,
        primitives: primitive_count,
        exits: Vec::new(),
        trees: 0,
        longest,
    };
    let rounds = if longest > 60 { 150 } else { writer.random.within(1, 4) };
    let wild = if writer.random.one_in(4) { writer.random.within(1, 2) } else { 0 };
    let meetings = writer.random.one_in(2);
    for _ in 0..rounds {
        if by_ranges {
            writer.by_ranges();
        } else if meetings && writer.random.one_in(2) {
            writer.meeting();
        }
        writer.statements(0);
        if wild > 0 && writer.random.one_in(2) {
            writer.wild();
        }
    }
    if writer.random.one_in(15) {
        // to the full stack, and sometimes one more
        let to = writer.random.within(62, 65);
        while writer.shapes.stack.len() < to {
            let name = *writer.random.pick(&["PUSH", "PUSHACC0", "PUSHCONST1"]);
            writer.emit(name, Arg::Nothing);
            writer.shapes.stack.push(Shape::Either);
        }
    }
    if writer.random.one_in(if by_ranges { 2 } else { 12 }) {
        // a chain of branches to STOP, near the most openings
        let unknowns = if by_ranges { writer.random.within(33, 38) } else { writer.random.within(28, 34) };
        if by_ranges {
            writer.range_without_zero();
        } else {
            writer.condition();
        }
        for _ in 0..unknowns {
            let name = *writer.random.pick(&["BRANCHIF", "BRANCHIFNOT"]);
            writer.emit(name, Arg::Line(0));
            let exit = writer.code.len() - 1;
            writer.exits.push(exit);
        }
    }
    if !writer.random.one_in(14) || writer.code.is_empty() || !writer.exits.is_empty() {
        writer.emit("STOP", Arg::Nothing);
    }
    for exit in std::mem::take(&mut writer.exits) {
        let last = writer.code.len() - 1;
        writer.code[exit].1 = Arg::Line(last);
    }
    let mut code = writer.code;
    code.truncate(1024);
    let lines = code.len();
    for (_, arg) in &mut code {
        if let Arg::Line(n) = arg {
            *n = (*n).min(lines - 1);
        }
    }

    let first = match random.below(4) {
        0 => random.below(60_001),
        1 => *random.pick(&[1, 9, 99, 59_999, 60_000]),
        _ => 0,
    };
    let all = random.one_in(4);
    let mut kinds: Vec<(String, [usize; 3])> = KINDS
        .iter()
        .filter(|k| all || code.iter().any(|c| c.0 == k.0) || random.one_in(10))
        .map(|k| k.0.to_string())
        .collect::<Vec<_>>()
        .into_iter()
        .map(|name| {
            let prices = [price(random, 65_535, style), price(random, 255, style), extra(random, &name, style)];
            (name, prices)
        })
        .collect();
    for i in (1..kinds.len()).rev() {
        kinds.swap(i, random.below(i + 1));
    }
    let answers = match random.below(4) {
        0 => 0,
        1 => 64,
        _ => random.within(1, 6),
    };
    let answers = (0..answers).map(|_| random.number()).collect();
    let tick = match random.below(6) {
        0 => 1,
        // a half where the cycles are odd
        3 | 4 => *random.pick(&[16, 400, 2000]),
        1 => 4_000_000_000,
        2 => random.within(1, 5000) as u64,
        _ => 1 + random.next() % 4_000_000_000,
    };
    let mut draft = Draft { budget: 1, tick, kinds, primitives, cells: held, blocks, first, code, answers };
    if random.one_in(3) {
        tie(random, &mut draft);
    }
    limits(random, &mut draft);
    if by_ranges && random.one_in(2) {
        // steps enough with `?` for each range
        draft.budget = 3000;
    }
    draft
}

/// Puts the extra of a kind to what the other way of one of its branches costs more, if there is such a branch.
fn tie(random: &mut Random, draft: &mut Draft) {
    let Ok(mut routine) = read(draft.text().as_bytes(), false) else {
        return;
    };
    routine.budget = 3000;
    let mut ties = Vec::new();
    let _ = explored(&routine, routine.start.clone(), |event| match event {
        Event::Opened { at, not_taken, taken, .. } if (taken + 1..=taken + 65_535).contains(&not_taken) => {
            ties.push((at, not_taken - taken));
        }
        _ => {}
    });
    if !ties.is_empty() {
        let (at, more) = *random.pick(&ties);
        let kind = draft.code[at as usize - draft.first].0;
        draft.kinds.iter_mut().find(|k| k.0 == kind).unwrap().1[2] = more as usize;
    }
}

/// Puts BUDGET to what fits the steps that are looked at, and TICK sometimes to what fits the cycles.
fn limits(random: &mut Random, draft: &mut Draft) {
    let most = if random.one_in(500) { 100_000 } else { 3000 };
    draft.budget = most;
    let Ok(mut routine) = read(draft.text().as_bytes(), false) else {
        return;
    };
    routine.budget = most;
    let (answer, steps) = explored(&routine, routine.start.clone(), |_| ());
    draft.budget = match answer {
        Err(Refusal { number: 9, .. }) => 1 + random.below(most as usize) as u64,
        _ => budget(random, steps),
    };
    if let (Ok(figures), true) = (answer, random.one_in(3)) {
        draft.tick = near_a_half(random, figures.cycles).unwrap_or(draft.tick);
    }
}

/// A TICK with which SHARE is at a half, or the one before or after it, if there is one.
fn near_a_half(random: &mut Random, cycles: u64) -> Option<u64> {
    let halves: Vec<u64> = (1..1000).step_by(2).filter(|halves| cycles * 2000 % halves == 0).collect();
    let tick = cycles * 2000 / random.pick(&halves);
    let tick = match random.below(3) {
        0 => tick + 1,
        1 => tick.max(1) - 1,
        _ => tick,
    };
    (1..=4_000_000_000).contains(&tick).then_some(tick)
}

/// A budget, mostly near the number of steps that are looked at.
fn budget(random: &mut Random, steps: u64) -> u64 {
    if random.one_in(2000) {
        return 1_000_000;
    }
    match random.below(10) {
        0 => steps.max(2) - 1,
        1 => 1 + random.below(steps as usize) as u64,
        2..=4 => steps,
        5 => steps + 1,
        _ => steps + random.below(500) as u64,
    }
}
