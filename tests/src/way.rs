//! The explanation of the merging bound: its report, and a costliest way through the merged states. Of each address it is known what can
//! still be spent from there (`merge::spent`); a move is on a costliest way where it leads on with the rest of that and its origin is on
//! one. Back from the lowest STOP on such a way, the lowest origin is taken, and at one branch T.
use crate::explain::{MEMORY, NAMES};
use crate::merge::{passed, reached, spent, Reached};
use crate::report::{bound_report, Answer};
use crate::routine::{line, read, refused, Routine};

/// A move of a merged way from a place of the code: to another place, or out of it by STOP.
#[derive(Clone, Copy, PartialEq, Debug)]
pub struct Move {
    pub from: usize,
    pub to: Option<usize>,
    pub cycles: u64,
    pub words: u64,
    /// the decision, where the merged state's step opens two ways
    pub way: Option<char>,
}

/// A costliest way, and which other moves were as good where one of several was taken.
pub struct Way {
    pub moves: Vec<Move>,
    /// a place on it to which both ways of one branch come at the largest sum
    pub tie_at_a_branch: bool,
    /// a place on it to which two origins come at the largest sum
    pub tie_between_addresses: bool,
    /// STOPs that are reached, and those at the largest sum
    pub stops: usize,
    pub costliest_stops: usize,
}

/// The moves from a place, the one taken first.
fn moves_from(from: usize, reached: &Reached) -> Vec<Move> {
    let Reached { line, next, jump, .. } = *reached;
    let opens = next.is_some() && jump.is_some();
    let mut moves = Vec::new();
    if let Some(to) = jump {
        let way = opens.then_some('T');
        moves.push(Move { from, to: Some(to), cycles: line.cycles + line.extra, words: line.words, way });
    }
    if next.is_some() || jump.is_none() {
        moves.push(Move { from, to: next, cycles: line.cycles, words: line.words, way: opens.then_some('N') });
    }
    moves
}

/// The moves that lie on a costliest way from the start: what a move costs and what can be spent after it is what can be spent before it,
/// and such moves lead to it.
fn on_costliest_ways(reached: &[Option<Reached>]) -> Vec<Move> {
    let most = spent(reached);
    let after = |m: &Move| m.to.map_or(0, |to| most[to][0]);
    let mut comes = vec![false; reached.len()];
    comes[0] = true;
    let mut moves = Vec::new();
    for (from, ways) in reached.iter().enumerate() {
        let Some(ways) = ways.as_ref().filter(|_| comes[from]) else {
            continue;
        };
        for m in moves_from(from, ways).into_iter().filter(|m| m.cycles + after(m) == most[from][0]) {
            if let Some(to) = m.to {
                comes[to] = true;
            }
            moves.push(m);
        }
    }
    moves
}

/// The costliest way of a routine that the merging bound accepts.
pub fn costliest(reached: &[Option<Reached>]) -> Way {
    let candidates = on_costliest_ways(reached);
    let into = |to: Option<usize>| candidates.iter().filter(move |m| m.to == to);
    let is_stop = |ways: &&Reached| ways.next.is_none() && ways.jump.is_none();
    let stops = reached.iter().flatten().filter(is_stop).count();
    let mut way = Way {
        moves: Vec::new(),
        tie_at_a_branch: false,
        tie_between_addresses: false,
        stops,
        costliest_stops: into(None).count(),
    };
    let mut to = None;
    loop {
        // the origins rise among the candidates, and T is before N
        let best = into(to).next().expect("an address on a costliest way has an origin");
        if to.is_some() {
            way.tie_at_a_branch |= into(to).filter(|m| m.from == best.from).count() > 1;
            way.tie_between_addresses |= into(to).any(|m| m.from != best.from);
        }
        way.moves.insert(0, *best);
        if best.from == 0 {
            return way;
        }
        to = Some(best.from);
    }
}

/// The lines of a way, under their line of names.
fn listed(routine: &Routine, text: &[u8], reached: &[Option<Reached>], way: &Way) -> String {
    let code: Vec<&str> = std::str::from_utf8(text).unwrap().lines().skip(line::CODE - 1).collect();
    let mut lines = NAMES.to_string();
    let (mut cycles, mut words) = (0, 0);
    for m in &way.moves {
        cycles += m.cycles;
        words += m.words;
        let height = reached[m.from].as_ref().unwrap().height;
        let held: Vec<&str> = code[m.from].split(' ').collect();
        let at = routine.first as usize + m.from;
        lines += &format!("{at} {} {} {cycles} {words} {height} {}\n", held[1], held[2], m.way.unwrap_or('-'));
    }
    lines
}

/// The answer of the explanation of the merging bound for a text and a length of lent memory.
pub fn explain_merge_answer(text: &[u8], lent: usize) -> Answer {
    if lent < MEMORY {
        return refused(10, 0);
    }
    let routine = read(text, false)?;
    let figures = passed(&routine, routine.start.clone(), |_| ())?;
    let reached = reached(&routine, routine.start.clone(), |_| ())?;
    let lines = listed(&routine, text, &reached, &costliest(&reached));
    Ok((bound_report(&figures, routine.tick) + &lines).into_bytes())
}

/// The costliest way of a text that the merging bound accepts.
pub fn way_of(text: &[u8]) -> Way {
    let routine = read(text, false).unwrap();
    let reached = reached(&routine, routine.start.clone(), |_| ()).unwrap();
    costliest(&reached)
}
