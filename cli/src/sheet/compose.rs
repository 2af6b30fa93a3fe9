//! A sheet, made of what the analyser answered and of what the file holds.
use super::answers::{apart, Answers, Bound, Figures, Verdict};
use super::content::{counted, last_name, Heading, Line, Sheet};
use super::refusal::Refusal;
use super::{cases, clients, decision, listing, prices};
use crate::card::Card;
use crate::cells::Cells;
use crate::failure::Failure;
use crate::library::Answer;
use crate::price::check_names;
use crate::routine_text::RoutineText;
use crate::sha256::sha256;

/// What a sheet is made of.
pub struct Sources<'a> {
    /// the file's name as it was given, for messages
    pub file: &'a str,
    pub bytes: &'a [u8],
    pub card: Option<&'a Card>,
    pub cells: Option<&'a Cells>,
    /// the text of the cuts, which are without a fault
    pub cuts: Option<&'a [u8]>,
}

fn heading(sources: &Sources) -> Heading {
    let digest = sha256(sources.bytes);
    Heading { file: last_name(sources.file), digest, version: env!("CARGO_PKG_VERSION") }
}

fn refusal(answer: Option<&Answer>) -> Option<Refusal> {
    match answer {
        Some(Answer::Refused { number, place }) => Some(Refusal { number: *number, place: *place }),
        _ => None,
    }
}

/// That the card and the cells are those of the file.
fn check(sources: &Sources, routine: &RoutineText) -> Result<(), Failure> {
    if let Some(card) = sources.card {
        prices::check(sources.file, routine, card)?;
    }
    match sources.cells {
        Some(cells) => check_names(cells, sources.file, &routine.cells, true),
        None => Ok(()),
    }
}

pub fn sheet(sources: &Sources, answers: &Answers) -> Result<Sheet, Failure> {
    match Figures::of(answers)? {
        Some(figures) => with_figures(sources, answers, &figures),
        None => refused(sources, answers),
    }
}

/// A sheet without a figure, and without a number of the file that could be taken for one.
fn refused(sources: &Sources, answers: &Answers) -> Result<Sheet, Failure> {
    let both = refusal(answers.explain.as_ref()).zip(refusal(answers.merge.as_ref()));
    let lines = match (both, refusal(Some(&answers.decide))) {
        (Some((first, merging)), _) => {
            let routine = RoutineText::read(sources.file, sources.bytes)?;
            decision::twice_refused_lines(first, merging, &routine)
        }
        (None, Some(refusal)) => decision::refused_lines(refusal),
        (None, None) => Vec::new(),
    };
    let decision = decision::refused();
    let printed = vec![String::from_utf8_lossy(&answers.decide.printed()).trim_end().to_string()];
    Ok(Sheet { heading: heading(sources), decision, printed, lines, intro: String::new(), path: None, code: None })
}

fn with_figures(sources: &Sources, answers: &Answers, figures: &Figures) -> Result<Sheet, Failure> {
    let routine = RoutineText::read(sources.file, sources.bytes)?;
    check(sources, &routine)?;
    let first = refusal(answers.explain.as_ref());
    let remedy = match figures.bound {
        Bound::Split => Some(decision::cases_remedy(&routine)),
        _ => first.map(|first| decision::first_remedy(first, &routine)),
    };
    let mut lines = vec![
        pulse_margin(figures)?,
        reserved_block(figures),
        clients::line(&routine, sources.cells),
        not_refused(figures),
        prices::jumps(&routine),
        decision::which_bound(figures, first),
        prices::line(&routine, sources.card),
    ];
    lines.extend(sources.cuts.map(|cuts| cases::line(&routine, cuts)));
    lines.extend(clients::blocks(&routine, sources.cells));
    lines.extend(nearest(answers.nearest.as_ref()));
    Ok(Sheet {
        heading: heading(sources),
        decision: decision::of_figures(figures, remedy)?,
        printed: figures.decided.iter().chain(&figures.report[..2]).cloned().collect(),
        lines,
        intro: intro(figures),
        path: listing::path(figures),
        code: Some(listing::code(figures, &routine)),
    })
}

fn pulse_margin(figures: &Figures) -> Result<Line, Failure> {
    let Figures { cycles, tick, share, .. } = figures;
    let distance = counted(&apart(cycles, tick)?.to_string(), "cycle", "cycles");
    let text = match figures.verdict {
        Verdict::Fits => {
            let margin = apart("1000", share)?;
            format!("CYCLES {cycles}, TICK {tick}: {distance} to spare. SHARE {share}: the margin is {margin} thousandths of the pulse.")
        }
        _ => format!("CYCLES {cycles}, TICK {tick}: the bound is {distance} over. SHARE {share}: there is no margin."),
    };
    Ok(Line::prose("Pulse margin", text))
}

fn reserved_block(figures: &Figures) -> Line {
    let Figures { words, depth, .. } = figures;
    let [words_told, entries] = [counted(words, "word", "words"), counted(depth, "stack entry", "stack entries")];
    let text = format!("WORDS {words}, DEPTH {depth}: reserve {words_told} and {entries} once, when the card starts.");
    Line::prose("Reserved block", text)
}

fn not_refused(figures: &Figures) -> Line {
    let text = match figures.bound {
        Bound::First => "It is not refused: the first bound answers.",
        Bound::Merging => "The first bound is refused, and the merging bound answers.",
        Bound::Split => "It is not refused: the bound by cases answers.",
    };
    Line::prose("Refused routine", text)
}

fn nearest(answer: Option<&Answer>) -> Option<Line> {
    let text = match answer? {
        Answer::Refused { .. } => "It is not known: the first bound is refused.".to_string(),
        Answer::Report(bytes) => match String::from_utf8_lossy(bytes).trim_end() {
            "NONE" => "NONE: no change of one number by 64 or less moves the bound.".to_string(),
            change => format!("{change}: this is the smallest change of one number that moves the bound."),
        },
    };
    Some(Line::prose("Nearest number", text))
}

fn intro(figures: &Figures) -> String {
    let Figures { path, steps, report, .. } = figures;
    if figures.bound == Bound::Split {
        return "The code. The bound by cases has no single worst path, and none is shown.".into();
    }
    let length = report.len() - 3;
    if figures.bound == Bound::Merging {
        return format!(
            "Where the cycles go: a way through merged states, which a run need not take as a whole; WAY is N or T where \
             such a state opens two ways. It has {length} of the {steps} addresses reached."
        );
    }
    let branches = match path.as_str() {
        "-" => "it meets no unknown branch".to_string(),
        path => format!("{path} at its unknown branches in order, N not taken and T taken"),
    };
    format!("The worst path: {branches}. It has {length} of the {steps} steps on all paths.")
}
