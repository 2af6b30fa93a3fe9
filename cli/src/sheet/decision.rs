//! What stands first on the sheet: the decision of `decide` in words, and the remedy that applies first.
use super::answers::{apart, Bound, Figures, Verdict};
use super::clients;
use super::content::{counted, Decision, Line, Part, Scale};
use super::refusal::Refusal;
use crate::failure::Failure;
use crate::routine_text::RoutineText;

const MOST_BUDGET: &str = "1000000";

/// The remedy that applies first where the first bound is refused by 8 or 9.
pub fn first_remedy(first: Refusal, routine: &RoutineText) -> String {
    let budget = routine.lines[1].split(' ').next();
    if first.number == 9 && budget != Some(MOST_BUDGET) {
        format!("Raise BUDGET (line 2), to {MOST_BUDGET} at most, so that the first bound can answer.")
    } else if !clients::open_names(routine).is_empty() {
        "Fill in inputs that are known: write a number or a narrower range into a cell that is open.".into()
    } else if first.number == 9 {
        "Return the routine to the buyer: its paths have too many steps, and no cell is open.".into()
    } else {
        "Return the routine to the buyer: one path has too many unknown branches, and no cell is open.".into()
    }
}

/// The remedy that applies first where the bound by cases is above TICK.
pub fn cases_remedy(routine: &RoutineText) -> String {
    match clients::open_names(routine).is_empty() {
        true => "No cell is open: no cut can lower it.".into(),
        false => {
            "Choose other cuts (tickbound tighten), or write a number or a narrower range into a cell that is open."
                .into()
        }
    }
}

/// The decision on a routine with figures; the remedy is that of one which is not decided.
pub fn of_figures(figures: &Figures, remedy: Option<String>) -> Result<Decision, Failure> {
    let Figures { cycles, tick, .. } = figures;
    let distance = apart(cycles, tick)?.to_string();
    let above = counted(&distance, "cycle", "cycles");
    let (word, sentences) = match figures.verdict {
        Verdict::Fits => ("FITS", format!("CYCLES {cycles} is at most TICK {tick}: {above} to spare.")),
        Verdict::Over => (
            "OVER",
            format!(
                "The bound is {above} over: CYCLES {cycles} is above TICK {tick}. The bound may count a path that no run takes."
            ),
        ),
        Verdict::Undecided if figures.bound == Bound::Split => (
            "NOT DECIDED",
            format!(
                "The bound by cases has CYCLES {cycles}, which is {above} above TICK {tick}. {}",
                remedy.unwrap_or_default()
            ),
        ),
        Verdict::Undecided => (
            "NOT DECIDED",
            format!(
                "The first bound is refused. The merging bound, which can be higher, is {above} over: CYCLES {cycles} is above \
                 TICK {tick}. {}",
                remedy.unwrap_or_default()
            ),
        ),
    };
    let fits = figures.verdict == Verdict::Fits;
    let status = if fits { 0 } else { 4 };
    let scale = Some(Scale { share: figures.share.clone(), tick: tick.clone() });
    Ok(Decision { word, fits, sentences: sentences.trim_end().into(), scale, status })
}

/// The decision on a refused routine.
pub fn refused() -> Decision {
    let sentences = "There is no figure: a refusal is not a bound of zero.".into();
    Decision { word: "REFUSED", fits: false, sentences, scale: None, status: 1 }
}

/// A text with its first letter as a capital, and a full stop.
fn sentence(text: &str) -> String {
    let mut letters = text.chars();
    letters.next().map(|first| format!("{}{}.", first.to_uppercase(), letters.as_str())).unwrap_or_default()
}

/// The lines of a routine that the first bound alone answers for.
pub fn refused_lines(refusal: Refusal) -> Vec<Line> {
    vec![
        Line::prose("Refused routine", format!("{}.", refusal.told())),
        Line::prose("What to do", sentence(refusal.remedy())),
    ]
}

/// The lines of a routine that the first bound refuses by 8 or 9, and the merging bound too.
pub fn twice_refused_lines(first: Refusal, merging: Refusal, routine: &RoutineText) -> Vec<Line> {
    let parts = vec![
        Part::prose(format!("{}.", first.told())).named("First bound"),
        Part::prose(format!("{}.", merging.told())).named("Merging"),
    ];
    let otherwise = format!("Otherwise {}.", merging.remedy());
    let to_do = vec![Part::prose(first_remedy(first, routine)), Part::prose(otherwise)];
    vec![Line { title: "Refused routine", parts }, Line { title: "What to do", parts: to_do }]
}

/// Which bound gave the figures.
pub fn which_bound(figures: &Figures, first: Option<Refusal>) -> Line {
    let text = match (figures.bound, first) {
        (Bound::Merging, Some(first)) => {
            format!(
                "The merging bound, which can be higher than the first. The first bound is refused: {}.",
                first.told()
            )
        }
        (Bound::Merging, None) => "The merging bound, which can be higher than the first.".into(),
        (Bound::First, _) => "The first bound, which walks every path.".into(),
        (Bound::Split, _) => {
            "The bound by cases: the merging bound of each case. It is never above the merging bound.".into()
        }
    };
    Line::prose("Which bound", text)
}

#[cfg(test)]
mod tests {
    use super::super::answers::tests::{
        by_cases, first, merged, CASES, CASES_DECIDED, DECIDED, EXPLAINED, MERGED, UNDECIDED,
    };
    use super::*;

    fn routine(budget: &str, cell: &str) -> String {
        format!("BUDGET TICK\n{budget} 10\nSTOP\n1\n0\n0\n-\n-\n-\nACCU\n{cell}\n-\n-\nAT OP ARG\n0 STOP -\n")
    }

    #[test]
    fn a_routine_that_fits() {
        let figures = Figures::of(&first(DECIDED, EXPLAINED)).unwrap().unwrap();
        let decision = of_figures(&figures, None).unwrap();
        assert_eq!((decision.word, decision.fits, decision.status), ("FITS", true, 0));
        assert_eq!(decision.sentences, "CYCLES 65 is at most TICK 1000: 935 cycles to spare.");
    }

    #[test]
    fn over_speaks_of_the_bound_and_never_of_the_routine() {
        let decided = DECIDED.replace("FITS FIRST 65 1000", "OVER FIRST 65 64");
        let figures = Figures::of(&first(&decided, EXPLAINED)).unwrap().unwrap();
        let decision = of_figures(&figures, None).unwrap();
        assert_eq!((decision.word, decision.fits, decision.status), ("OVER", false, 4));
        assert!(decision.sentences.starts_with("The bound is 1 cycle over: CYCLES 65 is above TICK 64."));
        assert!(!decision.sentences.contains("overrun") && !decision.sentences.contains("routine"));
    }

    #[test]
    fn not_decided_has_the_remedy() {
        let figures = Figures::of(&merged(UNDECIDED, MERGED)).unwrap().unwrap();
        let decision = of_figures(&figures, Some("Do this.".into())).unwrap();
        assert_eq!((decision.word, decision.fits, decision.status), ("NOT DECIDED", false, 4));
        assert!(
            decision.sentences.ends_with("is 1 cycle over: CYCLES 149980 is above TICK 149979. Do this."),
            "{}",
            decision.sentences
        );
    }

    #[test]
    fn not_decided_by_cases() {
        let figures = Figures::of(&by_cases(CASES_DECIDED, CASES)).unwrap().unwrap();
        let text = routine("1000", "?");
        let routine = RoutineText::read("f", text.as_bytes()).unwrap();
        let decision = of_figures(&figures, Some(cases_remedy(&routine))).unwrap();
        assert_eq!((decision.word, decision.fits, decision.status), ("NOT DECIDED", false, 4));
        assert!(
            decision.sentences.starts_with("The bound by cases has CYCLES 16, which is 1 cycle above TICK 15. Choose"),
            "{}",
            decision.sentences
        );
        assert!(which_bound(&figures, None).parts[0].items.join(" ").starts_with("The bound by cases"));
    }

    #[test]
    fn the_remedy_that_applies_first() {
        for (number, budget, cell, remedy) in [
            (9, "1000", "?", "Raise BUDGET"),
            (9, "1000000", "?", "Fill in inputs"),
            (8, "1000", "0..5", "Fill in inputs"),
            (8, "1000", "5", "Return the routine to the buyer: one path"),
            (9, "1000000", "5", "Return the routine to the buyer: its paths"),
        ] {
            let text = routine(budget, cell);
            let routine = RoutineText::read("f", text.as_bytes()).unwrap();
            let told = first_remedy(Refusal { number, place: 1 }, &routine);
            assert!(told.starts_with(remedy), "{number} {budget} {cell}: {told}");
        }
    }
}
