//! What the analyser answers of one routine: the decision, and the report of the bound that made it. The sheet prints these bytes.
use crate::failure::Failure;
use crate::library::{self, Answer};

pub struct Answers {
    pub decide: Answer,
    /// the first bound's report with the steps of its worst path, or its refusal
    pub explain: Option<Answer>,
    /// the merging bound's report with a costliest way, or its refusal, where the first refuses by 8 or 9
    pub merge: Option<Answer>,
    /// what the bound by cases answers, where cuts are given: then it alone decides, and `explain` and `merge` are not asked
    pub split: Option<Answer>,
    /// the nearest number that moves the bound, where it is asked for; the first bound's refusal where that has none
    pub nearest: Option<Answer>,
}

impl Answers {
    pub fn ask(text: &[u8], asks_nearest: bool) -> Answers {
        let explain = library::explain(text);
        let is_wide = matches!(explain, Answer::Refused { number: 8 | 9, .. });
        let is_report = matches!(explain, Answer::Report(_));
        let nearest = || if is_report { library::nearest(text) } else { explain.clone() };
        Answers {
            decide: library::decide(text),
            merge: is_wide.then(|| library::explain_merge(text)),
            nearest: asks_nearest.then(nearest),
            split: None,
            explain: Some(explain),
        }
    }

    pub fn ask_by_cases(text: &[u8], cuts: &[u8]) -> Answers {
        let split = Some(library::split(text, cuts));
        Answers { decide: library::decide_split(text, cuts), explain: None, merge: None, split, nearest: None }
    }
}

#[derive(Clone, Copy, Debug, PartialEq)]
pub enum Verdict {
    Fits,
    Over,
    Undecided,
}

#[derive(Clone, Copy, Debug, PartialEq)]
pub enum Bound {
    First,
    Merging,
    Split,
}

/// The figures as the analyser printed them.
#[derive(Debug)]
pub struct Figures {
    pub verdict: Verdict,
    pub bound: Bound,
    pub cycles: String,
    pub tick: String,
    pub words: String,
    pub depth: String,
    pub steps: String,
    pub share: String,
    pub path: String,
    /// the lines of the decision
    pub decided: Vec<String>,
    /// the lines of the report, with those of the worst path or of a costliest way
    pub report: Vec<String>,
}

fn unread() -> Failure {
    Failure(
        "the analyser's answers do not agree with each other: use no figure of them, and report this as a fault".into(),
    )
}

fn lines(answer: &Answer) -> Result<Vec<String>, Failure> {
    match answer {
        Answer::Report(bytes) => {
            let text = std::str::from_utf8(bytes).map_err(|_| unread())?;
            Ok(text.lines().map(str::to_string).collect())
        }
        Answer::Refused { .. } => Err(unread()),
    }
}

/// The words of the second line, which has the values.
fn values<const N: usize>(lines: &[String]) -> Result<[String; N], Failure> {
    let words: Vec<String> = lines.get(1).ok_or_else(unread)?.split(' ').map(str::to_string).collect();
    words.try_into().map_err(|_| unread())
}

fn verdict(word: &str) -> Result<Verdict, Failure> {
    match word {
        "FITS" => Ok(Verdict::Fits),
        "OVER" => Ok(Verdict::Over),
        "UNDECIDED" => Ok(Verdict::Undecided),
        _ => Err(unread()),
    }
}

impl Figures {
    /// The figures of a routine that is decided; none where it is refused.
    pub fn of(answers: &Answers) -> Result<Option<Figures>, Failure> {
        if let Answer::Refused { .. } = answers.decide {
            let other = answers.split.as_ref().or(answers.explain.as_ref());
            return if other == Some(&answers.decide) { Ok(None) } else { Err(unread()) };
        }
        let decided = lines(&answers.decide)?;
        let [verdict_word, bound, cycles, tick, words, depth, steps] = values(&decided)?;
        let (bound, report) = match bound.as_str() {
            "FIRST" => (Bound::First, &answers.explain),
            "MERGING" => (Bound::Merging, &answers.merge),
            "SPLIT" => (Bound::Split, &answers.split),
            _ => return Err(unread()),
        };
        let report = lines(report.as_ref().ok_or_else(unread)?)?;
        let [same_cycles, same_words, same_depth, same_steps, share, path] = values(&report)?;
        if [&cycles, &words, &depth, &steps] != [&same_cycles, &same_words, &same_depth, &same_steps] {
            return Err(unread());
        }
        let verdict = verdict(&verdict_word)?;
        Ok(Some(Figures { verdict, bound, cycles, tick, words, depth, steps, share, path, decided, report }))
    }
}

/// How far two printed numbers are apart.
pub fn apart(one: &str, other: &str) -> Result<u64, Failure> {
    let [one, other]: [u64; 2] = [one.parse().map_err(|_| unread())?, other.parse().map_err(|_| unread())?];
    Ok(one.abs_diff(other))
}

#[cfg(test)]
pub mod tests {
    use super::*;
    use crate::lines::tests::said;

    pub fn report(text: &str) -> Answer {
        Answer::Report(text.as_bytes().to_vec())
    }

    pub const DECIDED: &str = "DECISION BOUND CYCLES TICK WORDS DEPTH STEPS\nFITS FIRST 65 1000 4 1 6\n";
    pub const EXPLAINED: &str =
        "CYCLES WORDS DEPTH STEPS SHARE PATH\n65 4 1 6 65 N\nAT OP ARG CYCLES WORDS DEPTH WAY\n\
        0 C_CALL1 READ 50 4 1 -\n1 BRANCHIF 4 55 4 1 N\n2 CONST2 - 57 4 1 -\n3 ADDINT - 64 4 1 -\n4 STOP - 65 4 0 -\n";

    pub const MERGED: &str =
        "CYCLES WORDS DEPTH STEPS SHARE PATH\n149980 151 6 814 1000 -\nAT OP ARG CYCLES WORDS DEPTH WAY\n\
        0 C_CALL1 ALARM 149000 151 6 -\n1 BRANCHIF 3 149970 151 6 T\n3 STOP - 149980 151 6 -\n";
    pub const UNDECIDED: &str =
        "DECISION BOUND CYCLES TICK WORDS DEPTH STEPS\nUNDECIDED MERGING 149980 149979 151 6 814\n";

    pub const CASES_DECIDED: &str = "DECISION BOUND CYCLES TICK WORDS DEPTH STEPS\nUNDECIDED SPLIT 16 15 1 1 6\n";
    pub const CASES: &str = "CYCLES WORDS DEPTH STEPS SHARE PATH\n16 1 1 6 1067 -\n";

    pub fn first(decided: &str, explained: &str) -> Answers {
        Answers { decide: report(decided), explain: Some(report(explained)), merge: None, split: None, nearest: None }
    }

    pub fn merged(decided: &str, merged: &str) -> Answers {
        let explain = Some(Answer::Refused { number: 8, place: 234 });
        Answers { decide: report(decided), explain, merge: Some(report(merged)), split: None, nearest: None }
    }

    pub fn by_cases(decided: &str, split: &str) -> Answers {
        Answers { decide: report(decided), explain: None, merge: None, split: Some(report(split)), nearest: None }
    }

    pub fn refused(number: u16, place: u32, merge: Option<Answer>) -> Answers {
        let refusal = Answer::Refused { number, place };
        Answers { decide: refusal.clone(), explain: Some(refusal), merge, split: None, nearest: None }
    }

    #[test]
    fn figures_are_the_printed_words() {
        let figures = Figures::of(&first(DECIDED, EXPLAINED)).unwrap().unwrap();
        assert_eq!((figures.verdict, figures.bound), (Verdict::Fits, Bound::First));
        assert_eq!([figures.cycles, figures.tick, figures.share, figures.path], ["65", "1000", "65", "N"]);
        assert!(Figures::of(&refused(13, 21, None)).unwrap().is_none());
        let figures = Figures::of(&by_cases(CASES_DECIDED, CASES)).unwrap().unwrap();
        assert_eq!((figures.verdict, figures.bound), (Verdict::Undecided, Bound::Split));
        assert!(said(Figures::of(&by_cases(UNDECIDED, MERGED))).contains("use no figure"));
    }

    #[test]
    fn answers_that_do_not_agree_are_no_figures() {
        let other = EXPLAINED.replace("65 4 1 6 65 N", "64 4 1 6 65 N");
        let word = DECIDED.replace("FITS", "MAYBE");
        let merging = DECIDED.replace("FIRST", "MERGING");
        for answers in
            [first(DECIDED, &other), first(&word, EXPLAINED), first(&merging, EXPLAINED), first("", EXPLAINED)]
        {
            assert!(said(Figures::of(&answers)).contains("use no figure"));
        }
        let mut answers = refused(13, 21, None);
        answers.explain = Some(report(EXPLAINED));
        assert!(said(Figures::of(&answers)).contains("use no figure"));
    }
}
