//! The commands that one call of the analyser answers.
use crate::arguments::{self, bytes_of, number_of_32_bits, shown, Given, Options};
use crate::failure::{wrong_call, Failure};
use crate::input::{self, ROUTINE_LIMIT, TRACE_LIMIT};
use crate::library::{self, Answer};
use crate::{cuts, output, why};

/// What a routine file by itself can be asked.
pub struct Question {
    pub name: &'static str,
    pub ask: fn(&[u8]) -> Answer,
}

pub const QUESTIONS: [Question; 7] = [
    Question { name: "bound", ask: library::bound },
    Question { name: "merge", ask: library::merge },
    Question { name: "run", ask: library::run },
    Question { name: "decide", ask: library::decide },
    Question { name: "trace", ask: library::trace },
    Question { name: "nearest", ask: library::nearest },
    Question { name: "export", ask: library::export },
];

const OPTIONS: Options = Options { flags: &["--why"], valued: &[] };
const SPLIT_OPTIONS: Options = Options { flags: &["--why"], valued: &["--cuts"] };
const EXPLAIN_OPTIONS: Options = Options { flags: &["--why", "--merge"], valued: &[] };
/// The longest list of primitives that an import takes.
const PRIMITIVES_LIMIT: usize = 4095;

/// The exit status that an answer has.
pub fn status(answer: &Answer) -> u8 {
    match answer {
        Answer::Refused { .. } => 1,
        Answer::Report(report) if report.starts_with(b"DIFFERS ") => 3,
        Answer::Report(report) if is_undecided_or_over(report) => 4,
        Answer::Report(_) => 0,
    }
}

fn is_undecided_or_over(report: &[u8]) -> bool {
    let decision = report.strip_prefix(b"DECISION BOUND CYCLES TICK WORDS DEPTH STEPS\n");
    decision.is_some_and(|line| !line.starts_with(b"FITS "))
}

/// Prints an answer, and with `--why` the reason, which is made only then.
pub fn finish(answer: &Answer, given: &Given, reason: impl FnOnce() -> String) -> Result<u8, Failure> {
    output::print(&answer.printed())?;
    if given.has("--why") {
        output::say_lines(&reason());
    }
    Ok(status(answer))
}

/// `bound`, `merge` and the other commands with one routine file.
pub fn ask(question: &Question, arguments: &[String]) -> Result<u8, Failure> {
    let given = arguments::read(question.name, arguments, &OPTIONS)?;
    let text = input::read(arguments::one_file(question.name, &given)?, ROUTINE_LIMIT)?;
    let answer = (question.ask)(&text);
    finish(&answer, &given, || why::of_question(question.name, &text, &answer))
}

/// `explain [--merge] [FILE]`
pub fn explain(arguments: &[String]) -> Result<u8, Failure> {
    let given = arguments::read("explain", arguments, &EXPLAIN_OPTIONS)?;
    let text = input::read(arguments::one_file("explain", &given)?, ROUTINE_LIMIT)?;
    let answer = if given.has("--merge") { library::explain_merge(&text) } else { library::explain(&text) };
    finish(&answer, &given, || why::of_question("explain", &text, &answer))
}

/// `import WORDS PRIMITIVES`
pub fn import(arguments: &[String]) -> Result<u8, Failure> {
    let given = arguments::read("import", arguments, &OPTIONS)?;
    let [file, primitives] = given.words.as_slice() else {
        return Err(wrong_call("import", "give WORDS and PRIMITIVES, the primitives as one argument, or - for none"));
    };
    let primitives = bytes_of(primitives);
    if primitives.len() > PRIMITIVES_LIMIT {
        let what = format!("PRIMITIVES has {} bytes, and at most {PRIMITIVES_LIMIT} are taken", primitives.len());
        return Err(wrong_call("import", &what));
    }
    // the 1,025th instruction, at which words are refused at the latest, is within these bytes
    let words = input::read(file, ROUTINE_LIMIT)?;
    let answer = library::import(&words, &primitives);
    finish(&answer, &given, || why::of_import(&words, &primitives, &answer))
}

/// `replay ROUTINE TRACE`
pub fn replay(arguments: &[String]) -> Result<u8, Failure> {
    let given = arguments::read("replay", arguments, &OPTIONS)?;
    let [routine, trace] = given.words.as_slice() else {
        return Err(wrong_call("replay", "give two files, ROUTINE and TRACE"));
    };
    arguments::check_input_once("replay", &given.words)?;
    let text = input::read(routine, ROUTINE_LIMIT)?;
    let trace = input::read(trace, TRACE_LIMIT)?;
    let answer = library::replay(&text, &trace);
    if status(&answer) == 1 {
        let place = if why::is_of_routine(&text) { "in the routine file" } else { "in the trace" };
        output::say(&format!("tickbound: the place is {place}"));
    }
    finish(&answer, &given, || why::of_replay(&text, &trace, &answer))
}

/// `split [--cuts CUTS] FILE [CELL:N,N..]..`
pub fn split(arguments: &[String]) -> Result<u8, Failure> {
    let given = arguments::read("split", arguments, &SPLIT_OPTIONS)?;
    let Some((file, words)) = given.words.split_first() else {
        return Err(wrong_call("split", "give FILE, and then cuts, as S2:500,900"));
    };
    let files: Vec<String> =
        [Some(file.as_str()), given.value("--cuts")].into_iter().flatten().map(str::to_string).collect();
    arguments::check_input_once("split", &files)?;
    let text = input::read(file, ROUTINE_LIMIT)?;
    let cuts = cuts::given("split", given.value("--cuts"), words)?;
    let answer = library::split(&text, &cuts);
    if let Answer::Refused { number, .. } = answer {
        output::say(&format!("tickbound: the place is {}", cuts::place_of(&text, number).told()));
    }
    finish(&answer, &given, || why::of_split(&text, &cuts, &answer))
}

/// `preview ROUTINE ADDRESS INSTRUCTION`
pub fn preview(arguments: &[String]) -> Result<u8, Failure> {
    let given = arguments::read("preview", arguments, &OPTIONS)?;
    let [routine, word, instruction] = given.words.as_slice() else {
        return Err(wrong_call("preview", "give ROUTINE, ADDRESS and INSTRUCTION, the instruction as one argument"));
    };
    let Some(address) = number_of_32_bits(word) else {
        let what = format!("ADDRESS is {}, and must be a number of 32 bits without leading zeros", shown(word));
        return Err(wrong_call("preview", &what));
    };
    let instruction = bytes_of(instruction);
    let text = input::read(routine, ROUTINE_LIMIT)?;
    let answer = library::preview(&text, address, &instruction);
    if let Answer::Refused { number, .. } = answer {
        let place = why::place_of_preview(&text, address, number);
        output::say(&format!("tickbound: the place is {}", place.told()));
    }
    finish(&answer, &given, || why::of_preview(&text, address, &instruction, &answer))
}

/// `generate SEED`
pub fn generate(arguments: &[String]) -> Result<u8, Failure> {
    let given = arguments::read("generate", arguments, &OPTIONS)?;
    let [word] = given.words.as_slice() else {
        return Err(wrong_call("generate", "give one SEED"));
    };
    let Some(seed) = number_of_32_bits(word) else {
        let what = format!("SEED is {}, and must be a number of 32 bits without leading zeros", shown(word));
        return Err(wrong_call("generate", &what));
    };
    let answer = library::generate(seed);
    finish(&answer, &given, || why::of_seed(&answer))
}
