//! `tickbound sheet [--why] [--html] [--nearest] [--card CARD] [--cells CELLS] [--cuts CUTS] FILE`: the field sheet of a routine. Its
//! decision and its figures are the bytes that the proved analyser answered.
mod answers;
mod cases;
mod clients;
mod compose;
mod content;
mod decision;
mod layout;
mod listing;
mod page;
mod plain;
mod prices;
mod refusal;

use crate::arguments::{self, Options};
use crate::failure::{wrong_call, Failure};
use crate::input::{self, ROUTINE_LIMIT};
use crate::price::{shown, Filling};
use crate::{output, why};
use answers::Answers;
use compose::Sources;

/// The longest file that has a sheet.
const LONGEST: usize = 1 << 24;
const OPTIONS: Options = Options { flags: &["--html", "--nearest", "--why"], valued: &["--card", "--cells", "--cuts"] };

/// What the analyser answers: by cases where cuts are given.
fn asked(text: &[u8], cuts: Option<&[u8]>, asks_nearest: bool) -> Answers {
    match cuts {
        Some(cuts) => Answers::ask_by_cases(text, cuts),
        None => Answers::ask(text, asks_nearest),
    }
}

/// The reason of its refusals.
fn reason(text: &[u8], cuts: Option<&[u8]>, answers: &Answers) -> String {
    match cuts {
        Some(cuts) => why::of_split(text, cuts, &answers.decide),
        None => why::of_question("decide", text, &answers.decide),
    }
}

pub fn command(arguments: &[String]) -> Result<u8, Failure> {
    let given = arguments::read("sheet", arguments, &OPTIONS)?;
    let [file] = given.words.as_slice() else {
        return Err(wrong_call("sheet", "give one FILE, or - for standard input"));
    };
    let [card, cells, cuts] = ["--card", "--cells", "--cuts"].map(|option| given.value(option));
    if cuts.is_some() && given.has("--nearest") {
        return Err(wrong_call("sheet", "give --nearest, which is of the first bound, or --cuts, and not both"));
    }
    let files = [Some(file.as_str()), card, cells, cuts].into_iter().flatten();
    arguments::check_input_once("sheet", &files.map(str::to_string).collect::<Vec<_>>())?;
    let Filling { card, cells } = Filling::read(card, cells)?;
    // the digest is of the whole file, also where it is refused for its length
    let bytes = input::read(file, LONGEST)?;
    if bytes.len() > LONGEST {
        return Err(Failure(format!("{}: it has more than {LONGEST} bytes, and is no routine file", shown(file))));
    }
    let text = &bytes[..bytes.len().min(ROUTINE_LIMIT + 1)];
    let cuts = cuts.map(|cuts| cases::read(text, cuts)).transpose()?;
    let cuts = cuts.as_deref();
    let answers = asked(text, cuts, given.has("--nearest"));
    let file = &shown(file);
    let sources = Sources { file, bytes: &bytes, card: card.as_ref(), cells: cells.as_ref(), cuts };
    let sheet = compose::sheet(&sources, &answers)?;
    let printed = if given.has("--html") { page::html(&sheet) } else { plain::text(&sheet) };
    output::print(printed.as_bytes())?;
    if given.has("--why") {
        output::say_lines(&reason(text, cuts, &answers));
    }
    Ok(sheet.decision.status)
}
