//! tickbound: the decision on a routine file, its bounds, and what belongs to them. See `tickbound --help`.
mod arguments;
mod batch;
mod card;
mod cells;
mod commands;
mod cuts;
mod extract;
mod failure;
mod input;
mod install;
mod library;
mod lines;
mod numbers;
mod output;
mod place;
mod price;
mod routine_text;
mod sha256;
mod sheet;
mod streams;
mod tighten;
mod usage;
mod why;

use arguments::{shown, word_of};
use failure::Failure;
use std::process::ExitCode;

/// Answers a command, and gives the exit status back.
fn dispatch(command: &str, arguments: &[String]) -> Result<u8, Failure> {
    if usage::is_asked(arguments) {
        if let Some(help) = usage::of(command) {
            return print(&help);
        }
    }
    if let Some(question) = commands::QUESTIONS.iter().find(|question| question.name == command) {
        return commands::ask(question, arguments);
    }
    match command {
        "explain" => commands::explain(arguments),
        "import" => commands::import(arguments),
        "replay" => commands::replay(arguments),
        "split" => commands::split(arguments),
        "tighten" => tighten::command(arguments),
        "preview" => commands::preview(arguments),
        "generate" => commands::generate(arguments),
        "sheet" => sheet::command(arguments),
        "extract" => extract::command(arguments),
        "price" => price::command(arguments),
        "batch" => batch::command(arguments),
        "install" => install::command(arguments),
        "--help" | "-h" | "--version" => about(command, arguments),
        _ => Err(wrong(&format!("unknown command {}", shown(command)))),
    }
}

/// What the command says of itself.
fn about(option: &str, arguments: &[String]) -> Result<u8, Failure> {
    match option {
        _ if !arguments.is_empty() => Err(wrong(&format!("{option} takes no arguments"))),
        "--version" => {
            let toolchain = env!("TICKBOUND_TOOLCHAIN");
            print(&format!("tickbound {}\ntoolchain: {toolchain}\n", env!("CARGO_PKG_VERSION")))
        }
        _ => print(&usage::all()),
    }
}

fn print(text: &str) -> Result<u8, Failure> {
    output::print(text.as_bytes())?;
    Ok(0)
}

fn wrong(what: &str) -> Failure {
    Failure(format!("{what} (tickbound --help lists the commands)"))
}

fn answered() -> Result<u8, Failure> {
    let words: Vec<String> = std::env::args_os().skip(1).map(|argument| word_of(&argument)).collect();
    match words.split_first() {
        Some((command, arguments)) => dispatch(command, arguments),
        None => Err(wrong("no command is given")),
    }
}

/// A panic is a fault of the command itself: one line, and exit status 2.
fn tell_panics() {
    std::panic::set_hook(Box::new(|panic| {
        let what = panic.payload_as_str().unwrap_or("it cannot go on");
        let place = panic.location().map_or(String::new(), |place| format!("{}:{}", place.file(), place.line()));
        output::say(&format!("tickbound: {what} (a fault of the command itself, at {place})"));
    }));
}

fn main() -> ExitCode {
    tell_panics();
    streams::end_at_a_closed_pipe();
    match library::on_a_stack(answered) {
        Some(Ok(status)) => ExitCode::from(status),
        Some(Err(Failure(message))) => {
            output::say(&format!("tickbound: {message}"));
            ExitCode::from(2)
        }
        None => ExitCode::from(2),
    }
}
