//! `tickbound batch`: one command on many files, or on the files of many seeds, with a line for each.
use crate::arguments::{self, number_of_32_bits, shown, Given, Options};
use crate::commands::{status, Question, QUESTIONS};
use crate::failure::{wrong_call, Failure};
use crate::input::{self, ROUTINE_LIMIT};
use crate::library::{self, Answer};
use crate::{output, why};
use std::io::IsTerminal;
use std::time::{Duration, Instant};

const OPTIONS: Options = Options { flags: &["--why"], valued: &["--seeds"] };
/// The commands that a batch takes, the first of `QUESTIONS`.
const COUNT: usize = 4;

pub fn command(arguments: &[String]) -> Result<u8, Failure> {
    let given = arguments::read("batch", arguments, &OPTIONS)?;
    let Some((name, files)) = given.words.split_first() else {
        return Err(wrong_call("batch", "give a COMMAND: bound, merge, run or decide"));
    };
    let Some(question) = QUESTIONS[..COUNT].iter().find(|question| question.name == name) else {
        let what = format!("{} is not one of the commands of a batch: bound, merge, run and decide", shown(name));
        return Err(wrong_call("batch", &what));
    };
    let mut batch = Batch { question, asks_why: given.has("--why"), statuses: [false; 5], progress: Progress::new() };
    match seeds(&given)? {
        Some(_) if !files.is_empty() => return Err(wrong_call("batch", "give files or --seeds, and not both")),
        Some((first, last)) => batch.answer_seeds(first, last)?,
        None if files.is_empty() => return Err(wrong_call("batch", "give files or --seeds A-B")),
        None => batch.answer_files(files)?,
    }
    batch.progress.end();
    Ok(batch.worst())
}

/// The first and the last seed, where they are asked for.
fn seeds(given: &Given) -> Result<Option<(u32, u32)>, Failure> {
    let Some(value) = given.value("--seeds") else {
        return Ok(None);
    };
    let ends = value.split_once('-').and_then(|(first, last)| number_of_32_bits(first).zip(number_of_32_bits(last)));
    match ends {
        Some((first, last)) if first <= last => Ok(Some((first, last))),
        _ => {
            let what = format!("--seeds is {}, and must be two seeds as 1-2000, the lower first", shown(value));
            Err(wrong_call("batch", &what))
        }
    }
}

struct Batch<'a> {
    question: &'a Question,
    asks_why: bool,
    /// Which exit statuses the lines have.
    statuses: [bool; 5],
    progress: Progress,
}

impl Batch<'_> {
    fn answer_seeds(&mut self, first: u32, last: u32) -> Result<(), Failure> {
        let count = u64::from(last) - u64::from(first) + 1;
        for seed in first..=last {
            self.progress.tell(u64::from(seed - first), count);
            match library::generate(seed) {
                Answer::Report(text) => self.answer(&seed.to_string(), &text)?,
                refused => self.put(&seed.to_string(), &refused)?,
            }
        }
        Ok(())
    }

    /// A file that cannot be read has a message and no line, and the others are answered still.
    fn answer_files(&mut self, files: &[String]) -> Result<(), Failure> {
        arguments::check_input_once("batch", files)?;
        for (index, file) in files.iter().enumerate() {
            self.progress.tell(index as u64, files.len() as u64);
            match input::read(file, ROUTINE_LIMIT) {
                Ok(text) => self.answer(&shown(file), &text)?,
                Err(Failure(message)) => {
                    self.progress.end();
                    output::say(&format!("tickbound: {message}"));
                    self.statuses[2] = true;
                }
            }
        }
        Ok(())
    }

    fn answer(&mut self, name: &str, text: &[u8]) -> Result<(), Failure> {
        let answer = (self.question.ask)(text);
        self.put(name, &answer)?;
        if self.asks_why {
            self.progress.end();
            let reason = why::of_question(self.question.name, text, &answer);
            reason.lines().for_each(|line| output::say(&of_name(name, line)));
        }
        Ok(())
    }

    fn put(&mut self, name: &str, answer: &Answer) -> Result<(), Failure> {
        self.statuses[usize::from(status(answer))] = true;
        self.progress.clear_before_a_line();
        output::print(line(name, answer).as_bytes())
    }

    fn worst(&self) -> u8 {
        [2, 1, 4].into_iter().find(|status| self.statuses[usize::from(*status)]).unwrap_or(0)
    }
}

/// A line of a reason; its first line names the file.
fn of_name(name: &str, line: &str) -> String {
    match line.strip_prefix("tickbound: ") {
        Some(title) => format!("tickbound: {name}: {title}"),
        None => line.to_owned(),
    }
}

/// The name, `REPORT` or `REFUSED`, and the values, separated by tabs.
fn line(name: &str, answer: &Answer) -> String {
    match answer {
        Answer::Refused { number, place } => format!("{name}\tREFUSED\t{number}\t{place}\n"),
        Answer::Report(report) => {
            let report = String::from_utf8_lossy(report);
            let values = report.lines().nth(1).unwrap_or_default();
            format!("{name}\tREPORT\t{}\n", values.replace(' ', "\t"))
        }
    }
}

/// How far a batch has come, on a line of a terminal that is written over.
struct Progress {
    is_told: bool,
    is_shown: bool,
    next: Instant,
}

const INTERVAL: Duration = Duration::from_millis(200);

impl Progress {
    fn new() -> Progress {
        Progress { is_told: std::io::stderr().is_terminal(), is_shown: false, next: Instant::now() + INTERVAL }
    }

    fn tell(&mut self, done: u64, count: u64) {
        if self.is_told && Instant::now() >= self.next {
            output::say_lines(&format!("\r{done} of {count}\x1b[K"));
            self.is_shown = true;
            self.next = Instant::now() + INTERVAL;
        }
    }

    /// Where the lines go to the terminal too, none is written behind the progress.
    fn clear_before_a_line(&mut self) {
        if self.is_shown && std::io::stdout().is_terminal() {
            self.end();
        }
    }

    fn end(&mut self) {
        if self.is_shown {
            output::say_lines("\r\x1b[K");
            self.is_shown = false;
        }
    }
}

#[cfg(test)]
mod tests {
    use super::*;

    #[test]
    fn a_line_has_the_values_parted_by_tabs() {
        let report = Answer::Report(b"CYCLES WORDS DEPTH STEPS\n65 4 1 5\n".to_vec());
        assert_eq!(line("a b", &report), "a b\tREPORT\t65\t4\t1\t5\n");
        assert_eq!(line("7", &Answer::Refused { number: 13, place: 21 }), "7\tREFUSED\t13\t21\n");
    }

    #[test]
    fn seeds_are_two_numbers_the_lower_first() {
        let ask = |value: &str| seeds(&arguments::read("batch", &["--seeds".into(), value.into()], &OPTIONS).unwrap());
        assert_eq!(ask("1-2000").unwrap(), Some((1, 2000)));
        assert_eq!(ask("0-4294967295").unwrap(), Some((0, u32::MAX)));
        for wrong in ["", "5", "2-1", "1-", "-1", "1-2-3", "01-2", "1-4294967296", "a-b"] {
            assert!(ask(wrong).is_err(), "{wrong}");
        }
    }

    #[test]
    fn what_could_not_be_read_decides_then_a_refusal_then_what_does_not_fit() {
        for (seen, worst) in [(vec![], 0), (vec![0, 4], 4), (vec![4, 1, 0], 1), (vec![1, 2, 4], 2)] {
            let mut batch =
                Batch { question: &QUESTIONS[0], asks_why: false, statuses: [false; 5], progress: Progress::new() };
            seen.into_iter().for_each(|status: usize| batch.statuses[status] = true);
            assert_eq!(batch.worst(), worst);
        }
    }
}
