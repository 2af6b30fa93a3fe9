//! Writing: what is printed goes to standard output whole, or the command ends with 2 and says why. A closed pipe ends it quietly
//! (`streams`).
use crate::failure::Failure;
use crate::streams;
use std::io::{self, Write};

/// Writes bytes to standard output.
pub fn print(bytes: &[u8]) -> Result<(), Failure> {
    if streams::is_closed(1) {
        return Err(Failure("standard output is closed; give it a file or a pipe".into()));
    }
    let mut output = io::stdout().lock();
    output
        .write_all(bytes)
        .and_then(|()| output.flush())
        .map_err(|error| Failure(format!("standard output cannot be written: {error}")))
}

/// A line on standard error, if it can be written.
pub fn say(line: &str) {
    say_lines(&format!("{line}\n"));
}

/// Lines on standard error, if they can be written.
pub fn say_lines(lines: &str) {
    let _ = io::stderr().lock().write_all(lines.as_bytes());
}
