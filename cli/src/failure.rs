//! What went wrong, other than a refusal: exit status 2.

/// A message for standard error, without the name of the command before it and without a line feed.
#[derive(Debug)]
pub struct Failure(pub String);

/// A wrong call of a command: what is wrong, and how to get help.
pub fn wrong_call(command: &str, what: &str) -> Failure {
    Failure(format!("{command}: {what} (tickbound {command} --help shows how to call it)"))
}
