//! Reading what a command is given: a file, or standard input for `-`.
use crate::arguments::{path_of, shown};
use crate::failure::Failure;
use crate::streams;
use std::fs::File;
use std::io::{self, ErrorKind, Read};

/// The longest routine file that is not refused by 1.
pub const ROUTINE_LIMIT: usize = 32768;
/// The longest trace that is not refused by 1.
pub const TRACE_LIMIT: usize = 131072;

/// The bytes of a file, or of standard input for `-`. Of one that is longer than the limit, one byte more than the limit.
pub fn read(name: &str, limit: usize) -> Result<Vec<u8>, Failure> {
    if name == "-" {
        return read_standard_input(limit);
    }
    let read = File::open(path_of(name)).and_then(|file| take(file, limit));
    read.map_err(|error| Failure(unread(name, &error)))
}

fn read_standard_input(limit: usize) -> Result<Vec<u8>, Failure> {
    if streams::is_closed(0) {
        return Err(Failure("standard input is closed".into()));
    }
    take(io::stdin().lock(), limit).map_err(|error| Failure(unread("standard input", &error)))
}

fn take(from: impl Read, limit: usize) -> io::Result<Vec<u8>> {
    let mut bytes = Vec::new();
    from.take(limit as u64 + 1).read_to_end(&mut bytes)?;
    Ok(bytes)
}

/// Why a file cannot be read, and what to do.
fn unread(name: &str, error: &io::Error) -> String {
    let name = shown(name);
    match error.kind() {
        ErrorKind::NotFound => format!("cannot read {name}: there is no such file"),
        ErrorKind::IsADirectory => format!("cannot read {name}: it is a folder; name a file in it"),
        ErrorKind::PermissionDenied => {
            format!("cannot read {name}: no permission; ask its owner for the right to read it")
        }
        _ => format!("cannot read {name}: {error}"),
    }
}

#[cfg(test)]
mod tests {
    use super::*;

    #[test]
    fn each_cause_has_a_message_of_its_own() {
        let Failure(missing) = read("no such file", 1).unwrap_err();
        assert_eq!(missing, "cannot read no such file: there is no such file");
        let Failure(folder) = read("/", 1).unwrap_err();
        assert_eq!(folder, "cannot read /: it is a folder; name a file in it");
    }

    #[test]
    fn one_byte_more_than_the_limit_is_read() {
        assert_eq!(read("/dev/zero", 10).unwrap().len(), 11);
    }
}
