//! The same calls by the proved programs, while the library is not built. A program reads standard input or the files that its arguments
//! name, and prints its report or its refusal; it is ended with the command.
use super::Answer;
use std::ffi::{CStr, OsStr, OsString};
use std::fs::File;
use std::io::{Seek, Write};
use std::os::fd::{AsRawFd, FromRawFd};
use std::os::unix::process::CommandExt;
use std::path::PathBuf;
use std::process::{Command, Stdio};

const PR_SET_PDEATHSIG: i32 = 1;
const SIGKILL: usize = 9;

extern "C" {
    fn memfd_create(name: *const std::ffi::c_char, flags: u32) -> i32;
    fn prctl(option: i32, ...) -> i32;
}

/// Bytes as a file that has no name and goes with the command.
fn kept(bytes: &[u8]) -> File {
    let name: &CStr = c"tickbound";
    // SAFETY: the name ends in a 0, and the descriptor is this file's alone.
    let mut file = unsafe {
        let descriptor = memfd_create(name.as_ptr(), 0);
        assert!(descriptor >= 0, "no memory for what is read");
        File::from_raw_fd(descriptor)
    };
    file.write_all(bytes).and_then(|()| file.rewind()).expect("memory for what is read");
    file
}

/// The name under which a program opens such a file.
fn name_of(file: &File) -> OsString {
    format!("/proc/{}/fd/{}", std::process::id(), file.as_raw_fd()).into()
}

fn program(name: &str) -> PathBuf {
    let folder = std::env::var_os("TICKBOUND_PROGRAMS")
        .map_or_else(|| PathBuf::from(concat!(env!("CARGO_MANIFEST_DIR"), "/../target/bin")), PathBuf::from);
    folder.join(name)
}

fn answer(name: &str, input: Stdio, arguments: &[&OsStr]) -> Answer {
    let mut command = Command::new(program(name));
    command.args(arguments).stdin(input).stderr(Stdio::inherit());
    // SAFETY: prctl may be called between fork and exec.
    unsafe {
        command.pre_exec(|| {
            prctl(PR_SET_PDEATHSIG, SIGKILL);
            Ok(())
        });
    }
    let output = command.output().unwrap_or_else(|error| panic!("the program {name} cannot be run: {error}"));
    assert!(output.status.success() && !output.stdout.is_empty(), "the program {name} printed no answer");
    read(output.stdout)
}

/// The answer that a program printed.
fn read(printed: Vec<u8>) -> Answer {
    let refused = std::str::from_utf8(&printed).ok().and_then(|line| {
        let (number, place) = line.strip_prefix("REFUSED ")?.trim_end().split_once(' ')?;
        Some(Answer::Refused { number: number.parse().ok()?, place: place.parse().ok()? })
    });
    refused.unwrap_or(Answer::Report(printed))
}

fn of_text(name: &str, text: &[u8]) -> Answer {
    answer(name, kept(text).into(), &[])
}

pub fn bound(text: &[u8]) -> Answer {
    of_text("bound", text)
}

pub fn merge(text: &[u8]) -> Answer {
    of_text("merge", text)
}

pub fn run(text: &[u8]) -> Answer {
    of_text("run", text)
}

pub fn trace(text: &[u8]) -> Answer {
    of_text("trace", text)
}

pub fn explain(text: &[u8]) -> Answer {
    of_text("explain", text)
}

/// No program answers this: the launcher builds the library for it.
pub fn explain_merge(_text: &[u8]) -> Answer {
    without_program("explain --merge")
}

pub fn decide(text: &[u8]) -> Answer {
    of_text("decide", text)
}

pub fn nearest(text: &[u8]) -> Answer {
    of_text("nearest", text)
}

pub fn export(text: &[u8]) -> Answer {
    of_text("export", text)
}

pub fn generate(seed: u32) -> Answer {
    answer("generate", Stdio::null(), &[OsStr::new(&seed.to_string())])
}

pub fn import(words: &[u8], primitives: &[u8]) -> Answer {
    let file = kept(words);
    answer("import", Stdio::null(), &[&name_of(&file), as_argument(primitives)])
}

pub fn replay(routine: &[u8], trace: &[u8]) -> Answer {
    let (routine, trace) = (kept(routine), kept(trace));
    answer("replay", Stdio::null(), &[&name_of(&routine), &name_of(&trace)])
}

pub fn split(routine: &[u8], cuts: &[u8]) -> Answer {
    let (routine, cuts) = (kept(routine), kept(cuts));
    answer("split", Stdio::null(), &[&name_of(&routine), &name_of(&cuts)])
}

/// No program answers this: the launcher builds the library for it.
pub fn decide_split(_routine: &[u8], _cuts: &[u8]) -> Answer {
    without_program("the decision by cases")
}

fn without_program(what: &str) -> ! {
    panic!("{what} needs the library, which is not built")
}

pub fn preview(routine: &[u8], address: u32, instruction: &[u8]) -> Answer {
    let routine = kept(routine);
    let address = address.to_string();
    answer("preview", Stdio::null(), &[&name_of(&routine), OsStr::new(&address), as_argument(instruction)])
}

fn as_argument(bytes: &[u8]) -> &OsStr {
    std::os::unix::ffi::OsStrExt::from_bytes(bytes)
}
