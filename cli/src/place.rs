//! Where the command is: in the repository, beside its sources, or installed under a prefix.
use std::path::{Path, PathBuf};

/// The documents for users, as they are named in the repository and where they are installed.
pub const DOCUMENTS: [&str; 6] =
    ["FIELD-SHEET.md", "HANDBOOK.md", "ROUTINE-FILE.md", "LOADER.md", "GENERATOR.md", "EXTRACTION.md"];

fn command() -> Option<PathBuf> {
    std::env::current_exe().ok()?.canonicalize().ok()
}

/// The root of the repository, where the command is target/cli/release/tickbound in it.
pub fn repository() -> Option<PathBuf> {
    let root = command()?.ancestors().nth(4)?.to_owned();
    root.join("crates.txt").is_file().then_some(root)
}

/// The folder of the documents, where it is there.
fn documents_folder() -> Option<PathBuf> {
    let folder = match repository() {
        Some(root) => root.join("docs"),
        None => command()?.parent()?.parent()?.join("share/doc/tickbound"),
    };
    folder.is_dir().then_some(folder)
}

/// The documents that are there, for the help.
pub fn documents() -> String {
    let Some(folder) = documents_folder() else {
        return "none are installed with this command".into();
    };
    let is_there = |name: &&str| Path::new(&folder).join(name).is_file();
    let names: Vec<&str> = DOCUMENTS.into_iter().filter(is_there).collect();
    format!("{} in {}", names.join(", "), folder.display())
}
