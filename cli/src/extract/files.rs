//! The files of a routine in the working folder: all are written or none, and none is written over.
use super::routine::Routine;
use crate::failure::Failure;
use std::fs::{self, File};
use std::io::Write;
use std::path::{Path, PathBuf};

/// Files that are removed at the end unless they are taken out, so that a failure leaves none behind.
struct Written(Vec<PathBuf>);

impl Drop for Written {
    fn drop(&mut self) {
        for path in &self.0 {
            let _ = fs::remove_file(path);
        }
    }
}

impl Written {
    /// Writes a file at a path, before it gets its name.
    fn write(&mut self, path: &Path, name: &Path, bytes: &[u8]) -> Result<(), Failure> {
        let failed = |error| unwritten(name, error);
        let mut file = File::options().write(true).create_new(true).open(path).map_err(failed)?;
        self.0.push(path.to_owned());
        file.write_all(bytes).map_err(failed)
    }
}

fn unwritten(path: &Path, error: std::io::Error) -> Failure {
    Failure(format!("{} cannot be written: {error}", path.display()))
}

/// Writes the words, the primitives line, the routine file and, where it is wanted, a cells file, and gives back their names.
pub fn write(routine: &Routine, file: &str, wants_cells: bool, name: &str) -> Result<String, Failure> {
    let primitives = format!("{}\n", routine.primitives);
    let mut parts =
        vec![("words", &routine.words[..]), ("primitives", primitives.as_bytes()), ("txt", file.as_bytes())];
    if wants_cells {
        parts.push(("cells", routine.cells.as_bytes()));
    }
    let path = |ending: &str| PathBuf::from(format!("{name}.{ending}"));
    let hidden = |ending: &str| PathBuf::from(format!(".tickbound-{}.{ending}", std::process::id()));
    if let Some(there) = parts.iter().map(|(ending, _)| path(ending)).find(|path| path.symlink_metadata().is_ok()) {
        return Err(Failure(format!("{} is there already, and is not written over: move it away", there.display())));
    }
    let mut written = Written(Vec::new());
    for (ending, bytes) in &parts {
        written.write(&hidden(ending), &path(ending), bytes)?;
    }
    for (written, (ending, _)) in written.0.iter_mut().zip(&parts) {
        let name = path(ending);
        fs::rename(&*written, &name).map_err(|error| unwritten(&name, error))?;
        *written = name;
    }
    let names = written.0.drain(..).map(|path| format!("{}\n", path.display()));
    Ok(names.collect())
}
