//! Writes what the programs of `crates/` read and must print, where it does not stand there. To be called at the root, after a change
//! of the cases: `target/tests/release/program-files`.
use independent::cases::program_files;

fn main() {
    for (path, bytes) in program_files() {
        if std::fs::read(path).ok().as_ref() != Some(&bytes) {
            std::fs::write(path, bytes).unwrap_or_else(|e| panic!("{path}: {e}"));
            println!("{path}");
        }
    }
}
