//! The proved analyser. The whole command runs on a thread with a stack of 8 MB (`on_a_stack`), so each of these calls does: a merging
//! bound takes 1.6 MB of it. What a call answers is its report, or its refusal; it is a report of 1 byte at least.
#[cfg(not(feature = "programs"))]
#[path = "linked.rs"]
mod calls;
#[cfg(feature = "programs")]
#[path = "programs.rs"]
mod calls;

pub use calls::{
    bound, decide, decide_split, explain, explain_merge, export, generate, import, merge, nearest, preview, replay,
    run, split, trace,
};

/// What the analyser answers.
#[derive(Clone, Debug, PartialEq)]
pub enum Answer {
    Report(Vec<u8>),
    Refused { number: u16, place: u32 },
}

impl Answer {
    /// The bytes that are printed.
    pub fn printed(&self) -> Vec<u8> {
        match self {
            Answer::Report(bytes) => bytes.clone(),
            Answer::Refused { number, place } => format!("REFUSED {number} {place}\n").into_bytes(),
        }
    }
}

const STACK: usize = 8 << 20;

/// Runs the command on a stack that every call of the library has room on. Nothing where it ended in a panic, which was told.
pub fn on_a_stack<T: Send + 'static>(command: impl FnOnce() -> T + Send + 'static) -> Option<T> {
    match std::thread::Builder::new().stack_size(STACK).spawn(command) {
        Ok(thread) => thread.join().ok(),
        Err(error) => panic!("no stack of 8 MB can be had: {error}"),
    }
}

#[cfg(test)]
mod tests {
    use super::*;

    #[test]
    fn a_panic_is_told_from_an_end() {
        assert_eq!(on_a_stack(|| 3), Some(3));
        assert_eq!(on_a_stack(|| -> u8 { panic!("for a test") }), None);
    }

    #[test]
    fn a_refusal_is_printed_by_its_number_and_place() {
        assert_eq!(Answer::Refused { number: 13, place: 21 }.printed(), b"REFUSED 13 21\n");
        assert_eq!(Answer::Report(b"AGREES\n".to_vec()).printed(), b"AGREES\n");
    }
}
