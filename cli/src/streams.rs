//! The standard streams as the command got them. Rust's start opens /dev/null in the place of a closed stream and ignores SIGPIPE, so
//! what was closed is looked up before that, and SIGPIPE gets its usual meaning back.
use std::sync::atomic::{AtomicBool, Ordering};

static CLOSED: [AtomicBool; 3] = [const { AtomicBool::new(false) }; 3];

const F_GETFD: i32 = 1;
const SIGPIPE: i32 = 13;
const SIG_DFL: usize = 0;

extern "C" {
    fn fcntl(descriptor: i32, command: i32, ...) -> i32;
    fn signal(number: i32, handler: usize) -> usize;
}

extern "C" fn note_closed() {
    for (descriptor, closed) in CLOSED.iter().enumerate() {
        // SAFETY: F_GETFD takes no further argument and changes nothing.
        let flags = unsafe { fcntl(descriptor as i32, F_GETFD) };
        closed.store(flags == -1, Ordering::Relaxed);
    }
}

// Called before `main`, and before what Rust does at the start.
#[used]
#[link_section = ".init_array"]
static AT_START: extern "C" fn() = note_closed;

/// Whether a standard stream was closed when the command was started.
pub fn is_closed(descriptor: usize) -> bool {
    CLOSED[descriptor].load(Ordering::Relaxed)
}

/// From here on a write into a closed pipe ends the command, quietly.
pub fn end_at_a_closed_pipe() {
    // SAFETY: no handler is installed; the signal's default action is set.
    unsafe { signal(SIGPIPE, SIG_DFL) };
}
