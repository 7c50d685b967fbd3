//! Threads with a small stack. A call that needs more ends the whole test program.

use std::panic::resume_unwind;
use std::thread::{scope, Builder};

/// The header's PLANNER_STACK: what a call needs.
pub fn planner_stack() -> usize {
    let defined = include_str!("../../include/planner.h").lines().find_map(|line| line.strip_prefix("#define PLANNER_STACK "));
    defined.and_then(|number| number.parse().ok()).expect("PLANNER_STACK in include/planner.h")
}

/// What the tests run in, oracle included.
pub const TEST_STACK: usize = 524_288;

/// Runs it on a thread with so many bytes of stack.
pub fn within<T: Send>(bytes: usize, run: impl FnOnce() -> T + Send) -> T {
    scope(|threads| {
        let thread = Builder::new().stack_size(bytes).spawn_scoped(threads, run).expect("a thread");
        thread.join().unwrap_or_else(|panic| resume_unwind(panic))
    })
}
