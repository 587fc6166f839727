//! Work on threads with enough stack for the engine, whose tables lie there: 1.5 MB at the most.
use std::thread::{Builder, ScopedJoinHandle};
use std::{io, panic, thread};

/// The stack of a thread.
const STACK: usize = 8 << 20;

/// What some work gives that is done on a thread of its own.
pub fn on_thread<A: Send>(work: impl FnOnce() -> A + Send) -> io::Result<A> {
    thread::scope(|scope| Builder::new().stack_size(STACK).spawn_scoped(scope, work).map(joined))
}

/// What two pieces of work give that are done at the same time, the first on a thread of its own.
pub fn both<A: Send, B>(there: impl FnOnce() -> A + Send, here: impl FnOnce() -> B) -> io::Result<(A, B)> {
    thread::scope(|scope| {
        let there = Builder::new().stack_size(STACK).spawn_scoped(scope, there)?;
        let here = here();
        Ok((joined(there), here))
    })
}

/// What the work of a thread gives; a panic goes on.
fn joined<A>(handle: ScopedJoinHandle<A>) -> A {
    match handle.join() {
        Ok(given) => given,
        Err(reason) => panic::resume_unwind(reason),
    }
}
