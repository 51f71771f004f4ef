//! Two calls at once, the first in a thread of its own.

use std::thread;

/// The right to start threads.
pub trait Threads {}

/// The threads of this process.
pub struct Process;

impl Threads for Process {}

pub fn join<R, F, G, A, B>(_rt: &R, first: F, second: G) -> (A, B)
where
    R: Threads,
    F: FnOnce() -> A + Send,
    G: FnOnce() -> B,
    A: Send,
{
    thread::scope(|scope| {
        let started = scope.spawn(first);
        let b = second();
        match started.join() {
            Ok(a) => (a, b),
            Err(panic) => std::panic::resume_unwind(panic),
        }
    })
}

pub fn join_mut<R, F, G, A, B>(rt: &R, first: &mut F, second: &mut G) -> (A, B)
where
    R: Threads,
    F: FnMut() -> A + Send,
    G: FnMut() -> B,
    A: Send,
{
    join(rt, first, second)
}
