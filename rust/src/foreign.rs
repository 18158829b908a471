//! Code that isn't ours, and where it runs.
//!
//! The rule: **no code of the caller's runs while a value of ours is half changed, nor under a lock
//! of ours.** What a call changes is whole first, and the call holds its result; then the caller's
//! code runs. So that code may make any call, on the same CPU too, and may panic. These are all
//! places:
//!
//! - A waker's `clone`: `Tasks::note`, before the task is noted. If it panics, so does the poll,
//!   and it is as if not made.
//! - A waker's `wake`: `Tasks::wake` and `Meant::wake`, at the end of a call; or before a change on
//!   a CPU and between two turns of a wait, which release first what was dropped. A panic ends
//!   there. A call on a CPU that the crate chose has put it back before, in `Seats::with`: else that
//!   code, which may make such a call, would wait for its own thread.
//! - A waker's drop: `Tasks`, where a task is forgotten or noted anew. A panic ends there.
//! - The drop of a `T`: `Shared::drop_deferred`, for `Retired`'s drop, and `Shared`'s drop, for
//!   that of the last handle. If it panics, so does the call, once the other `T`s are dropped. What
//!   a call on a chosen CPU makes or is given it returns: nothing of that is dropped before the CPU
//!   is back.
//! - A closure: `map` of guards. If it panics, so does the call, which drops the guard.
//! - An iterator, an `AsRef`, an `Into<Key>`, an `Into<Patience>`: before the call does anything,
//!   and before a CPU is chosen. If it panics, so does the call, which drops what it was given.
//! - A `Debug` or `Display` of a `T`, whoever reads a text of ours, a `Hasher`: in impls that only
//!   read, under no lock.
//!
//! The panic of a waker ends where the waker was called, since another task's call made it: what
//! that call returns, and the other tasks' wakes, would be lost. The panic's hook has told of it.
//! What a call gives back, such as `Refused` or `Freed`, the caller drops by code of its own.
//!
//! tests/foreign.rs has each row, with code that panics, that makes each call, and that locks.

use std::any::Any;
use std::mem;
use std::panic::{catch_unwind, resume_unwind, AssertUnwindSafe};

/// Runs code of a waker's. A panic of it ends here. A payload whose own drop panics is forgotten.
pub fn quietly(deed: impl FnOnce()) {
    let ended = catch_unwind(AssertUnwindSafe(deed));
    let dropped = catch_unwind(AssertUnwindSafe(|| drop(ended)));
    dropped.unwrap_or_else(mem::forget);
}

/// The first panic of several pieces of code, all of which run.
#[derive(Default)]
pub struct FirstPanic(Option<Box<dyn Any + Send>>);

impl FirstPanic {
    /// Runs code of the caller's.
    pub fn run(&mut self, deed: impl FnOnce()) {
        match catch_unwind(AssertUnwindSafe(deed)) {
            Err(payload) if self.0.is_none() => self.0 = Some(payload),
            ended => quietly(|| drop(ended)),
        }
    }

    /// Lets the panic go on, if there was one.
    pub fn go_on(self) {
        self.or(());
    }

    /// Returns this, or drops it and lets the panic go on.
    pub fn or<R>(self, result: R) -> R {
        if let Some(payload) = self.0 {
            quietly(|| drop(result));
            resume_unwind(payload);
        }
        result
    }
}
