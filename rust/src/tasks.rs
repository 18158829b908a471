//! The tasks that wait, and what each waits for.

use crate::foreign::quietly;
use crate::lock::{locked, Mutex};
use crate::values::Holder;
use std::mem;
use std::sync::atomic::{fence, AtomicBool, Ordering};
use std::task::Waker;

/// Tasks that wait, and whether there are any. On cache lines of its own: each exit and each
/// release reads the flag.
#[repr(align(128))]
pub struct Tasks<U> {
    are_any: AtomicBool,
    waiting: Mutex<Vec<Waiting<U>>>,
}

/// A future that waits. It has one place in the list, by its key.
struct Waiting<U> {
    key: u64,
    until: U,
    waker: Waker,
}

impl<U> Default for Tasks<U> {
    fn default() -> Tasks<U> {
        Tasks { are_any: AtomicBool::new(false), waiting: Mutex::default() }
    }
}

impl<U> Tasks<U> {
    /// Notes what a future waits for. Its caller looks once more after that. Whoever lets something
    /// go writes that first, and then reads the flag. All four are sequentially consistent, so
    /// either the caller sees what was let go, or the task is woken.
    pub fn note(&self, key: u64, until: U, waker: &Waker) {
        let waker = waker.clone();
        let mut waiting = locked(&self.waiting);
        let place = waiting.iter().position(|one| one.key == key);
        let older = place.map(|place| waiting.remove(place));
        waiting.push(Waiting { key, until, waker });
        self.are_any.store(true, Ordering::SeqCst);
        fence(Ordering::SeqCst);
        drop(waiting);
        quietly(|| drop(older));
    }

    #[inline]
    pub fn are_any(&self) -> bool {
        self.are_any.load(Ordering::SeqCst)
    }

    /// Forgets a future that is done or dropped, if it is noted.
    #[inline]
    pub fn forget(&self, key: u64) {
        self.meant(|other, _| other == key).forget();
    }

    /// Wakes those that wait for this, after it was let go. Its caller has no lock, and leaves
    /// nothing half changed.
    #[inline]
    pub fn wake(&self, is_meant: impl Fn(u64, &U) -> bool) {
        if self.are_any() {
            Meant(self.take(is_meant)).wake_all();
        }
    }

    /// Takes those out that are meant, by their keys and what they wait for. The rest keep their
    /// order.
    #[inline]
    pub fn meant(&self, is_meant: impl Fn(u64, &U) -> bool) -> Meant {
        Meant(if self.are_any() { self.take(is_meant) } else { Vec::new() })
    }

    #[cold]
    fn take(&self, is_meant: impl Fn(u64, &U) -> bool) -> Vec<Waker> {
        let (mut waiting, is_meant) =
            (locked(&self.waiting), |one: &Waiting<U>| is_meant(one.key, &one.until));
        if !waiting.iter().any(is_meant) {
            return Vec::new();
        }
        let (meant, rest): (Vec<_>, _) = mem::take(&mut *waiting).into_iter().partition(is_meant);
        *waiting = rest;
        self.are_any.store(!waiting.is_empty(), Ordering::SeqCst);
        drop(waiting);
        meant.into_iter().map(|one| one.waker).collect()
    }
}

impl<U> Drop for Tasks<U> {
    /// Only a future that was forgotten is noted by now.
    fn drop(&mut self) {
        self.meant(|_, _| true).forget();
    }
}

/// The wakers of tasks that are noted no more.
#[must_use]
pub struct Meant(Vec<Waker>);

impl Meant {
    #[inline]
    pub fn wake(self) {
        if !self.0.is_empty() {
            self.wake_all();
        }
    }

    #[cold]
    fn wake_all(self) {
        self.0.into_iter().for_each(|waker| quietly(|| waker.wake()));
    }

    #[inline]
    fn forget(self) {
        self.0.into_iter().for_each(|waker| quietly(|| drop(waker)));
    }
}

/// What a task waits for that awaits an entry: until this is let go, nothing else frees the entry.
#[derive(Clone, Copy, PartialEq, Eq)]
pub enum Until {
    /// The section of this CPU ends.
    Exit(u8),
    /// This CPU releases the entry, or ends a lookup that counted it meanwhile.
    Release(u8),
    /// A local reference to the entry in this slot is let go, or the value of an interface on it.
    Local(usize),
    /// Anything is let go: turn after turn met something else.
    Any,
}

impl Until {
    /// What holds the entry in this slot is let go.
    pub fn of(holder: Holder, slot: usize) -> Until {
        match holder {
            Holder::Grace(cpu) => Until::Exit(cpu),
            Holder::Passive(cpu) => Until::Release(cpu),
            Holder::Local(_) => Until::Local(slot),
        }
    }

    pub fn is_local(self, is_slot: impl Fn(usize) -> bool) -> bool {
        match self {
            Until::Exit(_) | Until::Release(_) => false,
            Until::Local(slot) => is_slot(slot),
            Until::Any => true,
        }
    }
}
