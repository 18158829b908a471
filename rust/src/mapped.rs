//! Guards of a part of what an entry carries.

use crate::cpu::Cpu;
use crate::references::{LocalRef, Passive};
use crate::section::{Found, ReadGuard};
use std::fmt;
use std::ops::Deref;

/// A reference or a guard of a part of what its entry carries: `map` of
/// [`ReadGuard`](crate::ReadGuard), [`PassiveRef`](crate::PassiveRef),
/// [`PassiveRc`](crate::PassiveRc) and [`LocalRef`](crate::LocalRef) returns it. It derefs to the
/// part, and dropping it drops what it was made of.
#[must_use = "what is dropped at once holds nothing"]
pub struct Mapped<G, U: ?Sized> {
    part: *const U,
    guard: G,
}

// SAFETY: it gives a `&U`, and moves the guard. The part is of the guard's value, which may be used
// where the guard may.
unsafe impl<G: Send, U: ?Sized + Sync> Send for Mapped<G, U> {}
// SAFETY: a shared one gives a `&U`, and a `&G` to nobody but whoever owns it.
unsafe impl<G: Sync, U: ?Sized + Sync> Sync for Mapped<G, U> {}

impl<G, U: ?Sized> Mapped<G, U> {
    /// What it was made of.
    #[inline]
    pub fn into_inner(mapped: Self) -> G {
        mapped.guard
    }
}

impl<G, U: ?Sized> Deref for Mapped<G, U> {
    type Target = U;

    #[inline]
    fn deref(&self) -> &U {
        // SAFETY: `map` alone makes it. The part lies in what the guard derefs to, or lives longer,
        // as the guard's reference to it was of any lifetime. That is an entry's value, in
        // a block of its own. The entry keeps it until the guard is dropped or the reference
        // released, and the guard is there.
        unsafe { &*self.part }
    }
}

impl<G, U: ?Sized + fmt::Debug> fmt::Debug for Mapped<G, U> {
    fn fmt(&self, f: &mut fmt::Formatter<'_>) -> fmt::Result {
        f.debug_tuple("Mapped").field(&&**self).finish()
    }
}

impl<G, U: ?Sized + fmt::Display> fmt::Display for Mapped<G, U> {
    fn fmt(&self, f: &mut fmt::Formatter<'_>) -> fmt::Result {
        (**self).fmt(f)
    }
}

impl<G: Deref, U: ?Sized> Mapped<G, U> {
    /// The part of what the guard derefs to, which is an entry's value.
    #[inline]
    fn of(guard: G, part: impl FnOnce(&G::Target) -> &U) -> Mapped<G, U> {
        let part: *const U = part(&guard);
        Mapped { part, guard }
    }
}

impl<'cpu, T> ReadGuard<'cpu, T> {
    /// The same of a part of what the entry carries.
    #[inline]
    pub fn map<U: ?Sized>(guard: Self, part: impl FnOnce(&T) -> &U) -> Mapped<Self, U> {
        Mapped::of(guard, part)
    }
}

impl<C: Deref<Target = Cpu<T>>, T> Passive<C, T> {
    /// The same of a part of what the entry carries.
    #[inline]
    pub fn map<U: ?Sized>(guard: Self, part: impl FnOnce(&T) -> &U) -> Mapped<Self, U> {
        Mapped::of(guard, part)
    }
}

impl<T> LocalRef<T> {
    /// The same of a part of what the entry carries.
    #[inline]
    pub fn map<U: ?Sized>(guard: Self, part: impl FnOnce(&T) -> &U) -> Mapped<Self, U> {
        Mapped::of(guard, part)
    }
}

impl<T: fmt::Display> fmt::Display for Found<'_, '_, T> {
    fn fmt(&self, f: &mut fmt::Formatter<'_>) -> fmt::Result {
        (**self).fmt(f)
    }
}

impl<T: fmt::Display> fmt::Display for ReadGuard<'_, T> {
    fn fmt(&self, f: &mut fmt::Formatter<'_>) -> fmt::Result {
        (**self).fmt(f)
    }
}

impl<C: Deref<Target = Cpu<T>>, T: fmt::Display> fmt::Display for Passive<C, T> {
    fn fmt(&self, f: &mut fmt::Formatter<'_>) -> fmt::Result {
        (**self).fmt(f)
    }
}

impl<T: fmt::Display> fmt::Display for LocalRef<T> {
    fn fmt(&self, f: &mut fmt::Formatter<'_>) -> fmt::Result {
        (**self).fmt(f)
    }
}

impl<T: fmt::Debug> fmt::Debug for Found<'_, '_, T> {
    fn fmt(&self, f: &mut fmt::Formatter<'_>) -> fmt::Result {
        f.debug_struct("Found").field("entry", &Found::entry(self)).field("value", &**self).finish()
    }
}

impl<T: fmt::Debug> fmt::Debug for ReadGuard<'_, T> {
    fn fmt(&self, f: &mut fmt::Formatter<'_>) -> fmt::Result {
        let entry = ReadGuard::entry(self);
        f.debug_struct("ReadGuard").field("entry", &entry).field("value", &**self).finish()
    }
}

impl<C: Deref<Target = Cpu<T>>, T: fmt::Debug> fmt::Debug for Passive<C, T> {
    fn fmt(&self, f: &mut fmt::Formatter<'_>) -> fmt::Result {
        let (cpu, entry) = (Passive::cpu(self).id(), Passive::entry(self));
        f.debug_struct("Passive")
            .field("cpu", &cpu)
            .field("entry", &entry)
            .field("value", &**self)
            .finish()
    }
}

impl<T: fmt::Debug> fmt::Debug for LocalRef<T> {
    fn fmt(&self, f: &mut fmt::Formatter<'_>) -> fmt::Result {
        let entry = LocalRef::entry(self);
        f.debug_struct("LocalRef").field("entry", &entry).field("value", &**self).finish()
    }
}
