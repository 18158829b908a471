//! Entries that were detached and aren't freed yet.

use crate::carried::{Carried, Plain};
use crate::cpu::Cpu;
use crate::error::{text, DestroyError, Refused, ShownWith};
use crate::ffi;
use crate::foreign::FirstPanic;
use crate::patience::{Patience, Pauses};
use crate::registry::Registry;
use crate::shared::{Fate, Shared};
use crate::tasks::Until;
use crate::values::{Entry, Freed, Holder, Met};
use std::fmt;
use std::future::Future;
use std::pin::Pin;
use std::sync::Arc;
use std::task::{Context, Poll};

/// What a destroy returns: what it freed, or its error with the [`Retired`].
pub type Destroyed<T> = Result<Freed<T>, Refused<DestroyError, Retired<T>>>;

/// An entry that was detached: [`Registry::detach`] returns it. It keeps its value until nothing
/// holds it and it is freed. There are three ways: [`destroy`](Retired::destroy) waits for that, so
/// does an `.await`, and [`Registry::retire`] leaves it to later calls, as dropping this does.
///
/// It co-owns its registry. It may be stored, and go to other threads. Its value waits for it, but
/// its slot doesn't: an attach that needs the slot frees the entry, if nothing holds it.
///
/// ```
/// use kupaldiz::{Registry, Settings};
/// use std::time::Duration;
///
/// let registry = Registry::open(Settings::new(1, 1)).unwrap();
/// registry.attach("wm", "seven").unwrap();
/// let held = registry.get("wm").unwrap();
/// let retired = registry.detach("wm").unwrap();
/// let refused = retired.destroy(Duration::from_millis(1)).unwrap_err();
/// drop(held);
/// assert_eq!(refused.given.destroy(Duration::from_secs(1)).unwrap().value, "seven");
/// ```
///
/// # As a future
///
/// An `.await` returns the [`Freed`], and needs no CPU and no runtime. A poll makes one turn. If
/// something holds the entry, the poll notes the task with that, and makes one or two more turns.
/// The task is woken by the call that [lets it go](crate#your-code-in-a-call). While a task waits,
/// each exit of a section, each drop or release of a reference and each lookup takes a short lock
/// to see whether it is meant; where none waits, it reads a flag. A task whose entry is
/// held by what was forgotten, or by what the task itself keeps, isn't woken. A future that is
/// dropped [defers](Retired::defer) its entry.
#[must_use = "an entry that nobody destroys or defers by name is deferred as this is dropped"]
pub struct Retired<T> {
    /// None once its value was taken, which a future may outlive.
    shared: Option<Arc<Shared<T>>>,
    /// What the entry carries, with the entry beside it. A token is no longer than this: it is
    /// moved at each turn.
    carried: Carried<T>,
}

impl<T> Retired<T> {
    /// Safety: the entry that carries this was just detached, and no other token is of it.
    pub(crate) unsafe fn new(shared: Arc<Shared<T>>, carried: Carried<T>) -> Retired<T> {
        let shared = Some(shared);
        Retired { shared, carried }
    }

    #[inline]
    fn shared(&self) -> &Arc<Shared<T>> {
        self.shared.as_ref().expect("a future whose value wasn't returned")
    }

    #[inline]
    fn plain(&self) -> Plain {
        self.shared();
        // SAFETY: an attach noted the entry, under the interlock, before the detach. Its value is
        // taken by this token, or after this token has deferred it, and each of these takes
        // `shared` away.
        unsafe { self.carried.plain() }
    }

    /// The entry, as it was attached.
    ///
    /// # Panics
    ///
    /// This and all other calls panic, if the future has returned the value.
    pub fn entry(&self) -> Entry {
        self.plain().entry(self.shared().id)
    }

    /// The registry that it is of.
    pub fn registry(&self) -> Registry<T> {
        Registry::of(Arc::clone(self.shared()))
    }

    /// Waits until nothing holds it, and frees it: `psref_target_destroy`, `localcount_drain`. What
    /// it carried is returned. The call tries again and again, as long as the [`Patience`] says.
    ///
    /// If this thread has a section open on any CPU, or any reference to the entry,
    /// [`Patience::Forever`] waits for ever: [`destroy_on`](Retired::destroy_on) sees what is on a
    /// CPU.
    ///
    /// # Errors
    ///
    /// `StillHeld` with what the last try met. The `Retired` is returned.
    pub fn destroy(self, patience: impl Into<Patience>) -> Destroyed<T> {
        self.destroy_while(None, patience.into(), || ())
    }

    /// Tries once, and waits only for the interlock: as with `Patience::Turns(1)`.
    ///
    /// # Errors
    ///
    /// `StillHeld` with the first obstacle. The `Retired` is returned.
    // Inlined, the token isn't moved: a turn that meets something takes a tenth less.
    #[inline(always)]
    pub fn try_destroy(self) -> Destroyed<T> {
        let done = self.turn();
        self.after(done)
    }

    /// As [`destroy`](Retired::destroy), for a thread that has this CPU. If it has a section open
    /// there, or a passive reference to the entry, nobody can end that while the thread waits: the
    /// call says so at once.
    ///
    /// # Errors
    ///
    /// `OtherRegistry`, `Inside`, `StillHeld` with this CPU's passive reference, otherwise with
    /// what the last try met. The `Retired` is returned.
    pub fn destroy_on(self, cpu: &Cpu<T>, patience: impl Into<Patience>) -> Destroyed<T> {
        self.destroy_while(Some(cpu), patience.into(), || ())
    }

    /// The same, with something to do after each turn that fails.
    pub(crate) fn destroy_while(
        self,
        cpu: Option<&Cpu<T>>,
        patience: Patience,
        meanwhile: impl FnMut(),
    ) -> Destroyed<T> {
        let done = self.destroy_by(cpu, patience, meanwhile);
        self.after(done)
    }

    fn destroy_by(
        &self,
        cpu: Option<&Cpu<T>>,
        patience: Patience,
        mut meanwhile: impl FnMut(),
    ) -> Result<Freed<T>, DestroyError> {
        match cpu {
            Some(cpu) if !cpu.is_of(self.shared()) => return Err(DestroyError::OtherRegistry),
            Some(cpu) if cpu.is_inside() => return Err(DestroyError::Inside),
            _ => (),
        }
        let (mut pauses, entry) = (Pauses::new(patience), self.plain());
        loop {
            let refusal = match self.shared().turn(entry, Fate::Returned).map_err(Met::refusal) {
                Err(refusal) => refusal,
                Ok(freed) => return Ok(freed),
            };
            match cpu {
                Some(cpu) if cpu.holds(entry.number) => {
                    return Err(DestroyError::StillHeld(Holder::Passive(cpu.id())));
                }
                _ if !pauses.another() => return Err(refusal),
                Some(cpu) => cpu.release_dropped(),
                None => (),
            }
            meanwhile();
        }
    }

    /// One turn. What it freed goes to `after`, or to `settle`.
    #[inline(always)]
    fn turn(&self) -> Result<Freed<T>, DestroyError> {
        self.shared().turn(self.plain(), Fate::Returned).map_err(Met::refusal)
    }

    /// What a call returns that ended so.
    #[inline]
    fn after(mut self, done: Result<Freed<T>, DestroyError>) -> Destroyed<T> {
        match done {
            Ok(freed) => Ok(self.settle(freed)),
            Err(refusal) => Err(Refused { refusal, given: self }),
        }
    }

    /// The token is spent, and then tasks are woken. It may be the registry's last handle.
    fn settle(&mut self, freed: Freed<T>) -> Freed<T> {
        let mut panic = FirstPanic::default();
        if let Some(shared) = self.shared.take() {
            shared.settle(&freed.entry);
            panic.run(|| drop(shared));
        }
        panic.or(freed)
    }

    /// Leaves it to later calls, as dropping it does. The call makes one turn on each entry that
    /// was deferred, waits for no reader, and [drops the values](crate#what-is-dropped) that
    /// nothing holds any more.
    pub fn defer(self) {}

    /// Defers it, and returns what is free.
    pub(crate) fn deferred(mut self) -> Vec<Freed<T>> {
        let entry = self.plain();
        self.shared.take().map_or_else(Vec::new, |shared| {
            shared.defer(entry);
            shared.collect()
        })
    }
}

impl<T> Future for Retired<T> {
    type Output = Freed<T>;

    /// # Panics
    ///
    /// If it has returned the value before.
    fn poll(self: Pin<&mut Self>, context: &mut Context<'_>) -> Poll<Freed<T>> {
        let (token, mut noted) = (self.get_mut(), None);
        loop {
            let until = match token.turn() {
                Ok(freed) => return Poll::Ready(token.settle(freed)),
                Err(DestroyError::StillHeld(holder)) => Until::of(holder, token.plain().slot()),
                Err(_) => Until::Any,
            };
            if noted == Some(until) || noted == Some(Until::Any) {
                return Poll::Pending;
            }
            // The turn after that shows what was let go before: tasks.rs.
            let until = if noted.is_some() { Until::Any } else { until };
            token.shared().tasks.note(token.plain().number, until, context.waker());
            noted = Some(until);
        }
    }
}

impl<T> Drop for Retired<T> {
    /// Defers it, unless its value was taken. It may be the registry's last handle.
    fn drop(&mut self) {
        let entry = self.shared.is_some().then(|| self.plain());
        if let (Some(entry), Some(shared)) = (entry, self.shared.take()) {
            let mut panic = FirstPanic::default();
            shared.defer(entry);
            panic.run(|| shared.drop_deferred());
            panic.run(|| drop(shared));
            panic.go_on();
        }
    }
}

impl<T> fmt::Debug for Retired<T> {
    fn fmt(&self, f: &mut fmt::Formatter<'_>) -> fmt::Result {
        let mut shown = f.debug_struct("Retired");
        if self.shared.is_some() {
            shown.field("entry", &self.entry());
        }
        shown.finish_non_exhaustive()
    }
}

impl<T> ShownWith<Retired<T>> for DestroyError {
    fn show(&self, retired: &Retired<T>, f: &mut fmt::Formatter<'_>) -> fmt::Result {
        match (self, retired.registry().holders(&retired.entry())) {
            (DestroyError::StillHeld(_), Some(holders)) if !holders.places.is_empty() => {
                write!(f, "{}: {holders}", text(ffi::STILL_HELD))
            }
            _ => fmt::Display::fmt(self, f),
        }
    }
}
