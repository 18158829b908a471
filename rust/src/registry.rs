//! The registry: its opening, and the calls behind the interlock.

use crate::cpu::Cpu;
use crate::error::{checked, CloseError, CpusError, DestroyError, DetachError, LookUpError};
use crate::error::{OpenError, Refused, SynchronizeError};
use crate::ffi;
use crate::lock::locked;
use crate::patience::{Patience, Pauses};
use crate::places::Holders;
use crate::references::LocalRef;
use crate::retired::Retired;
use crate::seats::Seats;
use crate::settings::Settings;
use crate::shared::{Closing, Shared};
use crate::values::{Balance, Entry, Freed};
use crate::Key;
use std::fmt;
use std::hash::{Hash, Hasher};
use std::panic::Location;
use std::sync::atomic::Ordering;
use std::sync::Arc;

/// An open registry. Each entry carries a `T` of the caller's. A clone is one more handle of the
/// same registry. Any thread may use a handle, and a `static` may have one.
///
/// Its calls name no [`Cpu`]: each chooses one, for itself alone. Threads that are no more than
/// CPUs don't get into each other's way; of more, one waits for the other's call. For whoever
/// counts cycles [`cpus`](Registry::cpus) takes the CPUs out; one is the registry's own and stays.
///
/// The registry is open as long as a [handle](crate#what-is-dropped) of it exists, also one that is
/// forgotten, or that an entry of the same registry carries.
///
/// ```
/// use kupaldiz::{Patience, Registry, Settings};
///
/// let registry = Registry::open(Settings::default()).unwrap();
/// registry.attach("eth0.100", 1500).unwrap();
/// let port = registry.get("eth0.100").unwrap(); // for as long as it is wanted, on any thread
/// let retired = registry.detach("eth0.100").unwrap();
/// let held = retired.destroy(Patience::Turns(3)).unwrap_err();
/// drop(port);
/// assert_eq!(held.given.destroy(Patience::Forever).unwrap().value, 1500);
/// ```
pub struct Registry<T> {
    pub(crate) seats: Arc<Seats<T>>,
}

impl<T> Registry<T> {
    /// A handle of this registry.
    pub(crate) fn of(shared: Arc<Shared<T>>) -> Registry<T> {
        let mut pauses = Pauses::new(Patience::Forever);
        loop {
            let mut known = locked(&shared.seats);
            let seats = match &*known {
                None => Some(Arc::new(Seats::new(Arc::clone(&shared)))),
                Some(seats) => seats.upgrade(),
            };
            if let Some(seats) = seats {
                *known = Some(Arc::downgrade(&seats));
                drop(known);
                return Registry { seats };
            }
            // The last handle is going, and gives the CPUs back that lay there.
            drop(known);
            pauses.another();
        }
    }

    pub(crate) fn shared(&self) -> &Arc<Shared<T>> {
        &self.seats.shared
    }

    /// Opens a registry.
    ///
    /// # Errors
    ///
    /// `OtherLimits`, `BadSettings`, `NoMemory`.
    pub fn open(settings: Settings) -> Result<Registry<T>, OpenError> {
        Ok(Registry::of(Arc::new(Shared::open(settings, false)?)))
    }

    /// Opens a registry that notes the line of the program, and the thread, of each reference that
    /// is acquired and each section that is entered. [`holders`](Registry::holders) says so,
    /// and so does the error of a destroy that gives up: `the entry is still held: 1 local
    /// reference: src/main.rs:8 (thread "main")`. Each of these calls then takes a lock.
    ///
    /// # Errors
    ///
    /// As of [`open`](Registry::open).
    pub fn open_tracked(settings: Settings) -> Result<Registry<T>, OpenError> {
        Ok(Registry::of(Arc::new(Shared::open(settings, true)?)))
    }

    /// A local reference to the live entry of this name, for as long as it is wanted. It may go to
    /// other threads.
    ///
    /// # Errors
    ///
    /// `NoCpu`, `NoMemory`, `SectionsSpent`, `NotFound`, `LocalFull`.
    #[inline]
    #[track_caller]
    pub fn get(&self, key: impl Into<Key>) -> Result<LocalRef<T>, LookUpError> {
        let (key, at) = (key.into(), Location::caller());
        self.seats.with(|cpu| cpu.get_local_at(key, at)).unwrap_or(Err(LookUpError::NoCpu))
    }

    /// The record of the live entry of this name, at one moment during the call, as
    /// [`Cpu::look_up`].
    ///
    /// # Errors
    ///
    /// `NoCpu`, `SectionsSpent`, `NotFound`.
    #[inline]
    pub fn look_up(&self, key: impl Into<Key>) -> Result<Entry, LookUpError> {
        let key = key.into();
        self.seats.with(|cpu| cpu.look_up(key)).unwrap_or(Err(LookUpError::NoCpu))
    }

    /// The lines that hold an entry, live or retired, if the registry was opened by
    /// [`open_tracked`](Registry::open_tracked). A reference that was forgotten is among them,
    /// one that was dropped isn't. Nobody holds an entry of another registry.
    ///
    /// ```
    /// use kupaldiz::{Registry, Settings};
    ///
    /// let registry = Registry::open_tracked(Settings::new(1, 1)).unwrap();
    /// let entry = registry.attach("wm", ()).unwrap();
    /// let held = registry.get("wm").unwrap();
    /// let holders = registry.holders(&entry).unwrap();
    /// assert!(holders.to_string().starts_with("1 local reference: src/"));
    /// drop(held);
    /// assert_eq!(registry.holders(&entry).unwrap().to_string(), "nobody");
    /// ```
    pub fn holders(&self, entry: &Entry) -> Option<Holders> {
        let is_own = entry.registry == self.shared().id;
        self.shared()
            .noted(|notes| Some(if is_own { notes.holders(entry) } else { Holders::default() }))
    }

    /// The settings that it was opened with.
    pub fn settings(&self) -> Settings {
        self.shared().settings
    }

    /// The CPU with this number, if nobody has it. A call of another thread that has chosen it is
    /// waited for. It still has the passive references that were forgotten on it.
    #[must_use]
    pub fn cpu(&self, id: u8) -> Option<Cpu<T>> {
        self.seats.unseat(id)
    }

    /// The lowest-numbered CPU that nobody has.
    #[must_use]
    pub fn any_cpu(&self) -> Option<Cpu<T>> {
        (0..self.settings().cpus).find_map(|id| self.cpu(id))
    }

    /// All CPUs that nobody has, in order. The registry's own calls then share one that is none of
    /// these. If it has as many CPUs as [`LIMITS`](crate::LIMITS), they fail with `NoCpu`.
    #[must_use]
    pub fn cpus(&self) -> Vec<Cpu<T>> {
        (0..self.settings().cpus).filter_map(|id| self.cpu(id)).collect()
    }
}

/// The work on retired entries, and the counts.
impl<T> Registry<T> {
    /// The number of entries that were [retired](Registry::retire) or
    /// [deferred](crate::Retired::defer) and whose values wait to be returned or dropped.
    pub fn deferred(&self) -> usize {
        self.shared().kept().deferred.len()
    }

    /// The number of live entries.
    #[must_use]
    pub fn len(&self) -> usize {
        self.shared().kept().live_count()
    }

    /// Whether no entry is live.
    #[must_use]
    pub fn is_empty(&self) -> bool {
        self.len() == 0
    }

    /// The number of local references that were [dropped without a
    /// CPU](crate::LocalRef#dropped-without-a-cpu) and aren't released yet.
    pub fn dropped(&self) -> usize {
        self.shared().baskets.total()
    }

    /// Frees what was [retired](Registry::retire) and nothing holds any more, and returns that, the
    /// youngest first: an interface before its driver. It makes one turn on each entry that waits.
    #[must_use]
    pub fn free_deferred(&self) -> Vec<Freed<T>> {
        self.shared().collect()
    }

    /// What the counts say of each live or retired entry, the lowest-numbered slot first. It needs
    /// all CPUs, in any order: of each a `Cpu`, a [`LentCpu`](crate::LentCpu) or a reference to
    /// one. All local references that were dropped are released first. The first turn on a retired
    /// entry that meets local references collects their counts: then no CPU has any.
    ///
    /// # Errors
    ///
    /// `OtherRegistry` for any of them. `MissingCpu` if they aren't all CPUs of the registry, each
    /// once.
    pub fn audit<C>(&self, cpus: C) -> Result<Vec<Balance>, CpusError>
    where
        C: IntoIterator,
        C::Item: AsRef<Cpu<T>>,
    {
        let given: Vec<C::Item> = cpus.into_iter().collect();
        let mut cpus: Vec<&Cpu<T>> = given.iter().map(C::Item::as_ref).collect();
        if !cpus.iter().all(|cpu| cpu.is_of(self.shared())) {
            return Err(CpusError::OtherRegistry);
        }
        cpus.sort_by_key(|cpu| cpu.id());
        if !cpus.iter().map(|cpu| cpu.id()).eq(0..self.settings().cpus) {
            return Err(CpusError::MissingCpu);
        }
        cpus[0].release_dropped();
        let own = self.seats.own();
        cpus.extend(own.iter().filter_map(|seated| seated.as_ref()));
        // With many slots it is too long for a stack.
        let mut list = vec![ffi::Balance::EMPTY; usize::from(self.settings().slots)];
        let length = self.audit_into(&cpus, &mut list);
        let count = self.settings().all_cpus();
        Ok(list[..length].iter().map(|balance| Balance::of(balance, count)).collect())
    }

    /// Writes the balances, and returns how many. The CPUs are all of this registry's, in their
    /// order.
    fn audit_into(&self, cpus: &[&Cpu<T>], list: &mut [ffi::Balance]) -> usize {
        let (mut length, mut kept) = (0, self.shared().kept());
        // SAFETY: this thread alone has each CPU. Its handle is moved to the row for the call, and
        // back.
        let mut row: Vec<ffi::Cpu> =
            cpus.iter().map(|cpu| unsafe { cpu.handle().read() }).collect();
        let handles = row.as_mut_ptr();
        // SAFETY: the keeper is locked, the CPUs are all of its registry, and there are so many.
        let answer = unsafe {
            ffi::kupaldiz_audit(
                &mut kept.keeper,
                handles,
                cpus.len(),
                list.as_mut_ptr(),
                list.len(),
                &mut length,
            )
        };
        // SAFETY: as above.
        row.into_iter().zip(cpus).for_each(|(handle, cpu)| unsafe { cpu.handle().write(handle) });
        assert_eq!(answer, ffi::DONE, "an audit by all CPUs");
        length
    }
}

impl<T> Cpu<T> {
    /// Waits until each section that is open now has ended: `pserialize_perform`. It is for what
    /// sections use that is in no entry: an entry needs no such wait.
    ///
    /// If this thread has a section open on another CPU, nothing ends it while the thread waits:
    /// with [`Patience::Forever`] it waits for ever.
    ///
    /// # Errors
    ///
    /// `Inside`, `Waiting` with the lowest-numbered CPU whose section wasn't seen to have ended.
    pub fn synchronize(&self, patience: impl Into<Patience>) -> Result<(), SynchronizeError> {
        let (mut pauses, mut wait) = (Pauses::new(patience.into()), ffi::Wait::EMPTY);
        // SAFETY: the keeper is locked, the CPU is this thread's, both are of one registry, and
        // their handles aren't empty.
        let answer = unsafe {
            ffi::kupaldiz_perform_begin(&mut self.shared().kept().keeper, self.handle(), &mut wait)
        };
        checked(answer).map_err(|answer| SynchronizeError::of(answer, 0))?;
        self.release_dropped();
        loop {
            let ended = self.perform_turn(&mut wait);
            if !matches!(ended, Err(SynchronizeError::Waiting(_))) || !pauses.another() {
                return ended;
            }
        }
    }

    /// One turn of the wait.
    fn perform_turn(&self, wait: &mut ffi::Wait) -> Result<(), SynchronizeError> {
        let (mut waited, mut kept) = (0, self.shared().kept());
        let (keeper, cpu) = (&mut kept.keeper, self.handle());
        // SAFETY: as for `synchronize`; the wait is one that this CPU began, and only these turns
        // write it.
        let answer = unsafe { ffi::kupaldiz_perform_turn(keeper, cpu, wait, &mut waited) };
        checked(answer).map_err(|answer| SynchronizeError::of(answer, waited))
    }
}

/// How a registry ends: what is in it is taken out, and then it is closed.
impl<T> Registry<T> {
    /// Detaches all live entries, and destroys each, an interface before its driver. A time or a
    /// deadline is for all of them, and [`Patience::Turns`] for each. What is deferred is freed
    /// meanwhile. Entries that are attached meanwhile are left.
    ///
    /// ```
    /// use kupaldiz::{Registry, Settings};
    /// use std::time::Duration;
    ///
    /// let registry = Registry::open(Settings::new(1, 2)).unwrap();
    /// registry.attach("wm", "seven").unwrap();
    /// let drained = registry.drain(Duration::from_secs(1)).unwrap();
    /// assert_eq!((drained.freed[0].value, drained.held.len()), ("seven", 0));
    /// registry.close(Duration::from_secs(1)).unwrap();
    /// ```
    ///
    /// # Errors
    ///
    /// `NoCpu`: nothing is detached then.
    pub fn drain(&self, patience: impl Into<Patience>) -> Result<Drained<T>, DetachError> {
        let patience = patience.into();
        let tokens = self.seats.with(Cpu::detach_all).ok_or(DetachError::NoCpu)?;
        let (mut freed, mut held) = (self.free_deferred(), Vec::new());
        for token in tokens {
            // An interface that is deferred may be what holds its driver.
            let done = token.destroy_while(None, patience, || freed.extend(self.free_deferred()));
            match done {
                Ok(one) => freed.push(one),
                Err(error) => held.push(error),
            }
        }
        freed.extend(self.free_deferred());
        Ok(Drained { freed, held })
    }

    /// Closes the registry, once this is its only handle, and drops what its entries carry. Until
    /// then it waits as long as the patience says. If several handles are closed at once, one
    /// of these calls closes the registry, and the others return when it is closed.
    ///
    /// ```
    /// use kupaldiz::{Patience, Registry, Settings};
    ///
    /// let registry = Registry::open(Settings::new(1, 1)).unwrap();
    /// registry.attach("wm", 7).unwrap();
    /// let held = registry.get("wm").unwrap();
    /// let refused = registry.close(Patience::Turns(3)).unwrap_err();
    /// assert_eq!(refused.to_string(), "the registry has another handle");
    /// drop(held);
    /// refused.given.close(Patience::Forever).unwrap();
    /// ```
    ///
    /// # Errors
    ///
    /// `StillOpen`, if another handle exists: a `Registry`, a [`Cpu`], a
    /// [`LocalRef`](crate::LocalRef) or a [`Retired`]. The registry is returned.
    pub fn close(
        self,
        patience: impl Into<Patience>,
    ) -> Result<(), Refused<CloseError, Registry<T>>> {
        let mut pauses = Pauses::new(patience.into());
        let closing = Arc::clone(&self.shared().end.closing);
        if closing.is_awaited.swap(true, Ordering::SeqCst) {
            return self.close_beside(&closing, pauses);
        }
        self.alone(&mut pauses).map(drop).map_err(|given| {
            closing.is_awaited.store(false, Ordering::SeqCst);
            Refused { refusal: CloseError::StillOpen, given }
        })
    }

    /// What all handles share, once this is the only one, as long as the patience lasts. No close
    /// of another handle is waited for.
    pub(crate) fn alone(mut self, pauses: &mut Pauses) -> Result<Shared<T>, Registry<T>> {
        loop {
            self = match Arc::try_unwrap(self.seats).map(|last| Arc::try_unwrap(last.into_shared()))
            {
                Ok(Ok(shared)) => return Ok(shared),
                Ok(Err(shared)) => Registry::of(shared),
                Err(seats) => Registry { seats },
            };
            if !pauses.another() {
                return Err(self);
            }
        }
    }

    /// Waits beside another close, which would wait for this handle: so it is none meanwhile.
    fn close_beside(
        self,
        closing: &Closing,
        mut pauses: Pauses,
    ) -> Result<(), Refused<CloseError, Registry<T>>> {
        let open = Arc::downgrade(self.shared());
        drop(self);
        while !closing.is_closed.load(Ordering::SeqCst) {
            if !pauses.another() {
                if let Some(given) = open.upgrade().map(Registry::of) {
                    return Err(Refused { refusal: CloseError::StillOpen, given });
                }
                // It is being closed.
                pauses = Pauses::new(Patience::Forever);
            }
        }
        Ok(())
    }
}

/// What [`Registry::drain`] has freed, and what it hasn't.
#[non_exhaustive]
pub struct Drained<T> {
    /// What is freed.
    pub freed: Vec<Freed<T>>,
    /// What is still held, with what holds it.
    pub held: Vec<Refused<DestroyError, Retired<T>>>,
}

impl<T> fmt::Debug for Drained<T> {
    fn fmt(&self, f: &mut fmt::Formatter<'_>) -> fmt::Result {
        f.debug_struct("Drained").field("freed", &self.freed).field("held", &self.held).finish()
    }
}

impl<T> Clone for Registry<T> {
    fn clone(&self) -> Registry<T> {
        Registry { seats: Arc::clone(&self.seats) }
    }
}

impl<T> PartialEq for Registry<T> {
    /// Whether both are handles of one registry.
    fn eq(&self, other: &Registry<T>) -> bool {
        Arc::ptr_eq(self.shared(), other.shared())
    }
}

impl<T> Eq for Registry<T> {}

impl<T> Hash for Registry<T> {
    fn hash<H: Hasher>(&self, state: &mut H) {
        Arc::as_ptr(self.shared()).hash(state);
    }
}

impl<T> fmt::Debug for Registry<T> {
    fn fmt(&self, f: &mut fmt::Formatter<'_>) -> fmt::Result {
        f.debug_struct("Registry").field("settings", &self.settings()).finish_non_exhaustive()
    }
}
