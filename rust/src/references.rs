//! References to entries: passive ones, which stay with their CPU, and local ones.

use crate::carried::{Carried, Plain, Record};
use crate::cpu::Cpu;
use crate::error::{checked, LookUpError};
use crate::ffi;
use crate::lock::{locked, locked_mut, Mutex};
use crate::places::Hold;
use crate::shared::{Lease, Shared};
use crate::values::Entry;
use std::alloc::{handle_alloc_error, Layout};
use std::mem;
use std::ops::Deref;
use std::panic::Location;
use std::rc::Rc;
use std::sync::Arc;

/// A passive reference, of psref(9). Its entry keeps its slot and its value until the reference is
/// dropped. It outlives the section, and its holder may sleep. It has its CPU as a `C`, so neither
/// can leave the thread, and it is released on that CPU. It derefs to what the entry carries.
#[must_use = "a reference that is dropped at once holds nothing"]
pub struct Passive<C: Deref<Target = Cpu<T>>, T> {
    cpu: C,
    record: Record<T>,
}

/// A passive reference that borrows its CPU: [`Cpu::get`].
pub type PassiveRef<'cpu, T> = Passive<&'cpu Cpu<T>, T>;

/// A passive reference that co-owns its CPU, in an [`Rc`]: [`Cpu::get_rc`].
pub type PassiveRc<T> = Passive<Rc<Cpu<T>>, T>;

impl<C: Deref<Target = Cpu<T>>, T> Passive<C, T> {
    /// Safety: a reference to the entry was acquired on the CPU for this one. The `C` is always of
    /// that CPU.
    #[inline]
    pub(crate) unsafe fn new(cpu: C, record: Record<T>) -> Self {
        Passive { cpu, record }
    }

    /// Its CPU.
    #[inline]
    pub fn cpu(reference: &Self) -> &C {
        &reference.cpu
    }

    /// Its entry, as it was attached.
    #[inline]
    pub fn entry(reference: &Self) -> Entry {
        reference.record.plain.entry(reference.cpu.registry_id)
    }

    /// Acquires one more, to the same entry, also once it is detached: `psref_copy`.
    ///
    /// # Errors
    ///
    /// `PassiveFull`.
    #[inline]
    #[track_caller]
    pub fn try_clone(reference: &Self) -> Result<Self, LookUpError>
    where
        C: Clone,
    {
        let (cpu, record) = (&reference.cpu, reference.record);
        let (from, mut copy) = (cpu.passive(record), ffi::Passive::default());
        // SAFETY: this thread alone has the CPU, whose handle isn't empty.
        checked(unsafe { ffi::kupaldiz_copy(cpu.handle(), &from, &mut copy) })
            .map_err(LookUpError::of)?;
        let record = cpu.noted(Hold::Passive, record, Location::caller());
        // SAFETY: it was acquired above.
        Ok(unsafe { Passive::new(cpu.clone(), record) })
    }

    /// Releases it, as dropping it does.
    #[inline]
    pub fn release(reference: Self) {
        drop(reference);
    }
}

impl<C: Deref<Target = Cpu<T>>, T> Deref for Passive<C, T> {
    type Target = T;

    #[inline]
    fn deref(&self) -> &T {
        // SAFETY: kupaldiz.h says of a passive reference that the entry keeps its slot until it is
        // released, which this one's drop does.
        unsafe { self.record.carried.value() }
    }
}

impl<C: Deref<Target = Cpu<T>>, T> Drop for Passive<C, T> {
    #[inline]
    fn drop(&mut self) {
        let (cpu, tasks) = (&*self.cpu, self.cpu.tasks());
        // SAFETY: this thread alone has the CPU, whose handle isn't empty. One release for the one
        // acquire that made the reference.
        let answer = unsafe { ffi::kupaldiz_release(cpu.handle(), &mut cpu.passive(self.record)) };
        debug_assert_eq!(answer, ffi::DONE, "the CPU has the reference");
        cpu.shared().ended(self.record.plain.ticket);
        cpu.wake(tasks);
    }
}

/// A local reference, of localcount(9). Its entry keeps its slot and its value until the reference
/// is released, on any CPU of the registry. It derefs to what the entry carries. It co-owns its
/// registry. It may be stored, and other threads may use it, clone it and take it.
///
/// ```
/// use kupaldiz::{Registry, Settings};
/// use std::thread;
///
/// let registry = Registry::open(Settings::new(1, 1)).unwrap();
/// registry.attach("wm", 7).unwrap();
/// let reference = registry.get("wm").unwrap();
/// let other = reference.clone();
/// assert_eq!(thread::spawn(move || *other).join().unwrap(), 7);
/// let retired = registry.detach("wm").unwrap();
/// assert_eq!(*reference.clone(), 7); // also of an entry that is detached
/// # drop((reference, retired));
/// ```
///
/// A clone needs no CPU and no lookup. To the registry a reference and its clones are one: the last
/// of them that is released lets the entry go.
///
/// # Dropped without a CPU
///
/// Dropping a reference on any thread is safe. But a release needs a CPU. So the drop takes a short
/// lock, lays the reference into a list of its entry's, and leaves the entry held until a later
/// call releases what is in the list:
///
/// | Call | takes the lists of |
/// |---|---|
/// | an acquire or a release of a local reference on a CPU | its entry |
/// | an attach, a detach, a retire, a synchronize, an audit, each try of a destroy on a CPU after the first, a CPU that is dropped | all entries |
/// | a try to free a retired entry that only local references hold | this entry |
///
/// So no more references wait than were held at one time.
/// [`Registry::dropped`](crate::Registry::dropped) returns how many. If there is no memory for the
/// list to grow, the dropped reference stays held for good, and its entry is never freed. A
/// reference that is forgotten stays held, too, and keeps its registry open.
#[must_use = "a reference that is dropped at once holds nothing"]
pub struct LocalRef<T> {
    carried: Carried<T>,
    /// The ticket of its note, or 0.
    ticket: u32,
    /// Empty once it was spent. Two threads may clone it at once.
    local: Mutex<ffi::Local>,
    /// Of the CPU that acquired it.
    lease: Option<Arc<Lease<T>>>,
}

impl<T> LocalRef<T> {
    /// Safety: it is a reference that the lease's CPU acquired.
    #[inline]
    pub(crate) unsafe fn new(lease: Arc<Lease<T>>, ticket: u32, local: ffi::Local) -> LocalRef<T> {
        let carried = Record::of(&local.entry).carried;
        LocalRef { carried, ticket, local: Mutex::new(local), lease: Some(lease) }
    }

    #[inline]
    fn shared(&self) -> Option<&Arc<Shared<T>>> {
        self.lease.as_ref().map(|lease| &lease.shared)
    }

    /// The slot of its entry.
    #[inline]
    pub(crate) fn slot(&self) -> usize {
        self.plain().slot()
    }

    #[inline]
    fn plain(&self) -> Plain {
        Record::<T>::of(&locked(&self.local).entry).plain
    }

    /// Its entry, as it was attached.
    #[inline]
    pub fn entry(reference: &Self) -> Entry {
        reference.plain().entry(reference.shared().map_or(0, |shared| shared.id))
    }

    /// Releases it on this CPU, which needn't be the one that acquired it: `localcount_release`. If
    /// the entry is being destroyed, the call may wait for the interlock. At a CPU of another
    /// registry it does what a drop does.
    // Inlined, it is never moved as a whole: a pair of an acquire and a release takes an eighth
    // less.
    #[inline(always)]
    pub fn release(mut reference: Self, cpu: &Cpu<T>) {
        if !reference.shared().map_or(false, |shared| cpu.is_of(shared)) {
            return;
        }
        let local = mem::replace(locked_mut(&mut reference.local), ffi::Local::empty());
        let (slot, lease) = (local.entry.slot as usize, reference.lease.take());
        cpu.shared().ended(reference.ticket);
        // Nothing is left in it to drop. A drop would need its address, and so its fields in
        // memory.
        mem::forget(reference);
        // SAFETY: the CPU is of the reference's registry.
        unsafe { cpu.release_local(local) };
        if let Some(lease) = lease {
            cpu.keep_share(lease);
        }
        cpu.let_go(&[slot]);
        cpu.release_to(slot);
    }

    /// Notes the caller's line and thread in place of those that acquired the reference, if its
    /// registry was opened by [`open_tracked`](crate::Registry::open_tracked). Call it where
    /// the reference has come to.
    #[track_caller]
    pub fn note_here(reference: &Self) {
        let at = Location::caller();
        if let Some(shared) = reference.shared() {
            shared.noted(|notes| notes.moved(reference.ticket, at));
        }
    }
}

impl<T> Clone for LocalRef<T> {
    /// One more reference to the same entry, also once that is detached. Where memory runs out, the
    /// process aborts, as with a `Box`.
    #[track_caller]
    fn clone(&self) -> LocalRef<T> {
        let at = Location::caller();
        let mut copy = ffi::Local::empty();
        // SAFETY: the lock is held, so no other call uses the reference, which isn't empty.
        let answer = unsafe { ffi::kupaldiz_copy_local(&mut *locked(&self.local), &mut copy) };
        if answer != ffi::DONE {
            handle_alloc_error(Layout::new::<ffi::Local>());
        }
        let ticket =
            self.shared().map_or(0, |shared| shared.noted(|notes| notes.cloned(self.ticket, at)));
        LocalRef {
            carried: self.carried,
            ticket,
            local: Mutex::new(copy),
            lease: self.lease.clone(),
        }
    }
}

impl<T> Deref for LocalRef<T> {
    type Target = T;

    #[inline]
    fn deref(&self) -> &T {
        // SAFETY: kupaldiz.h says of a local reference that it outlives the section and keeps its
        // entry until it is released; a release and its drop take it away from whoever has it.
        unsafe { self.carried.value() }
    }
}

impl<T> Drop for LocalRef<T> {
    #[inline]
    fn drop(&mut self) {
        let local = mem::replace(locked_mut(&mut self.local), ffi::Local::empty());
        if let (false, Some(shared)) = (local.is_empty(), self.shared()) {
            let slot = local.entry.slot as usize;
            shared.ended(self.ticket);
            shared.baskets.lay(local);
            shared.wake_for_slots(&[slot]);
        }
    }
}
