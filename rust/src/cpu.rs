//! A CPU of a registry.

use crate::carried::Record;
use crate::ffi;
use crate::places::Hold;
use crate::registry::Registry;
use crate::shared::{Lease, Shared};
use crate::tasks::{Tasks, Until};
use std::cell::{Cell, RefCell, UnsafeCell};
use std::fmt;
use std::mem;
use std::panic::Location;
use std::sync::Arc;

/// One of the registry's CPUs, for the thread that has it: for those who count cycles, since a
/// lookup on it takes no step that another thread waits for. It is a handle, not a processor. It
/// co-owns its registry. It may be stored, and go to another thread. Sections and passive
/// references borrow it: a struct that owns both has a [`PassiveRc`](crate::PassiveRc). More
/// threads than CPUs share them by a [`CpuPool`](crate::CpuPool), or make the calls of
/// [`Registry`].
///
/// A CPU that is dropped goes back to its registry.
///
/// ```
/// use kupaldiz::{Name, Registry, Settings};
/// use std::thread;
///
/// const SEVEN: Name = Name::from_id(7);
///
/// let registry = Registry::open(Settings::new(2, 1)).unwrap();
/// let cpu = registry.any_cpu().unwrap();
/// cpu.attach(SEVEN, "seven").unwrap();
/// let read = move || *cpu.read(&SEVEN).unwrap();
/// assert_eq!(thread::spawn(read).join().unwrap(), "seven");
/// assert_eq!(registry.cpus().len(), 2);
/// ```
// A release writes `given_back`, so two CPUs lie on cache lines of their own.
#[repr(align(128))]
pub struct Cpu<T> {
    /// In a cell, so that sections and references can be had at once. A CPU isn't `Sync`, and no
    /// call calls back: one call at a time.
    handle: UnsafeCell<ffi::Cpu>,
    lease: Arc<Lease<T>>,
    /// The share of a local reference that was released here, for the next one that is acquired.
    given_back: Cell<Option<Arc<Lease<T>>>>,
    /// The row of its last walk, for the next one.
    pub(crate) spare_row: Cell<Vec<ffi::Entry>>,
    /// What tasks are owed where the crate has chosen it: nobody's code runs until it is given
    /// back. The slots whose local references were let go.
    pub(crate) owed: RefCell<Option<Vec<usize>>>,
    /// The number of the registry.
    pub(crate) registry_id: u64,
    id: u8,
    is_tracked: bool,
}

impl<T> Cpu<T> {
    /// Safety: the handle is of the CPU with this number, of this registry.
    unsafe fn new(shared: Arc<Shared<T>>, id: u8, handle: ffi::Cpu) -> Cpu<T> {
        Cpu {
            handle: UnsafeCell::new(handle),
            registry_id: shared.id,
            is_tracked: shared.notes.is_some(),
            lease: Arc::new(Lease { shared }),
            given_back: Cell::new(None),
            spare_row: Cell::default(),
            owed: RefCell::new(None),
            id,
        }
    }

    /// The CPU with this number, if it is spare.
    pub(crate) fn spare(shared: &Arc<Shared<T>>, id: u8) -> Option<Cpu<T>> {
        let handle = shared.take_cpu(id)?;
        // SAFETY: it is the handle of this CPU, and of nobody else.
        Some(unsafe { Cpu::new(Arc::clone(shared), id, handle) })
    }

    #[inline]
    pub(crate) fn handle(&self) -> *mut ffi::Cpu {
        self.handle.get()
    }

    #[inline]
    pub(crate) fn shared(&self) -> &Arc<Shared<T>> {
        &self.lease.shared
    }

    /// Whether it is of this registry. Both are open, so two registries have two addresses.
    #[inline]
    pub(crate) fn is_of(&self, shared: &Arc<Shared<T>>) -> bool {
        Arc::ptr_eq(self.shared(), shared)
    }

    /// A share of the registry for a local reference.
    #[inline]
    pub(crate) fn share(&self) -> Arc<Lease<T>> {
        self.given_back.take().unwrap_or_else(|| Arc::clone(&self.lease))
    }

    /// Keeps the share of a local reference that was released here, if this CPU acquired it.
    #[inline]
    pub(crate) fn keep_share(&self, lease: Arc<Lease<T>>) {
        if Arc::ptr_eq(&lease, &self.lease) {
            self.given_back.set(Some(lease));
        }
    }

    /// Its number, from 0.
    pub fn id(&self) -> u8 {
        self.id
    }

    /// The registry that it is of.
    pub fn registry(&self) -> Registry<T> {
        Registry::of(Arc::clone(self.shared()))
    }

    /// The number of open sections, one nested in another: 0 outside.
    pub fn depth(&self) -> u8 {
        let mut depth = 0;
        // SAFETY: this thread alone has the CPU, whose handle isn't empty.
        unsafe { ffi::kupaldiz_depth(self.handle(), &mut depth) };
        depth as u8
    }

    /// Whether a section is open.
    pub fn is_inside(&self) -> bool {
        self.depth() != 0
    }

    /// Exits all sections that are still open. Their guards were forgotten: a guard that lives
    /// borrows the CPU.
    pub fn leave(&mut self) {
        self.exit_all();
        self.wake(self.tasks());
    }

    /// The same, and wakes nobody.
    pub(crate) fn exit_all(&mut self) {
        // SAFETY: as for `depth`. No guard lives, so nothing that was found in these sections is in
        // use.
        while unsafe { ffi::kupaldiz_exit(self.handle()) } == ffi::DONE {}
        self.left();
    }

    /// Whether this CPU has a passive reference to the entry with that number: `psref_held`.
    pub fn holds(&self, number: u64) -> bool {
        // SAFETY: this thread alone has the CPU, and no call of it writes the handle meanwhile.
        unsafe { &*self.handle() }.holds(number)
    }

    /// The tasks that wait for retired entries. Where it counts, they are looked for before the
    /// call that lets something go, so that this doesn't wait for the call's atomic steps.
    #[inline]
    pub(crate) fn tasks(&self) -> &Tasks<Until> {
        &self.shared().tasks
    }

    /// Wakes the tasks that wait for this CPU, where a section ended, a reference was released, or
    /// a lookup is over. It is the last thing that a call does.
    #[inline]
    pub(crate) fn wake(&self, tasks: &Tasks<Until>) {
        if tasks.are_any() && self.let_go(&[]) {
            self.wake_noted(tasks);
        }
    }

    #[cold]
    fn wake_noted(&self, tasks: &Tasks<Until>) {
        tasks.wake(|number, until| self.lets_go(number, *until));
    }

    /// Whether this CPU doesn't hold, or holds no more, what a task waits for that awaits the entry
    /// with this number.
    pub(crate) fn lets_go(&self, number: u64, until: Until) -> bool {
        match until {
            Until::Exit(cpu) => cpu == self.id && !self.is_inside(),
            Until::Release(cpu) => cpu == self.id && !self.holds(number),
            Until::Local(_) => false,
            Until::Any => true,
        }
    }

    /// Local references to the entries in these slots were let go: tasks are woken, or are owed it.
    /// Whether they may be woken.
    #[inline]
    pub(crate) fn let_go(&self, slots: &[usize]) -> bool {
        if let Some(owed) = &mut *self.owed.borrow_mut() {
            // A task that is noted after this looks once more.
            if self.tasks().are_any() {
                owed.extend(slots);
            }
            return false;
        }
        if !slots.is_empty() {
            self.shared().wake_for_slots(slots);
        }
        true
    }
}

/// The places that are noted, where they are.
impl<T> Cpu<T> {
    /// Notes where a reference to the entry was acquired.
    #[inline]
    pub(crate) fn noted(
        &self,
        hold: Hold,
        mut record: Record<T>,
        at: &'static Location<'static>,
    ) -> Record<T> {
        record.plain.ticket = self.ticket(hold, record.plain.number, at);
        record
    }

    /// The ticket of a note that a reference was acquired, to the entry with this number; 0 where
    /// nothing is noted.
    #[inline]
    pub(crate) fn ticket(&self, hold: Hold, number: u64, at: &'static Location<'static>) -> u32 {
        if self.is_tracked {
            self.note(hold, number, at)
        } else {
            0
        }
    }

    #[cold]
    fn note(&self, hold: Hold, number: u64, at: &'static Location<'static>) -> u32 {
        self.shared().noted(|notes| notes.acquired(hold, self.id, number, at))
    }

    /// The CPU is about to enter a section.
    #[inline]
    pub(crate) fn enters(&self, at: &'static Location<'static>) {
        if self.is_tracked {
            self.note_section(Some(at));
        }
    }

    /// It has exited, or hasn't entered.
    #[inline]
    pub(crate) fn left(&self) {
        if self.is_tracked {
            self.note_section(None);
        }
    }

    #[cold]
    fn note_section(&self, at: Option<&'static Location<'static>>) {
        if !self.is_inside() {
            self.shared().noted(|notes| match at {
                Some(at) => notes.entered(self.id, at),
                None => notes.ended(u32::from(self.id)),
            });
        }
    }
}

/// The release of local references.
impl<T> Cpu<T> {
    /// Releases all local references that were dropped without a CPU before the call, on any
    /// thread. It may wait for the interlock.
    pub fn release_dropped(&self) {
        if self.shared().baskets.has_any() {
            self.let_go(&self.release_all());
        }
    }

    /// The same, and wakes nobody. The slots of what was released.
    fn release_all(&self) -> Vec<usize> {
        let slots: Vec<usize> = self.shared().baskets.slots().collect();
        slots.iter().for_each(|slot| self.release_of(*slot));
        slots
    }

    /// Releases those that are to the entry in this slot.
    #[inline]
    pub(crate) fn release_to(&self, slot: usize) {
        if self.shared().baskets.has(slot) {
            self.release_of(slot);
            self.let_go(&[slot]);
        }
    }

    #[cold]
    fn release_of(&self, slot: usize) {
        for local in self.shared().baskets.take(slot) {
            // SAFETY: what lies in a registry's baskets is of it.
            unsafe { self.release_local(local) };
        }
    }

    /// Releases a reference, under the interlock where this CPU's count was collected. It wakes
    /// nobody. Safety: the reference is of this registry.
    #[inline]
    pub(crate) unsafe fn release_local(&self, mut local: ffi::Local) {
        // SAFETY: this thread alone has the CPU, whose handle isn't empty, and the caller upholds
        // the contract for the reference.
        if unsafe { ffi::kupaldiz_try_release_local(self.handle(), &mut local) } != ffi::DONE {
            let mut kept = self.shared().kept();
            let (keeper, cpu) = (&mut kept.keeper, self.handle());
            // SAFETY: the keeper is locked, and of the reference's registry.
            unsafe { ffi::kupaldiz_release_local_locked(keeper, cpu, &mut local) };
        }
        debug_assert!(local.is_empty(), "it is released on a CPU");
    }

    /// The passive reference of C to this entry, which this CPU has.
    #[inline]
    pub(crate) fn passive(&self, record: Record<T>) -> ffi::Passive {
        ffi::Passive { entry: record.to_c(), cpu: u64::from(self.id) }
    }
}

impl<T> AsRef<Cpu<T>> for Cpu<T> {
    fn as_ref(&self) -> &Cpu<T> {
        self
    }
}

impl<T> Drop for Cpu<T> {
    /// Leaves, and goes back to its registry. What it refers to passively by then was forgotten,
    /// and stays held. It wakes all tasks: as CPUs go, a task of a runtime that is gone goes, too.
    /// As a CPU goes that the crate has chosen, its seats wake them.
    fn drop(&mut self) {
        self.exit_all();
        self.release_all();
        let handle = mem::replace(self.handle.get_mut(), ffi::Cpu::EMPTY);
        // SAFETY: it is this CPU's, which is gone.
        unsafe { self.shared().put_cpu(self.id, handle) };
        if self.owed.get_mut().is_none() {
            self.tasks().wake(|_, _| true);
        }
    }
}

impl<T> fmt::Debug for Cpu<T> {
    fn fmt(&self, f: &mut fmt::Formatter<'_>) -> fmt::Result {
        f.debug_struct("Cpu").field("id", &self.id).field("depth", &self.depth()).finish()
    }
}
