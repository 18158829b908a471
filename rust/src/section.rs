//! Sections on a CPU, what is found in them, and lookups by one call.

use crate::carried::Record;
use crate::cpu::Cpu;
use crate::error::{checked, LookUpError};
use crate::ffi;
use crate::places::Hold;
use crate::references::{LocalRef, PassiveRc, PassiveRef};
use crate::values::Entry;
use crate::Key;
use std::fmt;
use std::iter::FusedIterator;
use std::marker::PhantomData;
use std::mem;
use std::ops::Deref;
use std::panic::Location;
use std::rc::Rc;

/// An open section, or one nesting of it. An entry that is found in it keeps its slot and its value
/// while it is open. Dropping it exits.
///
/// It stays with its thread, so it isn't held across an `.await` of a future that may move to
/// another.
#[must_use = "a section that is dropped at once protects nothing"]
pub struct Section<'cpu, T> {
    cpu: &'cpu Cpu<T>,
}

impl<'cpu, T> Section<'cpu, T> {
    /// Looks a live entry up. It takes no lock, waits for no other thread, and writes no word that
    /// other CPUs write.
    ///
    /// The result is what the registry had at one moment during the call, however long the section
    /// has been open. So the call finds an entry whose attach returned before, unless that is
    /// detached meanwhile. It doesn't find an entry whose detach returned before.
    #[inline]
    #[must_use]
    pub fn find(&self, key: impl Into<Key>) -> Option<Found<'_, 'cpu, T>> {
        // SAFETY: it is such a call.
        match unsafe { self.cpu.found_by(ffi::kupaldiz_find, key.into()) } {
            // SAFETY: this section is open for as long as it is borrowed.
            Ok(record) => Some(unsafe { Found::new(self.cpu, record) }),
            Err(answer) => {
                assert_eq!(LookUpError::of(answer), LookUpError::NotFound, "in a section");
                None
            }
        }
    }

    /// All live entries, the newest first; one that replaced another is in that one's place.
    ///
    /// An entry that was attached before this CPU entered its outermost section is there, once,
    /// unless it is detached or replaced before the call returns. A name that had an entry then has
    /// exactly one, unless that is detached. An entry that was detached before isn't there.
    ///
    /// ```
    /// use kupaldiz::{Found, Registry, Settings};
    ///
    /// let registry = Registry::open(Settings::new(1, 3)).unwrap();
    /// for (text, speed) in [("wm", 1000), ("bge", 100), ("ixl", 40_000)] {
    ///     registry.attach(text, speed).unwrap();
    /// }
    /// let cpu = registry.any_cpu().unwrap();
    /// let section = cpu.enter().unwrap();
    /// let names: Vec<_> = section.entries().map(|found| Found::entry(&found).name).collect();
    /// assert_eq!(names, ["ixl", "bge", "wm"]);
    /// ```
    #[inline]
    pub fn entries(&self) -> Entries<'_, 'cpu, T> {
        let (cpu, section, room) =
            (self.cpu, PhantomData, usize::from(self.cpu.shared().settings.slots));
        let (mut row, mut count) = (cpu.spare_row.take(), 0);
        row.clear();
        row.reserve_exact(room);
        // SAFETY: this thread alone has the CPU, whose handle isn't empty, and the row has the room
        // that is told.
        let answer =
            unsafe { ffi::kupaldiz_walk(cpu.handle(), row.as_mut_ptr(), room, &mut count) };
        assert_eq!(answer, ffi::DONE, "a walk in a section");
        // SAFETY: a walk that is done has written so many entries, within the room.
        unsafe { row.set_len(count) };
        Entries { row, next: 0, cpu, section }
    }

    /// Whether a live entry has this name, as [`find`](Section::find) finds it.
    #[inline]
    #[must_use]
    pub fn contains(&self, key: impl Into<Key>) -> bool {
        self.find(key).is_some()
    }

    /// The CPU that it is on.
    pub fn cpu(&self) -> &'cpu Cpu<T> {
        self.cpu
    }

    /// Exits, as dropping it does: `pserialize_read_exit`.
    #[inline]
    pub fn exit(self) {}
}

impl<'section, 'cpu, T> IntoIterator for &'section Section<'cpu, T> {
    type Item = Found<'section, 'cpu, T>;
    type IntoIter = Entries<'section, 'cpu, T>;

    /// As [`Section::entries`].
    #[inline]
    fn into_iter(self) -> Entries<'section, 'cpu, T> {
        self.entries()
    }
}

impl<T> Drop for Section<'_, T> {
    #[inline]
    fn drop(&mut self) {
        let tasks = self.cpu.tasks();
        // SAFETY: as for `find`. One exit for the one enter that made the guard, so the CPU is
        // inside.
        unsafe { ffi::kupaldiz_exit(self.cpu.handle()) };
        self.cpu.left();
        self.cpu.wake(tasks);
    }
}

impl<T> fmt::Debug for Section<'_, T> {
    fn fmt(&self, f: &mut fmt::Formatter<'_>) -> fmt::Result {
        f.debug_struct("Section").field("cpu", &self.cpu.id()).finish()
    }
}

/// An entry that was found in a section, for as long as the section is open. It derefs to what the
/// entry carries. To use the entry longer, acquire a reference. Its functions are called by the
/// type's name, so that none hides a method of `T`.
pub struct Found<'section, 'cpu, T> {
    record: Record<T>,
    cpu: &'cpu Cpu<T>,
    section: PhantomData<&'section Section<'cpu, T>>,
}

impl<T> Clone for Found<'_, '_, T> {
    #[inline]
    fn clone(&self) -> Self {
        *self
    }
}

impl<T> Copy for Found<'_, '_, T> {}

impl<'section, 'cpu, T> Found<'section, 'cpu, T> {
    /// Safety: the CPU found the entry in a section, or an outer one, that is open for as long as
    /// the value lives.
    #[inline]
    pub(crate) unsafe fn new(cpu: &'cpu Cpu<T>, record: Record<T>) -> Self {
        Found { record, cpu, section: PhantomData }
    }

    /// The entry, as it was attached.
    #[inline]
    pub fn entry(found: &Self) -> Entry {
        found.record.plain.entry(found.cpu.registry_id)
    }

    /// What the entry carries, for as long as the section is borrowed: it may outlive the `Found`.
    #[inline]
    pub fn value(found: &Self) -> &'section T {
        // SAFETY: kupaldiz.h says of a find and of a walk that the entry keeps its slot until the
        // section ends, and this borrows the section. The section's guard is there, so the
        // outermost exit is still to come.
        unsafe { found.record.carried.value() }
    }

    /// Acquires a passive reference: `psref_acquire`.
    ///
    /// # Errors
    ///
    /// `NotFound` if this CPU has looked up something else since, the entry was detached, and this
    /// CPU has no reference to it; `PassiveFull`.
    #[inline]
    #[track_caller]
    pub fn acquire(found: &Self) -> Result<PassiveRef<'cpu, T>, LookUpError> {
        let (cpu, record, mut held) = (found.cpu, found.record, ffi::Passive::default());
        // SAFETY: this thread alone has the CPU, whose handle isn't empty.
        checked(unsafe { ffi::kupaldiz_acquire(cpu.handle(), &record.to_c(), &mut held) })
            .map_err(LookUpError::of)?;
        // SAFETY: it was acquired above.
        Ok(unsafe { PassiveRef::new(cpu, cpu.noted(Hold::Passive, record, Location::caller())) })
    }

    /// Acquires a local reference: `localcount_acquire`. The call takes no lock, unless it releases
    /// references that were dropped.
    ///
    /// # Errors
    ///
    /// `NoMemory`, `NotFound` if this CPU has looked up something else since and the entry was
    /// detached, `LocalFull`.
    // Inlined, the reference is never moved as a whole.
    #[inline(always)]
    #[track_caller]
    pub fn acquire_local(found: &Self) -> Result<LocalRef<T>, LookUpError> {
        let (cpu, entry) = (found.cpu, found.record.to_c());
        cpu.release_to(found.record.plain.slot());
        cpu.acquired(Location::caller(), |local| {
            // SAFETY: this thread alone has the CPU, whose handle isn't empty.
            unsafe { ffi::kupaldiz_acquire_local(cpu.handle(), &entry, local) }
        })
    }
}

impl<T> Deref for Found<'_, '_, T> {
    type Target = T;

    #[inline]
    fn deref(&self) -> &T {
        Found::value(self)
    }
}

/// The live entries, the newest first: what [`Section::entries`] met.
#[must_use = "an iterator does nothing until it is asked"]
pub struct Entries<'section, 'cpu, T> {
    row: Vec<ffi::Entry>,
    next: usize,
    cpu: &'cpu Cpu<T>,
    section: PhantomData<&'section Section<'cpu, T>>,
}

impl<T> Drop for Entries<'_, '_, T> {
    /// The row goes back to its CPU.
    #[inline]
    fn drop(&mut self) {
        self.cpu.spare_row.set(mem::take(&mut self.row));
    }
}

impl<T> Entries<'_, '_, T> {
    #[inline]
    fn left(&self) -> &[ffi::Entry] {
        &self.row[self.next..]
    }
}

impl<'section, 'cpu, T> Iterator for Entries<'section, 'cpu, T> {
    type Item = Found<'section, 'cpu, T>;

    #[inline]
    fn next(&mut self) -> Option<Found<'section, 'cpu, T>> {
        let record = Record::of(self.left().first()?);
        self.next += 1;
        // SAFETY: kupaldiz.h says of a walk, as of a find, that what it writes keeps its slot until
        // the section ends, which is borrowed.
        Some(unsafe { Found::new(self.cpu, record) })
    }

    #[inline]
    fn size_hint(&self) -> (usize, Option<usize>) {
        let left = self.left().len();
        (left, Some(left))
    }
}

impl<T> ExactSizeIterator for Entries<'_, '_, T> {}

impl<T> FusedIterator for Entries<'_, '_, T> {}

impl<T> fmt::Debug for Entries<'_, '_, T> {
    fn fmt(&self, f: &mut fmt::Formatter<'_>) -> fmt::Result {
        f.debug_list()
            .entries(
                self.left()
                    .iter()
                    .map(|entry| Record::<T>::of(entry).plain.entry(self.cpu.registry_id)),
            )
            .finish()
    }
}

/// A call of kupaldiz.h that looks an entry up, and writes it.
type LookUp = unsafe extern "C" fn(*mut ffi::Cpu, u32, *const ffi::Name, *mut ffi::Entry) -> u32;

/// Lookups. Each takes what a [`Key`] is made of, such as a [`Name`](crate::Name).
impl<T> Cpu<T> {
    /// Enters a section, or nests one more in the open section: `pserialize_read_enter`. It is open
    /// until the guard is dropped; or, if that is [forgotten](crate#what-is-forgotten), until the
    /// CPU [leaves](Cpu::leave).
    ///
    /// # Errors
    ///
    /// `TooDeep`, `SectionsSpent`.
    #[inline(always)]
    #[track_caller]
    pub fn enter(&self) -> Result<Section<'_, T>, LookUpError> {
        // SAFETY: this thread alone has the CPU, whose handle isn't empty.
        self.enter_by(|| checked(unsafe { ffi::kupaldiz_enter(self.handle()) }))?;
        Ok(Section { cpu: self })
    }

    /// A passive reference to the live entry of this name. The call opens no section, and writes
    /// only the word that counts the reference, if the CPU remembers the entry.
    ///
    /// # Errors
    ///
    /// `SectionsSpent` outside a section, `NotFound`, `PassiveFull`.
    #[inline]
    #[track_caller]
    pub fn get(&self, key: impl Into<Key>) -> Result<PassiveRef<'_, T>, LookUpError> {
        let record = self.get_record(key.into())?;
        // SAFETY: a get that is done has acquired the entry.
        Ok(unsafe { PassiveRef::new(self, record) })
    }

    /// The same reference, which co-owns its CPU, or the same error: a struct may own both.
    #[inline]
    #[track_caller]
    pub fn get_rc(self: &Rc<Self>, key: impl Into<Key>) -> Result<PassiveRc<T>, LookUpError> {
        let record = self.get_record(key.into())?;
        // SAFETY: a get that is done has acquired the entry.
        Ok(unsafe { PassiveRc::new(Rc::clone(self), record) })
    }

    /// A local reference to the live entry of this name. The call takes no lock, unless it releases
    /// references that were dropped.
    ///
    /// # Errors
    ///
    /// `NoMemory`, `SectionsSpent` outside a section, `NotFound`, `LocalFull`.
    #[inline(always)]
    #[track_caller]
    pub fn get_local(&self, key: impl Into<Key>) -> Result<LocalRef<T>, LookUpError> {
        self.get_local_at(key.into(), Location::caller())
    }

    /// The same, for the caller at this line.
    #[inline(always)]
    pub(crate) fn get_local_at(
        &self,
        Key { kind, words }: Key,
        at: &'static Location<'static>,
    ) -> Result<LocalRef<T>, LookUpError> {
        let tasks = self.tasks();
        // SAFETY: this thread alone has the CPU, whose handle isn't empty.
        let get = |local: *mut ffi::Local| unsafe {
            ffi::kupaldiz_get_local(self.handle(), kind.number(), &words, local)
        };
        let mut got = self.acquired(at, get);
        match &got {
            Ok(local) => self.release_to(local.slot()),
            Err(LookUpError::LocalFull) if self.shared().baskets.has_any() => {
                self.release_dropped();
                got = self.acquired(at, get);
            }
            Err(_) => (),
        }
        self.wake(tasks);
        got
    }

    /// The live entry of this name, and the section in which it was found.
    ///
    /// # Errors
    ///
    /// `TooDeep`, `SectionsSpent`, `NotFound`. The CPU is then as deep inside as before.
    #[inline(always)]
    #[track_caller]
    pub fn read(&self, key: impl Into<Key>) -> Result<ReadGuard<'_, T>, LookUpError> {
        let key = key.into();
        // SAFETY: it is such a call.
        let record = self.enter_by(|| unsafe { self.found_by(ffi::kupaldiz_enter_find, key) })?;
        // SAFETY: it was found in the section of the guard, which has both.
        Ok(ReadGuard { found: unsafe { Found::new(self, record) }, section: Section { cpu: self } })
    }

    /// Makes a call that enters a section, whose place is noted.
    // Inlined: else the record is returned in memory, and copied by more bytes at once than C
    // wrote, which waits for these stores.
    #[inline(always)]
    #[track_caller]
    fn enter_by<R>(&self, enter: impl FnOnce() -> Result<R, u32>) -> Result<R, LookUpError> {
        self.enters(Location::caller());
        enter().map_err(|answer| {
            self.left();
            self.wake(self.tasks());
            LookUpError::of(answer)
        })
    }

    /// The record of the live entry of this name, at one moment during the call. Nothing holds the
    /// entry afterwards, so what it carries isn't returned. If the CPU remembers the entry, or that
    /// there is none, the call opens no section and writes no shared word.
    ///
    /// # Errors
    ///
    /// `SectionsSpent` outside a section, `NotFound`.
    #[inline(always)]
    pub fn look_up(&self, key: impl Into<Key>) -> Result<Entry, LookUpError> {
        let tasks = self.tasks();
        // SAFETY: it is such a call.
        let found = unsafe { self.found_by(ffi::kupaldiz_look_up, key.into()) };
        let found = found.map(|record| record.plain.entry(self.registry_id));
        self.wake(tasks);
        found.map_err(LookUpError::of)
    }

    /// Acquires a passive reference. The CPU has it as tasks are woken, which may hear that the
    /// call held another entry until it returned. No wake unwinds: so it is a record until then,
    /// since what is dropped would have to lie in memory.
    #[inline]
    #[track_caller]
    fn get_record(&self, Key { kind, words }: Key) -> Result<Record<T>, LookUpError> {
        let (at, tasks, mut held) = (Location::caller(), self.tasks(), ffi::Passive::default());
        // SAFETY: this thread alone has the CPU, whose handle isn't empty.
        let got =
            checked(unsafe { ffi::kupaldiz_get(self.handle(), kind.number(), &words, &mut held) });
        let got = got.map(|()| self.noted(Hold::Passive, Record::of(&held.entry), at));
        self.wake(tasks);
        got.map_err(LookUpError::of)
    }

    /// The local reference that a call acquires on this CPU.
    #[inline(always)]
    fn acquired(
        &self,
        at: &'static Location<'static>,
        call: impl FnOnce(*mut ffi::Local) -> u32,
    ) -> Result<LocalRef<T>, LookUpError> {
        let mut local = ffi::Local::empty();
        checked(call(&mut local)).map_err(LookUpError::of)?;
        let ticket = self.ticket(Hold::Local, local.entry.number, at);
        // SAFETY: it was acquired above.
        Ok(unsafe { LocalRef::new(self.share(), ticket, local) })
    }

    /// Makes a call that looks an entry up.
    /// Safety: kupaldiz.h says of the call that it looks an entry up on the CPU, and writes it if
    /// it is done.
    #[inline(always)]
    unsafe fn found_by(&self, call: LookUp, Key { kind, words }: Key) -> Result<Record<T>, u32> {
        // SAFETY: this thread alone has the CPU, whose handle isn't empty.
        let call =
            |found: *mut ffi::Entry| unsafe { call(self.handle(), kind.number(), &words, found) };
        // SAFETY: the caller says so.
        unsafe { Record::written(call) }
    }
}

/// An entry together with the section in which it was found: [`Cpu::read`] returns it. It derefs to
/// what the entry carries, and dropping it exits. It stays with its thread.
#[must_use = "a section that is dropped at once protects nothing"]
pub struct ReadGuard<'cpu, T> {
    /// It is lent no longer than the guard lives, which has its section.
    found: Found<'cpu, 'cpu, T>,
    section: Section<'cpu, T>,
}

impl<'cpu, T> ReadGuard<'cpu, T> {
    /// The entry, as it was attached.
    #[inline]
    pub fn entry(guard: &Self) -> Entry {
        Found::entry(&guard.found)
    }

    /// The section, in which more may be found.
    #[inline]
    pub fn section(guard: &Self) -> &Section<'cpu, T> {
        &guard.section
    }

    /// Acquires a passive reference, or fails, as [`Found::acquire`] does.
    #[inline]
    #[track_caller]
    pub fn acquire(guard: &Self) -> Result<PassiveRef<'cpu, T>, LookUpError> {
        Found::acquire(&guard.found)
    }

    /// Acquires a local reference, or fails, as [`Found::acquire_local`] does.
    #[inline]
    #[track_caller]
    pub fn acquire_local(guard: &Self) -> Result<LocalRef<T>, LookUpError> {
        Found::acquire_local(&guard.found)
    }

    /// Exits, as dropping it does.
    #[inline]
    pub fn exit(guard: Self) {
        drop(guard);
    }
}

impl<T> Deref for ReadGuard<'_, T> {
    type Target = T;

    #[inline]
    fn deref(&self) -> &T {
        &self.found
    }
}
