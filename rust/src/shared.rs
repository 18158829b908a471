//! What the handles of a registry share: what the interlock guards, the CPUs that nobody has, and
//! the local references that were dropped.
//!
//! Locks are taken in the order seat, spare, interlock, basket. Nothing under one wakes a task or drops a
//! `T`: foreign.rs has the rule.
//!
//! A driver outlives its interfaces: not only its slot, but its value, too. The value of a driver
//! stays in its row as long as that of an interface on it has a row or is being dropped, and at the
//! closing the younger value is dropped first.

use crate::basket::Baskets;
use crate::carried::{Carried, Plain};
use crate::error::{checked, OpenError};
use crate::ffi;
use crate::foreign::FirstPanic;
use crate::lock::{locked, locked_mut, Mutex, MutexGuard};
use crate::name::Key;
use crate::places::Notes;
use crate::seats::Seats;
use crate::settings::{Settings, LIMITS};
use crate::tasks::{Tasks, Until};
use crate::values::{Entry, Freed, Kind, Met};
use std::cmp::Reverse;
use std::mem;
use std::ptr;
use std::sync::atomic::{AtomicBool, AtomicU64, Ordering};
use std::sync::{Arc, Weak};

/// What the interlock guards.
pub struct Kept<T> {
    pub keeper: ffi::Keeper,
    /// The registry's number.
    id: u64,
    /// Each entry whose value is the registry's: live, retired, or freed for its slot alone.
    rows: Vec<Row<T>>,
    /// The entries without a token, whose values go to later calls.
    pub deferred: Vec<Plain>,
    /// The interfaces whose values a call is dropping, each with its driver.
    dropping: Vec<(u64, u64)>,
}

/// An entry, by its number.
struct Row<T> {
    number: u64,
    /// The driver that an interface keeps.
    driver: Option<u64>,
    carried: Carried<T>,
    state: State,
}

#[derive(Clone, Copy, PartialEq, Eq)]
enum State {
    Live,
    Retired,
    /// Its slot is vacant. Its value waits for its token, or for a call that returns what is
    /// deferred.
    Freed,
}

/// What comes of the value of an entry that a turn frees.
#[derive(Clone, Copy, PartialEq, Eq)]
pub(crate) enum Fate {
    Returned,
    /// The call drops it. Until then it holds its driver.
    Dropped,
}

/// One registry. Its handles own it together: it is closed as the last of them goes.
pub struct Shared<T> {
    /// The interlock.
    kept: Mutex<Kept<T>>,
    /// The handle of each CPU that nobody has; the others are empty.
    spare: Mutex<Vec<ffi::Cpu>>,
    /// Where the CPUs lie that the crate chooses among, from the first `Registry` handle until the
    /// last one has given them back.
    pub seats: Mutex<Option<Weak<Seats<T>>>>,
    pub baskets: Baskets,
    /// The tasks that await an entry, each by the entry's number.
    pub tasks: Tasks<Until>,
    /// Who holds what, if that is noted.
    pub notes: Option<Mutex<Notes>>,
    pub settings: Settings,
    /// Its number, which no other registry of the program has.
    pub id: u64,
    /// Last, since its drop says that all else is dropped.
    pub end: End,
}

/// How far the closing of a registry is.
#[derive(Default)]
pub struct Closing {
    /// Whether a close waits for all other handles to go.
    pub is_awaited: AtomicBool,
    pub is_closed: AtomicBool,
}

#[derive(Default)]
pub struct End {
    pub closing: Arc<Closing>,
}

impl Drop for End {
    fn drop(&mut self) {
        self.closing.is_closed.store(true, Ordering::SeqCst);
    }
}

/// How many registries this program has opened.
static OPENED: AtomicU64 = AtomicU64::new(0);

/// A share in a registry, for the local references that a CPU acquires: each takes a share in the
/// share, whose count no other CPU writes but where a reference goes there.
#[repr(align(128))]
pub struct Lease<T> {
    pub shared: Arc<Shared<T>>,
}

impl<T> Row<T> {
    /// Its entry. The caller holds the interlock, since it has the row.
    fn plain(&self) -> Plain {
        // SAFETY: an attach noted each entry under the interlock, before it made the row. Its value
        // is taken with its row.
        unsafe { self.carried.plain() }
    }
}

impl<T> Kept<T> {
    /// Notes what a new entry carries, and which driver it keeps.
    /// Safety: as of `Carried::note`.
    pub unsafe fn note(&mut self, entry: Plain, carried: Carried<T>, driver: Option<u64>) {
        // SAFETY: as the caller says.
        unsafe { carried.note(entry) };
        self.rows.push(Row { number: entry.number, driver, carried, state: State::Live });
    }

    fn set(&mut self, number: u64, state: State) {
        self.rows.iter_mut().filter(|row| row.number == number).for_each(|row| row.state = state);
    }

    /// The live entry with this number.
    pub fn live(&self, number: u64) -> Option<Plain> {
        self.lives().find(|row| row.number == number).map(Row::plain)
    }

    /// The number of the live entry with this kind and name.
    pub fn named(&self, key: Key) -> Option<u64> {
        self.lives().find(|row| row.plain().key() == key).map(|row| row.number)
    }

    fn lives(&self) -> impl Iterator<Item = &Row<T>> {
        self.rows.iter().filter(|row| row.state == State::Live)
    }

    pub fn live_count(&self) -> usize {
        self.lives().count()
    }

    /// The number of entries that are live or retired.
    pub fn occupied(&self) -> usize {
        self.rows.iter().filter(|row| row.state != State::Freed).count()
    }

    /// The youngest live entry of those with a lower number.
    pub fn youngest_live(&self, number: u64) -> Option<Plain> {
        self.live(self.lives().map(|row| row.number).filter(|other| *other < number).max()?)
    }

    /// The entry was detached, and has a token.
    pub fn retire(&mut self, number: u64) {
        self.set(number, State::Retired);
    }

    /// Whether a slot is vacant.
    pub fn has_slot(&self) -> bool {
        // SAFETY: the keeper's handle isn't empty.
        unsafe { ffi::kupaldiz_room(&self.keeper) != ffi::NO_SLOT }
    }

    /// One turn of C on the retired entry with this number.
    #[inline]
    fn turn(&mut self, number: u64) -> Met {
        let mut met = ffi::Met::default();
        // SAFETY: the keeper is locked, and its handle isn't empty.
        let answer = unsafe { ffi::kupaldiz_destroy(&mut self.keeper, number, &mut met) };
        Met { answer, met }
    }

    /// Takes the row of an entry out, unless the value of an interface on it is there, or is being
    /// dropped.
    /// Safety: a turn has freed the entry with this number, and the caller has its token, if it has
    /// one.
    unsafe fn take(&mut self, number: u64, fate: Fate) -> Result<Freed<T>, Met> {
        let on_it = self.rows.iter().filter(|row| row.driver == Some(number)).count()
            + self.dropping.iter().filter(|(_, driver)| *driver == number).count();
        if on_it > 0 {
            self.set(number, State::Freed);
            return Err(Met::local(on_it as u64));
        }
        // Only a deferred entry may have no row: another thread has freed and returned it.
        let place = self.rows.iter().position(|row| row.number == number).ok_or(Met::NOTHING)?;
        let row = self.rows.swap_remove(place);
        self.deferred.retain(|other| other.number != number);
        if let (Fate::Dropped, Some(driver)) = (fate, row.driver) {
            self.dropping.push((number, driver));
        }
        let entry = row.plain().entry(self.id);
        debug_assert_eq!(entry.number, number, "the row's entry");
        // SAFETY: kupaldiz.h says of a destroy that is done: "on every CPU, now and later: no
        // section may hold it, no passive and no local reference to it is held, and no slot keeps
        // it". Each reference of Rust to the value lives as long as one of these. The number is
        // never reused, and its row is gone, so this is the only time.
        let value = unsafe { row.carried.take() };
        Ok(Freed { entry, value })
    }

    /// One turn on a retired entry, whoever has its token. Its value stays.
    fn vacate(&mut self, number: u64) {
        if self.turn(number).answer == ffi::DONE {
            self.set(number, State::Freed);
        }
    }
}

impl<T> Shared<T> {
    /// A new registry. Nobody has any of its CPUs.
    pub fn open(settings: Settings, is_tracked: bool) -> Result<Shared<T>, OpenError> {
        checked(LIMITS.compared()).map_err(OpenError::of)?;
        let mut keeper = ffi::Keeper::EMPTY;
        let (mut cpus, slots): (Vec<_>, _) =
            ((0..settings.all_cpus()).map(|_| ffi::Cpu::EMPTY).collect(), settings.slots.into());
        // SAFETY: all handles are empty, and there are as many as are told.
        let answer = unsafe {
            ffi::kupaldiz_open(&settings.to_c(), &mut keeper, cpus.as_mut_ptr(), cpus.len())
        };
        checked(answer).map_err(OpenError::of)?;
        let id = OPENED.fetch_add(1, Ordering::Relaxed);
        Ok(Shared {
            kept: Mutex::new(Kept {
                keeper,
                id,
                rows: Vec::with_capacity(slots),
                deferred: Vec::with_capacity(slots),
                dropping: Vec::new(),
            }),
            spare: Mutex::new(cpus),
            seats: Mutex::default(),
            baskets: Baskets::new(slots),
            tasks: Tasks::default(),
            notes: is_tracked.then(Mutex::default),
            settings,
            id,
            end: End::default(),
        })
    }

    /// Does this with the notes of who holds what, if there are any. Else it returns nothing, or 0.
    #[inline]
    pub fn noted<R: Default>(&self, deed: impl FnOnce(&mut Notes) -> R) -> R {
        self.notes.as_ref().map_or_else(R::default, |notes| deed(&mut locked(notes)))
    }

    /// A reference is released. Its ticket is 0 if its place isn't noted.
    #[inline]
    pub fn ended(&self, ticket: u32) {
        if ticket != 0 {
            self.note_ended(ticket);
        }
    }

    #[cold]
    fn note_ended(&self, ticket: u32) {
        self.noted(|notes| notes.ended(ticket));
    }

    /// What follows once whoever calls it has the value of a freed entry, and nothing is half
    /// changed: the tasks hear of it that await its driver.
    pub fn settle(&self, entry: &Entry) {
        self.noted(|notes| notes.freed(entry.number));
        self.tasks.forget(entry.number);
        if entry.kind == Kind::Iface {
            self.tasks.wake(|_, until| until.is_local(|_| true));
        }
    }

    /// Wakes the tasks that wait for local references to the entries in these slots.
    pub fn wake_for_slots(&self, slots: &[usize]) {
        self.tasks.wake(|_, until| until.is_local(|slot| slots.contains(&slot)));
    }

    pub fn kept(&self) -> MutexGuard<'_, Kept<T>> {
        locked(&self.kept)
    }

    pub fn take_cpu(&self, id: u8) -> Option<ffi::Cpu> {
        let mut spare = locked(&self.spare);
        let place = spare.get_mut(usize::from(id))?;
        let cpu = mem::replace(place, ffi::Cpu::EMPTY);
        (!cpu.is_empty()).then_some(cpu)
    }

    /// Puts the handle of a CPU back.
    /// Safety: it is of the CPU with this number, of this registry, and its caller has no more of
    /// it.
    pub unsafe fn put_cpu(&self, id: u8, cpu: ffi::Cpu) {
        locked(&self.spare)[usize::from(id)] = cpu;
    }
}

/// The work on retired entries.
impl<T> Shared<T> {
    /// One turn of the work on the retired entry: what was freed, or what was met. Where local
    /// references hold it, those to it that were dropped are given up, and the turn is made once
    /// more. The caller has the entry's token, if it has one.
    #[inline(always)]
    pub(crate) fn turn(&self, entry: Plain, fate: Fate) -> Result<Freed<T>, Met> {
        let mut kept = self.kept();
        let met = kept.turn(entry.number);
        let locals = met.locals();
        if met.is_gone() || locals.is_some() && self.baskets.has_any() {
            // SAFETY: the turn was just made.
            return unsafe { self.go_on(kept, entry.number, entry.slot(), locals, fate) };
        }
        Err(met)
    }

    /// Goes on with a turn. Apart, and all of it in registers: most turns of whoever waits end
    /// before, and the lock waits for what they store.
    /// Safety: the turn was just made under this lock: it met so many local references, or the
    /// entry is freed.
    #[inline(never)]
    unsafe fn go_on(
        &self,
        mut kept: MutexGuard<'_, Kept<T>>,
        number: u64,
        slot: usize,
        locals: Option<u64>,
        fate: Fate,
    ) -> Result<Freed<T>, Met> {
        if let Some(held) = locals {
            if !self.give_up_dropped(&mut kept.keeper, slot) {
                return Err(Met::local(held));
            }
            let met = kept.turn(number);
            if !met.is_gone() {
                return Err(met);
            }
        }
        // SAFETY: the last turn freed it, or one before that.
        unsafe { kept.take(number, fate) }
    }

    /// Takes a retired entry over from its token.
    pub fn defer(&self, entry: Plain) {
        self.tasks.forget(entry.number);
        self.kept().deferred.push(entry);
    }

    /// The deferred entries, the youngest first: an interface goes before its driver.
    fn deferred(&self) -> Vec<Plain> {
        let mut entries = self.kept().deferred.clone();
        entries.sort_unstable_by_key(|entry| Reverse(entry.number));
        entries
    }

    /// One turn for each deferred entry. What they freed. The interlock is let go after each.
    pub fn collect(&self) -> Vec<Freed<T>> {
        let entries = self.deferred().into_iter();
        let freed: Vec<_> =
            entries.filter_map(|entry| self.turn(entry, Fate::Returned).ok()).collect();
        freed.iter().for_each(|one| self.settle(&one.entry));
        freed
    }

    /// The same, and drops the value of each before the next turn; and all over again after that of
    /// an interface, whose driver may be deferred since. A panic of one goes on once all are
    /// dropped.
    pub fn drop_deferred(&self) {
        let (mut panic, mut again) = (FirstPanic::default(), true);
        while mem::take(&mut again) {
            for entry in self.deferred() {
                if let Ok(Freed { entry, value }) = self.turn(entry, Fate::Dropped) {
                    panic.run(|| drop(value));
                    self.kept().dropping.retain(|(iface, _)| *iface != entry.number);
                    self.settle(&entry);
                    again |= entry.kind == Kind::Iface;
                }
            }
        }
        panic.go_on();
    }

    /// One turn for each retired entry, also one that has a token, the youngest first.
    #[cold]
    pub fn make_room(&self) {
        let mut numbers: Vec<u64> = {
            let kept = self.kept();
            let retired = kept.rows.iter().filter(|row| row.state == State::Retired);
            retired.map(|row| row.number).collect()
        };
        numbers.sort_unstable_by_key(|number| Reverse(*number));
        numbers.into_iter().for_each(|number| self.kept().vacate(number));
    }

    /// Gives up, under the interlock, what was dropped that is to the entry in this slot, whose
    /// counts were collected. Whether there was any.
    #[cold]
    fn give_up_dropped(&self, keeper: &mut ffi::Keeper, slot: usize) -> bool {
        let dropped = self.baskets.take(slot);
        let had_any = dropped.len() > 0;
        for mut local in dropped {
            // SAFETY: the caller holds the interlock of this registry. All references in its
            // baskets are of this registry.
            unsafe { ffi::kupaldiz_release_local_locked(keeper, ptr::null_mut(), &mut local) };
            if !local.is_empty() {
                self.baskets.lay(local);
            }
        }
        had_any
    }
}

impl<T> Drop for Shared<T> {
    /// Closes the registry, and drops what its entries carry. Nobody has a handle of it by now,
    /// since each has a share of it: not even a forgotten one. All CPUs are spare.
    ///
    /// If a passive reference to an entry was forgotten, the entry stays held and its value isn't
    /// dropped; nor is that of its driver.
    fn drop(&mut self) {
        let (spare, kept) = (locked_mut(&mut self.spare), locked_mut(&mut self.kept));
        let (mut rows, mut left, mut kept_drivers) =
            (mem::take(&mut kept.rows), Vec::new(), Vec::new());
        rows.sort_unstable_by_key(|row| Reverse(row.number));
        for row in rows {
            if kept_drivers.contains(&row.number) || spare.iter().any(|cpu| cpu.holds(row.number)) {
                kept_drivers.extend(row.driver);
            } else {
                left.push(row.carried);
            }
        }
        let (keeper, cpus) = (&mut kept.keeper, spare.as_mut_ptr());
        for mut local in self.baskets.slots().flat_map(|slot| self.baskets.take(slot)) {
            // SAFETY: nobody else has the keeper nor the CPUs, and they are of the same registry.
            unsafe { ffi::kupaldiz_release_local_locked(keeper, cpus, &mut local) };
        }
        // SAFETY: as above, and each CPU was left as it became spare.
        unsafe { ffi::kupaldiz_close(keeper, cpus, spare.len()) };
        // SAFETY: what was found and passive references borrow a CPU's handle, and local references
        // have a share of the registry; all are gone, so no reference to a value lives. Its
        // row has gone with `rows`, so each is taken once.
        let values: Vec<T> = left.into_iter().map(|carried| unsafe { carried.take() }).collect();
        // The youngest first.
        let mut panic = FirstPanic::default();
        values.into_iter().for_each(|value| panic.run(|| drop(value)));
        panic.go_on();
    }
}
