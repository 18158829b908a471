//! The changes: attach, detach, replace. On a CPU, or on one that the crate chooses.

use crate::carried::{Loose, Record};
use crate::cpu::Cpu;
use crate::error::{AttachError, DetachError, Refused};
use crate::ffi;
use crate::registry::Registry;
use crate::retired::Retired;
use crate::shared::Kept;
use crate::values::{Entry, Freed, Kind};
use crate::Key;
use std::panic::Location;
use std::sync::Arc;

/// What an attach returns, or a replacement.
pub(crate) type Changed<T, R = Entry> = Result<R, Refused<AttachError, T>>;

/// Changes. An attach and a detach drop no `T`, so a caller may hold a lock that the drop of a `T`
/// takes; but they [may wake](crate#your-code-in-a-call) tasks. Each fails first with `NoCpu`, if
/// [there is none](Registry::cpus) to choose; a [`Cpu`] has the same calls.
impl<T> Registry<T> {
    /// Attaches an entry that carries this value. Lookups that begin after this call has returned
    /// find it, until it is detached or replaced.
    ///
    /// If no slot is vacant, the call first releases the local references that were dropped, and
    /// makes one turn on each retired entry. A value that is freed by that goes to its [`Retired`],
    /// or to the next call that [returns or drops](crate#what-is-dropped) what is freed.
    ///
    /// # Errors
    ///
    /// `NeedsDriver` for an interface's key, `BadName`, `Inside`, `NameTaken`, `NoSlot`,
    /// `HistoryFull`. The value is returned.
    pub fn attach(&self, key: impl Into<Key>, value: T) -> Changed<T> {
        self.change(&New::plain(key), value).map(Made::alone)
    }

    /// Attaches an interface that carries this value, as [`attach`](Registry::attach) does, on the
    /// live driver with the name `driver`. The interface's slot keeps a local reference, so the
    /// driver outlives the interface; and its value is neither returned nor dropped before the
    /// interface's was. So the drop of an interface's value can't wait until its driver is freed.
    ///
    /// ```
    /// use kupaldiz::{Kind, Patience, Registry, Settings};
    ///
    /// let registry = Registry::open(Settings::new(1, 2)).unwrap();
    /// registry.attach("gzip", "library").unwrap();
    /// registry.attach_iface("gzip", "gzip0", "object").unwrap();
    /// let driver = registry.detach("gzip").unwrap();
    /// let held = driver.destroy(Patience::Turns(1)).unwrap_err();
    /// assert!(held.to_string().ends_with("1 local reference"));
    /// let object = registry.detach((Kind::Iface, "gzip0")).unwrap();
    /// assert_eq!(object.destroy(Patience::Turns(1)).unwrap().value, "object");
    /// assert_eq!(held.given.destroy(Patience::Turns(1)).unwrap().value, "library");
    /// ```
    ///
    /// # Errors
    ///
    /// `BadName`, `Inside`, `SectionsSpent`, `NeedsDriver` if no live driver has that name,
    /// `LocalFull`, `NameTaken`, `NoSlot`, `HistoryFull`. The value is returned.
    #[track_caller]
    pub fn attach_iface(
        &self,
        driver: impl Into<Key>,
        name: impl Into<Key>,
        value: T,
    ) -> Changed<T> {
        self.change(&New::iface(driver, name), value).map(Made::alone)
    }

    /// Puts another value in the place of what the entry of this name carries: another entry, with
    /// the same name. A lookup meanwhile finds the old one or the new one. The new one needs a slot
    /// of its own. On an error the old one stays.
    ///
    /// ```
    /// use kupaldiz::{Registry, Settings};
    ///
    /// let registry = Registry::open(Settings::new(1, 2)).unwrap();
    /// registry.attach("wm", 7).unwrap();
    /// let old = registry.get("wm").unwrap();
    /// let (_, retired) = registry.replace("wm", 8).unwrap();
    /// assert_eq!((*old, *registry.get("wm").unwrap()), (7, 8));
    /// drop(old);
    /// assert_eq!(retired.try_destroy().unwrap().value, 7);
    /// ```
    ///
    /// # Errors
    ///
    /// `NeedsDriver` for an interface's key, `BadName`, `Inside`, `NotFound`, `NoSlot`,
    /// `HistoryFull`. The value is returned.
    pub fn replace(&self, key: impl Into<Key>, value: T) -> Changed<T, (Entry, Retired<T>)> {
        self.change(&New::plain(key).in_place(), value).map(Made::both)
    }

    /// Replaces what the live interface with this name carries, as [`replace`](Registry::replace)
    /// does. The new interface keeps the live driver with the name `driver`, and the old one its
    /// own until it is freed.
    ///
    /// # Errors
    ///
    /// As of [`attach_iface`](Registry::attach_iface), with `NotFound` in place of `NameTaken`.
    #[track_caller]
    pub fn replace_iface(
        &self,
        driver: impl Into<Key>,
        name: impl Into<Key>,
        value: T,
    ) -> Changed<T, (Entry, Retired<T>)> {
        self.change(&New::iface(driver, name).in_place(), value).map(Made::both)
    }

    /// Detaches the live entry of this name. Lookups that begin after this call has returned don't
    /// find it. It keeps its value until that is taken by the returned [`Retired`].
    ///
    /// # Errors
    ///
    /// `Inside`, `NotFound`.
    pub fn detach(&self, key: impl Into<Key>) -> Result<Retired<T>, DetachError> {
        let key = key.into();
        self.seats.with(|cpu| cpu.detach(key)).unwrap_or(Err(DetachError::NoCpu))
    }

    /// Detaches this entry, as [`detach`](Registry::detach) does, if it is still live. Another
    /// entry that has its name by now stays.
    ///
    /// # Errors
    ///
    /// `Inside`, `NotFound` if no live entry is this one.
    pub fn detach_entry(&self, entry: &Entry) -> Result<Retired<T>, DetachError> {
        self.seats.with(|cpu| cpu.detach_entry(entry)).unwrap_or(Err(DetachError::NoCpu))
    }

    /// Detaches the live entry of this name, [defers](Retired::defer) it, and returns what is free
    /// already: this entry, if nothing holds it, and those that were retired before. What is still
    /// held a later retire or [`Registry::free_deferred`] returns.
    ///
    /// # Errors
    ///
    /// `Inside`, `NotFound`.
    pub fn retire(&self, key: impl Into<Key>) -> Result<Vec<Freed<T>>, DetachError> {
        Ok(self.detach(key)?.deferred())
    }

    /// Makes a change on a CPU that the crate chooses.
    fn change(&self, new: &New, value: T) -> Changed<T, Made<T>> {
        let (mut given, mut made) = (Some(value), None);
        self.seats.with(|cpu| made = given.take().map(|value| cpu.change(new, value)));
        let refused = |given| Err(Refused { refusal: AttachError::NoCpu, given });
        made.unwrap_or_else(|| refused(given.take().expect("no change was made")))
    }
}

/// Changes on this CPU, as those of [`Registry`] are on one that the crate chooses, with the same
/// errors but `NoCpu`.
impl<T> Cpu<T> {
    /// As [`Registry::attach`].
    pub fn attach(&self, key: impl Into<Key>, value: T) -> Changed<T> {
        self.change(&New::plain(key), value).map(Made::alone)
    }

    /// As [`Registry::attach_iface`].
    #[track_caller]
    pub fn attach_iface(
        &self,
        driver: impl Into<Key>,
        name: impl Into<Key>,
        value: T,
    ) -> Changed<T> {
        self.change(&New::iface(driver, name), value).map(Made::alone)
    }

    /// As [`Registry::replace`].
    pub fn replace(&self, key: impl Into<Key>, value: T) -> Changed<T, (Entry, Retired<T>)> {
        self.change(&New::plain(key).in_place(), value).map(Made::both)
    }

    /// As [`Registry::replace_iface`].
    #[track_caller]
    pub fn replace_iface(
        &self,
        driver: impl Into<Key>,
        name: impl Into<Key>,
        value: T,
    ) -> Changed<T, (Entry, Retired<T>)> {
        self.change(&New::iface(driver, name).in_place(), value).map(Made::both)
    }

    /// As [`Registry::detach`].
    pub fn detach(&self, key: impl Into<Key>) -> Result<Retired<T>, DetachError> {
        let key = key.into();
        self.tidy();
        self.detach_by(&mut self.shared().kept(), key)
    }

    /// As [`Registry::detach_entry`].
    pub fn detach_entry(&self, entry: &Entry) -> Result<Retired<T>, DetachError> {
        self.tidy();
        let mut kept = self.shared().kept();
        let live = kept.live(entry.number).map(|live| live.entry(self.registry_id));
        if self.is_inside() || live == Some(*entry) {
            self.detach_by(&mut kept, Key::from(entry))
        } else {
            Err(DetachError::NotFound)
        }
    }

    /// As [`Registry::retire`].
    pub fn retire(&self, key: impl Into<Key>) -> Result<Vec<Freed<T>>, DetachError> {
        Ok(self.detach(key)?.deferred())
    }

    /// What comes before a change: a CPU that is outside releases what was dropped.
    fn tidy(&self) {
        if self.shared().baskets.has_any() && !self.is_inside() {
            self.release_dropped();
        }
    }

    /// Detaches all live entries, the youngest first, but those that are attached meanwhile. The
    /// CPU is outside.
    pub(crate) fn detach_all(&self) -> Vec<Retired<T>> {
        self.tidy();
        let (mut tokens, mut before) = (Vec::new(), u64::MAX);
        loop {
            let mut kept = self.shared().kept();
            let entry = match kept.youngest_live(before) {
                Some(entry) => entry,
                None => return tokens,
            };
            before = entry.number;
            // It is live, so it isn't refused. The tokens aren't dropped on a CPU of a call.
            tokens.extend(self.detach_by(&mut kept, entry.key()));
        }
    }

    /// Detaches under the interlock.
    fn detach_by(&self, kept: &mut Kept<T>, key: Key) -> Result<Retired<T>, DetachError> {
        let (keeper, Key { kind, words }) = (&mut kept.keeper, key);
        // SAFETY: the keeper is locked, the CPU is this thread's, both are of one registry, and
        // their handles aren't empty.
        let call = |gone: *mut ffi::Entry| unsafe {
            ffi::kupaldiz_detach(keeper, self.handle(), kind.number(), &words, gone)
        };
        // SAFETY: kupaldiz.h says of a detach that it writes the entry.
        let gone = unsafe { Record::written(call) }.map_err(DetachError::of)?;
        Ok(self.detached(kept, &gone))
    }

    /// The token of an entry that was just detached under the interlock.
    fn detached(&self, kept: &mut Kept<T>, gone: &Record<T>) -> Retired<T> {
        kept.retire(gone.plain.number);
        self.shared().noted(|notes| notes.detached(gone.plain.number));
        // SAFETY: the entry was just detached.
        unsafe { Retired::new(Arc::clone(self.shared()), gone.carried) }
    }
}

/// An entry that is to be attached: an interface, if it has a driver.
struct New {
    key: Key,
    driver: Option<Key>,
    /// Whether it replaces another one.
    replaces: bool,
    /// The caller's line.
    at: &'static Location<'static>,
}

impl New {
    #[track_caller]
    fn plain(key: impl Into<Key>) -> New {
        New { key: key.into(), driver: None, replaces: false, at: Location::caller() }
    }

    #[track_caller]
    fn iface(driver: impl Into<Key>, name: impl Into<Key>) -> New {
        let driver = Key { kind: Kind::Driver, ..driver.into() };
        New { driver: Some(driver), ..New::plain(name) }
    }

    fn in_place(self) -> New {
        New { replaces: true, ..self }
    }
}

impl<T> Cpu<T> {
    /// Makes the change. If no slot is vacant, what nobody holds is freed before.
    fn change(&self, new: &New, value: T) -> Changed<T, Made<T>> {
        self.tidy();
        let (shared, loose) = (self.shared(), Loose::new(value));
        let mut kept = shared.kept();
        if !kept.has_slot() && !self.is_inside() {
            drop(kept);
            self.release_dropped();
            shared.make_room();
            kept = shared.kept();
        }
        let made = self.make(new, &mut kept, loose);
        drop(kept);
        made.map_err(|(refusal, loose)| Refused { refusal, given: loose.into_value() })
    }

    /// Makes the change under one hold of the interlock. If it fails, nothing has changed, and the
    /// value comes back.
    fn make(
        &self,
        new: &New,
        kept: &mut Kept<T>,
        loose: Loose<T>,
    ) -> Result<Made<T>, (AttachError, Loose<T>)> {
        let (shared, mut gone) = (self.shared(), ffi::Entry::default());
        let driver = new.driver.and_then(|driver| kept.named(driver));
        // SAFETY: the keeper is locked, and of this registry, as the CPU is.
        let call = |made: *mut ffi::Entry| unsafe {
            self.call(new, &mut kept.keeper, loose.word(), &mut gone, made)
        };
        // SAFETY: the call is an attach, which kupaldiz.h says writes the entry, to this registry.
        // If it fails, no entry has the address.
        let made = match unsafe { Record::<T>::written(call) } {
            Ok(made) => made.plain,
            Err(answer) => return Err((AttachError::of(answer), loose)),
        };
        // SAFETY: the call has attached the entry with the value's address.
        unsafe { kept.note(made, loose.attached(), driver) };
        if let Some(driver) = driver {
            shared.noted(|notes| notes.kept(driver, self.id(), new.at, made.number));
        }
        let old = new.replaces.then(|| self.detached(kept, &Record::of(&gone)));
        Ok(Made(made.entry(shared.id), old))
    }

    /// Makes the call of kupaldiz.h, which writes the entry that was attached, and the one that it
    /// replaces, if there is one.
    /// Safety: the keeper is locked, and the CPU is of its registry.
    unsafe fn call(
        &self,
        new: &New,
        keeper: &mut ffi::Keeper,
        word: u64,
        gone: *mut ffi::Entry,
        made: *mut ffi::Entry,
    ) -> u32 {
        let (cpu, name) = (self.handle(), &new.key.words);
        match (&new.driver, new.replaces) {
            (None, _) if new.key.kind == Kind::Iface => ffi::NEEDS_DRIVER,
            // SAFETY: as the caller says. The CPU is this thread's, and no handle is empty.
            (Some(driver), true) => unsafe {
                ffi::kupaldiz_replace_iface(keeper, cpu, &driver.words, name, word, gone, made)
            },
            // SAFETY: as above.
            (Some(driver), false) => unsafe {
                ffi::kupaldiz_attach_iface(keeper, cpu, &driver.words, name, word, made)
            },
            // SAFETY: as above.
            (None, true) => unsafe { ffi::kupaldiz_replace(keeper, cpu, name, word, gone, made) },
            // SAFETY: as above.
            (None, false) => unsafe { ffi::kupaldiz_attach(keeper, cpu, name, word, made) },
        }
    }
}

/// An entry that was attached, and the one that it replaces.
struct Made<T>(Entry, Option<Retired<T>>);

impl<T> Made<T> {
    fn alone(self) -> Entry {
        self.0
    }

    fn both(self) -> (Entry, Retired<T>) {
        (self.0, self.1.expect("what it replaces"))
    }
}
