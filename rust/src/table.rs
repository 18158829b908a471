//! A table of any number of names, over registries.

use crate::changes::Changed;
use crate::choice::{Choice, Memory};
use crate::cpu::Cpu;
use crate::error::{AttachError, CloseError, CpusError, DetachError, LookUpError, OpenError};
use crate::error::{Refused, SynchronizeError};
use crate::name::Key;
use crate::patience::{Patience, Pauses};
use crate::places::Holders;
use crate::references::{LocalRef, PassiveRef};
use crate::registry::{Drained, Registry};
use crate::retired::Retired;
use crate::section::{Found, ReadGuard};
use crate::settings::Settings;
use crate::shared::Shared;
use crate::values::{Balance, Entry, Freed};
use std::fmt;
use std::iter;
use std::sync::Arc;

/// Any number of named entries, where a [`Registry`] has at most 255. Each carries a `T`.
///
/// A table is a row of registries, of which a hash of the name and of a secret chooses one: the
/// secret is drawn as the table is opened, as that of a `HashMap` is. Each call with a name is the
/// same call of that registry, so what is said of a registry holds of each name. Nothing is said of
/// two names. The entries are plain ones, without interfaces on drivers.
///
/// A table is shared by reference, in a `static` or in an [`Arc`]. Its calls choose a CPU for
/// themselves; a thread that looks much up takes a [`TableThread`].
///
/// ```
/// use kupaldiz::{Patience, Table};
///
/// let table = Table::open(2, 1000).unwrap();
/// for id in 0..1000 {
///     table.attach(id, format!("connection {id}")).unwrap();
/// }
/// let held = table.get(7).unwrap(); // for as long as it is wanted, on any thread
/// let retired = table.detach(7).unwrap();
/// let retired = retired.destroy(Patience::Turns(3)).unwrap_err().given;
/// drop(held);
/// assert_eq!(retired.destroy(Patience::Forever).unwrap().value, "connection 7");
/// ```
pub struct Table<T> {
    registries: Box<[Registry<T>]>,
    choice: Choice,
}

impl Choice {
    /// What an attach returns that one of these registries has refused.
    fn judged<'a, T: 'a>(
        &self,
        refused: Refused<AttachError, T>,
        mut all: impl Iterator<Item = &'a Arc<Shared<T>>>,
    ) -> Refused<AttachError, T> {
        let mut left = u64::from(self.entries);
        let mut has_room = || {
            all.all(|shared| {
                left = left.saturating_sub(shared.kept().occupied() as u64);
                left > 0
            })
        };
        match refused.refusal {
            AttachError::NoSlot if self.registries > 1 && has_room() => {
                Refused { refusal: AttachError::Crowded, ..refused }
            }
            _ => refused,
        }
    }
}

impl<T> Table<T> {
    /// Opens a table for so many [`TableThread`]s at a time, and so many entries, live and retired.
    /// It may come to have more entries than that, where its registries have room: together they
    /// have two slots for each.
    ///
    /// # Errors
    ///
    /// `OtherLimits`, `BadSettings` for no thread, more than a registry's most CPUs, or no entry,
    /// `NoMemory`.
    pub fn open(threads: u8, entries: u32) -> Result<Table<T>, OpenError> {
        Table::opened(threads, entries, Registry::open)
    }

    /// Opens a table that notes the line of the program, and the thread, of each reference that is
    /// acquired and each section that is entered, as [`Registry::open_tracked`] does.
    /// [`holders`](Table::holders) says so, and so does the error of a destroy that gives up.
    ///
    /// # Errors
    ///
    /// As of [`open`](Table::open).
    pub fn open_tracked(threads: u8, entries: u32) -> Result<Table<T>, OpenError> {
        Table::opened(threads, entries, Registry::open_tracked)
    }

    fn opened(
        threads: u8,
        entries: u32,
        open: impl Fn(Settings) -> Result<Registry<T>, OpenError>,
    ) -> Result<Table<T>, OpenError> {
        let choice = Choice::of(entries);
        let settings = Settings::new(threads, choice.slots);
        let open_one = |_| match threads {
            0 => Err(OpenError::BadSettings),
            _ => open(settings),
        };
        let registries = (0..choice.registries).map(open_one).collect::<Result<_, _>>()?;
        Ok(Table { registries, choice })
    }

    /// The registry that a name chooses, and the name.
    #[inline(always)]
    fn of(&self, key: impl Into<Key>) -> (&Registry<T>, Key) {
        let key = key.into();
        (&self.registries[self.choice.index(key)], key)
    }

    fn shared(&self) -> impl Iterator<Item = &Arc<Shared<T>>> {
        self.registries.iter().map(Registry::shared)
    }

    /// The registry that an entry is of, and its index.
    fn registry_of(&self, entry: &Entry) -> Option<(usize, &Registry<T>)> {
        let is_its = |(_, registry): &(usize, &Registry<T>)| registry.shared().id == entry.registry;
        self.registries.iter().enumerate().find(is_its)
    }

    /// A handle of a thread: a CPU of each registry. `None` if all are taken.
    #[must_use]
    pub fn thread(&self) -> Option<TableThread<T>> {
        let threads = self.registries[0].settings().cpus;
        let cpus_of = |id| self.registries.iter().map(|registry| registry.cpu(id)).collect();
        let cpus: Box<[Cpu<T>]> = (0..threads).find_map(cpus_of)?;
        Some(TableThread { cpus, memory: self.choice.memory(), choice: self.choice.clone() })
    }

    /// The same, as soon as one is free, if one is within the patience: for more threads than
    /// handles. Keep a handle for many calls, as it begins with an empty memory.
    ///
    /// ```
    /// use kupaldiz::{Patience, Table};
    ///
    /// let table = Table::<u64>::open(1, 1000).unwrap();
    /// let thread = table.thread().unwrap();
    /// assert!(table.thread_within(Patience::Turns(3)).is_none());
    /// drop(thread);
    /// assert!(table.thread_within(Patience::Forever).is_some());
    /// ```
    #[must_use]
    pub fn thread_within(&self, patience: impl Into<Patience>) -> Option<TableThread<T>> {
        let mut pauses = Pauses::new(patience.into());
        loop {
            let thread = self.thread();
            if thread.is_some() || !pauses.another() {
                return thread;
            }
        }
    }

    /// As [`Registry::get`]: a local reference, which may go to other threads.
    ///
    /// # Errors
    ///
    /// As of that call.
    #[inline(always)]
    #[track_caller]
    pub fn get(&self, key: impl Into<Key>) -> Result<LocalRef<T>, LookUpError> {
        let (its, key) = self.of(key);
        its.get(key)
    }

    /// As [`Registry::detach_entry`].
    ///
    /// # Errors
    ///
    /// As of that call. `NotFound` of an entry of another table.
    pub fn detach_entry(&self, entry: &Entry) -> Result<Retired<T>, DetachError> {
        let (_, registry) = self.registry_of(entry).ok_or(DetachError::NotFound)?;
        registry.detach_entry(entry)
    }

    /// As [`Registry::free_deferred`], of all registries.
    #[must_use]
    pub fn free_deferred(&self) -> Vec<Freed<T>> {
        self.registries.iter().flat_map(Registry::free_deferred).collect()
    }

    /// The number of entries that were retired or deferred and whose values wait to be returned or
    /// dropped.
    pub fn deferred(&self) -> usize {
        self.registries.iter().map(Registry::deferred).sum()
    }

    /// The number of live entries. Other threads may change it while this counts.
    #[must_use]
    pub fn len(&self) -> usize {
        self.registries.iter().map(Registry::len).sum()
    }

    /// Whether no entry is live.
    #[must_use]
    pub fn is_empty(&self) -> bool {
        self.registries.iter().all(Registry::is_empty)
    }

    /// A number for an entry of this table that no other entry of it ever has. (An entry's own
    /// [`number`](Entry::number) is that of its registry.) `None` for one of another table.
    #[must_use]
    pub fn number(&self, entry: &Entry) -> Option<u64> {
        let (index, _) = self.registry_of(entry)?;
        Some(self.choice.number(entry.number, index))
    }

    /// As [`Registry::holders`], if the table was opened by [`open_tracked`](Table::open_tracked).
    ///
    /// ```
    /// use kupaldiz::Table;
    ///
    /// let table = Table::open_tracked(1, 1000).unwrap();
    /// let entry = table.attach("wm", ()).unwrap();
    /// let held = table.get("wm").unwrap();
    /// let holders = table.holders(&entry).unwrap();
    /// assert!(holders.to_string().starts_with("1 local reference: src/"));
    /// drop(held);
    /// assert_eq!(table.holders(&entry).unwrap().to_string(), "nobody");
    /// ```
    pub fn holders(&self, entry: &Entry) -> Option<Holders> {
        let (_, registry) = self.registry_of(entry).unwrap_or((0, &self.registries[0]));
        registry.holders(entry)
    }

    /// What the counts say of an entry, live or retired, as [`Registry::audit`] does. It needs all
    /// threads' handles. `None` if there is no such entry.
    ///
    /// # Errors
    ///
    /// `OtherRegistry` for a handle of another table, `MissingCpu` if they aren't all.
    pub fn audit<'a>(
        &self,
        entry: &Entry,
        threads: impl IntoIterator<Item = &'a mut TableThread<T>>,
    ) -> Result<Option<Balance>, CpusError>
    where
        T: 'a,
    {
        let (index, registry) = match self.registry_of(entry) {
            Some(its) => its,
            None => return Ok(None),
        };
        let cpus: Option<Vec<&Cpu<T>>> =
            threads.into_iter().map(|thread| thread.cpus.get(index)).collect();
        let balances = registry.audit(cpus.ok_or(CpusError::OtherRegistry)?)?;
        Ok(balances.into_iter().find(|balance| balance.number == entry.number))
    }

    /// As [`Registry::drain`], of all registries. A time or a deadline is for all of them.
    ///
    /// # Errors
    ///
    /// As of that call. Some entries may be detached then.
    pub fn drain(&self, patience: impl Into<Patience>) -> Result<Drained<T>, DetachError> {
        let mut all = Drained { freed: Vec::new(), held: Vec::new() };
        let patience = patience.into();
        for registry in self.registries.iter() {
            let Drained { freed, held } = registry.drain(patience)?;
            all.freed.extend(freed);
            all.held.extend(held);
        }
        Ok(all)
    }

    /// Closes the table, once nothing else is a handle of any registry of it, and drops what its
    /// entries carry. Until then it waits as long as the patience says.
    ///
    /// # Errors
    ///
    /// `StillOpen`, if there is a [`TableThread`], a [`LocalRef`] or a [`Retired`]. The table is
    /// returned, as it was.
    pub fn close(self, patience: impl Into<Patience>) -> Result<(), Refused<CloseError, Table<T>>> {
        let (mut pauses, Table { registries, choice }) = (Pauses::new(patience.into()), self);
        let (mut alone, mut rest) = (Vec::new(), Vec::from(registries).into_iter());
        while let Some(registry) = rest.next() {
            match registry.alone(&mut pauses) {
                Ok(shared) => alone.push(shared),
                Err(held) => {
                    let first = alone.into_iter().map(|one| Registry::of(Arc::new(one)));
                    let registries = first.chain(iter::once(held)).chain(rest).collect();
                    let given = Table { registries, choice };
                    return Err(Refused { refusal: CloseError::StillOpen, given });
                }
            }
        }
        Ok(())
    }
}

impl<T> fmt::Debug for Table<T> {
    fn fmt(&self, f: &mut fmt::Formatter<'_>) -> fmt::Result {
        f.debug_struct("Table")
            .field("entries", &self.choice.entries)
            .field("registries", &self.choice.registries)
            .field("slots", &self.choice.slots)
            .finish_non_exhaustive()
    }
}

/// A thread's handle of a [`Table`]: a [`Cpu`] of each registry. It co-owns them. One thread at a
/// time uses it, without a step that another thread waits for. References that stay on the thread
/// borrow it. It remembers which registry names chose, in 40 to 80 bytes for each of the table's
/// entries, so that it seldom hashes a name twice.
///
/// ```
/// use kupaldiz::Table;
///
/// let table = Table::open(2, 1000).unwrap();
/// table.attach("eth0", 1500).unwrap();
/// let thread = table.thread().unwrap();
/// let port = thread.get("eth0").unwrap();
/// assert_eq!(*port, 1500);
/// ```
pub struct TableThread<T> {
    cpus: Box<[Cpu<T>]>,
    memory: Memory,
    choice: Choice,
}

impl<T> TableThread<T> {
    /// The CPU of the registry that a name chooses, and the name.
    #[inline(always)]
    fn of(&self, key: impl Into<Key>) -> (&Cpu<T>, Key) {
        let key = key.into();
        (&self.cpus[self.memory.index(&self.choice, key)], key)
    }

    fn shared(&self) -> impl Iterator<Item = &Arc<Shared<T>>> {
        self.cpus.iter().map(Cpu::shared)
    }

    /// Its number, from 0: that of its CPUs, which the error of a destroy names.
    pub fn id(&self) -> u8 {
        self.cpus[0].id()
    }

    /// As [`Cpu::get`]: a passive reference, which stays on this thread.
    ///
    /// # Errors
    ///
    /// As of that call.
    #[inline(always)]
    #[track_caller]
    pub fn get(&self, key: impl Into<Key>) -> Result<PassiveRef<'_, T>, LookUpError> {
        let (its, key) = self.of(key);
        its.get(key)
    }

    /// As [`Cpu::get_local`]: a local reference, which may go to other threads.
    ///
    /// # Errors
    ///
    /// As of that call.
    #[inline(always)]
    #[track_caller]
    pub fn get_local(&self, key: impl Into<Key>) -> Result<LocalRef<T>, LookUpError> {
        let (its, key) = self.of(key);
        its.get_local(key)
    }

    /// As [`Cpu::read`]: the entry with a section of its registry.
    ///
    /// # Errors
    ///
    /// As of that call.
    #[inline(always)]
    #[track_caller]
    pub fn read(&self, key: impl Into<Key>) -> Result<ReadGuard<'_, T>, LookUpError> {
        let (its, key) = self.of(key);
        its.read(key)
    }

    /// Makes this of each live entry, one registry after another, each in a section of its own. An
    /// entry whose attach returned before is met once, unless its detach or replacement begins
    /// before the call returns. A change of an entry's own registry is `Inside` meanwhile.
    ///
    /// # Errors
    ///
    /// `TooDeep`, `SectionsSpent`. Some entries may have been met then.
    #[track_caller]
    pub fn for_each(&self, mut deed: impl FnMut(Found<'_, '_, T>)) -> Result<(), LookUpError> {
        for cpu in self.cpus.iter() {
            cpu.enter()?.entries().for_each(&mut deed);
        }
        Ok(())
    }

    /// As [`Cpu::synchronize`], in one registry after another: each section that is open now has
    /// ended then. A time or a deadline is for all of them.
    ///
    /// # Errors
    ///
    /// As of that call.
    pub fn synchronize(&self, patience: impl Into<Patience>) -> Result<(), SynchronizeError> {
        let patience = patience.into();
        self.cpus.iter().try_for_each(|cpu| cpu.synchronize(patience))
    }
}

/// The calls with a name that a table and a thread's handle have alike. Each is the same call of the
/// registry that the name chooses, or of the thread's CPU of it.
macro_rules! calls_by_name {
    ($($of:ident over $its:ident)*) => {$(
        impl<T> $of<T> {
            #[doc = concat!("As [`", stringify!($its), "::look_up`].")]
            ///
            /// # Errors
            ///
            /// As of that call.
            #[inline(always)]
            pub fn look_up(&self, key: impl Into<Key>) -> Result<Entry, LookUpError> {
                let (its, key) = self.of(key);
                its.look_up(key)
            }

            #[doc = concat!("As [`", stringify!($its), "::attach`].")]
            ///
            /// # Errors
            ///
            /// As of that call. `NoSlot` says that the table has as many entries as it was opened
            /// for, or more. [`Crowded`](AttachError::Crowded) says that the registry of this name
            /// is full, and the table isn't. R registries have m names each on average. The names
            /// are chosen without the secret. Then the probability that any registry is full is
            /// below R (e/4)^m / sqrt(4 pi m). This is below 10^-12 for each size.
            pub fn attach(&self, key: impl Into<Key>, value: T) -> Changed<T> {
                let (its, key) = self.of(key);
                its.attach(key, value).map_err(|refused| self.choice.judged(refused, self.shared()))
            }

            #[doc = concat!("As [`", stringify!($its), "::replace`].")]
            ///
            /// # Errors
            ///
            /// As of that call, and `Crowded` as [`attach`](Self::attach).
            pub fn replace(
                &self,
                key: impl Into<Key>,
                value: T,
            ) -> Changed<T, (Entry, Retired<T>)> {
                let (its, key) = self.of(key);
                its.replace(key, value).map_err(|refused| self.choice.judged(refused, self.shared()))
            }

            #[doc = concat!("As [`", stringify!($its), "::detach`].")]
            ///
            /// # Errors
            ///
            /// As of that call.
            pub fn detach(&self, key: impl Into<Key>) -> Result<Retired<T>, DetachError> {
                let (its, key) = self.of(key);
                its.detach(key)
            }

            #[doc = concat!("As [`", stringify!($its), "::retire`]: it returns what is free by then")]
            /// of the name's registry.
            ///
            /// # Errors
            ///
            /// As of that call.
            pub fn retire(&self, key: impl Into<Key>) -> Result<Vec<Freed<T>>, DetachError> {
                let (its, key) = self.of(key);
                its.retire(key)
            }
        }
    )*};
}

calls_by_name! { Table over Registry TableThread over Cpu }

impl<T> fmt::Debug for TableThread<T> {
    fn fmt(&self, f: &mut fmt::Formatter<'_>) -> fmt::Result {
        f.debug_struct("TableThread").field("id", &self.id()).finish_non_exhaustive()
    }
}

#[cfg(test)]
mod tests {
    use super::Table;
    use crate::{AttachError, Key, RegistryError};

    #[test]
    fn a_table_has_threads_and_entries() {
        assert!(Table::<()>::open(0, 10).is_err() && Table::<()>::open(1, 0).is_err());
    }

    /// Names that choose one registry, which only the table itself knows.
    #[test]
    fn a_full_registry_is_told_from_a_full_table() {
        let table = Table::open(1, 1100).unwrap();
        let thread = table.thread().unwrap();
        let in_first = |id: &u64| table.choice.index(Key::from(*id)) == 0;
        let ids: Vec<u64> = (0..).filter(in_first).take(148).collect();
        let (last, first) = ids.split_last().unwrap();
        first.iter().for_each(|id| assert!(table.attach(*id, *id).is_ok()));
        // In a table with another secret they are spread.
        let other = Table::open(1, 1100).unwrap();
        ids.iter().for_each(|id| assert!(other.attach(*id, *id).is_ok()));
        let refused = table.attach(*last, 7).unwrap_err();
        assert_eq!((refused.refusal, refused.given), (AttachError::Crowded, 7));
        assert_eq!(thread.attach(*last, 7).unwrap_err().refusal, AttachError::Crowded);
        assert_eq!(table.replace(first[0], 7).unwrap_err().refusal, AttachError::Crowded);
        assert_eq!(thread.replace(first[0], 7).unwrap_err().refusal, AttachError::Crowded);
        assert!(RegistryError::from(refused).to_string().contains("full"));

        let others = (0..).filter(|id| !in_first(id)).take(1100 - 147);
        others.for_each(|id| assert!(thread.attach(id, id).is_ok()));
        assert_eq!(table.attach(*last, 7).unwrap_err().refusal, AttachError::NoSlot);
        assert_eq!(table.retire(first[0]).unwrap().len(), 1);
        assert_eq!(*table.attach(*last, 7).map(|_| table.get(*last).unwrap()).unwrap(), 7);
    }
}
