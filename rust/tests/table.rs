//! A `Table` of 10,000 entries: random calls of eight threads beside a plain map, what holds an
//! entry, and the end.

mod common;

use common::Dice;
use kupaldiz::{
    AttachError, CloseError, CpusError, DestroyError, DetachError, Hold, Holder, LookUpError,
};
use kupaldiz::{Found, LocalRef, Patience, Refused, SynchronizeError, Table, TableThread};
use std::collections::{HashMap, HashSet};
use std::sync::atomic::{AtomicUsize, Ordering};
use std::sync::{Arc, Mutex, MutexGuard};
use std::thread;
use std::time::Duration;

const THREADS: u64 = 8;
const ENTRIES: u32 = 10_000;
/// Names of each thread.
const NAMES: u64 = 1100;

/// A value that counts how many of its kind there are, and says which it is.
struct Value {
    id: u64,
    age: u64,
    alive: Arc<AtomicUsize>,
}

impl Value {
    fn new(id: u64, age: u64, alive: &Arc<AtomicUsize>) -> Value {
        alive.fetch_add(1, Ordering::SeqCst);
        Value { id, age, alive: Arc::clone(alive) }
    }
}

impl Drop for Value {
    fn drop(&mut self) {
        self.alive.fetch_sub(1, Ordering::SeqCst);
    }
}

/// Local references on their way from thread to thread.
type Travelling = Mutex<Vec<LocalRef<Value>>>;

/// A lock's value. The thread sanitizer doesn't see how the standard library waits.
fn locked<T>(mutex: &Mutex<T>) -> MutexGuard<'_, T> {
    loop {
        match mutex.try_lock() {
            Ok(guard) => return guard,
            Err(_) => thread::sleep(Duration::from_micros(10)),
        }
    }
}

/// A thread that alone changes the names of its own, of which its map says what the table has: the
/// age of each value.
struct Worker<'a> {
    index: u64,
    dice: Dice,
    ages: HashMap<u64, u64>,
    next_age: u64,
    thread: TableThread<Value>,
    table: &'a Table<Value>,
    travelling: &'a Travelling,
    alive: &'a Arc<AtomicUsize>,
    changes: u64,
}

impl Worker<'_> {
    fn below(&mut self, end: u64) -> u64 {
        self.dice.below(end as usize) as u64
    }

    fn own_id(&mut self) -> u64 {
        self.index * NAMES + self.below(NAMES)
    }

    fn value(&mut self, id: u64) -> Value {
        self.next_age += 1;
        Value::new(id, self.next_age, self.alive)
    }

    /// Makes a change with a value. As long as the name's registry is full, it waits for the
    /// sections of other threads, which a busy machine may keep in them for long.
    fn with_room<R>(
        &self,
        mut value: Value,
        change: impl Fn(Value) -> Result<R, Refused<AttachError, Value>>,
    ) -> Result<R, Refused<AttachError, Value>> {
        loop {
            match change(value) {
                Err(Refused { refusal: AttachError::Crowded | AttachError::NoSlot, given }) => {
                    value = given;
                    self.thread.synchronize(Patience::Forever).unwrap();
                }
                made => return made,
            }
        }
    }

    fn attach(&mut self) {
        let id = self.own_id();
        let value = self.value(id);
        let made = self.with_room(value, |value| {
            if id % 2 == 0 {
                self.table.attach(id, value)
            } else {
                self.thread.attach(id, value)
            }
        });
        match made {
            Ok(_) => assert_eq!(self.ages.insert(id, self.next_age), None),
            Err(Refused { refusal, given }) => {
                assert_eq!((refusal, given.id), (AttachError::NameTaken, id));
                assert!(self.ages.contains_key(&id));
            }
        }
        self.changes += 1;
    }

    /// What is replaced the remover gets back, now or later.
    fn replace(&mut self) {
        let id = self.own_id();
        let value = self.value(id);
        match self.with_room(value, |value| self.table.replace(id, value)) {
            Ok((_, retired)) => {
                let old = self.ages.insert(id, self.next_age);
                match retired.try_destroy() {
                    Ok(freed) => assert_eq!((freed.value.id, Some(freed.value.age)), (id, old)),
                    Err(held) => held.given.defer(),
                }
            }
            Err(refused) => {
                assert_eq!(refused.refusal, AttachError::NotFound);
                assert!(!self.ages.contains_key(&id));
            }
        }
        self.changes += 1;
    }

    fn detach(&mut self) {
        let id = self.own_id();
        let gone = if id % 2 == 0 { self.table.retire(id) } else { self.thread.retire(id) };
        let expected = match self.ages.remove(&id) {
            Some(_) => None,
            None => Some(DetachError::NotFound),
        };
        assert_eq!(gone.err(), expected);
        self.changes += 1;
    }

    /// A name of its own is found exactly if the map has it.
    fn look_up(&mut self) {
        let id = self.own_id();
        let age = self.ages.get(&id).copied();
        let found = self.thread.get(id).map(|held| (held.id, held.age));
        assert_eq!(found.ok(), age.map(|age| (id, age)));
        assert_eq!(self.thread.look_up(id).is_ok(), age.is_some());
        assert_eq!(self.table.look_up(id).is_ok(), age.is_some());
        assert_eq!(self.thread.read(id).map(|guard| guard.age).ok(), age);
    }

    /// A name of any thread: what it finds it keeps until another thread lets it go.
    fn travel(&mut self) {
        let id = self.below(THREADS * NAMES);
        let got = if id % 2 == 0 { self.table.get(id) } else { self.thread.get_local(id) };
        let taken = match got {
            Ok(local) => {
                assert_eq!(local.id, id);
                let mut places = locked(self.travelling);
                places.push(local);
                let oldest = places.len() > 64;
                oldest.then(|| places.swap_remove(0))
            }
            Err(error) => {
                assert_eq!(error, LookUpError::NotFound);
                None
            }
        };
        assert!(taken.map_or(true, |local| local.id < THREADS * NAMES));
    }

    /// A walk meets each of its own names once: nobody changes these meanwhile.
    fn walk(&mut self) {
        let mut met = HashMap::new();
        let own = self.index * NAMES..(self.index + 1) * NAMES;
        let see = |found: Found<'_, '_, Value>| {
            if own.contains(&found.id) {
                assert_eq!(met.insert(found.id, found.age), None);
            }
        };
        self.thread.for_each(see).unwrap();
        assert_eq!(met, self.ages);
    }

    fn call(&mut self) {
        match self.below(1000) {
            0..=299 => self.attach(),
            300..=449 => self.replace(),
            450..=569 => self.detach(),
            570..=799 => self.look_up(),
            800..=996 => self.travel(),
            997 => self.thread.synchronize(Patience::Forever).unwrap(),
            _ => self.walk(),
        }
    }
}

#[test]
fn random_calls_beside_a_map() {
    let (table, alive) = (Table::open(THREADS as u8, ENTRIES).unwrap(), Arc::default());
    let travelling = Travelling::default();
    let calls = common::scaled(10_000);
    let work = |index| {
        let thread = table.thread().unwrap();
        let dice = Dice::of(index);
        let (table, travelling, alive) = (&table, &travelling, &alive);
        let (ages, next_age, changes) = (HashMap::new(), 0, 0);
        let mut worker =
            Worker { index, dice, ages, next_age, thread, table, travelling, alive, changes };
        (0..calls).for_each(|_| worker.call());
        worker.walk();
        assert!(worker.changes > 0);
        worker.ages
    };
    let all: HashMap<u64, u64> = thread::scope(|scope| {
        let work = &work;
        let threads: Vec<_> = (0..THREADS).map(|index| scope.spawn(move || work(index))).collect();
        threads.into_iter().flat_map(|thread| thread.join().unwrap()).collect()
    });

    travelling.into_inner().unwrap().clear();
    assert_eq!(table.len(), all.len());
    let drained = table.drain(Patience::Forever).unwrap();
    assert!(drained.held.is_empty() && table.is_empty() && table.deferred() == 0);
    let freed: HashSet<(u64, u64)> =
        drained.freed.iter().map(|freed| (freed.value.id, freed.value.age)).collect();
    assert!(all.iter().all(|(id, age)| freed.contains(&(*id, *age))));
    drop(drained);
    table.close(Patience::Forever).unwrap();
    assert_eq!(alive.load(Ordering::SeqCst), 0);
}

/// Numbers are unique in the table, and only entries of its own have one.
#[test]
fn numbers_are_of_the_table() {
    let (table, other) = (Table::open(1, 1000).unwrap(), Table::<()>::open(1, 1000).unwrap());
    let mut numbers = HashSet::new();
    for id in 0..1000 {
        let entry = table.attach(id, ()).unwrap();
        assert!(numbers.insert(table.number(&entry).unwrap()));
        assert_eq!(other.number(&entry), None);
        assert!(matches!(other.detach_entry(&entry), Err(DetachError::NotFound)));
    }
    let entry = table.look_up(7).unwrap();
    assert!(table.detach_entry(&entry).unwrap().try_destroy().is_ok());
    assert!(numbers.insert(table.number(&table.attach(7, ()).unwrap()).unwrap()));
}

#[test]
fn whoever_removes_learns_who_holds() {
    let table = Table::open(2, 1000).unwrap();
    let (one, other) = (table.thread().unwrap(), table.thread().unwrap());
    assert!(table.thread().is_none() && one.id() != other.id());
    table.attach("wm", 7).unwrap();
    let (passive, local) = (other.get("wm").unwrap(), one.get_local("wm").unwrap());
    let (entry, retired) = one.replace("wm", 8).unwrap();
    let refused = |holder| DestroyError::StillHeld(holder);
    let held = retired.try_destroy().unwrap_err();
    assert_eq!(held.refusal, refused(Holder::Passive(other.id())));
    drop(passive);
    let held = held.given.try_destroy().unwrap_err();
    assert_eq!(held.refusal, refused(Holder::Local(1)));
    drop(local);
    assert_eq!(held.given.destroy(Patience::Forever).unwrap().value, 7);

    let guard = other.read("wm").unwrap();
    let waiting = one.synchronize(Patience::Turns(2));
    assert_eq!(waiting, Err(SynchronizeError::Waiting(other.id())));
    drop(guard);
    assert_eq!(one.synchronize(Patience::Forever), Ok(()));
    assert_eq!(table.look_up("wm"), Ok(entry));
}

/// The lines that hold an entry are the program's own, also of an entry whose registry has others
/// with the same number; and the error of a destroy has them.
#[test]
fn each_line_that_holds_an_entry_is_named() {
    let table = Table::open_tracked(2, 1000).unwrap();
    let all: Vec<_> = (0..1000).map(|id| table.attach(id, id as usize).unwrap()).collect();
    let thread = table.thread().unwrap();
    let lines = |id: usize| {
        let places = table.holders(&all[id]).unwrap().places;
        assert!(places.iter().all(|place| place.location.file() == file!()));
        places.iter().map(|place| (place.hold, place.location.line())).collect::<Vec<_>>()
    };
    let first = line!();
    let one = thread.get(7).unwrap();
    let two = thread.get_local(7).unwrap();
    let three = table.get(7).unwrap();
    let four = thread.read(7).unwrap();
    let at = |hold| move |line| (hold, first + line);
    let held = [[4].map(at(Hold::Section)), [1].map(at(Hold::Passive))].concat();
    assert_eq!(lines(7), [held, [2, 3].map(at(Hold::Local)).to_vec()].concat());
    drop((one, two, four));
    assert!((0..1000).all(|id| lines(id).is_empty() == (id != 7)));
    let refused = table.detach(7).unwrap().try_destroy().unwrap_err();
    let line = format!("1 local reference: {}:{}", file!(), first + 3);
    assert!(refused.to_string().contains(&line), "{refused}");
    drop(three);
    assert!(refused.given.try_destroy().is_ok() && lines(7).is_empty());

    let walked = line!() + 1;
    let walk = thread.for_each(|found| assert!(lines(*found).contains(&(Hold::Section, walked))));
    assert_eq!(walk, Ok(()));
    let other = Table::<usize>::open(1, 1000).unwrap();
    assert_eq!(other.holders(&all[0]), None);
    let foreign = other.attach(0, 0).unwrap();
    assert!(table.holders(&foreign).unwrap().places.is_empty());
}

/// More threads than handles take turns.
#[test]
fn threads_wait_for_handles() {
    let (table, most) = (Table::open(2, 600).unwrap(), AtomicUsize::new(0));
    (0..600).for_each(|id| assert!(table.attach(id, id).is_ok()));
    let work = || {
        let thread = table.thread_within(Patience::Forever).unwrap();
        assert!(most.fetch_add(1, Ordering::SeqCst) < 2);
        assert!((0..600).all(|id| *thread.get(id).unwrap() == id));
        most.fetch_sub(1, Ordering::SeqCst);
    };
    thread::scope(|scope| (0..8).for_each(|_| drop(scope.spawn(work))));
    let handles = [table.thread().unwrap(), table.thread().unwrap()];
    assert!(table.thread_within(Patience::Turns(2)).is_none());
    drop(handles);
}

/// An audit needs the handles of all threads.
#[test]
fn an_audit_counts_what_one_entry_has() {
    let (table, other) = (Table::open(2, 600).unwrap(), Table::open(2, 600).unwrap());
    let entry = table.attach("wm", ()).unwrap();
    let [mut one, mut two, mut third] = [&table, &table, &other].map(|it| it.thread().unwrap());
    let held = one.get_local("wm").unwrap();
    let balance = table.audit(&entry, [&mut one, &mut two]).unwrap().unwrap();
    assert_eq!((balance.number, balance.held), (entry.number, 1));
    assert_eq!(table.audit(&entry, [&mut one]).err(), Some(CpusError::MissingCpu));
    let foreign = table.audit(&entry, [&mut one, &mut third]);
    assert_eq!(foreign.err(), Some(CpusError::OtherRegistry));
    assert!(matches!(other.audit(&entry, [&mut third]), Ok(None)));
    drop(held);
}

/// A close that fails gives the whole table back, whichever registry is held.
#[test]
fn a_table_closes_once_nothing_holds_it() {
    let alive = Arc::default();
    let mut table = Table::open(1, 1000).unwrap();
    (0..1000).for_each(|id| assert!(table.attach(id, Value::new(id, 0, &alive)).is_ok()));
    for id in [0, 1, 2, 500, 999] {
        let held = table.get(id).unwrap();
        let refused = table.close(Patience::Turns(2)).unwrap_err();
        assert_eq!(refused.refusal, CloseError::StillOpen);
        table = refused.given;
        assert_eq!((table.len(), held.id), (1000, id));
        assert!((0..1000).all(|id| table.get(id).unwrap().id == id));
    }
    let thread = table.thread().unwrap();
    table = table.close(Patience::Turns(1)).unwrap_err().given;
    drop(thread);
    let retired = table.detach(7).unwrap();
    table = table.close(Patience::Turns(1)).unwrap_err().given;
    drop(retired);
    assert_eq!(alive.load(Ordering::SeqCst), 999);
    table.close(Patience::Forever).unwrap();
    assert_eq!(alive.load(Ordering::SeqCst), 0);
}
