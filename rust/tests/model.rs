//! Random calls beside a plain model: each call returns what the model says.
//!
//! They are what no script of the repository says, which examples/script.rs runs: what entries
//! carry and when it is dropped, what is deferred, tasks that wait, references that are dropped
//! without a CPU, who holds an entry, and calls that make several steps of the protocol or choose
//! a CPU. Of every four registries two note places, and two have many slots and names, and so many
//! deferred entries, and many tasks.

mod common;

use common::*;
use kupaldiz::*;
use std::cmp::Reverse;
use std::collections::{BTreeSet, HashMap};
use std::mem;
use std::sync::Arc;
use std::task::Poll;

/// The CPUs that the test has. One more is the registry's own.
const CPUS: usize = 3;
/// Slots, and names of each kind.
const FEW: (u8, usize) = (5, 3);
const MANY: (u8, usize) = (40, 24);
const KINDS: [Kind; 2] = [Kind::Driver, Kind::Iface];

/// An entry whose slot isn't free, as the model knows it.
struct Known {
    entry: Entry,
    label: u64,
    live: bool,
    /// A walk meets a higher one first.
    rank: u64,
    /// The number of the driver that an interface keeps, and the CPU that acquired the reference.
    driver: Option<(u64, usize)>,
    /// Of each CPU, which of its sections was open as the entry was detached.
    open: [Option<u64>; CPUS],
    /// The references that were dropped and aren't released, each by its place in `clones`.
    dropped: Vec<usize>,
}

/// A local reference, with the CPU that acquired it, and its place in `clones`.
struct Held {
    local: LocalRef<Tracked>,
    cpu: usize,
    of: usize,
}

impl Held {
    fn number(&self) -> u64 {
        LocalRef::entry(&self.local).number
    }
}

/// A token, and the task that awaits it, with what the entry was held by as it was polled.
struct Token {
    retired: Retired<Tracked>,
    waits: Option<(Arc<Task>, Holder)>,
}

impl Token {
    fn new(retired: Retired<Tracked>) -> Token {
        Token { retired, waits: None }
    }

    fn number(&self) -> u64 {
        self.retired.entry().number
    }
}

type Told<R> = Result<R, RegistryError>;

/// The CPU and the number.
fn place(held: &PassiveRef<'_, Tracked>) -> (usize, u64) {
    held.check();
    (usize::from(PassiveRef::cpu(held).id()), PassiveRef::entry(held).number)
}

/// The registry, what is held in it, and what the model knows.
struct Bench<'cpu> {
    registry: &'cpu Registry<Tracked>,
    cpus: &'cpu [Cpu<Tracked>],
    drops: &'cpu Drops,
    slots: u8,
    names: usize,
    dice: Dice,
    open: [Option<Section<'cpu, Tracked>>; CPUS],
    /// How many sections each CPU has begun.
    begun: [u64; CPUS],
    /// What each CPU has found last.
    last: [Option<u64>; CPUS],
    passives: Vec<PassiveRef<'cpu, Tracked>>,
    locals: Vec<Held>,
    /// Of each reference that was acquired, how many there are with its clones.
    clones: Vec<usize>,
    tokens: Vec<Token>,
    deferred: Vec<u64>,
    known: Vec<Known>,
    /// What an attach has freed for its slot. The value is still there.
    vacated: Vec<Known>,
    changes: u64,
    labels: u64,
    /// The driver's label of each interface.
    drivers: Vec<(u64, u64)>,
}

/// What the model says.
impl<'cpu> Bench<'cpu> {
    fn live(&self, kind: Kind, name: &Name) -> Option<&Known> {
        self.known.iter().find(|one| one.live && (one.entry.kind, one.entry.name) == (kind, *name))
    }

    /// What a lookup returns.
    fn found(&self, kind: Kind, name: &Name) -> Told<Entry> {
        self.live(kind, name).map(|one| one.entry).ok_or(RegistryError::NotFound)
    }

    /// The same, which the CPU notes as its last.
    fn look(&mut self, cpu: usize, kind: Kind, name: &Name) -> Told<Entry> {
        let found = self.found(kind, name);
        self.last[cpu] = found.ok().map(|entry| entry.number);
        found
    }

    fn known(&mut self, number: u64) -> &mut Known {
        self.known.iter_mut().find(|one| one.entry.number == number).expect("a known entry")
    }

    fn is_inside(&self, cpu: Option<usize>) -> bool {
        cpu.map_or(false, |cpu| self.open[cpu].is_some())
    }

    fn passives_on(&self, cpu: usize, number: u64) -> usize {
        self.passives.iter().filter(|held| place(held) == (cpu, number)).count()
    }

    /// Whether this CPU is still in a section that may have found the entry.
    fn is_in_grace(&self, cpu: usize, one: &Known) -> bool {
        self.is_inside(Some(cpu)) && (one.live || one.open[cpu] == Some(self.begun[cpu]))
    }

    /// The CPUs that acquired the local references to an entry, the interface of these that keeps
    /// one, and which was acquired, where it was by a caller.
    fn locals_to<'a>(
        &self,
        number: u64,
        kept_by: impl Iterator<Item = &'a Known>,
    ) -> Vec<(usize, Option<u64>, Option<usize>)> {
        let held = self.locals.iter().filter(|held| held.number() == number);
        let kept = kept_by.filter_map(|one| Some((one.driver?, one.entry.number)));
        let kept = kept.filter(|(driver, _)| driver.0 == number);
        held.map(|held| (held.cpu, None, Some(held.of)))
            .chain(kept.map(|((_, cpu), iface)| (cpu, Some(iface), None)))
            .collect()
    }

    /// How many local references hold an entry: one with its clones is one.
    fn held(&self, number: u64) -> usize {
        self.locals_to(number, self.known.iter()).into_iter().collect::<BTreeSet<_>>().len()
    }

    /// What keeps the slot of a retired entry first.
    fn keeps_slot(&self, number: u64) -> Option<Holder> {
        let one = self.known.iter().find(|one| one.entry.number == number)?;
        let grace = (0..CPUS).find(|cpu| self.is_in_grace(*cpu, one));
        let passive = (0..CPUS).find(|cpu| self.passives_on(*cpu, number) > 0);
        let locals = self.held(number) as u64;
        grace
            .map(|cpu| Holder::Grace(cpu as u8))
            .or(passive.map(|cpu| Holder::Passive(cpu as u8)))
            .or((locals > 0).then_some(Holder::Local(locals)))
    }

    /// What holds a retired entry first. The value of an interface holds that of its driver.
    fn holder(&self, number: u64) -> Option<Holder> {
        let is_on_it = |one: &&Known| one.driver.map_or(false, |driver| driver.0 == number);
        let values = self.vacated.iter().filter(is_on_it).count() as u64;
        self.keeps_slot(number).or((values > 0).then_some(Holder::Local(values)))
    }

    /// The slot of an entry is vacant, if nothing keeps it.
    fn vacate(&mut self, number: u64) {
        if let (None, Some(place)) =
            (self.keeps_slot(number), self.known.iter().position(|one| one.entry.number == number))
        {
            let one = self.known.remove(place);
            self.vacated.push(one);
        }
    }

    /// One turn frees the entry, or meets this. What was dropped is given up as soon as local
    /// references alone hold the entry.
    fn turn(&mut self, number: u64) -> Option<Holder> {
        if let (Some(Holder::Local(_)), Some(one)) =
            (self.keeps_slot(number), self.known.iter_mut().find(|one| one.entry.number == number))
        {
            for of in one.dropped.drain(..) {
                self.clones[of] -= 1;
            }
        }
        self.vacate(number);
        let holder = self.holder(number);
        if holder.is_none() {
            self.vacated.retain(|one| one.entry.number != number);
            self.deferred.retain(|other| *other != number);
        }
        holder
    }

    /// One turn for each deferred entry, the youngest first. What is freed by then.
    fn collect(&mut self) -> Vec<u64> {
        let mut numbers = self.deferred.clone();
        numbers.sort_unstable_by_key(|number| Reverse(*number));
        numbers.into_iter().filter(|number| self.turn(*number).is_none()).collect()
    }

    /// What was dropped is released, of this entry or of all.
    fn release_dropped(&mut self, number: Option<u64>) {
        let is_meant = |one: &&mut Known| number.map_or(true, |number| one.entry.number == number);
        for one in self.known.iter_mut().filter(is_meant) {
            one.dropped.drain(..).for_each(|of| self.clones[of] -= 1);
        }
    }

    /// What comes before a change, on a CPU or on the one that the crate chooses.
    fn before_change(&mut self, cpu: Option<usize>) -> Told<()> {
        if self.is_inside(cpu) {
            return Err(RegistryError::Inside);
        }
        self.release_dropped(None);
        Ok(())
    }

    fn vacant(&self) -> Option<u8> {
        (0..self.slots).find(|slot| self.known.iter().all(|one| one.entry.slot != *slot))
    }

    /// What comes before an attach: if no slot is vacant, one turn is made for each retired entry,
    /// the youngest first.
    fn before_attach(&mut self, cpu: Option<usize>) -> Told<()> {
        self.before_change(cpu)?;
        if self.vacant().is_none() {
            let retired = self.known.iter().filter(|one| !one.live).map(|one| one.entry.number);
            let mut retired: Vec<u64> = retired.collect();
            retired.sort_unstable();
            retired.into_iter().rev().for_each(|number| self.vacate(number));
        }
        Ok(())
    }

    /// An entry was attached, in the place of this one, if it replaced one.
    fn attached(&mut self, entry: Entry, driver: Option<(u64, usize)>, old: Option<u64>) {
        self.changes += 1;
        assert_eq!(entry.number, self.changes);
        if let Some((number, _)) = driver {
            let of_driver = self.known(number).label;
            self.drivers.push((self.labels, of_driver));
        }
        let rank = old.map_or(entry.number, |old| self.known(old).rank);
        self.known.push(Known {
            entry,
            label: self.labels,
            live: true,
            rank,
            driver,
            open: [None; CPUS],
            dropped: Vec::new(),
        });
    }

    fn detached(&mut self, number: u64) {
        let open = [0, 1, 2].map(|cpu| self.is_inside(Some(cpu)).then(|| self.begun[cpu]));
        let one = self.known(number);
        (one.live, one.open) = (false, open);
    }

    /// The CPU looks an entry up once more that it found before, if it has found something else
    /// since.
    fn seek(&mut self, cpu: usize, entry: Entry) -> Told<()> {
        if self.last[cpu] == Some(entry.number)
            || self.look(cpu, entry.kind, &entry.name) == Ok(entry)
        {
            return Ok(());
        }
        Err(RegistryError::NotFound)
    }

    /// What an acquire of a found entry returns: a passive reference, or a local one, after those to
    /// it that were dropped are released.
    fn passively(&mut self, cpu: usize, entry: Entry) -> Told<(usize, u64)> {
        if self.passives_on(cpu, entry.number) == 0 {
            self.seek(cpu, entry)?;
        }
        Ok((cpu, entry.number))
    }

    fn locally(&mut self, cpu: usize, entry: Entry) -> Told<Entry> {
        self.release_dropped(Some(entry.number));
        self.seek(cpu, entry).map(|()| entry)
    }
}

/// A text, or other bytes.
fn any_name(place: usize) -> Name {
    if place % 2 == 0 {
        return name(&format!("d{place}"));
    }
    Name::from_bytes(&[0, place as u8, 0xff, b'-', 0]).unwrap()
}

/// Makes a call on a CPU, or on one that the crate chooses.
macro_rules! on {
    ($bench:ident, $at:ident, $call:ident($($word:expr),*)) => {
        match $at {
            Some(at) => $bench.cpus[at].$call($($word),*),
            None => $bench.registry.$call($($word),*),
        }
    };
}

/// Lookups and references.
impl<'cpu> Bench<'cpu> {
    fn any_cpu(&mut self) -> (usize, &'cpu Cpu<Tracked>) {
        let cpu = self.dice.below(CPUS);
        (cpu, &self.cpus[cpu])
    }

    /// A CPU, or none: then the crate chooses one.
    fn any_or_chosen(&mut self) -> Option<usize> {
        let place = self.dice.below(4);
        Some(place).filter(|place| *place < CPUS)
    }

    fn any_key(&mut self) -> (Kind, Name) {
        (KINDS[self.dice.below(2)], any_name(self.dice.below(self.names)))
    }

    /// A passive reference, or the refusal that was expected.
    fn keep(&mut self, got: Told<PassiveRef<'cpu, Tracked>>, expected: Told<(usize, u64)>) {
        assert_eq!(got.as_ref().map(place).map_err(|why| *why), expected);
        self.passives.extend(got);
    }

    /// A CPU that the crate has chosen is its own: the program has the others.
    fn keep_local(
        &mut self,
        got: Told<LocalRef<Tracked>>,
        cpu: Option<usize>,
        expected: Told<Entry>,
    ) {
        assert_eq!(got.as_ref().map(LocalRef::entry).map_err(|why| *why), expected);
        if let Ok(local) = got {
            self.locals.push(Held { local, cpu: cpu.unwrap_or(CPUS), of: self.clones.len() });
            self.clones.push(1);
        }
    }

    fn enter_or_exit(&mut self) {
        let (at, cpu) = self.any_cpu();
        if self.open[at].take().is_none() {
            self.open[at] = Some(cpu.enter().unwrap());
            self.begun[at] += 1;
        }
        assert_eq!(cpu.is_inside(), self.open[at].is_some());
    }

    /// Looks two entries up in one section, and acquires the one that was found first.
    fn find_two(&mut self) {
        let ((at, _), keys, passively) =
            (self.any_cpu(), [self.any_key(), self.any_key()], self.dice.below(2) == 0);
        let section = match &self.open[at] {
            Some(section) => section,
            None => return,
        };
        let found = keys.map(|(kind, name)| section.find((kind, &name)));
        for (found, (kind, name)) in found.iter().zip(&keys) {
            let expected = self.live(*kind, name).map(|one| (one.entry, one.label));
            assert_eq!(found.as_ref().map(|found| (Found::entry(found), found.label)), expected);
            assert_eq!(section.contains((*kind, name)), expected.is_some());
        }
        let first = found.iter().flatten().next();
        let passive =
            first.filter(|_| passively).map(|first| (Found::entry(first), Found::acquire(first)));
        let local = first
            .filter(|_| !passively)
            .map(|first| (Found::entry(first), Found::acquire_local(first)));
        self.last[at] = found[1].as_ref().map(|found| Found::entry(found).number);
        if let Some((entry, passive)) = passive {
            let expected = self.passively(at, entry);
            self.keep(passive.map_err(why), expected);
        }
        if let Some((entry, local)) = local {
            let expected = self.locally(at, entry);
            self.keep_local(local.map_err(why), Some(at), expected);
        }
    }

    fn walk(&mut self) {
        let (at, _) = self.any_cpu();
        if let Some(section) = &self.open[at] {
            let mut live: Vec<_> = self.known.iter().filter(|one| one.live).collect();
            live.sort_by_key(|one| Reverse(one.rank));
            let expected: Vec<_> = live.iter().map(|one| (one.entry, one.label)).collect();
            let walk = section.entries();
            assert_eq!(walk.len(), expected.len());
            assert_eq!(
                walk.map(|found| (Found::entry(&found), found.label)).collect::<Vec<_>>(),
                expected
            );
            self.last[at] = None;
        }
    }

    /// By one call.
    fn refer(&mut self) {
        let (at, (kind, name), way) = (self.any_or_chosen(), self.any_key(), self.dice.below(4));
        let (key, found) = ((kind, &name), self.found(kind, &name));
        match (way, at) {
            (0, Some(at)) => {
                let expected =
                    self.look(at, kind, &name).and_then(|entry| self.passively(at, entry));
                self.keep(self.cpus[at].get(key).map_err(why), expected);
            }
            (1, Some(at)) => {
                let guard = self.cpus[at].read(key).map_err(why);
                assert_eq!(guard.as_ref().map(ReadGuard::entry).map_err(|why| *why), found);
                guard.iter().for_each(|guard| guard.check());
            }
            (2, _) => assert_eq!(on!(self, at, look_up(key)).map_err(why), found),
            _ => {
                let got = match at {
                    Some(at) => self.cpus[at].get_local(key),
                    None => self.registry.get(key),
                };
                if let Ok(entry) = found {
                    self.release_dropped(Some(entry.number));
                }
                self.keep_local(got.map_err(why), at, found);
            }
        }
        if let Some(at) = at {
            self.last[at] = found.ok().map(|entry| entry.number);
        }
    }

    fn release(&mut self) {
        let way = self.dice.below(8);
        if let (0..=3, Some(held)) = (way, self.dice.take(&mut self.passives)) {
            if way > 0 {
                return PassiveRef::release(held);
            }
            let more = PassiveRef::try_clone(&held).map_err(why);
            let expected = Ok(place(&held));
            self.passives.push(held);
            self.keep(more, expected);
        } else if let Some(held) = self.dice.take(&mut self.locals) {
            held.local.check();
            match way % 4 {
                0 | 1 => self.release_local(held),
                2 => {
                    let clone = Held { local: held.local.clone(), ..held };
                    assert_eq!(clone.number(), held.number());
                    self.clones[held.of] += 1;
                    self.locals.extend([held, clone]);
                }
                _ => {
                    let at = held.of;
                    self.known(held.number()).dropped.push(at);
                    drop(held);
                }
            }
        }
    }

    fn release_local(&mut self, held: Held) {
        let (number, (_, cpu)) = (held.number(), self.any_cpu());
        LocalRef::release(held.local, cpu);
        self.clones[held.of] -= 1;
        self.release_dropped(Some(number));
    }
}

/// Changes, and the work on what is retired.
impl<'cpu> Bench<'cpu> {
    /// An attach, or a replace: what holds the old entry keeps it, and on an error it stays.
    fn attach(&mut self) {
        let (at, (kind, name)) = (self.any_or_chosen(), self.any_key());
        let (replaces, driver) = (self.dice.below(3) == 0, any_name(self.dice.below(self.names)));
        let (value, is_iface) = (self.value(), kind == Kind::Iface);
        let alone = |made| (made, None);
        let both = |(made, old)| (made, Some(old));
        let made = match (replaces, is_iface) {
            (false, false) => on!(self, at, attach(name, value)).map(alone),
            (false, true) => on!(self, at, attach_iface(driver, name, value)).map(alone),
            (true, false) => on!(self, at, replace(name, value)).map(both),
            (true, true) => on!(self, at, replace_iface(driver, name, value)).map(both),
        };
        let kept = self.live(Kind::Driver, &driver).filter(|_| is_iface).map(|one| one.entry);
        let expected = self.before_attach(at).and_then(|()| {
            if is_iface && kept.is_none() {
                return Err(RegistryError::NeedsDriver);
            }
            let old = self.found(kind, &name);
            match (old, replaces) {
                (Ok(_), false) => Err(RegistryError::NameTaken),
                (Err(none), true) => Err(none),
                _ => Ok((self.vacant().ok_or(RegistryError::NoSlot)?, old.ok())),
            }
        });
        let made = made.map_err(why);
        let told = made.as_ref().map(|(made, old)| (made.slot, old.as_ref().map(Retired::entry)));
        assert_eq!(told.map_err(|why| *why), expected);
        if let Ok((entry, old)) = made {
            let gone = old.as_ref().map(|old| old.entry().number);
            gone.iter().for_each(|gone| self.detached(*gone));
            assert_eq!((entry.kind, entry.name), (kind, name));
            let kept = kept.map(|driver| (driver.number, at.unwrap_or(CPUS)));
            self.attached(entry, kept, gone);
            self.tokens.extend(old.map(Token::new));
        }
    }

    fn value(&mut self) -> Tracked {
        self.labels += 1;
        self.drops.make(self.labels)
    }

    fn detach(&mut self) {
        let (at, (kind, name)) = (self.any_or_chosen(), self.any_key());
        let expected = self.before_change(at).and_then(|()| self.found(kind, &name));
        let (key, retires) = ((kind, &name), self.dice.below(2) == 0);
        let (mut freed, by_entry) = (Vec::new(), expected.ok().filter(|_| self.dice.below(3) == 0));
        let token = if retires {
            on!(self, at, retire(key)).map(|all| freed = all).map(|()| None)
        } else if let Some(entry) = by_entry {
            on!(self, at, detach_entry(&entry)).map(Some)
        } else {
            on!(self, at, detach(key)).map(Some)
        };
        let token = token.map_err(why);
        assert_eq!(token.as_ref().err(), expected.as_ref().err());
        if let (Ok(token), Ok(entry)) = (token, expected) {
            self.changes += 1;
            self.detached(entry.number);
            self.deferred.extend(token.is_none().then_some(entry.number));
            self.tokens.extend(token.map(Token::new));
            assert_eq!(numbers(&freed), if retires { self.collect() } else { Vec::new() });
        }
    }

    /// A turn on a retired entry, by each of the ways.
    fn work(&mut self) {
        let (at, cpu) = self.any_cpu();
        let mut token = match self.dice.take(&mut self.tokens) {
            Some(token) => token,
            None => return,
        };
        let (number, way) = (token.number(), self.dice.below(5));
        if way == 3 {
            return self.defer(token);
        }
        if way == 4 {
            return self.await_it(token);
        }
        let expected = if way == 2 && self.is_inside(Some(at)) {
            Some(RegistryError::Inside)
        } else {
            self.worked(number, (way == 2).then_some(at))
        };
        let waits = token.waits.take();
        let done = match way {
            0 => token.retired.try_destroy(),
            1 => token.retired.destroy(Patience::Turns(1)),
            _ => token.retired.destroy_on(cpu, Patience::Turns(1)),
        };
        match done {
            Ok(freed) => {
                assert_eq!((freed.entry.number, None), (number, expected));
                freed.value.check();
            }
            Err(Refused { refusal, given }) => {
                assert_eq!((Some(why(refusal)), given.entry().number), (expected, number));
                self.tokens.push(Token { retired: given, waits });
            }
        }
    }

    /// Polls it by a task of its own.
    fn await_it(&mut self, mut token: Token) {
        let (number, task) = (token.number(), Task::here());
        let polled = task.poll(&mut token.retired);
        match (polled, self.turn(number)) {
            (Poll::Ready(value), None) => value.check(),
            (Poll::Pending, Some(holder)) => {
                token.waits = Some((task, holder));
                self.tokens.push(token);
            }
            (polled, holder) => panic!("{polled:?}, where {holder:?} holds it"),
        }
    }

    /// Each task is woken as soon as what it waits for is let go. If that is of a CPU, it isn't
    /// woken before.
    fn tasks(&self) {
        for token in &self.tokens {
            let (task, noted, now) = match &token.waits {
                Some((task, noted)) => (task, noted, self.holder(token.number())),
                None => continue,
            };
            let is_same = match (noted, now) {
                (Holder::Local(_), Some(Holder::Local(_))) => true,
                _ => Some(*noted) == now,
            };
            assert!(
                task.woken() > 0 || is_same,
                "nobody woke a task: {noted:?} held its entry, and now {now:?}"
            );
            assert!(
                task.woken() == 0 || !is_same || matches!(noted, Holder::Local(_)),
                "a task was woken, though {noted:?} holds its entry"
            );
            assert!(task.woken() < 2);
        }
    }

    /// What one turn returns, of a destroy by this CPU or by none: what its CPU holds is said
    /// first.
    fn worked(&mut self, number: u64, cpu: Option<usize>) -> Option<RegistryError> {
        let own = cpu.filter(|cpu| self.passives_on(*cpu, number) > 0);
        let holder = self.turn(number);
        own.map(|cpu| Holder::Passive(cpu as u8)).or(holder).map(RegistryError::StillHeld)
    }

    /// So a section holds many that are deferred.
    fn defer_many(&mut self) {
        (0..self.names).for_each(|_| self.attach());
        if self.open[0].is_none() {
            self.open[0] = Some(self.cpus[0].enter().unwrap());
            self.begun[0] += 1;
        }
        (0..4 * self.names).for_each(|_| self.detach());
        while let Some(token) = self.tokens.pop() {
            self.defer(token);
        }
    }

    fn defer(&mut self, token: Token) {
        self.deferred.push(token.number());
        token.retired.defer();
        self.collect();
    }

    fn free_deferred(&mut self) {
        let expected = self.collect();
        assert_eq!(numbers(&self.registry.free_deferred()), expected);
    }

    /// An interface goes before its driver.
    fn drain(&mut self) {
        let drained = self.registry.drain(Patience::Turns(1)).unwrap();
        self.release_dropped(None);
        let live = self.known.iter().filter(|one| one.live).map(|one| one.entry.number);
        let live: BTreeSet<u64> = live.collect();
        self.changes += live.len() as u64;
        live.iter().for_each(|number| self.detached(*number));
        let (mut freed, mut held) = (self.collect(), Vec::new());
        for number in live.into_iter().rev() {
            match self.worked(number, None) {
                None => freed.push(number),
                Some(refusal) => held.push((number, refusal)),
            }
        }
        freed.extend(self.collect());
        let told = drained.held.iter().map(|one| (one.given.entry().number, why(one.refusal)));
        assert_eq!((numbers(&drained.freed), told.collect::<Vec<_>>()), (freed, held));
        self.tokens.extend(drained.held.into_iter().map(|held| Token::new(held.given)));
    }

    fn audit(&mut self) {
        let audited = self.registry.audit(self.cpus).unwrap();
        self.release_dropped(None);
        self.known.sort_by_key(|one| one.entry.slot);
        let held = |one: &Known| (one.entry.slot, one.entry.number, self.held(one.entry.number));
        let told = audited.iter().map(|told| (told.slot, told.number, told.held as usize));
        assert_eq!(told.collect::<Vec<_>>(), self.known.iter().map(held).collect::<Vec<_>>());
    }

    /// Who holds each entry, by the CPU: sections, passive references, local ones.
    fn holders(&mut self) {
        for one in &self.known {
            let number = one.entry.number;
            let sections = (0..CPUS)
                .filter(|cpu| self.is_in_grace(*cpu, one))
                .map(|cpu| (Hold::Section, cpu, None));
            let passives = self.passives.iter().map(place).filter(|place| place.1 == number);
            let locals = self
                .locals_to(number, self.known.iter().chain(&self.vacated))
                .into_iter()
                .map(|(cpu, iface, _)| (Hold::Local, cpu, iface));
            let passives = passives.map(|place| (Hold::Passive, place.0, None));
            let mut expected: Vec<_> = sections.chain(passives).chain(locals).collect();
            expected.sort_unstable();
            if let Some(holders) = self.registry.holders(&one.entry) {
                let places = holders.places.iter();
                let mut told: Vec<_> = places
                    .map(|place| (place.hold, usize::from(place.cpu), place.kept_by))
                    .collect();
                assert!(told.windows(2).all(|pair| pair[0].0 <= pair[1].0));
                told.sort_unstable();
                assert_eq!(told, expected);
            }
        }
    }
}

impl Bench<'_> {
    fn step(&mut self) {
        match self.dice.below(20) {
            0..=2 => self.enter_or_exit(),
            3 | 4 => self.find_two(),
            5 => self.walk(),
            6..=8 => self.refer(),
            9..=11 => self.release(),
            12..=14 => self.attach(),
            15 | 16 => self.detach(),
            17 | 18 => self.work(),
            _ => match self.dice.below(8) {
                0 => self.drain(),
                1 => self.defer_many(),
                2..=4 => self.free_deferred(),
                _ => self.audit(),
            },
        }
        self.holders();
        self.tasks();
        let dropped: usize = self.known.iter().map(|one| one.dropped.len()).sum();
        assert_eq!(
            (self.registry.deferred(), self.registry.dropped()),
            (self.deferred.len(), dropped)
        );
        let kept = self.known.len() + self.vacated.len();
        assert_eq!(self.drops.made() - self.drops.dropped(), kept);
        for one in &self.known {
            let held = |cpu: usize| {
                self.cpus[cpu].holds(one.entry.number)
                    == (self.passives_on(cpu, one.entry.number) > 0)
            };
            assert!((0..CPUS).all(held));
        }
    }
}

/// The numbers of what was freed, in its order.
fn numbers(freed: &[Freed<Tracked>]) -> Vec<u64> {
    freed.iter().for_each(|freed| freed.value.check());
    freed.iter().map(|freed| freed.entry.number).collect()
}

/// So many random calls.
fn run(seed: u64, steps: usize) {
    let (slots, names) = if seed % 4 < 2 { FEW } else { MANY };
    let settings = Settings::new(CPUS as u8, slots);
    let open = if seed % 2 == 0 { Registry::open_tracked } else { Registry::open };
    let (registry, drops) = (open(settings).unwrap(), Drops::default());
    let cpus = registry.cpus();
    let mut bench = Bench {
        registry: &registry,
        cpus: &cpus,
        drops: &drops,
        slots,
        names,
        dice: Dice::of(seed),
        open: [(); CPUS].map(|()| None),
        begun: [0; CPUS],
        last: [None; CPUS],
        passives: Vec::new(),
        locals: Vec::new(),
        clones: Vec::new(),
        tokens: Vec::new(),
        deferred: Vec::new(),
        known: Vec::new(),
        vacated: Vec::new(),
        changes: 0,
        labels: 0,
        drivers: Vec::new(),
    };
    drop(dropped_here());
    (0..steps).for_each(|_| bench.step());
    let drivers = mem::take(&mut bench.drivers);
    drop(bench);
    let registry = registry.close(Patience::Turns(2)).unwrap_err().given;
    drop(cpus);
    registry.close(Patience::Turns(1)).unwrap();
    assert_eq!(drops.made(), drops.dropped());
    let order: HashMap<u64, usize> = dropped_here().into_iter().zip(0..).collect();
    assert!(
        drivers.iter().all(|(iface, driver)| order[iface] < order[driver]),
        "a driver's value went before its interface's"
    );
}

#[test]
fn each_answer_is_the_models() {
    (1..=20).for_each(|seed| run(seed, scaled(3000)));
}

/// Registries on threads beside each other have nothing in common.
#[test]
fn each_answer_is_the_models_on_threads() {
    std::thread::scope(|scope| {
        (101..=104).for_each(|seed| drop(scope.spawn(move || run(seed, scaled(6000)))));
    });
}
