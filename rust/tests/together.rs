//! Threads that share a registry. Their calls are random. Each thread alone changes its own names,
//! so of these each answer is known. A lookup of another's name finds what the registry had during
//! the call: it is whole, and has that name.
//!
//! tests/sanitized.sh runs it under the thread sanitizer, which doesn't see how the standard
//! library waits. So a lock is tried again and again, and threads are joined one by one.
#![allow(unknown_lints, unexpected_cfgs)]

mod common;

use common::*;
use kupaldiz::*;
use std::collections::BTreeSet;
use std::sync::atomic::{AtomicU64, Ordering};
use std::sync::Mutex;
use std::thread;
use std::time::Duration;

/// References that any thread may take.
#[derive(Default)]
struct Handed(Mutex<Vec<LocalRef<Tracked>>>);

impl Handed {
    fn with<R>(&self, deed: impl FnOnce(&mut Vec<LocalRef<Tracked>>) -> R) -> R {
        loop {
            match self.0.try_lock() {
                Ok(mut held) => return deed(&mut held),
                Err(_) => thread::sleep(Duration::from_micros(10)),
            }
        }
    }
}

/// Of a name: how many changes of its driver began, how many ended, and the number of the driver
/// that is live since, or 0. `bared` is odd as long as there may be none. Its owner writes them.
#[derive(Default)]
struct Known {
    begun: AtomicU64,
    bared: AtomicU64,
    ended: AtomicU64,
    number: AtomicU64,
}

/// Relaxed under the thread sanitizer, which would take these for an order between the threads.
const ORDER: Ordering = if cfg!(kupaldiz_edges) { Ordering::Relaxed } else { Ordering::SeqCst };

/// The number and the label of an entry that is live.
type Live = Option<(u64, u64)>;

/// What one of so many threads has, each with so many names of its own.
struct Worker<'all, const CPUS: usize, const OWN: usize> {
    registry: &'all Registry<Tracked>,
    cpu: &'all Cpu<Tracked>,
    drops: &'all Drops,
    names: &'all [Name],
    known: &'all [Known],
    handed: &'all Handed,
    id: usize,
    dice: Dice,
    /// The number and the label of each of its own entries that is live.
    live: [Live; OWN],
    /// The label of its interface, if that is live.
    iface: Option<u64>,
    passives: Vec<PassiveRef<'all, Tracked>>,
    tokens: Vec<(Retired<Tracked>, u64)>,
    labels: u64,
}

impl<'all, const CPUS: usize, const OWN: usize> Worker<'all, CPUS, OWN> {
    const NAMES: usize = CPUS * OWN;

    /// Whose name a label is of: each label has its name in it.
    fn name_of(label: u64) -> usize {
        label as usize % Self::NAMES
    }

    fn own(&mut self) -> (usize, usize) {
        let own = self.dice.below(OWN);
        (own, self.id * OWN + own)
    }

    fn value(&mut self, place: usize) -> Tracked {
        self.labels += 1;
        self.drops.make(self.labels * Self::NAMES as u64 + place as u64)
    }

    /// What a lookup of a driver returns was live during the call. So it is what was live before,
    /// unless a change was under way; then it may be newer. It is none only if the name was bare at
    /// some moment: no replacement leaves it so.
    fn looked_up<F>(
        &self,
        place: usize,
        look: impl FnOnce(&'all Name) -> Option<F>,
        entry: fn(&F) -> Entry,
    ) -> Option<F> {
        let (names, known) = (self.names, &self.known[place]);
        let (bared, ended) = (known.bared.load(ORDER), known.ended.load(ORDER));
        let before = known.number.load(ORDER);
        let found = look(&names[place]);
        let was_bare = bared % 2 == 1 || known.bared.load(ORDER) != bared;
        let (number, is_changed) = (
            found.as_ref().map_or(0, |found| entry(found).number),
            known.begun.load(ORDER) != ended,
        );
        assert!(
            number == before || is_changed && (number > before || number == 0 && was_bare),
            "{number} after {before}"
        );
        found
    }

    /// Attaches, replaces or detaches one of its own.
    fn change(&mut self) {
        let (own, place) = self.own();
        let known = &self.known[place];
        known.begun.fetch_add(1, ORDER);
        self.change_own(own, place);
        known.number.store(self.live[own].map_or(0, |live| live.0), ORDER);
        known.ended.fetch_add(1, ORDER);
    }

    fn change_own(&mut self, own: usize, place: usize) {
        let (name, old) = (&self.names[place], self.live[own]);
        let retired = if old.is_some() && self.dice.below(3) > 0 {
            self.live[own] = None;
            self.known[place].bared.fetch_add(1, ORDER);
            Some(self.cpu.detach(name).unwrap())
        } else {
            let value = self.value(place);
            let label = value.label;
            let made = match old {
                None => self.cpu.attach(name, value).map(|entry| (entry, None)),
                Some(_) => {
                    self.cpu.replace(name, value).map(|(entry, retired)| (entry, Some(retired)))
                }
            };
            match made {
                Ok((entry, retired)) => {
                    self.known[place].bared.fetch_add(u64::from(old.is_none()), ORDER);
                    self.live[own] = Some((entry.number, label));
                    retired
                }
                Err(refused) => {
                    return assert_eq!(
                        (refused.refusal, refused.given.label),
                        (AttachError::NoSlot, label)
                    )
                }
            }
        };
        if let (Some(retired), Some((number, label))) = (retired, old) {
            assert_eq!(retired.entry().number, number);
            match self.dice.below(3) {
                0 | 1 => self.tokens.push((retired, label)),
                _ => retired.defer(),
            }
        }
    }

    /// Attaches its interface on any driver, or detaches it.
    fn change_iface(&mut self) {
        let (place, name, driver) =
            (self.id * OWN, &self.names[self.id * OWN], &self.names[self.dice.below(Self::NAMES)]);
        if let Some(label) = self.iface.take() {
            self.tokens.push((self.cpu.detach((Kind::Iface, name)).unwrap(), label));
        } else {
            let value = self.value(place);
            let label = value.label;
            match self.cpu.attach_iface(driver, name, value) {
                Ok(_) => self.iface = Some(label),
                Err(Refused { refusal, given }) => {
                    let is_known =
                        matches!(refusal, AttachError::NoSlot | AttachError::NeedsDriver);
                    assert!(is_known && given.label == label, "{refusal}");
                }
            }
        }
    }

    /// Finds one of its own and any other in one section, and acquires both.
    fn find_two(&mut self) {
        let ((own, place), other) = (self.own(), self.dice.below(Self::NAMES));
        let section = self.cpu.enter().unwrap();
        let [mine, others] = [place, other]
            .map(|place| self.looked_up(place, |name| section.find(name), Found::entry));
        let known = mine.as_ref().map(|found| (Found::entry(found).number, found.label));
        assert_eq!(known, self.live[own]);
        if let Some(mine) = &mine {
            let passive = Found::acquire(mine).unwrap();
            assert_eq!(PassiveRef::entry(&passive), Found::entry(mine));
            self.passives.push(passive);
        }
        if let Some(others) = &others {
            others.check();
            assert_eq!(Self::name_of(others.label), other);
            match Found::acquire_local(others) {
                Ok(local) => self.handed.with(|held| held.push(local)),
                Err(refusal) => assert!(refusal == LookUpError::NotFound && other / OWN != self.id),
            }
            others.check();
        }
    }

    fn use_any(&mut self) {
        let (place, cpu) = (self.dice.below(Self::NAMES), self.cpu);
        let name = &self.names[place];
        match self.dice.below(4) {
            0 => {
                let held = self.looked_up(place, |name| cpu.get(name).ok(), PassiveRef::entry);
                held.iter().for_each(|held| assert!(Self::name_of(held.label) == place));
            }
            1 => {
                if let Some(guard) =
                    self.looked_up(place, |name| cpu.read(name).ok(), ReadGuard::entry)
                {
                    guard.check();
                    assert_eq!(
                        (Self::name_of(guard.label), ReadGuard::entry(&guard).name),
                        (place, *name)
                    );
                }
            }
            2 => drop(self.looked_up(place, |name| cpu.look_up(name).ok(), |entry| *entry)),
            _ => {
                let section = self.cpu.enter().unwrap();
                let entries: Vec<_> = section.entries().collect();
                let numbers: BTreeSet<u64> =
                    entries.iter().map(|found| Found::entry(found).number).collect();
                assert_eq!(numbers.len(), entries.len());
                assert!(entries.iter().all(
                    |found| self.names[Self::name_of(found.label)] == Found::entry(found).name
                ));
                assert!(self.live.iter().flatten().all(|live| numbers.contains(&live.0)));
            }
        }
    }

    fn let_go(&mut self) {
        if self.passives.len() > 3 || self.dice.below(2) == 0 {
            if let Some(passive) = self.dice.take(&mut self.passives) {
                passive.check();
            }
        }
        if let Some(local) = self.handed.with(Vec::pop) {
            local.check();
            match self.dice.below(4) {
                0 | 1 => LocalRef::release(local, self.cpu),
                2 => {
                    let clone = local.clone();
                    assert_eq!(clone.label, local.label);
                    self.handed.with(|held| held.extend([local, clone]));
                }
                _ => drop(local),
            }
        }
    }

    fn work(&mut self) {
        let (retired, label) = match self.dice.take(&mut self.tokens) {
            Some(token) => token,
            None => return,
        };
        let number = retired.entry().number;
        let held = self.cpu.holds(number);
        let (done, own) = match self.dice.below(2) {
            0 => (retired.try_destroy(), false),
            _ => (retired.destroy_on(self.cpu, Patience::Turns(2)), held),
        };
        match done {
            Ok(freed) => {
                freed.value.check();
                assert_eq!((freed.entry.number, freed.value.label, held), (number, label, false));
            }
            Err(Refused { refusal, given }) => {
                let passive = DestroyError::StillHeld(Holder::Passive(self.cpu.id()));
                assert!(
                    matches!(refusal, DestroyError::StillHeld(_)) && (!own || refusal == passive)
                );
                self.tokens.push((given, label));
            }
        }
    }

    fn collect_or_perform(&mut self) {
        if self.dice.below(2) == 0 {
            self.registry.free_deferred().iter().for_each(|freed| freed.value.check());
        } else if let Err(refusal) = self.cpu.synchronize(Patience::Turns(1)) {
            assert!(matches!(refusal, SynchronizeError::Waiting(other) if other != self.cpu.id()));
        }
    }

    fn step(&mut self) {
        match self.dice.below(10) {
            0 | 1 => self.change(),
            2 | 3 => self.find_two(),
            4 | 5 => self.use_any(),
            6 => self.let_go(),
            7 => self.work(),
            8 => self.change_iface(),
            _ => self.collect_or_perform(),
        }
    }
}

/// So many random calls of each thread, once as many slots are filled as there are names for.
fn run<const CPUS: usize, const OWN: usize>(slots: usize, seed: u64, steps: usize) {
    let (drops, handed) = (Drops::default(), Handed::default());
    let names: Vec<Name> = (0..CPUS * OWN).map(|place| name(&format!("d{place}"))).collect();
    let (registry, cpus) = opened(Settings::new(CPUS as u8, slots as u8));
    let attach = |(label, name)| {
        cpus[0].attach(name, drops.make(label)).map(|entry| (entry.number, label)).ok()
    };
    let live: Vec<Live> = (0..).zip(&names).map(attach).collect();
    assert_eq!(live.iter().flatten().count(), slots.min(names.len()));
    let known = |live: &Live| Known {
        number: AtomicU64::new(live.map_or(0, |live| live.0)),
        bared: AtomicU64::new(u64::from(live.is_none())),
        ..Known::default()
    };
    let known: Vec<Known> = live.iter().map(known).collect();
    thread::scope(|scope| {
        let (registry, drops, names, known, handed) = (&registry, &drops, &names, &known, &handed);
        let work = |(cpu, live): (Cpu<Tracked>, &[Live])| {
            let live = live.try_into().unwrap();
            scope.spawn(move || {
                let (id, cpu) = (usize::from(cpu.id()), &cpu);
                let (dice, iface, passives, tokens) =
                    (Dice::of(seed + id as u64), None, Vec::new(), Vec::new());
                let mut worker = Worker::<CPUS, OWN> {
                    registry,
                    cpu,
                    drops,
                    names,
                    known,
                    handed,
                    id,
                    dice,
                    live,
                    iface,
                    passives,
                    tokens,
                    labels: 0,
                };
                (0..steps).for_each(|_| worker.step());
            })
        };
        let workers: Vec<_> = cpus.into_iter().zip(live.chunks(OWN)).map(work).collect();
        workers.into_iter().for_each(|worker| worker.join().unwrap());
    });
    drop(handed);
    drop(registry);
    assert_eq!(drops.made(), drops.dropped());
}

#[test]
fn threads_that_share_a_registry_find_what_is_there() {
    for seed in 1..=5 {
        run::<4, 2>(14, seed * 100, scaled(4000));
    }
}

/// 64 CPUs on threads, and more names than 255 slots.
#[test]
fn all_cpus_share_all_slots() {
    const CPUS: usize = LIMITS.cpus as usize;
    const SLOTS: usize = LIMITS.slots as usize;
    const OWN: usize = 2 * SLOTS / CPUS + 1;
    run::<CPUS, OWN>(SLOTS, 1000, scaled(2000));
}
