//! Entries that leave while other threads look them up, and what the models of entries and of loans
//! don't reach.

mod common;

use common::*;
use kupaldiz::*;
use std::panic::{catch_unwind, AssertUnwindSafe};
use std::sync::atomic::{AtomicBool, AtomicU32, Ordering};
use std::sync::mpsc::channel;
use std::sync::Arc;
use std::task::Poll;
use std::thread;
use std::time::{Duration, Instant};

const WM: Name = Name::from_static("wm");
const WM0: Name = Name::from_static("wm0");

/// Two CPUs for the holders, and one for the changes.
fn with_wm() -> (Registry<u32>, Vec<Cpu<u32>>) {
    let (registry, cpus) = opened(Settings::new(3, 4));
    cpus[2].attach(WM, 7).unwrap();
    (registry, cpus)
}

/// A call that holds an entry for a moment, and what it keeps.
type Call = for<'cpu> fn(&'cpu Cpu<u32>, Kind, &Name) -> Option<PassiveRef<'cpu, u32>>;

const CALLS: [Call; 5] = [
    |cpu, kind, name| cpu.look_up((kind, name)).ok().and(None),
    |cpu, kind, name| cpu.get((kind, name)).ok(),
    |cpu, kind, name| cpu.read((kind, name)).ok().and(None),
    |cpu, kind, name| cpu.get_local((kind, name)).ok().and(None),
    |cpu, kind, name| {
        let reference = cpu.get_local((kind, name)).ok()?;
        LocalRef::release(reference, cpu);
        None
    },
];

/// In each round a thread makes the call once, while a task waits for the entry. Nobody does
/// anything else then, so a wake that is lost ends the test.
#[test]
fn no_wake_is_lost_between_threads() {
    for (call, name) in CALLS.iter().flat_map(|call| [(call, WM), (call, WM0)]) {
        let (_registry, mut cpus) = opened(Settings::new(2, 8));
        let (mine, other) = (cpus.pop().unwrap(), cpus.pop().unwrap());
        let (rounds, begun, ended) = (scaled(250) as u32, AtomicU32::new(0), AtomicU32::new(0));
        let wait_for = |count: &AtomicU32, round| {
            while count.load(Ordering::SeqCst) != round {
                thread::yield_now();
            }
        };
        thread::scope(|scope| {
            scope.spawn(|| {
                let cpu = other;
                for round in 1..=rounds {
                    wait_for(&begun, round);
                    drop(call(&cpu, Kind::Driver, &name));
                    ended.store(round, Ordering::SeqCst);
                }
            });
            let task = Task::here();
            for round in 1..=rounds {
                mine.attach(WM, round).unwrap();
                begun.store(round, Ordering::SeqCst);
                let retired = mine.detach(WM).unwrap();
                assert_eq!(task.run(retired), round);
                wait_for(&ended, round);
            }
        });
    }
}

/// A way to look an entry up by its key, and what it carries.
type Look = fn(&Registry<u32>, &Cpu<u32>, Key) -> Option<u32>;

const LOOKS: [Look; 6] = [
    |_, cpu, key| cpu.enter().unwrap().find(key).map(|found| *found),
    |_, cpu, key| {
        let section = cpu.enter().unwrap();
        let named = section.entries().filter(|found| Key::from(&Found::entry(found)) == key);
        let all: Vec<u32> = named.map(|found| *found).collect();
        assert!(all.len() < 2);
        all.first().copied()
    },
    |_, cpu, key| cpu.get(key).ok().map(|held| *held),
    |_, cpu, key| cpu.read(key).ok().map(|guard| *guard),
    |_, cpu, key| cpu.look_up(key).ok().map(|entry| entry.number as u32),
    |registry, _, key| registry.get(key).ok().map(|held| *held),
];

/// A lookup meanwhile finds the old one or the new one, and after a new one no older one: by a
/// section, by a walk, and by what its CPU remembers.
#[test]
fn a_name_that_is_replaced_is_never_bare() {
    for kind in [Kind::Driver, Kind::Iface] {
        let (rounds, is_over) = (scaled(4_000) as u32, AtomicBool::new(false));
        let registry = Registry::open(Settings::new(LOOKS.len() as u8 + 2, 200)).unwrap();
        let mine = registry.any_cpu().unwrap();
        mine.attach(WM, 0).unwrap();
        mine.attach_iface(WM, WM, 0).unwrap();
        let key = Key::from((kind, WM));
        thread::scope(|scope| {
            for look in LOOKS {
                let (registry, is_over, cpu) = (&registry, &is_over, registry.any_cpu().unwrap());
                scope.spawn(move || {
                    let (mut last, mut looks) = (0, 0);
                    while !is_over.load(Ordering::Relaxed) || looks == 0 {
                        let found = look(registry, &cpu, key).expect("the name has an entry");
                        assert!(found >= last, "{found} after {last}");
                        (last, looks) = (found, looks + 1);
                    }
                });
            }
            for round in 1..=rounds {
                let replaced = match kind {
                    Kind::Driver => mine.replace(WM, round),
                    Kind::Iface => mine.replace_iface(WM, WM, round),
                };
                match replaced {
                    Ok((_, old)) => assert!(old.entry().kind == kind),
                    // Readers that don't run hold the older ones.
                    Err(full) => assert_eq!(full.refusal, AttachError::NoSlot),
                }
            }
            is_over.store(true, Ordering::Relaxed);
        });
    }
}

/// By many threads at once, and of an entry that is detached. To the registry they are one
/// reference.
#[test]
fn a_reference_may_be_cloned_anywhere() {
    let (registry, cpus) = with_driver(7);
    let held = local(&cpus[0], "wm");
    let mut gone = detach(&cpus[0], "wm");
    let clone_all = || (0..scaled(1_000)).map(|_| held.clone()).collect::<Vec<_>>();
    let mut clones: Vec<LocalRef<u32>> = thread::scope(|scope| {
        let threads = [(); 4].map(|()| scope.spawn(clone_all));
        threads.into_iter().flat_map(|thread| thread.join().unwrap()).collect()
    });
    assert_eq!(gone.holder(), Some(Holder::Local(1)));
    drop(held);
    let last = clones.pop().unwrap();
    assert!(clones.iter().all(|clone| **clone == 7 && LocalRef::entry(clone).name == WM));
    LocalRef::release(clones.pop().unwrap(), &cpus[1]);
    drop(clones);
    assert_eq!((gone.holder(), registry.dropped()), (Some(Holder::Local(1)), 0));
    LocalRef::release(last, &cpus[1]);
    assert_eq!(gone.freed().value, 7);
}

/// More of them than CPUs, and each call chooses one.
#[test]
fn threads_need_no_cpu_of_their_own() {
    const THREADS: u64 = 8;
    let drops = Drops::default();
    let registry = Registry::open(Settings::new(2, 40)).unwrap();
    thread::scope(|scope| {
        for thread in 0..THREADS {
            let (registry, drops) = (&registry, &drops);
            scope.spawn(move || {
                for round in 0..scaled(500) as u64 {
                    registry.attach(thread, drops.make(thread)).unwrap();
                    let held = registry.get(thread).unwrap();
                    let other = round % THREADS;
                    registry.get(other).iter().for_each(|held| assert_eq!(held.label, other));
                    let (_, old) = registry.replace(thread, drops.make(thread)).unwrap();
                    held.check();
                    assert!(registry.look_up(thread).unwrap().number > old.entry().number);
                    drop(held);
                    old.destroy(LONG).unwrap().value.check();
                    drop(registry.retire(thread).unwrap());
                }
            });
        }
    });
    assert!(registry.is_empty() && registry.cpus().len() == 2);
    registry.close(Patience::Turns(1)).unwrap();
    assert_eq!(drops.made(), drops.dropped());
}

/// The last `Registry` gives its CPU back as the next one comes.
#[test]
fn a_call_finds_a_cpu_while_handles_come_and_go() {
    let (registry, cpus) = with_wm();
    drop(registry);
    let get = |cpu: Cpu<u32>| (0..scaled(5_000)).try_for_each(|_| cpu.registry().get(WM).map(drop));
    thread::scope(|scope| {
        let threads: Vec<_> = cpus.into_iter().map(|cpu| scope.spawn(move || get(cpu))).collect();
        threads.into_iter().for_each(|thread| assert_eq!(thread.join().unwrap(), Ok(())));
    });
}

/// An interface that is deferred may be what holds its driver.
#[test]
fn a_drain_frees_meanwhile_what_is_deferred() {
    let (registry, cpus) = with_driver(7);
    cpus[0].attach_iface(WM, WM0, 8).unwrap();
    let held = cpus[0].get_local((Kind::Iface, WM0)).unwrap();
    cpus[0].detach((Kind::Iface, WM0)).unwrap().defer();
    let drains = Waiter::here();
    let leaving = thread::spawn(move || {
        drains.waits();
        drop(held);
    });
    let drained = registry.drain(patience()).unwrap();
    assert_eq!((drained.freed.len(), drained.held.len()), (2, 0));
    leaving.join().unwrap();
}

#[test]
fn a_future_that_is_done_has_no_entry() {
    let (registry, cpus) = with_wm();
    let (mut retired, task) = (cpus[2].detach(WM).unwrap(), Task::here());
    assert_eq!(task.poll(&mut retired), Poll::Ready(7));
    assert!(!format!("{retired:?}").contains("entry"));
    assert!(catch_unwind(AssertUnwindSafe(|| retired.entry())).is_err());
    assert!(catch_unwind(AssertUnwindSafe(|| task.poll(&mut retired))).is_err());
    drop((retired, cpus));
    registry.close(Patience::Turns(1)).unwrap();
}

/// A registry, and a pool of one CPU.
fn with_pool() -> (Registry<u32>, Arc<CpuPool<u32>>) {
    let (registry, mut cpus) = with_driver(7);
    (registry, Arc::new(CpuPool::new(cpus.drain(..1)).unwrap()))
}

/// The thread would keep the first loan while it waits for the second: it is told where it has
/// that.
#[test]
fn a_loan_that_its_thread_has_is_told() {
    let (_registry, pool) = with_pool();
    let (to, from) = channel();
    thread::spawn(move || {
        let ended = catch_unwind(AssertUnwindSafe(|| {
            let one = pool.lend();
            one.attach("vga", *passive(&pool.lend(), "wm")).unwrap();
        }));
        // What was lent is back, and lent again.
        to.send((ended.unwrap_err().downcast::<String>(), pool.lend().id()))
    });
    let (text, id) = from.recv_timeout(LONG).expect("it doesn't wait for ever");
    let text = text.unwrap();
    let begins = "no CPU is idle, and this thread has CPU 0 of the pool since ";
    assert!(id == 0 && text.starts_with(begins) && text.contains(file!()), "{text}");
}

#[test]
fn a_loan_waits_until_its_deadline() {
    let (_registry, pool) = with_pool();
    let (began, held) = (Instant::now(), pool.lend());
    assert!(pool.lend_until(began + Duration::from_millis(20)).is_none());
    assert!(began.elapsed() >= Duration::from_millis(20));
    drop(held);
    assert!(pool.lend_until(began).is_some());
}
