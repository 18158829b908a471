//! What the tests have in common.
#![allow(dead_code)]

pub mod watched;

use kupaldiz::*;
use std::cell::RefCell;
use std::fs;
use std::future::Future;
use std::mem;
use std::path::PathBuf;
use std::pin::Pin;
use std::process;
use std::sync::atomic::{AtomicUsize, Ordering};
use std::sync::Arc;
use std::task::{Context, Poll, Wake, Waker};
use std::thread::{self, Thread};
use std::time::{Duration, Instant};

pub fn name(text: &str) -> Name {
    text.parse().unwrap()
}

/// A registry, and all its CPUs.
pub fn opened<T>(settings: Settings) -> (Registry<T>, Vec<Cpu<T>>) {
    let registry = Registry::open(settings).unwrap();
    let cpus = registry.cpus();
    (registry, cpus)
}

pub fn opened_tracked<T>(settings: Settings) -> (Registry<T>, Vec<Cpu<T>>) {
    let registry = Registry::open_tracked(settings).unwrap();
    let cpus = registry.cpus();
    (registry, cpus)
}

/// Why a call was refused, of any error.
pub fn why(error: impl Into<RegistryError>) -> RegistryError {
    error.into()
}

/// Longer than anything takes that these tests wait for, on the busiest machine: it is the time
/// limit of the gate's tests.
pub const LONG: Duration = Duration::from_secs(3600);

/// A patience that ends, so that a test fails where it would wait for ever.
pub fn patience() -> Patience {
    Patience::from(LONG)
}

/// So many steps, or KUPALDIZ_CHANGES of each hundred: few where a tool watches each access.
pub fn scaled(steps: usize) -> usize {
    std::env::var("KUPALDIZ_CHANGES")
        .map_or(steps, |percent| steps * percent.parse::<usize>().unwrap() / 100)
}

/// A thread, for others that wait until it waits.
pub struct Waiter(PathBuf);

impl Waiter {
    /// This thread.
    pub fn here() -> Waiter {
        Waiter(fs::canonicalize("/proc/thread-self").unwrap().join("stat"))
    }

    /// Returns once the thread sleeps, or has ended.
    pub fn waits(&self) {
        let state = || fs::read_to_string(&self.0).ok()?.rsplit_once(") ")?.1.chars().next();
        while state().map_or(false, |state| state != 'S') {
            thread::yield_now();
        }
    }
}

/// Numbers from a seed.
pub struct Dice(u64);

impl Dice {
    pub fn of(seed: u64) -> Dice {
        Dice((seed + 1).wrapping_mul(0x9e37_79b9_7f4a_7c15))
    }

    pub fn below(&mut self, most: usize) -> usize {
        self.0 ^= self.0 << 13;
        self.0 ^= self.0 >> 7;
        self.0 ^= self.0 << 17;
        (self.0 >> 11) as usize % most
    }

    /// Takes one of them out, if there is any.
    pub fn take<X>(&mut self, from: &mut Vec<X>) -> Option<X> {
        let place = self.below(from.len().max(1));
        (place < from.len()).then(|| from.swap_remove(place))
    }
}

pub fn local<T>(cpu: &Cpu<T>, text: &str) -> LocalRef<T> {
    cpu.get_local(text).unwrap()
}

pub fn passive<'cpu, T>(cpu: &'cpu Cpu<T>, text: &str) -> PassiveRef<'cpu, T> {
    cpu.get(text).unwrap()
}

/// A registry with two CPUs and the driver `wm`, which is number 1 in slot 0 and carries this.
pub fn with_driver<T>(value: T) -> (Registry<T>, Vec<Cpu<T>>) {
    let (registry, cpus) = opened(Settings::new(2, 4));
    assert_eq!(cpus[0].attach("wm", value).unwrap().number, 1);
    (registry, cpus)
}

/// A detached entry on which turns are made one by one.
pub struct Gone<T>(Option<Retired<T>>);

/// Detaches the driver.
pub fn detach<T>(cpu: &Cpu<T>, text: &str) -> Gone<T> {
    Gone(Some(cpu.detach(text).unwrap()))
}

impl<T> Gone<T> {
    /// What holds it, as one turn meets it; none where the turn freed it.
    pub fn holder(&mut self) -> Option<Holder> {
        let Refused { refusal, given } =
            self.0.take().expect("it isn't freed").try_destroy().err()?;
        self.0 = Some(given);
        match refusal {
            DestroyError::StillHeld(holder) => Some(holder),
            other => panic!("{other}"),
        }
    }

    /// What one turn frees.
    pub fn freed(self) -> Freed<T> {
        self.0.expect("it isn't freed").try_destroy().unwrap_or_else(|held| panic!("{held}"))
    }
}

/// Counts how many of the values that it makes were dropped.
#[derive(Clone, Default)]
pub struct Drops {
    made: Arc<AtomicUsize>,
    dropped: Arc<AtomicUsize>,
}

/// A value in a block of its own, which is spoilt as it is dropped. No atomic is in it: the thread
/// sanitizer looks at each load and store.
#[derive(Debug)]
pub struct Tracked {
    words: Vec<u64>,
    dropped: Arc<AtomicUsize>,
    pub label: u64,
}

thread_local! {
    static DROPPED: RefCell<Vec<u64>> = const { RefCell::new(Vec::new()) };
}

/// The labels of the values that this thread has dropped since it asked last, in their order.
pub fn dropped_here() -> Vec<u64> {
    DROPPED.with(|dropped| mem::take(&mut *dropped.borrow_mut()))
}

impl Drops {
    pub fn make(&self, label: u64) -> Tracked {
        self.made.fetch_add(1, Ordering::Relaxed);
        Tracked { words: vec![label; 8], dropped: Arc::clone(&self.dropped), label }
    }

    pub fn made(&self) -> usize {
        self.made.load(Ordering::Relaxed)
    }

    pub fn dropped(&self) -> usize {
        self.dropped.load(Ordering::Relaxed)
    }
}

impl Tracked {
    /// Fails if the value was dropped, or isn't all there yet.
    pub fn check(&self) {
        assert!(self.words.iter().all(|word| *word == self.label), "a value that is spoilt");
    }
}

impl Drop for Tracked {
    fn drop(&mut self) {
        self.check();
        self.words.iter_mut().for_each(|word| *word = !self.label);
        assert_eq!(self.words[7], !self.label);
        self.dropped.fetch_add(1, Ordering::Relaxed);
        let _ = DROPPED.try_with(|dropped| dropped.borrow_mut().push(self.label));
    }
}

/// A task that is told how often it is woken, and the thread that runs it.
pub struct Task {
    woken: AtomicUsize,
    thread: Thread,
}

impl Wake for Task {
    fn wake(self: Arc<Self>) {
        self.woken.fetch_add(1, Ordering::SeqCst);
        self.thread.unpark();
    }
}

impl Task {
    pub fn here() -> Arc<Task> {
        Arc::new(Task { woken: AtomicUsize::new(0), thread: thread::current() })
    }

    pub fn woken(&self) -> usize {
        self.woken.load(Ordering::SeqCst)
    }

    pub fn poll<T>(self: &Arc<Self>, retired: &mut Retired<T>) -> Poll<T> {
        let waker = Waker::from(Arc::clone(self));
        Pin::new(retired).poll(&mut Context::from_waker(&waker)).map(|freed| freed.value)
    }

    /// Runs until the entry is freed. It polls only once it is woken, and fails if nobody wakes it.
    pub fn run<T>(self: &Arc<Self>, mut retired: Retired<T>) -> T {
        loop {
            let before = self.woken();
            if let Poll::Ready(value) = self.poll(&mut retired) {
                return value;
            }
            let began = Instant::now();
            while self.woken() == before {
                if began.elapsed() >= LONG {
                    // A panic would leave the other threads where they meet.
                    eprintln!("a task that nobody woke");
                    process::abort();
                }
                thread::park_timeout(LONG);
            }
        }
    }
}

/// A waker that does this.
pub fn waker(deed: impl Fn() + Send + Sync + 'static) -> Waker {
    struct Does<F>(F);
    impl<F: Fn() + Send + Sync> Wake for Does<F> {
        fn wake(self: Arc<Self>) {
            (self.0)();
        }
    }
    Arc::new(Does(deed)).into()
}

pub fn poll<F: Future + Unpin>(future: &mut F, waker: &Waker) -> Poll<F::Output> {
    Pin::new(future).poll(&mut Context::from_waker(waker))
}

/// Makes every call of a registry on a CPU that is outside. All that it attaches goes again.
pub fn every_call<T>(registry: &Registry<T>, cpu: &Cpu<T>, value: impl Fn() -> T) {
    cpu.attach("inner", value()).unwrap();
    cpu.attach_iface("inner", "inner0", value()).unwrap();
    let section = cpu.enter().unwrap();
    let found = section
        .find("inner")
        .map(|found| (Found::acquire(&found).is_ok(), Found::acquire_local(&found).is_ok()));
    assert!(
        found == Some((true, true)) && section.entries().len() > 1 && cpu.read("inner").is_ok()
    );
    section.exit();
    assert!(cpu.get("inner").is_ok() && cpu.look_up((Kind::Iface, "inner0")).is_ok());
    assert!(cpu.get_local("inner").map(|local| drop(local.clone())).is_ok());
    let chosen = registry.get("inner").map(drop);
    assert!(chosen.is_ok() || chosen == Err(LookUpError::NoCpu));
    assert_eq!(registry.audit([cpu]).map(drop), Err(CpusError::MissingCpu));
    let _ = cpu.synchronize(Patience::Turns(1));
    let (_, old) = cpu.replace("inner", value()).unwrap();
    assert!(registry.clone().close(Patience::Turns(1)).is_err());
    let held = old.destroy_on(cpu, Patience::Turns(1)).map(drop).unwrap_err();
    let iface = cpu.detach((Kind::Iface, "inner0")).unwrap();
    drop((iface.destroy(Patience::Turns(1)).map(drop), held.given.try_destroy().map(drop)));
    drop((cpu.retire("inner").unwrap(), registry.free_deferred()));
}
