//! A pool beside a plain model: threads that have many loans, threads that wait, and many futures.
//! The calls are random, and one is made at a time, so each answer is known, up to which CPU it is.

mod common;

use common::*;
use kupaldiz::{CpuPool, LentCpu, Settings};
use std::future::Future;
use std::panic::{catch_unwind, AssertUnwindSafe};
use std::pin::Pin;
use std::sync::mpsc::{channel, Receiver, Sender};
use std::sync::Arc;
use std::task::Poll;
use std::thread;
use std::time::Instant;

const THREADS: usize = 4;
const CPUS: usize = 6;
const FUTURES: usize = 20;

enum Ask {
    Lend,
    /// Up to a deadline that is far.
    LendUntil,
    TryLend,
    /// Its loan at this place goes back.
    GiveBack(usize),
}

/// What came of it: the CPU that is lent, if one was; or the text of a panic.
type Came = Result<Option<u8>, String>;

/// A thread that does what it is asked, and says what came.
fn borrower(pool: &CpuPool<()>, asks: Receiver<Ask>, say: impl Fn(Came)) {
    let mut loans = Vec::new();
    for ask in asks {
        let lent = match ask {
            Ask::Lend => catch_unwind(AssertUnwindSafe(|| Some(pool.lend()))),
            Ask::LendUntil => Ok(pool.lend_until(Instant::now() + 2 * LONG)),
            Ask::TryLend => Ok(pool.try_lend()),
            Ask::GiveBack(place) => {
                drop(loans.swap_remove(place));
                Ok(None)
            }
        };
        let came = lent.map_err(|text| *text.downcast().expect("a text")).map(|lent| {
            let id = lent.as_ref().map(|cpu| cpu.id());
            loans.extend(lent);
            id
        });
        say(came);
    }
}

/// A future that was polled, if it is pending, with the task that is to be woken.
struct Awaited<'pool> {
    future: Pin<Box<dyn Future<Output = LentCpu<'pool, ()>> + 'pool>>,
    task: Option<Arc<Task>>,
}

struct Bench<'pool> {
    pool: &'pool CpuPool<()>,
    asks: Vec<Sender<Ask>>,
    come: Receiver<(usize, Came)>,
    dice: Dice,
    /// The CPUs that each thread has, in the order of its loans.
    loans: Vec<Vec<u8>>,
    waiting: Vec<usize>,
    futures: Vec<Awaited<'pool>>,
    /// What futures have returned.
    own: Vec<LentCpu<'pool, ()>>,
}

impl<'pool> Bench<'pool> {
    fn idle(&self) -> usize {
        CPUS - self.loans.iter().map(Vec::len).sum::<usize>() - self.own.len()
    }

    /// What a thread says next, as it is noted.
    fn comes(&mut self) -> (usize, Came) {
        let (thread, came) = self.come.recv_timeout(LONG).expect("a call that waits for ever");
        if let Ok(Some(cpu)) = came {
            let others =
                self.loans.iter().flatten().copied().chain(self.own.iter().map(|own| own.id()));
            assert!(others.into_iter().all(|other| other != cpu), "CPU {cpu} is lent twice");
            self.loans[thread].push(cpu);
        }
        (thread, came)
    }

    fn asked(&mut self, thread: usize, ask: Ask) -> Came {
        self.asks[thread].send(ask).unwrap();
        let (said_by, came) = self.comes();
        assert_eq!(said_by, thread, "{came:?}");
        came
    }

    /// It panics where it would wait for its own thread, and names a CPU of that.
    fn lend(&mut self, thread: usize) {
        if self.idle() == 0 && self.loans[thread].is_empty() {
            let ask = if self.dice.below(2) == 0 { Ask::Lend } else { Ask::LendUntil };
            self.asks[thread].send(ask).unwrap();
            return self.waiting.push(thread);
        }
        let is_idle = self.idle() > 0;
        match self.asked(thread, Ask::Lend) {
            Ok(lent) => assert!(lent.is_some() && is_idle),
            Err(text) => {
                let named = text
                    .split("this thread has CPU ")
                    .nth(1)
                    .and_then(|rest| rest.split(' ').next()?.parse().ok());
                assert!(
                    !is_idle && self.loans[thread].contains(&named.expect("a CPU")),
                    "{text}: it has {:?}",
                    self.loans[thread]
                );
            }
        }
    }

    fn try_lend(&mut self, thread: usize) {
        let is_idle = self.idle() > 0;
        assert_eq!(self.asked(thread, Ask::TryLend).map(|lent| lent.is_some()), Ok(is_idle));
    }

    fn give_back(&mut self, thread: usize) {
        if let Some(last) = self.loans[thread].len().checked_sub(1) {
            let place = self.dice.below(last + 1);
            self.loans[thread].swap_remove(place);
            self.asks[thread].send(Ask::GiveBack(place)).unwrap();
            self.came_back(Some(thread));
        }
    }

    /// The thread that gave the CPU back says so. A thread that waits gets it, and each future is
    /// woken.
    fn came_back(&mut self, by: Option<usize>) {
        let all = usize::from(by.is_some()) + usize::from(!self.waiting.is_empty());
        for _ in 0..all {
            let (thread, came) = self.comes();
            let is_waiting = self.waiting.contains(&thread);
            assert!(
                came.as_ref().map(Option::is_some) == Ok(is_waiting)
                    && (is_waiting || by == Some(thread)),
                "{came:?}"
            );
            self.waiting.retain(|other| *other != thread);
        }
        for task in self.futures.iter_mut().filter_map(|one| one.task.take()) {
            assert_eq!(task.woken(), 1, "a future isn't woken");
        }
    }

    /// Polls an old future or a new one, or drops one.
    fn poll(&mut self) {
        if self.futures.len() < FUTURES {
            self.futures.push(Awaited { future: Box::pin(self.pool.lend_async()), task: None });
        }
        let (place, task, is_idle) =
            (self.dice.below(self.futures.len()), Task::here(), self.idle() > 0);
        match poll(&mut self.futures[place].future, &Arc::clone(&task).into()) {
            Poll::Ready(lent) => {
                assert!(is_idle);
                self.own.push(lent);
                self.futures.swap_remove(place);
            }
            Poll::Pending => {
                assert!(!is_idle);
                self.futures[place].task = Some(task);
            }
        }
        if self.dice.below(8) == 0 {
            drop(self.dice.take(&mut self.futures));
        }
    }

    fn step(&mut self) {
        let thread = self.dice.below(THREADS);
        match self.dice.below(8) {
            0 | 1 => self.poll(),
            2 => {
                if self.dice.take(&mut self.own).map(drop).is_some() {
                    self.came_back(None);
                }
            }
            _ if self.waiting.contains(&thread) => (),
            3 => self.try_lend(thread),
            4 | 5 => self.lend(thread),
            _ => self.give_back(thread),
        }
    }

    /// All that is lent goes back, so no thread waits.
    fn end(mut self) {
        while !self.waiting.is_empty() {
            let thread = (0..THREADS).find(|thread| !self.loans[*thread].is_empty());
            match thread {
                Some(thread) => self.give_back(thread),
                None => {
                    drop(self.own.pop());
                    self.came_back(None);
                }
            }
        }
    }
}

fn run(seed: u64, steps: usize) {
    let (registry, cpus) = opened(Settings::new(CPUS as u8, 1));
    let (pool, (to, come)) = (CpuPool::new(cpus).unwrap(), channel());
    thread::scope(|scope| {
        let spawned = |id: usize| {
            let ((ask, asks), to, pool) = (channel(), to.clone(), &pool);
            scope.spawn(move || borrower(pool, asks, |came| to.send((id, came)).unwrap()));
            ask
        };
        let (asks, loans) = ((0..THREADS).map(spawned).collect(), vec![Vec::new(); THREADS]);
        let (pool, dice) = (&pool, Dice::of(seed));
        let mut bench = Bench {
            pool,
            asks,
            come,
            dice,
            loans,
            waiting: Vec::new(),
            futures: Vec::new(),
            own: Vec::new(),
        };
        (0..steps).for_each(|_| bench.step());
        bench.end();
    });
    assert_eq!(pool.into_cpus().len(), CPUS);
    drop(registry);
}

#[test]
fn each_loan_is_the_models() {
    (1..=4).for_each(|seed| run(seed, scaled(2_000)));
}
