//! Threads that begin at once, and their times: as `common.c` and `waiting.c` have them.

use crate::contender::{lookups, Contender};
use crate::list::Key;
use std::sync::atomic::{AtomicBool, AtomicUsize, Ordering::SeqCst};
use std::sync::Mutex;
use std::thread::{scope, yield_now};
use std::time::Instant;

/// How many times fewer operations a thread makes before it is timed, and how many times fewer changes.
const WARMING: u64 = 3;
const WARMING_CHANGES: u64 = 10;

/// So many operations, by a contender, on these keys. It returns how many went as they should.
pub type Operations<C> = fn(&C, &[Key], u64) -> u64;

/// Waits until so many threads have come.
fn meet(come: &AtomicUsize, threads: usize) {
    come.fetch_add(1, SeqCst);
    while come.load(SeqCst) < threads {
        yield_now();
    }
}

/// Makes the operations in so many threads at once. It returns the nanoseconds that one took its thread, or `None` after a wrong answer.
pub fn nanoseconds_each<C: Contender>(
    contender: &C,
    make: Operations<C>,
    keys: &[Key],
    threads: usize,
    count: u64,
) -> Option<f64> {
    let come = AtomicUsize::new(0);
    let run = || {
        make(contender, keys, count / WARMING);
        meet(&come, threads);
        let began = Instant::now();
        let right = make(contender, keys, count);
        (right == count, began, Instant::now())
    };
    let ran: Vec<_> = scope(|scope| {
        let started: Vec<_> = (0..threads).map(|_| scope.spawn(run)).collect();
        started.into_iter().map(|thread| thread.join()).collect::<Result<_, _>>().ok()
    })?;
    let began = ran.iter().map(|(_, began, _)| *began).min()?;
    let ended = ran.iter().map(|(_, _, ended)| *ended).max()?;
    let right = ran.iter().all(|(right, _, _)| *right);
    right.then(|| (ended - began).as_secs_f64() * 1e9 / count as f64)
}

/// Makes the change so many times while so many readers look the keys up in turn; the other threads, except this one, sleep. It
/// answers the nanoseconds that one took, or `None` after a wrong answer: a reader that seeks each key once may miss so many of them.
pub fn nanoseconds_waited<C: Contender>(
    contender: &C,
    (change, may_miss): (fn(&C), u64),
    keys: &[Key],
    [threads, readers]: [usize; 2],
    count: u64,
) -> Option<f64> {
    let come = AtomicUsize::new(0);
    let over = AtomicBool::new(false);
    let changing = Mutex::new(());
    let run = |number: usize| {
        drop(contender.enter());
        meet(&come, 0);
        if number < readers {
            return read_until(contender, keys, may_miss, &over);
        }
        drop(changing.lock());
        true
    };
    scope(|scope| {
        let run = &run;
        let held = changing.lock();
        let started: Vec<_> = (1..threads).map(|thread| scope.spawn(move || run(thread - 1))).collect();
        meet(&come, threads);
        timed(contender, change, count / WARMING_CHANGES + 1);
        let each = timed(contender, change, count);
        over.store(true, SeqCst);
        drop(held);
        let right = started.into_iter().all(|thread| thread.join().unwrap_or(false));
        right.then_some(each)
    })
}

/// Looks the keys up in turn until the changes are over. It returns whether no turn missed more of them than it may.
fn read_until<C: Contender>(contender: &C, keys: &[Key], may_miss: u64, over: &AtomicBool) -> bool {
    let mut right = true;
    while !over.load(SeqCst) {
        right &= lookups(contender, keys, keys.len() as u64) + may_miss >= keys.len() as u64;
    }
    right
}

fn timed<C: Contender>(contender: &C, change: fn(&C), count: u64) -> f64 {
    let began = Instant::now();
    for _ in 0..count {
        change(contender);
    }
    began.elapsed().as_secs_f64() * 1e9 / count as f64
}
