//! `speed THREADS ENTRIES OPERATIONS`: what a lookup and a pair of acquire and release take,
//! through this crate.
//!
//! `lookup` reads what the entry found carries, a number in a block of its own; `batch` does so in
//! an open section, 32 times a section. `read` is `lookup` by a guard, which is two calls;
//! `look_up` is one call, and reads the entry's number; `get` gets a reference by one call, reads
//! what the entry carries, and releases it. bench/README.md says what an operation
//! is. It prints a line as the programs there do.

use kupaldiz::{
    Cpu, Found, LocalRef, Name, PassiveRef, Registry, RegistryError, Section, Settings,
};
use std::error::Error;
use std::sync::Barrier;
use std::thread;
use std::time::Instant;

/// How many lookups a section of a batch has.
const BATCH: u64 = 32;

/// Makes so many operations on a CPU. Returns how many went as they should.
type Operations = fn(&Cpu<u64>, &[Name], u64) -> Result<u64, RegistryError>;

/// One operation for each of so many names in turn, whose entries carry 0, 1, ..
#[inline(always)]
fn each(
    names: &[Name],
    count: u64,
    mut operate: impl FnMut(&Name, u64) -> Result<bool, RegistryError>,
) -> Result<u64, RegistryError> {
    let (mut right, mut place) = (0, 0);
    for _ in 0..count {
        right += u64::from(operate(&names[place], place as u64)?);
        place = if place + 1 < names.len() { place + 1 } else { 0 };
    }
    Ok(right)
}

#[inline(always)]
fn finds(section: &Section<'_, u64>, name: &Name, value: u64) -> bool {
    section.find(name).map_or(false, |found| *found == value)
}

fn batches(cpu: &Cpu<u64>, names: &[Name], count: u64) -> Result<u64, RegistryError> {
    let (mut section, mut left) = (None, 0);
    each(names, count, |name, value| {
        if left == 0 {
            drop(section.take());
            (section, left) = (Some(cpu.enter()?), BATCH);
        }
        left -= 1;
        Ok(section.as_ref().map_or(false, |section| finds(section, name, value)))
    })
}

/// One operation for each of so many times, on an entry that a section found.
#[inline(always)]
fn on_found(
    cpu: &Cpu<u64>,
    name: &Name,
    count: u64,
    operate: impl Fn(&Found<u64>) -> Result<(), RegistryError>,
) -> Result<u64, RegistryError> {
    let section = cpu.enter()?;
    let found = section.find(name).ok_or(RegistryError::NotFound)?;
    (0..count).try_for_each(|_| operate(&found))?;
    Ok(count)
}

/// Each kind of operation, by its name in the line.
const KINDS: [(&str, Operations); 8] = [
    ("lookup", |cpu, names, count| {
        each(names, count, |name, value| Ok(finds(&cpu.enter()?, name, value)))
    }),
    ("batch", batches),
    ("passive", |cpu, names, count| {
        on_found(cpu, &names[0], count, |found| Ok(Found::acquire(found).map(PassiveRef::release)?))
    }),
    ("local", |cpu, names, count| {
        on_found(cpu, &names[0], count, |found| {
            let _: () = LocalRef::release(Found::acquire_local(found)?, cpu);
            Ok(())
        })
    }),
    ("walk", |cpu, names, count| {
        each(names, count, |_, _| Ok(cpu.enter()?.entries().count() == names.len()))
    }),
    ("read", |cpu, names, count| each(names, count, |name, value| Ok(*cpu.read(name)? == value))),
    ("look_up", |cpu, names, count| {
        each(names, count, |name, value| Ok(cpu.look_up(name)?.number == value + 1))
    }),
    ("get", |cpu, names, count| each(names, count, |name, value| Ok(*cpu.get(name)? == value))),
];

/// The nanoseconds that an operation takes its thread: the time from the first thread's first to
/// the last thread's last, over the operations of one thread. Each thread makes some before, which
/// don't count, and begins when all have.
fn nanoseconds_each(
    cpus: &mut [Cpu<u64>],
    names: &[Name],
    make: Operations,
    count: u64,
) -> Result<f64, RegistryError> {
    let meeting = &Barrier::new(cpus.len());
    let timed = |cpu: &Cpu<u64>| {
        make(cpu, names, count / 3)?;
        meeting.wait();
        let began = Instant::now();
        assert_eq!(make(cpu, names, count)?, count);
        Ok((began, Instant::now()))
    };
    let spans: Vec<(Instant, Instant)> = thread::scope(|scope| {
        let workers: Vec<_> = cpus.iter_mut().map(|cpu| scope.spawn(move || timed(cpu))).collect();
        workers
            .into_iter()
            .map(|worker| worker.join().expect("it doesn't panic"))
            .collect::<Result<_, RegistryError>>()
    })?;
    let began = spans.iter().map(|span| span.0).min().expect("a thread");
    let ended = spans.iter().map(|span| span.1).max().expect("a thread");
    Ok((ended - began).as_nanos() as f64 / count as f64)
}

fn run(threads: u8, entries: u8, count: u64) -> Result<(), Box<dyn Error>> {
    let names: Vec<Name> =
        (0..entries).map(|i| format!("d{i:02}").parse()).collect::<Result<_, _>>()?;
    let registry = Registry::open(Settings::new(threads, entries.max(32)))?;
    let mut cpus = registry.cpus();
    for (value, name) in (0..).zip(&names) {
        cpus[0].attach(name, value)?;
    }
    print!("threads {threads} entries {entries}");
    for (what, make) in KINDS {
        print!(" {what} {:.2}", nanoseconds_each(&mut cpus, &names, make, count)?);
    }
    println!();
    Ok(())
}

fn main() -> Result<(), Box<dyn Error>> {
    let words: Vec<String> = std::env::args().collect();
    match &words[..] {
        [_, threads, entries, count] => run(threads.parse()?, entries.parse()?, count.parse()?),
        _ => Err("usage: speed THREADS ENTRIES OPERATIONS".into()),
    }
}
