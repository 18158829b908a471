//! `drops COUNT`: what local references cost that are dropped without a CPU, and how many of them
//! wait to be released.
//!
//! `only` acquires a reference and drops it, so often, and makes no other call. Then so many are
//! held and dropped `at once`, and `all` releases them. It prints nanoseconds of each, those of
//! `only` of processor time, how many waited, and by how many KiB the process has grown.

use kupaldiz::{Cpu, LocalRef, Name, ReadGuard, Registry, Settings};
use std::error::Error;
use std::fs;
use std::time::Instant;

const WM: Name = Name::from_static("wm");

/// The KiB of memory that the process has.
fn resident() -> Result<u64, Box<dyn Error>> {
    let status = fs::read_to_string("/proc/self/status")?;
    let line = status.lines().find_map(|line| line.strip_prefix("VmRSS:"));
    let number = line.and_then(|line| line.split_whitespace().next());
    Ok(number.ok_or("no VmRSS")?.parse()?)
}

/// The nanoseconds that this thread has run.
fn processor_time() -> u64 {
    let status = fs::read_to_string("/proc/thread-self/schedstat").unwrap_or_default();
    status.split(' ').next().and_then(|text| text.parse().ok()).unwrap_or(0)
}

fn run(registry: &Registry<u64>, cpu: &Cpu<u64>, count: u64) -> Result<(), Box<dyn Error>> {
    let each = |nanoseconds: u64| nanoseconds as f64 / count as f64;
    let (before, found, began) = (resident()?, cpu.read(WM)?, processor_time());
    for _ in 0..count {
        drop(ReadGuard::acquire_local(&found)?);
    }
    let (took, left) = (processor_time() - began, registry.dropped());
    println!(
        "only: each {:.1} ns, {left} wait, {} KiB more",
        each(took),
        resident()?.saturating_sub(before)
    );
    let held: Vec<LocalRef<u64>> =
        (0..count).map(|_| ReadGuard::acquire_local(&found)).collect::<Result<_, _>>()?;
    let (holding, began) = (resident()?.saturating_sub(before), Instant::now());
    drop(held);
    let (took, left, more) =
        (began.elapsed().as_nanos() as u64, registry.dropped(), resident()?.saturating_sub(before));
    println!(
        "at once: each {:.1} ns, {left} wait, {more} KiB more and {holding} while held",
        each(took)
    );
    let began = Instant::now();
    // It takes all that wait for this entry.
    LocalRef::release(ReadGuard::acquire_local(&found)?, cpu);
    println!(
        "all: each {:.1} ns, {} KiB more",
        each(began.elapsed().as_nanos() as u64),
        resident()?.saturating_sub(before)
    );
    Ok(())
}

fn main() -> Result<(), Box<dyn Error>> {
    let count =
        std::env::args().nth(1).and_then(|word| word.parse().ok()).ok_or("usage: drops COUNT")?;
    let registry = Registry::open(Settings::new(1, 4))?;
    let cpus = registry.cpus();
    cpus[0].attach(WM, 7)?;
    run(&registry, &cpus[0], count)
}
