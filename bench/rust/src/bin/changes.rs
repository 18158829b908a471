//! `changes COUNT`: what each call behind the interlock takes, through this crate, on one thread.
//!
//! The calls, their order and the line are those of `bench/changes.c`.

use kupaldiz::{
    Cpu, DestroyError, Freed, Holder, LocalRef, Name, Patience, Refused, Registry, RegistryError,
    Settings,
};
use std::error::Error;
use std::time::Instant;

/// So many entries stay in the list; all other slots are given and freed again and again.
const STAYING: usize = 8;
const SLOTS: u8 = 32;

/// The nanoseconds from one instant to another.
fn nanoseconds(began: Instant, ended: Instant) -> f64 {
    (ended - began).as_nanos() as f64
}

/// The nanoseconds that so many calls take.
fn time(
    count: u32,
    mut call: impl FnMut() -> Result<(), RegistryError>,
) -> Result<f64, RegistryError> {
    let began = Instant::now();
    for _ in 0..count {
        call()?;
    }
    Ok(nanoseconds(began, Instant::now()))
}

fn attach_each(
    _registry: &Registry<u64>,
    cpu: &Cpu<u64>,
    names: &[Name],
) -> Result<(), RegistryError> {
    for (value, name) in (0..).zip(names) {
        cpu.attach(name, value)?;
    }
    Ok(())
}

/// Gives all slots that are left and frees them, so many times. The nanoseconds that all attaches,
/// all detaches and all turns took.
fn replace_all(
    registry: &Registry<u64>,
    cpu: &Cpu<u64>,
    names: &[Name],
    count: u32,
) -> Result<[f64; 3], RegistryError> {
    let (mut took, mut gone) = ([0.0; 3], Vec::with_capacity(names.len()));
    for _ in 0..count {
        let began = Instant::now();
        attach_each(registry, cpu, names)?;
        let attached = Instant::now();
        for name in names {
            gone.push(cpu.detach(name)?);
        }
        let detached = Instant::now();
        for retired in gone.drain(..) {
            let freed: Freed<u64> = retired.try_destroy()?;
            assert!(freed.value < u64::from(SLOTS));
        }
        let times = [began, attached, detached, Instant::now()];
        took.iter_mut()
            .zip(times.windows(2))
            .for_each(|(sum, pair)| *sum += nanoseconds(pair[0], pair[1]));
    }
    Ok(took)
}

/// Replaces an entry in its place and frees the old one, so many times. The nanoseconds of it all.
fn exchange_all(cpu: &Cpu<u64>, name: &Name, count: u32) -> Result<f64, RegistryError> {
    cpu.attach(name, 0)?;
    let took = time(count, || {
        let (_, retired) = cpu.replace(name, 0)?;
        retired.try_destroy()?;
        Ok(())
    })?;
    cpu.detach(name)?.try_destroy()?;
    Ok(took)
}

/// The nanoseconds of so many turns on an entry that a section of the other CPU holds, and of as
/// many while a local reference does.
fn meet_all(
    _registry: &Registry<u64>,
    cpus: &[Cpu<u64>],
    name: &Name,
    count: u32,
) -> Result<(f64, f64), RegistryError> {
    cpus[0].attach(name, 0)?;
    let section = cpus[1].enter()?;
    let reference = cpus[1].get_local(name)?;
    let mut retired = Some(cpus[0].detach(name)?);
    let mut turn = |met| {
        let Refused { refusal, given } =
            retired.take().expect("it comes back").try_destroy().expect_err("it is held");
        assert!(refusal == DestroyError::StillHeld(met));
        retired = Some(given);
        Ok(())
    };
    let grace = time(count, || turn(Holder::Grace(1)))?;
    section.exit();
    let local = time(count, || turn(Holder::Local(1)))?;
    LocalRef::release(reference, &cpus[1]);
    retired.expect("it comes back").destroy_on(&cpus[0], Patience::Turns(1))?;
    Ok((grace, local))
}

fn run(count: u32) -> Result<(), Box<dyn Error>> {
    let names: Vec<Name> =
        (0..SLOTS).map(|i| format!("d{i:02}").parse()).collect::<Result<_, _>>()?;
    let registry = Registry::open(Settings::new(2, SLOTS))?;
    let cpus = registry.cpus();
    let (staying, changing) = names.split_at(STAYING);
    attach_each(&registry, &cpus[0], staying)?;
    let [attach, detach, freed] = replace_all(&registry, &cpus[0], changing, count)?;
    let exchange = exchange_all(&cpus[0], &changing[0], count)?;
    let (grace, local) = meet_all(&registry, &cpus, &changing[0], count)?;
    let perform = time(count, || Ok(cpus[0].synchronize(Patience::Turns(1))?))?;
    let audit = time(count, || {
        assert_eq!(registry.audit(&cpus)?.len(), STAYING);
        Ok(())
    })?;
    let (each, many) = (f64::from(count), f64::from(count) * changing.len() as f64);
    print!(
        "changes {count} attach {:.1} detach {:.1} freed {:.1}",
        attach / many,
        detach / many,
        freed / many
    );
    print!(" exchange {:.1}", exchange / each);
    print!(" grace {:.1} local {:.1}", grace / each, local / each);
    println!(" perform {:.1} audit {:.1}", perform / each, audit / each);
    Ok(())
}

fn main() -> Result<(), Box<dyn Error>> {
    let words: Vec<String> = std::env::args().collect();
    match &words[..] {
        [_, count] => run(count.parse()?),
        _ => Err("usage: changes COUNT".into()),
    }
}
