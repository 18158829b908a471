//! What the types of the crate rule out. The compiler takes this file as it is. `--cfg` and the
//! name in a line add what follows that line. The compiler then reports errors. Each of them begins
//! as the end of the line says.

use kupaldiz::{Cpu, CpuPool, Found, Holder, LocalRef, Mapped, Name, PassiveRc, PassiveRef};
use kupaldiz::{Patience, ReadGuard, Registry, RegistryError, Retired, Settings, Table, TableThread};
use std::rc::Rc;

/// What is found, listed or carried isn't used past its section, nor the section past its CPU; and
/// a section is exited once.
pub fn section(mut cpu: Cpu<String>, wm: &Name) -> Option<usize> {
    let section = cpu.enter().ok()?;
    let (found, listed) = (section.find(wm)?, section.entries().next()?);
    let value: &String = &found;
    #[cfg(found_past_its_section)] // E0505
    return Some((section.exit(), found.len()).1);
    #[cfg(listed_past_its_section)] // E0505
    return Some((section.exit(), listed.len()).1);
    #[cfg(value_past_its_section)] // E0505
    return Some((section.exit(), value.len()).1);
    #[cfg(value_of_a_found_past_its_section)] // E0505
    return Some((Found::value(&section.find(wm)?), section.exit()).0.len());
    #[cfg(section_past_its_cpu)] // E0505
    return Some((drop(cpu), drop(section), 0).2);
    #[cfg(leave_under_a_section)] // E0502
    return Some((cpu.leave(), drop(section), 0).2);
    #[cfg(exit_twice)] // E0382
    return Some((section.exit(), section.exit(), 0).2);
    let all = found.len() + listed.len() + value.len();
    section.exit();
    cpu.leave();
    Some(all)
}

/// A guard that reads an entry, and a part of that, are in use no longer than their CPU. Nobody
/// writes what others read.
pub fn read(mut cpu: Cpu<String>, wm: &Name) -> Option<usize> {
    let mut guard = cpu.read(wm).ok()?;
    let other = String::from("other");
    #[cfg(read_past_its_cpu)] // E0505
    return Some((drop(cpu), guard.len()).1);
    #[cfg(leave_under_a_read)] // E0502
    return Some((cpu.leave(), guard.len()).1);
    #[cfg(value_past_its_read)] // E0505
    return Some((guard.as_str(), ReadGuard::exit(guard)).0.len());
    #[cfg(value_written_by_a_read)] // E0596
    guard.push('x');
    #[cfg(mapped_past_its_cpu)] // E0505
    return Some((ReadGuard::map(guard, |text| text.as_str()), drop(cpu)).0.len());
    let _ = &mut guard;
    drop(other.len());
    Some(ReadGuard::map(guard, |text| text.as_str()).len())
}

/// The part that is mapped to lies in what the guard derefs to, or outlives it.
pub fn part(guard: ReadGuard<'_, String>) -> Mapped<ReadGuard<'_, String>, str> {
    let other = String::from("other");
    #[cfg(part_of_something_else)] // E0597
    return ReadGuard::map(guard, |_| other.as_str());
    drop(other.len());
    ReadGuard::map(guard, |text| text.as_str())
}

/// A passive reference is released once, and before its CPU goes.
pub fn passive(cpu: Cpu<String>, wm: &Name) -> Option<usize> {
    let reference = cpu.get(wm).ok()?;
    #[cfg(passive_past_its_cpu)] // E0505
    return Some((drop(cpu), reference.len()).1);
    #[cfg(passive_used_past_its_release)] // E0505
    return Some((reference.as_str(), PassiveRef::release(reference)).0.len());
    #[cfg(release_a_passive_twice)] // E0382
    return Some((PassiveRef::release(reference), PassiveRef::release(reference), 0).2);
    Some(reference.len())
}

/// So is a local one, at a registry whose entries carry the same. Only whoever destroys an entry
/// takes away what it carries.
pub fn local(mut reference: LocalRef<String>, cpu: &Cpu<String>, other: &Cpu<u64>) -> Option<u8> {
    #[cfg(local_used_past_its_release)] // E0505
    return Some((reference.as_str(), LocalRef::release(reference, cpu)).0.as_bytes()[0]);
    #[cfg(release_a_local_twice)] // E0382
    LocalRef::release(reference, cpu);
    #[cfg(release_at_another_type)] // E0308
    let cpu = other;
    #[cfg(value_written_by_a_reader)] // E0596
    reference.push('x');
    #[cfg(value_moved_out_by_a_reader)] // E0507
    drop(*reference);
    let _ = (&mut reference, other.id());
    LocalRef::release(reference, cpu);
    Some(0)
}

/// A thread's references of a table are in use no longer than its handle; a local one is.
pub fn table(table: Table<String>, thread: TableThread<String>, wm: &Name) -> Option<usize> {
    let (passive, local) = (thread.get(wm).ok()?, table.get(wm).ok()?);
    let guard = thread.read(wm).ok()?;
    #[cfg(passive_past_its_thread)] // E0505
    return Some((drop(thread), passive.len()).1);
    #[cfg(read_past_its_thread)] // E0505
    return Some((drop(thread), guard.len()).1);
    #[cfg(table_used_past_its_close)] // E0382
    let _ = table.close(Patience::Turns(1));
    let held = (passive.len(), guard.len());
    drop((passive, guard, table.len()));
    drop(thread);
    Some(held.0 + held.1 + local.len())
}

/// What a walk of a table meets isn't used past its visit.
pub fn walk(thread: &TableThread<String>) -> Option<usize> {
    let mut kept: Option<Found<'_, '_, String>> = None;
    #[cfg(found_past_its_walk)] // E0521
    thread.for_each(|found| kept = Some(found)).ok()?;
    kept.take().map(|found| found.len())
}

/// A lookup by one call holds nothing, so what the entry carries isn't in what it returns.
pub fn look_up(cpu: &Cpu<u64>, wm: &Name) -> Option<u64> {
    let entry = cpu.look_up(wm).ok()?;
    #[cfg(value_of_a_look_up)] // E0614
    return Some(*entry);
    Some(entry.number)
}

/// What is attached is the registry's, and lives as long.
pub fn attach<'a>(registry: &Registry<&'a str>, name: &Name, long: &'a str) {
    let text = String::from("short");
    #[cfg(value_that_lives_too_short)] // E0597
    let long = text.as_str();
    let _ = registry.attach(name, long);
    drop(text.len());
}

/// What was attached isn't used by whoever attached it.
pub fn value(registry: &Registry<String>, name: &Name, value: String) {
    let _ = registry.attach(name, value);
    #[cfg(value_used_past_an_attach)] // E0382
    drop(value);
}

/// A retired entry is destroyed once, by its token and by no number; and a detach that nothing
/// follows is said.
#[cfg_attr(detach_and_forget, deny(unused_must_use))]
pub fn detach(registry: &Registry<u64>, wm: &Name) -> Result<(), RegistryError> {
    #[cfg(detach_and_forget)] // unused `Retired` that must be used
    registry.detach(wm)?;
    let retired: Retired<u64> = registry.detach(wm)?;
    #[cfg(destroy_by_a_number)] // E0599: no method named `destroy` found
    let _ = registry.destroy(retired.entry().number, Patience::Forever);
    #[cfg(destroy_twice)] // E0382
    let _ = retired.destroy(Patience::Forever);
    let _ = retired.destroy(Patience::Forever);
    Ok(())
}

/// A lent CPU isn't kept, and a section on it ends before it goes back.
pub fn lend(pool: &CpuPool<u64>) {
    let cpu = pool.lend();
    #[cfg(cpu_kept_past_a_loan)] // E0507
    let cpu = *cpu;
    let section = cpu.enter();
    #[cfg(section_past_a_loan)] // E0505
    return ((drop(cpu), drop(section)).0);
    drop(section);
}

fn sent<S: Send>(_: S) {}

/// A CPU isn't taken out of its `Rc` under a reference that has a share: it stays with its thread.
pub fn share(cpu: Rc<Cpu<u64>>, reference: PassiveRc<u64>) {
    #[cfg(cpu_kept_past_its_rc)] // E0277: `Rc<Cpu<u64>>` cannot be sent between threads safely
    sent(Rc::clone(&cpu));
    drop(reference);
    drop(Rc::try_unwrap(cpu).map(sent));
}

/// A registry isn't taken for one whose entries carry something that lives shorter.
pub fn shorten<'a>(long: Registry<&'static str>, short: Registry<&'a str>) -> Registry<&'a str> {
    #[cfg(registry_taken_for_a_shorter_one)] // lifetime may not live long enough
    return long;
    drop(long);
    short
}

/// A form, or a limit, that comes later breaks no caller.
pub fn later(holder: Holder) -> Option<Settings> {
    #[cfg(settings_by_a_literal)] // E0639
    return Some(Settings { cpus: 1, slots: 1, changes: 1, sections: 1, passives: 1, locals: 1 });
    match holder {
        Holder::Grace(_) | Holder::Passive(_) | Holder::Local(_) => Some(Settings::new(1, 1)),
        #[cfg(not(holders_all_named))] // E0004
        _ => None,
    }
}
