//! `script PATH`: runs a script of `docs/SCRIPTS.md` of the repository through this crate, and
//! prints its report, which is that of `registry_run live`. The script has no fault.
//!
//! The program itself answers for labels, and for what the crate does otherwise: an attach that
//! finds no vacant slot would first free what nobody holds. An interface is attached on the live
//! driver that its label refers to. Where that is retired no call of the crate does it: the program
//! stops with status 3.

use kupaldiz::{
    Cpu, DestroyError, Entry, Holder, Kind, LocalRef, Name, PassiveRef, Patience, ReadGuard,
    Registry, RegistryError, Retired, Section, Settings, LIMITS,
};
use std::collections::BTreeMap;
use std::fmt::Display;
use std::process;
use std::str::FromStr;

/// The line that a command prints. The error is that of one that has done nothing.
type Line = Result<String, String>;

/// This program can't go on.
fn stop(why: impl Display) -> ! {
    eprintln!("{why}");
    process::exit(3)
}

fn refused(error: impl Into<RegistryError>) -> String {
    match error.into() {
        RegistryError::StillHeld(holder) => format!("refused StillHeld {}", stage(holder)),
        RegistryError::Waiting(cpu) => format!("refused Waiting cpu {cpu}"),
        other => format!("refused {other:?}"),
    }
}

fn stage(holder: Holder) -> String {
    match holder {
        Holder::Grace(cpu) => format!("grace cpu {cpu}"),
        Holder::Passive(cpu) => format!("passive cpu {cpu}"),
        Holder::Local(held) => format!("local {held}"),
        other => other.to_string(),
    }
}

fn at(what: &str, entry: Entry) -> String {
    format!("{what} {} slot {}", entry.number, entry.slot)
}

/// What a table has under a label.
fn labelled<'a, V>(table: &'a BTreeMap<String, V>, label: &str) -> Result<&'a V, String> {
    table.get(label).ok_or_else(|| "no label".into())
}

fn is_vacant<V>(table: &BTreeMap<String, V>, label: &str) -> Result<(), String> {
    labelled(table, label).map_or(Ok(()), |_| Err("label taken".into()))
}

/// A CPU, and the nestings of its section. The first may be the guard of the last found entry.
struct Acting<'cpu> {
    cpu: &'cpu Cpu<u64>,
    nestings: Vec<Result<ReadGuard<'cpu, u64>, Section<'cpu, u64>>>,
}

impl<'cpu> Acting<'cpu> {
    fn enter(&mut self) -> Line {
        self.nestings.push(Err(self.cpu.enter().map_err(refused)?));
        Ok("inside".to_string())
    }

    fn exit(&mut self) -> Line {
        drop(self.nestings.pop().ok_or("not inside")?);
        Ok(if self.cpu.is_inside() { "inside" } else { "outside" }.to_string())
    }

    /// The guard takes the place of the first nesting, so it isn't too deep. The only nesting goes
    /// after it has come.
    fn find(&mut self, key: (Kind, Name)) -> Line {
        if self.nestings.is_empty() {
            return Err("not inside".into());
        }
        let only = Some(self.nestings.remove(0)).filter(|_| self.nestings.is_empty());
        let first = self.cpu.read(key).map_err(|_| self.cpu.enter().map_err(refused));
        let (line, first) = match first {
            Err(section) => ("none".to_string(), Err(section?)),
            Ok(guard) => {
                let line = format!("{} value {}", at("found", ReadGuard::entry(&guard)), *guard);
                (line, Ok(guard))
            }
        };
        self.nestings.insert(0, first);
        drop(only);
        Ok(line)
    }

    fn last(&self) -> Result<&ReadGuard<'cpu, u64>, String> {
        match self.nestings.first() {
            Some(Ok(guard)) => Ok(guard),
            _ => Err("refused NothingFound".into()),
        }
    }
}

struct Script<'cpu> {
    registry: &'cpu Registry<u64>,
    /// As many CPUs as there may be. Those beyond the script's attach its interfaces.
    cpus: &'cpu [Cpu<u64>],
    acting: Vec<Acting<'cpu>>,
    passives: BTreeMap<String, PassiveRef<'cpu, u64>>,
    locals: BTreeMap<String, LocalRef<u64>>,
    live: BTreeMap<(Kind, Name), Entry>,
    retired: BTreeMap<u64, Retired<u64>>,
}

/// References.
impl<'cpu> Script<'cpu> {
    /// The passive reference of a label, on this CPU.
    fn passive(&self, cpu: usize, label: &str) -> Result<&PassiveRef<'cpu, u64>, String> {
        let held = labelled(&self.passives, label)?;
        let is_own = usize::from(PassiveRef::cpu(held).id()) == cpu;
        is_own.then_some(held).ok_or_else(|| "refused WrongCpu".into())
    }

    fn keep(&mut self, label: &str, held: PassiveRef<'cpu, u64>) -> Line {
        let line = format!("ref {label} {}", PassiveRef::entry(&held).number);
        self.passives.insert(label.to_string(), held);
        Ok(line)
    }

    fn refer(&mut self, cpu: usize, label: &str) -> Line {
        is_vacant(&self.passives, label)?;
        let held = ReadGuard::acquire(self.acting[cpu].last()?).map_err(refused)?;
        self.keep(label, held)
    }

    fn copy(&mut self, cpu: usize, from: &str, to: &str) -> Line {
        labelled(&self.passives, from)?;
        is_vacant(&self.passives, to)?;
        let copy = PassiveRef::try_clone(self.passive(cpu, from)?).map_err(refused)?;
        self.keep(to, copy)
    }

    fn held(&self, cpu: usize, label: &str) -> Line {
        let entry = PassiveRef::entry(labelled(&self.passives, label)?);
        Ok(if self.cpus[cpu].holds(entry.number) { "yes" } else { "no" }.to_string())
    }

    fn read(&self, cpu: usize, label: &str) -> Line {
        let held = self.passive(cpu, label)?;
        Ok(format!("read {} value {}", PassiveRef::entry(held).number, **held))
    }

    fn release(&mut self, cpu: usize, label: &str) -> Line {
        let number = PassiveRef::entry(self.passive(cpu, label)?).number;
        self.passives.remove(label);
        Ok(format!("dropped {label} {number}"))
    }

    fn count(&mut self, cpu: usize, label: &str) -> Line {
        is_vacant(&self.locals, label)?;
        let held = ReadGuard::acquire_local(self.acting[cpu].last()?).map_err(refused)?;
        let line = format!("count {label} {}", LocalRef::entry(&held).number);
        self.locals.insert(label.to_string(), held);
        Ok(line)
    }

    fn peek(&self, label: &str) -> Line {
        let held = labelled(&self.locals, label)?;
        Ok(format!("peek {} value {}", LocalRef::entry(held).number, **held))
    }

    fn uncount(&mut self, cpu: usize, label: &str) -> Line {
        let held = self.locals.remove(label).ok_or("no label")?;
        let line = format!("uncounted {label} {}", LocalRef::entry(&held).number);
        LocalRef::release(held, &self.cpus[cpu]);
        Ok(line)
    }
}

/// Changes, and the work on what is retired.
impl Script<'_> {
    /// What the language says of an attach up to whether a slot is vacant.
    fn may_attach(&self, cpu: usize, key: (Kind, Name), has_driver: bool) -> Result<(), String> {
        let is_full = self.live.len() + self.retired.len() == self.registry.settings().slots.into();
        Err(refused(if self.cpus[cpu].is_inside() {
            RegistryError::Inside
        } else if !has_driver {
            RegistryError::NeedsDriver
        } else if is_full && self.live.contains_key(&key) {
            RegistryError::NameTaken
        } else if is_full {
            RegistryError::NoSlot
        } else {
            return Ok(());
        }))
    }

    fn attached(&mut self, entry: Entry) -> Line {
        self.live.insert((entry.kind, entry.name), entry);
        Ok(at("attached", entry))
    }

    fn attach(&mut self, cpu: usize, (kind, name): (Kind, Name), value: u64) -> Line {
        self.may_attach(cpu, (kind, name), kind == Kind::Driver)?;
        let entry = self.cpus[cpu].attach(name, value).map_err(refused)?;
        self.attached(entry)
    }

    /// A reference that this acquires takes the place of the label's, on a CPU that isn't the
    /// script's: the first that may begin a section.
    fn plug(&mut self, cpu: usize, name: Name, value: u64, label: &str) -> Line {
        let driver = LocalRef::entry(labelled(&self.locals, label)?);
        self.may_attach(cpu, (Kind::Iface, name), driver.kind == Kind::Driver)?;
        if self.live.get(&(Kind::Driver, driver.name)) != Some(&driver) {
            stop(format!("an interface on {driver}, which is retired"));
        }
        let spent = RegistryError::SectionsSpent;
        let others = self.cpus[self.acting.len()..].iter();
        let (by, made) = others
            .map(|cpu| (cpu, cpu.attach_iface(driver.name, name, value).map_err(|no| no.into())))
            .find(|(_, made)| *made != Err(spent))
            .unwrap_or_else(|| stop(spent));
        let entry = made.map_err(|no: RegistryError| refused(no))?;
        self.uncount(by.id().into(), label)?;
        self.attached(entry)
    }

    fn detach(&mut self, cpu: usize, key: (Kind, Name)) -> Line {
        let retired = self.cpus[cpu].detach(key).map_err(refused)?;
        let entry = retired.entry();
        self.live.remove(&key);
        self.retired.insert(entry.number, retired);
        Ok(at("retired", entry))
    }

    /// One turn: the slot that it freed, or what it met.
    fn turn(&mut self, number: u64) -> Result<Result<u8, DestroyError>, String> {
        let retired = self.retired.remove(&number).ok_or("refused NotRetired")?;
        Ok(retired.try_destroy().map(|freed| freed.entry.slot).map_err(|held| {
            self.retired.insert(number, held.given);
            held.refusal
        }))
    }

    fn advance(&mut self, number: u64) -> Line {
        Ok(match self.turn(number)? {
            Ok(slot) => format!("freed slot {slot}"),
            Err(DestroyError::StillHeld(holder)) => stage(holder),
            Err(other) => return Err(refused(other)),
        })
    }

    fn destroy(&mut self, cpu: usize, number: u64, turns: u64) -> Line {
        if self.cpus[cpu].is_inside() {
            return Err(refused(RegistryError::Inside));
        }
        let mut met = self.turn(number)?;
        for _ in 1..turns {
            met = if met.is_ok() { met } else { self.turn(number)? };
        }
        met.map(|slot| format!("destroyed slot {slot}")).map_err(refused)
    }

    /// Nobody acts between two turns, so one meets what many do.
    fn perform(&self, cpu: usize) -> Line {
        self.cpus[cpu].synchronize(Patience::Turns(1)).map_err(refused)?;
        Ok("performed".to_string())
    }

    fn audit(&self) -> Line {
        let mut lines = Vec::new();
        for one in self.registry.audit(self.cpus).map_err(refused)? {
            let (slot, number, held, total) = (one.slot, one.number, one.held, one.total);
            let locals = one.locals[..self.acting.len()].iter().map(|net| format!(" {net}"));
            let locals: String = locals.collect();
            lines.push(format!(
                "slot {slot} number {number} held {held} locals{locals} total {total}"
            ));
        }
        Ok(if lines.is_empty() { "empty".to_string() } else { lines.join("\n") })
    }
}

/// A word as a number, a CPU or a name.
fn read<W: FromStr>(word: &str) -> W {
    word.parse().unwrap_or_else(|_| stop(format!("not what the command takes: {word}")))
}

fn key(kind: &str, name: &str) -> (Kind, Name) {
    (if kind == "driver" { Kind::Driver } else { Kind::Iface }, read(name))
}

impl Script<'_> {
    fn command(&mut self, words: &[&str]) -> Line {
        match *words {
            ["domain" | "limits", ..] => Ok(words.join(" ")),
            ["attach", cpu, kind, name, value] => {
                self.attach(read(cpu), key(kind, name), read(value))
            }
            ["plug", cpu, name, value, label] => {
                self.plug(read(cpu), read(name), read(value), label)
            }
            ["detach", cpu, kind, name] => self.detach(read(cpu), key(kind, name)),
            ["enter", cpu] => self.acting[read::<usize>(cpu)].enter(),
            ["exit", cpu] => self.acting[read::<usize>(cpu)].exit(),
            ["find", cpu, kind, name] => self.acting[read::<usize>(cpu)].find(key(kind, name)),
            ["ref", cpu, label] => self.refer(read(cpu), label),
            ["copy", cpu, from, to] => self.copy(read(cpu), from, to),
            ["held", cpu, label] => self.held(read(cpu), label),
            ["read", cpu, label] => self.read(read(cpu), label),
            ["drop", cpu, label] => self.release(read(cpu), label),
            ["count", cpu, label] => self.count(read(cpu), label),
            ["peek", label] => self.peek(label),
            ["uncount", cpu, label] => self.uncount(read(cpu), label),
            ["advance", number] => self.advance(read(number)),
            ["destroy", cpu, number, turns] => self.destroy(read(cpu), read(number), read(turns)),
            ["perform", cpu, _] => self.perform(read(cpu)),
            ["audit"] => self.audit(),
            _ => stop(format!("no command: {}", words.join(" "))),
        }
    }
}

/// How many CPUs a script has, and its registry's settings.
fn settings(commands: &[Vec<&str>]) -> (usize, Settings) {
    let (cpus, slots) = match commands.first().map(Vec::as_slice) {
        Some(["domain", cpus, slots]) => (read(cpus), read(slots)),
        _ => stop("no domain"),
    };
    let limits = match commands.get(1).map(Vec::as_slice) {
        Some(["limits", limits @ ..]) => limits.iter().map(|limit| read(limit)).collect(),
        _ => vec![1000, 1000, 100, 100],
    };
    let settings = Settings::new(LIMITS.cpus as u8, slots).changes(limits[0]).sections(limits[1]);
    (cpus, settings.passives(limits[2]).locals(limits[3]))
}

/// Runs a script, and hands on each line of its report.
pub fn run(text: &str, mut print: impl FnMut(&str)) {
    let lines = text.lines().map(|line| line.split_whitespace().collect::<Vec<_>>());
    let commands: Vec<_> =
        lines.filter(|words| words.first().map_or(false, |word| !word.starts_with('#'))).collect();
    let (count, settings) = settings(&commands);
    let registry = Registry::open(settings).unwrap_or_else(|error| stop(error));
    let cpus = registry.cpus();
    let mut script = Script {
        registry: &registry,
        cpus: &cpus,
        acting: cpus[..count].iter().map(|cpu| Acting { cpu, nestings: Vec::new() }).collect(),
        passives: BTreeMap::new(),
        locals: BTreeMap::new(),
        live: BTreeMap::new(),
        retired: BTreeMap::new(),
    };
    for words in &commands {
        print(&script.command(words).unwrap_or_else(|refusal| refusal));
    }
}

fn main() {
    let path = std::env::args().nth(1).unwrap_or_else(|| stop("usage: script PATH"));
    let text = std::fs::read_to_string(&path);
    run(&text.unwrap_or_else(|error| stop(format!("{path}: {error}"))), |line| println!("{line}"));
}
