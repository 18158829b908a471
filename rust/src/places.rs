//! Who holds an entry, by place: what a registry that was opened by
//! [`Registry::open_tracked`](crate::Registry::open_tracked) notes of each reference and section. A
//! table of [`Table::open_tracked`](crate::Table::open_tracked) has such registries.

use crate::values::Entry;
use std::collections::HashMap;
use std::fmt;
use std::panic::Location;
use std::thread;

/// What a place has.
#[derive(Clone, Copy, Debug, PartialEq, Eq, Hash, PartialOrd, Ord)]
#[non_exhaustive]
pub enum Hold {
    /// An open section, which may hold the entry.
    Section,
    /// A passive reference.
    Passive,
    /// A local reference.
    Local,
}

/// A place that holds an entry: where a reference was acquired, or a section entered.
#[derive(Clone, Debug, PartialEq, Eq, Hash)]
#[non_exhaustive]
pub struct Place {
    /// What was acquired or entered there.
    pub hold: Hold,
    /// The CPU, which for a local reference is the one that acquired it.
    pub cpu: u8,
    /// The caller's line.
    pub location: &'static Location<'static>,
    /// The name of the thread, if it has one.
    pub thread: Option<String>,
    /// The number of the interface that keeps the reference now, if one does.
    pub kept_by: Option<u64>,
}

impl fmt::Display for Place {
    /// Its file and line, and its thread.
    fn fmt(&self, f: &mut fmt::Formatter<'_>) -> fmt::Result {
        write!(f, "{}:{}", self.location.file(), self.location.line())?;
        if let Some(thread) = &self.thread {
            write!(f, " (thread {thread:?})")?;
        }
        match self.kept_by {
            Some(number) => write!(f, " (kept by iface {number})"),
            None => Ok(()),
        }
    }
}

/// All places that hold an entry: [`Registry::holders`](crate::Registry::holders), and a table's.
#[derive(Clone, Debug, Default, PartialEq, Eq, Hash)]
#[non_exhaustive]
pub struct Holders {
    /// Sections first, then passive references, then local ones; each the oldest first.
    pub places: Vec<Place>,
}

impl fmt::Display for Holders {
    /// Such as `2 local references: src/worker.rs:88 (thread "rx-1"), src/stats.rs:20`, and
    /// `nobody` if there is no place.
    fn fmt(&self, f: &mut fmt::Formatter<'_>) -> fmt::Result {
        if self.places.is_empty() {
            return f.write_str("nobody");
        }
        let mut before = "";
        for (hold, name) in [
            (Hold::Section, "section"),
            (Hold::Passive, "passive reference"),
            (Hold::Local, "local reference"),
        ] {
            let places: Vec<String> =
                self.places.iter().filter(|one| one.hold == hold).map(Place::to_string).collect();
            if !places.is_empty() {
                let plural = if places.len() == 1 { "" } else { "s" };
                write!(f, "{before}{} {name}{plural}: {}", places.len(), places.join(", "))?;
                before = "; ";
            }
        }
        Ok(())
    }
}

impl Place {
    fn here(hold: Hold, cpu: u8, location: &'static Location<'static>) -> Place {
        Place {
            hold,
            cpu,
            location,
            thread: thread::current().name().map(str::to_string),
            kept_by: None,
        }
    }
}

/// What is noted of a registry. A younger note has a greater stamp.
#[derive(Default)]
pub struct Notes {
    last: u64,
    /// By their tickets: the outermost section of a CPU by its number, and a reference by a
    /// greater one. Each with its stamp, and a reference with the number of the entry that it
    /// is to.
    held: HashMap<u32, (u64, Option<u64>, Place)>,
    /// When an entry was detached.
    detached: HashMap<u64, u64>,
}

impl Notes {
    fn stamp(&mut self) -> u64 {
        self.last += 1;
        self.last
    }

    /// A reference was acquired to the entry with this number. Returns its ticket.
    pub fn acquired(
        &mut self,
        hold: Hold,
        cpu: u8,
        number: u64,
        at: &'static Location<'static>,
    ) -> u32 {
        loop {
            let stamp = self.stamp();
            let ticket = stamp as u32;
            if ticket > u32::from(u8::MAX) && !self.held.contains_key(&ticket) {
                self.held.insert(ticket, (stamp, Some(number), Place::here(hold, cpu, at)));
                return ticket;
            }
        }
    }

    /// The reference with this ticket, where it is noted, was cloned there.
    pub fn cloned(&mut self, ticket: u32, at: &'static Location<'static>) -> u32 {
        match self.held.get(&ticket) {
            Some(&(_, Some(number), Place { hold, cpu, .. })) => {
                self.acquired(hold, cpu, number, at)
            }
            _ => 0,
        }
    }

    /// A CPU is about to enter its outermost section.
    pub fn entered(&mut self, cpu: u8, at: &'static Location<'static>) {
        let stamp = self.stamp();
        self.held.insert(u32::from(cpu), (stamp, None, Place::here(Hold::Section, cpu, at)));
    }

    /// The reference with this ticket is released, or the section of the CPU with this number has
    /// ended.
    pub fn ended(&mut self, ticket: u32) {
        self.held.remove(&ticket);
    }

    /// The reference with this ticket has come to this place and this thread.
    pub fn moved(&mut self, ticket: u32, at: &'static Location<'static>) {
        if let Some((_, _, place)) = self.held.get_mut(&ticket) {
            *place = Place::here(place.hold, place.cpu, at);
        }
    }

    /// An interface keeps a reference to its driver, that its attach on this CPU acquired.
    pub fn kept(&mut self, driver: u64, cpu: u8, at: &'static Location<'static>, iface: u64) {
        let ticket = self.acquired(Hold::Local, cpu, driver, at);
        if let Some((_, _, place)) = self.held.get_mut(&ticket) {
            place.kept_by = Some(iface);
        }
    }

    pub fn detached(&mut self, number: u64) {
        let stamp = self.stamp();
        self.detached.insert(number, stamp);
    }

    /// The entry is freed, and gives up what it kept.
    pub fn freed(&mut self, number: u64) {
        self.detached.remove(&number);
        self.held.retain(|_, (_, _, place)| place.kept_by != Some(number));
    }

    /// Who holds an entry. A section that was entered after the detach doesn't.
    pub fn holders(&self, entry: &Entry) -> Holders {
        let detached = self.detached.get(&entry.number).copied().unwrap_or(u64::MAX);
        let holds = |stamp: u64, number: Option<u64>| {
            number.map_or(stamp < detached, |number| number == entry.number)
        };
        let mut held: Vec<_> =
            self.held.values().filter(|(stamp, number, _)| holds(*stamp, *number)).collect();
        held.sort_by_key(|(stamp, _, place)| (place.hold, *stamp));
        Holders { places: held.into_iter().map(|(_, _, place)| place.clone()).collect() }
    }
}
