//! Plain values: kinds, entries, what holds one, what was freed, and balances.

use crate::error::{unexpected, DestroyError};
use crate::ffi;
use crate::name::Name;
use std::fmt;

/// What an entry is.
#[derive(Clone, Copy, Debug, PartialEq, Eq, Hash, PartialOrd, Ord)]
pub enum Kind {
    /// A network interface, which keeps its driver.
    Iface,
    /// A device driver.
    Driver,
}

impl Kind {
    #[inline]
    pub(crate) fn of(number: u32) -> Kind {
        if number == ffi::INTERFACE {
            Kind::Iface
        } else {
            Kind::Driver
        }
    }

    #[inline]
    pub(crate) fn number(self) -> u32 {
        match self {
            Kind::Iface => ffi::INTERFACE,
            Kind::Driver => ffi::DRIVER,
        }
    }
}

impl fmt::Display for Kind {
    /// `iface` or `driver`.
    fn fmt(&self, f: &mut fmt::Formatter<'_>) -> fmt::Result {
        f.pad(match self {
            Kind::Iface => "iface",
            Kind::Driver => "driver",
        })
    }
}

/// An entry as it was attached. What it carries, the caller's `T`, is read by what was
/// [`Found`](crate::Found) or by a reference.
#[derive(Clone, Copy, Debug, PartialEq, Eq, Hash)]
#[non_exhaustive]
pub struct Entry {
    /// From 1, and never reused in its registry: how many attaches and detaches there were by
    /// then, this attach included.
    pub number: u64,
    /// From 0, and reused once the entry is freed.
    pub slot: u8,
    /// What it is.
    pub kind: Kind,
    /// Its name. At most one live entry has this kind and name.
    pub name: Name,
    /// Which registry it is of: each that this program opens has a number of its own.
    pub(crate) registry: u64,
}

impl fmt::Display for Entry {
    fn fmt(&self, f: &mut fmt::Formatter<'_>) -> fmt::Result {
        let Entry { number, slot, kind, name, .. } = self;
        write!(f, "{kind} {name} {number} slot {slot}")
    }
}

/// What holds a retired entry first: sections come before passive references, and these before
/// local ones.
#[derive(Clone, Copy, Debug, PartialEq, Eq, Hash)]
#[non_exhaustive]
pub enum Holder {
    /// A section of this CPU may hold it.
    Grace(u8),
    /// This CPU has a passive reference to it, or is in a call of [`Cpu::get`](crate::Cpu::get)
    /// that may be acquiring one.
    Passive(u8),
    /// This many local references to it are held, each with its clones. It includes those that
    /// interfaces keep, and those that were dropped and aren't released yet. Or its slot is vacant,
    /// and the values of this many interfaces on it aren't returned or dropped yet.
    Local(u64),
}

impl fmt::Display for Holder {
    fn fmt(&self, f: &mut fmt::Formatter<'_>) -> fmt::Result {
        match self {
            Holder::Grace(cpu) => write!(f, "a section is open on CPU {cpu}"),
            Holder::Passive(cpu) => write!(f, "CPU {cpu} has a passive reference"),
            Holder::Local(1) => f.write_str("1 local reference"),
            Holder::Local(held) => write!(f, "{held} local references"),
        }
    }
}

/// What a turn of C on a retired entry answered, and what it met. It is read at the end alone.
#[derive(Clone, Copy)]
pub(crate) struct Met {
    pub answer: u32,
    pub met: ffi::Met,
}

impl Met {
    /// There is no such entry any more.
    pub(crate) const NOTHING: Met =
        Met { answer: ffi::NOT_RETIRED, met: ffi::Met { stage: 0, what: 0 } };

    /// So many local references hold the entry.
    pub(crate) fn local(held: u64) -> Met {
        Met { answer: ffi::STILL_HELD, met: ffi::Met { stage: ffi::LOCAL, what: held } }
    }

    /// The slot is vacant, or was before this turn.
    #[inline]
    pub(crate) fn is_gone(self) -> bool {
        self.answer != ffi::STILL_HELD
    }

    /// How many local references hold the entry, where they are what was met.
    #[inline]
    pub(crate) fn locals(self) -> Option<u64> {
        (!self.is_gone() && self.met.stage == ffi::LOCAL).then_some(self.met.what)
    }

    /// Why the entry isn't freed, where it is retired.
    #[inline]
    pub(crate) fn refusal(self) -> DestroyError {
        DestroyError::StillHeld(match (self.answer, self.met.stage) {
            (ffi::STILL_HELD, ffi::GRACE) => Holder::Grace(self.met.what as u8),
            (ffi::STILL_HELD, ffi::PASSIVE) => Holder::Passive(self.met.what as u8),
            (ffi::STILL_HELD, ffi::LOCAL) => Holder::Local(self.met.what),
            (other, _) => unexpected(other),
        })
    }
}

/// An entry that is gone permanently: nothing holds it, now or later, and its slot is vacant. What
/// it carried belongs to its owner again.
#[derive(Clone, Copy, PartialEq, Eq, Hash)]
#[non_exhaustive]
pub struct Freed<T> {
    /// The entry as it was attached.
    pub entry: Entry,
    /// What it carried.
    pub value: T,
}

/// Whatever it carried: a `T` needs no `Debug` for an `unwrap_err` of a destroy.
impl<T> fmt::Debug for Freed<T> {
    fn fmt(&self, f: &mut fmt::Formatter<'_>) -> fmt::Result {
        f.debug_struct("Freed").field("entry", &self.entry).finish_non_exhaustive()
    }
}

impl<T> fmt::Display for Freed<T> {
    fn fmt(&self, f: &mut fmt::Formatter<'_>) -> fmt::Result {
        write!(f, "freed slot {}", self.entry.slot)
    }
}

/// The counts of the local references to a live or retired entry.
#[derive(Clone, Debug, PartialEq, Eq, Hash)]
#[non_exhaustive]
pub struct Balance {
    /// The entry's.
    pub number: u64,
    /// The entry's.
    pub slot: u8,
    /// The number held: the sum of `locals` and `total`.
    pub held: i64,
    /// Of each CPU, in order, and of the registry's own: 0 once collected.
    pub locals: Vec<i64>,
    /// What was collected less what was given up under the interlock.
    pub total: i64,
}

impl Balance {
    pub(crate) fn of(balance: &ffi::Balance, cpus: u8) -> Balance {
        Balance {
            number: balance.number,
            slot: balance.slot as u8,
            held: balance.held,
            locals: balance.locals[..usize::from(cpus)].to_vec(),
            total: balance.total,
        }
    }
}
