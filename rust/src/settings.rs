//! The size of a registry, the limits of a build, and the library's version.

use crate::ffi;
use std::thread::available_parallelism;

/// The size of a registry, and the limits of its counts. Each method sets one limit and returns the
/// settings, such as `Settings::new(2, 4).changes(100)`.
#[derive(Clone, Copy, Debug, PartialEq, Eq, Hash)]
#[non_exhaustive]
pub struct Settings {
    /// 1 to the most CPUs of [`LIMITS`](crate::LIMITS), whose fields bound all of these. If there
    /// may be another one, the registry has it for its own calls.
    pub cpus: u8,
    /// Entries at a time, live and retired.
    pub slots: u8,
    /// Attaches and detaches in all.
    pub changes: u64,
    /// Outermost sections of each CPU.
    pub sections: u64,
    /// Passive references of each CPU to an entry.
    pub passives: u64,
    /// Each CPU's net count of local references to an entry.
    pub locals: u64,
}

impl Settings {
    /// This many CPUs and slots, and the largest limits. [`Registry::open`](crate::Registry::open)
    /// checks them.
    pub const fn new(cpus: u8, slots: u8) -> Settings {
        Settings {
            cpus,
            slots,
            changes: ffi::MOST_CHANGES,
            sections: ffi::MOST_SECTIONS,
            passives: ffi::MOST_COUNT,
            locals: ffi::MOST_COUNT,
        }
    }

    /// This many CPUs.
    #[must_use]
    pub const fn cpus(self, cpus: u8) -> Settings {
        Settings { cpus, ..self }
    }

    /// This many slots.
    #[must_use]
    pub const fn slots(self, slots: u8) -> Settings {
        Settings { slots, ..self }
    }

    /// At most this many attaches and detaches in all.
    #[must_use]
    pub const fn changes(self, changes: u64) -> Settings {
        Settings { changes, ..self }
    }

    /// At most this many outermost sections of each CPU.
    #[must_use]
    pub const fn sections(self, sections: u64) -> Settings {
        Settings { sections, ..self }
    }

    /// At most this many passive references of each CPU to an entry.
    #[must_use]
    pub const fn passives(self, passives: u64) -> Settings {
        Settings { passives, ..self }
    }

    /// At most this net count of each CPU's local references to an entry.
    #[must_use]
    pub const fn locals(self, locals: u64) -> Settings {
        Settings { locals, ..self }
    }

    /// The CPUs of the registry of C: one more, for the calls that choose one, unless there are
    /// none or as many as there may be.
    pub(crate) fn all_cpus(self) -> u8 {
        self.cpus + u8::from((1..ffi::MOST_CPUS).contains(&usize::from(self.cpus)))
    }

    pub(crate) fn to_c(self) -> ffi::Settings {
        ffi::Settings {
            cpus: u64::from(self.all_cpus()),
            slots: u64::from(self.slots),
            change_limit: self.changes,
            section_limit: self.sections,
            passive_limit: self.passives,
            count_limit: self.locals,
        }
    }
}

impl Default for Settings {
    /// As many CPUs as the machine has for this process, at most 64, and 32 slots.
    fn default() -> Settings {
        let cpus = available_parallelism().map_or(1, |count| count.get().min(ffi::MOST_CPUS));
        Settings::new(cpus as u8, 32)
    }
}

/// The limits of a build of the library: the largest [`Settings`](crate::Settings), and how deep a
/// section may be nested.
#[repr(C)]
#[derive(Clone, Copy, Debug, PartialEq, Eq, Hash)]
#[non_exhaustive]
pub struct Limits {
    /// CPUs of a registry.
    pub cpus: u64,
    /// Entries of a registry at a time, live and retired.
    pub slots: u64,
    /// Attaches and detaches of a registry together.
    pub changes: u64,
    /// Outermost sections of a CPU.
    pub sections: u64,
    /// Passive references of a CPU to an entry, and its net count of local ones.
    pub count: u64,
    /// Open sections of a CPU, one nested in another.
    pub depth: u64,
}

/// The limits that this crate was compiled for, by the archive's header `kupaldiz_limits.h`. With a
/// library that has others nothing is opened: [`Registry::open`](crate::Registry::open) returns
/// `OtherLimits`. If the most CPUs or the most slots are others, or the version is, the program
/// doesn't even link.
pub const LIMITS: Limits = Limits {
    cpus: ffi::MOST_CPUS as u64,
    slots: ffi::MOST_SLOTS as u64,
    changes: ffi::MOST_CHANGES,
    sections: ffi::MOST_SECTIONS,
    count: ffi::MOST_COUNT,
    depth: ffi::MOST_DEPTH,
};

impl Limits {
    /// What the library returns of these as those that a program was compiled for.
    pub(crate) fn compared(&self) -> u32 {
        // SAFETY: the call reads the struct alone, which lies as in C.
        unsafe { ffi::kupaldiz_built_for(self) }
    }
}

/// The version of the library, such as `"0.1.0"`.
#[must_use]
pub fn version() -> &'static str {
    // SAFETY: the call needs nothing.
    let text = unsafe { ffi::kupaldiz_version() };
    // SAFETY: kupaldiz.h says of it: "never freed and never written to".
    unsafe { ffi::string(text) }
}

#[cfg(test)]
mod tests {
    use super::{Limits, LIMITS};
    use crate::error::{checked, OpenError};

    #[test]
    fn other_limits_than_the_librarys_are_refused() {
        let compared = [LIMITS, Limits { depth: LIMITS.depth - 1, ..LIMITS }]
            .map(|limits| checked(limits.compared()).map_err(OpenError::of));
        assert_eq!(compared, [Ok(()), Err(OpenError::OtherLimits)]);
    }
}
