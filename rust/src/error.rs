//! The errors that calls return: one for each kind of call, and `RegistryError`, which `?` makes of
//! any of them.

use crate::ffi;
use crate::name::NameError;
use crate::values::Holder;
use std::error::Error;
use std::fmt;

/// Any error of a call. Each kind of call returns an error of its own, such as [`LookUpError`],
/// which `?` converts to this one.
#[derive(Clone, Copy, Debug, PartialEq, Eq, Hash)]
#[non_exhaustive]
pub enum RegistryError {
    /// Memory ran out.
    NoMemory,
    /// A setting is out of its range.
    BadSettings,
    /// A text or bytes that are no name: none, zeros alone, or more than 16.
    BadName,
    /// A live entry has this kind and name.
    NameTaken,
    /// No slot is vacant.
    NoSlot,
    /// The registry of a [`Table`](crate::Table) that the name chooses is full, and the table
    /// isn't.
    Crowded,
    /// No more attaches: each takes room for itself and its detach, of
    /// [`Settings::changes`](crate::Settings::changes). All other calls go on.
    HistoryFull,
    /// No live entry has this kind and name, or the one that has isn't the entry that is meant.
    NotFound,
    /// The CPU is inside a section.
    Inside,
    /// The CPU has begun as many sections as it may.
    SectionsSpent,
    /// The CPU has as many passive references to the entry as it may.
    PassiveFull,
    /// The CPU's net count of local references to the entry is at its limit.
    LocalFull,
    /// The CPUs aren't all CPUs of the registry, each once, or there is none.
    MissingCpu,
    /// The program has taken every CPU, and the registry has none of its own, since there are as
    /// many as [`LIMITS`](crate::LIMITS) has.
    NoCpu,
    /// The section is nested as deep as it may be.
    TooDeep,
    /// No live driver has the name that an interface names.
    NeedsDriver,
    /// A CPU is of another registry.
    OtherRegistry,
    /// The crate was compiled for other [limits](crate::LIMITS) than the library has.
    OtherLimits,
    /// This holds the entry.
    StillHeld(Holder),
    /// The section of this CPU wasn't seen to have ended.
    Waiting(u8),
    /// Another handle of the registry exists.
    StillOpen,
}

/// The error of [`Registry::open`](crate::Registry::open).
#[derive(Clone, Copy, Debug, PartialEq, Eq, Hash)]
#[allow(missing_docs)] // RegistryError tells each.
#[non_exhaustive]
pub enum OpenError {
    OtherLimits,
    BadSettings,
    NoMemory,
}

/// The error of a lookup, of a section's enter, and of an acquire.
#[derive(Clone, Copy, Debug, PartialEq, Eq, Hash)]
#[allow(missing_docs)]
#[non_exhaustive]
pub enum LookUpError {
    NoCpu,
    TooDeep,
    NoMemory,
    SectionsSpent,
    NotFound,
    PassiveFull,
    LocalFull,
}

/// The error of an attach or a replace. It comes with what the call was given: [`Refused`].
#[derive(Clone, Copy, Debug, PartialEq, Eq, Hash)]
#[allow(missing_docs)]
#[non_exhaustive]
pub enum AttachError {
    NoCpu,
    BadName,
    Inside,
    SectionsSpent,
    NeedsDriver,
    LocalFull,
    NameTaken,
    NotFound,
    NoSlot,
    Crowded,
    HistoryFull,
}

/// The error of a detach.
#[derive(Clone, Copy, Debug, PartialEq, Eq, Hash)]
#[allow(missing_docs)]
#[non_exhaustive]
pub enum DetachError {
    NoCpu,
    Inside,
    NotFound,
}

/// The error of a try to free a detached entry. It comes with the [`Retired`](crate::Retired):
/// [`Refused`].
#[derive(Clone, Copy, Debug, PartialEq, Eq, Hash)]
#[allow(missing_docs)]
#[non_exhaustive]
pub enum DestroyError {
    OtherRegistry,
    Inside,
    StillHeld(Holder),
}

/// The error of [`Cpu::synchronize`](crate::Cpu::synchronize).
#[derive(Clone, Copy, Debug, PartialEq, Eq, Hash)]
#[allow(missing_docs)]
#[non_exhaustive]
pub enum SynchronizeError {
    Inside,
    Waiting(u8),
}

/// The error of a call that takes CPUs: an audit, and the making of a pool.
#[derive(Clone, Copy, Debug, PartialEq, Eq, Hash)]
#[allow(missing_docs)]
#[non_exhaustive]
pub enum CpusError {
    OtherRegistry,
    MissingCpu,
}

/// The error of [`Registry::close`](crate::Registry::close). It comes with the registry:
/// [`Refused`].
#[derive(Clone, Copy, Debug, PartialEq, Eq, Hash)]
#[allow(missing_docs)]
#[non_exhaustive]
pub enum CloseError {
    StillOpen,
}

impl OpenError {
    /// The error that the archive's number names.
    pub(crate) fn of(answer: u32) -> OpenError {
        named([Self::OtherLimits, Self::BadSettings, Self::NoMemory], answer)
    }
}

impl LookUpError {
    /// The same. What is no name no entry has.
    #[inline]
    pub(crate) fn of(answer: u32) -> LookUpError {
        if answer == ffi::NOT_FOUND || answer == ffi::BAD_NAME {
            return Self::NotFound;
        }
        use LookUpError::*;
        named([TooDeep, NoMemory, SectionsSpent, PassiveFull, LocalFull], answer)
    }
}

impl AttachError {
    pub(crate) fn of(answer: u32) -> AttachError {
        use AttachError::*;
        let (driver, name) =
            ([SectionsSpent, NeedsDriver, LocalFull], [BadName, NameTaken, NotFound]);
        let (driver, room) = (driver.into_iter(), [Inside, NoSlot, HistoryFull]);
        named(driver.chain(name).chain(room), answer)
    }
}

impl DetachError {
    pub(crate) fn of(answer: u32) -> DetachError {
        match answer {
            ffi::BAD_NAME => Self::NotFound,
            other => named([Self::Inside, Self::NotFound], other),
        }
    }
}

impl SynchronizeError {
    /// The same, with the CPU that was waited for.
    pub(crate) fn of(answer: u32, waited: u64) -> SynchronizeError {
        named([Self::Inside, Self::Waiting(waited as u8)], answer)
    }
}

/// The one of these errors that the archive's number names.
fn named<E: Copy + Into<RegistryError>>(all: impl IntoIterator<Item = E>, answer: u32) -> E {
    let is_meant = |error: &E| (*error).into().number() == answer;
    all.into_iter().find(is_meant).unwrap_or_else(|| unexpected(answer))
}

impl From<OpenError> for RegistryError {
    fn from(error: OpenError) -> Self {
        match error {
            OpenError::OtherLimits => Self::OtherLimits,
            OpenError::BadSettings => Self::BadSettings,
            OpenError::NoMemory => Self::NoMemory,
        }
    }
}

impl From<LookUpError> for RegistryError {
    fn from(error: LookUpError) -> Self {
        match error {
            LookUpError::NoCpu => Self::NoCpu,
            LookUpError::NotFound => Self::NotFound,
            LookUpError::TooDeep => Self::TooDeep,
            LookUpError::SectionsSpent => Self::SectionsSpent,
            LookUpError::PassiveFull => Self::PassiveFull,
            LookUpError::LocalFull => Self::LocalFull,
            LookUpError::NoMemory => Self::NoMemory,
        }
    }
}

impl From<AttachError> for RegistryError {
    fn from(error: AttachError) -> Self {
        match error {
            AttachError::NoCpu => Self::NoCpu,
            AttachError::BadName => Self::BadName,
            AttachError::Inside => Self::Inside,
            AttachError::SectionsSpent => Self::SectionsSpent,
            AttachError::NeedsDriver => Self::NeedsDriver,
            AttachError::LocalFull => Self::LocalFull,
            AttachError::NameTaken => Self::NameTaken,
            AttachError::NotFound => Self::NotFound,
            AttachError::NoSlot => Self::NoSlot,
            AttachError::Crowded => Self::Crowded,
            AttachError::HistoryFull => Self::HistoryFull,
        }
    }
}

impl From<DetachError> for RegistryError {
    fn from(error: DetachError) -> Self {
        match error {
            DetachError::NoCpu => Self::NoCpu,
            DetachError::Inside => Self::Inside,
            DetachError::NotFound => Self::NotFound,
        }
    }
}

impl From<DestroyError> for RegistryError {
    fn from(error: DestroyError) -> Self {
        match error {
            DestroyError::OtherRegistry => Self::OtherRegistry,
            DestroyError::Inside => Self::Inside,
            DestroyError::StillHeld(holder) => Self::StillHeld(holder),
        }
    }
}

impl From<SynchronizeError> for RegistryError {
    fn from(error: SynchronizeError) -> Self {
        match error {
            SynchronizeError::Inside => Self::Inside,
            SynchronizeError::Waiting(cpu) => Self::Waiting(cpu),
        }
    }
}

impl From<CpusError> for RegistryError {
    fn from(error: CpusError) -> Self {
        match error {
            CpusError::OtherRegistry => Self::OtherRegistry,
            CpusError::MissingCpu => Self::MissingCpu,
        }
    }
}

impl From<CloseError> for RegistryError {
    fn from(_: CloseError) -> Self {
        Self::StillOpen
    }
}

impl From<NameError> for RegistryError {
    fn from(_: NameError) -> Self {
        Self::BadName
    }
}

impl RegistryError {
    /// The number of the error in kupaldiz.h, or 0 of what is this crate's own.
    fn number(self) -> u32 {
        match self {
            Self::OtherRegistry | Self::NoCpu | Self::StillOpen => 0,
            Self::NoMemory => ffi::NO_MEMORY,
            Self::BadSettings => ffi::BAD_SETTINGS,
            Self::BadName => ffi::BAD_NAME,
            Self::NameTaken => ffi::NAME_TAKEN,
            Self::NoSlot => ffi::NO_SLOT,
            Self::Crowded => ffi::CROWDED,
            Self::HistoryFull => ffi::HISTORY_FULL,
            Self::NotFound => ffi::NOT_FOUND,
            Self::Inside => ffi::INSIDE,
            Self::SectionsSpent => ffi::SECTIONS_SPENT,
            Self::PassiveFull => ffi::PASSIVE_FULL,
            Self::LocalFull => ffi::LOCAL_FULL,
            Self::MissingCpu => ffi::MISSING_CPU,
            Self::TooDeep => ffi::TOO_DEEP,
            Self::NeedsDriver => ffi::NEEDS_DRIVER,
            Self::OtherLimits => ffi::OTHER_LIMITS,
            Self::StillHeld(_) => ffi::STILL_HELD,
            Self::Waiting(_) => ffi::WAITING,
        }
    }
}

impl fmt::Display for RegistryError {
    fn fmt(&self, f: &mut fmt::Formatter<'_>) -> fmt::Result {
        f.write_str(match self {
            Self::OtherRegistry => "the CPU is of another registry",
            Self::NoCpu => "the program has taken every CPU of the registry",
            Self::StillOpen => "the registry has another handle",
            Self::BadName => "a name has 1 to 16 bytes that aren't all 0",
            Self::StillHeld(holder) => return write!(f, "{}: {holder}", text(ffi::STILL_HELD)),
            Self::Waiting(cpu) => return Holder::Grace(*cpu).fmt(f),
            _ => text(self.number()),
        })
    }
}

/// Each is shown as the `RegistryError` that it becomes.
macro_rules! shown {
    ($($error:ident)*) => {$(
        impl fmt::Display for $error {
            fn fmt(&self, f: &mut fmt::Formatter<'_>) -> fmt::Result {
                RegistryError::from(*self).fmt(f)
            }
        }

        impl Error for $error {}
    )*};
}

shown!(OpenError LookUpError AttachError DetachError DestroyError);
shown!(SynchronizeError CpusError CloseError);

impl Error for RegistryError {}

/// What a call of C returned, as a result.
#[inline]
pub(crate) fn checked(answer: u32) -> Result<(), u32> {
    if answer == ffi::DONE {
        Ok(())
    } else {
        Err(answer)
    }
}

#[cold]
pub(crate) fn unexpected(answer: u32) -> ! {
    panic!("the archive answered {answer}: {}", text(answer))
}

/// What an answer says, in the archive's words.
pub(crate) fn text(answer: u32) -> &'static str {
    // SAFETY: any number may be asked for, on any thread.
    let text = unsafe { ffi::kupaldiz_strerror(answer) };
    // SAFETY: kupaldiz.h says of it that it is never NULL and never freed.
    unsafe { ffi::string(text) }
}

/// The error of a call that takes a value, together with that value, unchanged: what an attach was
/// given, the [`Retired`](crate::Retired) of a destroy, or the registry of a close. It will have no
/// other field, so a caller may take it apart.
///
/// `?` converts it to a [`RegistryError`], and drops what was given. Where the error must be `Send`
/// and `'static`, as a boxed one, `RegistryError::from` converts it first.
#[derive(Clone, Copy, PartialEq, Eq, Hash)]
pub struct Refused<E, G> {
    /// The error.
    pub refusal: E,
    /// What was given.
    pub given: G,
}

/// An error's text, beside what was given.
pub trait ShownWith<G>: Error {
    /// Writes it.
    fn show(&self, _given: &G, f: &mut fmt::Formatter<'_>) -> fmt::Result {
        fmt::Display::fmt(self, f)
    }
}

impl<G> ShownWith<G> for AttachError {}

impl<G> ShownWith<G> for CloseError {}

impl<E: fmt::Debug, G> fmt::Debug for Refused<E, G> {
    fn fmt(&self, f: &mut fmt::Formatter<'_>) -> fmt::Result {
        f.debug_struct("Refused").field("refusal", &self.refusal).finish_non_exhaustive()
    }
}

impl<E: ShownWith<G>, G> fmt::Display for Refused<E, G> {
    fn fmt(&self, f: &mut fmt::Formatter<'_>) -> fmt::Result {
        self.refusal.show(&self.given, f)
    }
}

impl<E: ShownWith<G> + 'static, G> Error for Refused<E, G> {
    /// The source of the error, whose own text this one's is.
    fn source(&self) -> Option<&(dyn Error + 'static)> {
        self.refusal.source()
    }
}

impl<E: Into<RegistryError>, G> From<Refused<E, G>> for RegistryError {
    /// Drops what was given.
    fn from(refused: Refused<E, G>) -> RegistryError {
        refused.refusal.into()
    }
}

#[cfg(test)]
mod tests {
    use super::{text, AttachError, LookUpError, OpenError, RegistryError};

    /// Those too that no other test meets, as `NoMemory`.
    #[test]
    fn an_error_has_the_text_of_its_answer() {
        let has = |error: RegistryError, answer| assert_eq!(error.to_string(), text(answer));
        [1, 2, 78].iter().for_each(|answer| has(OpenError::of(*answer).into(), *answer));
        [6, 18, 8, 10, 13, 1]
            .iter()
            .for_each(|answer| has(LookUpError::of(*answer).into(), *answer));
        [7, 8, 19, 13, 3, 6, 4, 5]
            .iter()
            .for_each(|answer| has(AttachError::of(*answer).into(), *answer));
    }
}
