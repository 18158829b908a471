//! What an entry carries: a value of the caller's in a block on the heap, whose address is the
//! entry's `value` in C.

use crate::ffi;
use crate::name::{Key, Name};
use crate::values::{Entry, Kind};
use std::mem::{ManuallyDrop, MaybeUninit};
use std::ptr;

#[repr(C)]
struct Block<T> {
    /// First, so that it has the block's address.
    value: T,
    /// The entry, once it is attached. Only whoever holds the interlock, or has the token of the
    /// retired entry, looks at it.
    plain: MaybeUninit<Plain>,
}

/// The address of a value that was attached. C keeps it in the entry; what is found and each
/// reference has a copy.
///
/// An attach makes the block, before any lookup can find the entry. The turn that frees the entry's
/// slot, or the closing of the registry, returns it to Rust, once. Nothing writes the value in
/// between: every reference to it is a shared one.
pub struct Carried<T> {
    at: *mut Block<T>,
}

// SAFETY: whoever has the address may share the value with other threads, and take it back on a
// thread that didn't attach it, as with `Arc`.
unsafe impl<T: Send + Sync> Send for Carried<T> {}
// SAFETY: as for `Send`.
unsafe impl<T: Send + Sync> Sync for Carried<T> {}

// As `derive` would alone where the `T` is copied.
impl<T> Clone for Carried<T> {
    #[inline]
    fn clone(&self) -> Carried<T> {
        *self
    }
}

impl<T> Copy for Carried<T> {}

impl<T> Carried<T> {
    fn new(value: T) -> Carried<T> {
        let plain = MaybeUninit::uninit();
        Carried { at: Box::into_raw(Box::new(Block { value, plain })) }
    }

    /// Notes the entry that was attached.
    /// Safety: it was attached with the value, and the interlock has been held since.
    pub unsafe fn note(self, plain: Plain) {
        // SAFETY: the address is that of a block.
        let place = unsafe { ptr::addr_of_mut!((*self.at).plain) };
        // SAFETY: nobody looks at it before the interlock is let go: whoever found the entry
        // meanwhile reads the value beside it alone.
        unsafe { place.write(MaybeUninit::new(plain)) };
    }

    /// The entry that carries it.
    /// Safety: it was noted before, as this thread knows it, and the value isn't taken.
    #[inline]
    pub unsafe fn plain(self) -> Plain {
        // SAFETY: the address is that of a block.
        let place = unsafe { ptr::addr_of!((*self.at).plain) };
        // SAFETY: nobody writes it any more, since the entry was noted.
        let plain = unsafe { place.read() };
        // SAFETY: it was noted.
        unsafe { plain.assume_init() }
    }

    /// The address, as the `value` of an entry. The cast exposes it, so that `of_word` may have it
    /// back.
    #[inline]
    fn word(self) -> u64 {
        self.at as usize as u64
    }

    /// The address that an entry's `value` is.
    #[inline]
    fn of_word(word: u64) -> Carried<T> {
        Carried { at: word as usize as *mut Block<T> }
    }

    /// What the entry carries.
    /// Safety: something holds the entry for as long as the reference lives: an open section that
    /// found it, or a reference that was acquired to it.
    #[inline]
    pub unsafe fn value<'a>(self) -> &'a T {
        // SAFETY: the address is that of a block: each entry of a registry whose entries carry a
        // `T` was attached with one.
        let value = unsafe { ptr::addr_of!((*self.at).value) };
        // SAFETY: nobody takes nor writes the value as long as something holds the entry.
        unsafe { &*value }
    }

    /// The value, out of its block, which is freed.
    /// Safety: nobody has a reference to it nor will get one, and it is taken once.
    pub unsafe fn take(self) -> T {
        // SAFETY: the address is that of a block, and the caller is the last who uses it.
        unsafe { Box::from_raw(self.at) }.value
    }
}

/// A value in its block that no entry carries yet, or none after an attach that failed. Dropping it
/// drops the value.
pub struct Loose<T> {
    carried: Carried<T>,
}

impl<T> Loose<T> {
    pub fn new(value: T) -> Loose<T> {
        Loose { carried: Carried::new(value) }
    }

    /// Its address, for the attach.
    pub fn word(&self) -> u64 {
        self.carried.word()
    }

    /// An entry was attached that carries it.
    pub fn attached(self) -> Carried<T> {
        ManuallyDrop::new(self).carried
    }

    pub fn into_value(self) -> T {
        // SAFETY: no entry carries it, so nobody has a reference to it.
        unsafe { self.attached().take() }
    }
}

impl<T> Drop for Loose<T> {
    fn drop(&mut self) {
        // SAFETY: as for `into_value`.
        drop(unsafe { self.carried.take() });
    }
}

/// An entry as C has it, without what it carries. It is shorter than an [`Entry`], whose name has
/// its text as well.
#[derive(Clone, Copy)]
pub struct Plain {
    pub number: u64,
    name: ffi::Name,
    slot: u8,
    kind: Kind,
    /// The ticket of a reference's note, or 0.
    pub ticket: u32,
}

impl Plain {
    #[inline]
    pub fn slot(&self) -> usize {
        usize::from(self.slot)
    }

    pub fn key(&self) -> Key {
        Key { kind: self.kind, words: self.name }
    }

    /// As an entry of this registry.
    #[inline]
    pub fn entry(&self, registry: u64) -> Entry {
        Entry {
            number: self.number,
            slot: self.slot,
            kind: self.kind,
            name: Name::of_words(self.name),
            registry,
        }
    }
}

/// An entry as C wrote it, with the address of what it carries.
pub struct Record<T> {
    pub plain: Plain,
    pub carried: Carried<T>,
}

impl<T> Clone for Record<T> {
    #[inline]
    fn clone(&self) -> Record<T> {
        *self
    }
}

impl<T> Copy for Record<T> {}

impl<T> Record<T> {
    #[inline]
    pub fn of(entry: &ffi::Entry) -> Record<T> {
        let plain = Plain {
            number: entry.number,
            name: entry.name,
            slot: entry.slot as u8,
            kind: Kind::of(entry.kind),
            ticket: 0,
        };
        Record { plain, carried: Carried::of_word(entry.value) }
    }

    #[inline]
    pub fn to_c(self) -> ffi::Entry {
        let Plain { number, name, slot, kind, .. } = self.plain;
        ffi::Entry {
            number,
            slot: u64::from(slot),
            kind: kind.number(),
            name,
            value: self.carried.word(),
        }
    }

    /// The record that a call writes where it is done; or the call's answer.
    /// Safety: if the call returns `DONE`, it has written the entry, which is of a registry whose
    /// entries carry a `T`.
    #[inline]
    pub unsafe fn written(call: impl FnOnce(*mut ffi::Entry) -> u32) -> Result<Record<T>, u32> {
        let mut entry = MaybeUninit::uninit();
        match call(entry.as_mut_ptr()) {
            // SAFETY: the caller says so.
            ffi::DONE => Ok(Record::of(unsafe { entry.assume_init_ref() })),
            answer => Err(answer),
        }
    }
}
