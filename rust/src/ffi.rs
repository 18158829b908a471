//! kupaldiz.h for Rust. calls.rs has its calls and constants, and a tool makes that of it. What the
//! caller must keep is written there; the modules above say how they keep it.

use crate::settings::Limits;
use std::ffi::{c_void, CStr};
use std::marker::PhantomData;
use std::mem;
use std::os::raw::{c_char, c_uint};
use std::ptr;

include!(concat!(env!("OUT_DIR"), "/limits.rs"));

macro_rules! constants {
    ($($name:ident = $number:literal;)*) => {$(
        #[allow(dead_code)]
        pub const $name: c_uint = $number;
    )*};
}

macro_rules! calls {
    ($(fn $name:ident($($given:ident: $type:ty),*) $(-> $result:ty)?;)*) => {
        #[allow(dead_code)]
        extern "C" {
            $(pub fn $name($($given: $type),*) $(-> $result)?;)*
        }
    };
}

use calls as texts;

include!("calls.rs");

/// A handle: the one word is never looked into, and the value is moved and never copied.
#[repr(C)]
pub struct Handle<Of> {
    at: *mut c_void,
    of: PhantomData<Of>,
}

/// What a handle is of.
pub enum OfKeeper {}
pub enum OfCpu {}

pub type Keeper = Handle<OfKeeper>;
pub type Cpu = Handle<OfCpu>;

impl<Of> Handle<Of> {
    pub const EMPTY: Handle<Of> = Handle { at: ptr::null_mut(), of: PhantomData };

    pub fn is_empty(&self) -> bool {
        self.at.is_null()
    }
}

impl Cpu {
    /// Whether the CPU has a passive reference to the entry with that number.
    pub fn holds(&self, number: u64) -> bool {
        let mut held = false;
        // SAFETY: a handle isn't `Sync`, so this thread alone has the CPU. With an empty handle the
        // call returns an error, and writes nothing.
        unsafe { kupaldiz_held(self, number, &mut held) };
        held
    }
}

// SAFETY: kupaldiz(7) says that a handle goes to another thread by a lock, or by the start or the
// join of a thread; in Rust a value goes by nothing less.
unsafe impl<Of> Send for Handle<Of> {}

#[repr(C)]
#[derive(Clone, Copy, Debug, PartialEq, Eq, Hash, PartialOrd, Ord, Default)]
pub struct Name {
    pub high: u64,
    pub low: u64,
}

#[repr(C)]
pub struct Settings {
    pub cpus: u64,
    pub slots: u64,
    pub change_limit: u64,
    pub section_limit: u64,
    pub passive_limit: u64,
    pub count_limit: u64,
}

#[repr(C)]
#[derive(Clone, Copy, Default)]
pub struct Entry {
    pub number: u64,
    pub slot: u64,
    pub kind: c_uint,
    pub name: Name,
    pub value: u64,
}

#[repr(C)]
#[derive(Default)]
pub struct Passive {
    pub entry: Entry,
    pub cpu: u64,
}

/// A local reference. It is moved and never copied, but by `kupaldiz_copy_local`.
#[repr(C)]
pub struct Local {
    pub entry: Entry,
    at: [*mut c_void; 2],
}

impl Local {
    pub fn empty() -> Local {
        Local { entry: Entry::default(), at: [ptr::null_mut(); 2] }
    }

    pub fn is_empty(&self) -> bool {
        self.entry.number == 0
    }
}

// SAFETY: as of a handle.
unsafe impl Send for Local {}

#[repr(C)]
#[derive(Clone, Copy, Default)]
pub struct Met {
    pub stage: c_uint,
    pub what: u64,
}

#[repr(C)]
#[derive(Clone, Copy)]
pub struct Balance {
    pub number: u64,
    pub slot: u64,
    pub held: i64,
    pub locals: [i64; MOST_CPUS],
    pub total: i64,
}

#[repr(C)]
pub struct Wait {
    snapshots: [u64; MOST_CPUS],
    retired: [u64; MOST_SLOTS],
    begun: u64,
    seen: [bool; MOST_CPUS],
}

/// Whether a type has so many words of 64 bits, as in C.
#[allow(dead_code)] // The oldest compiler doesn't look into the constants below.
const fn has_words<X>(words: usize) -> bool {
    mem::size_of::<X>() == 8 * words
}

const _: () = assert!(has_words::<Keeper>(1) && has_words::<Cpu>(1) && has_words::<Name>(2));
const _: () = assert!(has_words::<Entry>(6) && has_words::<Passive>(7) && has_words::<Local>(8));
const _: () = assert!(has_words::<Settings>(6) && has_words::<Limits>(6) && has_words::<Met>(2));
const _: () = assert!(has_words::<Balance>(4 + MOST_CPUS));
const _: () = assert!(has_words::<Wait>(MOST_CPUS + MOST_SLOTS + 1 + (MOST_CPUS + 7) / 8));

impl Balance {
    /// Not written yet.
    pub const EMPTY: Balance =
        Balance { number: 0, slot: 0, held: 0, locals: [0; MOST_CPUS], total: 0 };
}

impl Wait {
    /// Not begun yet.
    pub const EMPTY: Wait = Wait {
        snapshots: [0; MOST_CPUS],
        retired: [0; MOST_SLOTS],
        begun: 0,
        seen: [false; MOST_CPUS],
    };
}

/// A string of the library's.
/// Safety: a text of C lies there, which ends with a zero byte and is never written to or freed.
pub unsafe fn string(at: *const c_char) -> &'static str {
    // SAFETY: as the caller says.
    unsafe { CStr::from_ptr(at) }.to_str().unwrap_or("")
}
