#![allow(unknown_lints, unexpected_cfgs, unused_imports)]
//! Who is in which call of the archive. No sanitizer looks into it, so what kupaldiz.h asks of its
//! caller is watched here: one call at a time uses a handle, and so a keeper is used under a lock,
//! and a CPU by one thread at a time.
//!
//! The linker leads the calls of src/calls.rs here, if RUSTFLAGS has what tests/watching.sh prints.
//! Otherwise nothing is watched. A call whose handle is in use ends the program.

use std::cell::Cell;
use std::ffi::c_void;
use std::io::{self, Write};
use std::os::raw::{c_char, c_uint};
use std::process;
use std::sync::atomic::{AtomicU32, Ordering};
use std::sync::{Mutex, PoisonError};
use std::thread;
use std::time::Duration;

/// What the handles point to that are in use.
static BUSY: Mutex<Vec<usize>> = Mutex::new(Vec::new());

/// How many calls there were.
static CALLS: AtomicU32 = AtomicU32::new(0);

thread_local! {
    static LOCALS: Cell<i64> = const { Cell::new(0) };
    static CLOSED: Cell<usize> = const { Cell::new(0) };
    static IS_WITHIN: Cell<bool> = const { Cell::new(false) };
}

/// How many calls were watched so far.
pub fn calls() -> u32 {
    CALLS.load(Ordering::Relaxed)
}

/// How many local references this thread has acquired and not released.
pub fn locals() -> i64 {
    LOCALS.with(Cell::get)
}

/// How many CPUs and keepers this thread has closed.
pub fn closed() -> usize {
    CLOSED.with(Cell::get)
}

/// The handles of a call, for as long as it lasts.
pub struct InUse {
    handles: Vec<usize>,
}

impl InUse {
    /// Takes those that aren't empty, or ends the program where one is in use.
    pub fn take(call: &str, mut handles: Vec<usize>) -> InUse {
        handles.retain(|at| *at != 0);
        let mut busy = BUSY.lock().unwrap_or_else(PoisonError::into_inner);
        if busy.capacity() == 0 {
            busy.reserve(64); // Once, so that it grows while no test counts its memory.
        }
        for handle in &handles {
            if busy.contains(handle) {
                // Not by a macro, whose text a test keeps to itself.
                let _ = writeln!(io::stderr(), "{call}: a handle is in use by another call");
                process::abort();
            }
            busy.push(*handle);
        }
        drop(busy);
        // Now and then a call lasts, so that another one which shouldn't be made meets it.
        if CALLS.fetch_add(1, Ordering::Relaxed) % 128 == 0 {
            thread::sleep(Duration::from_micros(20));
        }
        InUse { handles }
    }
}

impl Drop for InUse {
    fn drop(&mut self) {
        let mut busy = BUSY.lock().unwrap_or_else(PoisonError::into_inner);
        busy.retain(|handle| !self.handles.contains(handle));
    }
}

/// The order of memory that a registry makes between its callers, told to the thread sanitizer,
/// which sees no atomic step of the archive: what was written before an attach is seen by whoever
/// finds an entry, and the last use before an exit or a release comes before the return that says
/// that an entry is freed. These two edges and no other; KUPALDIZ_WITHOUT says `find` or `freed`,
/// and then that edge is left out. tests/sanitized.sh has the runs.
#[cfg(all(kupaldiz_watched, kupaldiz_edges))]
mod edges {
    use std::env;
    use std::ffi::c_void;
    use std::ptr::addr_of;

    extern "C" {
        fn __tsan_acquire(at: *mut c_void);
        fn __tsan_release(at: *mut c_void);
    }

    static ATTACHED: u8 = 0;
    static LET_GO: u8 = 0;

    fn is_without(edge: &str) -> bool {
        env::var_os("KUPALDIZ_WITHOUT").map_or(false, |without| without == edge)
    }

    pub fn before(call: &str) {
        let at = match call {
            "attach" | "attach_iface" | "replace" | "replace_iface" => addr_of!(ATTACHED),
            "exit" | "release" | "try_release_local" | "release_local_locked" => addr_of!(LET_GO),
            _ => return,
        };
        // SAFETY: it is an address of memory that nobody else uses.
        unsafe { __tsan_release(at as *mut c_void) };
    }

    /// After one that is done.
    pub fn after(call: &str) {
        let at = match call {
            "find" | "walk" | "get" | "enter_find" | "get_local" if !is_without("find") => {
                addr_of!(ATTACHED)
            }
            "destroy" if !is_without("freed") => addr_of!(LET_GO),
            _ => return,
        };
        // SAFETY: as above.
        unsafe { __tsan_acquire(at as *mut c_void) };
    }
}

#[cfg(not(all(kupaldiz_watched, kupaldiz_edges)))]
#[allow(dead_code)]
mod edges {
    pub fn before(_: &str) {}
    pub fn after(_: &str) {}
}

/// What is watched of what a call is given.
trait Given: Copy {
    /// What a handle points to.
    fn handle(self) -> usize {
        0
    }
    /// Whether it is a local reference that isn't empty.
    fn is_local(self) -> bool {
        false
    }
    /// How many.
    fn count(self) -> usize {
        0
    }
    /// How many handles aren't empty, of so many CPUs, or of a keeper.
    fn open(self, _count: usize) -> usize {
        0
    }
}

impl Given for u32 {}
impl Given for u64 {}
impl Given for usize {
    fn count(self) -> usize {
        self
    }
}
impl<X> Given for *const X
where
    *mut X: Given,
{
    fn handle(self) -> usize {
        (self as *mut X).handle()
    }
}

#[repr(C)]
pub struct Keeper(usize);
#[repr(C)]
pub struct Cpu(usize);
/// Its entry's number is first.
#[repr(C)]
pub struct Local([u64; 8]);

impl Given for *mut Keeper {
    fn handle(self) -> usize {
        // SAFETY: where it isn't NULL, it is the place of a handle, which this thread uses.
        unsafe { self.as_ref() }.map_or(0, |handle| handle.0)
    }
    fn open(self, _count: usize) -> usize {
        usize::from(self.handle() != 0)
    }
}

impl Given for *mut Cpu {
    fn handle(self) -> usize {
        // SAFETY: as above.
        unsafe { self.as_ref() }.map_or(0, |handle| handle.0)
    }
    fn open(self, count: usize) -> usize {
        // SAFETY: so many handles lie there.
        (0..count).filter(|place| unsafe { self.add(*place) }.handle() != 0).count()
    }
}

impl Given for *mut Local {
    fn is_local(self) -> bool {
        // SAFETY: as above.
        unsafe { self.as_ref() }.map_or(false, |local| local.0[0] != 0)
    }
}

/// Types of which nothing is watched.
macro_rules! unwatched {
    ($($name:ident)*) => {$(
        #[allow(non_camel_case_types, dead_code)]
        pub enum $name {}
        impl Given for *mut $name {}
    )*};
}

unwatched!(Name Settings Entry Passive Met Wait Balance);
impl Given for *mut c_void {}
impl Given for *mut bool {}
impl Given for *mut u64 {}
impl Given for *mut usize {}
impl Given for *mut c_char {}

macro_rules! constants {
    ($($any:tt)*) => {};
}

use constants as texts;

/// Wraps each call.
macro_rules! calls {
    ($(fn $call:ident($($name:ident: $type:ty),*) -> c_uint;)*) => {$(
        /// Safety: as of the call that it wraps.
        #[cfg(kupaldiz_watched)]
        #[export_name = concat!("__wrap_", stringify!($call))]
        #[deny(unsafe_op_in_unsafe_fn)]
        pub unsafe extern "C" fn $call($($name: $type),*) -> c_uint {
            extern "C" {
                #[link_name = concat!("__real_", stringify!($call))]
                fn real($($name: $type),*) -> c_uint;
            }
            // An open has no handles yet. Some linkers also lead here what the archive calls
            // itself.
            let is_open = stringify!($call) == "kupaldiz_open";
            if is_open || IS_WITHIN.with(|within| within.replace(true)) {
                // SAFETY: the caller guarantees it.
                return unsafe { real($($name),*) };
            }
            let (call, before) = (&stringify!($call)[9..], 0 $(+ i64::from($name.is_local()))*);
            let (is_close, count) = (call == "close", 0 $(+ $name.count())*);
            let closes = if is_close { 0 $(+ $name.open(count))* } else { 0 };
            let in_use = || InUse::take(call, vec![$($name.handle()),*]);
            // What a close frees may be another thread's before it is back.
            let _in_use = (!cfg!(kupaldiz_edges)).then(in_use).filter(|_| !is_close);
            edges::before(call);
            // SAFETY: the caller guarantees it.
            let answer = unsafe { real($($name),*) };
            if answer == 0 {
                edges::after(call);
                CLOSED.with(|closed| closed.set(closed.get() + closes));
            }
            LOCALS.with(|all| all.set(all.get() - before $(+ i64::from($name.is_local()))*));
            IS_WITHIN.with(|within| within.set(false));
            answer
        }
    )*};
}

include!("../../src/calls.rs");
