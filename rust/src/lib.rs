//! A small table of named entries, such as interfaces, drivers or plug-ins, that many threads read
//! without a lock. Each entry carries a value of yours.
//!
//! A lock or reference count that every CPU writes bounces its cache line among all of them. Here a
//! lookup writes one word of its own CPU when it begins and when it ends. (A CPU remembers what it
//! found: of that [`Cpu::look_up`] writes none, and [`Cpu::get`] only the word that counts its
//! reference.) The thread that removes an entry unlinks it, and reads each CPU's word until that
//! has changed or says that the CPU is outside: no lookup that began afterwards can have found the
//! entry. Then it reads the references, which are counted on the CPU that acquires them. Only after
//! that is the entry freed: its slot is reused, and its `T` is returned.
//!
//! # The terms
//!
//! - An [`Entry`] is live from its attach to its detach or its replacement, and then [`Retired`]
//!   until it is freed. It carries a `T`: one type for all entries of a registry, such as an
//!   `enum`, a `Box<dyn Driver>` for plug-ins, or `()`. Everything that holds the entry derefs to
//!   it.
//! - A call names an entry by what a [`Key`] is made of: a text, a number, or a [`Name`] that was
//!   made before. Only who attaches interfaces, each on a driver, meets the [`Kind`]s.
//! - A [`Cpu`] is a handle, not a processor. One thread at a time uses it. The calls of a
//!   [`Registry`] choose one themselves. A [`CpuPool`] lends CPUs to more threads.
//! - A [`Section`] is open on a CPU while it looks entries up. A [`PassiveRef`] holds an entry
//!   beyond the section, on one CPU. A [`LocalRef`] may be stored, cloned, and go to other threads.
//! - The interlock is the lock of a registry. Each change takes it, and each turn. A turn is one
//!   attempt to free a retired entry.
//!
//! # The calls
//!
//! | To | call |
//! |---|---|
//! | open | [`Registry::open`], with [`Settings`]; [`Registry::open_tracked`] or [`Table::open_tracked`] to see [who holds](Registry::holders) an entry |
//! | look up | [`Registry::get`] for a [`LocalRef`]; on a CPU of one's own [`Cpu::read`] for the entry with its section, and [`Cpu::get`] for a [`PassiveRef`] |
//! | look several up | [`Cpu::enter`], then [`Section::find`] or [`Section::entries`]; to hold one longer [`Found::acquire`] or [`Found::acquire_local`] |
//! | change | [`Registry::attach`], [`attach_iface`](Registry::attach_iface), [`detach`](Registry::detach), [`detach_entry`](Registry::detach_entry), [`replace`](Registry::replace), [`replace_iface`](Registry::replace_iface) |
//! | free | [`Retired::destroy`], or `.await`; [`Registry::retire`] and [`Registry::free_deferred`] return what is free by then |
//! | end | [`Registry::drain`], then [`Registry::close`], or drop all handles |
//! | have more than 255 entries | a [`Table`], which has these calls, and for a thread a [`TableThread`] |
//!
//! ```
//! use kupaldiz::{DestroyError, Found, Holder, Registry, Settings};
//!
//! let registry = Registry::open(Settings::new(2, 4)).unwrap();
//! registry.attach("wm", String::from("gigabit")).unwrap();
//!
//! let cpu = registry.cpu(0).unwrap();
//! let section = cpu.enter().unwrap();
//! let found = section.find("wm").unwrap();
//! let retired = registry.detach("wm").unwrap();
//! let held = retired.try_destroy().unwrap_err();
//! assert_eq!(held.refusal, DestroyError::StillHeld(Holder::Grace(0)));
//! assert_eq!(found.len(), 7);
//! let reference = Found::acquire(&found).unwrap();
//! section.exit();
//!
//! let held = held.given.try_destroy().unwrap_err();
//! assert_eq!(held.refusal, DestroyError::StillHeld(Holder::Passive(0)));
//! drop(reference);
//! assert_eq!(held.given.try_destroy().unwrap().value, "gigabit");
//! ```
//!
//! # The order of memory
//!
//! What was written before an attach or a replacement is visible to any CPU that finds the entry.
//! The last use of an entry's `T` comes before the `T` is returned.
//!
//! # What is dropped
//!
//! Dropping a section exits it, dropping a CPU returns it to its registry, and dropping a reference
//! releases it: a [`LocalRef`] [by a later call](LocalRef#dropped-without-a-cpu). Four types are
//! handles of a registry: [`Registry`], [`Cpu`], [`LocalRef`] and [`Retired`]. Dropping the last
//! one closes the registry, and drops the `T`s that are left. A `T` is dropped or returned once, on
//! the thread that makes the call:
//!
//! | You call | Who gets or drops the `T` |
//! |---|---|
//! | [`Registry::detach`], then [`Retired::destroy`] or `.await` | the call returns it as [`Freed::value`], or gives the [`Retired`] back in its error |
//! | [`Registry::retire`] | the call returns it if nothing holds the entry; else a later retire or [`Registry::free_deferred`] |
//! | [`Registry::detach`], and you drop the [`Retired`] | the drop, if nothing holds the entry; else one of these calls returns it later, or the drop of a later [`Retired`] drops it |
//! | nothing more, or no detach | the drop of the registry's last handle |
//!
//! A driver's `T` is returned or dropped only after those of its interfaces: as long as one of
//! these is in the registry, waits for its [`Retired`], or is being dropped by a call, the driver
//! is [still held](DestroyError::StillHeld). So a driver may carry a library, and an interface an
//! object whose drop is code of that library. What was returned is yours: drop it before the
//! library.
//!
//! # Your code in a call
//!
//! A call may drop others' `T`s, and wake others' tasks. It does so when it holds no lock and
//! nothing is half done, so that code may make any call. But under a lock that it takes, don't make
//! the call:
//!
//! | Code of yours | The calls that run it |
//! |---|---|
//! | the drop of a `T` | a drop of a [`Retired`] or of what has one, [`Retired::defer`]; what drops or spends a registry's last handle, such as a close or a destroy |
//! | a waker of a task that awaits a [`Retired`] | what lets its entry go: the exit of a section, a drop or a release of a reference, a lookup's end; a call that frees an interface, for the tasks of its driver; a call that releases local references that [were dropped](LocalRef#dropped-without-a-cpu), such as an attach or a detach, for the tasks of their entry; the drop of a [`Cpu`], or of the last [`Registry`], for all tasks |
//! | a waker of a task that awaits a CPU | a drop of a [`LentCpu`] |
//!
//! Otherwise a task is woken only if what held its entry is let go. If a waker panics, the call
//! that called it goes on, and so do the other tasks; only the panic's hook tells of it. If the
//! drop of a `T` panics, the call panics, once it has dropped the other `T`s.
//!
//! # What is forgotten
//!
//! Forgetting a guard or a handle, such as by [`mem::forget`](std::mem::forget), is never unsound:
//! no `T` is dropped that can still be used. But a destroy with [`Patience::Forever`] may never
//! return.
//!
//! | You forget | What happens |
//! |---|---|
//! | a [`Section`] or a [`ReadGuard`] | it stays open until its CPU is dropped, goes back to its pool, or [leaves](Cpu::leave). Until then nothing that is detached is freed, and changes on this CPU fail with `Inside` |
//! | a [`PassiveRef`] | its entry is never freed, and its `T` is never dropped, nor that of its driver. The registry can still close |
//! | a [`LocalRef`], or one of its clones | the same, and the registry never closes |
//! | a [`Cpu`], a [`Registry`] or a [`LentCpu`] | the registry never closes, and the pool has lost the CPU |
//! | a [`Retired`] | its `T` is never dropped, nor that of its driver, and the registry never closes. Its entry keeps its slot until an attach needs that |
//!
//! # What fails, and what panics
//!
//! Each kind of call has an error of its own, such as [`LookUpError`] or [`AttachError`], which `?`
//! converts to a [`RegistryError`]. If the call was given something, that comes back with the
//! error: [`Refused`]. Each call's comment lists its errors, in the order in which they are tested.
//! On an error nothing has changed, unless the comment says otherwise. Calls without a result don't
//! fail. If memory runs out, a dropped [`LocalRef`] [stays held](LocalRef#dropped-without-a-cpu).
//!
//! A call panics only if code of yours that it runs panics, such as the closure of a `map` or the
//! drop of a `T`, but not if a task's waker does; [`Name::from_static`] at run time, with a text
//! that is no name; [`CpuPool::lend`], if it would wait while this thread itself has a CPU of the
//! pool; and a [`Retired`] whose future has returned its value. (Some calls also assert that the
//! archive keeps to kupaldiz.h.) If a thread panics, unwinding drops its guards, as its ordinary
//! end does. No lock is poisoned. To call a plug-in under `catch_unwind`, wrap the closure in
//! `AssertUnwindSafe`.
//!
//! # Which types go to other threads
//!
//! Handles go to other threads and are shared by them if `T` is `Send` and `Sync`; but a [`Cpu`] is
//! used by one thread at a time, and guards, sections, [`PassiveRef`]s and [`LentCpu`]s stay on
//! theirs. `Sync`, since all CPUs share a `&T`. `Send`, since another thread than the one that
//! attached the `T` may get or drop it. If all handles stay on one thread, `T` needs neither.
//!
//! # More than the limits
//!
//! Only an attach and a replacement take room from [`Settings::changes`]. Once it is spent, open a
//! second registry, attach everything there, publish it in a lock, and retire what is in the first.
//! If `T` is an [`Arc`](std::sync::Arc), both carry the same objects.
//!
//! # What is proved
//!
//! The calls of kupaldiz.h that this crate makes are proved, in Rattle, except those that compare
//! the limits and say the library's version and the text of an error. Proved of every list of steps
//! of the protocol: no entry is freed while a section that may have found it, or a reference, holds
//! it. That a program in mid-run is in a state that such a list leads to is assumed
//! (docs/GUARANTEES.md of the repository). So is a caller that keeps the rules of kupaldiz.h.
//!
//! This crate isn't proved: it is tested. Some 90 blocks are `unsafe`: for the calls and the texts
//! that they return; for the way from an entry to the `T`, and to a part of it; and where its own
//! types move what they hold. Each says what makes it sound. A bug there can break memory safety.
//!
//! The compiler, or an error of the crate (`OtherRegistry`), stops all misuse that the C calls
//! can't check, except of three rules, which you must keep. It takes `unsafe` code to break them,
//! such as a call of `fork`, `sigaction` or `pthread_setcanceltype`; or the standard library's
//! deprecated `before_exec`, which is safe before the edition 2024. Dropping a guard or a handle
//! counts as a call:
//!
//! - No call is made from a signal handler.
//! - No call is made in the child after a fork with a handle that was opened before the fork.
//! - No call is made while asynchronous cancellation of the thread is enabled.

#![warn(missing_docs)]
#![deny(unsafe_op_in_unsafe_fn)]
#![deny(clippy::undocumented_unsafe_blocks, clippy::multiple_unsafe_ops_per_block)]

mod basket;
mod carried;
mod changes;
mod choice;
mod cpu;
mod error;
mod ffi;
mod foreign;
mod lock;
mod mapped;
mod name;
mod patience;
mod places;
mod pool;
mod references;
mod registry;
mod retired;
mod seats;
mod section;
mod settings;
mod shared;
mod table;
mod tasks;
mod values;

pub use cpu::Cpu;
pub use error::{AttachError, CloseError, CpusError, DestroyError, DetachError, LookUpError};
pub use error::{OpenError, Refused, RegistryError, SynchronizeError};
pub use mapped::Mapped;
pub use name::{Key, Name, NameError};
pub use patience::Patience;
pub use places::{Hold, Holders, Place};
pub use pool::{CpuPool, LentCpu};
pub use references::{LocalRef, Passive, PassiveRc, PassiveRef};
pub use registry::{Drained, Registry};
pub use retired::{Destroyed, Retired};
pub use section::{Entries, Found, ReadGuard, Section};
pub use settings::{version, Limits, Settings, LIMITS};
pub use table::{Table, TableThread};
pub use values::{Balance, Entry, Freed, Holder, Kind};
