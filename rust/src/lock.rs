//! The crate's locks, which are those of the standard library.
#![allow(unknown_lints, unexpected_cfgs)]

use std::hint;
pub use std::sync::{Mutex, MutexGuard};
use std::sync::{PoisonError, TryLockError};

/// A lock's value. Nothing panics under our locks, and if it did, what they guard would be whole.
pub fn locked<T>(mutex: &Mutex<T>) -> MutexGuard<'_, T> {
    // The thread sanitizer sees what is inlined here, and not how the standard library waits:
    // tests/sanitized.sh.
    while cfg!(kupaldiz_edges) {
        match try_locked(mutex) {
            Some(guard) => return guard,
            None => hint::spin_loop(),
        }
    }
    mutex.lock().unwrap_or_else(PoisonError::into_inner)
}

/// The same, if nobody has the lock.
pub fn try_locked<T>(mutex: &Mutex<T>) -> Option<MutexGuard<'_, T>> {
    match mutex.try_lock() {
        Err(TryLockError::WouldBlock) => None,
        Err(TryLockError::Poisoned(poisoned)) => Some(poisoned.into_inner()),
        Ok(guard) => Some(guard),
    }
}

pub fn locked_mut<T>(mutex: &mut Mutex<T>) -> &mut T {
    mutex.get_mut().unwrap_or_else(PoisonError::into_inner)
}
