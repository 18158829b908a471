//! Local references that were dropped where no CPU was at hand.
//!
//! A CPU alone can release a reference to a live entry, and a drop has none. So what is dropped
//! lies in a basket, a list for each slot. A call with a CPU that finds a list filled takes it
//! whole and releases what was in it. A turn of the work on a retired entry gives up the list of
//! that entry.

use crate::ffi;
use crate::lock::{locked, Mutex};
use std::iter::Chain;
use std::mem;
use std::option;
use std::sync::atomic::{AtomicU64, Ordering};
use std::vec;

/// What was dropped that is to the entry in a slot. While a reference lies here the entry keeps its
/// slot; the closing of the registry empties it. On cache lines of its own.
#[derive(Default)]
#[repr(align(128))]
struct Basket(Mutex<Dropped>);

/// The first needs no memory.
#[derive(Default)]
pub struct Dropped {
    first: Option<ffi::Local>,
    rest: Vec<ffi::Local>,
}

impl Dropped {
    /// Lays one more in, or gives it back where there is no memory for it.
    fn lay(&mut self, local: ffi::Local) -> Result<(), ffi::Local> {
        if self.first.is_none() {
            self.first = Some(local);
        } else if self.rest.try_reserve(1).is_ok() {
            self.rest.push(local);
        } else {
            return Err(local);
        }
        Ok(())
    }

    pub fn len(&self) -> usize {
        usize::from(self.first.is_some()) + self.rest.len()
    }
}

impl IntoIterator for Dropped {
    type Item = ffi::Local;
    type IntoIter = Chain<option::IntoIter<ffi::Local>, vec::IntoIter<ffi::Local>>;

    fn into_iter(self) -> Self::IntoIter {
        self.first.into_iter().chain(self.rest)
    }
}

/// A bit for each slot whose basket has something in it, or had a little while ago. On cache lines
/// of its own, which each acquire and release reads.
#[derive(Default)]
#[repr(align(128))]
struct Filled {
    words: [AtomicU64; (ffi::MOST_SLOTS + 63) / 64],
}

/// The baskets of all slots.
pub struct Baskets {
    of_slot: Vec<Basket>,
    filled: Filled,
}

impl Baskets {
    pub fn new(slots: usize) -> Baskets {
        Baskets {
            of_slot: (0..slots).map(|_| Basket::default()).collect(),
            filled: Filled::default(),
        }
    }

    /// Lays a reference in. Where there is no memory for it, it is held for good: nobody is misled.
    pub fn lay(&self, local: ffi::Local) {
        let slot = local.entry.slot as usize;
        let mut dropped = locked(&self.of_slot[slot].0);
        if let Err(mut local) = dropped.lay(local) {
            drop(dropped);
            // SAFETY: this is the only use of the reference's handle. What it counts stays counted.
            unsafe { ffi::kupaldiz_forget_local(&mut local) };
        } else if dropped.len() == 1 {
            // As `Tasks::poll` needs it.
            self.filled.words[slot / 64].fetch_or(1 << (slot % 64), Ordering::SeqCst);
        }
    }

    /// Takes all out that are to the entry in this slot.
    #[cold]
    pub fn take(&self, slot: usize) -> Dropped {
        let mut dropped = locked(&self.of_slot[slot].0);
        self.filled.words[slot / 64].fetch_and(!(1 << (slot % 64)), Ordering::Relaxed);
        mem::take(&mut *dropped)
    }

    /// Whether there is any to the entry in this slot: at least one that was dropped before, as
    /// this thread knows it.
    #[inline]
    pub fn has(&self, slot: usize) -> bool {
        self.filled.words[slot / 64].load(Ordering::Relaxed) >> (slot % 64) & 1 != 0
    }

    #[inline]
    pub fn has_any(&self) -> bool {
        self.filled.words.iter().any(|word| word.load(Ordering::Relaxed) != 0)
    }

    pub fn slots(&self) -> impl Iterator<Item = usize> + '_ {
        (0..self.of_slot.len()).filter(move |slot| self.has(*slot))
    }

    pub fn total(&self) -> usize {
        self.slots().map(|slot| locked(&self.of_slot[slot].0).len()).sum()
    }
}

#[cfg(test)]
mod tests {
    use super::Baskets;
    use crate::ffi;

    /// Also those of the next words of bits.
    #[test]
    fn each_slot_has_a_list_that_is_taken_whole() {
        let baskets = Baskets::new(ffi::MOST_SLOTS);
        for slot in 0..ffi::MOST_SLOTS {
            assert!(!baskets.has_any());
            let lay = |_| {
                let mut local = ffi::Local::empty();
                local.entry.slot = slot as u64;
                baskets.lay(local);
            };
            (0..100).for_each(lay);
            assert!(
                baskets.has(slot)
                    && !baskets.has((slot + 1) % ffi::MOST_SLOTS)
                    && baskets.has_any()
            );
            assert_eq!((baskets.slots().collect::<Vec<_>>(), baskets.total()), (vec![slot], 100));
            assert_eq!((baskets.take(slot).len(), baskets.total()), (100, 0));
        }
        assert!(!baskets.has_any());
    }
}
