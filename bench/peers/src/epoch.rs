//! Sections of crossbeam-epoch: a section is a pinned thread, and an entry that was taken out waits for the epoch to advance.
//! Its pointers are followed by unsafe calls alone, so here an atomic place says which of four lists is the one to read: a lookup makes
//! one dependent load more than by a pointer.

use crate::contender::Contender;
use crate::list::{Key, List};
use crossbeam_epoch::{pin, Guard};
use std::sync::atomic::{AtomicBool, AtomicUsize, Ordering::*};
use std::sync::Arc;

/// The bits of a list's place.
const OTHER: usize = 1;
const WHOLE: usize = 2;

pub struct Epoch {
    /// Bit 0 of a place says which of two entries is the newest, and bit 1 whether the list has it.
    lists: [List; 4],
    current: AtomicUsize,
}

impl Epoch {
    pub fn new(entries: usize) -> Epoch {
        let whole = List::new(entries);
        let renewed = whole.renewed();
        Epoch {
            lists: [whole.shorter(), renewed.shorter(), whole, renewed],
            current: AtomicUsize::new(WHOLE),
        }
    }
}

impl Contender for Epoch {
    type Section<'a> = Guard;

    #[inline(always)]
    fn enter(&self) -> Guard {
        pin()
    }

    #[inline(always)]
    fn find(&self, _section: &Guard, key: &Key) -> Option<u64> {
        self.lists[self.current.load(Acquire) & (WHOLE | OTHER)].value(key)
    }

    fn replace(&self) {
        self.current.fetch_xor(WHOLE, SeqCst);
        self.perform();
        self.current.fetch_xor(WHOLE, SeqCst);
    }

    fn exchange(&self) {
        self.current.fetch_xor(OTHER, SeqCst);
        self.perform();
    }

    /// Defers a store, and flushes until it was made: by then the epoch has advanced past all sections that were open.
    fn perform(&self) -> Option<()> {
        let made = Arc::new(AtomicBool::new(false));
        let flag = made.clone();
        let guard = pin();
        guard.defer(move || flag.store(true, SeqCst));
        guard.flush();
        drop(guard);
        while !made.load(SeqCst) {
            pin().flush();
            std::thread::yield_now();
        }
        Some(())
    }
}
