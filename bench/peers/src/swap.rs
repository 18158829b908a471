//! Sections of arc-swap: a section holds the whole list as it was, and an entry that was taken out waits until nobody holds its list.

use crate::contender::Contender;
use crate::list::{Key, List};
use arc_swap::{ArcSwap, Guard};
use std::sync::Arc;

pub struct Swap {
    list: ArcSwap<List>,
}

impl Swap {
    pub fn new(entries: usize) -> Swap {
        Swap {
            list: ArcSwap::from_pointee(List::new(entries)),
        }
    }
}

impl Swap {
    /// Puts this list in the present one's place, and waits until nobody else holds that one, which it returns.
    fn put(&self, list: List) -> Arc<List> {
        let old = self.list.swap(Arc::new(list));
        while Arc::strong_count(&old) > 1 {
            std::thread::yield_now();
        }
        old
    }
}

impl Contender for Swap {
    type Section<'a> = Guard<Arc<List>>;

    #[inline(always)]
    fn enter(&self) -> Guard<Arc<List>> {
        self.list.load()
    }

    #[inline(always)]
    fn find(&self, section: &Guard<Arc<List>>, key: &Key) -> Option<u64> {
        section.value(key)
    }

    fn replace(&self) {
        let shorter = self.list.load().shorter();
        let whole = self.put(shorter);
        self.list.store(whole);
    }

    fn exchange(&self) {
        let renewed = self.list.load().renewed();
        self.put(renewed);
    }

    /// It has no such call.
    fn perform(&self) -> Option<()> {
        None
    }
}
