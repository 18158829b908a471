//! The entries that are looked up: the drivers "d00", "d01" and so on, in a linked list, the newest first.

use std::sync::Arc;

pub const MOST_ENTRIES: usize = 255;
const DRIVER: u64 = 2;

/// What an entry is sought by. A name of up to 16 bytes is two big-endian words, filled up with zero bytes.
#[derive(Clone, Copy, PartialEq, Eq)]
pub struct Key {
    kind: u64,
    high: u64,
    low: u64,
}

impl Key {
    /// The key of an entry, by its place from 0.
    pub fn of(place: usize) -> Key {
        let (text, mut name) = (format!("d{place:02}"), [0; 8]);
        name[..text.len()].copy_from_slice(text.as_bytes());
        Key {
            kind: DRIVER,
            high: u64::from_be_bytes(name),
            low: 0,
        }
    }
}

/// An entry, on a cache line of its own. Its value is its place.
#[repr(align(64))]
pub struct Node {
    next: Option<Arc<Node>>,
    key: Key,
    value: u64,
}

/// A list that doesn't change any more.
pub struct List {
    newest: Option<Arc<Node>>,
}

impl List {
    /// The list of so many entries.
    pub fn new(entries: usize) -> List {
        let mut newest = None;
        for place in 0..entries {
            newest = Some(Arc::new(Node {
                next: newest,
                key: Key::of(place),
                value: place as u64,
            }));
        }
        List { newest }
    }

    /// The list without its newest entry; the others are shared.
    pub fn shorter(&self) -> List {
        List {
            newest: self.newest.as_ref().and_then(|node| node.next.clone()),
        }
    }

    /// The list with a new entry in the newest one's place; the others are shared.
    pub fn renewed(&self) -> List {
        let newest = self.newest.as_ref().map(|node| {
            Arc::new(Node {
                next: node.next.clone(),
                key: node.key,
                value: node.value,
            })
        });
        List { newest }
    }

    /// The value of the entry with that key.
    #[inline(always)]
    pub fn value(&self, key: &Key) -> Option<u64> {
        let mut at = self.newest.as_deref();
        while let Some(node) = at {
            if node.key == *key {
                return Some(node.value);
            }
            at = node.next.as_deref();
        }
        None
    }
}
