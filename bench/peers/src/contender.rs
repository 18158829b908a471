//! What each contender does, and lookups in turn by any of them.

use crate::list::Key;

/// How many lookups a section of a batch has.
const BATCH: u64 = 32;

/// A way to protect lookups in a list that is replaced.
pub trait Contender: Sync {
    /// What a thread has while its section is open.
    type Section<'a>
    where
        Self: 'a;

    /// Enters a section, which ends as the answer is dropped.
    fn enter(&self) -> Self::Section<'_>;

    /// The value of the entry with that key.
    fn find(&self, section: &Self::Section<'_>, key: &Key) -> Option<u64>;

    /// Takes the newest entry out of the list, waits until nobody can have it, and puts it in again.
    fn replace(&self);

    /// Puts a new entry in the newest one's place, and waits until nobody can have the old one.
    fn exchange(&self);

    /// Waits until all open sections have ended, where there is such a call.
    fn perform(&self) -> Option<()>;
}

/// Looks the keys up in turn, each in a section of its own. It returns how many lookups answered the key's place.
pub fn lookups<C: Contender>(contender: &C, keys: &[Key], count: u64) -> u64 {
    let mut right = 0;
    let mut place = 0;
    for _ in 0..count {
        let section = contender.enter();
        let found = contender.find(&section, &keys[place]);
        drop(section);
        right += u64::from(found == Some(place as u64));
        place = if place + 1 < keys.len() { place + 1 } else { 0 };
    }
    right
}

/// The same, with `BATCH` of them in a section.
pub fn batches<C: Contender>(contender: &C, keys: &[Key], count: u64) -> u64 {
    let mut right = 0;
    let mut place = 0;
    let mut left = count;
    while left != 0 {
        let many = left.min(BATCH);
        let section = contender.enter();
        for _ in 0..many {
            let found = contender.find(&section, &keys[place]);
            right += u64::from(found == Some(place as u64));
            place = if place + 1 < keys.len() { place + 1 } else { 0 };
        }
        drop(section);
        left -= many;
    }
    right
}
