//! How a name chooses its registry of a `Table`, and what a thread's handle remembers of that. The
//! choice is a hash under a secret, and never changes.

use crate::ffi;
use crate::name::Key;
use std::cell::Cell;
use std::collections::hash_map::RandomState;
use std::hash::{BuildHasher, Hasher};

/// The places of a line of the cache.
const WAYS: usize = 4;

/// How many names must miss their line, if it is full, before one of them gets a place.
const PATIENCE: u32 = 8;

/// How a name chooses its registry, and a number says which it is of.
#[derive(Clone)]
pub struct Choice {
    secret: RandomState,
    /// Of a name's product, which finds its place in a memory. Both odd.
    factors: [u64; 2],
    pub registries: usize,
    /// Of each registry.
    pub slots: u8,
    /// What the table was opened for.
    pub entries: u32,
    /// Of a number, which say whose it is.
    bits: u32,
}

fn divided_up(number: u64, by: u64) -> u64 {
    (number + by - 1) / by
}

/// As many registries as there may be, because lists are short then. With m names in each on
/// average, the probability that `Table::attach` bounds is below 10^-12 if m is at least 64, and 2
/// more for each bit of an index.
fn registries_for(entries: u64) -> u64 {
    let least = divided_up(2 * entries, ffi::MOST_SLOTS as u64);
    let fit = |bits: u64| (entries / (64 + 2 * bits)).min(1 << bits);
    (1..32).map(fit).fold(least, u64::max)
}

#[inline]
fn hash_of<const WORDS: usize>(secret: &RandomState, words: [u64; WORDS]) -> u64 {
    let mut hasher = secret.build_hasher();
    words.iter().for_each(|word| hasher.write_u64(*word));
    hasher.finish()
}

impl Choice {
    /// One registry if all entries fit in it. Else there are two slots for each entry.
    pub fn of(entries: u32) -> Choice {
        let all = u64::from(entries);
        let (registries, slots) = if all <= ffi::MOST_SLOTS as u64 {
            (1, all)
        } else {
            let registries = registries_for(all);
            (registries, divided_up(2 * all, registries))
        };
        let secret = RandomState::new();
        Choice {
            factors: [0, 1].map(|word| hash_of(&secret, [word]) | 1),
            secret,
            registries: registries as usize,
            slots: slots as u8,
            entries,
            bits: registries.next_power_of_two().trailing_zeros(),
        }
    }

    /// The index of the name's registry.
    #[inline]
    pub fn index(&self, key: Key) -> usize {
        if self.registries == 1 {
            return 0;
        }
        let hash = hash_of(&self.secret, [key.words.high, key.words.low]);
        (((hash >> 32) * self.registries as u64) >> 32) as usize
    }

    /// The number of an entry in its table, of that in the registry with this index.
    pub fn number(&self, own: u64, index: usize) -> u64 {
        own << self.bits | index as u64
    }

    /// An empty memory, with five places for two entries at least. With one registry there is
    /// nothing to remember, so one line is enough.
    pub fn memory(&self) -> Memory {
        let entries = if self.registries > 1 { u64::from(self.entries) } else { 1 };
        let lines = divided_up(divided_up(5 * entries, 2), WAYS as u64).next_power_of_two();
        Memory {
            factors: self.factors,
            registries: self.registries as u64,
            lines: (0..lines).map(|_| Line::default()).collect(),
            missed: Cell::new(0),
        }
    }
}

/// A name and the index that it chose. It is told from each other name of its line.
#[derive(Clone, Copy)]
struct Place {
    /// The name's low word.
    low: u64,
    /// All bits are set in a vacant place.
    rest: u64,
}

/// Places of a line of the cache.
#[repr(align(64))]
struct Line([Cell<Place>; WAYS]);

impl Default for Line {
    /// All vacant.
    fn default() -> Line {
        let vacant = || Cell::new(Place { low: 0, rest: u64::MAX });
        Line([vacant(), vacant(), vacant(), vacant()])
    }
}

/// Where a name is sought first, and what its place has with the index 0.
///
/// A name's product is the sum of its words' products with the factors. The first bits of the
/// product say which place is the name's own. The others are the first bits of `rest`. The high
/// word's factor is odd, so own place, rest and low word are those of one name alone.
///
/// The last bits of `rest` have the index. In the other places of the line, which are told by the
/// bits in which they differ from the own one, there are `registries` more for each step.
struct Sought {
    line: usize,
    own: usize,
    place: Place,
}

/// What one thread's handle remembers of its table's choice, so that it hashes few names twice.
pub struct Memory {
    factors: [u64; 2],
    registries: u64,
    /// A power of two.
    lines: Box<[Line]>,
    /// Names, while all places of their line were taken.
    missed: Cell<u32>,
}

impl Memory {
    /// The index of the name's registry, which is hashed only if it isn't remembered.
    #[inline(always)]
    pub fn index(&self, choice: &Choice, key: Key) -> usize {
        if self.registries == 1 {
            return 0;
        }
        let index = self.index_at(&self.sought(key), 0);
        if index < self.registries {
            index as usize
        } else {
            self.found_further(choice, key)
        }
    }

    #[inline(always)]
    fn sought(&self, key: Key) -> Sought {
        let ffi::Name { high, low } = key.words;
        let [one, other] = self.factors;
        let product = high.wrapping_mul(one).wrapping_add(low.wrapping_mul(other));
        let both = u128::from(product) * (self.lines.len() * WAYS) as u128;
        let (own, rest) = ((both >> u64::BITS) as usize, both as u64);
        Sought { line: own / WAYS, own: own % WAYS, place: Place { low, rest } }
    }

    #[inline(always)]
    fn place(&self, sought: &Sought, way: usize) -> &Cell<Place> {
        &self.lines[sought.line].0[sought.own ^ way]
    }

    /// The index in a place of the sought name's line, if the place has the name; else a larger
    /// number than any index.
    #[inline(always)]
    fn index_at(&self, sought: &Sought, way: usize) -> u64 {
        let place = self.place(sought, way).get();
        if place.low != sought.place.low {
            return u64::MAX;
        }
        (place.rest ^ sought.place.rest).wrapping_sub(way as u64 * self.registries)
    }

    /// The index of a name that isn't in its own place. It stands apart: it is seldom called.
    #[inline(never)]
    fn found_further(&self, choice: &Choice, key: Key) -> usize {
        let sought = self.sought(key);
        let mut ways = (1..WAYS).map(|way| self.index_at(&sought, way));
        let found = ways.find(|index| *index < self.registries);
        found.map_or_else(|| self.hashed(choice, key, &sought), |index| index as usize)
    }

    /// The index of a name that no place has. It is remembered, if the name's line has a vacant
    /// place, or has missed many names.
    fn hashed(&self, choice: &Choice, key: Key, sought: &Sought) -> usize {
        let index = choice.index(key);
        let Place { low, rest } = sought.place;
        let vacant = (0..WAYS).find(|way| self.place(sought, *way).get().rest == u64::MAX);
        if let Some(way) = vacant.or_else(|| self.is_due().then_some(0)) {
            let rest = rest | (way as u64 * self.registries + index as u64);
            self.place(sought, way).set(Place { low, rest });
        }
        index
    }

    /// Counts a name that misses a full line: whether it gets a place.
    fn is_due(&self) -> bool {
        self.missed.set(self.missed.get().wrapping_add(1));
        self.missed.get() % PATIENCE == 0
    }
}

#[cfg(test)]
mod tests {
    use super::{Choice, Memory, PATIENCE, WAYS};
    use crate::{ffi, Key, Kind};
    use std::collections::hash_map::DefaultHasher;
    use std::hash::Hasher;

    /// As in kupaldiz_table.h.
    #[test]
    fn a_table_has_two_slots_for_each_entry() {
        for (entries, registries, slots, bits) in [
            (1, 1, 1, 0),
            (255, 1, 255, 0),
            (256, 3, 171, 2),
            (1100, 15, 147, 4),
            (10_000, 128, 157, 7),
            (u32::MAX, 37_025_580, 233, 26),
        ] {
            let choice = Choice::of(entries);
            assert_eq!(
                (choice.registries, choice.slots, choice.bits),
                (registries, slots, bits),
                "{entries}"
            );
        }
        let places = [255, 1000, 13_107, 13_108]
            .map(|entries| Choice::of(entries).memory().lines.len() * WAYS);
        assert_eq!(places, [4, 4096, 32_768, 65_536]);
    }

    /// The tests of kupaldiz_table.h rest on it: both choose by SipHash-1-3.
    #[test]
    fn the_standard_hasher_is_that_of_c() {
        let mut hasher = DefaultHasher::new();
        hasher.write_u64(0x0706_0504_0302_0100);
        hasher.write_u64(0x0f0e_0d0c_0b0a_0908);
        assert_eq!(hasher.finish(), 0x8972_1884_33a5_c5b7);
    }

    fn key(high: u64, low: u64) -> Key {
        Key { kind: Kind::Driver, words: ffi::Name { high, low } }
    }

    /// The index that a memory has of a name.
    fn remembered(memory: &Memory, key: Key) -> Option<u64> {
        let sought = memory.sought(key);
        let mut ways = (0..WAYS).map(|way| memory.index_at(&sought, way));
        ways.find(|index| *index < memory.registries)
    }

    /// What makes 1 of an odd number as a factor.
    fn inverse(odd: u64) -> u64 {
        (0..6).fold(odd, |near, _| near.wrapping_mul(2_u64.wrapping_sub(odd.wrapping_mul(near))))
    }

    /// Names of one product, of products that differ a little, also only in which place of a line
    /// is the own one, and with different first bytes.
    fn names_of_near_products(choice: &Choice) -> impl Iterator<Item = Key> {
        let [one, other] = choice.factors;
        let unit = inverse(one);
        assert_eq!(one.wrapping_mul(unit), 1);
        let places = choice.memory().lines.len() * WAYS;
        let next_place = unit << (u64::BITS - places.trailing_zeros());
        let steps = [(unit, 0), (unit << 20, 0), (next_place, 0), (1 << 56, 0)];
        let same = (0_u64.wrapping_sub(other.wrapping_mul(unit)), 1);
        steps.into_iter().chain([same]).flat_map(|(high, low)| {
            (1..40).map(move |step: u64| key(high.wrapping_mul(step), low * step + 1))
        })
    }

    /// Names that differ in one word or in both, many more than places. Each index is that of the
    /// hash, whether it is remembered or not, and by the memory of another choice, too.
    #[test]
    fn what_is_remembered_is_what_the_hash_says() {
        let choices = [Choice::of(600), Choice::of(600)];
        let memories = [choices[0].memory(), choices[1].memory()];
        let names: Vec<Key> = (1..80)
            .flat_map(|one| (0..80).map(move |other| key(one, other)))
            .chain((1..600).map(Key::from))
            .chain(names_of_near_products(&choices[0]))
            .collect();
        let mut found = 0;
        for key in names.iter().chain(&names).chain(names.iter().rev()) {
            for (memory, choice) in memories.iter().zip(&choices) {
                found += usize::from(remembered(memory, *key).is_some());
                assert_eq!(memory.index(choice, *key), choice.index(*key), "{key:?}");
            }
        }
        assert!(found > 1000 && found < 2 * names.len());
    }

    /// A line has its first names, and keeps most of them although others are looked up.
    #[test]
    fn a_line_is_patient() {
        let choice = Choice::of(600);
        let memory = choice.memory();
        let sought = |key: &Key| memory.sought(*key);
        let is_first = |key: &Key| (sought(key).line, sought(key).own) == (0, 0);
        let all = (1..).map(|high| key(high, 1));
        let names: Vec<Key> = all.filter(is_first).take(WAYS + 2).collect();
        names.iter().for_each(|name| assert_eq!(memory.index(&choice, *name), choice.index(*name)));
        let has = |name: &Key| remembered(&memory, *name).is_some();
        assert!(names[..WAYS].iter().all(has) && !names[WAYS..].iter().any(has));
        let again = names.iter().take(WAYS).cycle().take(100);
        again.for_each(|name| assert!(memory.index(&choice, *name) < choice.registries));
        assert_eq!(memory.missed.get(), 2);
        (2..PATIENCE).for_each(|_| assert!(memory.index(&choice, names[WAYS]) < 600));
        assert!(has(&names[WAYS]) && names[..WAYS].iter().filter(|name| has(name)).count() == 3);
    }
}
